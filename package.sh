#!/bin/sh
# Makes the proved build of csvload, and of it out/csvload_VERSION_amd64.deb and out/csvload-VERSION-linux-amd64.tar.gz.
#
#     package.sh [GATE]            proves and builds first, as install.sh does
#     package.sh --built [GATE]    takes the program that stands in crates/csvload/out, and proves nothing
#
# GATE is what .ci/run printed: its line of passed and failed goes into the file PROVED. Of one commit, toolchain and line the
# packages have the same bytes. A checkout with changes is refused; without dpkg-deb only the tar is made, with status 1.
set -eu
umask 022
export LC_ALL=C
refuse() {
    echo "package.sh: $1" >&2
    exit 1
}
clean() {
    changes=$(git status --porcelain --untracked-files=normal) || refuse "this is no checkout"
    if [ -n "$changes" ]; then refuse "the checkout has changes that aren't committed"; fi
}

shown='program: proved and built by rt run'
built=
if [ "${1-}" = --built ]; then
    built=yes
    shown='program: as it stood in crates/csvload/out'
    shift
fi
case $#${1-} in
    0 | 1[!-]*) ;;
    *)
        sed -n '4,5s/^#  *//p' "$0" >&2
        exit 1
        ;;
esac
gate='gate: not shown'
if [ $# -gt 0 ]; then
    gate=$(grep -x '[0-9]* passed, 0 failed' -- "$1" | tail -n 1)
    if [ -z "$gate" ]; then refuse "no line 'N passed, 0 failed' in '$1'"; fi
    gate="gate: $gate"
fi
CDPATH='' cd "$(dirname "$0")"
for tool in git rt strip gzip tar; do
    if ! command -v "$tool" >/dev/null; then refuse "no program '$tool'"; fi
done
clean
if [ -z "$built" ]; then
    (cd crates/csvload && rt run -- --version >/dev/null)
    clean
fi
program=crates/csvload/out/csvload
if [ ! -x "$program" ]; then refuse "no program at $program"; fi
version=$("$program" version)
version=${version#csvload }
SOURCE_DATE_EPOCH=$(git log -1 --format=%ct)
export SOURCE_DATE_EPOCH
made=$(mktemp -d)
trap 'rm -rf "$made"' EXIT
trap 'exit 1' HUP INT TERM

# The tree of the tar is what install.sh puts below PREFIX, with install.sh and the Python package beside it.
tree=$made/csvload-$version
put() {
    install -D -m "${3-644}" "$1" "$tree/$2"
}
# Packed without a name and a time.
pack() {
    put "$1" "$2"
    gzip -9n <"$1" >"$tree/$2"
}
documents=share/doc/csvload
put "$program" bin/csvload 755
strip "$tree/bin/csvload"
put examples/postgres.sh bin/csvload-postgres 755
put examples/many.sh bin/csvload-many 755
pack docs/csvload.1 share/man/man1/csvload.1.gz
put completions/csvload.bash share/bash-completion/completions/csvload
put completions/_csvload share/zsh/site-functions/_csvload
put docs/FORMAT.md $documents/FORMAT.md
put docs/PROMISES.md $documents/PROMISES.md
pack CHANGELOG.md $documents/changelog.gz
put LICENSE $documents/copyright
for file in $(git ls-files examples); do
    put "$file" "$documents/$file" "$([ -x "$file" ] && echo 755 || echo 644)"
done
commit=$(git rev-parse HEAD)
toolchain=$(rt version)
printf '%s\n' "commit: $commit" "toolchain: $toolchain" "$shown" "$gate" >"$tree/$documents/PROVED"
put install.sh install.sh 755
for file in $(git ls-files python); do
    put "$file" "$file"
done

# All that goes into a package has the time of the commit.
dated() {
    find "$1" -exec touch -h -d "@$SOURCE_DATE_EPOCH" {} +
}
mkdir -p out
dated "$tree"
tar -C "$made" --format=ustar --sort=name --owner=root:0 --group=root:0 -cf "$made/tar" "csvload-$version"
tar=out/csvload-$version-linux-amd64.tar.gz
gzip -9n <"$made/tar" >"$tar.new"
mv -f "$tar.new" "$tar"
echo "$tar"

if ! command -v dpkg-deb >/dev/null; then refuse "no program 'dpkg-deb': only the tar is made"; fi
deb=$made/deb
mkdir -p "$deb/DEBIAN" "$deb/usr/lib/python3/dist-packages"
mv "$tree/bin" "$tree/share" "$deb/usr"
# Where Debian's zsh and Python look.
mv "$deb/usr/share/zsh/site-functions" "$deb/usr/share/zsh/vendor-completions"
mv "$tree/python/csvload" "$deb/usr/lib/python3/dist-packages"
# The oldest C library that has what the program asks for.
libc=$(grep -ao 'GLIBC_[0-9.]*[0-9]' "$deb/usr/bin/csvload" | sort -Vu | tail -n 1)
size=$(find "$deb/usr" -type f -printf '%s\n' | awk '{ size += int(($1 + 1023) / 1024) } END { print size }')
cat >"$deb/DEBIAN/control" <<CONTROL
Package: csvload
Version: $version
Architecture: amd64
Maintainer: $(git log -1 --format='%an <%ae>')
Installed-Size: $size
Depends: libc6 (>= ${libc#GLIBC_})
Suggests: sqlite3, postgresql-client, parallel, python3, python3-pandas, python3-distributed
Section: utils
Priority: optional
Description: loads CSV into typed columns, and tells which rows it refused
 Finds delimiter, quotes, header, names and types of a CSV file, and prints its
 rows, what they come to, or an SQLite database. Each refused row is reported
 with its line, its bytes, its column and the reason. What is printed is proved
 to be what one plain pass over the file gives.
CONTROL
(cd "$deb" && find usr -type f | sort | xargs md5sum >DEBIAN/md5sums)
# What Python keeps beside its modules goes with them.
cat >"$deb/DEBIAN/prerm" <<'PRERM'
#!/bin/sh
set -e
rm -rf "$DPKG_ROOT/usr/lib/python3/dist-packages/csvload/__pycache__"
PRERM
chmod 755 "$deb/DEBIAN/prerm"
dated "$deb"
package=out/csvload_${version}_amd64.deb
dpkg-deb --root-owner-group -Zxz --build "$deb" "$package.new" >/dev/null
mv -f "$package.new" "$package"
echo "$package"
