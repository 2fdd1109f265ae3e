#!/bin/sh
# Makes the proved build of csvload, and installs it with its man page, rules, completions, and the scripts that fill a PostgreSQL
# table and convert a folder of files. In an unpacked package the program is made, and only copied.
#
#     install.sh               into ~/.local
#     PREFIX=DIR install.sh    into DIR
#
# The proofs are made first, which takes long where nothing is kept. Where a copy fails, the files that were there stay as they are.
set -eu
prefix=${PREFIX:-$HOME/.local}
case $prefix in
    /*) ;;
    *) prefix=$PWD/$prefix ;;
esac
CDPATH='' cd "$(dirname "$0")"
case ${1-} in
    '') ;;
    --quick)
        echo "install.sh: only a proved program is installed; README.md has the quick look" >&2
        exit 1
        ;;
    *)
        sed -n '2,8s/^# \{0,1\}//p' install.sh >&2
        exit 1
        ;;
esac

# Each file with the place below PREFIX that it goes to.
if [ -e bin/csvload ]; then
    files=$(find bin share -type f | sed 's/.*/&:&/')
else
    if ! command -v rt >/dev/null; then
        echo "install.sh: no program 'rt', which is Rattle's toolchain; a package needs none" >&2
        exit 1
    fi
    (cd crates/csvload && rt run -- --version >/dev/null)
    files='crates/csvload/out/csvload:bin/csvload
        examples/postgres.sh:bin/csvload-postgres
        examples/many.sh:bin/csvload-many
        docs/csvload.1:share/man/man1/csvload.1
        docs/FORMAT.md:share/doc/csvload/FORMAT.md
        completions/csvload.bash:share/bash-completion/completions/csvload
        completions/_csvload:share/zsh/site-functions/_csvload'
fi

each() {
    for file in $files; do
        "$1" "${file%:*}" "${file#*:}"
    done
}
copy() {
    case $2 in
        bin/*) mode=755 ;;
        *) mode=644 ;;
    esac
    mkdir -p "$(dirname "$prefix/$2")"
    install -m "$mode" "$1" "$prefix/$2.new"
}
rename() {
    mv -f "$prefix/$2.new" "$prefix/$2"
    echo "$prefix/$2"
}
remove() {
    rm -f "$prefix/$2.new"
}

# All is copied beside what is there before the first file is renamed.
trap 'each remove' EXIT
trap 'exit 1' HUP INT TERM
each copy
each rename
case :$PATH: in
    *:"$prefix/bin":*) ;;
    *) echo "install.sh: '$prefix/bin' isn't in PATH: export PATH=\"$prefix/bin:\$PATH\"" >&2 ;;
esac
