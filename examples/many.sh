#!/usr/bin/env bash
# Converts all CSV files of a folder by csvload, several at a time, on this machine or on many, and gathers their rejects.
#
#     many.sh FOLDER INTO [NAME=VALUE]..
#
# Of each FOLDER/NAME.csv or NAME.CSV comes INTO/NAME.csv, with to=sqlite INTO/NAME.db, or with to=npz INTO/NAME.npz, read as
# `csvload batch` reads it: under what is found in the first file, by the order of the names. Faulty rows are left out and stand in
# INTO/rejects.csv, the file's name before each. A result stands in INTO only when it is whole: what failed is named at the end, with
# status 1, and the next call does that and what is newer than its result; of another FOLDER, under other words, or where other ones
# fit the first file, it does all anew. With status 2 nothing was begun, and no file that was there is touched.
# Further words are csvload's own options. Options of GNU parallel, as --jobs 4 or --sshlogin one,other, stand in the variable
# PARALLEL; other machines must see both folders under the same names. CSVLOAD names the program.
set -euo pipefail
if [ $# -lt 2 ]; then
    sed -n '2,13s/^# \{0,1\}//p' "$0" >&2
    exit 2
fi
csvload=${CSVLOAD:-csvload}

refuse() {
    echo "${0##*/}: $1" >&2
    exit 2
}
if [ ! -d "$1" ]; then refuse "'$1' is no folder"; fi
if [ "$1" -ef "$2" ]; then refuse "'$1' and '$2' are one folder: the results want another"; fi
if ! command -v "$csvload" >/dev/null; then refuse "no program '$csvload' (CSVLOAD names it)"; fi
# Another program has this name too.
if [[ $(parallel --version 2>/dev/null) != 'GNU parallel'* ]]; then refuse "no program 'parallel' (GNU parallel)"; fi
# A name is no option, and none that CDPATH leads elsewhere.
source=$1 target=$2
if [[ $source != /* ]]; then source=./$source; fi
if [[ $target != /* ]]; then target=./$target; fi
folder=$(cd "$source" && pwd)
shift 2
ending=csv

# Whether a word gives an option of one of these names.
gives() {
    local word=$1 name
    shift
    for name in "$@"; do
        if [[ $word == "$name="* ]]; then return 0; fi
    done
    return 1
}

reading=(ignore_errors=true) writing=()
for word in "$@"; do
    if gives "$word" output explain; then refuse "'$word' is no option here"; fi
    if gives "$word" to table; then writing+=("$word"); else reading+=("$word"); fi
    case $word in to=sqlite) ending=db ;; to=npz) ending=npz ;; esac
done

# By the bytes of the names, whatever the locale.
mapfile -d '' files < <(LC_ALL=C && shopt -s nullglob && printf '%s\0' "$folder"/*.[cC][sS][vV])
if [ -z "${files[0]}" ]; then refuse "'$folder' has no file NAME.csv or NAME.CSV"; fi
# Whether each result has a name of its own.
declare -A file_of
results=()
for file in "${files[@]}"; do
    result=/${file##*/}
    result=${result%.*}.$ending
    if [ "$result" = /rejects.csv ]; then
        refuse "'$file' would have the name of the gathered rejects: rename it, or use to=sqlite"
    fi
    if [ -n "${file_of[$result]-}" ]; then refuse "'${file_of[$result]}' and '$file' would have one result: rename one"; fi
    file_of[$result]=$file
    results+=("$result")
done

# The words that fix what was found in the first file stand in one line, cut at bars, and shown with backslashes.
said=$(mktemp)
trap 'rm -f "$said"' EXIT
explained=$("$csvload" sniff "${files[0]}" explain=true "${reading[@]}" 2>"$said") || true
# The command to paste is for a person who asks; all else that is said is said here too.
grep -v '^csvload: csvload load ' "$said" >&2 || true
found=()
while IFS= read -r word; do
    found+=("$(printf %b "$word")")
done < <(LC_ALL=C awk '/^words\|/ {
    for (rest = substr($0, 7) "|"; rest != ""; rest = substr(rest, length(part) + 1)) {
        match(rest, /^(\\.|[^\\|])*/)
        part = substr(rest, 1, RLENGTH)
        if (substr(rest, RLENGTH + 1, 1) == "|") { word = part; gsub(/\\\|/, "|", word); print word; part = part "|" }
    }
}' <<< "$explained")
if [ ${#found[@]} -eq 0 ]; then refuse "'${files[0]}' can't be read"; fi
# They have no types where some are given by name, or all columns are texts: those of the first file's columns stand for them.
if ! printf '%s\n' "${found[@]}" | grep -q '^types='; then
    found+=("types=$(awk -F'|' '/^column\|/ { printf "%s%s", comma, $3; comma = "," }' <<< "$explained")")
fi
words=("${found[@]}")
for word in "${reading[@]}"; do
    if ! gives "$word" "${found[@]%%=*}" sep delimiter dtypes column_types all_varchar; then words+=("$word"); fi
done
# Words that are refused are so before a result is taken away; of an empty input nothing else is asked.
status=0
"$csvload" convert - "${words[@]}" ${writing[@]+"${writing[@]}"} < /dev/null > /dev/null 2>"$said" || status=$?
if [ "$status" -eq 1 ]; then
    cat "$said" >&2
    exit 2
fi

# What is there and was made by no call is somebody's file.
for result in "${results[@]}" /rejects.csv; do
    if [ -e "$target$result" ] && [ ! -e "$target/.rejects/words" ]; then
        refuse "'$target$result' is there, and no result of this script: name another folder"
    fi
done
mkdir -p "$target/.rejects" || exit 2
into=$(cd "$target" && pwd)
exec {lock}> "$into/.rejects/lock"
if command -v flock >/dev/null && ! flock -n "$lock"; then refuse "another call is at work in '$target'"; fi
# What the results were made of and with stands beside them, but for the words that change no result.
made_with=$(printf '%q ' "$folder")
for word in "${words[@]}" ${writing[@]+"${writing[@]}"}; do
    if ! gives "$word" threads range_size pipeline; then made_with+=$(printf '%q ' "$word"); fi
done
kept=
if [ -e "$into/.rejects/words" ]; then kept=$(<"$into/.rejects/words"); fi
todo=()
for file in "${files[@]}"; do
    result=$into/${file##*/}
    result=${result%.*}.$ending
    if [ "$kept" != "$made_with" ] || [ ! -e "$result" ] || [ "$file" -nt "$result" ]; then
        rm -f "$result"
        todo+=("$file")
    fi
done
printf '%s\n' "$made_with" > "$into/.rejects/words"

# The rejects come first, so that a file whose result is there has them.
program=$(printf %q "$csvload")
reads=$(printf '%q ' "${words[@]}")
writes=
if [ ${#writing[@]} -gt 0 ]; then writes=$(printf '%q ' "${writing[@]}"); fi
rejects=$(printf %q "$into/.rejects")/{/.}.csv
result=$(printf %q "$into")/{/.}.$ending
job="$program rejects {} $reads > $rejects && $program convert {} $reads $writes > $result.part && mv $result.part $result || { rm -f $result.part; false; }"
if [ ${#todo[@]} -gt 0 ]; then
    printf '%s\0' "${todo[@]}" | parallel --will-cite --null "$job" || true
fi

status=0
: > "$into/rejects.csv.part"
for file in "${files[@]}"; do
    name=${file##*/}
    if [ ! -e "$into/${name%.*}.$ending" ]; then
        echo "${0##*/}: '$file' failed" >&2
        status=1
        continue
    fi
    # A line end inside quotes ends no record: behind it the quotes so far are odd.
    NAME=$name LC_ALL=C awk -v first="$([ -s "$into/rejects.csv.part" ] || echo yes)" '
        BEGIN { name = ENVIRON["NAME"]; if (name ~ /[",\r\n]/) { gsub(/"/, "\"\"", name); name = "\"" name "\"" } }
        NR == 1 { if (first) print "file," $0; next }
        { print (open ? "" : name ",") $0; if (gsub(/"/, "&") % 2) open = !open }' "$into/.rejects/${name%.*}.csv" >> "$into/rejects.csv.part"
done
mv "$into/rejects.csv.part" "$into/rejects.csv"
exit $status
