#!/usr/bin/env bash
# Loads a CSV file into a new PostgreSQL table by csvload in one reading: the columns and types that csvload finds, the rows
# and the rejects by COPY.
#
#     postgres.sh FILE TABLE [NAME=VALUE]..
#
# FILE - is standard input. TABLE is written as in SQL: orders, sales.orders, '"Orders 2024"'. Rejects go to reject_scans and
# reject_errors, each load under the next scan_id. Where the load fails nothing of it is left, and the status is csvload's own,
# or else psql's. Further words are csvload's own options. The database is the one that psql finds; CSVLOAD names the program.
# install.sh puts this script into PREFIX/bin as csvload-postgres.
set -euo pipefail
if [ $# -lt 2 ]; then
    sed -n '2,11s/^# \{0,1\}//p' "$0" >&2
    exit 1
fi
file=$1 table=$2
shift 2
csvload=${CSVLOAD:-csvload}
refuse() {
    echo "${0##*/}: $1" >&2
    exit 1
}
awk_bytes() { TABLE=$table SCRIPT=${0##*/} LC_ALL=C awk "$1"; }

if ! awk_bytes 'BEGIN {
    name = "([A-Za-z_\200-\377][A-Za-z0-9_$\200-\377]*|\"([^\"]|\"\")+\")"
    exit ENVIRON["TABLE"] !~ ("^" name "(\\." name ")?$")
}'; then refuse "'$table' is no name of a table as SQL has it"; fi
if ! command -v "$csvload" >/dev/null; then refuse "no program '$csvload' (CSVLOAD names it)"; fi
if ! command -v psql >/dev/null; then refuse "no program 'psql' (PostgreSQL's client)"; fi
# A file named as the program's --help is one all the same.
if [[ $file == -?* ]]; then file=./$file; fi
# The report goes to psql, and to no file.
for word in "$@"; do
    if [[ $word == output=* ]]; then refuse "'$word' is no option here"; fi
done

# What the report shows with backslashes and bars is COPY's text format with the delimiter |, and its \N is COPY's null. Only a
# report that is whole, and so ends with the number of errors, is committed.
"$csvload" load "$file" store_rejects=true "$@" | awk_bytes '
    function name_of(line, column,   parts, count, i, name) {
        sub(/^column\|[0-9]*\|[A-Z]*\|/, "", line)
        count = split(line, parts, /\\\\/)
        for (i = 1; i <= count; i++) {
            gsub(/\\\|/, "|", parts[i]); gsub(/\\n/, "\n", parts[i]); gsub(/\\r/, "\r", parts[i]); gsub(/\\t/, "\t", parts[i])
            name = name (i > 1 ? "\\" : "") parts[i]
        }
        name = free_name(name, column)
        gsub(/"/, "\"\"", name)
        return "\"" name "\""
    }
    # The first bytes of a name, as many as PostgreSQL keeps at most and no part of a character.
    function clipped(name, most) {
        if (length(name) <= most) return name
        while (substr(name, most + 1, 1) ~ more) most--
        return substr(name, 1, most)
    }
    # PostgreSQL keeps 63 bytes of a name: one that it would take for one before it gets a suffix, and that is told.
    function free_name(name, column,   kept, number, suffix) {
        kept = clipped(name, 63)
        while (kept in taken) {
            number++
            suffix = "_" number
            kept = clipped(name, 63 - length(suffix)) suffix
        }
        taken[kept] = 1
        if (!number) return name
        print ENVIRON["SCRIPT"] ": column " column " gets the suffix " suffix ": an earlier name has the same first bytes" > "/dev/stderr"
        return kept
    }
    # PostgreSQL keeps no text that is not UTF-8: bytes that are not are shown in hexadecimal.
    function readable(line,   shown) {
        while (line != "") {
            if (match(line, valid)) shown = shown substr(line, 1, RLENGTH)
            else { RLENGTH = 1; shown = shown hex[substr(line, 1, 1)] }
            line = substr(line, RLENGTH + 1)
        }
        return shown
    }
    function begin_copy(into) {
        if (open == into) return
        end_copy()
        print "COPY " into " FROM STDIN (DELIMITER \047|\047);"
        open = into
    }
    function end_copy() { if (open != "") print "\\."; open = "" }
    function make_table() {
        if (columns != "") print "CREATE TABLE " table " (" columns ");"
        columns = ""
    }
    BEGIN {
        FS = "|"
        table = ENVIRON["TABLE"]
        type["BIGINT"] = "bigint"; type["BOOLEAN"] = "boolean"; type["DATE"] = "date"
        type["TIME"] = "time"; type["TIMESTAMP"] = "timestamp"; type["VARCHAR"] = "text"
        for (i = 128; i < 256; i++) hex[sprintf("%c", i)] = sprintf("\\\\x%02x", i)
        more = "[\200-\277]"
        valid = "^([\001-\177]|[\302-\337]" more "|(\340[\240-\277]|[\341-\354\356\357]" more "|\355[\200-\237])" more \
            "|(\360[\220-\277]|[\361-\363]" more "|\364[\200-\217])" more more ")+"
        scans = "(scan_id bigint, file_id bigint, file_path text, delimiter text, quote text, escape text," \
            " newline_delimiter text, skip_rows bigint, has_header boolean, columns bigint)"
        errors = "(scan_id bigint, file_id bigint, line bigint, line_byte_position bigint, byte_position bigint," \
            " column_idx bigint, column_name text, error_type text, csv_line text, error_message text)"
        print "SET client_encoding = \047UTF8\047; SET client_min_messages = warning; BEGIN;"
        print "CREATE TABLE IF NOT EXISTS reject_scans " scans "; CREATE TABLE IF NOT EXISTS reject_errors " errors ";"
        print "CREATE TEMP TABLE csvload_scans " scans "; CREATE TEMP TABLE csvload_errors " errors ";"
        # A name that is too long is cut, and psql says so.
        print "RESET client_min_messages;"
    }
    /^row\|/ { make_table(); begin_copy(table); print substr($0, 5); next }
    /^error\|/ { begin_copy("csvload_errors"); print readable(substr($0, 7)); next }
    $1 == "column" { columns = columns (columns == "" ? "" : ", ") name_of($0, $2 + 1) " " type[$3] }
    $1 == "rows" { make_table() }
    $1 == "scan" { begin_copy("csvload_scans"); print substr($0, 6) }
    $1 == "errors" {
        end_copy()
        print "LOCK TABLE reject_scans IN SHARE ROW EXCLUSIVE MODE;"
        print "SELECT coalesce(max(scan_id) + 1, 0) AS scan FROM reject_scans \\gset"
        print "UPDATE csvload_scans SET scan_id = :scan; INSERT INTO reject_scans SELECT * FROM csvload_scans;"
        print "UPDATE csvload_errors SET scan_id = :scan; INSERT INTO reject_errors SELECT * FROM csvload_errors;"
        print "COMMIT;"
    }' | psql -X -q -v ON_ERROR_STOP=1 -f -
