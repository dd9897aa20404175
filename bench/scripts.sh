#!/bin/sh
# Times `sched_tool check` on hostile scripts of almost 64 MiB, which is the longest script that it
# reads: deep nesting, keys that repeat, a million queries, long texts. The time should grow with
# the bytes alone. For each script it prints the bytes, the median of the CPU seconds, user and
# system, the median of the memory, the status and the first line that it wrote. It is no test. It
# needs /usr/bin/time, and a machine that is otherwise idle.
#
#   bench/scripts.sh [ROUNDS]        5 rounds by default

rounds=${1:-5}
here=$(CDPATH='' cd -- "$(dirname -- "$0")" && pwd)
. "$here/common.sh"
most=67108864

# BEGIN PIECE END: BEGIN, as many PIECEs as a script has room for, and END.
filled() {
    awk -v begin="$1" -v piece="$2" -v end="$3" -v most="$most" 'BEGIN {
        count = int((most - length(begin) - length(end)) / length(piece))
        printf "%s", begin
        block = piece
        size = 1
        while (size * 2 <= 4096) { block = block block; size = size * 2 }
        while (count >= size) { printf "%s", block; count -= size }
        while (count > 0) { printf "%s", piece; count -= 1 }
        printf "%s", end
    }'
}

program=$(built_program)

cd "$work"
none='"tables":[],"queries":[]'
query='{"scan":"t","output":{"totals":[{"fn":"count"}]}}'
filled '' '[' '' >nested
filled '[[]' ',[[[[[[[[]]]]]]]]' ']' >arrays
filled '{"version":1,' '"tables":[],' "$none}" >repeated_keys
filled '{"version":1,"tables":[],' '"key":0,' "$none}" >unknown_keys
filled '{"version":1,"tables":[],"queries":['"$query" ",$query" ']}' >many_queries
filled '{"version":1,"tables":[{"file":"t.csv","name":"' 'n' '"}],"queries":[]}' >long_name
filled '{"version":1,"tables":[{"file":"t.csv","name":"' '\\u0041' '"}],"queries":[]}' >escapes
filled '{"version":' '1' ",$none}" >long_number
filled "{\"version\":1,$none" ' ' '}' >blanks
scripts='nested arrays repeated_keys unknown_keys many_queries long_name escapes long_number blanks'

round=0
while [ "$round" -lt "$rounds" ]; do
    for script in $scripts; do
        ended=0
        /usr/bin/time -o time -f '%U %S %M' "$program" check "$script" >said 2>&1 || ended=$?
        tail -n 1 time | awk '{ print $1 + $2, $3 }' >>"$script.log"
        { printf '%s ' "$ended"; head -n 1 said | cut -c 1-60; } >"$script.end"
    done
    round=$((round + 1))
done

printf '%-14s %10s %8s %10s  %s\n' script bytes s KiB 'status and first line'
for script in $scripts; do
    printf '%-14s %10s %8s %10s  %s\n' "$script" "$(wc -c <"$script")" \
        "$(median "$script.log" 1)" "$(median "$script.log" 2)" "$(cat "$script.end")"
done
