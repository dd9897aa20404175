#!/bin/sh
# Times `sched_tool check`, which here mostly loads a table, against the plain loader of load.cpp,
# and `sched_tool make 7 t`, which draws and writes a table, against the plain program of make.cpp.
# In each round every program runs once on every input, and 50 times on `make`, which takes a few
# milliseconds, less than the clock of /usr/bin/time shows. It prints the medians of the CPU
# seconds, user and system, with their ratio, and the median of the memory. It is no test. It needs
# a C++ compiler and /usr/bin/time, and a machine that is otherwise idle.
#
#   bench/run.sh [ROUNDS]        15 rounds by default

rounds=${1:-15}
here=$(CDPATH='' cd -- "$(dirname -- "$0")" && pwd)
. "$here/common.sh"

# ROWS COLUMNS BOUND: a table of numbers below BOUND, each drawn from the one before it; the first
# draw is fixed.
table() {
    awk -v rows="$1" -v columns="$2" -v bound="$3" 'BEGIN {
        draw = 20211
        for (column = 0; column < columns; column++) printf "%sc%d", column ? "," : "", column
        print ""
        for (row = 0; row < rows; row++) {
            for (column = 0; column < columns; column++) {
                draw = (draw * 16807) % 2147483647
                printf "%s%d", column ? "," : "", draw % bound
            }
            print ""
        }
    }'
}

# The script that sums the first column of a table in this file.
script() {
    printf '{"version":1,"tables":[{"name":"t","file":"%s"}],' "$1"
    printf '"queries":[{"scan":"t","output":{"totals":[{"fn":"sum","col":"c0"}]}}]}\n'
}

# FILE WORD..: runs a command, and adds its CPU seconds and its memory in KiB to a file.
timed() {
    log=$1
    shift
    /usr/bin/time -o "$work/time" -f '%U %S %M' "$@" >"$work/said"
    awk '{ print $1 + $2, $3 }' "$work/time" >>"$log"
}

# WORD..: runs a command 50 times, as one command of `timed`.
fifty='n=0; while [ "$n" -lt 50 ]; do "$@"; n=$((n + 1)); done'

compile load
compile make

program=$(built_program)

inputs='1048576x3 1048576x8'
made=make-7-t-x50
for input in $inputs; do
    table "${input%x*}" "${input#*x}" 100000 >"$work/$input.csv"
    script "$input.csv" >"$work/$input.json"
done

cd "$work"
round=0
while [ "$round" -lt "$rounds" ]; do
    for input in $inputs; do
        timed "$input.ours" "$program" check "$input.json"
        timed "$input.plain" ./load "$input.csv"
    done
    timed "$made.ours" sh -c "$fifty" sh "$program" make 7 t
    timed "$made.plain" sh -c "$fifty" sh ./make 7
    round=$((round + 1))
done

printf '%-12s %10s %10s %6s %12s %12s\n' input 'ours s' 'plain s' ratio 'ours KiB' 'plain KiB'
for input in $inputs $made; do
    ours=$(median "$input.ours" 1)
    plain=$(median "$input.plain" 1)
    ratio=$(awk -v a="$ours" -v b="$plain" 'BEGIN { printf "%.2f", b ? a / b : 0 }')
    printf '%-12s %10s %10s %6s %12s %12s\n' "$input" "$ours" "$plain" "$ratio" \
        "$(median "$input.ours" 2)" "$(median "$input.plain" 2)"
done
