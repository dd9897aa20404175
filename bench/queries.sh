#!/bin/sh
# Times the first four queries of `sched_tool make 7 script` over its tables: totals of a filter,
# groups, totals of a join, and rows of two filters. Ours are the stages of `pipe_ops` on one
# thread, each over all of its tuples (an accumulator, `run_range`, `merge`). They are compared with
# the plain loops of queries.cpp. It also times a hash side of 20,000 keys that a new side puts into
# one bucket, against one of keys that look random: a row is added under each key, and each key is
# looked up.
#
# In each round both programs run once, one after the other. Each does every piece of work 20 times
# and keeps its least time, and both must print the same answers. It prints the medians over the
# rounds, in microseconds, and the median of the rounds' ratios. It is no test. It needs a C++
# compiler and the command rt.
#
#   bench/queries.sh [ROUNDS]        15 rounds by default

rounds=${1:-15}
here=$(CDPATH='' cd -- "$(dirname -- "$0")" && pwd)
. "$here/common.sh"

compile queries
copy_crates load_gen pipe_ops report_text
add_crate whole_stages pipe_ops plan_ast report_text
add_crate query_times build_sides load_gen plan_ast report_text whole_stages
program=$(build query_times)

# NAME WORD..: runs a program, and keeps its times as one line and its answers.
keep() {
    name=$1
    shift
    "$@" >"$work/said"
    awk '$1 == "time" { printf "%s ", $3 } END { print "" }' "$work/said" >>"$work/$name.times"
    grep -v '^time ' "$work/said" >"$work/$name.answers"
}

round=0
while [ "$round" -lt "$rounds" ]; do
    keep ours "$program"
    keep plain "$work/queries"
    cmp "$work/ours.answers" "$work/plain.answers"
    round=$((round + 1))
done

# LABEL FILE COLUMN FILE COLUMN: the medians of two columns of nanoseconds, as microseconds, and the
# median of their ratios.
row() {
    awk -v column="$3" '{ print $column }' "$2" >"$work/one"
    awk -v column="$5" '{ print $column }' "$4" | paste -d ' ' "$work/one" - |
        awk '{ print $1 / 1000, $2 / 1000, $1 / $2 }' >"$work/both"
    printf '%-26s %10.1f %10.1f %6.2f\n' "$1" "$(median "$work/both" 1)" \
        "$(median "$work/both" 2)" "$(median "$work/both" 3)"
}

ours=$work/ours.times
plain=$work/plain.times
printf '%-26s %10s %10s %6s\n' query 'ours us' 'plain us' ratio
row 'filter, totals' "$ours" 1 "$plain" 1
row 'groups' "$ours" 2 "$plain" 2
row 'join, totals' "$ours" 3 "$plain" 3
row 'two filters, rows' "$ours" 4 "$plain" 4
printf '%-26s %10s %10s %6s\n' keys 'one us' 'many us' ratio
row 'one bucket, many buckets' "$ours" 6 "$ours" 5
