#!/bin/sh
# Times the run of the large input of `make 7` by 8 workers, against its query work alone: the
# stages of the same 40 queries by `pipe_ops`, each over all of its tuples (an accumulator,
# `run_range`, `merge`), one query after another on one thread. The difference is what scheduling
# costs. Both are timed 20 times in turn by one program, run_times, over the same tables, so that no
# reading counts. It is the program itself with another main file.
#
# In each round, one after the other: run_times once, `turns` with 8 workers on the three parts of
# `make 7`, `check` of the same tables without a query, and `make 7`, each ten times. It prints the
# median times of a run and of the work over all rounds, in milliseconds, and the median of their
# ratios; then the medians of the whole times of `turns` and of `make 7`, which makes and runs the
# same, in CPU time, user and system; and how much more memory `turns` needs than `check` does. It is
# no test. It needs the command rt and /usr/bin/time.
#
#   bench/turns.sh [ROUNDS]        15 rounds by default

rounds=${1:-15}
here=$(CDPATH='' cd -- "$(dirname -- "$0")" && pwd)
. "$here/common.sh"
program=$(built_program)

copy_crates sched_tool
add_crate whole_stages pipe_ops plan_ast report_text
cp "$here/run_times/main.rt.txt" "$work/crates/sched_tool/src/main.rt"
open_modules reports request summary
sed -i 's/^fn generated_plan/pub fn generated_plan/' \
    "$work/crates/sched_tool/src/program/summary.rt"
sed -i 's/^fn run_plan/pub fn run_plan/' "$work/crates/sched_tool/src/program/reports.rt"
sed -i 's/^sched_tool[ :].*/& whole_stages/' "$work/crates.txt"
times=$(build sched_tool)

cd "$work"
"$program" make 7 script >s.json
"$program" make 7 t >t.csv
"$program" make 7 u >u.csv
sed 's/"queries":\[.*\],"tables"/"queries":[],"tables"/' s.json >none.json

# LOG WORD..: runs a command ten times, and adds its CPU milliseconds and its KiB to a file.
ten='n=0; while [ "$n" -lt 10 ]; do "$@" >/dev/null; n=$((n + 1)); done'
timed() {
    log=$1
    shift
    /usr/bin/time -o time -f '%U %S %M' sh -c "$ten" sh "$@"
    awk '{ print ($1 + $2) * 100, $3 }' time >>"$log"
}

round=0
while [ "$round" -lt "$rounds" ]; do
    "$times" | awk '{ print $1 / 1000000, $2 / 1000000, $1 / $2 }' >>rows
    timed turns "$program" turns s.json --workers 8
    timed check "$program" check none.json
    timed make "$program" make 7
    round=$((round + 1))
done

paste -d ' ' turns check | awk '{ print $2 - $4 }' >beyond
format='%10s %10s %6s %10s %10s %12s\n'
printf "$format" 'run ms' 'work ms' ratio 'turns ms' 'make ms' 'beyond KiB'
printf "$format" "$(median rows 1)" "$(median rows 2)" "$(median rows 3)" "$(median turns 1)" \
    "$(median make 1)" "$(median beyond 1)"
