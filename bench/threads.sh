#!/bin/sh
# Times runs by threads (`run`) of the large input of `make 7`, over 128 slots, with the 200,000
# rows that it has and with 1,048,576, which repeat these. A run is held against two other ways to
# answer the same 40 queries: their work alone, by the stages of `pipe_ops`, each over all of its
# tuples, one query after another on one thread; and the plain C++ threads of threads.cpp, which
# must give the answers of `check`.
#
# In each round two programs run one after the other. The first is thread_times, the program itself
# with another main file. It times the work and a run by 1, 2, 4, 8 and 64 workers, over the same
# tables, so that no reading counts. The other is threads.cpp by 1, 2, 4 and 8 threads. Each does so
# five times. For each number of workers the script prints the median time of a run, in
# milliseconds, and the medians of these: its ratio to the work of the same round, how many times as
# fast as one worker it was, the time of the plain threads, the ratio to it, and the morsels of the
# run.
#
# Then it prints, for 1, 4 and 64 workers, how often a run yielded because its worker was idle (by
# strace), and which share of all samples (by perf), or of all instructions (by valgrind), was in
# the scheduler's own code, as far as there are these commands. That code is the crates named below,
# and what the compiler put into the threads. It is no test. It needs the command rt, a C++
# compiler, and a machine that is otherwise idle.
#
#   bench/threads.sh [ROUNDS]        10 rounds by default

rounds=${1:-10}
here=$(CDPATH='' cd -- "$(dirname -- "$0")" && pwd)
. "$here/common.sh"

all_rows='200000 1048576'
own='worker_machine|pool_run|board_[a-z]*|slot_[a-z]*|bench_cell|stride_set|prio_decay|morsel_size'
own="$own|atomic_table|crossbeam_utils|backoff|.*thread.*"

compile threads
program=$(built_program)
copy_crates sched_tool
add_crate whole_stages pipe_ops plan_ast report_text
sed -i 's/^sched_tool[ :].*/& whole_stages/' "$work/crates.txt"
cp "$here/thread_times/main.rt.txt" "$work/crates/sched_tool/src/main.rt"
open_modules plan request subject threads
sed -i 's/^fn run_plan/pub fn run_plan/' "$work/crates/sched_tool/src/program/threads.rt"
times=$(build sched_tool)
cd "$work"

# ROWS: makes the table and the script of so many rows, and holds the plain answers against `check`.
make_input() {
    mkdir "$1"
    "$program" make 7 script >"$1/s.json"
    "$program" make 7 u >"$1/u.csv"
    "$program" make 7 t >t.csv
    head -n 1 t.csv >"$1/t.csv"
    while [ "$(wc -l <"$1/t.csv")" -le "$1" ]; do
        tail -n +2 t.csv | head -n $(($1 + 1 - $(wc -l <"$1/t.csv"))) >>"$1/t.csv"
    done
    (cd "$1" && "$program" check s.json) >ours
    ./threads "$1" >plain
    cmp ours plain
}

# ROWS: a round, as lines with the work, each run with its morsels, and each of the plain threads.
time_round() {
    (cd "$1" && "$times" s.json 5 0 1 2 4 8 64) >ours
    ./threads "$1" 5 1 2 4 8 >plain
    paste -d ' ' ours plain >>"$1/rows"
}

# ROWS WORKERS RUN PLAIN: a line of the table. RUN and PLAIN are columns of the rounds, and the next
# one after RUN has the morsels; PLAIN is 0 if there are no such threads.
row() {
    awk -v run="$3" -v plain="$4" '{
        printf "%.2f %.3f %.2f %d", $run / 1000000, $run / $1, $2 / $run, $(run + 1)
        if (plain) printf " %.2f %.3f", $plain / 1000000, $run / $plain
        print ""
    }' "$1/rows" >medians
    beside='- -'
    [ "$4" -eq 0 ] || beside="$(median medians 5) $(median medians 6)"
    printf "$format" "$1" "$2" "$(median medians 1)" "$(median medians 2)" "$(median medians 3)" \
        $beside "$(median medians 4)"
}

# ROWS WORKERS: how often a run yielded.
yields() {
    command -v strace >/dev/null || { echo -; return; }
    (cd "$1" && strace -f -c -e trace=sched_yield -o counts "$program" run s.json --workers "$2") \
        >/dev/null
    awk '$NF == "sched_yield" { count = $4 } END { print count + 0 }' "$1/counts"
}

# ROUNDS WORKERS: the functions of a process that makes so many runs, each with its samples before
# it, or its instructions.
functions() {
    if command -v perf >/dev/null; then
        perf record -q -e cpu-clock -F 2000 -o samples "$times" s.json "$1" "$2" >/dev/null 2>&1
        perf report -q -i samples --stdio -F sample,symbol 2>/dev/null | sed 's/ \[.\]//'
    elif command -v valgrind >/dev/null; then
        valgrind -q --tool=callgrind --callgrind-out-file=calls "$times" s.json "$1" "$2" >/dev/null
        callgrind_annotate --threshold=100 calls |
            sed -n 's/^ *\([0-9][0-9,]*\) *([^)]*) *[^ :]*:/\1 /p' | tr -d ,
    fi
}

# ROWS WORKERS: the share of the scheduler's own code in the runs of a process, in percent. The runs
# are so many that reading the input takes little beside them.
own_share() {
    (cd "$1" && functions $((20000000 / $1)) "$2") | awk -v own="^($own)(::|\$)" '
        $1 > 0 { all += $1; if ($2 ~ own) part += $1 }
        END { print all ? sprintf("%.2f", 100 * part / all) : "-" }'
}

for rows in $all_rows; do
    make_input "$rows"
done
round=0
while [ "$round" -lt "$rounds" ]; do
    for rows in $all_rows; do
        time_round "$rows"
    done
    round=$((round + 1))
done

format='%8s %8s %8s %9s %9s %9s %10s %8s\n'
printf "$format" rows workers 'run ms' 'run/work' 'one/run' 'plain ms' 'run/plain' morsels
for rows in $all_rows; do
    row "$rows" 1 2 12
    row "$rows" 2 4 13
    row "$rows" 4 6 14
    row "$rows" 8 8 15
    row "$rows" 64 10 0
done
format='%8s %8s %8s %9s\n'
printf "$format" rows workers yields 'own %'
for rows in $all_rows; do
    for workers in 1 4 64; do
        printf "$format" "$rows" "$workers" "$(yields "$rows" "$workers")" \
            "$(own_share "$rows" "$workers")"
    done
done
