#!/bin/sh
# Refuses each allocation of `sched_tool turns` in turn: for a script of groups, and for one of two
# queries. Each run must end with 0 and the text of an undisturbed run, or with 7 and the line that
# says so, or with 7 and a whole report: in it a query ran out of memory, and every other query has
# the answer of the undisturbed run. For each script it
# prints how many allocations there are, and how many runs ended in each way. It needs a C compiler,
# and a C library that lets a program's allocations be replaced (LD_PRELOAD).
#
#   bench/memory.sh

here=$(CDPATH='' cd -- "$(dirname -- "$0")" && pwd)
. "$here/common.sh"
program=$(built_program)
"${CC:-cc}" -O1 -shared -fPIC -o "$work/refuse.so" "$here/refuse.c"

# NUMBER: runs `turns` on the script, with the allocation of this number refused.
run_without() {
    status=0
    REFUSE=$1 COUNTED=counted LD_PRELOAD=./refuse.so "$program" turns s.json --workers 1 \
        >said || status=$?
}

# How the run ended.
ending() {
    case $status in
    0) cmp -s said whole && echo answered && return ;;
    7)
        [ "$(cat said)" = 'error: out of memory' ] && echo line && return
        is_report && echo report && return
        ;;
    esac
    echo other
}

# FILE: the answers part of a report, one line for each query.
answers() {
    awk '/^shares$/ { exit } /^query / { printf "%s", sep; sep = "\n" } { printf "%s|", $0 }' "$1"
    echo
}

# Whether a report was written whole, in which some query ran out of memory, and every other one has
# the answer of the undisturbed run.
is_report() {
    answers said >new
    answers whole >old
    [ "$(tail -n 1 said)" = end ] && grep -q '^journal$' said &&
        grep -q '^query [0-9]* memory|$' new && [ "$(wc -l <new)" = "$(wc -l <old)" ] &&
        ! grep -v '^query [0-9]* memory|$' new | grep -v -x -F -f old | grep -q .
}

# QUERIES: refuses each allocation of a script with these queries.
refuse_each() {
    printf '{"version":1,"tables":[{"name":"t","file":"t.csv"}],"queries":[%s]}\n' "$1" >s.json
    run_without 0
    mv said whole
    all=$(cat counted)
    : >endings
    number=1
    while [ "$number" -le "$all" ]; do
        run_without "$number"
        ending >>endings
        number=$((number + 1))
    done
    echo "allocations $all: $(sort endings | uniq -c | awk '{ printf "%s%s %d", sep, $2, $1; sep = ", " }')"
    ! grep -q other endings
}

cd "$work"
printf 'k,v\n1,10\n1,20\n2,5\n' >t.csv
refuse_each '{"scan":"t","output":{"groups":{"by":["k"],"aggs":[{"fn":"sum","col":"v"}]}}}'
count='"output":{"totals":[{"fn":"count"}]}'
refuse_each "{\"scan\":\"t\",\"weight\":10,$count},{\"scan\":\"t\",\"weight\":5,$count}"
