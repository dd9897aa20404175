#!/bin/sh
# Measures what each crate costs the gate, in processor seconds, user and system: its check, its
# tests, which prove the crate once more, and its must-fail edits, with the check that they begin
# with. Each is done from nothing, in a copy of the repository. The libraries below a crate are made
# first, and not counted. A star marks what is over the budget, which docs/DECISIONS.md gives with
# its reason, and a hyphen stands for what a crate doesn't have. It is no test, and takes as long as
# the gate if no crate is named. It needs the command rt and /usr/bin/time.
#
#   bench/gate.sh [CRATE..]        all crates by default

here=$(CDPATH='' cd -- "$(dirname -- "$0")" && pwd)
. "$here/common.sh"
crates=${*:-$(sed -n 's/^\([a-z0-9_]*\)[ :].*/\1/p' "$here/../crates.txt")}

# The budget of a crate, in processor seconds.
most_check=300
most_tests=240
most_edits=600

mkdir "$work/crates"
for folder in "$here"/../crates/*; do
    mkdir "$work/crates/${folder##*/}"
    find "$folder" -mindepth 1 -maxdepth 1 ! -name out \
        -exec cp -R {} "$work/crates/${folder##*/}" \;
done
cp "$here/../crates.txt" "$here/../HANDLES" "$work"

# MOST WORD..: runs a command, and leaves its seconds in `cell`, with a star if these are over MOST.
# If it fails, the cell says so, and standard error has the end of what it said.
timed() {
    most=$1
    shift
    cell=failed
    if /usr/bin/time -o "$work/time" -f '%U %S' "$@" >"$work/said" 2>&1 </dev/null; then
        cell=$(awk -v most="$most" '{ seconds = $1 + $2; over = (seconds > most) ? "*" : ""
            printf "%.0f%s", seconds, over }' "$work/time")
    else
        tail -n 5 "$work/said" >&2
    fi
}

# Removes what checks of the crate in this folder kept.
from_nothing() {
    rm -rf out/incremental
    mkdir -p out/incremental
}

# CRATE: prints the row of a crate. A first check may begin with what a check of another copy of the
# repository kept, and is made again then: a second one begins with what this copy has.
measure() {
    cd "$work/crates/$1"
    rt check --jobs 1 --only '' >"$work/said" 2>&1 </dev/null || tail -n 5 "$work/said" >&2
    from_nothing
    timed "$most_check" rt check --jobs 1
    if grep -q "$1: begins with what a check kept" "$work/said"; then
        from_nothing
        timed "$most_check" rt check --jobs 1
    fi
    check=$cell
    tests=-
    if grep -rqE '#[[:space:]]*\[[^]]*\<test\>' src; then
        from_nothing
        timed "$most_tests" rt test --jobs 1
        tests=$cell
    fi
    edits=-
    if [ -d must-fail ]; then
        cd "$work"
        timed "$most_edits" rt must-fail --anew "$1"
        edits=$cell
    fi
    printf '%-16s %8s %8s %8s\n' "$1" "$check" "$tests" "$edits"
    rm -rf "$work/crates/$1/out/incremental"
}

printf '%-16s %8s %8s %8s\n' crate 'check s' 'tests s' 'edits s'
printf '%-16s %8s %8s %8s\n' budget "$most_check" "$most_tests" "$most_edits"
for crate in $crates; do
    measure "$crate"
done
