#!/bin/sh
# Runs drawn scripts by `run`, and holds each report against `check` and against itself: the answers
# are those of `check`, and what the shares and the journal say fits together (storm.py has each
# rule). The scripts have few and many rows and up to 40 queries, with filters, joins, rows, totals,
# groups and `after`. Each is run four times, by 1 to 64 workers over 1 to 128 slots. The same seed
# draws the same scripts.
#
# It stops at the first run that differs, says what differs, and keeps the files of that run. It
# needs python3. `turns` or `steps` as the third word runs these instead, in a drawn order.
#
#   bench/storm.sh [SEED [COUNT [COMMAND]]]        seed 1 and 10,000 runs of `run` by default

seed=${1:-1}
count=${2:-10000}
command=${3:-run}
here=$(CDPATH='' cd -- "$(dirname -- "$0")" && pwd)
. "$here/common.sh"
program=$(built_program)

python3 "$here/storm.py" "$program" "$work" "$seed" "$count" "$command"
