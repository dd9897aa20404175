"""Runs drawn scripts and judges each report, as storm.sh says.

Words: PROGRAM FOLDER SEED COUNT COMMAND. FOLDER is for the tables and scripts.
"""

import concurrent.futures
import json
import os
import random
import re
import shutil
import subprocess
import sys
import tempfile

RUNS_OF_A_SCRIPT = 4
SCRIPTS_OF_A_BATCH = 10
SECONDS = 120
MOST_WORKERS = 64
MOST_SLOTS = 128
FIRST_SIZE = 16
MOST_TUPLES = 65536
MOST_NS = 2**36
MERGE_PARTS = 16
MOST_JOINED = 200000
# `check` joins by nested loops, so it looks at each pair of rows.
MOST_PAIRS = 30000000
MOST_PRINTED = 2000

ROWS = [0, 1, 2, 3, 15, 16, 17, 47, 48, 49, 100, 257, 1000, 1000, 3000, 5000, 5000, 20000, 200000]
COLUMNS = ["id", "k", "g", "v"]
COMPARES = ["=", "<>", "<", "<=", ">", ">="]
GREATEST = 2**63 - 1


class Differs(Exception):
    """What is wrong with a run."""


# Scripts


class Table:
    """A table of these columns: `id` from 0 on, `k` with four rows a key, `g` below 4, and `v`, any
    number."""

    def __init__(self, draw, number, rows):
        self.file = f"t{number}.csv"
        self.rows = rows
        spread = draw.choice([10, 1000, GREATEST])
        self.values = [
            (row, draw.randrange(rows // 4 + 1), draw.randrange(4), draw.randint(-spread, spread))
            for row in range(rows)
        ]

    def write(self, folder):
        with open(f"{folder}/{self.file}", "w", encoding="ascii") as file:
            file.write(",".join(COLUMNS) + "\n")
            file.writelines(",".join(map(str, row)) + "\n" for row in self.values)

    def rows_of_a_key(self, column):
        """About how many rows have one value of a column."""
        distinct = {"id": self.rows, "k": self.rows // 4 + 1, "g": 4, "v": 20}[column]
        return max(self.rows / max(distinct, 1), 1)

    def value(self, draw, column):
        """A value to compare a column with, mostly one that it has."""
        if not self.values or draw.random() < 0.1:
            return draw.choice([0, -1, 5, GREATEST, -GREATEST - 1])
        return draw.choice(self.values)[COLUMNS.index(column)]


class Work:
    """What the report of a query tells of its work: its weight, its cost, and the tuples of each
    of its stages."""

    def __init__(self, query, tables):
        self.weight = query["weight"]
        self.cost = query["cost"]
        self.totals = [tables[join["table"]].rows for join in query["joins"]]
        self.totals.append(tables[query["scan"]].rows)
        if "groups" in query["output"]:
            self.totals.append(MERGE_PARTS)


def draw_filters(draw, table, most):
    filters = []
    for _ in range(draw.randint(0, most)):
        column = draw.choice(COLUMNS)
        value = table.value(draw, column)
        filters.append({"col": column, "op": draw.choice(COMPARES), "value": value})
    return filters


def draw_reference(draw, sides):
    side = draw.randrange(sides)
    column = draw.choice(COLUMNS)
    return [side, column] if side else column


def draw_joins(draw, tables, scanned):
    """Joins, and about how many rows they give together."""
    joins, rows = [], float(scanned.rows)
    for side in range(draw.choice([0, 0, 1, 1, 2])):
        name = draw.choice(list(tables))
        right = draw.choice(COLUMNS)
        joined = rows * tables[name].rows_of_a_key(right)
        if rows * tables[name].rows > MOST_PAIRS or joined > MOST_JOINED:
            return joins, rows
        rows = joined
        left = draw_reference(draw, side + 1)
        where = draw_filters(draw, tables[name], 1)
        joins.append({"table": name, "left": left, "right": right, "where": where})
    return joins, rows


def draw_aggregates(draw, sides):
    aggregates = [{"fn": "count"}]
    for _ in range(draw.randint(0, 4)):
        kind = draw.choice(["sum", "min", "max"])
        aggregates.append({"fn": kind, "col": draw_reference(draw, sides)})
    draw.shuffle(aggregates)
    return aggregates


def draw_output(draw, sides, rows):
    kind = draw.choice(["rows", "totals", "groups"])
    if kind == "rows" and rows <= MOST_PRINTED:
        return {"rows": [draw_reference(draw, sides) for _ in range(draw.randint(1, 8))]}
    if kind == "groups":
        by = ["g"] if rows > MOST_PRINTED else [draw_reference(draw, sides)]
        by += [draw_reference(draw, sides)] if rows <= MOST_PRINTED and draw.random() < 0.4 else []
        return {"groups": {"by": by, "aggs": draw_aggregates(draw, sides)}}
    return {"totals": draw_aggregates(draw, sides)}


def draw_query(draw, tables, stages_before):
    scan = draw.choice(list(tables))
    joins, rows = draw_joins(draw, tables, tables[scan])
    sides = len(joins) + 1
    return {
        "after": draw.choice([0, 0, stages_before, draw.randint(0, stages_before)]),
        "weight": draw.randint(1, 10),
        "cost": draw.choice([1, 50, 100, 250, 20000, 1000000]),
        "scan": scan,
        "where": draw_filters(draw, tables[scan], draw.choice([0, 1, 3])),
        "joins": joins,
        "output": draw_output(draw, sides, rows),
    }


def draw_script(draw, pool):
    """A script over a few tables of the pool, and the work of each of its queries."""
    # Large tables come seldom, since reading them takes most of the time.
    most = 200000 if draw.random() < 0.01 else 20000 if draw.random() < 0.1 else 5000
    chosen = draw.sample([table for table in pool if table.rows <= most], draw.randint(1, 4))
    tables = {f"n{number}": table for number, table in enumerate(chosen)}
    queries, works, stages = [], [], 0
    for _ in range(draw.choice([0, 1, 2, 3, 4, 6, 8, 12, 40])):
        queries.append(draw_query(draw, tables, stages))
        works.append(Work(queries[-1], tables))
        stages += len(works[-1].totals)
    entries = [{"name": name, "file": table.file} for name, table in tables.items()]
    return {"version": 1, "tables": entries, "queries": queries}, works


def draw_words(draw, command, script):
    """Words of a command, and how many workers and slots they ask for."""
    workers = draw.choice([1, 2, 3, 4, 8, MOST_WORKERS, draw.randint(1, MOST_WORKERS)])
    slots = draw.choice([1, 2, 3, 8, MOST_SLOTS, draw.randint(1, MOST_SLOTS)])
    words = [command, script, "--workers", str(workers), "--slots", str(slots)]
    if command != "run":
        order = [str(draw.randrange(workers)) for _ in range(draw.randint(1, 4096))]
        words += ["--order", ",".join(order)]
    return words, workers, slots


# Reports

NUMBER = "(0|[1-9][0-9]*)"
SHARE = re.compile(
    f"worker {NUMBER} query {NUMBER} ranges {NUMBER} tuples {NUMBER} ns {NUMBER} priority {NUMBER}"
)
GAP = re.compile(f"worker {NUMBER} widest {NUMBER} largest {NUMBER}")
SET = re.compile(rf"set {NUMBER}\.{NUMBER} slot {NUMBER} total {NUMBER} finisher {NUMBER}")
CLAIM = re.compile(f"claim {NUMBER} {NUMBER} worker {NUMBER}")


def expect(holds, what):
    if not holds:
        raise Differs(what)


class Lines:
    """The lines of a report, read one after another."""

    def __init__(self, text):
        expect(text.endswith("\n"), "the text does not end with a line's end")
        self.lines = text[:-1].split("\n")
        self.at = 0

    def take(self, form):
        """The numbers of the next line, if it has this form."""
        found = form.fullmatch(self.lines[self.at]) if self.at < len(self.lines) else None
        if found is None:
            return None
        self.at += 1
        return tuple(map(int, found.groups()))

    def must_be(self, line):
        here = self.lines[self.at] if self.at < len(self.lines) else None
        expect(here == line, f"line {self.at + 1} is {here!r} and not {line!r}")
        self.at += 1


def priority(weight, ns):
    """The priority of a query after so many nanoseconds of work: 7 quanta of 2 milliseconds at a
    thousand times its weight, then nine tenths for each further one, and at least 100."""
    now = 1000 * weight
    for _ in range(7, ns // 2000000):
        if now == 100:
            break
        now = max(100, now * 9 // 10)
    return now


def read_shares(lines, workers):
    """The shares part: shares by worker and query, and the gap of each worker. The lines stand by
    worker, and each worker's by query, with its gap last."""
    lines.must_be("shares")
    shares, gaps = {}, []
    for worker in range(workers):
        last = -1
        while (share := lines.take(SHARE)) is not None:
            expect(share[0] == worker, f"a share of worker {share[0]} among those of {worker}")
            expect(share[1] > last, f"the shares of worker {worker} do not ascend")
            last = share[1]
            shares[share[0], share[1]] = share[2:]
        gap = lines.take(GAP)
        expect(gap is not None and gap[0] == worker, f"no gap line of worker {worker}")
        gaps.append(gap[1:])
    return shares, gaps


def read_journal(lines, works, workers, slots):
    """The journal part: the claims of each task set. There is one record for each stage of each
    query, in order, whose claims tile its total."""
    lines.must_be("journal")
    sets = []
    for query, work in enumerate(works):
        slot = None
        for stage, total in enumerate(work.totals):
            name = f"{query}.{stage}"
            record = lines.take(SET)
            expect(record is not None and record[:2] == (query, stage), f"no record of set {name}")
            expect(record[3] == total, f"set {name} has the total {record[3]} and not {total}")
            expect(record[2] < slots, f"set {name} is in slot {record[2]} of {slots}")
            expect(slot in (None, record[2]), f"set {name} is not in the slot of its query")
            expect(record[4] < workers, f"set {name} has the finisher {record[4]} of {workers}")
            slot = record[2]
            sets.append((query, name, read_claims(lines, name, total, workers)))
    return sets


def read_claims(lines, name, total, workers):
    """The claims of a task set. They tile its total, and a worker's first is of 16 tuples, or of
    all that were left."""
    claims, end, seen = [], 0, set()
    while (claim := lines.take(CLAIM)) is not None:
        begin, size, worker = claim[0], claim[1] - claim[0], claim[2]
        expect(begin == end, f"set {name}: a claim begins at {begin} and not at {end}")
        expect(0 < size <= MOST_TUPLES, f"set {name}: a claim of {size} tuples")
        expect(worker < workers, f"set {name}: a claim of worker {worker}")
        if worker not in seen:
            first = min(FIRST_SIZE, total - begin)
            expect(size == first, f"set {name}: worker {worker} begins with {size} tuples")
        seen.add(worker)
        end = claim[1]
        claims.append((worker, size))
    expect(end == total, f"set {name}: the claims end at {end} and not at {total}")
    return claims


def judge_shares(shares, sets, works, by_cost):
    """A share stands exactly for each worker and query with a claim, and adds up its claims."""
    sums = {}
    for query, _, claims in sets:
        for worker, size in claims:
            ranges, tuples = sums.get((worker, query), (0, 0))
            sums[worker, query] = ranges + 1, tuples + size
    others = sorted(sums.keys() ^ shares.keys())
    expect(not others, f"a share with no claim, or a claim with no share: {others}")
    for (worker, query), (ranges, tuples, ns, last) in shares.items():
        name = f"the share of worker {worker} in query {query}"
        work = works[query]
        expect((ranges, tuples) == sums[worker, query], f"{name} is not the sum of its claims")
        expect(ranges <= ns <= ranges * MOST_NS, f"{name} has {ns} ns")
        expect(not by_cost or ns == tuples * work.cost, f"{name} is not of its cost")
        expect(last == priority(work.weight, ns), f"{name} ends at another priority")


def judge_gaps(shares, gaps, works):
    """No worker's passes were further apart than its largest advance, which lies within what its
    shares allow."""
    for worker, (widest, largest) in enumerate(gaps):
        expect(widest <= largest, f"worker {worker} has a wider gap than its largest advance")
        own = [(query, *share) for (other, query), share in shares.items() if other == worker]
        # The largest is at least the mean, at the first priority, and at most all, at the last.
        for query, ranges, _, ns, _ in own:
            least = (-(-ns // ranges) << 20) // (1000 * works[query].weight)
            expect(least <= largest, f"worker {worker} has too small a largest advance")
        most = max(((ns << 20) // last for _, _, _, ns, last in own), default=0)
        expect(largest <= most, f"worker {worker} has too great a largest advance")


def judge(report, answers, works, workers, slots, by_cost):
    """Holds a report against the answers of `check` and against itself."""
    head = answers.removesuffix("end\n")
    expect(head != answers, "check did not end with a line `end`")
    expect(report.startswith(head + "shares\n"), "the answers are not those of check")
    lines = Lines(report[len(head) :])
    shares, gaps = read_shares(lines, workers)
    sets = read_journal(lines, works, workers, slots)
    lines.must_be("end")
    expect(lines.at == len(lines.lines), "there are lines after the end")
    judge_shares(shares, sets, works, by_cost)
    judge_gaps(shares, gaps, works)


# Runs


def run_program(program, folder, words):
    """What a run of the program writes. It ends with 0 and writes no error."""
    try:
        ran = subprocess.run(
            [program, *words], cwd=folder, capture_output=True, timeout=SECONDS, check=False
        )
    except subprocess.TimeoutExpired:
        raise Differs(f"it did not end in {SECONDS} seconds") from None
    expect(ran.returncode == 0, f"it ended with {ran.returncode}: {ran.stdout[:200]!r}")
    expect(not ran.stderr, f"it wrote to standard error: {ran.stderr[:200]!r}")
    return ran.stdout.decode("ascii", "backslashreplace")


def keep(folder, script, outputs, words, what):
    """Keeps the files of a run that differs, and tells where they are."""
    kept = tempfile.mkdtemp(prefix="storm-")
    with open(f"{folder}/{script}", encoding="ascii") as file:
        for table in json.load(file)["tables"]:
            shutil.copy(f"{folder}/{table['file']}", kept)
    shutil.copy(f"{folder}/{script}", kept)
    for name, output in outputs.items():
        with open(f"{kept}/{name}", "w", encoding="ascii") as file:
            file.write(output)
    with open(f"{kept}/words", "w", encoding="ascii") as file:
        file.write(" ".join(words) + "\n")
    return f"{what}\nthe words: {' '.join(words)[:300]}\nits files are in {kept}"


def storm_script(program, folder, pool, seed, number, command, runs):
    """Runs a drawn script so often, and tells what differs, or None."""
    draw = random.Random(f"{seed} {number}")
    script, works = draw_script(draw, pool)
    name = f"s{number}.json"
    with open(f"{folder}/{name}", "w", encoding="ascii") as file:
        json.dump(script, file)
    outputs, words = {}, ["check", name]
    try:
        answers = outputs["answers"] = run_program(program, folder, words)
        for _ in range(runs):
            words, workers, slots = draw_words(draw, command, name)
            outputs.pop("report", None)
            report = outputs["report"] = run_program(program, folder, words)
            judge(report, answers, works, workers, slots, by_cost=command != "run")
    except Differs as error:
        return keep(folder, name, outputs, words, f"script {number} of seed {seed}: {error}")
    os.remove(f"{folder}/{name}")
    return None


def storm_batch(program, folder, pool, seed, numbers, command, count):
    """Runs drawn scripts, until one differs."""
    for number in numbers:
        runs = min(RUNS_OF_A_SCRIPT, count - number * RUNS_OF_A_SCRIPT)
        differs = storm_script(program, folder, pool, seed, number, command, runs)
        if differs:
            return differs
    return None


def draw_pool(folder, seed):
    """The tables that scripts are drawn over, which are written once."""
    draw = random.Random(seed)
    pool = [Table(draw, number, rows) for number, rows in enumerate(ROWS)]
    for table in pool:
        table.write(folder)
        # The filters need no more of them.
        table.values = table.values[:1000]
    return pool


def storm(program, folder, seed, count, command):
    """Runs all scripts, some side by side, until one differs."""
    pool = draw_pool(folder, seed)
    scripts = range(-(-count // RUNS_OF_A_SCRIPT))
    starts = range(0, len(scripts), SCRIPTS_OF_A_BATCH)
    batches = [scripts[at : at + SCRIPTS_OF_A_BATCH] for at in starts]
    with concurrent.futures.ProcessPoolExecutor() as processes:
        futures = [
            processes.submit(storm_batch, program, folder, pool, seed, numbers, command, count)
            for numbers in batches
        ]
        for future in concurrent.futures.as_completed(futures):
            if future.result():
                processes.shutdown(wait=False, cancel_futures=True)
                return future.result()
    return None


def main():
    program, folder, seed, count, command = sys.argv[1:]
    differs = storm(os.path.abspath(program), folder, seed, int(count), command)
    if differs:
        sys.exit(f"storm: {differs}")
    print(f"{count} runs of {command}, seed {seed}: no difference")


if __name__ == "__main__":
    main()
