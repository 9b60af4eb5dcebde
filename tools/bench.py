#!/usr/bin/env python3
"""Measures what docs/BENCHMARKS.md shows. Each command prints one table of it, and keeps the data of that table.

    tools/bench.py lookup|beside|changes|job|memory [--show] [--no-times] [--runs N] [--anew]

- lookup: what a lookup takes, on one thread and by a pass of a running table
- beside: lookups of 1 to 4 passes at once, beside a thread that changes routes and without one
- changes: what an addition and a deletion of a route take, by its length
- job: the whole of `lpmtool lookup`, by the number of routes
- memory: the most that is resident meanwhile

The data are docs/figures/COMMAND.csv. `--show` prints the table of them and measures nothing, and tools/plots.py draws
them. What runs are the programs that `rt ci` leaves behind, of crates/lpmtool and crates/fib_bench, and beside them
tools/bench/plain.c, compiled for the same processors.

Instructions are counted by callgrind of valgrind: the same on any machine, whatever else runs there. Times mean
something only beside one another, on a machine with nothing else to do. Those of `job` are taken in turns, and the least
of N runs counts (5). Those of `lookup` and `beside` are medians of N runs of fib_bench (3), which both commands share,
until `--anew`. With `--no-times` the times of the data stay. Routes and addresses are drawn with a fixed seed. They are
kept in a folder for temporary files, and so is what fib_bench printed.
"""
import argparse
import csv
import os
import pathlib
import random
import re
import statistics
import subprocess
import sys
import tempfile
import time

TOP = pathlib.Path(__file__).resolve().parent.parent
DATA = TOP / "docs/figures"
WORK = pathlib.Path(tempfile.gettempdir()) / "saxiko-bench"
PROGRAM = TOP / "crates/lpmtool/out/lpmtool"
FIB_BENCH = TOP / "crates/fib_bench/out/fib_bench"
PLAIN = TOP / "tools/bench/plain.c"
ROOM = ["--groups", "65536", "--rules", "2000000"]
SIZES = (1_000, 10_000, 100_000, 300_000, 1_000_000)
MIDDLE = 100_000
ADDRESSES = 1_000_000
# How many of a million routes have which length: about as in the tables of routers on the Internet, but for those
# longer than 24 bits, which a network has of its own. The others have 24 bits.
SHARES = {8: 16, 9: 13, 10: 40, 11: 100, 12: 300, 13: 600, 14: 1_200, 15: 2_000, 16: 13_500, 17: 8_000, 18: 14_000,
          19: 25_000, 20: 45_000, 21: 52_000, 22: 110_000, 23: 100_000, 25: 2_000, 26: 3_000, 27: 4_000, 28: 5_000,
          29: 9_000, 30: 9_000, 32: 8_000}
# The lengths of the routes that `changes` adds and deletes, and how many of each.
CHANGED = {0: 1, 4: 4, 8: 20, 12: 100, 16: 200, 18: 200, 20: 200, 22: 200, 24: 200, 25: 200, 26: 200, 28: 200, 30: 200,
           32: 200}
SECONDS = ("seconds", "plain seconds", "four workers", "huge pages", "plain huge pages")
RESIDENT = """
import resource, subprocess, sys
subprocess.run(sys.argv[1:], stdout=subprocess.DEVNULL, check=True)
print(resource.getrusage(resource.RUSAGE_CHILDREN).ru_maxrss)
"""
SHOWN = (0, 8, 16, 20, 24, 25, 28, 32)  # of which the table has a row
HUGE_PAGES = {"GLIBC_TUNABLES": "glibc.malloc.hugetlb=1"}


# ---- files of routes, addresses and updates

def spelled(address):
    return ".".join(str(address >> shift & 255) for shift in (24, 16, 8, 0))


def drawn(draw, length, count, taken=()):
    """So many prefixes of this length, from 1.0.0.0 to 223.255.255.255, that aren't taken."""
    found = set()
    while len(found) < count:
        prefix = draw.randrange(1 << 24, 224 << 24) >> (32 - length) << (32 - length), length
        if prefix not in taken:
            found.add(prefix)
    return found


def routes(count):
    """So many prefixes, in random order."""
    draw = random.Random(count)
    counts = {length: share * count // 1_000_000 for length, share in SHARES.items()}
    counts[24] = count - sum(counts.values())
    found = sorted(set().union(*(drawn(draw, length, counts[length]) for length in sorted(counts))))
    draw.shuffle(found)
    return found


def made(name, lines):
    """The path of this file, which `lines` makes where it isn't there."""
    path = WORK / name
    if not path.exists():
        WORK.mkdir(exist_ok=True)
        path.with_suffix(".new").write_text("".join(lines()))
        path.with_suffix(".new").rename(path)
    return path


def lines_of(prefixes, word=""):
    """A line for each prefix, with a next hop but where the word is `del`."""
    draw = random.Random(1)
    for address, length in prefixes:
        hop = "" if word == "del " else f" {draw.randrange(1, 256)}"
        yield f"{word}{spelled(address)}/{length}{hop}\n"


def route_file(count):
    return made(f"routes-{count}.txt", lambda: lines_of(routes(count)))


def address_file():
    draw = random.Random(2)
    return made("addresses.txt", lambda: (f"{spelled(draw.getrandbits(32))}\n" for _ in range(ADDRESSES)))


def update_file(name, lines):
    return made(f"updates-{name}.txt", lambda: ["lpm-updates 2\n", *lines])


# ---- runs

def plain():
    """The program of plain.c."""
    WORK.mkdir(exist_ok=True)
    subprocess.run(["cc", "-O3", "-march=x86-64-v2", "-o", WORK / "plain", PLAIN], check=True)
    return str(WORK / "plain")


def lookup_words(count, workers=1):
    """The words of the whole job, by `lpmtool` and by plain C."""
    files = [route_file(count), address_file()]
    return [PROGRAM, "lookup", *ROOM, "--workers", str(workers), *files], [plain(), *files]


def run(words, **environment):
    """Runs a program; returns what it printed, and the seconds that it took."""
    with tempfile.TemporaryFile() as out:
        start = time.perf_counter()
        subprocess.run(words, stdout=out, stdin=subprocess.DEVNULL, env={**os.environ, **environment}, check=True)
        seconds = time.perf_counter() - start
        out.seek(0)
        return out.read(), seconds


def resident(words):
    """The most memory that a run has, in MiB: of a child of a new, small process, whose own doesn't count."""
    return round(int(run([sys.executable, "-c", RESIDENT, *words])[0]) / 1024)


def counted(words):
    """How many instructions a run takes, and for each function the calls, with the instructions of all of them."""
    with tempfile.TemporaryDirectory() as folder:
        told = pathlib.Path(folder, "told")
        run(["valgrind", "-q", "--tool=callgrind", f"--callgrind-out-file={told}", *words])
        text = told.read_text()
    return int(re.search(r"(?m)^(?:totals|summary): (\d+)", text)[1]), calls_of(text)


def calls_of(text):
    """The calls of each function in what callgrind tells, with the instructions that they took."""
    names, found, called, calls = {}, {}, None, None
    for line in text.splitlines():
        if named := re.match(r"c?fn=\((\d+)\)(?: (.*))?", line):
            names.setdefault(named[1], named[2])
            called = names[named[1]]
        elif line.startswith("calls="):
            calls = int(line[6:].split()[0])
        elif calls is not None:
            before = found.get(called, (0, 0))
            found[called], calls = (before[0] + calls, before[1] + int(line.split()[1])), None
    return found


def least_times(jobs, runs):
    """The least seconds of each job of so many runs in turns, and that all of them print the same."""
    taken, printed = {name: [] for name in jobs}, set()
    for _ in range(runs):
        for name, (words, environment) in jobs.items():
            out, seconds = run(words, **environment)
            taken[name].append(seconds)
            printed.add(out)
    if len(printed) != 1:
        sys.exit("the answers differ")
    return {name: min(seconds) for name, seconds in taken.items()}


def fib_bench(runs, is_anew):
    """The medians of what so many runs of fib_bench print, by the words of each line."""
    said = []
    for number in range(runs):
        if is_anew:
            (WORK / f"fib_bench-{number}.txt").unlink(missing_ok=True)
        path = made(f"fib_bench-{number}.txt", lambda: [run([FIB_BENCH, "run"])[0].decode()])
        found = re.findall(r"(?m)^(.*): ([\d.]+)( lookups a second)?", path.read_text())
        said.append({what + unit: float(number) for what, number, unit in found})
    return {what: statistics.median(it[what] for it in said) for what in said[0]}


# ---- the data

def read(name):
    """The data of a command: rows of texts by their columns; none where there are none yet."""
    path = DATA / f"{name}.csv"
    if not path.exists():
        return []
    with path.open(newline="") as file:
        return list(csv.DictReader(file))


def write(name, rows):
    DATA.mkdir(exist_ok=True)
    with (DATA / f"{name}.csv").open("w", newline="") as file:
        writer = csv.DictWriter(file, list(rows[0]), lineterminator="\n")
        writer.writeheader()
        writer.writerows(rows)


def kept(name, key, columns):
    """These columns of the data, by the text of another one: what stays where no times are taken."""
    return {row[key]: {column: row[column] for column in columns} for row in read(name)}


def measure_job(asked):
    old = kept("job", "routes", SECONDS)
    for count in SIZES:
        ours, theirs = lookup_words(count)
        more, _ = lookup_words(count, workers=4)
        if asked.no_times:
            seconds = old.get(str(count), dict.fromkeys(SECONDS, ""))
        else:
            jobs = zip(SECONDS, [(ours, {}), (theirs, {}), (more, {}), (ours, HUGE_PAGES), (theirs, HUGE_PAGES)])
            seconds = {name: f"{least:.4f}" for name, least in least_times(dict(jobs), asked.runs or 5).items()}
        yield {"routes": count, "instructions": counted(ours)[0], "plain instructions": counted(theirs)[0], **seconds}


def measure_memory(asked):
    for count in SIZES:
        ours, theirs = lookup_words(count)
        blocks = len({address >> 8 for address, length in routes(count) if length > 24})
        yield {"routes": count, "groups": blocks, "MiB": resident(ours), "plain MiB": resident(theirs)}


def stores(length):
    """The most words that a change of this length stores where it meets no group: its own, or those of a new one."""
    return 1 << 24 - length if length <= 24 else 257


def measure_changes(asked):
    routes_at, nothing, taken = route_file(MIDDLE), made("nothing.txt", list), set(routes(MIDDLE))
    apply = [PROGRAM, "apply", *ROOM, routes_at]
    before, plain_before = (counted(words)[0] for words in (
        [*apply, update_file("none", []), nothing], [plain(), routes_at, nothing]))
    for length, count in CHANGED.items():
        prefixes = sorted(drawn(random.Random(length), length, count, taken))
        adds, deletions = list(lines_of(prefixes, "add ")), list(lines_of(prefixes, "del "))
        added, all_done = (counted([*apply, update_file(f"{name}-{length}", lines), nothing])[0]
                           for name, lines in (("adds", adds), ("deletions", adds + deletions)))
        longer = made(f"routes-and-{length}.txt", lambda: [routes_at.read_text(), *lines_of(prefixes)])
        plain_added = counted([plain(), longer, nothing])[0]
        yield {"length": length, "stores": stores(length), "addition": (added - before) // count,
               "deletion": (all_done - added) // count, "plain addition": (plain_added - plain_before) // count}


# What fib_bench says of lookups: the line, what it measures, what stands beside that, and the line of their ratio.
LOOKUPS = (
    ("lookups, random", "`Fib::lookup`, random addresses", "the same loads from two bare lists", "ratio, random"),
    ("lookups, deep", "`Fib::lookup`, two words each", "the same", "ratio, deep"),
    ("pass, random", "`Pass::lookup`, random addresses", "`Fib::lookup`", "ratio, pass, random"),
    ("pass by fours, random", "`Pass::lookup4`, each of four random addresses", "`Pass::lookup`",
     "ratio, pass by fours, random"),
    ("pass, ascending", "`Pass::lookup`, ascending addresses", "`Fib::lookup`", "ratio, pass, ascending"),
    ("answering alone, 4 workers", "`bulk_plain`'s answering alone, an address on four threads", "on one",
     "ratio, answering alone"),
)


def measure_lookup(asked):
    ours, theirs = ((counted(words)[0] - counted([*words[:-1], made("nothing.txt", list)])[0]) / ADDRESSES
                    for words in lookup_words(MIDDLE))
    yield {"what": "an address in `lpmtool lookup`, from its line to its answer", "takes": round(ours),
           "unit": "instructions", "beside": "plain C", "ratio": f"{ours / theirs:.2f}"}
    if asked.no_times:
        yield from read("lookup")[1:]
        return
    said = fib_bench(asked.runs or 3, asked.anew)
    for line, what, beside, ratio_line in LOOKUPS:
        # (`bulk` prints how often the second time goes into the first, and so the other way round)
        quotient = 1 / said[ratio_line] if "workers" in line else said[ratio_line]
        yield {"what": what, "takes": said[line], "unit": "ns", "beside": beside, "ratio": f"{quotient:.2f}"}


# Changes while no pass looks up, by the line of fib_bench.
ALONE = {"deletions, running": "deletions", "additions, running": "additions",
         "deletions": "in a `Fib` deletions", "additions": "additions"}


def measure_beside(asked):
    if asked.no_times:
        yield from read("beside")
        return
    said = fib_bench(asked.runs or 3, asked.anew)
    for line, changes in ALONE.items():
        yield {"passes": 0, "changes": changes, "lookups a second": "", "round": "", "piece": "",
               "changes a second": round(said[line])}
    for passes in ("1 pass", "2 passes", "3 passes", "4 passes"):
        for changes in ("no changes", "short changes", "long changes", "changes apart"):
            what, is_changed = f"{passes}, {changes}", changes != "no changes"
            yield {"passes": passes.split()[0], "changes": changes,
                   "lookups a second": round(said[f"{what} lookups a second"]),
                   "round": said[f"ratio of the median round, {what}"] if is_changed else "",
                   "piece": said[f"ratio of the median piece, {what}"] if is_changed else "",
                   "changes a second": round(said[f"{changes} beside {passes}"]) if is_changed else ""}


# ---- the tables

def number(text, scale=1):
    """A number of the data with commas, or divided by the scale; a dash where there is none."""
    return "" if text == "" else f"{round(float(text) / scale):,}"


def ratio(row, ours, theirs):
    return f"{float(row[ours]) / float(row[theirs]):.2f}" if row[ours] and row[theirs] else ""


def beside_each_other(row, ours, theirs, form):
    return "; ".join(part for part in (form(row[ours]), form(row[theirs]), ratio(row, ours, theirs)) if part)


def show_lookup(rows):
    yield "What | Takes | Ratio | To"
    for row in rows:
        yield f"{row['what']} | {row['takes']} {row['unit']} | {row['ratio']} | {row['beside']}"


def show_job(rows):
    yield ("Routes | Million instructions; plain C; ratio | Time; plain C; ratio | Four workers | "
           "Huge pages; plain C; ratio")
    for row in rows:
        times = [beside_each_other(row, ours, theirs, lambda text: text and f"{float(text):.3f} s")
                 for ours, theirs in (("seconds", "plain seconds"), ("huge pages", "plain huge pages"))]
        workers = row["four workers"] and f"{float(row['four workers']):.3f} s"
        counts = beside_each_other(row, "instructions", "plain instructions", lambda text: number(text, 1_000_000))
        yield " | ".join((number(row["routes"]), counts, times[0], workers, times[1]))


def show_memory(rows):
    yield "Routes | In groups | Resident at most | Plain C | Ratio"
    for row in rows:
        yield (f"{number(row['routes'])} | {number(row['groups'])} | {row['MiB']} MiB | {row['plain MiB']} MiB | "
               f"{ratio(row, 'MiB', 'plain MiB')}")


def show_changes(rows):
    yield "Length of the route | Words stored, where no group is met | Addition | Deletion | Plain C: addition"
    for row in rows:
        if int(row["length"]) in SHOWN:
            yield " | ".join(number(row[column]) for column in row)


SCALES = {"lookups a second": 1_000_000, "round": 0, "piece": 0, "changes a second": 1_000}


def show_beside(rows):
    yield ("Passes | Million lookups a second: no changes; short, long; apart | Round: short, long; apart | "
           "Piece: short, long; apart | Thousand changes a second: short, long")
    alone = [f"{row['changes']} {number(row['changes a second'], 1_000)}" for row in rows if row["passes"] == "0"]
    yield f"none | | | | {', '.join(alone[:2])}; {', '.join(alone[2:])}"
    for passes in "1234":
        quiet, *changed = [row for row in rows if row["passes"] == passes]
        speeds, rounds, pieces, rates = (
            [number(row[column], scale) if scale else row[column] for row in changed]
            for column, scale in SCALES.items())
        speeds = "; ".join(filter(None, (number(quiet["lookups a second"], 1_000_000), grouped(speeds))))
        yield f"{passes} | {speeds} | {grouped(rounds)} | {grouped(pieces)} | {', '.join(filter(None, rates[:2]))}"


def grouped(texts):
    """Of short, long and apart, where there are any."""
    short, long, apart = texts
    return f"{short}, {long}; {apart}" if any(texts) else ""


COMMANDS = {name: (globals()[f"measure_{name}"], globals()[f"show_{name}"])
            for name in ("lookup", "beside", "changes", "job", "memory")}


def table(name):
    """The table of the data of a command, as it stands in docs/BENCHMARKS.md."""
    head, *rows = COMMANDS[name][1](read(name))
    return f"| {head} |\n|{'---|' * (head.count(' | ') + 1)}\n" + "".join(f"| {row} |\n" for row in rows)


def main():
    asked = argparse.ArgumentParser(description=__doc__, formatter_class=argparse.RawDescriptionHelpFormatter)
    asked.add_argument("command", choices=COMMANDS)
    asked.add_argument("--show", action="store_true", help="print the table of the data that are there")
    asked.add_argument("--no-times", action="store_true", help="keep the times of the data")
    asked.add_argument("--runs", type=int, metavar="N", help="how often times are taken")
    asked.add_argument("--anew", action="store_true", help="run fib_bench again")
    asked = asked.parse_args()
    if not asked.show:
        write(asked.command, list(COMMANDS[asked.command][0](asked)))
    sys.stdout.write(table(asked.command))


if __name__ == "__main__":
    main()
