#!/usr/bin/env python3
"""Checks that the pages say what is there: README.md, CONTRIBUTING.md, CHANGELOG.md, docs and each crate's README.md.

    tools/check_pages.py [--no-runs] [--program PATH] [--self-test] [--passed N]

Each fault is printed as `FILE:LINE: what`, and any makes the exit status 1. Checked are

- commands: in a fenced block each line `$ COMMAND` is run, with `lpmtool` on the path. One bash runs those of a block
  from the top of the repository. What each prints on either output is compared word for word with the lines below it,
  up to the next `$` or the block's end. A command goes on in the next line after `\\` or `|`. Where the comment
  `<!-- varies -->` stands on the line before the block, which no rendered page shows, any number may stand in place of
  any other.
- links: the file of each relative link is there, and the heading of its anchor.
- paths: what stands in backticks and has the form of a path of the repository is there, and so is each such path in a
  fenced block. `src/..`, `specs/..`, `proofs/..` and `must-fail/..` are looked for in the page's crate, and in those
  that the same paragraph or row names.
- crates: names in the columns of CRATES, and those behind the word crate or crates, stand in crates.txt.
- definitions: beside a column File each name in a column Definitions stands in the files of its row, in a file that the
  row names besides, or in a crate that it names.
- meanings: each file of specs that begins with *Meaning* is named in docs/TRUSTED.md, in a row of its crate.
- clauses: beside a column Call, the clauses that a column Contract names are those of the row's calls.
- places: in a column Contract, a name before a file of the crate, as (`specs/Fib.antt`), is declared in that file.
- figures: each table of tools/bench.py stands in docs/BENCHMARKS.md as its data have it, and the figures are what
  tools/plots.py draws of them; each number below the heading Performance of README.md stands in docs/BENCHMARKS.md.
- excerpts: where a path stands behind the language of a fenced block, each line of the block is a line of that file, or
  has `..` between such lines.
- calls: the last name of `A::b` is a member of a type or trait `A`, or stands in a module or crate `A`; also in blocks
  of rust and in figures, which are blocks of text.
- the kit: `logic SUM` in backticks is how the line of `rt version` ends; looked at where commands are run.
- names: those in the columns of NAMES, and in prose and figures those with an underscore or two capitals (`IsStorm`)
  are declared: as a function, a type or its part, a clause, a module or a definition in src or specs, as a must-fail
  edit, or a crate. On a crate's page that is: in this crate, in one that it stands on, or in one that the page names.

Not seen: whether a sentence is true; commands without `$` (they prove, take long, or need files of the reader's own),
and the exit status of a command; that a block of rust compiles; links to other hosts; a name in prose that is one plain
word; in prose, a clause that moved to another function of the same crates; in docs and README.md, a name that stands
somewhere and means another thing by now.

`--self-test` plants faults in copies of pages, and wants each to be found, by the check that is there to find it.
"""
import argparse
import functools
import os
import pathlib
import re
import subprocess
import sys
import tempfile
from collections import namedtuple

sys.dont_write_bytecode = True
import bench
import plots

TOP = pathlib.Path(__file__).resolve().parent.parent
PROGRAM = TOP / "crates/lpmtool/out/lpmtool"
BENCHMARKS = "docs/BENCHMARKS.md"
TRUSTED = "docs/TRUSTED.md"
NUMBER = r"\d(?:[\d,.]*\d)?"
SECONDS = 60  # for the commands of one block
END = "---- what the command before printed ends here"
CRATES = {"Crate"}
NAMES = {"Call", "Contract", "Definition", "Definitions", "Defined in", "Defined by", "Law", "Function", "Decider",
         "Gives back, and by which definition"}
VARIES = "<!-- varies -->"
FIGURE = "text"  # behind the fence of a block that is a figure
LOCAL = ("src", "specs", "proofs", "must-fail")
ROOTS = ("c", "crates", "docs", "tools", "examples", ".ci")
HEADERS = [TOP / "c/saxiko.h", TOP / "c/saxiko_rte_lpm.h"]
# Names that pages rightly cite and that aren't declared here, each with where it comes from.
ELSEWHERE = {
    **dict.fromkeys("requires ensures".split(), "words of Rattle"),
    **dict.fromkeys("Mutex::lock Mutex::try_lock try_lock yield_now std::thread".split(), "the kit's standard library"),
    **dict.fromkeys("FinMap FinSet Appends AllocError Ipv4Addr".split(), "the kit's standard library"),
    **dict.fromkeys("lines_of without_terminator subcommand_of fault_of".split(), "bstr and clap of the kit"),
    **dict.fromkeys("lpm_perf rte_rcu_qsbr_start rte_rcu_qsbr_check".split(), "DPDK"),
    "posix_memalign": "the C library",
}
GONE = {"Fib::run", "Misreport", "lpm_table"}  # as CHANGELOG.md tells, which alone may name them

Page = namedtuple("Page", "path text")  # a path from the top, and the text
Fault = namedtuple("Fault", "path line what")
Block = namedtuple("Block", "line kind varies lines")  # the number of its first line, and what stands behind the fence
Row = namedtuple("Row", "line cells")  # the cells by their columns
Mark = namedtuple("Mark", "line text unit")  # what stands in backticks, and the row or paragraph that it stands in


# ---- what the repository has

@functools.cache
def crates():
    """Each crate with the crates that it stands on, the kit's too."""
    lines = (TOP / "crates.txt").read_text().splitlines()
    pairs = (line.split(":") for line in lines if line and not line.startswith("#"))
    return {name.split()[0]: set(rest.split()) for name, rest in pairs}


@functools.cache
def crate_names():
    return set(crates()).union(*crates().values())


@functools.cache
def source(path):
    """A file without its comments."""
    mark = "--" if path.suffix == ".antt" else "//"
    return re.sub(rf"(?m)(^|\s){mark}.*$", "", path.read_text())


@functools.cache
def sources(crate):
    return [path for kind in ("src/**/*.rt", "specs/*.antt") for path in sorted((TOP / "crates" / crate).glob(kind))]


def types(text):
    """The types, traits and impls of a source: what stands before the brace, and what in the braces."""
    pattern = r"(?ms)^(?:pub(?:\(crate\))? )?((?:struct|enum|trait|impl)\b[^{;]*)\{(?:([^\n]*)\}$|(.*?)^\})"
    return [(head, one_line or body) for head, one_line, body in re.findall(pattern, text)]


def declared_by(text, is_spec=False):
    """The names that a file declares."""
    if is_spec:
        return set(re.findall(r"\bpub (?:record |data )?([A-Za-z_][\w']*)", text)) | \
            set(re.findall(r"(?m)^ *([A-Za-z_]\w*) : ", text))
    found = set(re.findall(r"\b(?:fn|struct|enum|trait|const|static|mod|type|ghost|ensures|requires) (\w+)", text))
    for given in re.findall(r"pub use ([^;]*);", text):
        found |= set(re.findall(r"\w+", given))
    # (a variant or a field stands first in its line)
    return found.union(*(re.findall(r"(?m)^ *(?:pub(?:\(crate\))? )?(\w+)(?= *[:,({])", body)
                         for head, body in types(text) if head.startswith(("struct", "enum"))))


@functools.cache
def declared(crate):
    """The names that a crate declares, its modules and files of definitions, and its must-fail edits."""
    here = TOP / "crates" / crate
    found = {path.stem for path in sources(crate)} | {path.stem for path in here.glob("must-fail/*.edit")}
    return found.union(*(declared_by(source(path), path.suffix == ".antt") for path in sources(crate)))


@functools.cache
def clauses(crate):
    """For each name of functions of a crate the clauses of their contracts."""
    found = {}
    # (a contract ends where the body begins, or the next function, or where a trait ends)
    pattern = r"(?ms)^( *)(?:pub\S* )?(?:const )?fn (\w+)(.*?)(?=^\1[{}]|^ *(?:pub\S* )?(?:const )?fn |\Z)"
    for path in (path for path in sources(crate) if path.suffix == ".rt"):
        for _, name, contract in re.findall(pattern, source(path)):
            found.setdefault(name, set()).update(re.findall(r"\b(?:ensures|requires) (\w+) \{", contract))
    return found


@functools.cache
def lemmas():
    """What the files of proofs declare, which prose may name."""
    return set().union(*(declared_by(source(path), True) for path in TOP.glob("crates/*/proofs/*.antt")))


@functools.cache
def members():
    """For each type or trait, module and crate the names that stand in it."""
    found = {crate: set(declared(crate)) for crate in crates()}
    for path in (path for crate in crates() for path in sources(crate) if path.suffix == ".rt"):
        found.setdefault(path.stem, set()).update(declared_by(source(path)))
        for head, body in types(source(path)):
            inside = declared_by(f"{head}{{{body}\n}}") if head.startswith(("struct", "enum")) else declared_by(body)
            found.setdefault(owner_of(head), set()).update(inside)
    for path in (path for crate in crates() for path in sources(crate) if path.suffix == ".rt"):
        for alias, meant in re.findall(r"(?m)^pub type (\w+) = (?:\w+::)*(\w+)", source(path)):
            found.setdefault(alias, set()).update(found.get(meant, ()))
    return found


def owner_of(head):
    """The type of `impl<..> Trait for Type<..>` or of `struct Type<..>`, from what stands before the brace."""
    head = re.sub(r"^\w+", "", head).split(" for ")[-1].strip()
    while head.startswith("<"):
        head = re.sub(r"^<[^<>]*(?:<[^<>]*>[^<>]*)*>", "", head).strip()
    return re.match(r"\s*(\w*)", head)[1]


def scope(page):
    """The names that may stand on a page: on a crate's, those of the crate, of those under it and of those named."""
    crate = crate_of(page.path)
    if crate is None:
        reached = set(crates())
    else:
        reached = {crate, *crates().get(crate, ())} | set(re.findall(r"`(\w+)`", page.text))
    return crate_names().union(*(declared(it) for it in reached & set(crates())))


def crate_of(path):
    """The crate whose page this is, or None."""
    parts = path.split("/")
    return parts[1] if parts[0] == "crates" else None


def elsewhere(page):
    """The names on a page that aren't declared here; those of C are in the headers."""
    code = (re.sub(r"/\*.*?\*/", "", it.read_text(), flags=re.DOTALL) for it in HEADERS)
    of_headers = {name for text in code for name in re.findall(r"\w+", text)}
    return set(ELSEWHERE) | of_headers | (GONE if page.path == "CHANGELOG.md" else set())


# ---- what a page has

def blocks(page):
    """The fenced blocks."""
    found, start, lines = [], None, page.text.splitlines()
    for at, line in enumerate(lines):
        if line.strip().startswith("```"):
            if start is None:
                start = at
            else:
                varies = start > 0 and lines[start - 1].strip() == VARIES
                found.append(Block(start + 2, lines[start].strip("` "), varies, lines[start + 1:at]))
                start = None
    return found


def prose(page):
    """The lines outside of fenced blocks, which are blank inside."""
    lines = page.text.splitlines()
    for block in blocks(page):
        for at in range(block.line - 2, block.line + len(block.lines)):
            lines[at] = ""
    return lines


def units(page):
    """The rows and paragraphs of a page: the number of the first line, and the lines."""
    unit, start = [], 1
    for at, line in enumerate([*prose(page), ""], 1):
        is_alone = line.startswith(("|", "- ", "#")) or not line.strip()
        if is_alone and unit:
            yield start, unit
            unit = []
        if line.strip():
            start = start if unit else at
            unit.append(line)


def marks(page):
    """What stands in backticks, also where it goes on in the next line."""
    for start, lines in units(page):
        text = "\n".join(lines)
        for found in re.finditer(r"(?<!`)`([^`]+)`(?!`)", text):
            yield Mark(start + text.count("\n", 0, found.start()), " ".join(found[1].split()), text)


def rows(page):
    """The rows of the tables below their heads."""
    head, previous = None, None
    for at, line in enumerate(prose(page), 1):
        cells = [it.strip() for it in line.strip().strip("|").split("|")] if line.startswith("|") else None
        if cells is None:
            head = None
        elif all(re.fullmatch(":?-+:?", it) for it in cells):
            head = previous
        elif head is not None:
            yield Row(at, dict(zip(head, cells)))
        previous = cells


def headings(text):
    """The anchors of a page's headings."""
    lines = prose(Page("", text))
    titles = [line.lstrip("#").strip().lower() for line in lines if re.match("#+ ", line)]
    return {re.sub(r"[^\w\- ]", "", title).replace(" ", "-") for title in titles}


# ---- the checks; each gives the faults of a page

def commands(block):
    """The commands of a block, each with its line and the text that it prints."""
    found, goes_on = [], False
    for at, line in enumerate(block.lines, block.line):
        if line.startswith("$ "):
            found.append([at, line[2:], ""])
        elif goes_on:
            found[-1][1] += "\n" + line
        elif found:
            found[-1][2] += line + "\n"
        goes_on = bool(found) and not found[-1][2] and line.rstrip().endswith(("\\", "|"))
    return found


def run_together(all_commands, program):
    """What each of the commands prints, which one bash runs from the top of the repository; None if it takes long."""
    words = "".join(f"{command}\nprintf '%s\\n' '{END}'\n" for command in all_commands)
    with tempfile.TemporaryDirectory(prefix="check-pages-") as folder:
        os.symlink(program, f"{folder}/lpmtool")
        path = {**os.environ, "PATH": f"{folder}:{os.environ['PATH']}"}
        try:
            ran = subprocess.run(["bash", "-c", words], cwd=TOP, env=path, timeout=SECONDS, text=True,
                                 stdin=subprocess.DEVNULL, stdout=subprocess.PIPE, stderr=subprocess.STDOUT)
        except subprocess.TimeoutExpired:
            return None
    return ran.stdout.split(f"{END}\n")


def check_block(page, block, program):
    texts = run_together([command for _, command, _ in commands(block)], program)
    if texts is None:
        yield Fault(page.path, block.line, f"these commands run for more than {SECONDS} seconds")
        return
    if len(texts) <= len(commands(block)):
        yield Fault(page.path, block.line, "one of these commands ends the shell")
    for (line, command, wanted), got in zip(commands(block), texts):
        if block.varies:
            got, wanted = (re.sub(r"\d+", "N", text) for text in (got, wanted))
        if got != wanted:
            yield Fault(page.path, line, f"`{command}` prints\n{got}and not\n{wanted}".rstrip())


def check_runs(page, program):
    for block in blocks(page):
        if commands(block):
            yield from check_block(page, block, program)
    yield from check_kit(page)


@functools.cache
def kit():
    """The line that `rt version` prints."""
    return subprocess.run(["rt", "version"], stdout=subprocess.PIPE, text=True).stdout.strip()


def check_kit(page):
    for mark in marks(page):
        if re.fullmatch("logic [0-9a-f]+", mark.text) and not kit().endswith(f" {mark.text}"):
            yield Fault(page.path, mark.line, f"`rt version` prints `{kit()}`, which doesn't end with `{mark.text}`")


def check_links(page):
    for at, line in enumerate(prose(page), 1):
        for target in re.findall(r"\]\(([^)\s]+)\)", line):
            if re.match("[a-z]+:", target):
                continue
            name, _, anchor = target.partition("#")
            file = TOP / page.path if not name else (TOP / page.path).parent / name
            if not file.exists():
                yield Fault(page.path, at, f"the link leads to no file: {target}")
            elif anchor and anchor not in headings(page.text if not name else file.read_text()):
                yield Fault(page.path, at, f"the link leads to no heading: {target}")


def is_there(path):
    """Whether this path from the top is there, with or without the ending of a source."""
    return any((TOP / f"{path}{ending}").exists() for ending in ("", ".antt", ".rt", ".edit"))


def places(page, path, unit):
    """Where a path may lead to, from the top."""
    first = path.split("/")[0]
    if first in ROOTS:
        return [path]
    if first in crates() and path.split("/")[1] in LOCAL:
        return [f"crates/{path}"]
    if first in LOCAL:
        named = {crate_of(page.path), *re.findall(r"\w+", unit)} & set(crates())
        return [f"crates/{crate}/{path}" for crate in sorted(named)]
    return []


def is_pattern(path):
    """Whether a path stands for others (NAME, *), or for what a build makes."""
    parts = path.split("/")
    return "*" in path or "out" in parts or any(re.fullmatch(r"[A-Z]+(\.edit)?", it) for it in parts)


def check_paths(page):
    found = [(mark.line, mark.text, mark.unit) for mark in marks(page)]
    for block in blocks(page):
        for at, line in enumerate(block.lines, block.line):
            found += [(at, path, line) for path in re.findall(r"(?<![\w/.-])(?:\.\./)*((?:crates|docs|tools|examples)/"
                                                              r"[\w./-]+)", line)]
    for at, text, unit in found:
        if not re.fullmatch(r"[\w.-]+/[\w./*-]*", text) or is_pattern(text) or text[:-1] in LOCAL:
            continue
        there = places(page, text, unit)
        if (there or text.split("/")[0] in LOCAL) and not any(map(is_there, there)):
            yield Fault(page.path, at, f"no such file: {text}")


def check_crates(page):
    if crate_of(page.path) not in {None, *crates()}:
        yield Fault(page.path, 1, f"no such crate: {crate_of(page.path)}")
    for row in rows(page):
        for column in CRATES & set(row.cells):
            for name in re.findall(r"`([^`]+)`", row.cells[column]):
                if name not in crates():
                    yield Fault(page.path, row.line, f"no such crate: {name}")
    for start, lines in units(page):
        text = "\n".join(lines)
        for found in re.finditer(r"\bcrates? ((?:`\w+`(?:,\s+|\s+and\s+)?)+)", text):
            for name in re.findall(r"`(\w+)`", found[1]):
                if name not in crate_names() | elsewhere(page):
                    yield Fault(page.path, start + text.count("\n", 0, found.start()), f"no such crate: {name}")


def files_of(cell):
    """The sources that a cell of the column File names: `A/specs/B`, and then `C` or `specs/C` of the same crate."""
    found = []
    for path in re.findall(r"`([^`]+)`", cell):
        parts = found[-1].split("/")[:3 - len(path.split("/"))] if found else []
        found.append("/".join([*parts, path]))
    return found


def check_files(page):
    for row in rows(page):
        if not {"File", "Definitions"} <= set(row.cells):
            continue
        names = re.findall(r"`([^`]+)`", row.cells["Definitions"])
        files = files_of(row.cells["File"])
        of_crates = {path.split("/")[0] for path in [*files, *names]} & set(crates())
        files += [name for name in names if "/" in name]
        files += [f"{crate}/specs/{name}" for crate in of_crates for name in names]
        known = (crate_names() | elsewhere(page)).union(*(declared(name) for name in names if name in crates()))
        paths = [TOP / f"crates/{file}{ending}" for file in files for ending in (".antt", ".rt")]
        # (a row may say which call a definition is for)
        paths += [path for crate in of_crates for path in sources(crate) if path.suffix == ".rt"]
        for path in filter(pathlib.Path.exists, paths):
            known |= {path.stem} | declared_by(source(path), path.suffix == ".antt")
        for file in files_of(row.cells["File"]):
            if not is_there(f"crates/{file}") and f"`{file}`" not in row.cells["File"]:
                yield Fault(page.path, row.line, f"no such file: {file}")
        for name in names:
            if re.fullmatch(r"[A-Za-z_]\w*", name) and name not in known:
                yield Fault(page.path, row.line, f"not in the files of this row: {name}")


def check_meanings(page):
    if page.path != TRUSTED:
        return
    named = set()
    for row in (it for it in rows(page) if {"File", "Definitions"} <= set(it.cells)):
        files = [path.split("/") for path in files_of(row.cells["File"])]
        names = re.findall(r"`([^`]+)`", row.cells["Definitions"])
        named |= {(file[0], name) for file in files for name in [file[-1], *names]}
    for path in sorted(TOP.glob("crates/*/specs/*.antt")):
        crate = path.parent.parent.name
        if path.read_text().startswith("-- Meaning") and (crate, path.stem) not in named:
            yield Fault(page.path, 1, f"not named, though it has a meaning: {crate}/specs/{path.stem}")


def check_clauses(page):
    crate = crate_of(page.path)
    if crate not in crates():
        return
    reached = {crate, *crates()[crate]} & set(crates())
    fields = set().union(*(declared_by(source(path), True) for path in sources(crate) if path.suffix == ".antt"))
    for row in rows(page):
        if not {"Call", "Contract"} <= set(row.cells):
            continue
        named = re.findall(r"`([^`]+)`", row.cells["Call"] + row.cells["Contract"])
        calls = {re.sub(r"[(<].*", "", name).split("::")[-1] for name in named}
        theirs = set().union(*(clauses(it).get(call, set()) for it in reached for call in calls))
        others = set().union(*clauses(crate).values()) - theirs - fields - set(clauses(crate))
        for name in re.findall(r"`(\w+)`", row.cells["Contract"]):
            if theirs and name in others:
                yield Fault(page.path, row.line, f"no clause of these calls: {name}")


def check_places(page):
    crate = crate_of(page.path)
    for row in rows(page) if crate in crates() else ():
        for name, file in re.findall(r"`(\w+)` (?:in |\()`(specs/\w+\.antt)`", row.cells.get("Contract", "")):
            path = TOP / "crates" / crate / file
            if path.exists() and name not in declared_by(source(path), True):
                yield Fault(page.path, row.line, f"not in {file}: {name}")


def check_excerpts(page):
    for block in blocks(page):
        _, _, path = block.kind.partition(" ")
        if not path:
            continue
        if not (TOP / path).is_file():
            yield Fault(page.path, block.line - 1, f"no such file: {path}")
            continue
        there = {line.strip() for line in (TOP / path).read_text().splitlines()}
        for at, line in enumerate(block.lines, block.line):
            for part in line.split(" .. "):
                if part.strip() not in there | {""}:
                    yield Fault(page.path, at, f"no such line in {path}: {part.strip()}")


def check_calls(page):
    found = [(mark.line, re.sub(r"\(.*\)$|<[^<>]*>", "", mark.text)) for mark in marks(page)]
    for block in blocks(page):
        for at, line in enumerate(block.lines if block.kind.startswith(("rust", FIGURE)) else [], block.line):
            found += [(at, call) for call in re.findall(r"\w+(?:::\w+)+", re.sub(r"::<[^<>]*>|//.*", "", line))]
    for line, call in found:
        if not re.fullmatch(r"[A-Za-z_]\w*(::[A-Za-z_]\w*)+", call) or call in elsewhere(page):
            continue
        owner, name = call.split("::")[-2:]
        if name not in members().get(owner, ()):
            yield Fault(page.path, line, f"no such call: {call}")


def check_performance(page):
    measured = set(re.findall(NUMBER, (TOP / BENCHMARKS).read_text()))
    heading = ""
    for at, line in enumerate(page.text.splitlines(), 1):
        heading = line if line.startswith("#") else heading
        for number in re.findall(NUMBER, line if heading == "## Performance" else ""):
            if number not in measured:
                yield Fault(page.path, at, f"no number of {BENCHMARKS}: {number}")


def check_figures(page):
    if page.path == "README.md":
        yield from check_performance(page)
    if page.path != BENCHMARKS:
        return
    for name in bench.COMMANDS:
        if bench.table(name) not in page.text:
            yield Fault(page.path, 1, f"not the table that `tools/bench.py {name} --show` prints")
    for name, plot in plots.FIGURES.items():
        path = bench.DATA / f"{name}.svg"
        if not path.exists() or path.read_text() != plots.drawn(plot()):
            yield Fault(page.path, 1, f"not the figure that tools/plots.py draws: {name}.svg")


def is_telling(word):
    """Whether a word in prose can only be a name: with an underscore, or with two capitals and small letters."""
    return "_" in word.strip("_") or bool(re.fullmatch(r"(?:[A-Z][a-z0-9]+){2,}\w*", word))


def check_names(page):
    known = scope(page) | elsewhere(page)
    words = [(mark.line, mark.text) for mark in marks(page) if is_telling(mark.text) and mark.text not in lemmas()]
    for row in rows(page):
        for column in NAMES & set(row.cells):
            words += [(row.line, word) for word in re.findall(r"`([^`]+)`", row.cells[column])]
    for block in blocks(page):
        for at, line in enumerate(block.lines if block.kind == FIGURE else [], block.line):
            words += [(at, word) for word in re.findall(r"\w+", line) if is_telling(word)]
    for line, word in sorted(set(words)):
        if re.fullmatch(r"[A-Za-z_]\w*'?", word) and word not in known:
            yield Fault(page.path, line, f"declared nowhere that this page speaks of: {word}")


def faults(page, program):
    """All faults of a page. Without a program nothing is run."""
    runs = check_runs(page, program) if program else []
    checks = (check_links, check_paths, check_crates, check_files, check_meanings, check_clauses, check_places,
              check_figures, check_excerpts, check_calls, check_names)
    return [*runs, *(fault for check in checks for fault in check(page))]


# ---- the self-test

# A page, a text that stands on it, what stands there in its place, and what the fault says of it.
Plant = namedtuple("Plant", "path old new told")
WRONG_OUTPUT = "and not\n"
WRONG_KIT = "which doesn't end with"
PLANTS = [
    Plant("README.md", "`logic ", "`logic 0", WRONG_KIT),
    Plant("README.md", "\n10.1.1.128 6\n", "\n10.1.1.128 3\n", WRONG_OUTPUT),
    Plant("docs/FORMATS.md", "\nreclaimed 1\n", "\nreclaimed 2\n", WRONG_OUTPUT),
    Plant("README.md", "](docs/FORMATS.md#words)", "](docs/FORMAT.md#words)", "leads to no file: docs/FORMAT.md#words"),
    Plant("README.md", "](docs/FORMATS.md#words)", "](docs/FORMATS.md#word)", "no heading: docs/FORMATS.md#word"),
    Plant("README.md", "the crate `saxiko`", "the crate `saxikos`", "no such crate: saxikos"),
    Plant("docs/ARCHITECTURE.md", "[`qsbr`]", "[`rcu`]", "no such crate: rcu"),
    Plant("docs/TRUSTED.md", "`IsStorm`", "`IsTempest`", "IsTempest"),
    Plant("docs/TRUSTED.md", "`IsDeepBlock`,", "`IsLongest`,", "not in the files of this row: IsLongest"),
    Plant("docs/TRUSTED.md", "`qsbr/specs/Counters`", "`qsbr/specs/Counts`", "no such file: qsbr/specs/Counts"),
    Plant("docs/TRUSTED.md", "`audit/specs/Wrong`", "`audit/specs/Right`", "no such file: audit/specs/Right"),
    Plant("docs/TRUSTED.md", "`specs/Plain`", "`specs/MemorySteps`", "though it has a meaning: lpm_writer/specs/Plain"),
    Plant("crates/lpm_sweep/README.md", "`AreNumbered`", "`AreCounted`", "AreCounted"),
    Plant("crates/fib/README.md", "`suffice`", "`are_enough`", "speaks of: are_enough"),
    Plant("crates/bulk/README.md", "`bulk_plain` | `workers`", "`bulk_plain` | `desks`",
          "no clause of these calls: desks"),
    Plant("crates/fib/README.md", "(`specs/Replay.antt`)", "(`specs/Again.antt`)", "no such file: specs/Again.antt"),
    Plant("crates/fib/README.md", "`state_after_report` (", "`told` (", "not in specs/Fib.antt: told"),
    Plant("crates/storm/README.md", "storm::run(", "storm::rain(", "no such call: storm::rain"),
    Plant("docs/BENCHMARKS.md", "| 1,000,000 |", "| 1,000,001 |", "not the table that `tools/bench.py job"),
    Plant("README.md", "takes 19.71 ns", "takes 18.71 ns", "no number of docs/BENCHMARKS.md: 18.71"),
    Plant("docs/BENCHMARKS.md", "figures/job.svg", "figures/jobs.svg", "leads to no file: figures/jobs.svg"),
    Plant("docs/ARCHITECTURE.md", "`Fib::delete`", "`Fib::forget`", "no such call: Fib::forget"),
    Plant("docs/ARCHITECTURE.md", "Update::delete  ", "Update::forget  ", "no such call: Update::forget"),
    Plant("docs/ARCHITECTURE.md", "take_front, ", "take_oldest, ", "take_oldest"),
]


# A page that is made up, and what a fault of it says, or None where it has none.
SAMPLES = [
    ("```\n$ echo 12 words |\n    cat\n12 words\n$ cd docs\n$ ls FORMATS.md\nFORMATS.md\n```\n", None),
    ("```\n$ echo 12 words\n13 words\n```\n", WRONG_OUTPUT),
    (f"{VARIES}\n```\n$ echo 12 words\n13 words\n```\n", None),
    (f"{VARIES}\n```\n$ echo 12 words\n12 word\n```\n", WRONG_OUTPUT),
    ("```\n$ exit\n$ echo next\nnext\n```\n", "ends the shell"),
    ("`Fib::run`", "no such call: Fib::run"),
    ("`Mutex::lock`, `crates/NAME/src`, [here](#there)\n\n## There\n", None),
    ("`docs/DECISION.md`", "no such file: docs/DECISION.md"),
    ("|Crate|\n|---|\n|`atomic_table`|\n", "no such crate: atomic_table"),
    ("```c examples/forwarder.c\n#include <saxiko.h>\n```\n", None),
    ("```c examples/forwarder.c\n#include <saxiko2.h>\n```\n", "no such line in examples/forwarder.c: #include"),
    ("```c examples/forwarder.c\nstruct traffic { .. size_t count; .. };\n```\n", None),
    ("```c examples/forwarder.c\nstruct traffic { .. size_t counts; .. };\n```\n", "forwarder.c: size_t counts;"),
]


def is_judged(text, told):
    """Whether a page that is made up has this fault alone, or none."""
    found = [fault.what for fault in faults(Page("README.md", text), pathlib.Path("/bin/true"))]
    return told in found[0] and len(found) == 1 if told and found else not told and not found


def is_found(plant, program):
    """Whether the planted fault is found, of which the page as it is has none."""
    text = (TOP / plant.path).read_text()
    changed = Page(plant.path, text.replace(plant.old, plant.new))
    before, after = (any(plant.told in fault.what for fault in faults(page, program))
                     for page in (Page(plant.path, text), changed))
    return plant.old in text and after and not before


def pages():
    found = [TOP / "README.md", TOP / "CONTRIBUTING.md", TOP / "CHANGELOG.md", *sorted((TOP / "docs").glob("*.md")),
             *sorted((TOP / "crates").glob("*/README.md"))]
    return [Page(str(path.relative_to(TOP)), path.read_text()) for path in found]


def check_page(page, program):
    """Prints the faults of a page, and returns whether it has none."""
    found = faults(page, program)
    for fault in found:
        print(f"{fault.path}:{fault.line}: {fault.what}")
    return not found


def self_test(program):
    """Whether each planted fault is found, and each page that is made up is judged rightly."""
    # (a wrong output or kit is planted on a page only where commands are run)
    plants = [it for it in PLANTS if program or it.told not in (WRONG_OUTPUT, WRONG_KIT)]
    judged = [(f"{it.path}: {it.new!r} for {it.old!r} isn't found", is_found(it, program)) for it in plants]
    judged += [(f"a page that is made up is misjudged: {text!r}", is_judged(text, told)) for text, told in SAMPLES]
    for text, is_well in judged:
        if not is_well:
            print(text)
    return [is_well for _, is_well in judged]


def main():
    asked = argparse.ArgumentParser(description=__doc__, formatter_class=argparse.RawDescriptionHelpFormatter)
    asked.add_argument("--no-runs", action="store_true", help="run no command of a page")
    asked.add_argument("--program", type=pathlib.Path, default=PROGRAM, help="what `lpmtool` is on the pages")
    asked.add_argument("--self-test", action="store_true", help="plant faults in copies of pages too")
    asked.add_argument("--passed", type=int, default=0, metavar="N",
                       help="what the last line, `N passed, M failed`, counts as passed already")
    asked = asked.parse_args()
    program = None if asked.no_runs else asked.program.absolute()
    if program and not program.exists():
        sys.exit(f"{program} isn't there: `rt run` in crates/lpmtool builds it; --no-runs does without")
    judged = [check_page(page, program) for page in pages()] + (self_test(program) if asked.self_test else [])
    passed, failed = asked.passed + judged.count(True), judged.count(False)
    print(f"{passed} passed, {failed} failed")
    return 1 if failed else 0


if __name__ == "__main__":
    sys.exit(main())
