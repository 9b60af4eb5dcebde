#!/usr/bin/env python3
"""Checks the C library: the header, the archive, and C programs over them.

    tools/check_c.py [--passed N]

What fails is printed, and makes the exit status 1. The archive is made anew by tools/build_c.py. Checked are

- headers: saxiko.h and saxiko_rte_lpm.h compile without a warning as C99, C11 and C++11, in front of all others.
- comments: in saxiko.h the comment of each call, or of the calls that stand together, says on which thread it is made.
- archive: it has each call that the header declares, and needs no more of others than the page of the crate names.
- heap: c/tests/heap.c asks for small and large blocks as the proved part does; in the same three ways as the calls.
- calls: c/tests/calls.c tries each call with what it refuses; as it is, with the sanitizers of addresses and of
  undefined behaviour, and under valgrind.
- memory: c/tests/refused.c refuses memory to each call, from each allocation on in turn; in the same three ways.
- threads: c/tests/forwarder_threads.c looks up on three threads while a fourth changes routes, in the same three ways.
- example: examples/forwarder.c prints what examples/forwarder.txt says.
- manual: docs/man/saxiko.3 has the calls of the header, with their parameters.
- installed: the program of that page, in C and in C++, finds the library that tools/install.sh has put under a folder, and
  prints its answer.
- bench: by valgrind's count, a lookup by a handle takes at most MORE instructions more than one over plain words, one of
  many at once no more than one by itself, and a reader's of many at most RATIO times those of a table's.
- pages: c/tests/pages.c gets the same answers on small pages and on huge ones; it prints what lookups take on each.

Without a C and a C++ compiler, valgrind or their libraries it says what to install, and fails.
"""
import argparse
import os
import pathlib
import re
import shlex
import shutil
import subprocess
import sys
import tempfile

sys.dont_write_bytecode = True
import build_c
import check_install

TOP = pathlib.Path(__file__).resolve().parent.parent
ARCHIVE = build_c.OUT / "libsaxiko.a"
MANUAL = TOP / "docs/man/saxiko.3"
PAGE = TOP / "crates/saxiko_c/README.md"
PARTS = [f"c/{part}.c" for part in build_c.PARTS]
SANITIZERS = ["-g", "-fsanitize=address,undefined", "-fno-sanitize-recover=all"]
VALGRIND = ["valgrind", "--quiet", "--error-exitcode=99", "--fair-sched=yes", "--leak-check=full",
            "--errors-for-leak-kinds=definite,indirect"]
TOOLS = {"g++": "g++", "valgrind": "valgrind", "ar": "binutils", "nm": "binutils"}
REFUSED = r"==\d+==WARNING: AddressSanitizer failed to allocate 0x2000000000000000 bytes"  # as the test wants it
ASKED_HERE = ["-Wl,--wrap=rattle_alloc,--wrap=rattle_realloc"]  # the proved part asks that program for memory
SECONDS = 300  # for one run
MORE = 12  # instructions
RATIO = 1.3
LOOKUPS = 10000  # of the bench


def run(words, **given):
    """Runs a program; returns its status, and what it wrote on either output."""
    given = {"cwd": TOP, "timeout": SECONDS, **given}
    ran = subprocess.run([str(word) for word in words], text=True, stdin=subprocess.DEVNULL, stdout=subprocess.PIPE,
                         stderr=subprocess.STDOUT, **given)
    return ran.returncode, ran.stdout


def compiler():
    return shlex.split(os.environ.get("CC") or "cc")


def compiled(folder, sources, *flags):
    """The program of C files over the archive. What these have isn't taken from it."""
    program = pathlib.Path(folder, f"program{len(list(pathlib.Path(folder).iterdir()))}")
    words = [*compiler(), *build_c.WARNINGS, "-O2", *flags, "-Ic", *sources, ARCHIVE, "-pthread", "-o", program]
    status, told = run(words)
    if status or told:
        raise OSError(f"{sources[0]}: {told}")
    return program


# ---- the checks: each gives what is wrong

def check_header(folder):
    for words in ([*compiler(), "-std=c99", "-xc"], [*compiler(), "-std=c11", "-xc"], ["g++", "-std=c++11", "-xc++"]):
        source = pathlib.Path(folder, "header.c")
        source.write_text('#include "saxiko_rte_lpm.h"\n#include "saxiko.h"\nstruct saxiko_table table = SAXIKO_CLOSED;\n'
                          "struct saxiko_config config = SAXIKO_DEFAULTS;\n")
        status, told = run([*words, "-Ic", "-Wall", "-Wextra", "-Wpedantic", "-Werror", "-c", source, "-o", "/dev/null"])
        if status or told:
            yield f"{words}: {told}"


def check_comments(folder):
    for part in (TOP / "c/saxiko.h").read_text().split("\n\n"):
        calls = re.findall(r"(?m)^(?:inline )?\w[\w ]*[ *](saxiko_\w+)\(", part)
        if calls and not re.match(r"/\*(?:(?!\*/)[\s\S])*\bthread\b", part):
            yield f"c/saxiko.h: no comment says on which thread {calls[0]} is made"


def check_archive(folder):
    declared = set(re.findall(r"\b(saxiko_\w+)\(", re.sub(r"(?s)/\*.*?\*/", "", (TOP / "c/saxiko.h").read_text())))
    status, told = run(["nm", ARCHIVE])
    have = set(re.findall(r"(?m)^\S+ T (saxiko_\w+)$", told))
    missing = {name for name in declared ^ have if not name.startswith("saxiko_proved_")}
    if status or missing:
        yield f"the header and the archive differ in {sorted(missing)}"
    named = set(re.findall(r"`(\w+)`", re.search(r"(?s)The archive needs (.*?), and no other name", PAGE.read_text())[1]))
    needed = build_c.undefined(ARCHIVE)
    if not needed <= named:
        yield f"the archive needs {sorted(needed - named)}, which {PAGE.relative_to(TOP)} doesn't name"


def check_manual(folder):
    text = re.sub(r"(?s)/\*.*?\*/", "", (TOP / "c/saxiko.h").read_text())
    declared = {name: " ".join(words.split()) for name, words in re.findall(r"\b(saxiko_\w+)\(([^()]*)\)(?:;| \{)", text)
                if "proved" not in name}
    calls = re.findall(r'(?m)^\.Fn (saxiko_\w+) (".*")$', MANUAL.read_text())
    told = {name: ", ".join(re.findall(r'"([^"]*)"', words)) for name, words in calls}
    if declared != told:
        yield f"{MANUAL.relative_to(TOP)}: the calls differ from the header's in {sorted(set(declared.items()) ^ set(told.items()))}"


def ways(folder, source, *flags):
    """A program as it is, with sanitizers, and under valgrind. The library's own C parts have the sanitizers too."""
    plain = compiled(folder, [source], *flags)
    yield "as it is", [plain]
    yield "with sanitizers", [compiled(folder, [source, *PARTS], *SANITIZERS, *flags)]
    yield "under valgrind", [*VALGRIND, plain]


def check_program(folder, source, wanted, *flags):
    for name, words in ways(folder, source, *flags):
        status, told = run(words)
        if status or not re.fullmatch(wanted, told):
            yield f"{source} {name} ends with {status}: {told}"


def check_calls(folder):
    return check_program(folder, "c/tests/calls.c", r"calls: \d+ checked, 0 wrong\n")


def check_memory(folder):
    return check_program(folder, "c/tests/refused.c", r"refused: \d+ checked, 0 wrong\n", *ASKED_HERE)


def check_heap(folder):
    return check_program(folder, "c/tests/heap.c", rf"({REFUSED}\n)*heap: \d+ checked, 0 wrong\n")


def check_threads(folder):
    return check_program(folder, "c/tests/forwarder_threads.c", r"forwarder_threads: \d+ checked, 0 wrong\n")


def check_example(folder):
    program = compiled(folder, ["examples/forwarder.c"])
    files = [f"examples/{name}.txt" for name in ("routes", "updates", "addresses")]
    status, told = run([program, *files])
    wanted = (TOP / "examples/forwarder.txt").read_text()
    if (status, told) != (0, wanted):
        yield f"examples/forwarder.c ends with {status}: {told}"


def check_installed(folder):
    page = re.search(r"(?s)\.Bd -literal\n(.*?)\.Ed\n", MANUAL.read_text())[1].replace("\\e", "\\")
    source, program = pathlib.Path(folder, "page.c"), pathlib.Path(folder, "page")
    source.write_text(page)
    with check_install.copied(pathlib.Path(folder, "none"), has_library=True) as place:
        shutil.copyfile(ARCHIVE, place / "top" / check_install.ARCHIVE)
        status, told = check_install.install(place, "--prefix", "new", env={**os.environ, "DESTDIR": ""})
        if status:
            yield f"tools/install.sh ends with {status}: {told}"
        flags = [f"-I{place}/new/include", f"-L{place}/new/lib", "-lsaxiko"]  # what pkg-config tells
        for words in ([*compiler(), *build_c.WARNINGS, "-xc"], ["g++", "-std=c++11", *build_c.WARNINGS[1:], "-xc++"]):
            status, told = run([*words, source, "-xnone", *flags, "-o", program])
            if status or told or run([program]) != (0, "2\n"):
                yield f"{words} of the program of {MANUAL.relative_to(TOP)}: {told}"


def instructions(folder, program, way):
    """How many instructions a lookup takes in one way, and what all answers add up to."""
    words = ["valgrind", "--tool=callgrind", f"--callgrind-out-file={folder}/callgrind", f"--toggle-collect=by_{way}*",
             program, way]
    status, told = run(words)
    found = re.search(r"Collected : (\d+)", told)
    if status or not found:
        raise OSError(f"{way} ends with {status}: {told}")
    return int(found[1]) / LOOKUPS, re.search(r"(?m)^(\d+)$", told)[1]


def check_bench(folder):
    program = compiled(folder, ["c/tests/bench.c"])
    counted = {way: instructions(folder, program, way) for way in ("words", "handle", "table_bulk", "reader_bulk")}
    words, handle, table, reader = (count for count, _ in counted.values())
    print(f"instructions of a lookup: {words:.1f} over plain words, {handle:.1f} by a handle; of many at once, "
          f"{table:.1f} by a table and {reader:.1f} by a reader")
    if len({answers for _, answers in counted.values()}) > 1:
        yield f"the answers differ: {counted}"
    if handle > words + MORE:
        yield f"a lookup by a handle takes more than {MORE} instructions more"
    if table > handle:
        yield "a lookup of many at once takes more instructions than one by itself"
    if reader > RATIO * table:
        yield f"a reader's lookup of many takes more than {RATIO} times the instructions of a table's"


def check_pages(folder):
    status, told = run([compiled(folder, ["c/tests/pages.c"])])
    print(told, end="")
    if status:
        yield f"c/tests/pages.c ends with {status}"


CHECKS = [check_header, check_comments, check_archive, check_manual, check_heap, check_calls, check_memory, check_threads,
          check_example, check_installed, check_bench, check_pages]


def main():
    asked = argparse.ArgumentParser(description=__doc__, formatter_class=argparse.RawDescriptionHelpFormatter)
    asked.add_argument("--passed", type=int, default=0, metavar="N",
                       help="what the last line, `N passed, M failed`, counts as passed already")
    asked = asked.parse_args()
    lacking = sorted({package for tool, package in TOOLS.items() if not shutil.which(tool)})
    passed, failed = asked.passed, 0
    if lacking:
        print(f"install {' '.join(lacking)}, as by `apt-get install {' '.join(lacking)}`")
        print(f"{passed} passed, 1 failed")
        return 1
    build_c.main()
    for check in CHECKS:
        with tempfile.TemporaryDirectory(prefix="check_c ") as folder:
            try:
                faults = list(check(folder))
            except (OSError, subprocess.TimeoutExpired) as error:
                faults = [error]
        for fault in faults:
            print(f"{check.__name__}: {fault}")
        passed, failed = passed + (not faults), failed + bool(faults)
    print(f"{passed} passed, {failed} failed")
    return 1 if failed else 0


if __name__ == "__main__":
    sys.exit(main())
