#!/usr/bin/env python3
"""Runs the built lpmtool on the cases of tools/cases.py, as they are and with each allocation refused in turn; and so
two tests of library calls.

Of each run the exit status is compared, and the whole of standard output and standard error. A case runs as it is, once
or as often as it says. Then its first allocation is refused, then its second, until a run ends without a refusal; cases
that take memory as another one does are left out here. Each of these runs has to end as the case wants, or with status
5, nothing on standard output and `lpmtool: out of memory` on standard error. The last one has to end as the case wants,
and at least one with status 5. The start of a thread is refused as an allocation is. Where a case has `threads`, a run
may end with the refusal `NoThread` too, and at least one has to.

Two tests of calls of the library run with each allocation refused too (TESTS). Each run has to end as the test wants,
or with want of memory as its result: an assertion never fails. At least so many runs have to end as wanted as the call
has growths of its own, after each of which the test makes the call again.

What runs are the programs that `rt ci` leaves behind, built by LLVM and by Rattle's own compiler from what it proved.
They are the real ones, they run in hundredths of a second, and nothing is built again. `rt try --fail-alloc N` takes a
minute for each N and runs a program built in another way.

Not seen: which refusals a run has to survive, since status 5 is right after each; memory that isn't taken by malloc,
calloc or realloc, of which Rattle's programs take none; and with several workers every order of their allocations, of
which each run meets one.
"""
import argparse
import os
import pathlib
import subprocess
import sys
import tempfile
from collections import namedtuple
from concurrent.futures import ThreadPoolExecutor

sys.dont_write_bytecode = True
from cases import CASES, Has

HERE = pathlib.Path(__file__).resolve().parent
PROGRAM = HERE.parent / "crates/lpmtool/out/lpmtool"
BUILDS = {"LLVM": PROGRAM, "Rattle's compiler": PROGRAM.with_name("lpmtool.by-rattle")}
AS_WANTED = "as wanted"
OUT_OF_MEMORY = (5, "", "lpmtool: out of memory\n")
NO_THREAD = (6, "", "lpmtool: refused 12 NoThread\n")
# (a test that returns an error ends so: with that error, as Debug writes it)
TEST_OUT_OF_MEMORY = (101, {"error: Memory", "error: AllocError"})
SECONDS = 60  # for one run
MOST = 5000  # allocations of one case, which has about a hundred
LONG = 2000  # characters of a text that a failed case shows


# A test of a library call, and how many growths that call has of its own.
Test = namedtuple("Test", "crate name growths")
TESTS = [
    Test("core_tests", "tests::table::a_refused_growth", 1),
    # (the desks with addresses, and the joined list, with 1, 2, 3 and 8 workers)
    Test("running_tests", "tests::pieces::five_addresses_by_a_running_table", 2 + 3 + 4 + 6),
]


def run(words, refuser=None, at=0, **given):
    """Runs a program; returns (status, output, error), and whether an allocation was refused."""
    seen, told = os.pipe()
    refusing = {"LD_PRELOAD": refuser, "REFUSE_AT": str(at), "REFUSE_FD": str(told)} if refuser else {}
    given = {"stdout": subprocess.PIPE, **given}
    try:
        ran = subprocess.run(words, env=refusing, stderr=subprocess.PIPE, pass_fds=[told], timeout=SECONDS, **given)
    finally:
        os.close(told)
        was_refused = os.read(seen, 1) == b"x"
        os.close(seen)
    out, err = ((it or b"").decode(errors="backslashreplace") for it in (ran.stdout, ran.stderr))
    return (ran.returncode, out, err), was_refused


def run_case(program, case, refuser=None, at=0):
    """Runs the case in a new folder."""
    with tempfile.TemporaryDirectory(prefix="try-program-") as folder, open("/dev/full", "wb") as full:
        for name, text in case.files.items():
            pathlib.Path(folder, name).write_bytes(text if isinstance(text, bytes) else text.encode())
        # (the program's name in the parser's texts is that of word 0)
        return run(["lpmtool", *case.words], refuser, at, executable=program, cwd=folder, input=case.stdin.encode(),
                   stdout=full if case.full else subprocess.PIPE)


def is_wanted(case, got):
    """Whether status, output and error are those of the case."""
    texts = zip((case.out, case.err), got[1:])
    return got[0] == case.status and all(it in text if isinstance(it, Has) else it == text for it, text in texts)


def brief(ending):
    """The status and the texts, of a long one its beginning alone."""
    status, *texts = ending
    return (status, *(text if len(text) <= LONG else f"{text[:LONG]} .. of {len(text)} characters" for text in texts))


def try_case(program, case, refuser):
    """Runs the case as it is, and with each allocation refused if it asks for that.

    Returns whether all is well, and what to say.
    """
    for _ in range(case.times):
        got, _ = run_case(program, case)
        if not is_wanted(case, got):
            return False, f"got {brief(got)}, wanted {brief((case.status, case.out, case.err))}"
    if not case.refusing:
        return True, AS_WANTED
    ends = [OUT_OF_MEMORY] + [NO_THREAD] * case.threads
    times = dict.fromkeys(ends, 0)
    for at in range(1, MOST + 1):
        got, was_refused = run_case(program, case, refuser, at)
        if was_refused and got in times:
            times[got] += 1
        elif not is_wanted(case, got):
            return False, f"with allocation {at} {'refused' if was_refused else 'reached no more'}: got {got}"
        if not was_refused:
            counts = ", ".join(f"{count} times status {status}" for (status, *_), count in times.items())
            return all(times.values()), f"{AS_WANTED}; {at - 1} allocations refused in turn, {counts}"
    return False, f"it makes over {MOST} allocations"


def try_test(test, refuser):
    """Runs the test with each allocation refused; returns whether all is well, and what to say."""
    program = HERE.parent / f"crates/{test.crate}/out/{test.crate}_tests"
    ended_well, (failed, texts) = 0, TEST_OUT_OF_MEMORY
    for at in range(1, MOST + 1):
        got, was_refused = run([program, test.name], refuser, at)
        is_out = was_refused and got[0] == failed and got[2].split("\n")[0] in texts
        if not (is_out or got[0] == 0):
            return False, f"with allocation {at} {'refused' if was_refused else 'reached no more'}: got {got}"
        if not was_refused:
            text = f"{at - 1} allocations refused in turn, {ended_well} times the test passed"
            return ended_well >= test.growths, f"{text}, wanted at least {test.growths}"
        ended_well += not is_out
    return False, f"it makes over {MOST} allocations"


def build_refuser(folder):
    """Compiles the library that refuses an allocation, and returns its path."""
    made, compiler = f"{folder}/refuse_memory.so", os.environ.get("CC", "cc")
    words = ["-O1", "-shared", "-fPIC", "-o", made, HERE / "refuse_memory.c", "-ldl"]
    subprocess.run([compiler, *words], check=True)
    return made


def main():
    asked = argparse.ArgumentParser(description=__doc__, formatter_class=argparse.RawDescriptionHelpFormatter)
    asked.add_argument("names", nargs="*", metavar="CASE", help="only the cases of these names")
    asked.add_argument("--passed", type=int, default=0, metavar="N",
                       help="what the last line, `N passed, M failed`, counts as passed already")
    asked = asked.parse_args()
    passed, failed = asked.passed, 0
    cases = [it for it in CASES if not asked.names or it.name in asked.names]
    # (rt ci builds by Rattle's own compiler where that can; the build by LLVM has to be there)
    builds = {name: path for name, path in BUILDS.items() if path == PROGRAM or path.exists()}
    with tempfile.TemporaryDirectory(prefix="try-program-") as folder, ThreadPoolExecutor(os.cpu_count()) as pool:
        refuser = build_refuser(folder)
        # (the tests first, since they take longest)
        tasks = [(f"{test.crate}, {test.name}", pool.submit(try_test, test, refuser))
                 for test in TESTS if not asked.names]
        tasks += [(f"lpmtool, {case.name}, by {name}", pool.submit(try_case, path, case, refuser))
                  for name, path in builds.items() for case in cases]
        for name, task in tasks:
            try:
                is_well, text = task.result()
            except (OSError, subprocess.TimeoutExpired) as error:
                is_well, text = False, str(error)
            # (of the many cases that run once alone only the failed ones are told)
            if not is_well or text != AS_WANTED:
                print(f"{name}: {'' if is_well else 'FAILED: '}{text}")
            passed, failed = passed + is_well, failed + (not is_well)
    print(f"{passed} passed, {failed} failed")
    return 1 if failed or not tasks else 0


if __name__ == "__main__":
    sys.exit(main())
