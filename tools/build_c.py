#!/usr/bin/env python3
"""Makes libsaxiko.a, the table for C programs, of the proved crate saxiko_c and the C files in c/.

    tools/build_c.py

Needs the kit's rt on the path, a C compiler (CC, or cc) and ar. It makes c/out/libsaxiko.a, and before it
crates/saxiko_c/out/libsaxiko_c.a, where that isn't there or is older than what it is made of. That proves the crate, over
the libraries that `rt ci` or `rt lib` has left in the out/ of the crates below; where one isn't there, `rt lib` makes all
of them. What is made is held against NEEDED, the names that the archive leaves to others.
"""
import os
import pathlib
import shlex
import shutil
import subprocess
import sys

TOP = pathlib.Path(__file__).resolve().parent.parent
CRATE = TOP / "crates/saxiko_c"
PROVED = CRATE / "out/libsaxiko_c.a"
PARTS = ("heap", "saxiko", "strerror")
OUT = TOP / "c/out"
# What a program that links with the archive has to have: all of it is in the C library.
NEEDED = {"malloc", "posix_memalign", "realloc", "free", "madvise", "memcpy", "memmove", "memset", "memcmp"}
WARNINGS = ["-std=c11", "-Wall", "-Wextra", "-Wpedantic", "-Werror"]


def run(words, **given):
    """Runs a program; ends with what it wrote where it fails."""
    ran = subprocess.run([str(word) for word in words], text=True, stdout=subprocess.PIPE, stderr=subprocess.STDOUT,
                         **given)
    if ran.returncode:
        sys.exit(f"{shlex.join(str(word) for word in words)} ended with {ran.returncode}:\n{ran.stdout}")
    return ran.stdout


def compiler():
    words = shlex.split(os.environ.get("CC") or "cc")
    for name in (words[0], "ar", "nm"):
        if not shutil.which(name):
            sys.exit(f"there is no {name}: install a C compiler and binutils, as by `apt-get install gcc binutils`")
    return words


def kit():
    """The kit's own library of commands, which knows the flags of its compiler."""
    rt = shutil.which("rt")
    if not rt:
        sys.exit("there is no rt on the path")
    sys.path.insert(0, os.path.dirname(os.path.realpath(rt)))
    import rtlib
    return rtlib


def newest(*folders):
    """When a file below these folders was last written."""
    return max((path.stat().st_mtime for folder in folders for path in folder.rglob("*") if path.is_file()), default=0)


def prove_and_build():
    """Makes the static library of the crate, which proves it, over the libraries that stand in out/."""
    rtlib = kit()
    crate = rtlib.Crate(str(CRATE), str(TOP), {})
    if not all(os.path.isdir(it.rlib) for it in crate.below()):
        run(["rt", "lib"], cwd=CRATE)
        return
    sources = newest(*(CRATE / it for it in ("src", "specs", "proofs")), *(pathlib.Path(it.rlib) for it in crate.below()))
    if PROVED.is_file() and PROVED.stat().st_mtime >= sources:
        return
    PROVED.parent.mkdir(exist_ok=True)
    words = [*crate.words(["--jobs", str(min(4, os.cpu_count() or 1))]), "--toolchain", f"{rtlib.KIT}/toolchain"]
    said = run([rtlib.RATTLE, "build", *words, "--backend", "llvm", *rtlib.KEPT, "-o", PROVED], cwd=CRATE)
    print(said.strip().splitlines()[-1])


def undefined(archive):
    """The names that the archive's parts use and none of them has."""
    symbols = [line.split() for line in run(["nm", archive]).splitlines() if " " in line]
    have = {it[-1] for it in symbols if it[-2] not in "Uw"}
    return {it[-1] for it in symbols if it[-2] == "U"} - have


def main():
    cc = compiler()
    prove_and_build()
    OUT.mkdir(exist_ok=True)
    objects = []
    for part in PARTS:
        objects.append(OUT / f"{part}.o")
        run([*cc, *WARNINGS, "-O2", "-fPIC", "-c", TOP / f"c/{part}.c", "-o", objects[-1]])
    archive = OUT / "libsaxiko.a"
    shutil.copyfile(PROVED, archive)
    run(["ar", "rcs", archive, *objects])
    beyond = undefined(archive) - NEEDED
    if beyond:
        sys.exit(f"{archive} needs more than the C library's {sorted(NEEDED)}: {sorted(beyond)}")
    print(f"{archive.relative_to(TOP)}: {archive.stat().st_size} bytes")


if __name__ == "__main__":
    main()
