#!/usr/bin/env python3
"""Checks that the manual page and the completions say what the program takes; tools/install.sh; and tools/lpmtool.

    tools/check_install.py [--program PATH] [--passed N]

What fails is printed, and makes the exit status 1. Checked are

- options: docs/FORMATS.md and the manual page docs/man/lpmtool.1 have the options of crates/lpm_options, each with its
  range and default, the commands with their operands, and the same exit statuses, and no others.
- words: the completions of each shell have these commands and options, and no others.
- completion: bash, zsh and fish offer the commands, the options of each, as many files as it wants, and neither where a
  number is wanted. bash and zsh offer no option that is given already.
- installing: from a copy of the repository's files under a folder, the program runs and each file is in place, with
  DESTDIR too, and with the library for C programs and without it. After --uninstall nothing is left but what was there
  before. Where nothing is built it says so. pkg-config, where it is installed, tells the library's folders and version.
- the first look: tools/lpmtool is the built program, and answers the addresses of examples/. Where nothing is built it
  says that what follows is unproved, and hands words and files to `rt try`, of which a stand-in takes note here.
- form: mandoc's lint has nothing to say of the manual pages, and man shows them without a warning.

What needs mandoc, man, zsh, fish or pkg-config is checked only where that is installed; what isn't is told. The program
that is installed is the built one, or a stand-in where none is there. Not seen: whether the shells look for their
completions where these are put.
"""
import argparse
import contextlib
import functools
import os
import pathlib
import re
import shlex
import shutil
import subprocess
import sys
import tempfile
from collections import namedtuple

TOP = pathlib.Path(__file__).resolve().parent.parent
PROGRAM = "crates/lpmtool/out/lpmtool"
MANUAL = "docs/man/lpmtool.1"
FIRST_LOOK = "tools/lpmtool"
ARCHIVE = "c/out/libsaxiko.a"
HEADER = "c/saxiko.h"
LIBRARY_MANUAL = "docs/man/saxiko.3"
FOLDER = "tools/completions"
# The completions of each shell, and how an option and a command are written there.
SHELLS = {
    "bash": ("lpmtool.bash", r"--(\w+)", r'commands="([a-z ]+)"'),
    "zsh": ("_lpmtool", r"--(\w+)", r"(?m)^        '(\w+):"),
    "fish": ("lpmtool.fish", r"complete .* -l (\w+)", r"-a (\w+) -d"),
}
SECONDS = 60  # for one run
# Prints what bash offers for each line: the words, or `FILES` where it completes files by itself.
TRY_BASH = """
compopt() { by_itself=""; }
source "$1"
while IFS= read -r line; do
    IFS=" " read -r -a COMP_WORDS <<< "$line"
    [[ $line != *" " ]] || COMP_WORDS+=("")
    COMP_CWORD=$((${#COMP_WORDS[@]} - 1)) by_itself=FILES
    _lpmtool
    echo "${COMPREPLY[*]:-$by_itself}"
done
complete -p lpmtool
"""

# Prints what fish offers for each line.
TRY_FISH = r"""
source $argv[1]
while read line
    set offers (complete -C $line | string replace -r "\t.*" "")
    printf "%s\n" "$offers"
end
"""

# Prints what zsh offers for each line: a zsh at a terminal of its own is handed the line, and then a key of its own that
# takes note of what would be offered.
TRY_ZSH = r"""
zmodload zsh/zpty || exit
export told=$PWD/.told
mkfifo $told
exec {told_at}<> $told
zpty shell zsh -f -i
zpty -w shell "fpath=(${(q)1} \$fpath); autoload -Uz compinit; compinit -u -D"
zpty -w shell "zstyle ':completion:*' completer _complete"
zpty -w shell 'compadd() {
    local -a hits
    if [[ " ${(j: :)@[1,(i)(-|--)]}" == *" -"[OAD]" "* ]]; then builtin compadd "$@"; return; fi
    builtin compadd -O hits "$@"
    offers+=($hits)
}'
zpty -w shell 'tell() { typeset -gaU offers; offers=(); _main_complete; print -r -- "$offers" > $told }'
zpty -w shell 'zle -C tell complete-word tell; bindkey "^T" tell; print > $told'
read -r -t 20 -u $told_at || exit
while IFS= read -r line; do
    zpty -w -n shell $'\x15'$line$'\x14'
    read -r -t 20 -u $told_at offers || exit
    print -r -- $offers
done
"""
# man's warnings, without the page.
TRY_MAN = 'LC_ALL=C.UTF-8 man --warnings -l "$1" 2>&1 > /dev/null'

# The names, in order: what a command wants, which of these are files, and its options.
Command = namedtuple("Command", "operands files options")
WORDS = {"ADDRESS"}  # what is wanted as one word or more, and is no file


def text_of(path):
    return (TOP / path).read_text()


def run(words, **given):
    """Runs a program; returns its status, and what it wrote on either output."""
    given = {"input": "", "cwd": TOP, **given}
    ran = subprocess.run(words, timeout=SECONDS, text=True, stdout=subprocess.PIPE, stderr=subprocess.STDOUT, **given)
    return ran.returncode, ran.stdout


# ---- what the program takes, by its source

SOURCE = text_of("crates/lpm_options/src/commands.rt")
VERSION = re.search(r'VERSION: &str = "([\d.]+)"', SOURCE)[1]
BODIES = dict(re.findall(r"(?ms)^(?:pub\(crate\) )?fn (\w+).*?^\{\n(.*?)^\}", SOURCE))


def spelled_out(name):
    """The body of a function of the source, with the bodies of those that it calls where it calls them."""
    return re.sub(r"\w+\(", lambda call: call[0] + (spelled_out(call[0][:-1]) if call[0][:-1] in BODIES else ""),
                  BODIES[name])


def commands():
    """Each command with its operands, files and options."""
    found = {}
    for body in (spelled_out(name) for name in BODIES if name.endswith("_command") and '"' in BODIES[name]):
        name, *options = re.findall(r'"([a-z]+)"', body)
        operands = re.findall(r'"([A-Z]{2,})"', body)
        found[name] = Command(operands, [it for it in operands if it not in WORDS], options)
    return found


def options():
    """Each option with the first and the last number that it takes, and its default; a flag has none."""
    places = {"": SOURCE, "Config::": text_of("crates/lpm_limits/src/config.rt")}
    pattern = r"const (\w+): Range = Range \{\s*first: (\w+),\s*last: (\w+),"
    ranges = {prefix + name: (first.replace("_", ""), last.replace("_", ""))
              for prefix, text in places.items() for name, first, last in re.findall(pattern, text)}
    numbers = re.findall(r'\bnumber\(\s*alloc,\s*"(\w+)",\s*([\w:]+),\s*"(\d+)"', SOURCE)
    found = {name: (*ranges[where], default) for name, where, default in numbers}
    return {**found, **dict.fromkeys(re.findall(r'\bflag\(\s*alloc,\s*"(\w+)"', SOURCE))}


# ---- what the pages say; each check gives what is wrong

def differences(what, wanted, got):
    """Where two tables differ."""
    return [f"{what}: {key}: {got.get(key, 'not there')}, wanted {wanted.get(key, 'none')}"
            for key in sorted({*wanted, *got}) if key not in got or key not in wanted or wanted[key] != got[key]]


def check_formats():
    text = text_of("docs/FORMATS.md")
    rows = re.findall(r"(?m)^\| `--(\w+)(?: N)?` \|[^|\n]*\| (\d*) ?\| (\d*) ?\| ([\w ]+) \|$", text)
    yield from differences("docs/FORMATS.md", options(), {name: tuple(it) if it[0] else None for name, *it in rows})
    lines = re.findall(r"(?m)^\| `lpmtool (\w+) ([A-Z. ]+)` \|", text)
    wanted = {name: [it + ".." * (it in WORDS) for it in command.operands] for name, command in commands().items()}
    yield from differences("docs/FORMATS.md", wanted, {name: operands.split() for name, operands in lines})


def in_manual(command):
    """The operands of a command as the manual page has them."""
    return " ".join(it.lower() + " ..." * (it in WORDS) for it in command.operands)


def check_manual():
    text = text_of(MANUAL)
    items = {name: " ".join(rest.split()) for name, rest in
             re.findall(r"(?ms)^\.It Fl -(\w+).*?\n(.*?)(?=^\.(?:It|El))", text)}
    numbers = {name: re.search(r"from (\d+) to (\d+)\b.* The default is (\d+)\.", it) for name, it in items.items()}
    yield from differences(MANUAL, options(), {name: it and it.groups() for name, it in numbers.items()})
    wanted = {name: in_manual(it) for name, it in commands().items()}
    wanted["help"] = "command"
    lines = re.findall(r"(?m)^\.It Cm (\w+) (?:Op )?Ar (.*)", text)
    yield from differences(MANUAL, wanted, dict(lines))
    statuses = re.findall(r"(?m)^\.It (\d)$", text)
    told = set(re.findall(r"(?m)^\| (\d) \| .* \|$", text_of("docs/FORMATS.md").split("## Exit statuses")[1]))
    if statuses != sorted(told):
        yield f"{MANUAL}: the exit statuses {statuses}, wanted {sorted(told)}"
    synopsis = text.split(".Sh DESCRIPTION")[0]
    for name, command in commands().items():
        place = rf"\.Cm {name}\n(?:\.Op .*\n)*\.Ar {re.escape(in_manual(command))}\n"
        if not re.search(place, synopsis):
            yield f"{MANUAL}: the synopsis lacks {name} with its operands"


def check_form():
    for manual in (MANUAL, LIBRARY_MANUAL):
        _, told = run(["mandoc", "-Tlint", manual])
        # whether a page that it names is installed is the system's
        for line in told.splitlines():
            if "referenced manual not found" not in line:
                yield line


def check_shown():
    for manual in (MANUAL, LIBRARY_MANUAL):
        status, told = run(["sh", "-c", TRY_MAN, "sh", manual])
        if status or told:
            yield f"man of {manual} ends with {status}: {told}"


# ---- the completions

def check_words():
    wanted = {"commands": {*commands(), "help"}, "options": {*options(), "help", "version"}}
    for name, option, command in SHELLS.values():
        text = re.sub(r"(?m)^\s*#.*", "", text_of(f"{FOLDER}/{name}"))
        named = set(" ".join(re.findall(command, text)).split()) | {"help"}
        for kind, got in (("commands", named), ("options", set(re.findall(option, text)))):
            if got != wanted[kind]:
                yield f"{FOLDER}/{name}: {kind} that are missing or gone: {sorted(got ^ wanted[kind])}"


def lines():
    """Command lines that end where a word is completed, each with what bash offers there."""
    names = [*commands(), "help"]
    found = {"lpmtool ": names, "lpmtool help ": names, "lpmtool st": ["storm"], "lpmtool -": ["--help", "--version"],
             "lpmtool help lookup ": [], "lpmtool storm --rounds 5 --stuck --r": ["--rules"],
             "lpmtool lookup --groups=10 --g": [], "lpmtool lookup --groups = 10 --g": [],
             "lpmtool lookup --groups ": [], "lpmtool lookup --groups = ": [], "lpmtool lookup --groups =": [],
             "lpmtool lookup --groups 10 - ": ["FILES"], "lpmtool lookup --groups 10 a b ": [],
             "lpmtool apply -- --rules ": ["FILES"], "lpmtool apply -- --r": ["FILES"]}
    for name, command in commands().items():
        found[f"lpmtool {name} --"] = [f"--{it}" for it in (*command.options, "help")]
        found[f"lpmtool {name}{' file' * (len(command.files) - 1)} "] = ["FILES"]
        found[f"lpmtool {name}{' file' * len(command.files)} "] = []
    return found


def check_bash():
    _, told = run(["bash", "-c", TRY_BASH, "bash", f"{FOLDER}/lpmtool.bash"], input="\n".join([*lines(), ""]))
    *offers, registered = told.splitlines()
    if len(offers) != len(lines()) or registered != "complete -o default -F _lpmtool lpmtool":
        yield f"bash: {told}"
    yield from differences("bash", {line: sorted(it) for line, it in lines().items()},
                           {line: sorted(it.split()) for line, it in zip(lines(), offers)})


def check_shell(name, words, more):
    """What fish or zsh offers in a folder with the file `FILES`."""
    # what bash parts, and where it leaves files to the shell, is its own
    wanted = {line: it for line, it in lines().items() if " = " not in line and "=" != line.strip()[-1]}
    wanted = {**wanted, "lpmtool -": ["--help", "--version", "-V", "-h"], "lpmtool apply -- --r": [], **more}
    with tempfile.TemporaryDirectory(prefix="check install ") as folder:
        pathlib.Path(folder, "FILES").touch()
        status, told = run(words, input="".join(f"{line}\n" for line in wanted), cwd=folder)
    if status or len(told.splitlines()) != len(wanted):
        yield f"{name} ends with {status}: {told}"
    yield from differences(name, {line: sorted(it) for line, it in wanted.items()},
                           {line: sorted(it.split()) for line, it in zip(wanted, told.splitlines())})


def check_fish():
    # it offers an option again that is given already
    more = {"lpmtool storm --rounds 5 --stuck --r": ["--rounds", "--rules"], "lpmtool lookup --groups=10 --g": ["--groups"]}
    yield from check_shell("fish", ["fish", "--no-config", "-c", TRY_FISH, TOP / FOLDER / "lpmtool.fish"], more)


def check_zsh():
    # where all files are there, it offers the options that are left
    more = {f"lpmtool {name}{' file' * len(command.files)} ": [*(f"--{it}" for it in (*command.options, "help")), "-h"]
            for name, command in commands().items() if command.operands == command.files}
    more["lpmtool lookup --groups 10 a b "] = [f"--{it}" for it in (*commands()["lookup"].options, "help")
                                               if it != "groups"] + ["-h"]
    yield from check_shell("zsh", ["zsh", "-f", "-c", TRY_ZSH, "zsh", TOP / FOLDER], more)


# ---- tools/install.sh

PLACES = {
    "bin/lpmtool": PROGRAM,
    "share/man/man1/lpmtool.1": MANUAL,
    "share/bash-completion/completions/lpmtool": f"{FOLDER}/lpmtool.bash",
    "share/zsh/site-functions/_lpmtool": f"{FOLDER}/_lpmtool",
    "share/fish/vendor_completions.d/lpmtool.fish": f"{FOLDER}/lpmtool.fish",
}
LIBRARY = {
    "lib/libsaxiko.a": ARCHIVE,
    "include/saxiko.h": HEADER,
    "include/saxiko_rte_lpm.h": "c/saxiko_rte_lpm.h",
    "lib/pkgconfig/saxiko.pc": "c/out/saxiko.pc",
    "share/man/man3/saxiko.3": LIBRARY_MANUAL,
}
BUILT = (PROGRAM, ARCHIVE, "c/out/saxiko.pc")  # not in the repository
NOTES = "share/lpmtool/folders"  # which folders were made


def put_script(path, line):
    path.write_text(f"#!/bin/sh\n{line}\n")
    path.chmod(0o755)


@contextlib.contextmanager
def copied(program, has_library=False):
    """A new folder with `top`, a copy of what is installed, with the program and the library or without them."""
    with tempfile.TemporaryDirectory(prefix="check install ") as folder:
        top = pathlib.Path(folder, "top")
        for path in ["tools/install.sh", FIRST_LOOK, "c/saxiko.pc.in", *PLACES.values(), *LIBRARY.values()]:
            (top / path).parent.mkdir(parents=True, exist_ok=True)
            if path not in BUILT:
                shutil.copy(TOP / path, top / path)
        if has_library:
            (top / ARCHIVE).write_text("!<arch>\n")
        if program and program.exists():
            shutil.copy(program, top / PROGRAM)
        elif program:
            put_script(top / PROGRAM, f"[ $1 = --version ] && echo lpmtool {VERSION}")
        yield pathlib.Path(folder)


def install(folder, *words, **given):
    return run(["sh", "top/tools/install.sh", *words], cwd=folder, **given)


def tree(folder):
    """The files and folders under a folder."""
    return sorted(str(path.relative_to(folder)) for path in folder.rglob("*"))


def misplaced(root, top, has_library):
    """What is wrong with the installed files under a folder."""
    files = {it for it in tree(root) if not (root / it).is_dir()}
    places = {**PLACES, **(LIBRARY if has_library else {})}
    if files != {*places, NOTES}:
        yield f"installed are {sorted(files)}"
        return
    for place, path in places.items():
        mode = 0o755 if path == PROGRAM else 0o644
        if (root / place).read_bytes() != (top / path).read_bytes() or (root / place).stat().st_mode & 0o777 != mode:
            yield f"installed at {place} is another file, or its mode isn't {mode:o}"
    status, told = run([root / "bin/lpmtool", "--version"])
    if (status, told) != (0, f"lpmtool {VERSION}\n"):
        yield f"the installed program ends with {status} and prints {told}"


def check_round(program, is_staged):
    """Installs twice and uninstalls, in a new folder and where another's are, in which another file comes meanwhile."""
    for others, later, has_library in (([], [], False), ([], [], True),
                                       (["bin", "share/man/man1"], ["share/zsh", "share/zsh/later"], True)):
        with copied(program, has_library) as folder:
            prefix, stage = folder / "new", f"{folder}/stage" if is_staged else ""
            place, given = pathlib.Path(f"{stage}{prefix}"), {"env": {**os.environ, "DESTDIR": stage}}
            for other in others:
                (place / other).mkdir(parents=True)
            wanted = sorted({*tree(place), *later})
            told = [install(folder, "--prefix", "new", **given) for _ in range(2)]
            yield from misplaced(place, folder / "top", has_library)
            if has_library and f"prefix={prefix}\n" not in (place / "lib/pkgconfig/saxiko.pc").read_text():
                yield f"saxiko.pc has another prefix than {prefix}"
            for other in later[-1:]:
                (place / other).touch()
            told.append(install(folder, "--prefix=new", "--uninstall", **given))
            if any(status for status, _ in told) or tree(place) != wanted:
                yield f"after --uninstall there is {tree(place)}, wanted {wanted}: {told}"
            if is_staged and prefix.exists():
                yield f"with DESTDIR there is {prefix}"


def check_pkg_config(program):
    """What pkg-config tells of the installed library."""
    with copied(program, has_library=True) as folder:
        install(folder, "--prefix", "new")
        given = {"env": {**os.environ, "PKG_CONFIG_PATH": f"{folder}/new/lib/pkgconfig"}}
        _, version = run(["pkg-config", "--modversion", "saxiko"], **given)
        _, flags = run(["pkg-config", "--cflags", "--libs", "saxiko"], **given)
        wanted = [f"-I{folder}/new/include", f"-L{folder}/new/lib", "-lsaxiko"]
        if version != f"{VERSION}\n" or shlex.split(flags) != wanted:
            yield f"pkg-config tells version {version} and flags {flags}"


def check_not_built():
    with copied(None) as folder:
        status, told = install(folder, "--prefix", "new")
        if status != 1 or "cd crates/lpmtool && rt run -- --help" not in told or (folder / "new").exists():
            yield f"with no program it ends with {status}: {told}{tree(folder)}"


def check_refused_words(program):
    for words in (["--prefix"], ["--prefix="], ["--prefix", ""], ["--uninstal"], ["--prefix", "new", "more"]):
        with copied(program) as folder:
            status, told = install(folder, *words)
            if status != 2 or "usage:" not in told or (folder / "new").exists():
                yield f"{words} ends with {status}: {told}"


# ---- tools/lpmtool

def check_first_look(program):
    """What it prints from another folder, with the built program or the stand-in for it."""
    with copied(program) as folder:
        status, told = run(["top/" + FIRST_LOOK, "--version"], cwd=folder)
        if (status, told) != (0, f"lpmtool {VERSION}\n"):
            yield f"{FIRST_LOOK} --version ends with {status} and prints {told}"
        if program.exists():
            words = [f"top/{FIRST_LOOK}", "lookup", TOP / "examples/routes.txt", TOP / "examples/addresses.txt"]
            if run(words, cwd=folder) != (0, text_of("examples/answers.txt")):
                yield f"{FIRST_LOOK} doesn't answer examples/addresses.txt as examples/answers.txt has it"


def check_unproved_look():
    """What it hands to `rt try`, which a stand-in prints, with the folder that it is run in."""
    with copied(None) as folder:
        for name in ("routes.txt", "new/routes.txt", "a=b"):
            (folder / name).parent.mkdir(exist_ok=True)
            (folder / name).touch()
        put_script(folder / "rt", 'pwd; printf "%s\\n" "$@"')
        given = {"cwd": folder / "new", "env": {**os.environ, "PATH": f"{folder}:{os.environ['PATH']}"}}
        words = ["storm", "--rounds", "5", "routes.txt", "../routes.txt", "./../a=b", "-", "none"]
        status, told = run([folder / "top" / FIRST_LOOK, *words], **given)
        data = [f"routes.txt={folder}/new/routes.txt", f"file5/routes.txt={folder}/routes.txt", f"file6/a-b={folder}/a=b"]
        wanted = [f"{folder}/top/crates/lpmtool", "try", "lpmtool", *(it for name in data for it in ("--data", name)),
                  "--", *words[:4], "file5/routes.txt", "file6/a-b", "-", "none"]
        if status or "unproved" not in told or "rt run" not in told or told.splitlines()[2:] != wanted:
            yield f"{FIRST_LOOK}, with nothing built, ends with {status}: {told}"
        status, told = run([sys.executable, folder / "top" / FIRST_LOOK, "help"], env={**os.environ, "PATH": ""})
        if not status or "the kit's rt isn't on the path" not in told:
            yield f"{FIRST_LOOK}, with no rt on the path, ends with {status}: {told}"


def checks(program):
    """The checks that can be made here, and what isn't checked for want of a program."""
    found = [check_formats, check_manual, check_words, check_bash, check_not_built, check_unproved_look]
    found += [functools.partial(check_round, program, is_staged) for is_staged in (False, True)]
    found += [functools.partial(it, program) for it in (check_refused_words, check_first_look)]
    optional = {"mandoc": check_form, "man": check_shown, "zsh": check_zsh, "fish": check_fish,
                "pkg-config": functools.partial(check_pkg_config, program)}
    lacking = [name for name in optional if not shutil.which(name)]
    return found + [check for name, check in optional.items() if name not in lacking], lacking


def main():
    asked = argparse.ArgumentParser(description=__doc__, formatter_class=argparse.RawDescriptionHelpFormatter)
    asked.add_argument("--program", type=pathlib.Path, default=TOP / PROGRAM, help="the program that is installed")
    asked.add_argument("--passed", type=int, default=0, metavar="N",
                       help="what the last line, `N passed, M failed`, counts as passed already")
    asked = asked.parse_args()
    os.environ.pop("DESTDIR", None)
    passed, failed = asked.passed, 0
    found, lacking = checks(asked.program)
    if lacking:
        print(f"not installed, so what needs them isn't checked: {', '.join(lacking)}")
    for check in found:
        try:
            faults = list(check())
        except (OSError, subprocess.TimeoutExpired) as error:
            faults = [error]
        for fault in faults:
            print(fault)
        passed, failed = passed + (not faults), failed + bool(faults)
    print(f"{passed} passed, {failed} failed")
    return 1 if failed else 0


if __name__ == "__main__":
    sys.exit(main())
