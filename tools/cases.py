"""The runs of lpmtool that tools/try_program.py compares whole: status, standard output and standard error.

A row is a name, the words, the files by name, and what is wanted: `status` (0), `out` and `err` (nothing). `stdin` is
what stands on standard input (nothing). With `full=True` standard output is /dev/full, where each write fails. With
`refusing=False` the case runs only as it is: another row takes memory in the same way. As it is it runs `times` times
(once). With `threads=True` it ends with the refusal `NoThread` where the start of a thread is refused. A text in `Has`
need only occur. Wanted texts come from docs/FORMATS.md and from worked cases, never from a run.
"""
import pathlib
from collections import namedtuple
from itertools import permutations

import large

HELP = pathlib.Path(__file__).resolve().parent / "help"


class Has(str):
    """A text that has to occur in what was written, where the rest is the parser's own."""


Case = namedtuple("Case", "name words files status out err stdin full refusing times threads")


def case(name, words, files=None, status=0, out="", err="", stdin="", full=False, refusing=True, times=1,
         threads=False):
    words = words if isinstance(words, list) else words.split()
    return Case(name, words, files or {}, status, out, err, stdin, full, refusing, times, threads)


def helped(name, words, file, **more):
    """A run that prints the help text of this file, whole."""
    return case(name, words, out=(HELP / file).read_text(), **more)


def refused(name, words, why):
    """Words that the parser refuses, for this cause."""
    return case(f"refused-words-{name}", words, status=2, err=Has(f"error: {why}"), refusing=False)


def fault(name, text, where, **more):
    """A `lookup` that a faulty route file ends."""
    return case(name, "lookup r a", {"r": text, "a": ""}, 4, "", f"lpmtool: r:{where}\n", **more)


def answered(name, routes, addresses, hops, words="", **more):
    """A `lookup` of these addresses, which answers these next hops."""
    lines = [f"{address}\n" for address in addresses.split()]
    out = "".join(f"{address} {hop}\n" for address, hop in zip(addresses.split(), hops.split()))
    return case(name, f"lookup {words} r a", {"r": routes, "a": "".join(lines)}, out=out, **more)


def explained(name, routes, addresses, out, words="", **more):
    """An `explain` of these addresses."""
    return case(name, f"explain {words} r {addresses}", {"r": routes}, out=out, **more)


def no_address(name, words, number, word, **more):
    """An `explain` whose address at this place is none. The route file isn't read."""
    return case(name, words, status=2, err=f"lpmtool: ADDRESS {number}, `{word}`: bad address\n", **more)


def applied(name, words, lines, out, routes="", addresses="", **more):
    """An `apply` of these update lines."""
    files = {"r": routes, "u": UPDATES + lines, "a": addresses}
    return case(name, f"apply {words} r u a", files, out=out, **more)


def counts(labels, numbers):
    return "".join(f"{label} {number}\n" for label, number in zip(labels, numbers, strict=True))


TABLE = ("rules", "versions", "in use", "limbo", "free", "token")


def reported(name, words, lines, numbers, routes="", **more):
    """A `report` after these update lines: rules, versions, groups in use, in limbo and free, and the token."""
    return case(name, f"report {words} r u", {"r": routes, "u": UPDATES + lines}, out=counts(TABLE, numbers), **more)


def stormed(name, words, lines, numbers, routes="", addresses="", **more):
    """A `storm` with these update lines: answers, refused updates and wrong answers, and then as `reported`."""
    files = {"r": routes, "u": UPDATES + lines, "a": addresses}
    out = counts(("answers", "refused", "wrong", *TABLE), numbers)
    return case(name, f"storm {words} r u a", files, out=out, **more)


def update_fault(name, text, where, **more):
    """A `report` that an update file ends, which is given whole."""
    return case(name, "report r u", {"r": "", "u": text}, 4, err=f"lpmtool: u:{where}\n", **more)


def line_fault(name, line, kind):
    """A `report` that the first line after the header ends."""
    return update_fault(name, f"{UPDATES}{line}\n", f"2: bad {kind}", refusing=False)


def migrated(name, old, out="", **more):
    return case(name, "migrate old", {"old": old}, out=out, **more)


def one_byte(kind, words, files, name, before, where):
    """A command for each byte, in which the file of this name ends. Each but a space, a tab, LF and `#` is a fault."""
    for byte in range(256):
        fault = {} if byte in b" \t\n#" else {"status": 4, "err": f"lpmtool: {name}:{where}\n"}
        named = {**files, name: before + bytes([byte])}
        yield case(f"one-byte-files-{kind}-{byte}", words, named, refusing=False, **fault)


def cut(kind, words, files, name, text, ends):
    """A command for each beginning of the file of this name. Each of `ends` is the most bytes for which it holds, and
    how the command ends then: the lines on standard output, or the place and the kind of a fault."""
    for count in range(len(text) + 1):
        end = next(end for most, end in ends if count <= most)
        more = {"out": end} if end == "" or end.endswith("\n") else {"status": 4, "err": f"lpmtool: {name}:{end}\n"}
        yield case(f"cut-{kind}-{count}", words, {**files, name: text[:count]}, refusing=False, **more)


def repeated_cases():
    """Runs over files that repeat prefixes of many addresses. To store the words of each line would take minutes."""
    same = "".join(f"0.0.0.0/0 {hop}\n" for hop in range(1, 3_001))
    yield answered("one-prefix-repeated", same, "0.0.0.0 10.1.2.3", "3000 3000", refusing=False)
    yield case("one-prefix-repeated-too-many", "lookup --rules 1 r a", {"r": f"{same}10.0.0.0/8 1\n", "a": ""}, 6,
               err="lpmtool: r:3001: refused 3 TooManyRules\n", refusing=False)
    # The last long route is of another block than the one with the group. Short ones need none.
    yield case("one-prefix-repeated-no-group", "lookup --groups 1 r a",
               {"r": f"{same}10.0.0.0/24 1\n10.0.0.0/25 1\n10.0.0.128/26 2\n10.0.1.0/25 2\n10.0.2.0/24 3\n", "a": ""}, 6,
               err="lpmtool: r:3004: refused 7 NoGroups\n", refusing=False)
    turns = "".join(f"0.0.0.0/{0 if hop % 2 else 8} {hop}\n" for hop in range(1, 3_001))
    yield answered("two-prefixes-in-turn", turns, "0.1.2.3 1.0.0.0", "3000 2999", refusing=False)
    # Each line has another hop, and so makes a version.
    yield reported("one-prefix-repeated-report", "", "", (1, 3000, 0, 0, 256, 1), routes=same, refusing=False)
    yield reported("two-prefixes-in-turn-report", "", "", (2, 3000, 0, 0, 256, 1), routes=turns, refusing=False)
    yield applied("one-prefix-repeated-apply", "", "add 10.0.0.0/8 5\n", "added\n10.1.2.3 5\n11.0.0.0 3000\n",
                  routes=same, addresses="10.1.2.3\n11.0.0.0\n", refusing=False)
    yield stormed("one-prefix-repeated-storm", "", "add 10.0.0.0/8 5\n", (2, 0, 0, 2, 3001, 0, 0, 256, 2), routes=same,
                  addresses="10.1.2.3\n11.0.0.0\n", refusing=False)
    yield case("one-prefix-repeated-storm-too-many", "storm --rules 1 r u a",
               {"r": f"{same}10.0.0.0/8 1\n", "u": UPDATES, "a": ""}, 6, err="lpmtool: r:3001: refused 3 TooManyRules\n",
               refusing=False)
    yield case("one-prefix-repeated-report-too-many", "report --rules 1 r u",
               {"r": f"{same}10.0.0.0/8 1\n", "u": UPDATES}, 6, err="lpmtool: r:3001: refused 3 TooManyRules\n",
               refusing=False)


def large_cases():
    """The commands with files of over a megabyte and as many rules as fit just so: each answers, since memory is ample.
    Then a fault and a refusal in the last line of such a file."""
    lines, table = large.loaded()
    routes, addresses = large.text(lines), large.text(large.addresses())
    limits = f"--rules {large.ROUTES} --groups {large.GROUPS}"
    plain = {"routes": routes, "refusing": False}
    answers = large.text(large.answers(table))
    for workers in (1, 3):
        yield case(f"large-lookup-{workers}", f"lookup {limits} --workers {workers} r a", {"r": routes, "a": addresses},
                   out=answers, refusing=False)
    asked, told = large.explained(table)
    yield explained("large-explain", routes, " ".join(asked), "\n".join([*told, ""]), limits, refusing=False)
    yield reported("large-load", limits, "", table.numbers(), **plain)
    updates, outcomes = map(large.text, large.changed(table))
    told = outcomes + large.text(large.answers(table))
    for workers in (1, 4):
        yield applied(f"large-apply-{workers}", f"{limits} --workers {workers}", updates, told, addresses=addresses, **plain)
    yield reported("large-report", limits, updates, table.numbers(), **plain)
    # (which updates are refused, and so the counts, depends on how the threads run; that no answer is wrong doesn't)
    yield case("large-storm", f"storm --rules {large.ROUTES} --groups {large.STORM_GROUPS} --workers 3 --rounds 300 r u a",
               {"r": routes, "u": UPDATES + large.text(large.storm_changes()), "a": "\n".join(large.storm_addresses())},
               out=Has("\nwrong 0\n"), refusing=False)
    old, new = map(large.text, zip(*large.migrated()))
    yield migrated("large-migrate", old, UPDATES + new, refusing=False)
    yield fault("large-route-fault", f"{routes}x\n", f"{large.ROUTES + 1}: bad fields", refusing=False)
    for first in (1, 40_000, large.ROUTES):
        bad = routes.split("\n")
        bad[first - 1], bad[large.ROUTES - 1] = "10.0.0.0/33 1", "x"
        yield case(f"large-route-faults-{first}", "lookup --workers 3 r a", {"r": "\n".join(bad), "a": ""}, 4,
                   err=f"lpmtool: r:{first}: bad {'fields' if first == large.ROUTES else 'length'}\n", refusing=False)
    # Each worker reads a piece of the file. The first fault wins, by its line in the whole file.
    for workers in (1, 3):
        yield case(f"large-address-fault-{workers}", f"lookup --workers {workers} r a", {"r": "", "a": f"{addresses}x\n"}, 4,
                   err=f"lpmtool: a:{large.ADDRESSES + 1}: bad address\n", refusing=False)
    for first in (1, 40_000, 70_000, 99_000):
        bad = addresses.split("\n")
        bad[first - 1], bad[99_999] = "1.2.3", "x"
        yield case(f"large-address-faults-{first}", "lookup --workers 3 r a", {"r": "", "a": "\n".join(bad)}, 4,
                   err=f"lpmtool: a:{first}: bad address\n", refusing=False)
    # Pieces cut in lines of CR LF, in a comment that is longer than a piece, and in one line.
    returned = addresses.replace("\n", "\r\n")[:-2]
    long = f"{addresses}#{' comment' * 40_000}\n{addresses}"
    for name, text, count in (("returns", returned, 1), ("long-comment", long, 2)):
        yield case(f"large-{name}", "lookup --workers 3 r a", {"r": "0.0.0.0/0 7\n", "a": text},
                   out=addresses.replace("\n", " 7\n") * count, refusing=False)
    yield case("large-line", "lookup --workers 4 r a", {"r": "", "a": f"{' ' * 300_000}1.2.3.4"}, out="1.2.3.4 -\n",
               refusing=False)
    # Two pieces of which each allocation is refused.
    few = "".join(f"10.{number >> 8}.{number & 255}.255\n" for number in range(11_000))
    yield case("two-pieces-of-a-file", "lookup --workers 2 r a", {"r": "10.0.0.0/8 7\n", "a": few},
               out=few.replace("\n", " 7\n"))
    # Routes of two pieces, the last one of each prefix in the second.
    hops = {number % 16: number % 7 + 1 for number in range(300)}
    alike = "".join(f"10.{number % 16}.0.0/16{' ' * 500}{number % 7 + 1}\n" for number in range(300))
    yield case("two-pieces-of-routes", "lookup --workers 2 r a", {"r": alike, "a": "10.0.1.2\n10.8.0.0\n10.16.0.0\n"},
               out=f"10.0.1.2 {hops[0]}\n10.8.0.0 {hops[8]}\n10.16.0.0 -\n")
    yield update_fault("large-update-fault", f"{UPDATES}{updates}x\n", f"{large.UPDATES + 2}: bad word", refusing=False)
    yield case("large-rules-load", f"report --rules {large.ROUTES - 1} --groups {large.GROUPS} r u",
               {"r": routes, "u": UPDATES}, 6, err=f"lpmtool: r:{large.ROUTES}: refused 3 TooManyRules\n",
               refusing=False)


RT = "10.0.0.0/8 1\n10.1.0.0/16 2\n10.1.1.128/25 3\n"
FIVE = "10.1.1.127\n10.1.1.128\n10.2.0.0\n11.0.0.0\n10.1.1.255\n"
FIVE_ANSWERS = "10.1.1.127 2\n10.1.1.128 3\n10.2.0.0 1\n11.0.0.0 -\n10.1.1.255 3\n"
TWO_SHORT = "10.0.0.0/8 1\n10.1.0.0/16 2\n"
TWO_BLOCKS = "10.0.0.0/25 1\n10.0.1.0/25 2\n"
TWICE = "10.1.0.0/16 5\n10.0.0.0/8 1\n10.1.0.0/16 2\n9.0.0.0/8 7\n"
TWICE_ANSWERS = "10.1.0.0 2\n10.2.0.0 1\n9.0.0.0 7\n"
THREE_DOWN = "11.0.0.0/8 1\n10.0.0.0/8 2\n9.0.0.0/8 3\n"
TWO_BLOCKS_DOWN = "10.0.1.0/25 2\n10.0.0.0/25 1\n"
UPDATES = "lpm-updates 2\n"
HELD = "online 0\nadd 10.0.0.0/25 1\ndel 10.0.0.0/25\nadd 10.0.1.0/25 2\nquiescent 0\nadd 10.0.1.0/25 2\n"
HELD_OUT = "ok\nadded\ndeleted 1\nrefused 7 NoGroups worker 0 counter 1\nok\nadded\n"
OUTCOMES = "add 10.0.0.0/8 1\nadd 10.0.0.0/8 1\nadd 10.0.0.0/8 2\ndel 10.0.0.0/8\ndel 10.0.0.0/8\n"
WORKERS = "online 1\nquiescent 0\nonline 0\nonline 0\noffline 0\n"
WORKERS_OUT = "refused 10 NoSuchWorker\nrefused 13 NotOnline\nok\nrefused 14 AlreadyOnline\nok\n"
PIECES = "online 2\ndel 10.1.1.128/25\nreclaim 16\n"
PIECES_OUT = "ok\ndeleted 3\nreclaimed 0 stopped worker 2 counter 1\n"
FOUR_CHANGES = "add 10.0.0.0/25 1\nadd 10.0.1.0/25 2\ndel 10.0.0.0/25\ndel 10.0.1.0/25\n"
NESTED = ["10.0.0.0/8 1\n", "10.1.0.0/16 2\n", "10.1.1.0/24 4\n"]
STORM = "del 10.1.1.128/25\nadd 10.1.1.128/25 4\n"
STUCK = "add 10.0.0.0/25 1\ndel 10.0.0.0/25\nadd 10.0.1.0/25 2\n"
SKIPPED = "online 9\nflush\nquiescent 9\nonline 0\nreclaim 16\noffline 4294967295\n"
THREE_ROUTES = "10.1.1.127\n10.1.1.128\n10.2.0.0\n11.0.0.0\n"
RT_DOWN = "10.1.1.128/25 3\n10.1.0.0/16 2\n10.0.0.0/8 1\n"
TWO_ADDS = "add 10.0.0.0/25 1\nadd 10.0.1.0/25 2\n"
TWO_WORKERS = TWO_ADDS + """online 0
del 10.0.0.0/25
online 1
del 10.0.1.0/25
reclaim 16
quiescent 0
reclaim 16
offline 1
reclaim 16
"""
TWO_WORKERS_OUT = """added
added
ok
deleted 1
ok
deleted 2
reclaimed 0 stopped worker 0 counter 1
ok
reclaimed 1 stopped worker 1 counter 2
ok
reclaimed 1
"""
THREE_GROUPS = TWO_ADDS + "add 10.0.2.0/25 3\nflush\n"
ONE_RULE = "add 10.0.0.0/8 1\nadd 11.0.0.0/8 1\nadd 10.0.0.0/8 5\n"
DEFAULT_UPDATES = "add 1.2.3.4/0 1\nadd 0.0.0.0/0 1\nadd 10.0.0.0/8 2\ndel 10.0.0.0/8\n"
UNDER_A_GROUP = "add 10.0.1.0/24 7\nadd 10.0.1.2/32 5\nadd 10.0.1.0/24 3\n"
COLLAPSE = "add 10.0.1.0/24 7\nadd 10.0.1.2/32 5\nadd 10.0.1.0/30 6\ndel 10.0.1.2/32\n"
SECOND_HALF = "add 10.0.0.0/25 1\nadd 10.0.0.128/25 2\ndel 10.0.0.0/25\nadd 10.0.1.0/25 3\n"
FULL_BLOCK = "".join(f"10.0.0.{octet}/32 9\n" for octet in range(256))
EACH_WORD = "\tdel 1.2.3.4/32\r\nreclaim 65536\n\nonline 4294967295\noffline 0\nquiescent 7"
EACH_WORD_NEW = "lpm-updates 2\ndel 1.2.3.4/32\nreclaim 65536\nonline 4294967295\noffline 0\nquiescent 7\n"
EDGES = (0, 9, 10, 99, 100, 199, 200, 255)
HOP_EDGES = (0, 9, 10, 99, 100, 255, 256, 999, 1000, 65535, 999_999, 1_000_000, 16_777_215)
BLOCK_ROUTES = "10.0.0.0/8 7\n10.0.0.63/32 300\n10.0.0.64/32 16777215\n"
MIXED_ROUTES = """10.0.0.0/8 1\r
11.0.0.0/8 2
# c\r
\r
 \t12.0.0.0/8\t3 \r
13.0.0.0/8 4
14.0.0.0/8 1000\r
15.0.0.0/8 6
16.0.0.0/8 16777215\r
17.0.0.0/8 8"""
MIXED_ADDRESSES = """10.0.0.1\r
11.0.0.1

# c\r
 12.0.0.1\r
13.0.0.1\t
14.0.0.1\r
15.0.0.1
16.0.0.1\r
17.0.0.1
18.0.0.1"""
MIXED_ANSWERS = """10.0.0.1 1
11.0.0.1 2
12.0.0.1 3
13.0.0.1 4
14.0.0.1 1000
15.0.0.1 6
16.0.0.1 16777215
17.0.0.1 8
18.0.0.1 -
"""
# The group of 10.1.1.0 is the second, since those of a table are numbered in the order of its blocks.
NESTED_LONG = "10.1.1.128/25 3\n0.0.0.0/0 9\n10.1.1.200/32 16777215\n9.0.0.64/26 5\n10.0.0.0/8 1\n10.1.0.0/16 2\n"
LONG_EXPLAINED = """address 10.1.1.200
hop 16777215
rule 10.1.1.200/32
cover 10.1.1.128/25 3
cover 10.1.0.0/16 2
cover 10.0.0.0/8 1
cover 0.0.0.0/0 9
tbl24 655617 0x03000001
group 1
tbl8 456 0x81ffffff
"""
IN_A_GROUP = """address 10.1.1.127
hop 2
rule 10.1.0.0/16
cover 10.0.0.0/8 1
cover 0.0.0.0/0 9
tbl24 655617 0x03000001
group 1
tbl8 383 0x41000002
"""
SHORT_EXPLAINED = """address 10.1.2.3
hop 2
rule 10.1.0.0/16
cover 10.0.0.0/8 1
tbl24 655618 0x41000002
"""
NOT_COVERED = """address 192.0.2.1
hop -
rule -
tbl24 12582914 0x00000000
"""
MISS_IN_A_GROUP = """address 10.0.0.1
hop -
rule -
tbl24 655360 0x03000000
group 0
tbl8 1 0x00000000
"""
LAST_ADDRESS = """address 255.255.255.255
hop 9
rule 0.0.0.0/0
tbl24 16777215 0x01000009
"""
FOUR_ROUTES, FOUR_ADDRESSES = "10.0.0.0/8 1\n" * 4, "10.0.0.0\n" * 4
LACKING = "the following required arguments were not provided:\n"
TWICE_GIVEN = "cannot be used multiple times"
TWO_INPUTS = "lpmtool: only one file can be `-`, standard input\n"
NO_ADDRESSES = """error: the following required arguments were not provided:
  <ADDRESSES>

Usage: lpmtool lookup <ROUTES> <ADDRESSES>

For more information, try '--help'.
"""
NO_ADDRESS = """error: the following required arguments were not provided:
  <ADDRESS>...

Usage: lpmtool explain <ROUTES> <ADDRESS>...

For more information, try '--help'.
"""
NO_SUCH_COMMAND = """error: unrecognized subcommand 'serve'

Usage: lpmtool <COMMAND>

For more information, try '--help'.
"""
ZERO_RULES = """error: invalid value '0' for '--rules <N>': 0 is not in 1..=16777216

For more information, try '--help'.
"""

CASES = [
    # Done, or help or the version was asked for.
    case("five-addresses", "lookup r a", {"r": RT, "a": FIVE}, out=FIVE_ANSWERS),
    case("five-addresses-3", "lookup --workers 3 r a", {"r": RT, "a": FIVE}, out=FIVE_ANSWERS),
    case("later-hop-out-of-order", "lookup r a", {"r": TWICE, "a": "10.1.0.0\n10.2.0.0\n9.0.0.0\n"}, out=TWICE_ANSWERS),
    case("empty-table", "lookup r a", {"r": "", "a": "1.2.3.4"}, out="1.2.3.4 -\n"),
    case("line-ends", "lookup r a", {"r": "# c\r\n10.0.0.0/8 1\r\n", "a": "10.0.0.0\r\n"}, out="10.0.0.0 1\n"),
    case("no-line-end", "lookup r a", {"r": "10.0.0.0/8 1", "a": "10.0.0.0"}, out="10.0.0.0 1\n"),
    case("standard-input", "lookup - a", {"a": FIVE}, out=FIVE_ANSWERS, stdin=RT),
    case("file-named-dash", "lookup ./- a", {"-": RT, "a": FIVE}, out=FIVE_ANSWERS, stdin="x", refusing=False),
    *(answered(f"short-prefixes-{order}", "".join(routes), "10.1.1.255 10.1.2.0 10.2.0.0 9.255.255.255", "4 2 1 -",
               refusing=False) for order, routes in enumerate(permutations(NESTED))),
    answered("no-addresses", RT, "", "", refusing=False),
    answered("three-routes", RT, THREE_ROUTES, "2 3 1 -", refusing=False),
    answered("reverse-order", RT_DOWN, THREE_ROUTES, "2 3 1 -", refusing=False),
    answered("top-bit", "128.0.0.0/1 7", "127.255.255.255 128.0.0.0 255.255.255.255", "- 7 7", refusing=False),
    answered("host-bits", "10.1.2.3/8 5", "10.9.9.9", "5", refusing=False),
    answered("last-address", "255.255.255.255/32 16777215", "255.255.255.254 255.255.255.255", "- 16777215",
             refusing=False),
    answered("default-route", "0.0.0.0/0 1\n10.0.0.0/8 2\n", "0.0.0.0 10.0.0.0 255.255.255.255", "1 2 1",
             refusing=False),
    answered("default-route-line", "0.0.0.0/0 1\n", "0.0.0.0 10.0.0.0 255.255.255.255", "1 1 1", refusing=False),
    answered("one-prefix-twice", "10.0.0.0/8 1\n10.0.0.0/8 2\n", "10.0.0.1 10.0.0.1", "2 2", "--rules 1",
             refusing=False),
    # Lines of each form beside one another, and answers of more than one block.
    case("mixed-lines", "lookup r a", {"r": MIXED_ROUTES, "a": MIXED_ADDRESSES}, out=MIXED_ANSWERS),
    answered("octets", "0.0.0.0/0 1\n", " ".join(".".join(str(EDGES[(first + step) % 8]) for step in range(4))
                                                 for first in range(8)), "1 " * 8, refusing=False),
    answered("hops", "".join(f"10.0.0.{octet}/32 {hop}\n" for octet, hop in enumerate(HOP_EDGES)),
             " ".join(f"10.0.0.{octet}" for octet in range(len(HOP_EDGES))), " ".join(map(str, HOP_EDGES)),
             refusing=False),
    *(answered(f"answers-{count}", BLOCK_ROUTES, " ".join(f"10.0.0.{octet}" for octet in range(count)),
               " ".join({63: "300", 64: "16777215"}.get(octet, "7") for octet in range(count)), refusing=False)
      for count in (63, 64, 65, 128, 129)),
    *(case(f"five-addresses-{count}", f"lookup --workers {count} r a", {"r": RT, "a": FIVE}, out=FIVE_ANSWERS,
           refusing=False) for count in (1, 2, 8, 1024)),
    helped("help", "--help", "program.txt"),
    helped("short-help", "-h", "program-short.txt", refusing=False),
    helped("lookup-help", "lookup --help", "lookup.txt"),
    helped("explain-help", "explain --help", "explain.txt", refusing=False),
    helped("apply-help", "apply --help", "apply.txt", refusing=False),
    helped("report-help", "report --help", "report.txt", refusing=False),
    helped("migrate-help", "migrate --help", "migrate.txt", refusing=False),
    helped("storm-help", "storm --help", "storm.txt", refusing=False),
    case("lookup-short-help", "lookup -h", out=Has("Usage: lpmtool lookup"), refusing=False),
    case("version", "--version", out="lpmtool 2.0.0\n"),
    # What explains an answer: the rules that cover the address, and the words that a lookup reads.
    explained("explain", TWO_SHORT, "10.1.2.3", SHORT_EXPLAINED),
    explained("explain-in-a-group", NESTED_LONG, "10.1.1.200", LONG_EXPLAINED),
    explained("explain-two", NESTED_LONG, "10.1.1.127 10.1.1.200", IN_A_GROUP + LONG_EXPLAINED, refusing=False),
    explained("explain-twice", TWO_SHORT, "10.1.2.3 10.1.2.3", SHORT_EXPLAINED * 2, refusing=False),
    explained("explain-no-match", TWO_SHORT, "192.0.2.1", NOT_COVERED),
    explained("explain-no-match-first", TWO_SHORT, "192.0.2.1 10.1.2.3", NOT_COVERED + SHORT_EXPLAINED, refusing=False),
    explained("explain-empty-table", "", "192.0.2.1", NOT_COVERED, refusing=False),
    explained("explain-miss-in-a-group", "10.0.0.2/31 7\n", "10.0.0.1", MISS_IN_A_GROUP, refusing=False),
    explained("explain-default-route", "0.0.0.0/0 9\n", "255.255.255.255", LAST_ADDRESS, refusing=False),
    explained("explain-later-hop", "10.1.0.0/16 7\n" + TWO_SHORT, "10.1.2.3", SHORT_EXPLAINED, "--rules 2 --groups 1",
              refusing=False),
    case("explain-standard-input", "explain - 10.1.2.3", stdin=TWO_SHORT, out=SHORT_EXPLAINED, refusing=False),
    case("explain-options-last", "explain r 10.1.2.3 --rules=2 192.0.2.1", {"r": TWO_SHORT},
         out=SHORT_EXPLAINED + NOT_COVERED, refusing=False),
    # Updates. A refused update stops nothing, and the status is 0.
    applied("delete-then-reclaim", "", "del 10.1.1.128/25\n", "deleted 3\n10.1.1.128 2\n", RT, "10.1.1.128"),
    applied("outcomes", "", OUTCOMES, "added\nunchanged\nreplaced\ndeleted 2\nrefused 4 NoSuchRule\n"),
    applied("held-group-outcomes", "--groups 1", HELD, HELD_OUT),
    applied("refused-reports", "", WORKERS, WORKERS_OUT),
    applied("delete-then-reclaim-16", "", "del 10.1.1.128/25\nreclaim 16\n",
            "deleted 3\nreclaimed 1\n10.1.1.128 2\n", RT, "10.1.1.128", refusing=False),
    applied("one-group", "--groups 1", TWO_ADDS, "added\nrefused 7 NoGroups\n", refusing=False),
    applied("two-workers", "--workers 2", TWO_WORKERS, TWO_WORKERS_OUT, refusing=False),
    applied("one-rule", "--rules 1", ONE_RULE, "added\nrefused 3 TooManyRules\nreplaced\n", refusing=False),
    applied("flush", "", "flush\n", "flushed 3\n", RT, refusing=False),
    applied("flush-three-groups", "--groups 3 --threshold 0", THREE_GROUPS, "added\nadded\nadded\nflushed 3\n",
            refusing=False),
    applied("default-route-updates", "", DEFAULT_UPDATES, "added\nunchanged\nadded\ndeleted 2\n10.0.0.0 1\n", "",
            "10.0.0.0", refusing=False),
    applied("under-a-group", "", UNDER_A_GROUP, "added\nadded\nreplaced\n10.0.1.1 3\n10.0.1.2 5\n10.0.1.255 3\n", "",
            "10.0.1.1\n10.0.1.2\n10.0.1.255\n", refusing=False),
    applied("collapse", "", COLLAPSE, "added\nadded\nadded\ndeleted 5\n10.0.1.2 6\n10.0.1.4 7\n", "",
            "10.0.1.2\n10.0.1.4\n", refusing=False),
    applied("collapse-whole", "", COLLAPSE + "del 10.0.1.0/30\n",
            "added\nadded\nadded\ndeleted 5\ndeleted 6\n10.0.1.2 7\n10.0.1.4 7\n", "", "10.0.1.2\n10.0.1.4\n",
            refusing=False),
    applied("default-under-a-group", "", "add 10.0.1.2/32 5\nadd 0.0.0.0/0 9\n",
            "added\nadded\n10.0.1.1 9\n10.0.1.2 5\n10.0.1.3 9\n", "", "10.0.1.1\n10.0.1.2\n10.0.1.3\n", refusing=False),
    applied("second-half", "--groups 1", SECOND_HALF, "added\nadded\ndeleted 1\nrefused 7 NoGroups\n10.0.0.127 -\n"
            "10.0.0.128 2\n", "", "10.0.0.127\n10.0.0.128\n", refusing=False),
    applied("second-half-goes", "--groups 1", SECOND_HALF + "del 10.0.0.128/25\nadd 10.0.1.0/25 3\n",
            "added\nadded\ndeleted 1\nrefused 7 NoGroups\ndeleted 2\nadded\n10.0.0.128 -\n10.0.1.0 3\n", "",
            "10.0.0.128\n10.0.1.0\n", refusing=False),
    applied("updates-3", "--workers 3", PIECES, PIECES_OUT + FIVE_ANSWERS.replace(" 3", " 2"), RT, FIVE),
    case("updates-from-standard-input", "apply r - a", {"r": RT, "a": ""}, out="deleted 1\n",
         stdin=UPDATES + "del 10.0.0.0/8\n", refusing=False),
    reported("held-group", "--groups 1", HELD, (1, 3, 1, 0, 0, 2)),
    reported("flush-report", "", "flush\n", (0, 4, 0, 1, 255, 2), RT),
    reported("threshold-zero", "--groups 4 --threshold 0 --workers 0", FOUR_CHANGES, (0, 4, 0, 1, 3, 3)),
    reported("delete-then-reclaim-report", "", "del 10.1.1.128/25\n", (2, 4, 0, 1, 255, 2), RT, refusing=False),
    reported("delete-then-reclaim-16-report", "", "del 10.1.1.128/25\nreclaim 16\n", (2, 4, 0, 0, 256, 2), RT,
             refusing=False),
    reported("one-group-report", "--groups 1", TWO_ADDS, (1, 1, 1, 0, 0, 1), refusing=False),
    reported("collapse-report", "", COLLAPSE, (2, 4, 1, 0, 255, 1), refusing=False),
    reported("collapse-whole-report", "", COLLAPSE + "del 10.0.1.0/30\n", (1, 5, 0, 1, 255, 2), refusing=False),
    reported("outcomes-report", "", OUTCOMES, (0, 3, 0, 0, 256, 1), refusing=False),
    reported("flush-three-groups-report", "--groups 3 --threshold 0", THREE_GROUPS, (0, 4, 0, 1, 2, 4), refusing=False),
    reported("three-routes-report", "", "", (3, 3, 1, 0, 255, 1), RT, refusing=False),
    reported("full-block", "", "", (256, 256, 1, 0, 255, 1), FULL_BLOCK, refusing=False),
    # Storms. Each lookup has an answer, and each is of a version of the rules.
    stormed("storm", "--workers 2 --rounds 50", STORM, (400, 0, 0, 3, 5, 1, 0, 255, 3), RT, THREE_ROUTES, times=100,
            threads=True),
    stormed("stuck-storm", "--groups 1 --stuck", STUCK, (1, 1, 0, 0, 2, 0, 0, 1, 3), "", "10.0.0.1\n", times=100,
            threads=True),
    stormed("storm-3", "--workers 3 --rounds 7 --stuck", STORM, (84, 0, 0, 3, 5, 1, 0, 255, 3), RT, THREE_ROUTES,
            refusing=False),
    stormed("storm-no-addresses", "--rounds 1000000", STORM, (0, 0, 0, 3, 5, 1, 0, 255, 3), RT, refusing=False),
    stormed("storm-no-updates", "--workers 2", "", (8, 0, 0, 3, 3, 1, 0, 255, 2), RT, THREE_ROUTES, refusing=False),
    stormed("storm-unchanged-route", "", "", (1, 0, 0, 1, 2, 0, 0, 256, 2),
            "10.0.0.0/8 1\n10.0.0.0/8 1\n10.0.0.0/8 2\n", "10.0.0.0\n", refusing=False),
    stormed("storm-skips-reports", "", SKIPPED, (4, 0, 0, 0, 4, 0, 0, 256, 3), RT, THREE_ROUTES, refusing=False),
    stormed("storm-refused-updates", "", OUTCOMES, (4, 1, 0, 0, 3, 0, 0, 256, 2), "", THREE_ROUTES, refusing=False),
    stormed("storm-many-updates", "--workers 3 --rounds 5000 --stuck", STORM * 100,
            (60_000, 0, 0, 3, 203, 1, 0, 255, 102), RT, THREE_ROUTES, times=10, refusing=False),
    case("storm-of-standard-input", "storm r - a", {"r": RT, "a": FIVE}, stdin=UPDATES,
         out=Has("answers 5\nrefused 0\nwrong 0\nrules 3\n"), refusing=False),
    # Migration.
    migrated("migrate", "# nightly\nadd   10.1.2.3/8   5\nflush\n", "lpm-updates 2\nadd 10.0.0.0/8 5\nflush\n"),
    migrated("migrate-edges-empty", "", "lpm-updates 2\n"),
    migrated("migrate-each-word", EACH_WORD, EACH_WORD_NEW, refusing=False),
    # The words aren't accepted.
    case("no-command", "", status=2, err=Has("error: 'lpmtool' requires a subcommand but one was not provided\n")),
    case("other-command", "serve r a", status=2, err=NO_SUCH_COMMAND),
    case("one-file", "lookup r", status=2, err=NO_ADDRESSES),
    case("three-files", "lookup r a b", status=2, err=Has("error: unexpected argument 'b' found\n")),
    case("rules-0", "lookup --rules 0 r a", status=2, err=ZERO_RULES),
    case("not-utf-8", ["lookup", b"\xff", "a"], status=2, err="lpmtool: a word of the command line isn't UTF-8\n"),
    case("two-standard-inputs", "lookup - -", status=2, err=TWO_INPUTS, stdin=RT),
    case("two-standard-inputs-apply", "apply r - -", {"r": RT}, 2, err=TWO_INPUTS, refusing=False),
    *(case(f"two-standard-inputs-{number}", words, status=2, err=TWO_INPUTS, refusing=False)
      for number, words in enumerate((
          "apply - - a", "apply - u -", "apply - - -", "report -- - -", "storm - - a", "storm - u -", "storm r - -"))),
    case("explain-no-address", "explain r", status=2, err=NO_ADDRESS),
    no_address("explain-bad-address", "explain r 10.1.2", 1, "10.1.2"),
    no_address("explain-second-bad-address", "explain r 10.1.2.3 10.1.2.256 x", 2, "10.1.2.256", refusing=False),
    *(no_address(f"explain-bad-address-{number}", ["explain", "r", word], 1, word, refusing=False)
      for number, word in enumerate((
          "", " 10.1.2.3", "10.1.2.3 ", "10.1.2.3\n", "10.01.2.3", "10.1.2.3.4", "10.1.2.3/32", "10.1.2.-3", "#", "r"))),
    refused("explain-workers", "explain r 10.1.2.3 --workers 1", "unexpected argument '--workers' found"),
    refused("explain-threshold", "explain r 10.1.2.3 --threshold 1", "unexpected argument '--threshold' found"),
    refused("explain-max", "explain r 10.1.2.3 --max 1", "unexpected argument '--max' found"),
    refused("explain-groups-0", "explain r 10.1.2.3 --groups 0", "invalid value '0' for '--groups <N>'"),
    refused("explain-no-file", "explain", f"{LACKING}  <ROUTES>\n  <ADDRESS>...\n"),
    refused("option-first", "--rules 7 lookup r a", "unexpected argument '--rules' found"),
    refused("deep", "lookup r a --deep", "unexpected argument '--deep' found"),
    refused("apply-two-files", "apply r u", f"{LACKING}  <ADDRESSES>"),
    refused("apply-four-files", "apply r u a b", "unexpected argument 'b' found"),
    refused("report-one-file", "report r", f"{LACKING}  <UPDATES>"),
    refused("report-three-files", "report r u a", "unexpected argument 'a' found"),
    refused("migrate-no-file", "migrate", f"{LACKING}  <OLD>"),
    refused("migrate-two-files", "migrate o p", "unexpected argument 'p' found"),
    refused("migrate-rules", "migrate o --rules 7", "unexpected argument '--rules' found"),
    refused("version-of-a-command", "lookup r a --version", "unexpected argument '--version' found"),
    refused("rules-twice", "lookup r a --rules=7 --rules=7", f"the argument '--rules <N>' {TWICE_GIVEN}"),
    refused("workers-twice", "apply r u a --workers=1 --workers=1", f"the argument '--workers <N>' {TWICE_GIVEN}"),
    refused("max-twice", "report r u --max=1 --max=2", f"the argument '--max <N>' {TWICE_GIVEN}"),
    refused("rules-16777217", "lookup r a --rules 16777217", "invalid value '16777217' for '--rules <N>'"),
    refused("rules-x", "lookup r a --rules x", "invalid value 'x' for '--rules <N>'"),
    refused("groups-0", "apply r u a --groups 0", "invalid value '0' for '--groups <N>'"),
    refused("groups-65537", "apply r u a --groups 65537", "invalid value '65537' for '--groups <N>'"),
    refused("workers-1025", "report r u --workers 1025", "invalid value '1025' for '--workers <N>'"),
    refused("workers-2048", "report r u --workers 2048", "invalid value '2048' for '--workers <N>'"),
    refused("workers-empty", ["report", "r", "u", "--workers", ""], "invalid value '' for '--workers <N>'"),
    refused("threshold-65537", "lookup r a --threshold 65537", "invalid value '65537' for '--threshold <N>'"),
    refused("threshold-1.5", "lookup r a --threshold 1.5", "invalid value '1.5' for '--threshold <N>'"),
    refused("max-0", "apply r u a --max 0", "invalid value '0' for '--max <N>'"),
    refused("max-65537", "report r u --max 65537", "invalid value '65537' for '--max <N>'"),
    refused("storm-two-files", "storm r u", f"{LACKING}  <ADDRESSES>"),
    refused("storm-four-files", "storm r u a b", "unexpected argument 'b' found"),
    refused("rounds-0", "storm r u a --rounds 0", "invalid value '0' for '--rounds <N>': 0 is not in 1..=1000000"),
    refused("rounds-1000001", "storm r u a --rounds 1000001", "invalid value '1000001' for '--rounds <N>'"),
    refused("rounds-twice", "storm r u a --rounds=1 --rounds=1", f"the argument '--rounds <N>' {TWICE_GIVEN}"),
    refused("stuck-twice", "storm r u a --stuck --stuck", f"the argument '--stuck' {TWICE_GIVEN}"),
    refused("stuck-true", "storm r u a --stuck=true", "unexpected value 'true' for '--stuck' found"),
    refused("apply-rounds", "apply r u a --rounds 1", "unexpected argument '--rounds' found"),
    refused("apply-stuck", "apply r u a --stuck", "unexpected argument '--stuck' found"),
    # A file can't be read, or the output can't be written.
    case("no-route-file", "lookup r a", {"a": "1.2.3.4"}, 3, err="lpmtool: cannot read r\n"),
    case("no-address-file", "lookup r a", {"r": RT}, 3, err="lpmtool: cannot read a\n"),
    case("no-files", "lookup r a", status=3, err="lpmtool: cannot read r\n"),
    case("folder", "lookup . a", {"a": "1.2.3.4"}, 3, err="lpmtool: cannot read .\n"),
    case("explain-no-route-file", "explain r 10.1.2.3", status=3, err="lpmtool: cannot read r\n"),
    case("lookup-of-an-address", "lookup r 10.1.2.3", {"r": RT}, 3, err="lpmtool: cannot read 10.1.2.3\n",
         refusing=False),
    case("explain-full", "explain r 10.1.2.3", {"r": RT}, 3, err="lpmtool: cannot write\n", full=True),
    case("no-update-file", "apply r u a", {"r": RT}, 3, err="lpmtool: cannot read u\n"),
    case("migrate-no-file", "migrate old", status=3, err="lpmtool: cannot read old\n"),
    case("full", "lookup r a", {"r": RT, "a": FIVE}, 3, err="lpmtool: cannot write\n", full=True),
    case("storm-full", "storm r u a", {"r": RT, "u": UPDATES, "a": FIVE}, 3, err="lpmtool: cannot write\n", full=True,
         refusing=False),
    case("help-full", "--help", status=3, err="lpmtool: cannot write\n", full=True),
    # A file has a fault.
    fault("bad-route-lines-hop", "10.0.0.0/8 16777216", "1: bad hop"),
    fault("bad-route-lines-length", "10.0.0.0/33 1", "1: bad length", refusing=False),
    fault("bad-route-lines-octet", "10.0.256.0/24 1", "1: bad address", refusing=False),
    fault("bad-route-lines-zero", "10.01.0.0/16 1", "1: bad address", refusing=False),
    fault("default-route-faults-00", "0.0.0.0/00 1", "1: bad length", refusing=False),
    fault("default-route-faults-33", "0.0.0.0/33 1", "1: bad length", refusing=False),
    fault("no-length", "10.0.0.0 1", "1: bad length", refusing=False),
    fault("three-octets", "10.0.0/8 70000000", "1: bad address", refusing=False),
    fault("two-lengths", "10.0.0.0/8/9 1", "1: bad length", refusing=False),
    fault("comment-behind-a-route", "10.0.0.0/8 1 #", "1: bad fields", refusing=False),
    fault("cut-line", "10.0.0.0/8 1\n10.1.0.0/16", "2: bad fields"),
    fault("skipped-lines-count", "# c\n\n10.0.0.0/8 x\n", "3: bad hop", refusing=False),
    *(fault(f"between-routes-{number}", f"{FOUR_ROUTES}{line}\n{FOUR_ROUTES}", f"5: bad {kind}", refusing=False)
      for number, (line, kind) in enumerate((
          ("10.0.0.256/8 1", "address"), ("10.0.00.0/8 1", "address"), ("010.0.0.0/8 1", "address"),
          ("1000.0.0.0/8 1", "address"), ("10.0.0.0\r/8 1", "address"), ("10.0.0.0/33 1", "length"),
          ("10.0.0.0/08 1", "length"), ("10.0.0.0/100 1", "length"), ("10.0.0.0/8\r 1", "length"),
          ("10.0.0.0/8 16777216", "hop"), ("10.0.0.0/8 01", "hop"), ("10.0.0.0/8 1\r\r", "hop")))),
    *(case(f"between-addresses-{number}", "lookup r a", {"r": "", "a": f"{FOUR_ADDRESSES}{line}\n{FOUR_ADDRESSES}"}, 4,
           err="lpmtool: a:5: bad address\n", refusing=False)
      for number, line in enumerate(("10.0.0.256", "10.0.0.01", "10.0.0.1000", "10.0.0.1\r\r", "10.0.0\r.1"))),
    case("bad-standard-input", "lookup - a", {"a": ""}, 4, err="lpmtool: -:2: bad fields\n", stdin="\n10.0.0.0/8\n"),
    case("bad-address", "lookup r a", {"r": RT, "a": "1.2.3.4\n1.2.3\n"}, 4, err="lpmtool: a:2: bad address\n"),
    case("explain-bad-route", "explain r 10.1.2.3", {"r": "10.0.0.0/8 1\n10.0.0.0/33 1\n"}, 4,
         err="lpmtool: r:2: bad length\n"),
    case("first-file-first", "lookup r a", {"r": "x", "a": "x"}, 4, err="lpmtool: r:1: bad fields\n"),
    case("one-address-a-line", "lookup r a", {"r": "", "a": "1.2.3.4 1.2.3.4\n"}, 4, err="lpmtool: a:1: bad fields\n",
         refusing=False),
    case("fault-before-refusal", "lookup --rules 1 r a", {"r": TWO_SHORT, "a": "x"}, 4,
         err="lpmtool: a:1: bad address\n"),
    case("no-workers-fault", "lookup --workers 0 r a", {"r": RT, "a": "x"}, 4, err="lpmtool: a:1: bad address\n"),
    # Faults of update files, whose lines are counted with the header.
    line_fault("wrong-fields-add", "add 10.0.0.0/8", "fields"),
    line_fault("wrong-fields-flush", "flush now", "fields"),
    line_fault("wrong-word", "put 10.0.0.0/8 1", "word"),
    line_fault("wrong-length-none", "add 10.0.0.0 1", "length"),
    line_fault("wrong-length-two", "del 10.0.0.0/8/9", "length"),
    line_fault("wrong-address", "add 10.0.0/8 70000000", "address"),
    line_fault("wrong-count", "reclaim 65537", "count"),
    line_fault("wrong-worker", "online 4294967296", "worker"),
    line_fault("wrong-worker-quiescent", "quiescent 4294967296", "worker"),
    line_fault("wrong-fields-offline", "offline", "fields"),
    line_fault("wrong-address-zero", "del 10.01.0.0/16", "address"),
    line_fault("wrong-hop", "add 10.0.0.0/8 16777216", "hop"),
    update_fault("bad-headers-empty", "", "1: bad header"),
    update_fault("bad-headers-blank-before", " lpm-updates 2", "1: bad header", refusing=False),
    update_fault("bad-headers-blank-after", "lpm-updates 2 ", "1: bad header", refusing=False),
    update_fault("bad-headers-comment", "# x\nlpm-updates 2", "1: bad header", refusing=False),
    update_fault("bad-headers-version-1", "lpm-updates 1\n", "1: bad header", refusing=False),
    update_fault("bad-headers-return", "lpm-updates 2\r", "1: bad header", refusing=False),
    update_fault("bad-headers-second-line", "\nlpm-updates 2\n", "1: bad header", refusing=False),
    update_fault("word-after-header", "lpm-updates 2\r\nput\n", "2: bad word"),
    case("apply-bad-updates", "apply r u a", {"r": RT, "u": "flush\n", "a": "x"}, 4, err="lpmtool: u:1: bad header\n"),
    case("routes-before-updates", "apply r u a", {"r": "x", "u": UPDATES + "put\n", "a": "y"}, 4,
         err="lpmtool: r:1: bad fields\n", refusing=False),
    case("updates-before-addresses", "apply r u a", {"r": "", "u": UPDATES + "put\n", "a": "y"}, 4,
         err="lpmtool: u:2: bad word\n", refusing=False),
    case("addresses-before-refusal", "apply --rules 1 r u a", {"r": TWO_SHORT, "u": UPDATES, "a": "y"}, 4,
         err="lpmtool: a:1: bad address\n", refusing=False),
    case("storm-routes-first", "storm r u a", {"r": "x", "u": "x", "a": "x"}, 4, err="lpmtool: r:1: bad fields\n",
         refusing=False),
    case("storm-updates-second", "storm r u a", {"r": "", "u": "x", "a": "x"}, 4, err="lpmtool: u:1: bad header\n",
         refusing=False),
    case("storm-no-workers-fault", "storm --workers 0 r u a", {"r": RT, "u": UPDATES, "a": "x"}, 4,
         err="lpmtool: a:1: bad address\n", refusing=False),
    migrated("migrate-fault-after-comment", "# c\nflush\nflush 1\n", status=4, err="lpmtool: old:3: bad fields\n",
             refusing=False),
    migrated("migrate-edges-header", "lpm-updates 2\n", status=4, err="lpmtool: old:1: bad word\n"),
    # A route is refused, or there is no worker to answer.
    case("one-rule-load", "lookup --rules 1 r a", {"r": TWO_SHORT, "a": "10.0.0.0"}, 6,
         err="lpmtool: r:2: refused 3 TooManyRules\n"),
    case("one-rule-explain", "explain --rules 1 r 10.0.0.0", {"r": TWO_SHORT}, 6,
         err="lpmtool: r:2: refused 3 TooManyRules\n"),
    case("one-group-explain", "explain --groups 1 r 10.0.0.0", {"r": TWO_BLOCKS_DOWN}, 6,
         err="lpmtool: r:2: refused 7 NoGroups\n", refusing=False),
    case("one-group-load", "lookup --groups 1 r a", {"r": TWO_BLOCKS, "a": "10.0.0.0"}, 6,
         err="lpmtool: r:2: refused 7 NoGroups\n"),
    case("refusal-after-comment", "lookup --rules 1 r a",
         {"r": "# c\n\n10.0.0.0/8 1\n10.0.0.0/8 2\n10.1.0.0/16 2\n", "a": ""}, 6,
         err="lpmtool: r:5: refused 3 TooManyRules\n", refusing=False),
    case("one-group-twice", "lookup --groups 1 --threshold 0 --max 1 r a",
         {"r": "10.0.0.0/25 1\n10.0.0.128/26 3\n10.0.1.0/25 2\n", "a": ""}, 6, err="lpmtool: r:3: refused 7 NoGroups\n",
         refusing=False),
    # The first line of the file that is refused, and not the last prefix.
    case("two-rules-load-down", "lookup --rules 2 r a", {"r": THREE_DOWN, "a": "10.0.0.0"}, 6,
         err="lpmtool: r:3: refused 3 TooManyRules\n"),
    case("one-group-load-down", "lookup --groups 1 r a", {"r": TWO_BLOCKS_DOWN, "a": "10.0.0.0"}, 6,
         err="lpmtool: r:2: refused 7 NoGroups\n", refusing=False),
    case("one-rule-apply", "apply --rules 1 r u a", {"r": TWO_SHORT, "u": UPDATES, "a": ""}, 6,
         err="lpmtool: r:2: refused 3 TooManyRules\n", refusing=False),
    case("one-rule-report", "report --rules 1 r u", {"r": TWO_SHORT, "u": UPDATES}, 6,
         err="lpmtool: r:2: refused 3 TooManyRules\n"),
    case("no-workers", "lookup --workers 0 r a", {"r": RT, "a": FIVE}, 6, err="lpmtool: refused 8 NoWorkers\n"),
    case("no-workers-refusal", "lookup --workers 0 --rules 1 r a", {"r": TWO_SHORT, "a": ""}, 6,
         err="lpmtool: r:2: refused 3 TooManyRules\n"),
    case("no-workers-apply", "apply --workers 0 r u a", {"r": RT, "u": UPDATES + "flush\n", "a": ""}, 6,
         err="lpmtool: refused 8 NoWorkers\n"),
    # The refusals of a storm: no workers and too many answers come before the routes are added.
    case("storm-no-workers", "storm --workers 0 --rules 1 --stuck r u a", {"r": TWO_SHORT, "u": UPDATES, "a": ""}, 6,
         err="lpmtool: refused 8 NoWorkers\n"),
    case("storm-too-many-answers", "storm --rules 1 --rounds 1000000 r u a",
         {"r": TWO_SHORT, "u": UPDATES, "a": "10.0.0.0\n" * 17}, 6, err="lpmtool: refused 5 BadConfig\n"),
    case("storm-one-rule-load", "storm --rules 1 r u a",
         {"r": "# c\n\n10.0.0.0/8 1\n10.0.0.0/8 2\n10.1.0.0/16 2\n", "u": UPDATES, "a": FIVE}, 6,
         err="lpmtool: r:5: refused 3 TooManyRules\n"),
    case("storm-one-group-load", "storm --groups 1 r u a", {"r": TWO_BLOCKS, "u": UPDATES, "a": FIVE}, 6,
         err="lpmtool: r:2: refused 7 NoGroups\n", refusing=False),
    # Files of one byte, and files that are cut.
    *one_byte("routes", "lookup r a", {"a": ""}, "r", b"", "1: bad fields"),
    *one_byte("addresses", "lookup r a", {"r": ""}, "a", b"", "1: bad address"),
    *one_byte("updates", "apply r u a", {"r": "", "a": ""}, "u", UPDATES.encode(), "2: bad word"),
    *cut("route-file", "lookup r a", {"a": "10.1.1.128\n"}, "r", RT, [
        (0, "10.1.1.128 -\n"), (11, "1: bad fields"), (13, "10.1.1.128 1\n"), (25, "2: bad fields"),
        (27, "10.1.1.128 2\n"), (41, "3: bad fields"), (43, "10.1.1.128 3\n")]),
    *cut("address-file", "lookup r a", {"r": RT}, "a", "10.1.1.128\n", [
        (0, ""), (7, "1: bad address"), (8, "10.1.1.1 2\n"), (9, "10.1.1.12 2\n"), (11, "10.1.1.128 3\n")]),
    *cut("update-file", "apply r u a", {"r": "", "a": ""}, "u", UPDATES + "add 10.0.0.0/8 1\nflush\n", [
        (12, "1: bad header"), (14, ""), (16, "2: bad word"), (29, "2: bad fields"), (31, "added\n"),
        (35, "3: bad word"), (37, "added\nflushed 1\n")]),
    *repeated_cases(),
    *large_cases(),
]
