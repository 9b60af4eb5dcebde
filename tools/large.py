"""Files of over a megabyte and 300,000 routes for lpmtool, and what it has to print for them.

The texts wanted come from a plain model of docs/FORMATS.md: a dict of rules, in which the longest prefix of an address
is looked for length by length, and the groups as counts. Nothing in it is Saxiko's.
"""
from collections import Counter

ROUTES = 300_000
GROUPS = 40_000
ADDRESSES = 100_000
UPDATES = 80_000
STORM_UPDATES = 100_000
STORM_ADDRESSES = 1_000
STORM_BLOCKS = 500  # with a long route each, which comes and goes a hundred times
STORM_GROUPS = 31_000  # 1,026 more than there are long routes: each is used again
LEAST = 1_000_000  # bytes of each file


def mixed(number, count):
    """The numbers below `count` in another order, where `count` has no prime factors but 2, 3 and 5."""
    return number * 7_919 % count


def network(bits, length):
    return bits >> (32 - length) << (32 - length)


def address(bits):
    return ".".join(str(bits >> shift & 255) for shift in (24, 16, 8, 0))


def route(number):
    """The prefix of the route of this number, which is its next hop: 4 of length 8, 256 of length 16, and blocks from
    1.0.0.0 on. In one block of ten the route has length 25."""
    if number < 4:
        return (number + 1) << 24, 8
    if number < 260:
        return 2 << 24 | (number - 4) << 16, 16
    return (number + 65_536) << 8, 25 if number % 10 == 9 else 24


class Table:
    """The rules by their prefixes, the groups and the counts that `report` prints. No worker is online."""

    def __init__(self, groups, threshold=32, most=16):
        self.rules, self.deep = {}, Counter()
        self.limbo, self.free, self.versions, self.token = 0, groups, 0, 1
        self.threshold, self.most = threshold, most

    def add(self, prefix, hop):
        before = self.rules.get(prefix)
        if before == hop:
            return "unchanged"
        self.rules[prefix] = hop
        self.versions += 1
        if before is not None:
            return "replaced"
        if prefix[1] > 24:
            self.free -= not self.deep[prefix[0] >> 8]
            self.deep[prefix[0] >> 8] += 1
        return "added"

    def delete(self, prefix):
        if prefix not in self.rules:
            return "refused 4 NoSuchRule"
        self.versions += 1
        if prefix[1] > 24:
            self.deep[prefix[0] >> 8] -= 1
            if not self.deep[prefix[0] >> 8]:
                self.give_up()
        return f"deleted {self.rules.pop(prefix)}"

    def give_up(self):
        freed = min(self.most, self.limbo) if self.limbo > self.threshold else 0
        self.limbo, self.free, self.token = self.limbo - freed + 1, self.free + freed, self.token + 1

    def covering(self, bits):
        """The prefixes of the rules that cover an address, the longest first."""
        prefixes = ((network(bits, length), length) for length in (25, 24, 16, 8))
        return [prefix for prefix in prefixes if prefix in self.rules]

    def hop(self, bits):
        return next((str(self.rules[prefix]) for prefix in self.covering(bits)), "-")

    def explained(self, bits, blocks):
        """The lines of `explain`, where groups have the numbers of these blocks."""
        found, block = self.covering(bits), bits >> 8
        lines = [f"hop {self.hop(bits)}", f"rule {line(found[0]) if found else '-'}"]
        lines += [f"cover {line(prefix, self.rules[prefix])}" for prefix in found[1:]]
        word = f"{(found[0][1] << 26) + (1 << 24) + self.rules[found[0]] if found else 0:#010x}"
        if not self.deep[block]:
            return [f"address {address(bits)}", *lines, f"tbl24 {block} {word}"]
        group = blocks.index(block)
        lines += [f"tbl24 {block} {(3 << 24) + group:#010x}", f"group {group}", f"tbl8 {group * 256 + bits % 256} {word}"]
        return [f"address {address(bits)}", *lines]

    def numbers(self):
        in_use = sum(count > 0 for count in self.deep.values())
        return len(self.rules), self.versions, in_use, self.limbo, self.free, self.token


def line(prefix, *fields):
    return " ".join((f"{address(prefix[0])}/{prefix[1]}", *map(str, fields)))


def loaded():
    """The route file, and the table after its routes, which come in no order."""
    table, lines = Table(GROUPS), []
    for number in range(ROUTES):
        hop = mixed(number, ROUTES)
        table.add(route(hop), hop)
        lines.append(line(route(hop), hop))
    return lines, table


def change(number):
    """The update of this number: of six, two delete a route, and one each adds it as it is, gives it another next hop,
    adds a route to a new block, and deletes what isn't there. Its word, its prefix, and the next hop of an addition."""
    hop = mixed(number, ROUTES)
    prefix, new = route(hop), ((number + 400_000) << 8, 24)
    changes = (("del", prefix), ("del", prefix), ("add", prefix, hop), ("add", prefix, hop + 1), ("add", new, hop),
               ("del", new))
    return changes[number % 6]


def changed(table):
    """The lines of updates, and what comes of each."""
    lines, outcomes = [], []
    for word, prefix, *hop in map(change, range(UPDATES)):
        lines.append(f"{word} {line(prefix, *hop)}")
        outcomes.append(table.add(prefix, *hop) if hop else table.delete(prefix))
    return lines, outcomes


def storm_changes():
    """The lines of updates that delete long routes and add them back with another next hop, one after another: each
    deletion gives a group up, and each addition takes one."""
    lines = []
    for number in range(STORM_UPDATES // 2):
        hop = number % STORM_BLOCKS * 10 + 269
        lines += [f"del {line(route(hop))}", f"add {line(route(hop), (hop + number) % ROUTES)}"]
    return lines


def looked_up(number):
    """The address of this number: they lie from 0.0.0.0 to 7.255.255.255."""
    return number * 1_000_003 % (8 << 24)


def addresses():
    return [address(looked_up(number)) for number in range(ADDRESSES)]


def storm_addresses():
    """Addresses in the blocks whose long routes the updates of a storm change."""
    return [address(route(number % STORM_BLOCKS * 10 + 269)[0] | number * 7 % 256) for number in range(STORM_ADDRESSES)]


def answers(table):
    return [f"{address(bits)} {table.hop(bits)}" for bits in map(looked_up, range(ADDRESSES))]


def explained(table):
    """A hundred addresses, and what `explain` prints for them. A table that is opened numbers its groups in the order
    of their blocks."""
    blocks = sorted(block for block, count in table.deep.items() if count)
    asked = [looked_up(number * 997) for number in range(100)]
    return [address(bits) for bits in asked], [line for bits in asked for line in table.explained(bits, blocks)]


def migrated():
    """Lines of version 1 with host bits and more blanks, each beside the line that `migrate` makes of it."""
    for number in range(UPDATES):
        word, prefix, *hop = change(number)
        host = (prefix[0] | number % 128, prefix[1])
        yield f"{word}\t {line(host, *hop)}", f"{word} {line(prefix, *hop)}"


def text(lines):
    made = "".join(f"{it}\n" for it in lines)
    assert len(made) > LEAST
    return made
