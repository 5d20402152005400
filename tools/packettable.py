#!/usr/bin/env python3
"""What crates/packet has to print: a plain reading of the rules for packets, apart from the proved code.

usage: python3 tools/packettable.py make > crates/packet/stdin
       python3 tools/packettable.py random SEED COUNT       (a table of damaged packets)
       python3 tools/packettable.py < crates/packet/stdin > crates/packet/stdout

It looks for all faults of a packet and tells the lowest, where the code stops at the first that it meets, in a fitting order.
Where the two differ, one of them reads the rules wrongly: so the stored output is made by this, never by the program itself.
"""
import pathlib
import random
import re
import sys

DATA = pathlib.Path(__file__).parent.parent / "crates" / "packet" / "data"

LABEL = re.compile(rb"[a-z0-9-]{1,63}\Z")

WORDS = {
    1: "of unknown kind, cut short, with bytes left over, or above 1,200 bytes",
    2: "a name that is none, or a kind that isn't there",
    3: "data that don't fit their kind, or too many or too few of them",
    4: "a name outside of the zone that is asked or answers",
    5: "a cut at the zone's own top",
    6: "a zone's number that is 0",
}


# ---- reading

class Cut(Exception):
    """The packet has no shape."""


class Bytes:
    def __init__(self, data):
        self.data, self.at = data, 0

    def take(self, count):
        if self.at + count > len(self.data):
            raise Cut
        self.at += count
        return self.data[self.at - count:self.at]

    def number(self, size):
        return int.from_bytes(self.take(size), "big")

    def list(self):
        return [self.take(self.number(1)) for _ in range(self.number(1))]

    def is_empty(self):
        return self.at == len(self.data)


def is_name(labels):
    """Labels from the root down."""
    return len(labels) <= 16 and all(LABEL.match(label) for label in labels) and len(b".".join(labels)) <= 255


def written(labels):
    return b".".join(reversed(labels)).decode() if labels else "."


def read_written(piece):
    """The labels of a name as it is written, without a dot at the end; None if it is none."""
    labels = [] if piece == b"." else list(reversed(piece.split(b".")))
    return labels if is_name(labels) else None


def within(apex, name):
    return name[:len(apex)] == apex


def fit(pieces):
    return len(pieces) <= 16 and sum(map(len, pieces)) <= 600


def are_addresses(pieces):
    return all(len(piece) == 8 for piece in pieces)


def hexadecimal(piece):
    return piece.hex() if piece else '""'


def query(data):
    number, apex, kind, name = data.number(8), data.list(), data.number(1), data.list()
    if not data.is_empty():
        raise Cut
    faults = []
    if not is_name(apex) or not is_name(name) or not 1 <= kind <= 31:
        faults.append(2)
    if not within(apex, name):
        faults.append(4)
    return faults, lambda: [f"asks: number {number}, {written(apex)} on {written(name)} {kind}"]


def response(data):
    number, apex, what, time = data.number(8), data.list(), data.number(1), data.number(4)
    if not 1 <= what <= 7:
        raise Cut
    name = data.list() if what in (2, 3) else []
    pieces = data.list()
    if not data.is_empty():
        raise Cut
    faults = []
    if not is_name(apex) or not is_name(name):
        faults.append(2)
    if what == 1 and not fit(pieces):
        faults.append(3)
    if what == 3:
        if not 1 <= len(pieces) <= 16 or not are_addresses(pieces):
            faults.append(3)
        if not within(apex, name):
            faults.append(4)
        elif name == apex:
            faults.append(5)
    if what not in (1, 3) and pieces:
        faults.append(3)
    return faults, lambda: [f"tells: number {number}, {written(apex)} says {word(what, name, pieces)}, time {time}"]


def word(what, name, pieces):
    data = "".join(" " + hexadecimal(piece) for piece in pieces)
    if what in (2, 3):
        return {2: "alias ", 3: "cut "}[what] + written(name) + data
    return {1: "data" + data, 4: "empty", 5: "absent", 6: "nowhere", 7: "too long"}[what]


def request(data):
    number, apex, known = data.number(8), data.list(), data.number(8)
    if not data.is_empty():
        raise Cut
    return [] if is_name(apex) else [2], lambda: [f"looks: number {number}, {written(apex)} above {known}"]


def text(piece):
    plain = all(32 <= b <= 126 and b != 34 for b in piece)
    return '"' + piece.decode() + '"' if plain else piece.hex()


def record_set(data):
    name, kind, time, pieces = data.list(), data.number(1), data.number(4), data.list()
    faults = []
    if not is_name(name) or not 1 <= kind <= 31:
        faults.append(2)
    shown = hexadecimal
    if kind == 1 and not (len(pieces) <= 16 and are_addresses(pieces)):
        faults.append(3)
    elif kind == 4 and not (1 <= len(pieces) <= 16 and are_addresses(pieces)):
        faults.append(3)
    elif kind == 5:
        shown = lambda piece: written(read_written(piece))
        if any(read_written(piece) is None for piece in pieces):
            faults.append(2)
        if len(pieces) != 1:
            faults.append(3)
    elif kind not in (1, 4, 5) and not fit(pieces):
        faults.append(3)
    if kind == 2:
        shown = text
    return faults, lambda: f"  {written(name)} {kind} {time}" + "".join(" " + shown(piece) for piece in pieces)


def part(data):
    number, serial, moment = data.number(8), data.number(8), data.number(8)
    times = [data.number(4) for _ in range(3)]
    count, of = data.number(2), data.number(2)
    faults, lines = [], []
    if of == 0 and not data.is_empty():
        raise Cut
    while not data.is_empty():
        bad, line = record_set(data)
        faults += bad
        lines.append(line)
    if serial == 0:
        faults.append(6)
    since = "the owner's" if moment == (1 << 64) - 1 else f"as of {moment}"
    head = f"brings: number {number}, part {count} of {of}, zone's number {serial}, {since}, times {times[0]} {times[1]} {times[2]}"
    return faults, lambda: [head] + [line() for line in lines]


def read(data):
    """The lowest fault, or 0 and the lines that are shown."""
    if not 1 <= len(data) <= 1200:
        return 1, []
    form = {1: query, 2: response, 3: request, 4: part}.get(data[0])
    if not form:
        return 1, []
    try:
        faults, lines = form(Bytes(data[1:]))
    except Cut:
        return 1, []
    return (min(faults), []) if faults else (0, lines())


# ---- parts of a zone

LINE = re.compile(r'"([^"]*)"|([^ ";]+)')


def zone_sets(text):
    """The sets of a zone's text that is known to be good: name, kind, time and pieces, in the order of names and kinds."""
    lines = [[Quoted(m[1]) if m[1] is not None else m[2] for m in LINE.finditer(line.split(" ;")[0])] for line in text.splitlines()]
    lines = [line for line in lines if line and line[0] in ("top", "set")]
    apex = labels_of(lines[0][1].rstrip("."))
    sets = [record_bytes(apex, *line[1:]) for line in lines[1:]]
    return [packed for _, packed in sorted(sets)]


class Quoted(str):
    pass


def record_bytes(apex, name, kind, time, *data):
    labels = labels_of(name[:-1]) if name.endswith(".") else apex + labels_of(name)
    if int(kind) == 5:
        pieces = [b".".join(reversed(apex + labels_of(data[0])))]
    else:
        pieces = [piece.encode() if isinstance(piece, Quoted) else bytes.fromhex(piece) for piece in data]
    return (labels, int(kind)), listed(labels) + bytes([int(kind)]) + big(int(time), 4) + listed(pieces)


def parts(text):
    """How many sets and bytes each part has: as many sets as fit, one behind the other."""
    rows = [[]]
    for packed in zone_sets(text):
        if 41 + sum(map(len, rows[-1])) + len(packed) > 1200:
            rows.append([])
        rows[-1].append(packed)
    return [(len(row), 41 + sum(map(len, row))) for row in rows]


def from_digits(digits):
    return bytes.fromhex(digits) if re.match(r"(?:[0-9A-Fa-f]{2})*\Z", digits) else None


def shown(line):
    form, _, digits = line.partition(" ")
    if form == "parts":
        rows = parts((DATA / digits).read_text())
        lines = [f"part {n} of {len(rows)}: {sets} sets, {size} bytes" for n, (sets, size) in enumerate(rows, 1)]
        return lines + ["together they are the zone"]
    if form not in ("packet", "cuts"):
        return [line]
    data = from_digits(digits)
    if data is None:
        return ["no bytes in hexadecimal"]
    if form == "packet":
        fault, lines = read(data)
        return [f"fault {fault}: {WORDS[fault]}"] if fault else lines
    tally = [0] * 8
    for end in range(len(data)):
        tally[read(data[:end])[0]] += 1
    return [f"read {tally[0]}" + "".join(f", fault {n}: {count}" for n, count in enumerate(tally) if n and count)]


# ---- making a table

def labels_of(name):
    """A name as it is written, from the root down."""
    return [] if name == "." else [label.encode() for label in reversed(name.split("."))]


def listed(pieces):
    return bytes([len(pieces)]) + b"".join(bytes([len(piece)]) + piece for piece in pieces)


def named(name):
    return listed(labels_of(name))


def big(number, size):
    return number.to_bytes(size, "big")


def a_query(number=5, apex="upperton", kind=1, name="rescue.upperton"):
    return b"\1" + big(number, 8) + named(apex) + bytes([kind]) + named(name)


def a_response(what, number=5, apex="upperton", time=3600, name=None, pieces=()):
    return b"\2" + big(number, 8) + named(apex) + bytes([what]) + big(time, 4) + (named(name) if name else b"") + listed(pieces)


def a_request(number=9, apex="upperton", known=12):
    return b"\3" + big(number, 8) + named(apex) + big(known, 8)


def a_set(name="rescue.upperton", kind=1, time=3600, pieces=(big(33, 8),)):
    return named(name) + bytes([kind]) + big(time, 4) + listed(pieces)


def a_part(sets=(), number=9, serial=13, moment=86400, times=(60, 600, 86400), part=1, of=1):
    head = big(number, 8) + big(serial, 8) + big(moment, 8) + b"".join(big(t, 4) for t in times) + big(part, 2) + big(of, 2)
    return b"\4" + head + b"".join(sets)


ALL = (1 << 64) - 1
LONG = "a" * 63
# 255 bytes: four labels of 63 bytes with three dots between
LONGEST = ".".join([LONG, LONG, LONG, "b" * 63])
DEEPEST = ".".join("abcdefghijklmnop")


def examples():
    """The packets that docs/FORMATS.md shows: indented lines of digits, each with the lines that go on with it."""
    text = (pathlib.Path(__file__).parent.parent / "docs" / "FORMATS.md").read_text()
    for found in re.findall(r"^    (0[1-4](?: [ 0-9a-f]+)(?:\n       [ 0-9a-f]+)*)$", text, re.M):
        yield re.sub(r"\s", "", found)


def table():
    yield "# the examples of docs/FORMATS.md"
    for digits in examples():
        yield "packet " + digits
    yield "# questions"
    for data in (
        a_query(0, ".", 1, "."), a_query(), a_query(ALL, "upperton", 31, "upperton"), a_query(1, LONGEST, 5, LONGEST),
        a_query(name="a." * 14 + "rescue.upperton"), a_query(apex=DEEPEST, name=DEEPEST), a_query(name="q." + DEEPEST, apex="p"),
        a_query(kind=0), a_query(kind=32), a_query(kind=255), a_query(name="lowerton"), a_query(name="upperton", apex="rescue.upperton"),
        a_query(name="Rescue.upperton"), a_query(name="res_cue.upperton"), a_query(name="b" * 64 + ".upperton"),
        a_query(name="", apex="upperton"), a_query(apex="UPPERTON", kind=0, name="lowerton"), a_query(kind=0, name="lowerton"),
        a_query(name="c." + LONGEST, apex="."), a_query() + b"\0", a_query()[:-1],
    ):
        yield "packet " + data.hex()
    # a count of labels above what follows, and one below it
    yield "packet " + (b"\1" + big(5, 8) + b"\2\1a" + b"\1" + b"\1\1a").hex()
    yield "packet " + (b"\1" + big(5, 8) + b"\1\1a" + b"\1" + b"\1\1a\1b").hex()
    yield "cuts " + a_query().hex()
    yield "# answers"
    address = big(33, 8)
    for data in (
        a_response(1), a_response(1, pieces=[address]), a_response(1, pieces=[address] * 16), a_response(1, pieces=[address] * 17),
        a_response(1, pieces=[b"ring twice", b""]), a_response(1, pieces=[b"t" * 255, b"t" * 255, b"t" * 90]),
        a_response(1, pieces=[b"t" * 255, b"t" * 255, b"t" * 91]), a_response(1, ALL, LONGEST, (1 << 32) - 1, pieces=[b"t" * 40] * 15),
        a_response(2, name="help.lowerton"), a_response(2, name="."), a_response(2, name="help.lowerton", pieces=[b""]),
        a_response(2, name="help..lowerton"), a_response(2),
        a_response(3, name="dairy.upperton", pieces=[big(2, 8)]), a_response(3, name="dairy.upperton", pieces=[big(2, 8)] * 16),
        a_response(3, name="dairy.upperton", pieces=[big(2, 8)] * 17), a_response(3, name="dairy.upperton"),
        a_response(3, name="dairy.upperton", pieces=[big(2, 7)]), a_response(3, name="dairy.upperton", pieces=[big(2, 8), big(2, 9)]),
        a_response(3, name="upperton", pieces=[big(2, 8)]), a_response(3, name="lowerton", pieces=[big(2, 8)]),
        a_response(3, name="lowerton"), a_response(3, name="Dairy.upperton"), a_response(3, apex=".", name="upperton", pieces=[big(1, 8), big(2, 8)]),
        a_response(4), a_response(4, pieces=[b""]), a_response(5, time=0), a_response(5, pieces=[address]),
        a_response(6, apex="."), a_response(6, pieces=[address]), a_response(7, apex="."), a_response(7, pieces=[b"", b""]),
        a_response(0), a_response(8), a_response(255), a_response(1, apex="UP", pieces=[address] * 17), a_response(1) + b"\0",
        a_response(4, name="upperton"),
    ):
        yield "packet " + data.hex()
    # a count of pieces above what follows
    yield "packet " + (a_response(1, pieces=[address])[:-10] + b"\2\x08" + address).hex()
    yield "packet " + (a_response(1, pieces=[address])[:-9] + b"\x09" + address).hex()
    yield "cuts " + a_response(3, name="dairy.upperton", pieces=[big(2, 8)]).hex()
    yield "cuts " + a_response(1, pieces=[b"ring twice", b""]).hex()
    yield "# looks"
    for data in (
        a_request(0, ".", 0), a_request(), a_request(ALL, LONGEST, ALL), a_request(apex="UPPERTON"), a_request() + b"\0", a_request()[:-1],
    ):
        yield "packet " + data.hex()
    yield "cuts " + a_request().hex()
    yield "# parts"
    texts = a_set("bell.upperton", 2, 60, [b"ring twice", b""])
    odd = a_set("bell.upperton", 2, 60, [b'say "hi"', b"a\nb", b"\xc3\xa9"])
    alias = a_set("help.upperton", 5, 600, [b"rescue.upperton"])
    cut = a_set("dairy.upperton", 4, 3600, [big(2, 8), big(3, 8)])
    other = a_set("upperton", 3, 1, [b"\x0a\xff", b""])
    fill = a_set("f.upperton", 2, 1, [b"x" * 255, b"y" * 255, b"z" * 90])
    front = a_part([fill])
    rest = 1200 - len(front) - len(a_set("g.upperton", 2, 1, [b"", b"", b""]))
    full = a_set("g.upperton", 2, 1, [b"u" * 255, b"v" * 200, b"w" * (rest - 455)])
    over = a_set("g.upperton", 2, 1, [b"u" * 255, b"v" * 200, b"w" * (rest - 454)])
    for data in (
        a_part(part=0, of=0), a_part(part=0, of=0, moment=ALL), a_part(), a_part([a_set()]), a_part([a_set(), texts, alias, cut, other], moment=ALL, part=1, of=3),
        a_part([odd]), a_part([fill, full], ALL, ALL, ALL - 1, [(1 << 32) - 1] * 3, 65535, 65535), a_part([fill, over]),
        a_part([a_set()], part=0, of=0), a_part([a_set()], part=4, of=3), a_part([a_set()], part=0, of=3), a_part(part=2, of=3),
        a_part(serial=0), a_part([a_set()], serial=0, part=0, of=0), a_part([a_set("Rescue.upperton")], serial=0), a_part([a_set(kind=0)]),
        a_part([a_set(kind=32), a_set(pieces=[b""])]), a_part([a_set(pieces=[b""]), a_set(kind=32)]), a_part([a_set(pieces=[])]),
        a_part([a_set(pieces=[big(1, 8)] * 16)]), a_part([a_set(pieces=[big(1, 8)] * 17)]), a_part([a_set(pieces=[big(1, 7)])]),
        a_part([a_set(kind=4, pieces=[])]), a_part([a_set(kind=4, pieces=[big(1, 8)] * 17)]), a_part([a_set(kind=4, pieces=[big(1, 9)])]),
        a_part([a_set(kind=2, pieces=[b"t"] * 16)]), a_part([a_set(kind=2, pieces=[b"t"] * 17)]), a_part([a_set(kind=2, pieces=[b"t" * 200] * 3)]),
        a_part([a_set(kind=2, pieces=[b"t" * 200] * 3 + [b"t"])]), a_part([a_set(kind=31, pieces=[b"\0" * 201] * 3)]), a_part([a_set(kind=7, pieces=[])]),
        a_part([a_set(kind=5, pieces=[b"."])]), a_part([a_set(kind=5, pieces=[b"rescue.upperton."])]), a_part([a_set(kind=5, pieces=[b""])]),
        a_part([a_set(kind=5, pieces=[b"a..b"])]), a_part([a_set(kind=5, pieces=[b"Rescue"])]), a_part([a_set(kind=5, pieces=[])]),
        a_part([a_set(kind=5, pieces=[b"a", b"b"])]), a_part([a_set(kind=5, pieces=[b"a", b"B"])]), a_part([a_set(kind=5, pieces=[LONGEST.encode()])]),
        a_part([a_set(kind=5, pieces=[DEEPEST.encode()])]), a_part([a_set(kind=5, pieces=[b"q." + DEEPEST.encode()])]),
        a_part([a_set(), a_set()]), a_part([a_set(), a_set(kind=5, pieces=[b"upperton"])]), a_part([a_set("lowerton")]),
        a_part([a_set()]) + b"\0", a_part([a_set()])[:-1], a_part()[:-1], a_part([a_set(LONGEST, 2, 1, [b"t" * 200] * 3)]),
    ):
        yield "packet " + data.hex()
    yield "cuts " + a_part().hex()
    yield "cuts " + a_part([a_set(), alias], part=2, of=3).hex()
    yield "# zones in parts, the last one first, each twice"
    yield "parts village.zone"
    yield "parts empty.zone"
    yield "parts one.zone"
    yield "# none of them"
    yield "packet "
    for data in (b"\0", b"\5", b"\xff" + a_query()[1:], b"\1", b"\2", b"\3", b"\4", b"\1" * 1200, b"\1" * 1201):
        yield "packet " + data.hex()
    yield "packet " + a_query().hex().upper()
    yield "packet 0"
    yield "packet 0g"


# ---- damaged packets

def damaged(seed, count):
    dice = random.Random(seed)
    good = [bytes.fromhex(line.split(" ", 1)[1]) for line in table() if line.startswith("packet ") and from_digits(line.split(" ", 1)[1])]
    for _ in range(count):
        data = bytearray(dice.choice(good))
        for _ in range(dice.randrange(4)):
            at = dice.randrange(len(data)) if data else 0
            form = dice.randrange(5)
            if form == 0:
                data = data[:at]
            elif form == 1 and data:
                data[at] = dice.choice([0, 1, 2, 3, 4, 5, 8, 16, 17, 31, 32, 45, 46, 48, 65, 97, 122, 255])
            elif form == 2 and data:
                data[at] = dice.randrange(256)
            elif form == 3:
                data[at:at] = bytes([dice.randrange(256)])
            elif data:
                del data[at]
        yield "packet " + data.hex()


def main():
    if sys.argv[1:2] == ["make"]:
        lines = table()
    elif sys.argv[1:2] == ["random"]:
        lines = damaged(int(sys.argv[2]), int(sys.argv[3]))
    else:
        lines = (out for line in sys.stdin.read().splitlines() for out in shown(line))
    for line in lines:
        print(line)


main()
