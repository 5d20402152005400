#!/usr/bin/env python3
"""What crates/texttable has to print: a plain reading of the rules for zones' texts, apart from the proved code.

usage: python3 tools/texttable.py < crates/texttable/stdin > crates/texttable/stdout

It looks for all faults of a line and tells the lowest, where the code stops at the first that it meets, in a fitting order.
Where the two differ, one of them reads the rules wrongly: so the stored output is made by this, never by the program itself.
"""
import re
import sys

MAX_LINE, MAX_SETS, MAX_TRANSFER = 1200, 4096, 1 << 20

ESCAPE = re.compile(rb"\\(?:([ntr\\])|x([0-9A-Fa-f]{2})|\+([0-9]+);)")
# up to the first semicolon outside of quotes
READ = re.compile(rb'(?:[^";]|"[^"]*(?:"|\Z))*')
PIECE = re.compile(rb'"([^"]*)"|([!#-~]+)')
DIVIDED = re.compile(rb'[ \t]*(?:(?:"[^"]*"|[!#-~]+)(?:[ \t]+|\Z))*\Z')
LABEL = re.compile(rb"[a-z0-9-]{1,63}\Z")
HEXADECIMAL = re.compile(rb"(?:[0-9A-Fa-f]{2})*\Z")


class Refused(Exception):
    """The line and the fault by which a text is refused."""


class Word(bytes):
    pass


class Text(bytes):
    pass


def unescape(text):
    out = bytearray()
    at = 0
    while at < len(text):
        found = ESCAPE.match(text, at)
        if not found:
            out.append(text[at])
            at += 1
            continue
        letter, byte, times = found.groups()
        if letter:
            out += {b"n": b"\n", b"t": b"\t", b"r": b"\r", b"\\": b"\\"}[letter]
        elif byte:
            out.append(int(byte, 16))
        else:
            out += out[-1:] * int(times)
        at = found.end()
    return bytes(out)


# ---- pieces of a line

def pieces(line):
    """The words and texts of a line, or None where it can't be divided."""
    part = READ.match(line).group()
    if len(part) > MAX_LINE or not DIVIDED.match(part):
        return None
    return [Word(m[2]) if m[2] is not None else Text(m[1]) for m in PIECE.finditer(part)]


def number(piece, bits):
    if isinstance(piece, Word) and re.match(rb"[0-9]+\Z", piece) and int(piece) < 1 << bits:
        return int(piece)
    return None


def name(piece, apex):
    """A name as its labels from the lowest up: whole with a last dot, else below the apex. None if it is none."""
    if not isinstance(piece, Word):
        return None
    if piece == b".":
        return ()
    labels = tuple(piece[:-1].split(b".")) if piece.endswith(b".") else tuple(piece.split(b".")) + apex
    good = all(LABEL.match(label) for label in labels) and len(labels) <= 16 and len(b".".join(labels)) <= 255
    return labels if good else None


def written(labels):
    return b".".join(labels) or b"."


def is_within(labels, apex):
    return len(labels) >= len(apex) and labels[len(labels) - len(apex):] == apex


# ---- data

def address(piece):
    return isinstance(piece, Word) and len(piece) == 16 and HEXADECIMAL.match(piece)


def other(piece):
    return HEXADECIMAL.match(piece) if isinstance(piece, Word) else piece == b""


def as_bytes(piece):
    return bytes(piece) if isinstance(piece, Text) else bytes.fromhex(piece.decode())


def data(kind, apex, fields):
    """The faults of a set's data, and the pieces that a transfer carries."""
    if kind == 5:
        names = [name(field, apex) for field in fields]
        faults = {2 for field, n in zip(fields, names) if isinstance(field, Word) and n is None}
        if len(fields) != 1 or isinstance(fields[0], Text):
            faults.add(3)
        return faults, [written(n) for n in names if n is not None]
    fits = {1: address, 2: lambda piece: isinstance(piece, Text), 4: address}.get(kind, other)
    if not all(fits(field) for field in fields):
        return {3}, []
    held = [as_bytes(field) for field in fields]
    too_much = len(held) > 16 or any(len(p) > 255 for p in held) or sum(map(len, held)) > 600
    return {3} if too_much or (kind == 4 and not held) else set(), held


# ---- a zone

class Zone:
    def __init__(self, apex):
        self.apex, self.serial, self.sets, self.size = apex, 0, {}, 0

    def add(self, fields):
        """The faults of a set's line; without any, the set is added."""
        if len(fields) < 3:
            return {1}
        owner, kind = name(fields[0], self.apex), number(fields[1], 64)
        faults = {1} if number(fields[2], 32) is None else set()
        if kind is not None and not 1 <= kind <= 31:
            kind = None
        if owner is None or kind is None:
            return faults | {2}
        wrong, held = data(kind, self.apex, fields[3:])
        faults |= wrong
        if not is_within(owner, self.apex) or kind in self.sets.get(owner, ()):
            faults.add(4)
        beside = self.sets.get(owner, set()) - {kind}
        if (beside and (kind == 5 or 5 in beside)) or (kind == 4 and owner == self.apex):
            faults.add(5)
        # the name with its number of labels, the kind, four bytes of time, the number of pieces, each behind its length
        size = 1 + sum(1 + len(label) for label in owner) + 1 + 4 + 1 + sum(1 + len(piece) for piece in held)
        if self.count() == MAX_SETS or self.size + size > MAX_TRANSFER:
            faults.add(7)
        if not faults:
            self.sets.setdefault(owner, set()).add(kind)
            self.size += size
        return faults

    def count(self):
        return sum(map(len, self.sets.values()))


def load(text, old):
    lines = text.split(b"\n")
    if lines[-1] == b"":
        lines.pop()
    said = [(at, pieces(line)) for at, line in enumerate(lines, 1)]
    said = [(at, found) for at, found in said if found != []]
    due = iter(said)

    def head(verb, count):
        at, found = next(due, (len(lines) + 1, None))
        if found is None or not isinstance(found[0], Word) or found[0] != verb or len(found) != count + 1:
            raise Refused(at, 1)
        return at, found[1:]

    at, (top,) = head(b"top", 1)
    apex = name(top, ())
    if apex is None:
        raise Refused(at, 2)
    zone = Zone(apex)
    at, (serial,) = head(b"number", 1)
    zone.serial = number(serial, 64)
    if zone.serial is None:
        raise Refused(at, 1)
    if zone.serial == 0 or (old and old.apex == apex and zone.serial <= old.serial):
        raise Refused(at, 6)
    at, times = head(b"times", 3)
    if any(number(time, 32) is None for time in times):
        raise Refused(at, 1)
    for at, found in due:
        good = found is not None and isinstance(found[0], Word) and found[0] == b"set"
        faults = zone.add(found[1:]) if good else {1}
        if faults:
            raise Refused(at, min(faults))
    return zone


# ---- the table

def outcome(text, old):
    try:
        zone = load(text, old)
    except Refused as refusal:
        return b"%d fault %d" % refusal.args
    return b"ok %s %d %d %d" % (written(zone.apex), zone.serial, zone.count(), zone.size)


def cuts(text, old):
    accepted, refused = 0, {}
    for end in range(len(text)):
        try:
            load(text[:end], old)
            accepted += 1
        except Refused as refusal:
            refused[refusal.args[1]] = refused.get(refusal.args[1], 0) + 1
    return b"accepted %d" % accepted + b"".join(b", fault %d: %d" % pair for pair in sorted(refused.items()))


def made(sets, fields, lines):
    body = b"".join(b"set a%04d %s\n" % (n, fields) for n in range(sets))
    return b"top t\nnumber 1\ntimes 1 1 1\n" + body + lines


def main():
    old = None
    for line in sys.stdin.buffer.read().splitlines():
        form, _, case = line.partition(b" ")
        count, _, lines = case.partition(b" ")
        if form == b"text":
            said = outcome(unescape(case), old)
        elif form == b"old":
            old = load(unescape(case), None) if case else None
            said = b"old %s %d" % (written(old.apex), old.serial) if old else b"old none"
        elif form == b"cuts":
            said = cuts(unescape(case), old)
        elif form == b"many":
            said = outcome(made(int(count), b"3 1", unescape(lines)), old)
        elif form == b"heavy":
            piece = b'"%s"' % (b"t" * 250)
            said = outcome(made(int(count), b"2 1 %s %s" % (piece, piece), unescape(lines)), old)
        else:
            said = line
        sys.stdout.buffer.write(said + b"\n")


main()
