#!/usr/bin/env python3
"""Brings this repository's own definitions and lemmas to the library's spelling: words in snake case, types and modules in camel case.

usage: python3 tools/respell.py [ROOT]      once, after /opt/rattle/port/port.py, before any edit by hand

It renames what specs/ and the lemma files of proofs/ declare: definitions, fields, constructors, lemmas and modules' parameters.
Functions of src/, strings, file names, and names that Rattle makes (the goals of proofs/F/) keep theirs. It prints each pair
of old and new names, and stops where two names would fall together.
"""
import os
import re
import sys

ROOT = sys.argv[1] if len(sys.argv) > 1 else "."
DECLARED = re.compile(r"^\s*(?:(?:abbrev|unfoldable)\s+)*(?:pub\s+)?(?:record\s+|data\s+)?([^\s(){}\[\]:,;.\"]+(?:\s+[^\s(){}\[\]:,;.\"]+)*)\s*(?:[({].*)?\s:\s")
TOKEN = re.compile(r"[A-Za-z_][\w'\-]*", re.UNICODE)
WORDS = {"abbrev", "unfoldable", "pub", "record", "data", "where", "let", "in", "use", "mod", "elim", "module", "open"}
# names of the library that our files also use, whose spelling is not ours to choose
IMPORTED = re.compile(r"^\s*(?:ghost\s+)?(?:pub\s+)?use\s+((?:Rattle\.(?:std|core|std_alloc)|mathlib|lib|borrow|Prim|logic)[\w.·'\-]*)\.\{([^}]*)\}", re.M)


def files(folder, ends):
    for top, dirs, names in os.walk(folder):
        dirs[:] = sorted(d for d in dirs if d not in ("out", "must-fail"))
        for n in sorted(names):
            if n.endswith(ends):
                yield os.path.join(top, n)


def snake(name):
    name = re.sub(r"(?<=.)([A-Z])", lambda m: "_" + m.group(1).lower(), name)
    return name.replace("-", "_")


# where a field and a definition would have one name
CHOSEN = {"firstOut": "first_of_two", "in-force": "is_in_force", "read-wire": "reads_wire"}


def new_name(name):
    return name if name[0].isupper() else CHOSEN.get(name, snake(name))


def strip(line):
    return re.sub(r"\s*--.*$", "", line)


def declared():
    found = {}
    crates = os.path.join(ROOT, "crates")
    for crate in sorted(os.listdir(crates)):
        for part in ("specs", "proofs"):
            here = os.path.join(crates, crate, part)
            if not os.path.isdir(here):
                continue
            for p in sorted(os.listdir(here)):
                if not p.endswith(".antt"):
                    continue
                text = open(os.path.join(here, p), encoding="utf-8").read()
                for line in text.split("\n"):
                    bare = strip(line)
                    m = DECLARED.match(bare)
                    if m:
                        for n in m.group(1).split():
                            if TOKEN.fullmatch(n) and n not in WORDS:
                                found.setdefault(n, (part, crate, p))
    return found


def imported():
    out = set()
    for p in files(os.path.join(ROOT, "crates"), (".antt", ".rt")):
        for _, names in IMPORTED.findall(open(p, encoding="utf-8").read()):
            for n in names.split(","):
                out.add(n.strip().split(" as ")[-1])
                out.add(n.strip().split(" as ")[0])
    return out


def split_code(line, mark):
    """The line as code and strings and a comment, so that strings keep their text."""
    at, inside = 0, False
    while at < len(line):
        if line[at] == '"' and not (at and line[at - 1] == "\\"):
            inside = not inside
        if not inside and line.startswith(mark, at):
            return line[:at], line[at:]
        at += 1
    return line, ""


def renamed(text, names, mark):
    done = []
    for line in text.split("\n"):
        code, comment = split_code(line, mark)
        parts = re.split(r'("(?:[^"\\]|\\.)*")', code)
        parts = [p if i % 2 else TOKEN.sub(lambda m: names.get(m.group(0), m.group(0)), p) for i, p in enumerate(parts)]
        # in comments only names that no prose has
        comment = TOKEN.sub(lambda m: names.get(m.group(0), m.group(0)) if re.search(r"[a-z][A-Z]", m.group(0)) else m.group(0), comment)
        done.append("".join(parts) + comment)
    return "\n".join(done)


def main():
    ours = declared()
    theirs = imported()
    names = {}
    for n in sorted(ours):
        if n in theirs:
            continue
        to = new_name(n)
        if to != n:
            names[n] = to
    # a lemma that would have its definition's name gets _lem
    takes = {}
    for n in sorted(ours):
        if n not in theirs:
            takes.setdefault(names.get(n, n), []).append(n)
    for to, group in sorted(takes.items()):
        if len(group) > 1:
            kept = [n for n in group if ours[n][0] == "specs"]
            if len(kept) != 1:
                raise SystemExit(f"fall together: {group}: {to}")
            for n in group:
                if n != kept[0]:
                    if to + "_lem" in ours or to + "_lem" in theirs:
                        raise SystemExit(f"already there: {to}_lem")
                    names[n] = to + "_lem"
    for n, to in sorted(names.items()):
        if to in theirs:
            raise SystemExit(f"the library has it: {n}: {to}")
    rust = {n: to for n, to in names.items() if "-" in n or re.search(r"[a-z][A-Z]", n)}
    for p in files(os.path.join(ROOT, "crates"), (".antt", ".rt")):
        text = open(p, encoding="utf-8").read()
        out = renamed(text, names if p.endswith(".antt") else rust, "--" if p.endswith(".antt") else "//")
        if out != text:
            open(p, "w", encoding="utf-8").write(out)
    for n, to in sorted(names.items()):
        print(f"{n} -> {to}")


main()
