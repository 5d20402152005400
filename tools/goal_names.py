#!/usr/bin/env python3
"""Brings the names of goals and steps in proofs/F/ to today's form: what comes from the source keeps its underscores.

usage: python3 tools/goal_names.py CRATE..
"""
import os
import re
import sys

# words of Rattle's own in such names, and functions of std that the proofs name
WORDS = [
    "invariant_of", "overflow_add", "overflow_sub", "overflow_mul", "overflow_cast", "overflow_shl", "overflow_shr", "overflow_step",
    "slice_bounds", "offset_bounds", "nonzero_div", "nonzero_rem", "in_ok", "in_err", "in_default", "type_inv", "from_residual",
    "yielded_by", "ref_ptr", "ghost_name",
    "from_utf8_unchecked", "copy_from_slice", "extend_from_slice", "as_slice", "is_empty", "is_ne", "is_err", "is_ok", "is_some",
    "is_none", "starts_with", "ends_with", "write_str", "index_mut", "deref_mut",
]
FILES = ("Answers.antt", "Invariants.antt", "Proof.antt")
NAME = re.compile(r"[A-Za-z][\w']*(?:-[\w']+)+")
IDENTIFIER = re.compile(r"\b[A-Za-z][A-Za-z0-9]*(?:_[A-Za-z0-9]+)+\b")
IMPORT = re.compile(r"^\s*use ([\w.'·-]+)\.\{([^}]*)\}", re.M)


def files(folder):
    for top, _, names in os.walk(folder):
        for name in names:
            yield os.path.join(top, name)


def read(path):
    with open(path, encoding="utf-8") as f:
        return f.read()


def lemmas(text):
    """What a file imports beside goals: the dashes in these names are their own."""
    return {
        name.strip().split(" as ")[0]
        for module, names in IMPORT.findall(text)
        if not module.endswith(("Goals", "Given"))
        for name in names.split(",")
    }


def turned(name, identifiers):
    """The name with each identifier in it as the source spells it; the longest go first."""
    name = f"-{name}-"
    for word in identifiers:
        kebab = word.replace("_", "-")
        while f"-{kebab}-" in name:
            name = name.replace(f"-{kebab}-", f"-{word}-")
    return name[1:-1]


def main():
    for crate in sys.argv[1:]:
        source = "".join(read(p) for p in files(f"crates/{crate}/src"))
        identifiers = sorted(set(IDENTIFIER.findall(source)) | set(WORDS), key=len, reverse=True)
        for path in files(f"crates/{crate}/proofs"):
            if os.path.basename(path) in FILES:
                text = read(path)
                kept = lemmas(text)
                new = NAME.sub(lambda m: m[0] if m[0] in kept else turned(m[0], identifiers), text)
                if new != text:
                    with open(path, "w", encoding="utf-8") as f:
                        f.write(new)


main()
