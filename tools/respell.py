#!/usr/bin/env python3
"""Brings the repository's own definitions and lemmas to snake case, once, after the toolchain's porting script.

usage: tools/respell.py        at the top of the repository

The names are in respell.tsv. Code, clauses and edits are turned word by word; in comments and documents only what stands in backticks.
"""
import os
import re
import sys

HERE = os.path.dirname(os.path.realpath(__file__))
WORD = re.compile(r"[^\s(){}\[\],;.«»\"λ@|:=`]+")
TICKS = re.compile(r"`[^`\n]+`")

# names that would fall together with another in one file
ONLY_IN = {
    "crates/fma/specs/Near.antt": {"is-nan": "nan_operand", "is-inf": "inf_operand"},
    "crates/fma/proofs/Fusing.antt": {"is-nan": "nan_operand", "is-inf": "inf_operand"},
    "crates/words/proofs/Patterns.antt": {"is-nan": "is_nan_lem"},
    "crates/card/proofs/Accepted.antt": {"cut_short": "cut_short_lem"},
    "crates/ledger/proofs/ReadsBack.antt": {"cut_short": "cut_short_lem"},
    "crates/pulse/proofs/Largest.antt": {"first_of": "first_of_lem"},
    "crates/plain/proofs/Cuts.antt": {"code_of": "code_of_lem"},
    "crates/line_parity/proofs/Tones.antt": {"known_at": "known_at_lem"},
    "crates/line_parity/proofs/is_known/Proof.antt": {"known_at": "known_at_lem"},
}


def read_names():
    own, ported = {}, {}
    with open(os.path.join(HERE, "respell.tsv"), encoding="utf-8") as f:
        for line in f:
            if not line.startswith("#"):
                words = line.rstrip("\n").split("\t")
                (ported if len(words) > 2 else own)[words[0]] = words[1]
    return own, ported


def words(text, names):
    return WORD.sub(lambda m: names.get(m.group(0), m.group(0)), text)


def ticked(text, names):
    return TICKS.sub(lambda m: words(m.group(0), names), text)


def code(text, names, comment):
    """A file line by line: code by words, a comment only in its backticks."""
    out = []
    for line in text.split("\n"):
        at = line.find(comment)
        if at == 0 or (at > 0 and line[at - 1] == " "):
            out.append(words(line[:at], names) + ticked(line[at:], names))
        else:
            out.append(words(line, names))
    return "\n".join(out)


def edit(text, names):
    return "\n".join(words(l, names) if l.startswith(("old: ", "new: ")) else l for l in text.split("\n"))


def turn(path, turned):
    with open(path, encoding="utf-8") as f:
        old = f.read()
    new = turned(old)
    if new != old:
        with open(path, "w", encoding="utf-8") as f:
            f.write(new)
        return 1
    return 0


def main():
    if not os.path.isdir("crates"):
        print("respell: run it at the top of the repository", file=sys.stderr)
        raise SystemExit(2)
    own, ported = read_names()
    both = ported | own
    count = 0
    for folder, dirs, files in os.walk("."):
        dirs[:] = sorted(d for d in dirs if d not in ("out", "target", ".git"))
        for name in sorted(files):
            path = os.path.relpath(os.path.join(folder, name), ".")
            names = own | ONLY_IN.get(path, {})
            if name.endswith(".antt") and path.startswith("crates"):
                if path.count("/") > 3 and name == "Proof.antt":
                    # the proof of a function has the function's name
                    count += turn(path, lambda t: re.sub(r"(?m)^(pub )?([\w-]+)-spec\b(?= [:=])", lambda m: (m.group(1) or "") + m.group(2).replace("-", "_") + "_spec", t))
                count += turn(path, lambda t: code(t, names, "--"))
            elif name.endswith(".rt") and path.startswith("crates"):
                count += turn(path, lambda t: code(t, names, "//"))
            elif name.endswith(".edit"):
                count += turn(path, lambda t: edit(t, both))
            elif name.endswith(".md"):
                count += turn(path, lambda t: ticked(t, both))
    print(f"respell: {count} files turned")


main()
