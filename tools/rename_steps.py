#!/usr/bin/env python3
"""In answers and invariants, gives the names that Rattle makes their new spelling: a name of the source keeps
its underscores, and Rattle's own words are joined by them. Run at the top of the repository, after respell.py."""
import os
import re

WORDS = ["in-ok", "in-err", "In-ok", "In-err", "overflow-add", "overflow-mul", "overflow-sub", "overflow-cast", "overflow-step", "from-residual", "in-default"]


def source_names(crate):
    names = set()
    for folder, _, files in os.walk(f"crates/{crate}/src"):
        for name in files:
            text = open(os.path.join(folder, name), encoding="utf-8").read()
            names |= set(re.findall(r"\b[A-Za-z][A-Za-z0-9]*(?:_[A-Za-z0-9]+)+\b", text))
    return names


for crate in sorted(os.listdir("crates")):
    pairs = {n.replace("_", "-"): n for n in source_names(crate)} | {w: w.replace("-", "_") for w in WORDS}
    one = re.compile("(?<![A-Za-z0-9_])(" + "|".join(sorted(map(re.escape, pairs), key=len, reverse=True)) + ")(?![A-Za-z0-9_])")
    for folder, _, files in os.walk(f"crates/{crate}/proofs"):
        for name in files:
            if name not in ("Answers.antt", "Invariants.antt", "Choices.antt"):
                continue
            path = os.path.join(folder, name)
            old = open(path, encoding="utf-8").read()
            new = one.sub(lambda m: pairs[m.group(1)], old)
            if new != old:
                open(path, "w", encoding="utf-8").write(new)
