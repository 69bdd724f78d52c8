#!/usr/bin/env python3
"""Respells the repository's own definitions, lemmas, fields and constructors as today's Rattle spells them.

Run once, at the top of the repository, right after the kit's port.py. A dash in such a name becomes an
underscore, and a name in camel case is put into snake case. Names that Rattle makes (goals, steps), functions
of src/, strings, inputs and outputs keep their spelling. It says which names fall together, and changes nothing then.
"""
import os
import re
import sys

HEAD = re.compile(
    r"^\s*(?:(?:abbrev|unfoldable|pub|record|data)\s+)*([^\s:(){}]+)\s*(?:\([^=]*\)|\{[^=]*\})*\s*:(?!=)\s*(.*)$"
)


def files(kinds):
    for folder, dirs, names in os.walk("crates"):
        dirs[:] = sorted(d for d in dirs if d != "out")
        for name in sorted(names):
            if name.endswith(kinds):
                yield os.path.join(folder, name)


def snake(name):
    if re.match(r"^[a-z][a-z0-9]*(?:[A-Z][a-z0-9]+)+(?:-|$)", name):
        name = re.sub(r"[A-Z]", lambda m: "_" + m.group(0).lower(), name)
    return name.replace("-", "_")


def own_names():
    """The names that files of specs/ and proofs/ declare, but for answers to goals."""
    found = {}
    for path in files(".antt"):
        for line in open(path, encoding="utf-8"):
            head = HEAD.match(line)
            if head and not re.match(r"(goal|need)\.", head.group(2)) and snake(head.group(1)) != head.group(1):
                found[head.group(1)] = snake(head.group(1))
    found |= {name: snake(name) for name in ("before-is", "out-is", "second-read")}
    return {old: new for old, new in found.items() if re.match(r"^[a-z]", old) and re.search(r"\w[-A-Z]\w", old)}


def declared():
    return {
        head.group(1)
        for path in files(".antt")
        for line in open(path, encoding="utf-8")
        if (head := HEAD.match(line)) and not re.match(r"(goal|need)\.", head.group(2))
    }


def respelled(text, names, note):
    one = re.compile(
        rf"(?<![^\s.:;,(){{}}\[\]|\"⌜⌝@])({'|'.join(re.escape(n) for n in sorted(names, key=len, reverse=True))})(?![^\s.:;,(){{}}\[\]|\"⌜⌝])"
    )

    def line(it):
        if it.lstrip().startswith(note):
            return it
        parts = re.split(r'("(?:[^"\\]|\\.)*")', it)
        return "".join(p if i % 2 else one.sub(lambda m: names[m.group(1)], p) for i, p in enumerate(parts))

    return "".join(line(it) for it in text.splitlines(keepends=True))


def main():
    names = own_names()
    news = list(names.values())
    there = declared()
    together = sorted({n for n in news if news.count(n) > 1} | {n for n in news if n in there})
    if together:
        print("fall together:", ", ".join(together))
        return 1
    for path in files((".antt", ".rt")):
        old = open(path, encoding="utf-8").read()
        new = respelled(old, names, "--" if path.endswith(".antt") else "//")
        if new != old:
            open(path, "w", encoding="utf-8").write(new)
    print(f"{len(names)} names respelled")
    return 0


if __name__ == "__main__":
    sys.exit(main())
