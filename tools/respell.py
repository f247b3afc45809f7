#!/usr/bin/env python3
"""Respells the repository's own definitions as today's Rattle has them: words in snake case. Run once, after port.py, at the top.

Types, modules, constructors and names from the source keep their spelling, and so do Arm's names of memory (nGnRnE and the like). It goes over
crates/, the must-fail edits, and the names in README.md and docs/.
"""
import os
import re

TOKEN = re.compile(r"[A-Za-z_][A-Za-z0-9_'-]*")
STRING = re.compile(r'"(?:[^"\\\n]|\\.)*"')
ARM = {"nGnRnE", "nGnRE", "nGRE"}
# names that would fall together with a definition's new one, and fields of records in specs/
OTHER = {
    "one_number": "one_number_lem",
    "only-allowed": "only_allowed",
    "only-refused": "only_refused",
    "level-is": "level_is",
    "stage1-on": "stage1_on",
    "overlay-on": "overlay_on",
}
ONLY_IN = {
    "one_number": "crates/rights/proofs/WordNumbers.antt",
}


def snake(name):
    name = re.sub(r"([a-z0-9])([A-Z]+)$", lambda m: m[1] + "_" + m[2].lower(), name)
    return re.sub(r"([a-z0-9])([A-Z])", lambda m: m[1] + "_" + m[2].lower(), name)


def is_word(name):
    return re.match(r"[a-z]", name) and re.search(r"[a-z0-9][A-Z]", name) and name not in ARM and not re.fullmatch(r"x[0-9A-F_]+", name)


def files(*ends):
    for folder, dirs, names in os.walk("crates"):
        dirs[:] = sorted(d for d in dirs if d not in ("out", "data"))
        for n in sorted(names):
            if n.endswith(ends):
                yield os.path.join(folder, n)


def outside_strings(text, turn):
    parts, last = [], 0
    for m in STRING.finditer(text):
        parts += [turn(text[last : m.start()]), m.group()]
        last = m.end()
    return "".join(parts + [turn(text[last:])])


def main():
    known, others = set(), set()
    for path in files(".rt", ".antt"):
        with open(path, encoding="utf-8") as f:
            for m in TOKEN.finditer(f.read()):
                (known if is_word(m.group()) else others).add(m.group())
    turned = {name: snake(name) for name in known}
    assert len(set(turned.values())) == len(turned), "two definitions would have one name"

    def turn_in(path):
        def one(m):
            name = m.group()
            if name in OTHER and ONLY_IN.get(name, path) == path:
                return OTHER[name]
            return turned.get(name, name)

        return lambda text: TOKEN.sub(one, text)

    pages = ["README.md"] + [os.path.join("docs", n) for n in sorted(os.listdir("docs")) if n.endswith(".md")]
    pages += [os.path.join("docs", "changes", n) for n in sorted(os.listdir("docs/changes")) if n.endswith(".md")]
    for path in [*files(".rt", ".antt", ".edit"), *pages]:
        with open(path, encoding="utf-8") as f:
            text = f.read()
        new = outside_strings(text, turn_in(path)) if path.endswith((".rt", ".antt")) else turn_in(path)(text)
        if new != text:
            with open(path, "w", encoding="utf-8") as f:
                f.write(new)


main()
