#!/usr/bin/env python3
"""Respells the repository's own definitions and lemmas: words in snake case, types in camel case.

usage: python3 tools/respell.py          at the top of a checkout that port.py has just turned

A name counts as the repository's own if a file of specs/ or proofs/ declares it, as `name : ..`; an answer, which is
declared as `name : goal.name`, has the name that the check gives it and keeps it. Dashes become underscores. Where the
new name would fall together with another, it is chosen by hand below. Seven laws keep their dash: they have the names
that std gives the same laws. Functions of src/, strings and must-fail edits stay as they are.
"""

import os
import re
import sys

KEPT = {"add-mul", "mul-add", "mul-one", "mul-zero", "one-mul", "zero-add", "zero-mul"}

CHOSEN = {
    # types
    "Bit-formulas": "BitFormulas",
    "Count-formulas": "CountFormulas",
    "Paths-counted": "PathsCounted",
    # lemmas that would have the name of the function that states them
    "bit-formulas": "bit_formulas_lem",
    "count-formulas": "count_formulas_lem",
    "one-cheapest": "one_cheapest_lem",
    "survivors-best": "survivors_best_lem",
    # definitions that would have the name of a function of src/
    "field-number": "number_of_field",
    "has-memory": "memory_suffices",
    "in-range": "rows_in_range",
    "may-select": "selection_allowed",
    "total-at": "state_total",
    # a lemma that would have the name of std's operation
    "bit-xor": "bit_of_xor",
    # lemmas named for a word that is now spelled get_or
    "getD-rest": "get_or_rest",
    "getD-written": "get_or_written",
}

DECLARED = re.compile(r"^\s*(?:(?:abbrev|unfoldable|pub|data|record|ruleset)\s+)*([A-Za-z][^\s:(){}]*)(?:\s+[({].*)?\s+:\s(.*)$")
TOKEN = re.compile(r"(?<![\w'◌-])[A-Za-z][\w']*(?:-[\w'◌*+]+)+(?![\w'◌-])")
STRING = re.compile(r'b?"(?:[^"\\]|\\.)*"')


def files(ending):
    for folder, folders, names in os.walk("crates"):
        folders[:] = sorted(f for f in folders if f != "out")
        for name in sorted(names):
            if name.endswith(ending):
                yield os.path.join(folder, name)


def read(path):
    with open(path, encoding="utf-8") as f:
        return f.read()


def declared():
    found = set()
    for path in files(".antt"):
        for line in read(path).splitlines():
            m = DECLARED.match(line)
            if m and "-" in m[1] and not line.lstrip().startswith(("--", "use ")) and not m[2].startswith("goal."):
                found.add(m[1])
    return found - KEPT


def main():
    new = {name: CHOSEN.get(name, name.replace("-", "_")) for name in declared()}
    words = set()
    for ending in (".antt", ".rt"):
        for path in files(ending):
            words.update(re.findall(r"[A-Za-z_][\w'-]*", read(path)))
    clashes = sorted(n for n, m in new.items() if m in words) + sorted({m for m in new.values() if list(new.values()).count(m) > 1})
    if clashes:
        sys.exit("respell: these would fall together with another name: " + ", ".join(clashes))

    def turned(text):
        return TOKEN.sub(lambda m: new.get(m[0], m[0]), text)

    changed = 0
    for path in list(files(".antt")) + list(files(".rt")):
        old = read(path)
        if path.endswith(".rt"):
            parts, at = [], 0
            for m in STRING.finditer(old):
                parts += [turned(old[at : m.start()]), m[0]]
                at = m.end()
            text = "".join(parts) + turned(old[at:])
        else:
            text = turned(old)
        if text != old:
            changed += 1
            with open(path, "w", encoding="utf-8") as f:
                f.write(text)
    print(f"respell: {len(new)} names in {changed} files")


if __name__ == "__main__":
    main()
