#!/usr/bin/env python3
"""Brings the repository's own definitions and lemmas to the spelling of today's Rattle.

A name that specs/ or proofs/ declares and that has a dash gets an underscore in its place, and a prime
becomes an apostrophe; port.py, which runs first, has done so for some names already. Names that Rattle makes
(goals, steps of a proof, folders of proofs/) and names of the library keep their spelling.
Run once, at the top of the repository, right after port.py:

    python3 /opt/rattle/port/port.py && python3 tools/respell.py
"""
import collections
import glob
import re

SPLIT = re.compile(r"([\s(){}\[\].,;⌜⌝])")
DECLARED = re.compile(r"^\s*(?:(?:abbrev|unfoldable|pub)\s+)*([^\s(){}\[\].,;:]+)\s*:(?!=)\s+(.*)$")
RECORD = re.compile(r"^\s*(?:(?:abbrev|unfoldable|pub)\s+)*(?:record|data)\s+([^\s(){}\[\].,;:]+)")
# Renamed otherwise, since the plain respelling would fall together with another name.
OTHERWISE = {
}


def respelled(name):
    return OTHERWISE.get(name, name.replace("-", "_").replace("′", "'"))


def own_names(files):
    names = collections.defaultdict(set)
    for path in files:
        for line in open(path, encoding="utf-8"):
            if line.lstrip().startswith("--") or line.startswith("use "):
                continue
            found = RECORD.match(line) or DECLARED.match(line)
            if not found:
                continue
            if found.re is DECLARED and found.group(2).startswith("goal."):
                continue
            names[found.group(1)].add(path)
    return names


def main():
    antt = sorted(glob.glob("crates/*/specs/**/*.antt", recursive=True) + glob.glob("crates/*/proofs/**/*.antt", recursive=True))
    source = sorted(glob.glob("crates/*/src/**/*.rt", recursive=True))
    names = own_names(antt)
    turn = {n: respelled(n) for n in names if respelled(n) != n}
    for path in antt + source:
        text = open(path, encoding="utf-8").read()
        parts = SPLIT.split(text)
        for i, part in enumerate(parts):
            if not part:
                continue
            # a path that Rattle makes: c.in-Some.., goal.returns-..
            made = i >= 2 and parts[i - 1] == "." and parts[i - 2] in ("goal", "c", "given")
            if made:
                continue
            if part in turn:
                parts[i] = turn[part]
            elif "′" in part and path.endswith(".antt"):
                parts[i] = part.replace("′", "'")
        new = "".join(parts)
        if new != text:
            open(path, "w", encoding="utf-8").write(new)
    print(len(turn), "names respelled")


if __name__ == "__main__":
    main()
