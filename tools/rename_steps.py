#!/usr/bin/env python3
"""Turns the names of goals and of steps in answer files: a word of the source keeps its underscores there.

Older proof files wrote `c.is-some` and `returns-in-err-x`; today's Rattle makes `c.is_some` and
`returns-in_err-x`. Run once, at the top of the repository, after respell.py.
"""
import glob
import re

SPLIT = re.compile(r"([\s(){}\[\].,;])")
IDENTIFIER = re.compile(r"\b[A-Za-z][A-Za-z0-9]*(?:_[A-Za-z0-9]+)+\b")
# words that Rattle makes, and methods of the library that the sources call
MADE = """in_ok in_err in_default offset_bounds slice_bounds from_residual overflow_add overflow_sub overflow_mul overflow_shl
overflow_shr overflow_cast overflow_step nonzero_div nonzero_rem invariant_of is_some is_none is_ok is_err as_slice as_str
as_mut_slice as_bytes checked_add checked_sub checked_mul saturating_add saturating_sub get_or try_from unwrap_or type_inv
yielded_by extend_from_slice write_str is_empty split_at split_at_mut shared_slice well_formed from_utf8 digits_or""".split()


def main():
    words = set(MADE)
    for path in glob.glob("crates/*/src/**/*.rt", recursive=True):
        text = re.sub(r"//[^\n]*", "", open(path, encoding="utf-8").read())
        words |= set(IDENTIFIER.findall(text))
    olds = sorted(((w.replace("_", "-"), w) for w in words), key=lambda p: -len(p[0]))
    pattern = re.compile(r"(?:(?<=-)|^)(" + "|".join(re.escape(o) for o, _ in olds) + r")(?=-|$|\d*$)")
    turn = dict(olds)
    for path in glob.glob("crates/*/proofs/**/Answers.antt", recursive=True) + glob.glob("crates/*/proofs/**/Invariants.antt", recursive=True):
        text = open(path, encoding="utf-8").read()
        lines = text.split("\n")
        for k, line in enumerate(lines):
            if line.startswith("use ") and ".Goals.{" not in line:
                continue
            parts = SPLIT.split(line)
            for i, part in enumerate(parts):
                if "-" in part and not part.startswith("--"):
                    parts[i] = pattern.sub(lambda m: turn[m.group(1)], part)
            lines[k] = "".join(parts)
        new = "\n".join(lines)
        if new != text:
            open(path, "w", encoding="utf-8").write(new)


if __name__ == "__main__":
    main()
