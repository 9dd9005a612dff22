#!/usr/bin/env python3
"""Counts the places in crates/*/src where an older form may stand, point by point: python3 tools/count_forms.py [POINT].

The points are those of docs/DESIGN-PASS.md. What is printed are places to look at, found by the shape of the text alone;
the page says what each of them became, or why it stays.
"""
import collections
import difflib
import glob
import itertools
import os
import re
import sys

os.chdir(os.path.dirname(os.path.dirname(os.path.abspath(__file__))))
FILES = {path: open(path).read() for path in sorted(glob.glob("crates/*/src/*.rt"))}


def line(path, at):
    return f"{path}:{FILES[path].count(chr(10), 0, at) + 1}"


def block(text, at):
    """The text of the braces that open at or after a place, where they are balanced."""
    depth, start = 0, text.index("{", at)
    for i in range(start, len(text)):
        depth += {"{": 1, "}": -1}.get(text[i], 0)
        if depth == 0:
            return text[start:i + 1], i + 1
    return text[start:], len(text)


def functions():
    """(path, place, name, head, body) of each function that has a body."""
    for path, text in FILES.items():
        for m in re.finditer(r"^ *(?:pub(?:\(crate\))? )?fn (\w+)", text, re.M):
            body = re.compile(r"^ *\{\}?$|\{\}?$", re.M)
            at = m.end()
            while True:
                found = re.compile(r";\n|\{").search(text, at)
                if found is None or found.group() != "{":
                    break
                before = text[text.rfind("\n", 0, found.start()) + 1:found.start()]
                part, end = block(text, found.start())
                if re.match(r"\s*(requires|ensures)\b", before):
                    at = end
                    continue
                yield path, m.start(), m.group(1), text[m.start():found.start()], part
                break


def parameters(head):
    inside = re.search(r"\((.*?)\)\s*(?:->|\n|requires|ensures|$)", re.sub(r"\s+", " ", head.split("ensures")[0].split("requires")[0]) + "\n", re.S)
    return [p.strip().replace("mut ", "", 1) if p.strip().startswith("mut ") else p.strip() for p in re.split(r", (?![^<\[(]*[>\])])", inside.group(1))] if inside else []


def point1():
    for path, text in FILES.items():
        for m in re.finditer(r"^ *(?:pub )?enum (\w+)", text, re.M):
            cases = [c for c in re.findall(r"^    (?!//)(\w.*?),?$", block(text, m.end())[0], re.M)]
            data = [c for c in cases if "(" in c or "{" in c]
            if data and len(data) < len(cases) <= 4:
                yield line(path, m.start()), f"enum {m.group(1)}: {' | '.join(cases)}"
        for m in re.finditer(r"^    (?:pub )?(\w+): bool,", text, re.M):
            yield line(path, m.start()), f"flag {m.group(1)}"
    for path, at, name, head, body in functions():
        result = re.search(r"-> (.*)", head)
        if result and re.search(r"\bu8\b", result.group(1)) and not re.search(r"\[u8|Result<.*u8\)>", result.group(1)):
            yield line(path, at), f"number: {name} -> {result.group(1).strip()}"


def point2():
    def normal(body):
        tokens = re.findall(r"\w+|[^\w\s]", re.sub(r"//.*", "", body))
        keep = {"if", "else", "for", "in", "match", "return", "let", "mut", "Ok", "Err", "Some", "None", "while", "true", "false", "self"}
        return [t if t in keep or not t[0].isalnum() else "x" for t in tokens]
    all_of = [(p, a, n, normal(b)) for p, a, n, h, b in functions() if "#[test]" not in h]
    all_of = [f for f in all_of if len(f[3]) >= 18]
    for f, g in itertools.combinations(all_of, 2):
        if abs(len(f[3]) - len(g[3])) > 0.25 * max(len(f[3]), len(g[3])):
            continue
        ratio = difflib.SequenceMatcher(None, f[3], g[3], autojunk=False).ratio()
        if ratio >= 0.93:
            yield line(f[0], f[1]), f"{f[2]} ~ {g[2]} ({line(g[0], g[1])}) {ratio:.2f}"


def point3():
    for path, text in FILES.items():
        for m in re.finditer(r"for (\w+) in [^{\n]*\.\.[^{\n]*\{|while [^{\n]*\{|\b\w+ \+= 1;|\bat = at\.", text):
            yield line(path, m.start()), m.group().strip()


def point4():
    names = r"equal|same|is|pairs|eq|cmp|clone|number|said|told|refused|from_\w+|to_\w+|count|write|first|second|kind|take_\w*verb|read_verb|without_sign|behind_minus|at_table|answer_text|size"
    for path, at, name, head, body in functions():
        if re.fullmatch(names, name):
            yield line(path, at), f"fn {name}"


def point5():
    asked, premises, groups = (collections.defaultdict(set) for _ in range(3))
    for path, at, name, head, body in functions():
        place = line(path, at) + " " + name
        for m in re.finditer(r"requires\s*\w*\s*(\{)", head):
            asked[block(head, m.start(1))[0]].add(place)
        for m in re.finditer(r"ensures\s*\w*\s*(\{)", head):
            for premise in re.findall(r"((?:Entered|Written|AllEntries|Stored) [^→{}]*) →", block(head, m.start(1))[0]):
                premises[premise.strip()].add(place)
        ps = [p for p in parameters(head) if ":" in p]
        for size in (2, 3, 4):
            for group in itertools.combinations(ps, size):
                groups[group].add(place)
    for what, of in (("asked", asked), ("premise", premises)):
        for fact, places in sorted(of.items()):
            if len(places) >= 3:
                yield sorted(places)[0], f"{what} in {len(places)}: {fact[:110]}"
    for group, places in sorted(groups.items(), key=lambda g: (-len(g[0]), -len(g[1]))):
        larger = any(set(group) < set(g) and places <= p for g, p in groups.items() if len(g) > len(group))
        if len(places) >= 3 and not larger:
            yield sorted(places)[0], f"together in {len(places)}: {'; '.join(group)}"


def point6():
    for path, text in FILES.items():
        for m in re.finditer(r"^ *(?:pub(?:\(crate\))? )?struct (\w+)[^{;]*\{", text, re.M):
            fields = re.findall(r"^    (?:pub(?:\(crate\))? )?(\w+): ([^,\n]+),$", block(text, m.end() - 1)[0], re.M)
            if any("[" in t or t in ("Lines", "Parts") for _, t in fields) and any(t == "usize" for _, t in fields):
                yield line(path, m.start()), f"struct {m.group(1)}: {', '.join(n for n, _ in fields)}"
        for m in re.finditer(r"^    (\w+)\((?:usize, )+(?:.*)\),$", text, re.M):
            yield line(path, m.start()), f"case {m.group().strip()}"
    for path, at, name, head, body in functions():
        ps = parameters(head)
        if any(re.search(r"&(mut )?\[K\]|&\[Count\]", p) for p in ps) and any(re.match(r"(count|states|size|n|vectors): usize", p) for p in ps):
            yield line(path, at), f"run and count: {name}"


def point7():
    for path, text in FILES.items():
        for m in re.finditer(r"match ([\w.]*service\w*|[\w.]*kind|[\w.]*op\w*) \{", text):
            yield line(path, m.start()), m.group()


def point8():
    for crate in sorted(glob.glob("crates/*/proofs")):
        files = [f for f in glob.glob(crate + "/**/*.antt", recursive=True)]
        answers = [f for f in files if os.path.basename(f) in ("Answers.antt", "Invariants.antt", "Proof.antt")]
        lines_of = lambda fs: sum(open(f).read().count("\n") for f in fs)
        yield crate, f"{len(answers)} files of answers and invariants, {lines_of(answers)} lines; lemmas {lines_of(set(files) - set(answers))} lines"


for n, point in enumerate((point1, point2, point3, point4, point5, point6, point7, point8), 1):
    if len(sys.argv) == 1 or sys.argv[1] == str(n):
        places = list(point())
        print(f"point {n}: {len(places)}")
        for place, what in places:
            print(f"  {place}  {what}")
