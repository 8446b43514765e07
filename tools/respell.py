#!/usr/bin/env python3
"""Brings the repository's own definitions, lemmas and the names in clauses to snake case: `sheetText` becomes `sheet_text`, `shr-ltZ` `shr-lt_z`.

usage: tools/respell.py        at the top of the repository, once, after the kit's own port script

What keeps its spelling: a name of the Rust that is ported or of src/ (KEPT, and every name that ends in a fixed-point mark, `_Q14`), types,
and strings. Turned are crates/ (.antt, .rt, must-fail/*.edit) and the pages. Two names that would fall together are named, and then nothing is written.
"""
import collections
import os
import re
import sys

KEPT = set("""decisionDelay lagPrev lshift_SAT32 nStates nStatesDelayedDecision n_AR n_LF n_LTP pitchL predictLPCOrder quantOffsetType
sLTP sLTP_buf_idx sLTP_shp_buf_idx shapingLPCOrder signalType silk_DIV32_varQ silk_INVERSE32_varQ silk_LPC_analysis_filter silk_NSQ_del_dec
gain-adj-Q16 inv-gain-Q26 inv-gain-Q31 lshift-SAT32 n-AR n-AR-Q14 n-LF n-LTP n-LTP-Q14 out32-Q12 prev-gain-Q16 silk-DIV32-varQ silk-INVERSE32-varQ
silk-LPC-analysis-filter silk-NSQ-del-dec x-sc-Q10 nAR nLF nLTP lfAR psSS sAR2 xQ10 row_Line kL nL""".split())
# A part of a name between dashes: letters, digits, `_`, signs of primes and indices.
PART = r"[A-Za-z][A-Za-z0-9_'′₀-₉]*"
NAME = re.compile(r"(?<![\w'′₀-₉-])%s(?:-%s|-[0-9]+)*(?![\w'′])" % (PART, PART))
# Marks of the fixed point at the end of a Rust name; `lshift-SAT32-spec` and the like are names that the prover made of them.
FIXED_POINT = re.compile(r"[_-]Q[0-9]+(?![0-9])")
MADE = re.compile(r"(%s)" % "|".join(sorted((re.escape(k) for k in KEPT), key=len, reverse=True)))


def snake(part):
    if part in KEPT or FIXED_POINT.search(part) or not part[0].islower() or not re.search("[A-Z]", part):
        return part
    part = re.sub(r"(?<=[a-z0-9])(?=[A-Z])", "_", part)
    part = re.sub(r"(?<=[A-Z])(?=[A-Z][a-z])", "_", part)
    return part.lower()


def turned(name):
    if name in KEPT or FIXED_POINT.search(name):
        return name
    if "-" in name and any(MADE.fullmatch(k) and re.search(r"(?<![\w-])%s(?![\w])|-%s(?![\w])" % (re.escape(k), re.escape(k)), name) for k in KEPT if re.search("[A-Z]", k)):
        return name
    return "-".join(snake(p) for p in name.split("-"))


def files(root):
    for folder, dirs, names in os.walk(os.path.join(root, "crates")):
        dirs[:] = sorted(d for d in dirs if d not in ("out", "data"))
        for f in sorted(names):
            if f.endswith((".antt", ".rt", ".edit")):
                yield os.path.join(folder, f)
    for folder, dirs, names in os.walk(os.path.join(root, "docs")):
        for f in sorted(names):
            if f.endswith(".md"):
                yield os.path.join(folder, f)
    yield os.path.join(root, "README.md")


def code_of(text):
    """Code of a .rt file alone: no comment, string, `ghost use` or clause."""
    text = re.sub(r"//.*", "", text)
    text = re.sub(r'"(\\.|[^"\\])*"', "", text)
    text = re.sub(r"ghost use [^;]*;", "", text)
    return re.sub(r"\b(requires|ensures|ghost \w+:)\*?[ \w]*\{[^{}]*(\{[^{}]*\}[^{}]*)*\}", "", text)


def main():
    root = "."
    used, code = collections.Counter(), set()
    texts = {}
    for path in files(root):
        with open(path, encoding="utf-8") as f:
            texts[path] = f.read()
        if path.endswith(".rt"):
            code |= set(NAME.findall(code_of(texts[path])))
        if path.endswith((".antt", ".rt")):
            used.update(NAME.findall(re.sub(r"(--|//).*", "", re.sub(r'b\'.\'|"(\\.|[^"\\])*"', "", texts[path]))))
    table = {n: turned(n) for n in used if turned(n) != n and n not in code and not n.startswith(("silk_", "silk-"))}
    targets = collections.defaultdict(set)
    for n, t in table.items():
        targets[t].add(n)
    together = {t: ns for t, ns in targets.items() if len(ns) > 1}
    taken = sorted((t, n) for n, t in table.items() if t in used)
    for t, ns in sorted(together.items()):
        print(f"together: {t}: {' '.join(sorted(ns))}")
    if together:
        return 1
    for t, n in taken:
        print(f"look: {n} is {t} now, a name that stood somewhere before")
    changed = 0
    for path, text in texts.items():
        new = NAME.sub(lambda m: table.get(m[0], m[0]), text)
        if new != text:
            changed += 1
            with open(path, "w", encoding="utf-8") as f:
                f.write(new)
    print(f"{len(table)} names turned in {changed} files")
    return 0


if __name__ == "__main__":
    sys.exit(main())
