#!/usr/bin/env python3
"""tests/stored_sheets.py sheet_replay ORACLE FOLDER ..
tests/stored_sheets.py clean_replay FOLDER ..
Makes crates/CRATE/stdin and stdout from stored sheets.

Each FOLDER holds sheets NAME.in and what the program has to print for them. Where that changes with requests there is a NAME.eN.out for each request
from which on it is something else; the newest is taken whose request has landed (LANDED). NAME.out is older than all of them. None of it was made by
this project: what `sheet` has to print was made with the Rust, what `clean` has to print by a reference in Python.

A sheet starts from a fresh state, and that changed with request E3. So for `sheet_replay` each readable sheet is given to the Rust once more: ORACLE,
which tools/oracle builds, codes its call from the fresh state of tests/oracle/call.rs, and what it answers is stored. A stored text that was made with
that state (E3 or later) must be the same, and so must an older one, except in a frame of more than 99 samples that is not voiced and has a harmonic
gain; how many of those are other than they were is printed.

Of the sheets with a fault three of each number are taken for `sheet`, the shortest, and all for `clean`; of the others all. A sheet is cut after 65537
bytes, which is what a program reads of it. On the list it stands after its length, six digits and a line feed; what is printed is one text after the
other.
"""
import math
import pathlib
import subprocess
import sys

# Most faults stored for `clean` are sheets after a line `old default` or one like it, to which a later request (E7) gives a meaning: none is left out.
FAULTS_OF_A_NUMBER = {"sheet_replay": 3, "clean_replay": math.inf}
MOST_READ = 65537
# the last request that has landed and changed what one of the programs prints
LANDED = 3
# the request since which a fresh state has a lag, and the first sample of a frame in which that can be heard
FRESH_LAG_SINCE = 3
HEARD_FROM = 99
# places of the settings, and the type that is voiced
PATHS, TYPE = 4, 6
VOICED = 2


def request(answer):
    """Of which request a file is: 7 for NAME.e7.out, 0 for NAME.out."""
    return int("".join(filter(str.isdigit, answer.suffixes[-2])) or 0) if len(answer.suffixes) > 1 else 0


def stored(folder):
    """Each sheet, the newest text for it, and of which request that is."""
    for sheet in sorted(folder.glob("*.in")):
        answers = [a for a in (sheet.with_suffix(".out"), *folder.glob(sheet.stem + ".*.out")) if a.exists() and request(a) <= LANDED]
        newest = max(answers, key=request)
        yield sheet.read_bytes()[:MOST_READ], newest.read_bytes(), request(newest)


def rows_of(sheet):
    """The ten rows of a readable sheet."""
    words = iter(map(int, sheet.split()))
    return [[next(words) for _ in range(count)] for count in words]


def call_text(rows):
    """A sheet's call as the oracle reads it. Path count 0 stands for 2."""
    settings = list(rows[0])
    settings[PATHS] = settings[PATHS] or 2
    lines = [" ".join(map(str, [len(row), *row])) for row in [settings, *rows[1:]]]
    return "\n".join(["call c", *lines, "state fresh", "go", ""])


def by_the_rust(oracle, rows):
    """What the Rust answers to a sheet, as `sheet` prints it."""
    printed = subprocess.run([oracle, "stream"], input=call_text(rows), capture_output=True, text=True, check=True).stdout.splitlines(True)
    return "".join(printed[1:] if printed[1] == "answer 0\n" else printed[1:2]).encode()


def can_change(rows):
    """Can the lag of a fresh state be heard in this frame? It can from sample HEARD_FROM on."""
    return rows[0][TYPE] != VOICED and any(rows[5]) and len(rows[1]) > HEARD_FROM


def made_again(oracle, pairs):
    """The same sheets with what the Rust answers today; all others as they are."""
    changed = 0
    for sheet, answer, since in pairs:
        if answer.startswith(b"answer"):
            rows = rows_of(sheet)
            now = by_the_rust(oracle, rows)
            if now != answer:
                if since >= FRESH_LAG_SINCE or not can_change(rows):
                    sys.exit("the Rust answers otherwise than the stored text says:\n" + sheet.decode())
                changed += 1
            answer = now
        yield sheet, answer, since
    print(changed, "texts are other than they were before request E3")


def chosen(pairs, most_faults):
    faults = {}
    seen = set()
    for sheet, answer, _ in sorted(pairs, key=lambda pair: len(pair[0])):
        if sheet in seen:
            continue
        seen.add(sheet)
        if answer.startswith(b"sheet fault"):
            faults[answer] = faults.get(answer, 0) + 1
            if faults[answer] > most_faults:
                continue
        yield sheet, answer


def main():
    name, *rest = sys.argv[1:] or [""]
    oracle = rest[:1] if name == "sheet_replay" else []
    folders = rest[len(oracle):]
    if name not in FAULTS_OF_A_NUMBER or not folders:
        sys.exit("usage: tests/stored_sheets.py sheet_replay ORACLE FOLDER .. | clean_replay FOLDER ..")
    pairs = [pair for folder in folders for pair in stored(pathlib.Path(folder))]
    if oracle:
        pairs = list(made_again(oracle[0], pairs))
    crate = pathlib.Path(__file__).resolve().parent.parent / "crates" / name
    picked = list(chosen(pairs, FAULTS_OF_A_NUMBER[name]))
    (crate / "stdin").write_bytes(b"".join(b"%06d\n" % len(sheet) + sheet for sheet, _ in picked))
    (crate / "stdout").write_bytes(b"".join(answer for _, answer in picked))
    print(len(picked), "sheets")


main()
