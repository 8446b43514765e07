#!/usr/bin/env python3
"""tests/stored_wav.py FOLDER REFERENCE
Makes crates/wav_replay/stdin and stdout from stored cases of both steps of reading a WAV file.

FOLDER holds e5_find.cases and e5_samples.cases, and what must come back in e5_find.expect and e5_samples.expect; REFERENCE is a Python program that
has `find` and `samples`. None of it was made by this project. A line of cases is `NAME BYTES ..` or `NAME ROWLENGTH BYTES ..`; BYTES are hex digits,
HH*n is that byte n times, ?s*n are n bytes of a generator that is begun with s. What the reference says must be what is expected, or nothing is written.

All files of at most SHORT bytes are taken, and all parts of at most so many with a row of at most so many words; of the longer ones those of LONG. On
the list a file stands after `find`, its length (six digits) and a
line feed; a part after `fill`, the row's length and its own length (six digits each) and a line feed. What must be printed for a file: the lines
`answer A`, `start S`, `length L` and `rate R`, then the text of the program `wav`. For a part: `answer A`, and the row as it is left, twenty words to a
line.
"""
import importlib.util
import pathlib
import sys

SHORT = 4200
# the longest file and one byte more, a walk over 8,189 chunks, the longest part
LONG = {"size0009", "size0013", "size0012", "long0008"}
CRATE = pathlib.Path(__file__).resolve().parent.parent / "crates" / "wav_replay"


def drawn(seed, count):
    """Bytes of the cases' generator."""
    out = bytearray()
    for _ in range(count):
        seed = (seed * 1103515245 + 12345) % 2**32
        out.append(seed >> 16 & 255)
    return bytes(out)


def piece(word):
    """The bytes that one word of a case stands for."""
    if "*" not in word:
        return bytes.fromhex(word)
    what, count = word.split("*")
    return drawn(int(what[1:]), int(count)) if what[0] == "?" else bytes.fromhex(what) * int(count)


def cases(path, numbers):
    """Each case: its name, so many numbers, its bytes."""
    for line in path.read_text().splitlines():
        if line.startswith("#"):
            continue
        name, *words = line.split()
        yield name, [int(word) for word in words[:numbers]], b"".join(map(piece, words[numbers:]))


def spread(words):
    """The words of an expected row: W*n is that word n times."""
    return [w for word in words for w, n in [(word.split("*") + ["1"])[:2]] for _ in range(int(n))]


def expected(path):
    return {name: " ".join(spread(words)) for name, *words in map(str.split, path.read_text().splitlines())}


def digest(row):
    """FNV-1a, 64 bits, of the words' bytes, low byte first."""
    value = 0xCBF29CE484222325
    for byte in b"".join(word.to_bytes(2, "little", signed=True) for word in row):
        value = (value ^ byte) * 0x100000001B3 % 2**64
    return "%016x" % value


def lines(row):
    return "".join(" ".join(map(str, row[i : i + 20])) + "\n" for i in range(0, len(row), 20))


def before(length):
    """What the row of the second step holds before it: no word but by chance what it will hold."""
    return [(i * 7919 + 23205 + 2**15) % 2**16 - 2**15 for i in range(length)]


def agree(name, said, must):
    if said != must:
        sys.exit("%s: the reference says %s, expected is %s" % (name, said, must))


def found(reference, name, file, must):
    """What must be printed for a file."""
    answer, start, length, rate = reference.find(file)
    row = reference.samples(file[start : start + length], length // 2)[1]
    agree(name, "%d %d %d %d %s" % (answer, start, length, rate, "-" if answer else digest(row)), must)
    head = "answer %d\nstart %d\nlength %d\nrate %d\n" % (answer, start, length, rate)
    return head + ("wav %d\n" % answer if answer else "rate %d\nsamples %d\n%s" % (rate, len(row), lines(row)))


def filled(reference, name, part, length, must):
    """What must be printed for a part. The expected text is of a row that held 23205 everywhere."""
    answer, row = reference.samples(part, length)
    left = [23205] * length if answer else row
    shown = digest(left) if length > 64 else " ".join(map(str, left))
    agree(name, ("%d %s" % (answer, shown)).strip(), must)
    return "answer %d\n%s" % (answer, lines(before(length) if answer else row))


def taken(name, bytes):
    return len(bytes) <= SHORT or name in LONG


def main(folder, reference):
    spec = importlib.util.spec_from_file_location("reference", reference)
    module = importlib.util.module_from_spec(spec)
    spec.loader.exec_module(module)
    folder = pathlib.Path(folder)
    given, told = [], []
    must = expected(folder / "e5_find.expect")
    for name, _, file in cases(folder / "e5_find.cases", 0):
        text = found(module, name, file, must[name])
        if taken(name, file):
            given.append(b"find %06d\n" % len(file) + file)
            told.append(text)
    files = len(given)
    must = expected(folder / "e5_samples.expect")
    for name, (length,), part in cases(folder / "e5_samples.cases", 1):
        text = filled(module, name, part, length, must[name])
        if taken(name, part) and (length <= SHORT or name in LONG):
            given.append(b"fill %06d %06d\n" % (length, len(part)) + part)
            told.append(text)
    (CRATE / "stdin").write_bytes(b"".join(given))
    (CRATE / "stdout").write_text("".join(told))
    print("%d files, %d parts" % (files, len(given) - files))


if __name__ == "__main__":
    if len(sys.argv) != 3:
        sys.exit(__doc__)
    main(*sys.argv[1:])
