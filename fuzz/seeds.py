"""Makes seeds for the guided fuzzer: each shipped case as one input, its text, the bytes FF FE, its trace; and such whose bytes behind FF FE overwrite a
watch with rows that lead round in circles (guided.c, make_patched). `seeds.py FOLDER`, from the top."""
import glob
import os
import struct
import sys

PARTED = b"\xff\xfe"


# Some strings from a place on, each behind its length, and the place behind them.
def strings(content, at, count):
    parts = []
    for _ in range(count):
        (length,) = struct.unpack_from("<I", content, at)
        parts.append(content[at + 4 : at + 4 + length])
        at += 4 + length
    return parts, at


# The cases of a file: name, text, trace, sheet.
def cases(path):
    content = read(path)
    at = 0
    while at < len(content):
        parts, at = strings(content, at, 4)
        yield parts


# The records of some words.
def records(words):
    trace, before = b"", 0
    for word in words:
        changed = [i for i in range(8) if (before ^ word) >> 8 * i & 0xFF]
        trace += bytes([sum(1 << i for i in changed)]) + bytes(word >> 8 * i & 0xFF for i in changed)
        before = word
    return trace


# Texts and traces of a request's file: an entry is a name, a case (its kind, how many strings, flags and the others) and the answer. Kind S has text and trace,
# kind T text and calls, of nine bytes each; their words make the trace.
def asked(path):
    content = read(path)
    at = 0
    while at < len(content):
        _, at = strings(content, at, 1)
        kind, count = struct.unpack_from("<cI", content, at)
        parts, at = strings(content, at + 5, count)
        _, at = strings(content, at, 1)
        if kind == b"S":
            yield parts[1], parts[2]
        if kind == b"T":
            yield parts[1], records(word for _, word in struct.iter_unpack("<cQ", parts[2]))


def read(path):
    with open(path, "rb") as file:
        return file.read()


# Texts and traces of all shipped cases.
def shipped():
    for path in sorted(glob.glob("crates/vectors/data/*.bin")):
        for _, text, trace, _ in cases(path):
            yield text, trace
    for path in sorted(glob.glob("vectors/requests/stage-*.bin")):
        yield from asked(path)
    for path in sorted(glob.glob("cases/*/*.bin")):
        yield read(os.path.join(os.path.dirname(path), "rules.txt")), read(path)


# A watch has eight parts of 1,024 words. A part is overwritten: each of its words names the next one three times, behind the number of a kind of row.
def circles():
    text = read("cases/ahb_slave_basic/rules.txt")
    for part in range(8):
        for kind in range(1, 5):
            rows = ((part * 1024 + i, kind, *[(i + 1) % 1024] * 3) for i in range(1024))
            yield text, b"".join(struct.pack("<5H", *row) for row in rows)


folder = sys.argv[1]
count = 0
for text, trace in [*shipped(), *circles()]:
    with open(os.path.join(folder, f"{count:04}"), "wb") as file:
        file.write(text + PARTED + trace)
    count += 1
print(f"{count} seeds, all but 32 from the shipped cases")
