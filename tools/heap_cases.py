#!/usr/bin/env python3
"""Writes the cases of crates/heap_cases and their answers.

Usage: tools/heap_cases.py

The answers follow from ECMA-335 II.24.2.3 to II.24.2.5: what an entry is, where it stands, and when a user string is
marked. No answer is taken from a program of the repository.
"""
import os

FOLDER = os.path.join(os.path.dirname(os.path.abspath(__file__)), "..", "crates", "heap_cases")
HEAPS = ("text", "user", "guid", "blob")


def prefix(length):
    """A length in its shortest form."""
    if length < 0x80:
        return bytes([length])
    if length < 0x4000:
        return bytes([0x80 | length >> 8, length & 255])
    return bytes([0xC0 | length >> 24, length >> 16 & 255, length >> 8 & 255, length & 255])


def is_marked(low, high):
    return high != 0 or 1 <= low <= 8 or 0x0E <= low <= 0x1F or low in (0x27, 0x2D, 0x7F)


def entry(heap, content):
    if heap == "text":
        return content + b"\0"
    if heap == "blob":
        return prefix(len(content)) + content
    if heap == "guid":
        return content
    marked = any(is_marked(low, high) for low, high in zip(content[::2], content[1::2]))
    return prefix(len(content) + 1) + content + bytes([marked])


def content_of(text):
    if "*" in text:
        count, text = text.split("*")
        return bytes.fromhex(text) * int(count)
    return bytes.fromhex(text)


def is_content(word):
    heap, _, text = word.partition(":")
    try:
        content = content_of(text)
    except ValueError:
        return False
    return heap in HEAPS and not (heap == "text" and 0 in content) and not (heap == "guid" and len(content) != 16)


def built(contents):
    """The index of each content, and the heaps."""
    heaps = {"text": b"\0", "user": b"\0", "guid": b"", "blob": b"\0"}
    known = {("text", b""): 0, ("blob", b""): 0}
    indexes = []
    for heap, content in contents:
        if (heap, content) not in known:
            place = len(heaps[heap])
            known[heap, content] = place // 16 + 1 if heap == "guid" else place
            heaps[heap] += entry(heap, content)
        indexes.append(known[heap, content])
    return indexes, [heaps[heap] + bytes(-len(heaps[heap]) % 4) for heap in HEAPS]


def shown(heap):
    return heap.hex() if len(heap) <= 64 else f"{heap[:24].hex()}..{heap[-8:].hex()}/{len(heap)}"


def answer(case):
    if case.startswith("many "):
        count, distinct = map(int, case.split()[1:])
        indexes, heaps = built([("text", b"t%d" % (number % distinct)) for number in range(count)])
        return f"{len(set(indexes))} {len(heaps[0])} {sum(indexes)}"
    words = case.split()
    if not all(map(is_content, words)):
        return "no case"
    indexes, heaps = built([(word.split(":")[0], content_of(word.split(":")[1])) for word in words])
    return "".join(f"{index} " for index in indexes) + "| " + " | ".join(map(shown, heaps))


ZEROS = "guid:" + "00" * 16
ONE = "guid:00112233445566778899aabbccddeeff"
CASES = [
    "",
    "user:2700 user:6100 user: user:2700",
    "text:61 text:6162 text: text:61 text:6162",
    # each padding
    *(f'text:{"61" * (n + 1)} blob:{"62" * (n + 1)} user:{"6300" * n}' for n in range(4)),
    f"text: blob: user: {ZEROS}",
    f"{ONE} {ZEROS} {ONE} guid:ffeeddccbbaa99887766554433221100",
    # one content in three heaps; zeros in blobs, and a blob that is another's front
    "text:61 blob:61 user:6161 text:61 blob:61 user:6161",
    "blob:00 blob:0000 blob: blob:00 blob:0100",
    "text:736d616c6c2e646c6c text:3c4d6f64756c653e",
    # the ends of each run of marked units
    *(f"user:{low:02x}00" for low in (0, 1, 8, 9, 0xA, 0xD, 0xE, 0x1F, 0x20, 0x26, 0x27, 0x28, 0x2C, 0x2D, 0x2E, 0x7E, 0x7F, 0x80, 0xFF)),
    "user:0001 user:00ff user:ffff user:61006200 user:61002700 user:27006100 user:610000d800dc",
    # lengths at which the prefix grows; a user string counts its last byte
    *(f"blob:{length}*61 blob:62" for length in (0x7E, 0x7F, 0x80, 0x3FFF, 0x4000)),
    *(f"user:{count}*6100 user:6200" for count in (0x3E, 0x3F, 0x40, 0x1FFF, 0x2000)),
    "text:300*7a text:301*7a text:300*7a",
    # no content: a zero byte in a text, half a byte, GUIDs of other sizes, other words
    "text:6100", "text:616", "guid:00", "guid:0011223344556677889900112233445566", "heap:61", "blob:61 other",
    "user:2d00 user:3200 user:2d00 text:7f text:7f7f blob:7f blob:7f7f",
    "many 7 3", "many 0 5", "many 100000 1000",
]

with open(os.path.join(FOLDER, "stdin"), "w") as cases, open(os.path.join(FOLDER, "stdout"), "w") as answers:
    for number, case in enumerate(CASES, 1):
        print(case, file=cases)
        print(number, answer(case), file=answers)
