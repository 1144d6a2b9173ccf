#!/usr/bin/env python3
"""Writes the cases of crates/md_write_cases and their answers.

Usage: tools/md_write_cases.py

The answers follow from ECMA-335 II.22 (the columns of each table) and II.24.2.6 (the header, the widths, the order of
the rows). No answer is taken from a program of the repository.
"""
import os
import struct

FOLDER = os.path.join(os.path.dirname(os.path.abspath(__file__)), "..", "crates", "md_write_cases")

# the columns of each table (II.22): bytes of a constant (1 with a pad, 2, 4), a heap, > an index, [ a start, else coded
COLUMNS = {
    0x00: "2 text guid guid guid", 0x01: "ResolutionScope text text", 0x02: "4 text text TypeDefOrRef [04 [06",
    0x04: "2 text blob", 0x06: "4 2 2 text blob [08", 0x08: "2 2 text", 0x09: ">02 TypeDefOrRef",
    0x0A: "MemberRefParent text blob", 0x0B: "1 HasConstant blob", 0x0C: "HasCustomAttribute CustomAttributeType blob",
    0x0D: "HasFieldMarshal blob", 0x0E: "2 HasDeclSecurity blob", 0x0F: "2 4 >02", 0x10: "4 >04", 0x11: "blob",
    0x12: ">02 [14", 0x14: "2 text TypeDefOrRef", 0x15: ">02 [17", 0x17: "2 text blob", 0x18: "2 >06 HasSemantics",
    0x19: ">02 MethodDefOrRef MethodDefOrRef", 0x1A: "text", 0x1B: "blob", 0x1C: "2 MemberForwarded text >1A",
    0x1D: "4 >04", 0x20: "4 2 2 2 2 4 blob text text", 0x21: "4", 0x22: "4 4 4", 0x23: "2 2 2 2 4 blob text text blob",
    0x24: "4 >23", 0x25: "4 4 4 >23", 0x26: "4 text blob", 0x27: "4 4 text text Implementation",
    0x28: "4 4 text Implementation", 0x29: ">02 >02", 0x2A: "2 2 TypeOrMethodDef text", 0x2B: "MethodDefOrRef blob",
    0x2C: ">2A TypeDefOrRef",
}

# the bits of the tag, and the tables that each kind of coded index may name (II.24.2.6)
CODED = {
    "TypeDefOrRef": (2, [0x02, 0x01, 0x1B]), "HasConstant": (2, [0x04, 0x08, 0x17]),
    "HasCustomAttribute": (5, [0x06, 0x04, 0x01, 0x02, 0x08, 0x09, 0x0A, 0x00, 0x0E, 0x17, 0x14, 0x11, 0x1A, 0x1B, 0x20,
                               0x23, 0x26, 0x27, 0x28, 0x2A, 0x2C, 0x2B]),
    "HasFieldMarshal": (1, [0x04, 0x08]), "HasDeclSecurity": (2, [0x02, 0x06, 0x20]),
    "MemberRefParent": (3, [0x02, 0x01, 0x1A, 0x06, 0x1B]), "HasSemantics": (1, [0x14, 0x17]),
    "MethodDefOrRef": (1, [0x06, 0x0A]), "MemberForwarded": (1, [0x04, 0x06]),
    "Implementation": (2, [0x26, 0x23, 0x27]), "CustomAttributeType": (3, [0x06, 0x0A]),
    "ResolutionScope": (2, [0x00, 0x1A, 0x23, 0x01]), "TypeOrMethodDef": (1, [0x02, 0x06]),
}
HEAP_BITS = {"text": 1, "guid": 2, "blob": 4}
OWNERS = {0x04: 0x02, 0x06: 0x02, 0x08: 0x06, 0x14: 0x12, 0x17: 0x15}


def width(kind, sizes, counts):
    if kind in ("1", "2", "4"):
        return max(2, int(kind))
    if kind in HEAP_BITS:
        return 4 if sizes & HEAP_BITS[kind] else 2
    if kind[0] in ">[":
        return 2 if counts.get(int(kind[1:], 16), 0) < 1 << 16 else 4
    bits, named = CODED[kind]
    return 2 if all(counts.get(table, 0) < 1 << 16 - bits for table in named) else 4


def is_row(table, numbers, sizes, counts):
    """A number for each column, which fits the bytes that are read of it."""
    kinds = COLUMNS.get(table, "").split()
    if table not in COLUMNS or len(numbers) != len(kinds):
        return False
    sizes_read = [1 if kind == "1" else width(kind, sizes, counts) for kind in kinds]
    return all(number < 256 ** size for size, number in zip(sizes_read, numbers))


def stream(sizes, given):
    """The stream of rows, each with its table and how many equal ones there are; None where they do not fit."""
    counts = {}
    for table, many, _ in given:
        counts[table] = counts.get(table, 0) + many
    counts = {table: count for table, count in counts.items() if count}
    if sizes > 7 or any(many and not is_row(table, numbers, sizes, counts) for table, many, numbers in given):
        return None
    out = struct.pack("<IBBBBQQ", 0, 2, 0, sizes, 1, sum(1 << table for table in counts), 0x16003301FA00)
    out += b"".join(struct.pack("<I", counts[table]) for table in sorted(counts))
    for table in sorted(counts):
        widths = [width(kind, sizes, counts) for kind in COLUMNS[table].split()]
        for other, many, numbers in given:
            if other == table:
                out += many * b"".join(number.to_bytes(size, "little") for size, number in zip(widths, numbers))
    return out + bytes(-len(out) % 4)


def digest(data):
    """FNV-1a, 64 bits."""
    total = 0xCBF29CE484222325
    for byte in data:
        total = (total ^ byte) * 0x100000001B3 & 0xFFFFFFFFFFFFFFFF
    return total


def one(table, *numbers):
    return (table, 1, list(numbers))


def zeros(table, many):
    return (table, many, [0] * len(COLUMNS[table].split()))


def marked(table, row, sizes=0):
    """A row whose bytes tell the row and the column, in narrow columns but for large heaps."""
    numbers = []
    for place, kind in enumerate(COLUMNS[table].split()):
        size = 1 if kind == "1" else width(kind, sizes, {})
        low = 16 * row + place + 1
        numbers.append(int.from_bytes(bytes([low, table + 1, 0x80 | place, 0xF0 | row][:size]), "little"))
    return one(table, *numbers)


def holder(kind):
    """A table with a column of this kind, and the place of the column."""
    for table, kinds in COLUMNS.items():
        if kind in kinds.split():
            return table, kinds.split().index(kind)
    raise KeyError(kind)


def row_with(table, place, number):
    row = zeros(table, 1)
    row[2][place] = number
    return row


def small_cases():
    yield 0, []
    yield 0, [one(0x00, 0, 1, 1, 0, 0), one(0x02, 0, 11, 0, 0, 1, 1)]
    for table in COLUMNS:
        yield 0, [marked(table, 1), marked(table, 2)]
    yield 0, [marked(table, row) for table in COLUMNS for row in (1, 2)]
    yield 0, [marked(table, row) for row in (1, 2) for table in reversed(COLUMNS)]
    yield 7, [marked(table, row, 7) for table in COLUMNS for row in (1, 2)]
    # the run of each owner, the last one empty
    yield 0, [one(0x02, 0, 1, 0, 0, 1, 1), one(0x02, 0, 2, 0, 0, 2, 3), one(0x02, 0, 3, 0, 0, 3, 3), marked(0x04, 1),
              marked(0x04, 2), marked(0x06, 1), marked(0x06, 2)]
    # attributes of one parent, in order
    yield 0, [one(0x00, 0, 1, 1, 0, 0), one(0x0C, 39, 10, 1), one(0x0C, 39, 10, 5), one(0x0C, 71, 10, 3)]


def heap_cases():
    for kind in HEAP_BITS:
        table, place = holder(kind)
        for sizes in range(8):
            for index in (0xFFFF, 0x10000, 0xFFFFFFFF):
                yield sizes, [row_with(table, place, index)]
    yield 8, [zeros(0x00, 1)]
    yield 255, []


def faulty_cases():
    """Rows that do not fit."""
    yield 0, [row_with(0x0B, 0, 255)]
    yield 0, [row_with(0x0B, 0, 256)]
    yield 0, [row_with(0x08, 1, 65535)]
    yield 0, [row_with(0x08, 1, 65536)]
    yield 0, [row_with(0x21, 0, 0xFFFFFFFF)]
    for table in (0x03, 0x05, 0x13, 0x2D, 0x3F, 0x40, 0x70, 0xFF):
        yield 0, [one(table, 0)]
    for table in COLUMNS:
        many = len(COLUMNS[table].split())
        if many > 1:
            yield 0, [one(table, *[0] * (many - 1))]
        yield 0, [one(table, *[0] * (many + 1))]


def edge_cases():
    """Tables at the counts where columns grow."""
    for table, owner in OWNERS.items():
        place = COLUMNS[owner].split().index("[%02X" % table)
        edges = ((65535, 65535), (65536, 65536))
        if table == 0x04:
            edges += ((65534, 65535), (65535, 65536), (65536, 65537))
        for many, start in edges:
            yield 0, [row_with(owner, place, 1), row_with(owner, place, start), zeros(table, many)]
    for kind in (">02", ">2A"):
        table, place = holder(kind)
        for many in (65535, 65536):
            yield 0, [row_with(table, place, many), zeros(int(kind[1:], 16), many)]
    for kind, (bits, named) in CODED.items():
        table, place = holder(kind)
        for tag in (0, len(named) - 1):
            for many in ((1 << 16 - bits) - 1, 1 << 16 - bits):
                yield 0, [row_with(table, place, (many << bits) + tag), zeros(named[tag], many)]


def shown(given):
    words = []
    for table, many, numbers in given:
        times = "" if many == 1 else f"*{many}"
        words.append(f"{table:02x}{times}:{','.join(map(str, numbers))}")
    return "".join(" " + word for word in words)


def answer(kind, sizes, given):
    out = stream(sizes, given)
    if out is None:
        return "no rows"
    return out.hex() if kind == "hex" else f"{len(out)} {digest(out):016x}"


def main():
    cases = [("hex", *case) for case in [*small_cases(), *heap_cases(), *faulty_cases()]]
    cases += [("digest", *case) for case in edge_cases()]
    lines = [f"{kind} {sizes}{shown(given)}" for kind, sizes, given in cases]
    answers = [answer(kind, sizes, given) for kind, sizes, given in cases]
    other = ["", "hex", "hex x", "hex 0 00", "hex 0 0g:1", "hex 0 21:", "hex 0 21:4294967296", "hex 256", "read 0"]
    lines += other
    answers += ["no case"] * len(other)
    with open(os.path.join(FOLDER, "stdin"), "w") as out:
        out.writelines(line + "\n" for line in lines)
    with open(os.path.join(FOLDER, "stdout"), "w") as out:
        out.writelines(f"{number} {text}\n" for number, text in enumerate(answers, 1))


main()
