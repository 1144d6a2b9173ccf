#!/usr/bin/env python3
"""Runs the real program over the small image cut to every length, and with each byte set to 00, 01, 7F, 80 and FF in turn, and
compares status, text and line with those that this plain, slow reading of the format gives. The gate does not need it.

Usage: tests/every_byte.py
"""
import os
import subprocess
import sys
import tempfile

HERE = os.path.dirname(os.path.dirname(os.path.abspath(__file__)))
sys.path.insert(0, os.path.join(HERE, "tools"))
from small_image import small_image  # noqa: E402

VALUES = (0x00, 0x01, 0x7F, 0x80, 0xFF)


# The coded indexes: the bits of the tag, and the tables by tag (II.24.2.6).
CODED = {
    "TypeDefOrRef": (2, (0x02, 0x01, 0x1B)),
    "HasConstant": (2, (0x04, 0x08, 0x17)),
    "HasCustomAttribute": (5, (0x06, 0x04, 0x01, 0x02, 0x08, 0x09, 0x0A, 0x00, 0x0E, 0x17, 0x14, 0x11, 0x1A, 0x1B, 0x20, 0x23,
                               0x26, 0x27, 0x28, 0x2A, 0x2C, 0x2B)),
    "HasFieldMarshal": (1, (0x04, 0x08)),
    "HasDeclSecurity": (2, (0x02, 0x06, 0x20)),
    "MemberRefParent": (3, (0x02, 0x01, 0x1A, 0x06, 0x1B)),
    "HasSemantics": (1, (0x14, 0x17)),
    "MethodDefOrRef": (1, (0x06, 0x0A)),
    "MemberForwarded": (1, (0x04, 0x06)),
    "Implementation": (2, (0x26, 0x23, 0x27)),
    "CustomAttributeType": (3, (None, None, 0x06, 0x0A)),
    "ResolutionScope": (2, (0x00, 0x1A, 0x23, 0x01)),
    "TypeOrMethodDef": (1, (0x02, 0x06)),
}

# What the columns of each table hold (II.22): a number of 2 or 4 bytes, an index into a heap (S, G, B), an index into a table, or a
# coded index.
TABLES = {
    0x00: (2, "S", "G", "G", "G"),
    0x01: ("ResolutionScope", "S", "S"),
    0x02: (4, "S", "S", "TypeDefOrRef", ">04", ">06"),
    0x04: (2, "S", "B"),
    0x06: (4, 2, 2, "S", "B", ">08"),
    0x08: (2, 2, "S"),
    0x09: (">02", "TypeDefOrRef"),
    0x0A: ("MemberRefParent", "S", "B"),
    0x0B: (2, "HasConstant", "B"),
    0x0C: ("HasCustomAttribute", "CustomAttributeType", "B"),
    0x0D: ("HasFieldMarshal", "B"),
    0x0E: (2, "HasDeclSecurity", "B"),
    0x0F: (2, 4, ">02"),
    0x10: (4, ">04"),
    0x11: ("B",),
    0x12: (">02", ">14"),
    0x14: (2, "S", "TypeDefOrRef"),
    0x15: (">02", ">17"),
    0x17: (2, "S", "B"),
    0x18: (2, ">06", "HasSemantics"),
    0x19: (">02", "MethodDefOrRef", "MethodDefOrRef"),
    0x1A: ("S",),
    0x1B: ("B",),
    0x1C: (2, "MemberForwarded", "S", ">1A"),
    0x1D: (4, ">04"),
    0x20: (4, 2, 2, 2, 2, 4, "B", "S", "S"),
    0x21: (4,),
    0x22: (4, 4, 4),
    0x23: (2, 2, 2, 2, 4, "B", "S", "S", "B"),
    0x24: (4, ">23"),
    0x25: (4, 4, 4, ">23"),
    0x26: (4, "S", "B"),
    0x27: (4, 4, "S", "S", "Implementation"),
    0x28: (4, 4, "S", "Implementation"),
    0x29: (">02", ">02"),
    0x2A: (2, 2, "TypeOrMethodDef", "S"),
    0x2B: ("MethodDefOrRef", "B"),
    0x2C: (">2A", "TypeDefOrRef"),
}


class Refused(Exception):
    pass


def number(data, place, width):
    return int.from_bytes(data[place:place + width], "little")


def need(condition, refusal):
    if not condition:
        raise Refused(refusal)


def stands(data, place, count):
    return place + count <= len(data)


def place_of(sections, rva):
    for virtual, size, raw in sections:
        if virtual <= rva < virtual + size:
            return rva - virtual + raw, raw + size
    return None


def bytes_at(data, sections, rva):
    found = place_of(sections, rva)
    return b"" if found is None else data[found[0]:found[1]]


def streams_of(data):
    """The streams of an image (II.24.2, II.25)."""
    need(len(data) <= 2 ** 26, "1 TooLarge")
    need(data[:2] == b"MZ", "2 NoDos")
    need(stands(data, 0x3C, 4), "3 NoPe")
    pe = number(data, 0x3C, 4)
    need(stands(data, pe, 24) and data[pe:pe + 4] == b"PE\0\0", "3 NoPe")
    optional = pe + 24
    magic = number(data, optional, 2) if stands(data, optional, 2) else 0
    need(magic in (0x10B, 0x20B), "4 BadMagic(%d)" % magic)
    fixed = 96 if magic == 0x10B else 112
    size = number(data, pe + 20, 2)
    count = number(data, pe + 6, 2)
    headers = optional + size
    need(stands(data, optional, fixed) and stands(data, headers, 40 * count), "5 BadSections")
    end = fixed + 8 * 15
    need(number(data, optional + fixed - 4, 4) >= 15 and size >= end and stands(data, optional, end), "6 NoCli")
    cli_rva = number(data, optional + end - 8, 4)
    need(cli_rva != 0, "6 NoCli")
    sections = []
    for header in range(headers, headers + 40 * count, 40):
        sections.append(tuple(number(data, header + at, 4) for at in (12, 16, 20)))
    cli = bytes_at(data, sections, cli_rva)
    need(len(cli) >= 72, "7 BadCli")
    metadata = bytes_at(data, sections, number(cli, 8, 4))
    length = number(cli, 12, 4)
    need(len(metadata) >= length, "8 BadRoot")
    metadata = metadata[:length]
    need(stands(metadata, 0, 16) and metadata[:4] == b"BSJB", "8 BadRoot")
    version = number(metadata, 12, 4)
    need(stands(metadata, 16 + version, 4), "8 BadRoot")
    place = 20 + version
    streams = {}
    for _ in range(number(metadata, 18 + version, 2)):
        window = metadata[place + 8:place + 40]
        end = window.find(b"\0")
        need(end >= 0, "9 BadStreams")
        width = 8 + (end + 4) // 4 * 4
        need(stands(metadata, place, width), "9 BadStreams")
        start, size = number(metadata, place, 4), number(metadata, place + 4, 4)
        need(start + size <= len(metadata), "9 BadStreams")
        streams.setdefault(window[:end], metadata[start:start + size])
        place += width
    need(b"#~" in streams, "10 NoTables")
    return streams


def width_of(kind, counts, heap_sizes):
    """The bytes of a column (II.24.2.6)."""
    if isinstance(kind, int):
        return kind
    if kind in "SGB":
        return 4 if heap_sizes & {"S": 1, "G": 2, "B": 4}[kind] else 2
    if kind[0] == ">":
        return 2 if counts.get(int(kind[1:], 16), 0) < 2 ** 16 else 4
    bits, tables = CODED[kind]
    return 2 if all(counts.get(table, 0) < 2 ** (16 - bits) for table in tables) else 4


def rows_of(tables):
    """The rows of each table, each as the numbers in its columns (II.24.2.6)."""
    if len(tables) >= 24:
        valid = number(tables, 8, 8)
        for table in range(64):
            need(not valid >> table & 1 or table in TABLES, "11 UnsupportedTable(%d)" % table)
        need(tables[6] < 8, "12 BadHeapSizes(%d)" % tables[6])
    need(len(tables) >= 24, "13 BadTables")
    present = [table for table in range(64) if valid >> table & 1]
    place = 24 + 4 * len(present)
    need(len(tables) >= place, "13 BadTables")
    counts = {table: number(tables, 24 + 4 * n, 4) for n, table in enumerate(present)}
    need(all(count < 2 ** 24 for count in counts.values()), "13 BadTables")
    widths = {table: [width_of(kind, counts, tables[6]) for kind in TABLES[table]] for table in present}
    need(stands(tables, place, sum(counts[table] * sum(widths[table]) for table in present)), "13 BadTables")
    rows = {}
    for table in present:
        rows[table] = []
        for _ in range(counts[table]):
            row = []
            for width in widths[table]:
                row.append(number(tables, place, width))
                place += width
            rows[table].append(row)
    return rows


def escape(text):
    return "".join(
        "\\" + chr(c) if c in b'"\\' else chr(c) if 0x20 <= c <= 0x7E else "\\x%02x" % c for c in text)


def text_at(heap, index):
    if index == 0:
        return '""'
    end = heap.find(b"\0", index)
    return None if index > len(heap) or end < 0 else '"%s"' % escape(heap[index:end])


def guid_at(heap, index):
    if index == 0:
        return "none"
    if 16 * index > len(heap):
        return None
    g = heap[16 * index - 16:16 * index]
    parts = (g[3::-1], g[5:3:-1], g[7:5:-1], g[8:10], g[10:])
    return "-".join(part.hex() for part in parts)


def line(name, token, cells):
    for column, (_, value) in enumerate(cells):
        if value is None:
            return "fault row %s BadRow %d\n" % (token, column)
    return "%s %s%s\n" % (name, token, "".join(" %s=%s" % cell for cell in cells))


def dump(data):
    """The dump of an image, or its refusal (II.22.30, II.22.37)."""
    streams = streams_of(data)
    strings, guids = streams.get(b"#Strings", b""), streams.get(b"#GUID", b"")
    rows = rows_of(streams[b"#~"])

    def type_at(value):
        bits, tables = CODED["TypeDefOrRef"]
        tag, rid = value % 4, value >> 2
        if rid == 0:
            return "none"
        if tag >= len(tables) or rid > len(rows.get(tables[tag], ())):
            return None
        return "%02x%06x" % (tables[tag], rid)

    if not rows.get(0):
        lines = ["absent 00000001\n"]
    else:
        cell = rows[0][0]
        lines = [line("Module", "00000001", [
            ("Generation", cell[0]), ("Name", text_at(strings, cell[1])), ("Mvid", guid_at(guids, cell[2])),
            ("EncId", guid_at(guids, cell[3])), ("EncBaseId", guid_at(guids, cell[4]))])]
    for rid, cell in enumerate(rows.get(2, ()), 1):
        lines.append(line("TypeDef", "02%06x" % rid, [
            ("Flags", cell[0]), ("Name", text_at(strings, cell[1])), ("Namespace", text_at(strings, cell[2])),
            ("Extends", type_at(cell[3]))]))
    return "".join(lines)


def variants():
    image = small_image()
    for length in range(len(image) + 1):
        yield "cut to %x" % length, image[:length]
    for place in range(len(image)):
        for value in VALUES:
            yield "%x set to %02x" % (place, value), image[:place] + bytes([value]) + image[place + 1:]


def wanted(data):
    """The status, the text and the line of a run over these bytes."""
    try:
        return 0, dump(data), ""
    except Refused as refused:
        return 4, "", "cecil: file small.dll: refused %s\n" % refused


def main():
    program = os.path.join(HERE, "crates", "cecil", "out", "cecil")
    subprocess.run([os.path.join(HERE, "cecil")], stdout=subprocess.DEVNULL, stderr=subprocess.DEVNULL)
    passed = failed = 0
    with tempfile.TemporaryDirectory() as folder:
        for name, data in variants():
            with open(os.path.join(folder, "small.dll"), "wb") as file:
                file.write(data)
            run = subprocess.run([program, "dump", "small.dll"], cwd=folder, capture_output=True)
            got = run.returncode, run.stdout.decode(), run.stderr.decode()
            if got == wanted(data):
                passed += 1
            else:
                failed += 1
                print("%s: %r, wanted %r" % (name, got, wanted(data)))
    print("%d passed, %d failed" % (passed, failed))
    return failed != 0


if __name__ == "__main__":
    sys.exit(main())
