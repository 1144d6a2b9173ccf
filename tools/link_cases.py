#!/usr/bin/env python3
"""Prints the cases of `table_cases` over link tables of many rows, and after a line `===` their answers, numbered from N on.

Usage: tools/link_cases.py N [ROWS]

Each of the 17 links (ECMA-335 II.22) over a table of ROWS rows (10,000 where none is given), with the numbers in its column rising,
falling and mixed. What is linked to a row is found here by going over all rows; its digest is that of crates/table_cases.
"""
import sys

# the link's table, the bytes before its column and after it, and the tables that the column names by their tags; None is an unused tag
TYPE_DEF, FIELD, METHOD_DEF, GENERIC_PARAM = (0x02,), (0x04,), (0x06,), (0x2A,)
HAS_CONSTANT = (0x04, 0x08, 0x17)
HAS_ATTRIBUTE = (0x06, 0x04, 0x01, 0x02, 0x08, 0x09, 0x0A, 0x00, 0x0E, 0x17, 0x14, 0x11, 0x1A, 0x1B, 0x20, 0x23, 0x26, 0x27, 0x28, 0x2A, 0x2C, 0x2B)
LINKS = [
    ("InterfaceImpl", 0x09, 0, 2, TYPE_DEF, 0), ("Constant", 0x0B, 2, 2, HAS_CONSTANT, 2), ("CustomAttribute", 0x0C, 0, 4, HAS_ATTRIBUTE, 5),
    ("FieldMarshal", 0x0D, 0, 2, (0x04, 0x08), 1), ("DeclSecurity", 0x0E, 2, 2, (0x02, 0x06, 0x20), 2), ("ClassLayout", 0x0F, 6, 0, TYPE_DEF, 0),
    ("FieldLayout", 0x10, 4, 0, FIELD, 0), ("EventMap", 0x12, 0, 2, TYPE_DEF, 0), ("PropertyMap", 0x15, 0, 2, TYPE_DEF, 0),
    ("MethodSemantics", 0x18, 4, 0, (0x14, 0x17), 1), ("MethodImpl", 0x19, 0, 4, TYPE_DEF, 0), ("ImplMap", 0x1C, 2, 4, (0x04, 0x06), 1),
    ("FieldRVA", 0x1D, 4, 0, FIELD, 0), ("NestedClass", 0x29, 0, 2, TYPE_DEF, 0), ("Nested", 0x29, 2, 0, TYPE_DEF, 0),
    ("GenericParam", 0x2A, 4, 2, (0x02, 0x06), 1), ("GenericParamConstraint", 0x2C, 0, 2, GENERIC_PARAM, 0)]


def head(table, rows):
    """The header of `#~` with this table alone."""
    return (bytes(4) + b"\x02\x00\x00\x01" + (1 << table).to_bytes(8, "little") + bytes(8) + rows.to_bytes(4, "little")).hex()


def numbers(rows, first, step, modulus):
    held, made = first, []
    for _ in range(rows):
        made.append(held % modulus)
        held = held % modulus + step
    return made


def go_on(total, number):
    return (total ^ number) * 0x100000001B3 % 2 ** 64


def digest(named, table, limit):
    total = 0xCBF29CE484222325
    for rid in range(limit):
        rids = named.get((table, rid), [])
        total = go_on(total, len(rids))
        for row in rids:
            total = go_on(total, row)
    return f"digest {total:016x}"


def main():
    first_number = int(sys.argv[1])
    rows = int(sys.argv[2]) if len(sys.argv) > 2 else 10_000
    lines, answers = [], []
    for place, (_, table, before, after, tables, bits) in enumerate(LINKS):
        for first, step, modulus in ((0, 1, 0x10000), (rows - 1, 0xFFFF, 0x10000), (17, 7919, 3001)):
            lines.append(f"rows {head(table, rows)} {rows} {before} 2 {after} {first} {step} {modulus}")
            answers.append(f"rows {table:02x}:{rows}")
            named = {}
            for row, number in enumerate(numbers(rows, first, step, modulus), 1):
                tag, rid = number % 2 ** bits, number >> bits
                if rid and tag < len(tables):
                    named.setdefault((tables[tag], rid), []).append(row)
            for target in sorted({tables[0], tables[-1], tables[len(tables) // 2]}) + [0x0D if place == 2 else 0x0C]:
                limit = (rows >> bits) + 2
                lines.append(f"sweep {place} {target} {limit}")
                answers.append(digest(named, target, limit))
    print("\n".join(lines))
    print("===")
    for number, answer in enumerate(answers, first_number):
        print(f"{number} {answer}")


if __name__ == "__main__":
    main()
