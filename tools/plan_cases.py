#!/usr/bin/env python3
"""Writes the images of `plan_cases` that are made by hand, and its cases.

Usage: tools/plan_cases.py FOLDER         writes the images
       tools/plan_cases.py --cases DATA   prints the cases, and after a line `===` their answers; DATA has the images

ECMA-335 II.22 has the tables, II.23.2 the signatures, II.25.4 the bodies. The answers are written out here by hand: a
row is kept where a list of the image or of a kept row has it, and rows of a sorted table go by the number of the row
that their link column names. Of images that a compiler made only the rows are counted, from the header of `#~`
(II.24.2.6): each row of them stands in a list. The first field of `Rva.dll` with data is of a type without a size.
"""
import struct
import sys

import row_images
from edit_images import bad_row
from row_images import data_rva, heaps, image_of, padded
from small_image import small_image

FLAGS = 0x210
ENTRY = 0x214
FIXUPS = 0x238

row_images.FORMATS.update({0x01: "<HHH", 0x08: "<HHH", 0x0A: "<HHH", 0x0B: "<BBHH", 0x26: "<IHH", 0x29: "<HH", 0x2A: "<HHHH",
                           0x2C: "<HH"})


def changed(image, place, digits):
    part = bytes.fromhex(digits)
    return image[:place] + part + image[place + len(part):]


def runs():
    """Three types whose runs of methods overlap: the second one's is none."""
    strings, blobs, module = heaps("runs.dll")
    name, sig = strings.text("N"), blobs.blob("00 00 01")
    return image_of({0x00: module, 0x02: [(0, name, 0, 0, 1, method) for method in (1, 5, 3)],
                     0x06: [(0, 0, 0, name, sig, 1)] * 6}, strings, blobs)


def attributes():
    """Attributes of the type, the module, of no row, and of the type."""
    strings, blobs, module = heaps("attributes.dll")
    name, sig = strings.text("N"), blobs.blob("00 00 01")
    return image_of({0x00: module, 0x02: [(0, name, 0, 0, 1, 1)], 0x06: [(0, 0, 0, name, sig, 1)],
                     0x0C: [(parent, 10, 0) for parent in (39, 35, 54, 39)]}, strings, blobs)


def nested():
    """The third type stands in the second."""
    strings, blobs, module = heaps("nested.dll")
    return image_of({0x00: module, 0x02: [(0, strings.text("N"), 0, 0, 1, 1)] * 3, 0x29: [(3, 2)]}, strings, blobs)


def nested_self():
    """The second type stands in itself."""
    strings, blobs, module = heaps("self.dll")
    return image_of({0x00: module, 0x02: [(0, strings.text("N"), 0, 0, 1, 1)] * 2, 0x29: [(2, 2)]}, strings, blobs)


def of_type():
    """A field of the second type, behind the fields of which the second type has none."""
    strings, blobs, module = heaps("sig.dll")
    name = strings.text("N")
    return image_of({0x00: module, 0x02: [(0, name, 0, 0, 1, 1), (0, name, 0, 0, 2, 1)],
                     0x04: [(0, name, blobs.blob("06 12 08"))]}, strings, blobs)


def with_body(module_name, codes, first=1, rest={}):
    """A type with methods of these bodies from number `first` on."""
    strings, blobs, module = heaps(module_name)
    name, sig = strings.text("N"), blobs.blob("00 00 01")
    parts = [padded(bytes.fromhex(code)) for code in codes]

    def rows(rva):
        methods, place = [], rva
        for part in parts:
            methods.append((place, 0, 0, name, sig, 1))
            place += len(part)
        return {0x00: module, 0x02: [(0, name, 0, 0, 1, first)], 0x06: methods,
                **{table: [tuple(name if cell == "name" else sig if cell == "sig" else cell for cell in row) for row in given]
                   for table, given in rest.items()}}

    given = {"strings": strings, "blobs": blobs}
    return image_of(rows(data_rva(rows=rows(0), **given)), data=b"".join(parts), **given)


RET = "06 2A"
CALL = "1A 28 01 00 00 06 2A"
LOCALS = "13 30 08 00 01 00 00 00 01 00 00 11 2A"
HANDLER = ("0B 30 01 00 06 00 00 00 00 00 00 00 DE 03 26 DE 00 2A 00 00 01 0C 00 00 00 00 00 00 02 02 00 03 01 00 00 01")


def unfit():
    """A native method, eight bytes of data of a field, and a resource of a file."""
    strings, blobs, module = heaps("unfit.dll")
    name, sig = strings.text("N"), blobs.blob("00 00 01")

    def rows(rva):
        return {0x00: module, 0x02: [(0, name, 0, 0, 1, 1)], 0x04: [(0, name, blobs_of["field"])],
                0x06: [(rva, 1, 0, name, sig, 1)], 0x1D: [(rva, 1)], 0x26: [(0, name, 0)], 0x28: [(0, 1, name, 4), (0, 1, name, 0)]}

    blobs_of = {"field": blobs.blob("06 0A")}
    given = {"strings": strings, "blobs": blobs, "resources": bytes.fromhex("01 00 00 00 61 00 00 00")}
    return image_of(rows(data_rva(rows=rows(0), **given)), data=bytes(range(8)), **given)


def fields():
    """A type of 65,535 fields."""
    strings, blobs, module = heaps("fields.dll")
    field = (0, strings.text("f"), blobs.blob("06 08"))
    return image_of({0x00: module, 0x02: [(0, strings.text("T"), 0, 0, 1, 1)], 0x04: [field] * 65535}, strings, blobs)


def unsorted():
    """Rows of sorted tables in another order than that of their link columns."""
    strings, blobs, module = heaps("unsorted.dll")
    name, sig = strings.text("N"), blobs.blob("00 00 01")
    field = (0, name, blobs.blob("06 08"))
    return image_of({0x00: module, 0x02: [(0, name, 0, 0, 1, 1), (0, name, 0, 0, 3, 2), (0, name, 0, 0, 3, 2)], 0x04: [field] * 2,
                     0x06: [(0, 0, 0, name, sig, 1)], 0x08: [(0, 1, name)], 0x09: [(2, 4), (1, 8), (2, 12)],
                     0x0B: [(8, 0, 5, 0), (8, 0, 8, 0), (8, 0, 4, 0)], 0x29: [(3, 1), (2, 1)],
                     0x2A: [(0, 0, 3, name), (0, 0, 4, name), (0, 0, 2, name), (1, 0, 4, name)],
                     0x2C: [(2, 12), (1, 8), (3, 4)]}, strings, blobs)


IMAGES = {
    "small.dll": small_image,
    "badrow.dll": bad_row,
    "runs.dll": runs,
    "attributes.dll": attributes,
    "noflag.dll": lambda: changed(small_image(), FLAGS, "00"),
    "nativeentry.dll": lambda: changed(small_image(), FLAGS, "11"),
    "fixups.dll": lambda: changed(small_image(), FIXUPS, "00 20 00 00 08"),
    "signed.dll": lambda: changed(small_image(), FLAGS, "09"),
    "mixed.dll": lambda: changed(runs(), FLAGS, "00"),
    "nested.dll": nested,
    "self.dll": nested_self,
    "sig.dll": of_type,
    "call.dll": lambda: with_body("call.dll", [RET, CALL], 2),
    "locals.dll": lambda: with_body("locals.dll", [RET, LOCALS]),
    "handler.dll": lambda: with_body("handler.dll", [HANDLER]),
    "row.dll": lambda: with_body("row.dll", [RET, RET], 2, {0x0A: [(11, "name", "sig")]}),
    "entry.dll": lambda: changed(with_body("entry.dll", [RET, CALL], 2), ENTRY, "01 00 00 06"),
    "unfit.dll": unfit,
    "fields.dll": fields,
    "unsorted.dll": unsorted,
}


def counts(image):
    """The numbers of rows, from the header of the stream of tables."""
    root = image.index(b"BSJB\1\0\1\0")
    header = image.index(b"#~\0\0", root)
    start = root + struct.unpack("<I", image[header - 8:header - 4])[0]
    valid = struct.unpack("<Q", image[start + 8:start + 16])[0]
    tables = [table for table in range(64) if valid >> table & 1]
    numbers = struct.unpack(f"<{len(tables)}I", image[start + 24:start + 24 + 4 * len(tables)])
    return "counts" + "".join(f" {table:02x}:{number}" for table, number in zip(tables, numbers))


# the images of which each row stands in a list
WHOLE = ["Exotic.dll", "Features.dll", "Module.netmodule", "Program.exe", "Tiny.dll", "UsesModule.dll", "g3.dll", "gen.dll"]

DONE = "done"

# what is said of the headers of the small image, where method 2 is the entry point and becomes method 1
FACTS = ('facts pe32 machine=014c time=0 characteristics=2102 base=0000000000400000 subsystem=3 dll=8540 runtime=2.5 flags=1 native=0 '
         'entry=06000001 version="v4.0.30319"')

CASES = [
    ("small.dll", [("plan", "planned"), ("counts", "counts 00:1 02:1"), ("kept 02", "kept 02000001"), ("kept 06", "kept"),
                   ("numbers 00000001 02000001 02000002 00000000", "numbers 00000001 02000001 none none"),
                   ("value row 02000001", 'TypeDef 02000001 Flags=0 Name="<Module>" Namespace="" Extends=none'),
                   ("value row 02000002", "none"), ("value owned 02000001 06", "owned 02000001 MethodDef:"),
                   ("value nested 02000001", "linked 02000001 Nested:"), ("value body 06000001", "none")]),
    ("badrow.dll", [("plan", "reached fault row 02000001 BadRow 1")]),
    ("runs.dll", [("plan", "reached fault owned 02000002 MethodDef BadRange 5"),
                  ("edit remove 00000000 02000002", DONE), ("plan", "twice 06000003")]),
    ("runs.dll", [("edit remove 02000001 06000003", DONE), ("edit remove 02000001 06000004", DONE),
                  ("edit remove 00000000 02000002", DONE), ("plan", "dangling 06000003 in owned 02000003 MethodDef:")]),
    ("mixed.dll", [("plan", "reached fault owned 02000002 MethodDef BadRange 5"),
                   ("edit remove 00000000 02000002", DONE), ("plan", "not pure IL")]),
    ("attributes.dll", [("plan", "planned"), ("counts", "counts 00:1 02:1 06:1 0c:3"), ("kept 0c", "kept 0c000002 0c000001 0c000004"),
                        ("numbers 0c000001 0c000002 0c000003 0c000004", "numbers 0c000002 0c000001 none 0c000003"),
                        ("value attributes 00000001", "linked 00000001 CustomAttribute: 0c000002 0c000003"),
                        ("value row 0c000001", "CustomAttribute 0c000002 Parent=00000001 Type=06000001 Value=#"),
                        ("value row 0c000003", "none")]),
    ("noflag.dll", [("plan", "not pure IL")]),
    ("nativeentry.dll", [("plan", "not pure IL")]),
    ("fixups.dll", [("plan", "not pure IL")]),
    ("signed.dll", [("plan", "planned")]),
    ("nested.dll", [("plan", "planned"), ("edit remove 00000000 02000003", DONE),
                    ("plan", "dangling 29000001 in linked 02000002 Nested:")]),
    ("nested.dll", [("edit remove 00000000 02000002", DONE), ("plan", "dangling 02000002 in row 29000001:"),
                    ("edit remove 02000003 29000001", DONE), ("counts", "counts 00:1 02:2"),
                    ("numbers 02000001 02000002 02000003", "numbers 02000001 none 02000002")]),
    ("self.dll", [("counts", "counts 00:1 02:2 29:1"), ("edit remove 02000002 29000001", DONE), ("counts", "counts 00:1 02:2")]),
    ("sig.dll", [("value sig 04000001", "sig 04000001 field class 02000002"), ("edit remove 00000000 02000001", DONE),
                 ("counts", "counts 00:1 02:1"), ("numbers 02000002", "numbers 02000001")]),
    ("sig.dll", [("edit remove 00000000 02000002", DONE), ("plan", "dangling 02000002 in sig 04000001:")]),
    ("call.dll", [("plan", "dangling 06000001 in body 06000002:")]),
    ("locals.dll", [("plan", "dangling 11000001 in body 06000002:")]),
    ("handler.dll", [("plan", "dangling 01000001 in body 06000001:")]),
    ("row.dll", [("plan", "dangling 06000001 in row 0a000001:")]),
    ("entry.dll", [("plan", "dangling 06000001 in facts:"), ("edit entry 06000002", DONE),
                   ("plan", "dangling 06000001 in body 06000002:"), ("edit nobody 06000002", DONE), ("plan", "planned"),
                   ("numbers 06000001 06000002", "numbers none 06000001"),
                   ("value facts", FACTS)]),
    ("unfit.dll", [("plan", "not pure IL"), ("edit nobody 06000001", DONE), ("plan", "planned"),
                   ("edit elsewhere 28000002", DONE), ("plan", "unfit 28000002"), ("edit resource 28000001 01", DONE),
                   ("plan", "unfit 28000001"), ("edit data 1d000001 01,02,03,04,05,06,07", DONE), ("plan", "unfit 1d000001"),
                   ("edit il 06000001", DONE), ("plan", "unfit 06000001"), ("edit nobody 06000001", DONE),
                   ("edit data 1d000001 01,02,03,04,05,06,07,08", DONE), ("plan", "unfit 28000001"),
                   ("edit elsewhere 28000001", DONE), ("edit resource 28000002 61", DONE), ("plan", "planned")]),
    ("Rva.dll", [("plan", "reached fault data 1d000001 BadData 0")]),
    ("fields.dll", [("counts", "counts 00:1 02:1 04:65535"), ("edit type", DONE + " 02000002"), ("plan", "too many 04 65535"),
                    ("edit remove 02000001 04000001", DONE), ("counts", "counts 00:1 02:2 04:65534"),
                    ("numbers 04000001 04000002 0400ffff", "numbers none 04000001 0400fffe")]),
    ("unsorted.dll", [("counts", "counts 00:1 02:3 04:2 06:1 08:1 09:3 0b:3 29:2 2a:4 2c:3"),
                      ("kept 09", "kept 09000002 09000001 09000003"), ("kept 0b", "kept 0b000003 0b000001 0b000002"),
                      ("kept 29", "kept 29000002 29000001"), ("kept 2a", "kept 2a000003 2a000001 2a000002 2a000004"),
                      ("kept 2c", "kept 2c000003 2c000002 2c000001"),
                      ("value nested 02000001", "linked 02000001 Nested: 29000002 29000001"),
                      ("value row 2c000001", "GenericParamConstraint 2c000003 Owner=2a000003 Constraint=02000003"),
                      ("value row 0b000001", "Constant 0b000002 Type=8 Parent=08000001 Value=#")]),
]


def listed(folder):
    cases = []
    for name, steps in CASES:
        cases += [(f"open {name}", "opened")] + steps
    for name in WHOLE:
        with open(f"{folder}/{name}", "rb") as file:
            cases += [(f"open {name}", "opened"), ("counts", counts(file.read()))]
    return cases


def main():
    if len(sys.argv) == 3 and sys.argv[1] == "--cases":
        cases = listed(sys.argv[2])
        print("\n".join(line for line, _ in cases))
        print("===")
        for number, (_, answer) in enumerate(cases, 1):
            print(number, answer)
    elif len(sys.argv) == 2:
        for name, made in IMAGES.items():
            with open(f"{sys.argv[1]}/{name}", "wb") as file:
                file.write(made())
    else:
        sys.exit(__doc__)


if __name__ == "__main__":
    main()
