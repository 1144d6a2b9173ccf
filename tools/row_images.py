#!/usr/bin/env python3
"""Writes small images whose rows hold what the cases of `inspect_cases` show: signatures, bodies, data, resources, runs and links.

Usage: tools/row_images.py FOLDER        writes the images
       tools/row_images.py --cases N     prints the cases, and after a line `===` their answers, numbered from N on

Each image is the small image (tools/small_image.py) with other streams; ECMA-335 II.22 has the tables, II.23.2 the signatures,
II.25.4 the bodies. The answers are written out here by hand, the order of a row's parts and links from the tables of II.22.
"""
import struct
import sys

from small_image import small_image

ROOT = 0x248
STREAMS = 0x2B4
SECTION = 0x200
SECTION_RVA = 0x2000
# the place of a stream's header, in the order in which the streams are laid
HEADERS = {"tables": 0x268, "strings": 0x274, "users": 0x288, "guids": 0x294, "blobs": 0x2A4}

# the columns of the tables that are used here, with narrow heaps and few rows
FORMATS = {0x00: "<HHHHH", 0x02: "<IHHHHH", 0x04: "<HHH", 0x06: "<IHHHHH", 0x09: "<HH", 0x0C: "<HHH", 0x0F: "<HIH", 0x11: "<H", 0x1B: "<H", 0x1D: "<IH",
           0x28: "<IIHH"}


def put(image, place, number):
    image[place:place + 4] = struct.pack("<I", number)


class Heap:
    """A heap of blobs or texts, each with its index."""

    def __init__(self):
        self.bytes = bytearray(1)

    def add(self, entry):
        place = len(self.bytes)
        self.bytes += entry
        return place

    def blob(self, digits):
        content = bytes.fromhex(digits)
        assert len(content) < 128
        return self.add(bytes([len(content)]) + content)

    def text(self, text):
        return self.add(text.encode() + b"\0")


def padded(part):
    return bytes(part) + bytes(-len(part) % 4)


def image_of(rows, strings=None, blobs=None, users=None, data=b"", resources=None):
    """The image with these rows by table; `data` stands behind the streams, `resources` as well. Gives the bytes."""
    tables = bytearray(24)
    tables[4], tables[7] = 2, 1
    tables[8:16] = struct.pack("<Q", sum(1 << table for table in rows))
    for table in sorted(rows):
        tables += struct.pack("<I", len(rows[table]))
    for table in sorted(rows):
        for row in rows[table]:
            tables += struct.pack(FORMATS[table], *row)
    image = bytearray(small_image()[:STREAMS])
    parts = {"tables": tables, "strings": strings.bytes if strings else b"\0", "users": users or b"\0",
             "guids": bytes(range(16)), "blobs": blobs.bytes if blobs else b"\0"}
    for name, place in HEADERS.items():
        part = padded(parts[name])
        put(image, place, len(image) - ROOT)
        put(image, place + 4, len(part))
        image += part
    put(image, 0x20C, len(image) - ROOT)
    if resources is not None:
        put(image, 0x218, rva_of(image))
        put(image, 0x21C, len(resources))
        image += padded(resources)
    image += padded(data)
    put(image, 0x140, len(image) - SECTION)
    put(image, 0x148, len(image) - SECTION)
    return bytes(image)


def rva_of(image):
    return SECTION_RVA + len(image) - SECTION


def data_rva(**arguments):
    """The RVA at which the data of an image with these arguments stands."""
    return SECTION_RVA + len(image_of(**arguments)) - SECTION


def heaps(module):
    strings = Heap()
    return strings, Heap(), [(0, strings.text(module), 1, 0, 0)]


def signatures():
    strings, blobs, module = heaps("sigs.dll")
    name = strings.text("N")
    sig = blobs.blob
    rows = {0x00: module, 0x02: [(0, name, 0, 0, 1, 1)],
            0x04: [(0, name, sig("06 08")), (0, name, sig("06 08 00")), (0, name, sig("06 12 09"))],
            0x06: [(0, 0, 0, name, sig("20 01 01 0E"), 1)],
            0x11: [(sig("06 08"),), (sig("07 02 08 45 0E"),)],
            0x1B: [(sig("14 08 02 00 00"),), (sig("1D" * 63 + "08"),), (sig("1D" * 64 + "08"),)]}
    return image_of(rows, strings, blobs)


def bodies():
    strings, blobs, module = heaps("bodies.dll")
    name, sig = strings.text("N"), blobs.blob("00 00 01")
    users = bytes.fromhex("00 03 27 00 01 03 61 00 00 01 00")
    codes = ["06 2A",
             "0B 30 01 00 06 00 00 00 00 00 00 00 DE 03 26 DE 00 2A 00 00 01 0C 00 00 00 00 00 00 02 02 00 03 01 00 00 01",
             "0E 2B FF 2A",
             "56 72 01 00 00 70 72 05 00 00 70 72 09 00 00 70 72 00 00 00 70 2A",
             "13 30 08 00 FF FF FF FF 00 00 00 00 2A"]
    parts = [padded(bytes.fromhex(code)) for code in codes]

    def rows(rva):
        methods, place = [], rva
        for part in parts:
            methods.append((place, 0, 0, name, sig, 1))
            place += len(part)
        methods += [(0, 0, 0, name, sig, 1), (rva, 1, 0, name, sig, 1)]
        return {0x00: module, 0x02: [(0, name, 0, 0, 1, 1)], 0x06: methods}

    rest = {"strings": strings, "blobs": blobs, "users": users}
    rva = data_rva(rows=rows(0), **rest)
    return image_of(rows(rva), data=b"".join(parts), **rest), rva


def field_data():
    strings, blobs, module = heaps("data.dll")
    name = strings.text("N")
    fields = [(0, name, blobs.blob(sig)) for sig in ("06 0B", "06 0E", "06 11 08", "06 03", "06 1F 05 04", "06 0D")]
    data = bytes(range(1, 25))

    def rows(rva):
        return {0x00: module, 0x02: [(0, name, 0, 0, 1, 1), (0, name, 0, 0, 7, 1)], 0x04: fields, 0x0F: [(1, 16, 2)],
                0x1D: [(rva, 1), (rva, 2), (rva, 3), (rva, 4), (rva, 5), (rva + 20, 6), (0, 1), (rva, 9)]}

    rest = {"strings": strings, "blobs": blobs}
    return image_of(rows(data_rva(rows=rows(0), **rest)), data=data, **rest)


def resources():
    strings, blobs, module = heaps("res.dll")
    name = strings.text("R")
    rows = {0x00: module, 0x28: [(0, 1, name, 0), (6, 1, name, 0), (0xFFFFFFFF, 1, name, 0), (10, 1, name, 0), (3, 1, name, 4)]}
    content = bytes.fromhex("02 00 00 00 61 62 FF FF FF FF 00 00 00 00")
    return image_of(rows, strings, blobs, resources=content)


def runs_and_links():
    strings, blobs, module = heaps("runs.dll")
    name, sig = strings.text("N"), blobs.blob("00 00 01")
    rows = {0x00: module, 0x02: [(0, name, 0, 0, 1, method) for method in (1, 5, 3)], 0x06: [(0, 0, 0, name, sig, 1)] * 6,
            0x0C: [(parent, 0, 0) for parent in (39, 35, 54, 39)]}
    return image_of(rows, strings, blobs)


def many_links():
    """Every one of 10,000 InterfaceImpl rows names the one type."""
    strings, blobs, module = heaps("many.dll")
    return image_of({0x00: module, 0x02: [(0, strings.text("N"), 0, 0, 1, 1)], 0x09: [(1, 0)] * 10000}, strings, blobs)


# PE32+ headers over the small image: II.25.2.3, with the size of the image base, the stacks and heaps as 64-bit numbers
WIDE = [(0x44, "64 86"), (0x54, "F0 00 22 20 0B 02"), (0x70, "00 00 00 80 01 00 00 00"),
        *[(place, "00 00 10 00 00 00 00 00 00 10 00 00 00 00 00 00") for place in (0xA0, 0xB0)],
        (0xC4, "10 00 00 00"), (0x128, "00" * 8), (0x138, "00 20 00 00 48 00 00 00"), (0x140, "00" * 8),
        (0x148, "2E 74 65 78 74 00 00 00 18 01 00 00 00 20 00 00 00 02 00 00 00 02 00 00"), (0x160, "00" * 12),
        (0x16C, "20 00 00 60")]


def wide():
    image = bytearray(small_image())
    for place, digits in WIDE:
        part = bytes.fromhex(digits)
        image[place:place + len(part)] = part
    return bytes(image)


IMAGES = {"sigs.dll": signatures, "bodies.dll": lambda: bodies()[0], "data.dll": field_data, "res.dll": resources, "runs.dll": runs_and_links, "many.dll": many_links,
          "wide.dll": wide}

LINKS = {"Module": ["CustomAttribute"],
         "TypeDef": ["InterfaceImpl", "CustomAttribute", "DeclSecurity", "ClassLayout", "EventMap", "PropertyMap", "MethodImpl", "NestedClass",
                     "Nested", "GenericParam"],
         "Field": ["Constant", "CustomAttribute", "FieldMarshal", "FieldLayout", "ImplMap", "FieldRVA"],
         "MethodDef": ["CustomAttribute", "DeclSecurity", "ImplMap", "GenericParam"],
         "StandAloneSig": ["CustomAttribute"], "TypeSpec": ["CustomAttribute"], "FieldRVA": [], "ManifestResource": ["CustomAttribute"],
         "CustomAttribute": []}
OWNED = {"TypeDef": ["Field", "MethodDef"], "MethodDef": ["Param"]}


def shown(table, token, row, sig=None, owned={}, linked={}, after=()):
    """The lines of a row; `sig` is what is said of its signature, `after` the lines behind its links."""
    lines = [row if row.startswith("fault") else f"{table} {token} {row}".rstrip()]
    if sig is not None:
        lines.append(sig if sig.startswith("fault") else f"sig {token} {sig}")
    for name in OWNED.get(table, []):
        said = owned.get(name, "")
        lines.append(said if said.startswith("fault") else f"owned {token} {name}:{said}")
    for name in LINKS[table]:
        lines.append(f"linked {token} {name}:{linked.get(name, '')}")
    return lines + list(after)


def digest(lines):
    """The digest (FNV-1a, 64 bits) of status 0, its empty line, and the text."""
    total = 0xCBF29CE484222325
    for byte in b"\0" + "".join(line + "\n" for line in lines).encode():
        total = (total ^ byte) * 0x100000001B3 % 2 ** 64
    return f"digest {total:016x}"


def cases():
    """Each case: its line, and the lines of its answer, or the one line that stands for them."""
    field, method = 'Flags=0 Name="N"', 'ImplFlags=0 Flags=0 Name="N"'
    listed = []

    def case(name, token, lines):
        listed.append((f"{name} -- show {name} {token}", lines))

    def signed(token, table, row, sig):
        linked = {}
        case("sigs.dll", token, shown(table, token, row, sig, linked=linked,
                                      after=[f"body {token} none"] if table == "MethodDef" else []))

    signed("06000001", "MethodDef", method, "instance void(string)")
    signed("04000001", "Field", field, "field i4")
    signed("04000002", "Field", field, "fault sig 04000002 BadSignature 0")
    signed("04000003", "Field", field, "field class 01000002")
    signed("11000001", "StandAloneSig", "", "field i4")
    signed("11000002", "StandAloneSig", "", "locals(i4,pinned string)")
    signed("1b000001", "TypeSpec", "", "i4[2;;]")
    signed("1b000002", "TypeSpec", "", "i4" + "[]" * 63)
    signed("1b000003", "TypeSpec", "", "fault sig 1b000003 BadSignature 0")

    rva = bodies()[1]
    said = ["body 06000001 stack=8 init=0 locals=none [0] ret",
            "body 06000002 stack=1 init=0 locals=none [0] leave.s ->3 [1] pop [2] leave.s ->3 [3] ret {typed 0 1 1 3 01000001}",
            "fault body 06000003 BadBody 0",
            "body 06000004 stack=8 init=0 locals=none [0] ldstr \"'\" [1] ldstr \"a\" [2] ldstr \"\" [3] ldstr \"\" [4] ret",
            "fault body 06000005 BadBody 0", "body 06000006 none", f"body 06000007 native {rva}"]
    for number, line in enumerate(said, 1):
        token = f"0600000{number}"
        row = method if number < 7 else method.replace("ImplFlags=0", "ImplFlags=1")
        case("bodies.dll", token, shown("MethodDef", token, row, "void()", after=[line]))

    data = bytes(range(1, 25)).hex()
    fields = ["data 1d000001 " + data[:16], "fault data 1d000002 BadData 0", "data 1d000003 " + data[:32], "data 1d000004 " + data[:4],
              "data 1d000005 " + data[:2], "fault data 1d000006 BadData 0", "fault data 1d000007 BadData 0"]
    for number, line in enumerate(fields, 1):
        token = f"1d00000{number}"
        of = 1 if number == 7 else number
        case("data.dll", token, shown("FieldRVA", token, f"Field=0400000{of}", after=[line]))
    case("data.dll", "1d000008", ["fault row 1d000008 BadRow 1", "fault data 1d000008 BadData 0"])

    named = 'Flags=1 Name="R" Implementation=none'
    for number, line in enumerate(["resource 28000001 6162", "fault resource 28000002 BadResource 0", "fault resource 28000003 BadResource 0",
                                   "resource 28000004 "], 1):
        token = f"2800000{number}"
        case("res.dll", token, shown("ManifestResource", token, named, after=[line]))
    case("res.dll", "28000005", ["fault row 28000005 BadRow 3", "linked 28000005 CustomAttribute:", "fault resource 28000005 BadResource 0"])

    kind = 'Flags=0 Name="N" Namespace="" Extends=none'
    first = "".join(f" 0600000{rid}" for rid in (1, 2, 3, 4))
    last = "".join(f" 0600000{rid}" for rid in (3, 4, 5, 6))
    case("runs.dll", "02000001", shown("TypeDef", "02000001", kind, owned={"MethodDef": first}, linked={"CustomAttribute": " 0c000002"}))
    case("runs.dll", "02000002", shown("TypeDef", "02000002", kind, owned={"MethodDef": "fault owned 02000002 MethodDef BadRange 5"}))
    case("runs.dll", "02000003", shown("TypeDef", "02000003", kind, owned={"MethodDef": last}))
    case("runs.dll", "00000001", shown("Module", "00000001",
                                       'Generation=0 Name="runs.dll" Mvid=03020100-0504-0706-0809-0a0b0c0d0e0f EncId=none EncBaseId=none',
                                       linked={"CustomAttribute": " 0c000001 0c000004"}))
    case("runs.dll", "0c000003", ["fault row 0c000003 BadRow 0"])
    case("runs.dll", "0c000005", ["absent 0c000005"])

    tokens = "".join(f" 09{rid:06x}" for rid in range(1, 10001))
    lines = shown("TypeDef", "02000001", kind, linked={"InterfaceImpl": tokens})
    length = len(many_links())
    listed.append((f"many.dll; cuts {length} {length + 1} -- show many.dll 02000001", digest(lines)))
    listed.append(("small.dll; set 0x2d0 0xff; set 0x2d1 0xff; set 0x2d2 0xff -- dump small.dll", "4 cecil: file small.dll: refused 13 BadTables"))

    small = ['Module 00000001 Generation=0 Name="small.dll" Mvid=00112233-4455-6677-8899-aabbccddeeff EncId=none EncBaseId=none',
             'TypeDef 02000001 Flags=0 Name="<Module>" Namespace="" Extends=none']
    listed.append(("wide.dll -- dump wide.dll", small))
    return listed


def main():
    if len(sys.argv) == 3 and sys.argv[1] == "--cases":
        listed = cases()
        print("\n".join(line for line, _ in listed))
        print("===")
        for number, (_, lines) in enumerate(listed, int(sys.argv[2])):
            if isinstance(lines, str):
                print(f"{number} {lines}")
                continue
            print(f"{number} 0")
            for line in lines:
                print(f"  {line}")
    elif len(sys.argv) == 2:
        for name, made in IMAGES.items():
            with open(f"{sys.argv[1]}/{name}", "wb") as file:
                file.write(made())
    else:
        sys.exit(__doc__)


if __name__ == "__main__":
    main()
