#!/usr/bin/env python3
"""Writes the small image: the least PE file with one Module row and one TypeDef row that we test with.

Usage: tools/small_image.py FILE

The table below has the places of its bytes, in hex, and the bytes; all others of its 1,024 are zero.
The headers are those of ECMA-335 II.25, the metadata that of II.24.
"""
import sys

LENGTH = 0x400

PARTS = [
    (0x000, "4D 5A", "MS-DOS header"),
    (0x03C, "40 00 00 00", "place of the PE header"),
    (0x040, "50 45 00 00", "PE signature"),
    (0x044, "4C 01 01 00 00 00 00 00 00 00 00 00 00 00 00 00 E0 00 02 21", "PE file header"),
    (0x058, "0B 01 08 00 00 02 00 00", "optional header: PE32, linker 8.0, code size"),
    (0x06C, "00 20 00 00", "base of code"),
    (0x074, "00 00 40 00 00 20 00 00 00 02 00 00", "image base, section alignment, file alignment"),
    (0x080, "04 00 00 00", "OS version"),
    (0x088, "04 00 00 00", "subsystem version"),
    (0x090, "00 40 00 00 00 02 00 00", "image size, header size"),
    (0x09C, "03 00 40 85", "subsystem, DLL characteristics"),
    (0x0A0, "00 00 10 00 00 10 00 00 00 00 10 00 00 10 00 00", "stack and heap sizes"),
    (0x0B4, "10 00 00 00", "number of directories"),
    (0x128, "00 20 00 00 48 00 00 00", "directory 14: the CLI header"),
    (0x138, "2E 74 65 78 74 00 00 00 18 01 00 00 00 20 00 00 00 02 00 00 00 02 00 00", "section .text"),
    (0x15C, "20 00 00 60", "section characteristics"),
    (0x200, "48 00 00 00 02 00 05 00 48 20 00 00 D0 00 00 00 01 00 00 00", "CLI header"),
    (0x248, "42 53 4A 42 01 00 01 00 00 00 00 00 0C 00 00 00", "metadata root"),
    (0x258, "76 34 2E 30 2E 33 30 33 31 39 00 00 00 00 05 00", "version text, flags, five streams"),
    (0x268, "6C 00 00 00 38 00 00 00 23 7E 00 00", "header of #~"),
    (0x274, "A4 00 00 00 14 00 00 00 23 53 74 72 69 6E 67 73 00 00 00 00", "header of #Strings"),
    (0x288, "B8 00 00 00 04 00 00 00 23 55 53 00", "header of #US"),
    (0x294, "BC 00 00 00 10 00 00 00 23 47 55 49 44 00 00 00", "header of #GUID"),
    (0x2A4, "CC 00 00 00 04 00 00 00 23 42 6C 6F 62 00 00 00", "header of #Blob"),
    (0x2B4, "00 00 00 00 02 00 00 01 05 00 00 00 00 00 00 00 00 FA 01 33 00 16 00 00", "#~: versions, HeapSizes, Valid, Sorted"),
    (0x2CC, "01 00 00 00 01 00 00 00", "one Module row, one TypeDef row"),
    (0x2D4, "00 00 01 00 01 00 00 00 00 00", "Module row"),
    (0x2DE, "00 00 00 00 0B 00 00 00 00 00 01 00 01 00", "TypeDef row"),
    (0x2EC, "00 73 6D 61 6C 6C 2E 64 6C 6C 00 3C 4D 6F 64 75 6C 65 3E 00", "#Strings"),
    (0x304, "33 22 11 00 55 44 77 66 88 99 AA BB CC DD EE FF", "#GUID"),
]


def small_image():
    image = bytearray(LENGTH)
    for place, digits, _ in PARTS:
        part = bytes.fromhex(digits)
        image[place:place + len(part)] = part
    assert len(image) == LENGTH
    return bytes(image)


if __name__ == "__main__":
    if len(sys.argv) != 2:
        sys.exit(__doc__)
    with open(sys.argv[1], "wb") as file:
        file.write(small_image())
