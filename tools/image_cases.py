#!/usr/bin/env python3
"""Writes the cases of crates/image_cases and their answers.

Usage: tools/image_cases.py

A case is a change of the small image (tools/small_image.py), written by hand with the answer that ECMA-335 II.24.2 and II.25 give it:
the first refusal whose condition holds, or what the headers say. No answer is taken from a program.
"""
import os
from small_image import small_image

FOLDER = os.path.join(os.path.dirname(os.path.abspath(__file__)), "..", "crates", "image_cases")

# the facts of the small image
FACTS = {
    "kind": "pe32", "machine": "014c", "time": "0", "characteristics": "2102", "base": "0000000000400000", "subsystem": "3",
    "dll": "8540", "runtime": "2.5", "flags": "1", "native": "0", "entry": "00000000", "version": '"v4.0.30319"',
}

# the small image as PE32+: another machine, a wider optional header with a 64-bit base, directory 14 and the section header later
WIDE = " ".join([
    "044=6486", "054=F00022200B02", "070=0000008001000000", "0A0=00001000000000000010000000000000",
    "0B0=00001000000000000010000000000000", "0C4=10000000", "128=0000000000000000", "138=0020000048000000",
    "140=0000000000000000", "148=2E7465787400000018010000002000000002000000020000", "16C=20000060",
])

# a second section header: its RVA, the number of its bytes in the file, and their place there
SECOND = "046=02 160=2E6D6F726500000000000000{}{}{}"

# five streams of no bytes, so that nothing but their headers is in the metadata
EMPTY = " ".join(f"{place}=0000000000000000" for place in ("268", "274", "288", "294", "2A4"))


def facts(**changed):
    told = dict(FACTS, **changed)
    return told.pop("kind") + "".join(f" {name}={value}" for name, value in told.items())


def plus(**changed):
    return facts(**dict({"kind": "pe32+", "machine": "8664", "characteristics": "2022", "base": "0000000180000000"}, **changed))


def bytes_of(first, last):
    return small_image()[first:last].hex()


CASES = [
    ("open", facts()),
    # the file, at its greatest length and past it, which is looked for first
    ("open length=4000000", facts()),
    ("open length=4000001", "refused 1 TooLarge"),
    ("open 000=00 length=4000001", "refused 1 TooLarge"),
    # the MS-DOS header
    ("open 000=00", "refused 2 NoDos"),
    ("open 001=00", "refused 2 NoDos"),
    ("open length=0", "refused 2 NoDos"),
    ("open length=1", "refused 2 NoDos"),
    ("open length=2", "refused 3 NoPe"),
    ("open length=3F", "refused 3 NoPe"),
    # the PE signature and the file header after it
    ("open length=50", "refused 3 NoPe"),
    ("open length=57", "refused 3 NoPe"),
    ("open 040=00", "refused 3 NoPe"),
    ("open 043=01", "refused 3 NoPe"),
    ("open 03C=FFFFFFFF", "refused 3 NoPe"),
    ("open 03C=E9030000 3E9=50450000", "refused 3 NoPe"),
    ("open 03C=E8030000 3E8=50450000", "refused 4 BadMagic(0)"),
    # the magic
    ("open length=58", "refused 4 BadMagic(0)"),
    ("open length=59", "refused 4 BadMagic(0)"),
    ("open 058=07", "refused 4 BadMagic(263)"),
    ("open 058=0A", "refused 4 BadMagic(266)"),
    ("open 058=0C", "refused 4 BadMagic(268)"),
    ("open 058=0A02", "refused 4 BadMagic(522)"),
    ("open 058=0C02", "refused 4 BadMagic(524)"),
    ("open 058=FFFF", "refused 4 BadMagic(65535)"),
    # 96 bytes of optional header, 112 of PE32+, and the section headers, of which there may be none
    ("open length=150", "refused 5 BadSections"),
    ("open length=15F", "refused 5 BadSections"),
    ("open length=160", "refused 7 BadCli"),
    ("open 046=FFFF", "refused 5 BadSections"),
    ("open 046=00 054=50 length=B7", "refused 5 BadSections"),
    ("open 046=00 054=60 length=B8", "refused 6 NoCli"),
    ("open 046=00 054=61 length=B8", "refused 5 BadSections"),
    ("open 046=00 054=60 058=0B02 length=C7", "refused 5 BadSections"),
    ("open 046=00 054=70 058=0B02 length=C8", "refused 6 NoCli"),
    # directory 14
    ("open 128=0000000000000000", "refused 6 NoCli"),
    ("open 128=00000000", "refused 6 NoCli"),
    ("open 12C=00000000", facts()),
    ("open 0B4=0E", "refused 6 NoCli"),
    ("open 0B4=0F", facts()),
    ("open 054=D7", "refused 6 NoCli"),
    ("open 054=D8 130=2E7465787400000018010000002000000002000000020000", facts()),
    ("open 058=0B02", "refused 6 NoCli"),
    # the CLI header
    ("open length=200", "refused 7 BadCli"),
    ("open length=247", "refused 7 BadCli"),
    ("open length=248", "refused 8 BadRoot"),
    ("open 128=00300000", "refused 7 BadCli"),
    ("open 148=47000000", "refused 7 BadCli"),
    ("open 148=48000000", "refused 8 BadRoot"),
    # the metadata and its root
    ("open length=300", "refused 8 BadRoot"),
    ("open length=317", "refused 8 BadRoot"),
    ("open length=318", facts()),
    ("open 208=00000000", "refused 8 BadRoot"),
    ("open 24B=41", "refused 8 BadRoot"),
    ("open 20C=0F", "refused 8 BadRoot"),
    ("open 20C=1F", "refused 8 BadRoot"),
    ("open 20C=20", "refused 9 BadStreams"),
    ("open 254=BD", "refused 8 BadRoot"),
    ("open 254=BC", "refused 10 NoTables"),
    ("open 254=FFFFFFFF", "refused 8 BadRoot"),
    # the stream headers and the streams
    ("open 266=06", "refused 9 BadStreams"),
    ("open 2A8=05", "refused 9 BadStreams"),
    ("open 2A8=03", facts()),
    ("open 2A4=FFFFFFFFFFFFFFFF", "refused 9 BadStreams"),
    ("open 2A4=FFFFFFFF01000000", "refused 9 BadStreams"),
    ("open 2AC=" + "41" * 32, "refused 9 BadStreams"),
    ("open 2AC=" + "41" * 31 + "00", facts()),
    (f"open {EMPTY} 20C=6B", "refused 9 BadStreams"),
    (f"open {EMPTY} 20C=6C", facts()),
    ("open 271=2D", "refused 10 NoTables"),
    ("open 266=00", "refused 10 NoTables"),
    # the facts, one by one
    ("open 044=6486", facts(machine="8664")),
    ("open 048=78563412", facts(time="305419896")),
    ("open 056=0E01", facts(characteristics="010e")),
    ("open 074=00000010", facts(base="0000000010000000")),
    ("open 09C=02", facts(subsystem="2")),
    ("open 09E=4081", facts(dll="8140")),
    ("open 204=03", facts(runtime="3.5")),
    ("open 206=07", facts(runtime="2.7")),
    ("open 210=09000100", facts(flags="65545")),
    ("open 214=01000006", facts(entry="06000001")),
    ("open 214=FFFFFFFF", facts(entry="ffffffff")),
    ("open 228=01", facts(native="1")),
    ("open 230=01", facts(native="1")),
    ("open 238=01", facts(native="1")),
    ("open 240=01", facts(native="1")),
    ("open 218=0100000001000000", facts()),
    ("open 220=0100000001000000", facts()),
    ("open 22C=01 234=01 23C=01 244=01", facts()),
    ("open 258=41", facts(version='"A4.0.30319"')),
    ("open 258=00", facts(version='""')),
    ("open 258=22", facts(version='"\\"4.0.30319"')),
    ("open 262=4141", facts(version='"v4.0.30319AA"')),
    ("open 263=41", facts()),
    # the RVA of the resources
    ("resources", "0"),
    ("resources 218=7856341299000000", "12345678"),
    # PE32+
    (f"open {WIDE}", plus()),
    (f"open {WIDE} 074=FFFFFFFF", plus(base="ffffffff80000000")),
    (f"open {WIDE} 0C4=0E", "refused 6 NoCli"),
    (f"open {WIDE} 0C4=0F", plus()),
    (f"open {WIDE} 054=E7", "refused 6 NoCli"),
    (f"open {WIDE} 138=00000000", "refused 6 NoCli"),
    (f"open {WIDE} 09C=02", plus(subsystem="2")),
    (f"open {WIDE} 09E=4081", plus(dll="8140")),
    (f"at 2048 {WIDE}", "248 1b8"),
    # places, with the number of bytes from there
    ("at 1FFF", "none 0"),
    ("at 2000", "200 200"),
    ("at 2048", "248 1b8"),
    ("at 21FF", "3ff 1"),
    ("at 2200", "none 0"),
    ("at 2200 140=00100000", "none 0"),
    ("at 2000 " + SECOND.format("00200000", "00040000", "00010000"), "200 200"),
    ("at 2200 " + SECOND.format("00200000", "00040000", "00010000"), "300 100"),
    ("at FFFFFFFF " + SECOND.format("00FFFFFF", "00020000", "00010000"), "1ff 101"),
    ("at 3000 " + SECOND.format("00300000", "00010000", "00000100"), "10000 0"),
    # streams
    ("stream Tables", bytes_of(0x2B4, 0x2EC)),
    ("stream Strings", bytes_of(0x2EC, 0x300)),
    ("stream UserStrings", bytes_of(0x300, 0x304)),
    ("stream Guids", bytes_of(0x304, 0x314)),
    ("stream Blobs", bytes_of(0x314, 0x318)),
    ("stream Guids 2AC=2347554944", bytes_of(0x304, 0x314)),
    ("stream Blobs 2AC=2347554944", ""),
    ("stream Blobs 2AC=23626C6F62", ""),
]

if __name__ == "__main__":
    with open(os.path.join(FOLDER, "stdin"), "w") as file:
        file.write(small_image().hex() + "\n" + "".join(case + "\n" for case, _ in CASES))
    with open(os.path.join(FOLDER, "stdout"), "w") as file:
        file.write("".join(f"{number} {answer}\n" for number, (_, answer) in enumerate(CASES, 1)))
