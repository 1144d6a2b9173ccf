#!/usr/bin/env python3
"""Writes the cases of crates/pe_write_cases and their answers.

Usage: tools/pe_write_cases.py IMAGE..

The first cases are the small image (tools/small_image.py) in its two kinds, with changes that are made by hand in the image and
in the case, and lengths at the limit. Then each IMAGE is a case: an image of one section, as another writer wrote it, is cut into
its parts by the places of ECMA-335 II.24.2 and II.25, and the answer is that image. No answer is taken from the program.
"""
import os
import struct
import sys
from image_cases import WIDE
from small_image import small_image

FOLDER = os.path.join(os.path.dirname(os.path.abspath(__file__)), "..", "crates", "pe_write_cases")
SECTION = 0x200


def number(image, place, size):
    return int.from_bytes(image[place:place + size], "little")


def changed(image, changes):
    for change in changes.split():
        place, digits = change.split("=")
        part = bytes.fromhex(digits)
        image = image[:int(place, 16)] + part + image[int(place, 16) + len(part):]
    return image


def word(part):
    return part.hex() or "-"


def case(image):
    """The twenty words of an image of one section."""
    pe = number(image, 0x3C, 4)
    plus = number(image, pe + 24, 2) == 0x20B
    cli = SECTION
    metadata = number(image, cli + 8, 4) - 0x2000 + SECTION
    length = number(image, metadata + 12, 4)
    streams = {}
    place = metadata + 20 + length
    for _ in range(number(image, metadata + 18 + length, 2)):
        end = image.index(0, place + 8)
        start = metadata + number(image, place, 4)
        streams[image[place + 8:end].decode()] = image[start:start + number(image, place + 4, 4)]
        place = place + 8 + (end - place - 8) // 4 * 4 + 4
    body = image[cli + 72:metadata]
    words = [int(plus), number(image, pe + 4, 2), number(image, pe + 8, 4), number(image, pe + 22, 2),
             number(image, pe + 48, 8) if plus else number(image, pe + 52, 4), number(image, pe + 92, 2),
             number(image, pe + 94, 2), number(image, cli + 4, 2), number(image, cli + 6, 2), number(image, cli + 16, 4),
             number(image, cli + 20, 4)]
    version = image[metadata + 16:metadata + 16 + length].split(b"\0")[0]
    resources = [number(image, cli + 24, 4), number(image, cli + 28, 4)]
    return " ".join([f"{n:x}" for n in words] + [word(version), word(body)] + [f"{n:x}" for n in resources]
                    + [word(streams[name]) for name in ("#~", "#Strings", "#US", "#GUID", "#Blob")])


def with_word(words, place, text):
    words = words.split()
    words[place] = text
    return " ".join(words)


def cases(images):
    small = small_image()
    wide = changed(small, WIDE)
    yield case(small), small.hex()
    yield case(wide), wide.hex()
    # the flag of a signature is cleared, and no other: 8 in 0x1001b
    yield with_word(case(small), 9, "1001b"), changed(small, "210=13000100").hex()
    # an entry point, and the RVA and size of resources
    yield with_word(case(small), 10, "6000001"), changed(small, "214=01000006").hex()
    yield with_word(with_word(case(small), 13, "2050"), 14, "8"), changed(small, "218=5020000008000000").hex()
    # in PE32 the image base has four bytes
    yield with_word(case(small), 4, "180000000"), changed(small, "074=00000080").hex()
    # one byte before the metadata: that begins at the next multiple of 4, and the section has four bytes more
    moved = small[:0x248] + bytes.fromhex("2a000000") + small[0x248:0x400 - 4]
    yield with_word(case(small), 12, "2a"), changed(moved, "140=1c010000 208=4c200000").hex()
    # four: the same
    yield with_word(case(small), 12, "2a000000"), changed(moved, "140=1c010000 208=4c200000").hex()
    # a section of exactly 0x200 bytes, and one of a word more; the metadata has 208 bytes, the CLI header 72
    full = 0x200 - 72 - 208
    for length, raw in ((full, 0x200), (full + 4, 0x400)):
        image = small[:0x248] + bytes(length) + small[0x248:0x318]
        image += bytes(0x200 + raw - len(image))
        sizes = struct.pack("<I", 72 + length + 208).hex(), struct.pack("<I", raw).hex(), struct.pack("<I", 0x2048 + length).hex()
        yield (with_word(case(small), 12, f"{length}*00"),
               changed(image, f"05C={sizes[1]} 140={sizes[0]} 148={sizes[1]} 208={sizes[2]}").hex())
    # an image in memory of one section alignment, 0x2000 bytes, and of two
    yield with_word(case(small), 12, f"{0x2000 - 72 - 208}*00"), f"written {0x2200}"
    # 2^26 bytes, and as many more as a section's raw data grows by; metadata alone of more
    kilobyte = "00" * 1024
    yield with_word(case(small), 12, f"65535*{kilobyte}"), f"written {2 ** 26}"
    yield with_word(case(small), 12, f"65536*{kilobyte}"), f"too large {2 ** 26 + 0x400}"
    yield with_word(case(small), 19, f"65536*{kilobyte}"), f"too large {2 ** 26 + 204}"
    # no cases
    yield case(small) + " 00", "no case"
    yield with_word(case(small), 1, "10000"), "no case"
    yield with_word(case(small), 12, "0"), "no case"
    for name in images:
        with open(name, "rb") as file:
            image = file.read()
        yield case(image), image.hex() if len(image) <= 4096 else f"written {len(image)}"


def main():
    lines = dict.fromkeys(cases(sys.argv[1:]))
    for name, part in (("stdin", 0), ("stdout", 1)):
        with open(os.path.join(FOLDER, name), "w", encoding="utf-8") as file:
            for count, line in enumerate(lines, 1):
                file.write(line[part] + "\n" if part == 0 else f"{count} {line[part]}\n")


if __name__ == "__main__":
    main()
