#!/usr/bin/env python3
"""Writes the damaged images of the cases of `edit_cases` that are made by hand.

Usage: tools/edit_images.py FOLDER

`badrow.dll` is the small image with a type whose name is no text. `nest.dll` has NestedClass rows of which one has no
EnclosingClass and two name types that are not there (ECMA-335 II.22.32). `member.dll` has a type whose second field has
a name that is not there, and `many.dll` a type of 5,000 members. The others are those of tools/row_images.py.
"""
import sys

import row_images
from row_images import bodies, field_data, heaps, image_of, resources, signatures
from small_image import small_image

# where the name of the type stands in the small image
TYPE_NAME = 0x2E2

row_images.FORMATS[0x29] = "<HH"


def bad_row():
    image = bytearray(small_image())
    image[TYPE_NAME] = 0xFF
    return bytes(image)


def nestings():
    strings, blobs, module = heaps("nest.dll")
    types = [(0, strings.text("N"), 0, 0, 1, 1)] * 4
    return image_of({0x00: module, 0x02: types, 0x29: [(2, 1), (3, 0), (9, 1), (4, 9), (4, 3)]}, strings, blobs)


def damaged_member():
    strings, blobs, module = heaps("member.dll")
    field, method = blobs.blob("06 08"), blobs.blob("00 00 01")
    fields = [(0, strings.text("a"), field), (0, 0x7FFF, field), (0, strings.text("c"), field)]
    return image_of({0x00: module, 0x02: [(0, strings.text("T"), 0, 0, 1, 1)], 0x04: fields,
                     0x06: [(0, 0, 0, strings.text("Go"), method, 1)]}, strings, blobs)


def many_members():
    strings, blobs, module = heaps("many.dll")
    field, method = blobs.blob("06 08"), blobs.blob("00 00 01")
    return image_of({0x00: module, 0x02: [(0, strings.text("T"), 0, 0, 1, 1)],
                     0x04: [(0, strings.text(f"f{i}"), field) for i in range(3000)],
                     0x06: [(0, 0, 0, strings.text(f"m{i}"), method, 1) for i in range(2000)]}, strings, blobs)


IMAGES = {"badrow.dll": bad_row, "nest.dll": nestings, "member.dll": damaged_member, "many.dll": many_members,
          "sigs.dll": signatures, "bodies.dll": lambda: bodies()[0],
          "data.dll": field_data, "res.dll": resources}


def main():
    if len(sys.argv) != 2:
        sys.exit(__doc__)
    for name, made in IMAGES.items():
        with open(f"{sys.argv[1]}/{name}", "wb") as file:
            file.write(made())


if __name__ == "__main__":
    main()
