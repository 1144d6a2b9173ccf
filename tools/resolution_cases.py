#!/usr/bin/env python3
"""Prints cases of `run_cases` that follow references and read attributes, and writes the image that they need.

Usage: tools/resolution_cases.py IMAGE

The image has an attribute of the module whose constructor takes the enum N.E of the assembly `lib`, with the value 2, and
a reference to its own first type. The cases come first, and after a line `===` their answers, numbered from 1 on. The
answers are told by the rules alone (ECMA-335 II.22.10, II.22.14, II.22.38, II.22.39, II.23.3): which questions are asked
in turn, and which keys of the image are read for each, the first time.
"""
import json
import sys

import row_images
from row_images import heaps, image_of

row_images.FORMATS.update({0x01: "<HHH", 0x0A: "<HHH", 0x23: "<HHHHIHHHH"})

NO_BLOB = {"hex": ""}


def attribute_image():
    strings, blobs, module = heaps("attr.dll")
    name, space, own = strings.text("E"), strings.text("N"), strings.text("<Module>")
    constructor, value = blobs.blob("20 01 01 11 05"), blobs.blob("01 00 02 00 00 00 00 00")
    # coded indexes: AssemblyRef 1 is 6 and Module 1 is 4 in ResolutionScope, TypeRef 1 is 9 in MemberRefParent, Module 1 is 39
    # in HasCustomAttribute, MemberRef 1 is 11 in CustomAttributeType
    rows = {0x00: module, 0x01: [(6, name, space), (4, own, 0)], 0x02: [(0, own, 0, 0, 1, 1)],
            0x0A: [(9, strings.text(".ctor"), constructor)], 0x0C: [(39, 11, value)],
            0x23: [(1, 0, 0, 0, 0, 0, strings.text("lib"), 0, 0)]}
    return image_of(rows, strings, blobs)


def assembly(name):
    return [0, 1, 0, 0, 0, 0, NO_BLOB, name, ""]


def assembly_ref(name):
    return [1, 0, 0, 0, 0, NO_BLOB, name, "", NO_BLOB]


def assembly_row(name):
    return f'Assembly 20000001 HashAlgId=0 Major=1 Minor=0 Build=0 Revision=0 Flags=0 PublicKey=# Name="{name}" Culture=""'


def assembly_ref_row(name):
    return (f'AssemblyRef 23000001 Major=1 Minor=0 Build=0 Revision=0 Flags=0 PublicKeyOrToken=# Name="{name}" Culture=""'
            ' HashValue=#')


class Run:
    """The lines of a run with one actor, made as its commands are told."""

    def __init__(self, modules):
        self.commands, self.lines, self.histories = [], [], [[] for _ in range(modules)]

    def at(self, number, module, step, filled):
        """Fills keys of a module for a step of a command, and gives how the line begins."""
        history = self.histories[module]
        for key in filled:
            history.append(f"fill {key} by 0.{number}.{step} after {len(history)}")
        return f"0.{number} m{module} @{len(history)}"

    def edit(self, command, filled, answer):
        number = len(self.commands)
        self.commands.append(command)
        self.at(number, command[1], 0, filled)
        self.histories[command[1]].append(f"edit by 0.{number}")
        self.lines.append(f"{self.at(number, command[1], 0, [])} {answer}")

    def query(self, command, filled, answer):
        number = len(self.commands)
        self.commands.append(command)
        self.lines.append(f"{self.at(number, command[1], 0, filled)} {answer}")

    def resolution(self, command, asked, end):
        """`asked` has the module, the keys that are filled, and the reply of each question."""
        number = len(self.commands)
        self.commands.append(command)
        for step, (module, filled, reply) in enumerate(asked):
            self.lines.append(f"{self.at(number, module, step, filled)} ask {reply}")
        self.lines.append(f"0.{number} {command[0]} {end}")

    def text(self):
        lines = list(self.lines)
        for module, history in enumerate(self.histories):
            lines.append(f"m{module} history {len(history)}")
            lines += [f"m{module} {place} {entry}" for place, entry in enumerate(history, 1)]
        return lines


def compressed(number):
    """An unsigned number as signatures have it (II.23.2)."""
    if number < 0x80:
        return f"{number:02x}"
    return f"{number | 0x8000:04x}"


def steps(count):
    """A TypeSpec that leads over so many steps to the type: found, unless a hundredth would come."""
    run = Run(1)
    for i in range(count):
        named = "04" if i == 0 else compressed(i << 2 | 2)
        keys = ["owned 00000000 TypeSpec"] if i == 0 else []
        run.edit(["add", 0, "TypeSpec", [], "12" + named], keys, f"done 1b{i + 1:06x}")
    asked = []
    for i in range(count, max(count - 100, 0), -1):
        leads_to = f"1b{i - 1:06x}" if i > 1 else "02000001"
        asked.append((0, [], f"sig 1b{i:06x} class {leads_to}"))
    run.resolution(["resolve", 0, f"${count - 1}"], asked, "found m0 02000001" if count < 100 else "toodeep")
    return ["small.dll"], run


def circle():
    """Two assemblies that each say that the other one has the type."""
    run = Run(3)
    own = {1: "b", 2: "c"}
    for module in (1, 2):
        run.edit(["add", module, "Assembly", assembly(own[module]), None], ["owned 00000000 Assembly"], "done 20000001")
    for module in (1, 2):
        run.edit(["add", module, "AssemblyRef", assembly_ref(own[3 - module]), None], ["owned 00000000 AssemblyRef"], "done 23000001")
    for module in (1, 2):
        run.edit(["add", module, "ExportedType", [0, 0, "F", "N", f"${module + 1}"], None], ["owned 00000000 ExportedType"],
                 "done 27000001")
    run.edit(["add", 0, "AssemblyRef", assembly_ref("b"), None], ["owned 00000000 AssemblyRef"], "done 23000001")
    run.edit(["add", 0, "TypeRef", ["$6", "F", "N"], None], ["owned 00000000 TypeRef"], "done 01000001")
    asked = [(0, [], 'TypeRef 01000001 ResolutionScope=23000001 Name="F" Namespace="N"')]
    by, read = 0, set()
    for step in range(100):
        to = 1 if step % 2 == 0 else 2
        asked.append((by, [], assembly_ref_row(own[to])))
        asked.append((0, [], "absent 20000001"))
        asked += [(module, [], assembly_row(own[module])) for module in range(1, to + 1)]
        asked.append((to, [] if to in read else ["owned 00000000 TypeDef", "row 02000001"], "notfound"))
        asked.append((to, [], "owned 00000000 ExportedType: 27000001"))
        asked.append((to, [], 'ExportedType 27000001 Flags=0 TypeDefId=0 Name="F" Namespace="N" Implementation=23000001'))
        read.add(to)
        by = to
    run.resolution(["resolve", 0, "$7"], asked, "toodeep")
    return ["small.dll"] * 3, run


def attribute_asked():
    """The questions of the attribute of the image, up to the row of the enum's assembly."""
    return [(0, ["row 0c000001"], "CustomAttribute 0c000001 Parent=00000001 Type=0a000001 Value=#0100020000000000"),
            (0, ["sig 0a000001"], "sig 0a000001 instance void(valuetype 01000001)"),
            (0, ["row 01000001"], 'name 01000001 "N.E"'),
            (0, [], 'TypeRef 01000001 ResolutionScope=23000001 Name="E" Namespace="N"'),
            (0, ["row 23000001"], assembly_ref_row("lib")),
            (0, [], "absent 20000001")]


def no_enum():
    run = Run(1)
    run.resolution(["attribute", 0, "0c000001"], attribute_asked(), 'unresolved "N.E"')
    return ["attr.dll"], run


def enum_elsewhere():
    run = Run(2)
    run.edit(["add", 1, "Assembly", assembly("lib"), None], ["owned 00000000 Assembly"], "done 20000001")
    run.edit(["add", 1, "TypeDef", [1, "E", "N", None], None], ["owned 00000000 TypeDef"], "done 02000002")
    run.edit(["insert", 1, "$1", "Field", 0, [6, "value__"], "0608"], [], "done 04000001")
    asked = attribute_asked() + [
        (1, [], assembly_row("lib")), (1, ["row 02000001"], "found 02000002"), (1, [], "owned 02000002 Field: 04000001"),
        (1, [], 'Field 04000001 Flags=6 Name="value__"'), (1, [], "sig 04000001 field i4")]
    run.resolution(["attribute", 0, "0c000001"], asked, '(enum "N.E" i4:00000002)')
    return ["attr.dll", "small.dll"], run


def named_enum(name, is_nested):
    """A field of an enum that is told by its name in the blob, with its assembly."""
    blob = "010001005355" + f"{len(name):02x}" + name.encode().hex() + "016607000000"
    run = Run(2)
    run.edit(["add", 0, "TypeRef", [None, "A", ""], None], ["owned 00000000 TypeRef"], "done 01000001")
    run.edit(["add", 0, "MemberRef", ["$0", ".ctor"], "200001"], ["owned 00000000 MemberRef"], "done 0a000001")
    run.edit(["add", 0, "CustomAttribute", ["00000001", "$1", {"hex": blob}], None], ["linked 00000001 CustomAttribute"],
             "done 0c000001")
    run.edit(["add", 1, "Assembly", assembly("lib"), None], ["owned 00000000 Assembly"], "done 20000001")
    run.edit(["add", 1, "TypeDef", [1, "E", "N", None], None], ["owned 00000000 TypeDef"], "done 02000002")
    run.edit(["add", 1, "TypeDef", [2, "I", "", None], None], [], "done 02000003")
    run.edit(["add", 1, "NestedClass", ["$5", "$4"], None], [], "done 29000001")
    run.edit(["insert", 1, "$5" if is_nested else "$4", "Field", 0, [6, "v"], "0609"], [], "done 04000001")
    asked = [(0, [], f"CustomAttribute 0c000001 Parent=00000001 Type=0a000001 Value=#{blob}"), (0, [], "sig 0a000001 instance void()"),
             (0, [], "absent 20000001"), (1, [], assembly_row("lib")), (1, ["row 02000001"], "found 02000002")]
    of = "02000002"
    if is_nested:
        asked += [(1, [], "linked 02000002 Nested: 29000001"), (1, [], "NestedClass 29000001 NestedClass=02000003 EnclosingClass=02000002"),
                  (1, [], 'TypeDef 02000003 Flags=2 Name="I" Namespace="" Extends=none')]
        of = "02000003"
    asked += [(1, [], f"owned {of} Field: 04000001"), (1, [], 'Field 04000001 Flags=6 Name="v"'), (1, [], "sig 04000001 field u4")]
    run.resolution(["attribute", 0, "$2"], asked, f'() field f=enum "{name}" u4:00000007')
    return ["small.dll", "small.dll"], run


def other_module():
    """A reference of one module to a type of another one."""
    run = Run(2)
    run.edit(["add", 1, "Assembly", [32772, 1, 0, 0, 0, 0, NO_BLOB, "lib", ""], None], ["owned 00000000 Assembly"], "done 20000001")
    run.edit(["add", 1, "TypeDef", [1, "Lib", "N", None], None], ["owned 00000000 TypeDef"], "done 02000002")
    run.edit(["add", 0, "AssemblyRef", assembly_ref("lib"), None], ["owned 00000000 AssemblyRef"], "done 23000001")
    run.edit(["add", 0, "TypeRef", ["$2", "Lib", "N"], None], ["owned 00000000 TypeRef"], "done 01000001")
    asked = [(0, [], 'TypeRef 01000001 ResolutionScope=23000001 Name="Lib" Namespace="N"'), (0, [], assembly_ref_row("lib")),
             (0, [], "absent 20000001"), (1, [], assembly_row("lib").replace("HashAlgId=0", "HashAlgId=32772")),
             (1, ["row 02000001"], "found 02000002")]
    run.resolution(["resolve", 0, "$3"], asked, "found m1 02000002")
    return ["small.dll", "small.dll"], run


def references_back():
    """Rows that are made and removed between resolutions."""
    run = Run(1)
    row = 'TypeRef 01000001 ResolutionScope=00000001 Name="T" Namespace="N"'
    run.resolution(["resolve", 0, "02000001"], [], "found m0 02000001")
    run.edit(["add", 0, "TypeDef", [1, "T", "N", None], None], ["owned 00000000 TypeDef"], "done 02000002")
    run.resolution(["resolve", 0, "$1"], [], "found m0 02000002")
    run.query(["name", 0, "$1"], [], 'name 02000002 "N.T"')
    run.edit(["add", 0, "TypeRef", ["00000001", "T", "N"], None], ["owned 00000000 TypeRef"], "done 01000001")
    run.resolution(["resolve", 0, "$4"], [(0, [], row), (0, ["row 02000001"], "found 02000002")], "found m0 02000002")
    run.edit(["remove", 0, "00000000", "$1"], [], "done")
    run.resolution(["resolve", 0, "$4"], [(0, [], row), (0, [], "notfound")], 'unresolved "T"')
    run.resolution(["resolve", 0, "$1"], [], "found m0 02000002")
    run.edit(["remove", 0, "00000000", "$4"], [], "done")
    run.resolution(["resolve", 0, "$4"], [(0, [], "removed 01000001")], "stopped removed 01000001")
    run.query(["filled", 0], [], "filled 3")
    return ["small.dll"], run


def told(job, words, text):
    names = [f"file {name} {name}" for name in sorted(set(job["modules"]))]
    return "; ".join(["run job.json"] + names + words) + " -- " + json.dumps(job), text


def of_run(made, *words):
    modules, run = made
    return told({"modules": modules, "actors": [run.commands], "write": []}, list(words), run.text())


def two_actors():
    """Each in a module of its own."""
    job = {"modules": ["attr.dll", "small.dll"], "write": [],
           "actors": [[["resolve", 0, "01000002"]], [["set", 1, "02000001", "Name", "X"], ["resolve", 1, "02000001"]]]}
    return told(job, [], [
        '0.0 m0 @1 ask TypeRef 01000002 ResolutionScope=00000001 Name="<Module>" Namespace=""',
        "0.0 m0 @3 ask found 02000001", "0.0 resolve found m0 02000001", "1.0 m1 @2 done", "1.1 resolve found m1 02000001",
        "m0 history 3", "m0 1 fill row 01000002 by 0.0.0 after 0", "m0 2 fill owned 00000000 TypeDef by 0.0.1 after 1",
        "m0 3 fill row 02000001 by 0.0.1 after 2",
        "m1 history 2", "m1 1 fill row 02000001 by 1.0.0 after 0", "m1 2 edit by 1.0"])


def late_edit():
    """The first actor waits at its first question until the second one has made the assembly that is looked for."""
    job = {"modules": ["small.dll", "attr.dll"], "write": [],
           "actors": [[["resolve", 1, "01000001"]], [["add", 0, "Assembly", assembly("lib"), None]]]}
    return told(job, ["late 0"], [
        '0.0 m1 @1 ask TypeRef 01000001 ResolutionScope=23000001 Name="E" Namespace="N"',
        "0.0 m1 @2 ask " + assembly_ref_row("lib"), "0.0 m0 @2 ask " + assembly_row("lib"), "0.0 m0 @4 ask notfound",
        "0.0 m0 @5 ask owned 00000000 ExportedType:", '0.0 resolve unresolved "E"', "1.0 m0 @2 done 20000001",
        "m0 history 5", "m0 1 fill owned 00000000 Assembly by 1.0.0 after 0", "m0 2 edit by 1.0",
        "m0 3 fill owned 00000000 TypeDef by 0.0.3 after 2", "m0 4 fill row 02000001 by 0.0.3 after 3",
        "m0 5 fill owned 00000000 ExportedType by 0.0.4 after 4",
        "m1 history 2", "m1 1 fill row 01000001 by 0.0.0 after 0", "m1 2 fill row 23000001 by 0.0.1 after 1"])


def at_once(command, end, *words):
    """A command that asks nothing."""
    job = {"modules": ["small.dll"], "actors": [[command]], "write": []}
    return told(job, list(words), [f"0.0 {command[0]} {end}", "m0 history 0"])


def cases():
    yield at_once(["resolve", 0, "00000001"], "stopped wrongkind 00000001")
    yield at_once(["resolve", 0, "02000001"], "found m0 02000001", "sound")
    yield of_run(other_module())
    yield of_run(references_back())
    yield of_run(no_enum())
    yield of_run(enum_elsewhere())
    yield of_run(named_enum("N.E, lib, Version=1.0.0.0", False))
    yield of_run(named_enum("N.E+I, l ib ,Culture=neutral", True))
    yield two_actors()
    yield late_edit()
    for count in range(98, 102):
        yield of_run(steps(count))
    yield of_run(circle())


def main():
    if len(sys.argv) != 2:
        sys.exit(__doc__)
    with open(sys.argv[1], "wb") as file:
        file.write(attribute_image())
    made = list(cases())
    for line, _ in made:
        print(line)
    print("===")
    for number, (_, text) in enumerate(made, 1):
        print(f"{number} 0")
        for line in text:
            print("  " + line)


if __name__ == "__main__":
    main()
