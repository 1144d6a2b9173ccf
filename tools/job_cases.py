#!/usr/bin/env python3
"""Writes the cases of crates/job_cases and their answers.

Usage: tools/job_cases.py

A case is the text of a job, or behind x/ its bytes in hex. Its answer is written by hand from the grammar of job files: the words of
each command with its arguments, or the first refusal. Each command stands once as it should, and once with each argument wrong. No
answer is taken from a program.
"""
import json
import os

FOLDER = os.path.join(os.path.dirname(os.path.abspath(__file__)), "..", "crates", "job_cases")

NONE = "no command at 0.0"
MODULES = ["m.dll", "n.dll"]


def told(name):
    return " t/" + name.encode().hex()


def job(*actors, modules=None, write="[]"):
    """The text of a job whose actors are lists of commands as JSON texts."""
    names = json.dumps(MODULES if modules is None else modules)
    lists = ",".join("[" + ",".join(actor) + "]" for actor in actors)
    return '{"modules":%s,"actors":[%s],"write":%s}' % (names, lists, write)


def answer(*actors, modules=None):
    names = MODULES if modules is None else modules
    return "job" + "".join(told(name) for name in names) + "".join(" |" + "".join(f" ; {c}" for c in actor) for actor in actors)


def command(name, *arguments):
    return "[" + ",".join([f'"{name}"', *arguments]) + "]"


# values that are none of their kind, whatever the rest of the command says
NOT_A_NUMBER = ["-1", "-0", "1.0", "1e0", "null", "true", '"1"', "[]", "18446744073709551616"]
WRONG = {
    "module": ["2", *NOT_A_NUMBER],
    "token": ['"fe000001"', '"FF000000"', '"0200000"', '"020000011"', '"0200000g"', '" 2000001"', '""', '"$"', '"$0"', '"$-1"', "33554433",
              "true", '["02000001"]'],
    "table": ['"Typedef"', '"FieldPtr"', '"Nested"', '""', "2", "null"],
    "member table": ['"Param"', '"TypeDef"', '"field"', "4", "null"],
    "link": ['"TypeDef"', '"nested"', '"Field"', '""', "null"],
    "column": ['"FieldList"', '"name"', '"Generation"', '""', "1", "null"],
    "number cell": ["-1", "0.5", "1e0", "-0", "18446744073709551616", '"1"', "null"],
    "sig": ['"0"', '"08"', '"0608"', '"00000"', '"zz"', '""', "6", "true"],
    "at": ["4294967296", *NOT_A_NUMBER],
    "stack": ["65536", *NOT_A_NUMBER],
    "flag": ["0", "1", '"true"', "null"],
    "text": ["1", "null", "[]"],
    "text or null": ["1", "false"],
    "hex": ['"0"', '"0g"', '"0x00"', "0", "null", '{"hex":"00"}'],
    "code": ['"Nop"', '"ldc.i4.9"', '"no"', '""', "0", "null"],
    "handler kind": ['"Typed"', '"catch"', '""', "0", "null"],
    "null": ["0", '""', "false"],
}
ROW = ("token", '"02000001"')

# each command: its arguments after the module with their kinds, and its words
COMMANDS = [
    ("row", [ROW], "row 02000001"),
    ("sig", [("token", '"11000001"')], "sig 11000001"),
    ("body", [("token", '"06000001"')], "body 06000001"),
    ("data", [("token", '"1d000001"')], "data 1d000001"),
    ("resource", [("token", '"28000001"')], "resource 28000001"),
    ("facts", [], "facts"),
    ("filled", [], "filled"),
    ("members", [ROW, ("table", '"Field"')], "members 02000001 04"),
    ("links", [ROW, ("link", '"GenericParamConstraint"')], "links 02000001 GenericParamConstraint"),
    ("name", [("token", '"fD00000A"')], "name fd00000a"),
    ("type", [ROW], "type 02000001"),
    ("method", [("token", '"06ffffff"')], "method 06ffffff"),
    ("findtype", [("text", '"N.A"'), ("text", '"T\\u0000\\u00e9"')], "findtype t/4e2e41 t/5400c3a9"),
    ("findmember", [ROW, ("member table", '"MethodDef"'), ("text", '""'), ("text or null", '"void()"')],
     "findmember 02000001 06 t/ t/766f69642829"),
    ("set", [ROW, ("column", '"Flags"'), ("number cell", "18446744073709551615")], "set 02000001 0 n/18446744073709551615"),
    ("setsig", [("token", '"06000001"'), ("sig", '"2001010E"')], "setsig 06000001 2001010e"),
    ("ilnew", [("token", '"06000001"')], "ilnew 06000001 8 0"),
    ("ildrop", [("token", '"06000001"')], "nobody 06000001"),
    ("setdata", [("token", '"1d000001"'), ("hex", '"0aFF"')], "setdata 1d000001 0aff"),
    ("setresource", [("token", '"28000001"'), ("hex", '""')], "setresource 28000001 "),
    ("entry", [("token", '"00000000"')], "entry 00000000"),
    ("add", [("table", '"StandAloneSig"'), ("cells", "[]"), ("sig or null", '"070108"')], "add 11 070108"),
    ("insert", [ROW, ("table", '"Field"'), ("at", "4294967295"), ("cells", '[1,"f"]'), ("sig or null", "null")],
     "insert 02000001 04 4294967295 nosig n/1 t/66"),
    ("remove", [("token", '"00000000"'), ROW], "remove 00000000 02000001"),
    ("ilinsert", [("token", '"06000001"'), ("at", "0"), ("code", '"nop"'), ("null", "null")], "ilinsert 06000001 0 0000"),
    ("ilreplace", [("token", '"06000001"'), ("at", "7"), ("code", '"tail."'), ("null", "null")], "ilreplace 06000001 7 fe14"),
    ("ilremove", [("token", '"06000001"'), ("at", "3")], "ilremove 06000001 3"),
    ("ilhead", [("token", '"06000001"'), ("stack", "65535"), ("flag", "true"), ("token or null", '"11000001"')],
     "ilhead 06000001 65535 1 11000001"),
    ("iltry", [("token", '"06000001"'), ("handler kind", '"finally"'), ("at", "0"), ("at", "1"), ("at", "2"), ("at", "3"), ("null", "null")],
     "iltry 06000001 finally/0/1/2/3"),
    ("iluntry", [("token", '"06000001"'), ("at", "0")], "iluntry 06000001 0"),
    ("resolve", [("token", '"01000001"')], "resolve 01000001"),
    ("attribute", [("token", '"0c000001"')], "attribute 0c000001"),
]
WRONG["cells"] = ["null", '{"hex":""}', '["x"]', '"[]"']
WRONG["sig or null"] = [w for w in WRONG["sig"] if w not in ('"0608"',)]
WRONG["token or null"] = [w for w in WRONG["token"]]

# a signature of another sort is one: only its bytes decide
WRONG["sig"].remove('"0608"')


def each_command():
    for name, arguments, words in COMMANDS:
        good = ["1", *[value for _, value in arguments]]
        yield job([command(name, *good)]), answer([f"m1 {words}"])
        yield job([command(name, *good[:-1])]), NONE
        yield job([command(name, *good, "null")]), NONE
        kinds = ["module", *[kind for kind, _ in arguments]]
        for place, kind in enumerate(kinds):
            for value in WRONG[kind]:
                yield job([command(name, *good[:place], value, *good[place + 1:])]), NONE


def setting(token, column, cell, words):
    return job([command("set", "0", f'"{token}"', f'"{column}"', cell)]), words and answer([f"m0 set {token} {words}"]) or NONE


GUID = "00112233-4455-6677-8899-aabbccddeeff"
STORED = "33221100554477668899aabbccddeeff"

CELLS = [
    ("0b000001", "Type", "256", "0 n/256"),
    ("0b000001", "Type", "18446744073709551616", None),
    ("04000001", "Flags", "0", "0 n/0"),
    ("0f000001", "ClassSize", "4294967296", "1 n/4294967296"),
    ("0f000001", "ClassSize", "0.0", None),
    ("00000001", "Name", '"\\u0000\\ud83d\\ude00"', "1 t/00f09f9880"),
    ("00000001", "Name", "null", None),
    ("00000001", "Name", '{"hex":""}', None),
    ("00000001", "Mvid", f'"{GUID}"', f"2 g/{STORED}"),
    ("00000001", "EncId", f'"{GUID.upper()}"', f"3 g/{STORED}"),
    ("00000001", "EncBaseId", "null", "4 noguid"),
    ("00000001", "Mvid", f'"{GUID[:-1]}"', None),
    ("00000001", "Mvid", f'"{GUID}0"', None),
    ("00000001", "Mvid", '"%s"' % GUID.replace("-", ""), None),
    ("00000001", "Mvid", '"{%s}"' % GUID, None),
    ("00000001", "Mvid", f'"urn:uuid:{GUID}"', None),
    ("00000001", "Mvid", '"0011223-34455-6677-8899-aabbccddeeff"', None),
    ("00000001", "Mvid", '"%s"' % GUID.replace("a", "g"), None),
    ("00000001", "Mvid", "0", None),
    ("0b000001", "Value", '{"hex":"0aB"}', None),
    ("0b000001", "Value", '{"hex":"0aBc"}', "2 b/0abc"),
    ("0b000001", "Value", '{"hex":"00","hex":""}', "2 b/"),
    ("0b000001", "Value", '{"hex":"","x":1}', None),
    ("0b000001", "Value", '{"Hex":""}', None),
    ("0b000001", "Value", "{}", None),
    ("0b000001", "Value", '""', None),
    ("0b000001", "Value", "null", None),
    ("09000001", "Class", '"02000001"', "0 r/02000001"),
    ("09000001", "Class", "null", "0 noref"),
    ("09000001", "Class", '"fe000001"', None),
    ("09000001", "Class", '"06000001"', "0 r/06000001"),
    ("02000001", "Extends", '"00000000"', "3 r/00000000"),
    ("02000001", "Extends", '"0100000"', None),
    ("02000001", "Extends", "1", None),
    # the table is that of the first two digits, with a row or without
    ("00000000", "Generation", "0", "0 n/0"),
    ("03000001", "Name", '"x"', None),
    ("fd000001", "Name", '"x"', None),
    ("2c000001", "Constraint", '"1b000001"', "1 r/1b000001"),
    # no cells: a signature, the start of a run, an RVA, an offset
    ("06000001", "Signature", '"000001"', None),
    ("06000001", "RVA", "0", None),
    ("06000001", "ParamList", '"08000001"', None),
    ("28000001", "Offset", "0", None),
]

# tables, cells and a signature, and the words of the row
ROWS = [
    ("TypeDef", '[1,"A","N",null]', "null", "02 nosig n/1 t/41 t/4e noref"),
    ("TypeDef", '[1,"A"]', "null", "02 nosig n/1 t/41"),
    ("TypeDef", "[]", "null", "02 nosig"),
    ("TypeDef", '[1,"A","N",null,null]', "null", None),
    ("TypeDef", '["A",1,"N",null]', "null", None),
    ("MethodDef", '[0,22,"m"]', '"000001"', "06 000001 n/0 n/22 t/6d"),
    ("MethodDef", '[0,0,22,"m"]', '"000001"', None),
    ("TypeSpec", "[]", '"08"', "1b 08"),
    ("TypeSpec", "[]", '"0608"', None),
    ("TypeSpec", "[null]", '"08"', None),
    ("MemberRef", '["1b000001","x"]', '"0608"', "0a 0608 r/1b000001 t/78"),
    ("MemberRef", '["1b000001","x"]', '"08"', None),
    ("Module", '[0,"m",null,"%s",null]' % GUID, "null", f"00 nosig n/0 t/6d noguid g/{STORED} noguid"),
    ("NestedClass", '["02000001",null]', "null", "29 nosig r/02000001 noref"),
    ("GenericParamConstraint", '["2a000001"]', "null", "2c nosig r/2a000001"),
    ("ManifestResource", '[1,"r",null]', "null", "28 nosig n/1 t/72 noref"),
    ("ManifestResource", '[0,1,"r",null]', "null", None),
    # a longer prefix than a number needs is read
    ("StandAloneSig", "[]", '"07800108"', "11 070108"),
]

# instructions and what follows them, and the word of the instruction
OPERANDS = [
    ("ret", "null", "002a"),
    ("ret", "0", None),
    ("ldarg.s", "255", "000e/u8/255"),
    ("ldarg.s", "256", None),
    ("ldarg.s", "-1", None),
    ("unaligned.", "0", "fe12/u8/0"),
    ("ldarg", "65535", "fe09/u16/65535"),
    ("ldarg", "65536", None),
    ("ldc.i4.s", "-128", "001f/i8/-128"),
    ("ldc.i4.s", "127", "001f/i8/127"),
    ("ldc.i4.s", "-129", None),
    ("ldc.i4.s", "128", None),
    ("ldc.i4.s", "-0", None),
    ("ldc.i4", "-2147483648", "0020/i32/-2147483648"),
    ("ldc.i4", "2147483647", "0020/i32/2147483647"),
    ("ldc.i4", "2147483648", None),
    ("ldc.i4", "-2147483649", None),
    ("ldc.i4", "1.0", None),
    ("ldc.i8", "-9223372036854775808", "0021/i64/-9223372036854775808"),
    ("ldc.i8", "9223372036854775807", "0021/i64/9223372036854775807"),
    ("ldc.i8", "9223372036854775808", None),
    ("ldc.i8", "-9223372036854775809", None),
    ("ldc.r4", '"3F800000"', "0022/r4/3f800000"),
    ("ldc.r4", '"3f8000000"', None),
    ("ldc.r4", '"3f80000"', None),
    ("ldc.r4", "1", None),
    ("ldc.r8", '"3ff0000000000000"', "0023/r8/3ff0000000000000"),
    ("ldc.r8", '"3ff00000"', None),
    ("call", '"0a000001"', "0028/tok/0a000001"),
    ("call", "null", None),
    ("ldtoken", '"ff000001"', None),
    ("sizeof", '"1b000001"', "fe1c/tok/1b000001"),
    ("ldstr", '""', "0072/text/"),
    ("ldstr", '"a\\u00e9\\u4e2d\\ud83d\\ude00\\u0000"', "0072/text/006100e94e2dd83dde000000"),
    ("ldstr", "null", None),
    ("br.s", "4294967295", "002b/to/4294967295"),
    ("br", "4294967296", None),
    ("leave", "0", "00dd/to/0"),
    ("leave.s", '"0"', None),
    ("switch", "[]", "0045/switch/"),
    ("switch", "[0,4294967295]", "0045/switch/0,4294967295"),
    ("switch", "[0,4294967296]", None),
    ("switch", "[0,null]", None),
    ("switch", "0", None),
    ("stelem", '"02000001"', "00a4/tok/02000001"),
    ("readonly.", "null", "fe1e"),
    ("stelem.any", '"02000001"', None),
    ("endfault", "null", None),
]

HANDLERS = [
    ("typed", '"01000001"', "typed/0/1/2/3/01000001"),
    ("typed", '"00000000"', "typed/0/1/2/3/00000000"),
    ("typed", "null", None),
    ("typed", "1", None),
    ("filter", "4294967295", "filter/0/1/2/3/4294967295"),
    ("filter", "null", None),
    ("filter", '"01000001"', None),
    ("fault", "null", "fault/0/1/2/3"),
    ("fault", "0", None),
    ("finally", '"01000001"', None),
]


def each_value():
    yield from (setting(*row) for row in CELLS)
    for table, cells, sig, words in ROWS:
        yield job([command("add", "0", f'"{table}"', cells, sig)]), words and answer([f"m0 add {words}"]) or NONE
    for code, value, words in OPERANDS:
        text = job([command("ilinsert", "0", '"06000001"', "1", f'"{code}"', value)])
        yield text, words and answer([f"m0 ilinsert 06000001 1 {words}"]) or NONE
    for kind, value, words in HANDLERS:
        text = job([command("iltry", "0", '"06000001"', f'"{kind}"', "0", "1", "2", "3", value)])
        yield text, words and answer([f"m0 iltry 06000001 {words}"]) or NONE
    yield job([command("setsig", "0", '"1b000001"', '"1d08"')]), answer(["m0 setsig 1b000001 1d08"])
    yield job([command("setsig", "0", '"1b000001"', '"0608"')]), NONE
    yield job([command("setsig", "0", '"04000001"', "null")]), NONE
    yield job([command("findmember", "0", '"02000001"', '"Field"', '"f"', "null")]), answer(["m0 findmember 02000001 04 t/66 none"])
    yield job([command("ilhead", "0", '"06000001"', "0", "false", "null")]), answer(["m0 ilhead 06000001 0 0 00000000"])


ADD = '["add",0,"TypeDef",[1,"A","",null],null]'
ADDED = "m0 add 02 nosig n/1 t/41 t/ noref"
INSERT = '["insert",0,"$0","MethodDef",0,[0,22,"m"],"000001"]'
INSERTED = "m0 insert ff000000 06 0 000001 n/0 n/22 t/6d"


def after(commands, words, *last):
    """Jobs in which each of the last commands stands behind the others, with its own words, or without any where it is none."""
    for text, own in last:
        yield job([*commands, text]), answer([*words, own]) if own else f"no command at 0.{len(commands)}"


def references():
    yield from after([ADD, INSERT], [ADDED, INSERTED], *[
        ('["row",0,"$0"]', "m0 row ff000000"),
        ('["body",0,"$1"]', "m0 body ff000001"),
        # itself, a later one, another module, leading zeros, no digits
        ('["row",0,"$2"]', None),
        ('["row",0,"$3"]', None),
        ('["row",1,"$0"]', None),
        ('["row",0,"$00"]', None),
        ('["row",0,"$01"]', None),
        ('["row",0,"$"]', None),
        ('["row",0,"$ 0"]', None),
        ('["row",0,"$+0"]', None),
        ('["row",0,"$0 "]', None),
        ('["row",0,"$4096"]', None),
        ('["row",0,"$99999999999999999999"]', None),
        # columns, cells and signatures are those of the table of the row that is made
        ('["set",0,"$0","Extends","$0"]', "m0 set ff000000 3 r/ff000000"),
        ('["set",0,"$1","Extends","$0"]', None),
        ('["set",0,"$1","ImplFlags",1]', "m0 set ff000001 1 n/1"),
        ('["setsig",0,"$1","000001"]', "m0 setsig ff000001 000001"),
        ('["remove",0,"$0","$1"]', "m0 remove ff000000 ff000001"),
        ('["entry",0,"$1"]', "m0 entry ff000001"),
        ('["add",0,"NestedClass",["$0","$1"],null]', "m0 add 29 nosig r/ff000000 r/ff000001"),
        ('["ilinsert",0,"$1",0,"newobj","$1"]', "m0 ilinsert ff000001 0 0073/tok/ff000001"),
        ('["ilhead",0,"$1",1,true,"$0"]', "m0 ilhead ff000001 1 1 ff000000"),
        ('["iltry",0,"$1","typed",0,0,0,0,"$0"]', "m0 iltry ff000001 typed/0/0/0/0/ff000000"),
        ('["findmember",0,"$0","MethodDef","m",null]', "m0 findmember ff000000 06 t/6d none"),
    ])
    # only what makes a row is referred to
    other = ['["row",0,"02000001"]', '["set",0,"02000001","Flags",0]', '["add",1,"TypeSpec",[],"08"]']
    words = ["m0 row 02000001", "m0 set 02000001 0 n/0", "m1 add 1b 08"]
    yield from after(other, words, ('["row",0,"$0"]', None), ('["row",0,"$1"]', None), ('["row",0,"$2"]', None),
                     ('["row",1,"$2"]', "m1 row ff000002"), ('["setsig",1,"$2","08"]', "m1 setsig ff000002 08"),
                     ('["setsig",1,"$2","0608"]', None))
    # an actor's commands are its own
    yield job([ADD], ['["row",0,"$0"]']), "no command at 1.0"
    yield job([ADD], [ADD, '["row",0,"$0"]']), answer([ADDED], [ADDED, "m0 row ff000000"])
    # eleven before it
    yield from after([ADD] * 11, [ADDED] * 11, ('["row",0,"$10"]', "m0 row ff00000a"), ('["row",0,"$11"]', None))


def whole():
    empty = '{"modules":[],"actors":[],"write":[]}'
    yield empty, "job"
    yield '{"write" : [ ] ,"actors":[],\t"modules":[]}', "job"
    yield '{"modules":["a b","\\u00e9","m.dll","m.dll","..."],"actors":[[],[]],"write":[]}', \
        answer([], [], modules=["a b", "\u00e9", "m.dll", "m.dll", "..."])
    # no JSON
    for text in ("", "{", "[1,]", "nul", empty + "x", '{"modules":[],"actors":[],"write":[]', "{'modules':[]}", '["\\ud800"]', '["\\x"]',
                 '["a\tb"]', "1e400", "[1e400]", "-", "01", "+1", ".5", "NaN", "\ufeff" + empty, "[" * 128 + "]" * 128):
        yield text, "not JSON"
    yield "x/" + b'["\xff"]'.hex(), "not JSON"
    yield "x/" + b'["a\nb"]'.hex(), "not JSON"
    yield "x/" + b"\x0c[]".hex(), "not JSON"
    yield "x/" + b"\r\n[]\n".hex(), "not a job"
    # another shape
    for text in ("[]", "null", "0", '"modules"', "{}", "1e300", "[" * 127 + "]" * 127,
                 '{"modules":[],"actors":[]}', '{"modules":[],"actors":[],"write":[],"x":1}', '{"modules":[],"actors":[],"Write":[]}',
                 '{"modules":{},"actors":[],"write":[]}', '{"modules":[],"actors":{},"write":[]}', '{"modules":[],"actors":[],"write":{}}',
                 '{"modules":[],"actors":[],"write":null}', '{"modules":[7],"actors":[],"write":[]}',
                 '{"modules":[],"actors":[{}],"write":[]}', '{"modules":[],"actors":["row"],"write":[]}'):
        yield text, "not a job"
    for name in ('""', '"."', '".."', '"a/b"', '"a\\u0000b"', "null", '["m"]'):
        yield '{"modules":["m.dll",%s],"actors":[],"write":[]}' % name, "not a job"
    for write in ("[1]", '[{"module":0}]', '[{"module":2,"as":"o.dll"}]', '[{"module":0,"as":"a/b"}]', '[{"module":0,"as":"o.dll","x":0}]'):
        yield job([], write=write), "not a job"
    # the last of two members with one name counts
    yield '{"modules":["a/b"],"modules":["m.dll"],"actors":[],"write":[]}', answer(modules=["m.dll"])
    yield '{"modules":["m.dll"],"modules":["a/b"],"actors":[],"write":[]}', "not a job"
    yield '{"modules":[],"actors":0,"write":[],"actors":[[]],"modules":["m.dll"]}', answer([], modules=["m.dll"])
    # what stands in the place of a command
    for text in ("0", "null", '"row"', "{}", "[]", "[0]", '["rows",0,"02000001"]', '["Row",0,"02000001"]', '["",0]', '[["row"],0,"02000001"]',
                 '["batch",0,[]]'):
        yield job([text]), NONE
    yield job(['["r\\u006fw",0,"\\u00302000001"]']), answer(["m0 row 02000001"])
    yield job(['["filled",0]'] * 3 + ["0", "1"]), "no command at 0.3"
    yield job(['["filled",0]'], [], ['["filled",0]', '["filled",2]'], ["0"]), "no command at 2.1"
    yield job(['["filled",0]'], modules=[]), NONE
    yield job(['["filled",15]'], modules=["m"] * 16), answer(["m15 filled"], modules=["m"] * 16)


def limits():
    yield job(*[[]] * 64), answer(*[[]] * 64)
    yield job(*[[]] * 65), "over the limit 65"
    yield job(modules=["m"] * 17), "over the limit 17"
    yield job(*[[]] * 66, modules=["m"] * 18), "over the limit 18"
    yield job(["0"] * 4096), NONE
    yield job(["0"] * 4097), "over the limit 4097"
    yield job(["0"], ["1"] * 4097, ["2"] * 4098), "over the limit 4097"
    yield job(*[["0"]] * 65), "over the limit 65"
    yield job(["0"] * 4097, *[[]] * 64), "over the limit 65"
    yield job(['["filled",0]'] * 20 + ["0"], modules=["m"] * 17), "over the limit 17"
    # a shape is tried before the limits
    yield job(*[[]] * 65, modules=["."]), "not a job"
    yield '{"modules":[],"actors":[%s,0],"write":[]}' % ",".join(["[]"] * 65), "not a job"


def main():
    cases = [*whole(), *limits(), *each_command(), *each_value(), *references()]
    with open(os.path.join(FOLDER, "stdin"), "w", encoding="utf-8") as lines:
        lines.writelines(text + "\n" for text, _ in cases)
    with open(os.path.join(FOLDER, "stdout"), "w", encoding="utf-8") as lines:
        lines.writelines(f"{number} {words}\n" for number, (_, words) in enumerate(cases, 1))


if __name__ == "__main__":
    main()
