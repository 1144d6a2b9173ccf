#!/usr/bin/env python3
"""Writes the cases of crates/resolver_cases: stdin, and the answers that are wanted into stdout.

Run it at the top of the repository. It shares nothing with the crate `resolver`: references are followed here by
functions that call each other, over modules that are small tables of replies, and a case is what was asked and replied
on the way (ECMA-335 II.22, II.23.2, II.23.3).
"""
import struct

TYPE_REF, TYPE_DEF, FIELD, METHOD_DEF, MEMBER_REF = 0x01, 0x02, 0x04, 0x06, 0x0a
ATTRIBUTE, MODULE_REF, TYPE_SPEC, ASSEMBLY, ASSEMBLY_REF = 0x0c, 0x1a, 0x1b, 0x20, 0x23
FILE, EXPORTED, NESTED, METHOD_SPEC = 0x26, 0x27, 0x29, 0x2b
REF = 'r'
TYPE_DEF_OR_REF = (REF, TYPE_DEF, TYPE_REF, TYPE_SPEC)

# what the cells of a row are: the greatest number, `t`, `b`, or the tables that may be named (II.22)
COLUMNS = {
    TYPE_REF: [(REF, 0x00, MODULE_REF, ASSEMBLY_REF, TYPE_REF), 't', 't'],
    TYPE_DEF: [0xffffffff, 't', 't', TYPE_DEF_OR_REF],
    FIELD: [0xffff, 't'],
    MEMBER_REF: [(REF, TYPE_DEF, TYPE_REF, MODULE_REF, METHOD_DEF, TYPE_SPEC), 't'],
    ATTRIBUTE: [(REF,) + tuple(range(0x2d)), (REF, METHOD_DEF, MEMBER_REF), 'b'],
    ASSEMBLY: [0xffffffff, 0xffff, 0xffff, 0xffff, 0xffff, 0xffffffff, 'b', 't', 't'],
    ASSEMBLY_REF: [0xffff, 0xffff, 0xffff, 0xffff, 0xffffffff, 'b', 't', 't', 'b'],
    EXPORTED: [0xffffffff, 0xffffffff, 't', 't', (REF, FILE, ASSEMBLY_REF, EXPORTED)],
    NESTED: [(REF, TYPE_DEF), (REF, TYPE_DEF)],
    METHOD_SPEC: [(REF, METHOD_DEF, MEMBER_REF)],
}


class End(Exception):
    """Where it ended, as it is printed."""


def table_of(token):
    return int(token[:2], 16)


def escaped(data):
    out = ''
    for b in data:
        if b in b'"\\':
            out += '\\' + chr(b)
        elif 0x20 <= b <= 0x7e:
            out += chr(b)
        else:
            out += '\\x%02x' % b
    return '"' + out + '"'


def text_of(word):
    return word.replace('~', ' ').encode()


# ---- signatures (II.23.2)

def number(data, at):
    b = data[at]
    if b < 0x80:
        return b, at + 1
    if b < 0xc0:
        return (b & 0x3f) << 8 | data[at + 1], at + 2
    return (b & 0x1f) << 24 | data[at + 1] << 16 | data[at + 2] << 8 | data[at + 3], at + 4


def type_token(data, at):
    n, at = number(data, at)
    return '%02x%06x' % ((TYPE_DEF, TYPE_REF, TYPE_SPEC)[n & 3], n >> 2), at


def sig_type(data, at):
    """A type as (head, token or inner type), and the place behind it."""
    head = data[at]
    at += 1
    if head in (0x11, 0x12):
        token, at = type_token(data, at)
        return (head, token), at
    if head in (0x0f, 0x10, 0x1d, 0x45):
        inner, at = sig_type(data, at)
        return (head, inner), at
    if head in (0x13, 0x1e):
        n, at = number(data, at)
        return (head, n), at
    if head == 0x15:
        kind = data[at]
        token, at = type_token(data, at + 1)
        count, at = number(data, at)
        for _ in range(count):
            _, at = sig_type(data, at)
        return (head, token), at
    if head in (0x1f, 0x20):
        _, at = type_token(data, at)
        inner, at = sig_type(data, at)
        return (head, inner), at
    return (head, None), at


def signature(token, data):
    """The sort of a signature, and its types: that of a type alone, of a field, or of the parameters of a method."""
    if table_of(token) == TYPE_SPEC:
        return 'plain', [sig_type(data, 0)[0]]
    if data[0] == 0x06:
        return 'field', [sig_type(data, 1)[0]]
    if data[0] in (0x07, 0x08, 0x28, 0x0a):
        return 'other', []
    count, at = number(data, 1)
    _, at = sig_type(data, at)
    params = []
    for _ in range(count):
        ty, at = sig_type(data, at)
        params.append(ty)
    return 'method', params


SORTS = {'plain': (TYPE_SPEC,), 'field': (FIELD, MEMBER_REF), 'method': (METHOD_DEF, MEMBER_REF), 'other': ()}


# ---- replies that fit

def allowed(column, word):
    if column == 't' or column == 'b':
        return word[0] == column and word[1] == '/'
    if isinstance(column, int):
        return word[:2] == 'n/' and int(word[2:]) <= column
    return word == 'noref' or (word[:2] == 'r/' and table_of(word[2:]) in column[1:])


def fits(query, reply):
    kind, words = query[0], reply.split(' ')
    if kind == 'row':
        columns = COLUMNS[table_of(query[1])]
        cells = words[2:]
        return (words[:2] == ['row', query[1]] and len(cells) == len(columns)
                and all(allowed(c, w) for c, w in zip(columns, cells)))
    if kind == 'sig':
        return words[:2] == ['sig', query[1]] and table_of(query[1]) in SORTS[
            signature(query[1], bytes.fromhex(words[2]))[0]]
    if kind == 'name':
        return words[:2] == ['name', query[1]]
    if kind == 'members':
        return words[:3] == ['owned', query[1], query[2]] and all(t[:2] == query[2] for t in words[3:])
    if kind == 'nested':
        return words[:2] == ['nested', query[1]] and all(table_of(t) == NESTED for t in words[2:])
    wanted = '02' if kind == 'type' else query[2]
    return words[0] == 'notfound' or (words[0] == 'found' and words[1][:2] == wanted)


def stopped(reply):
    words = reply.split(' ')
    kind = {'owned': 'list', 'nested': 'list', 'inside': 'list', 'filled': '?'}.get(words[0], words[0])
    raise End('stopped ' + kind + (' ' + words[1] if len(words) > 1 and kind != '?' else ''))


def ask(m, *query):
    reply = yield m, query
    if not fits(query, reply):
        stopped(reply)
    return reply.split(' ')


def row(m, token):
    words = yield from ask(m, 'row', token)
    return words[2:]


def token_in(cell):
    return None if cell == 'noref' else cell[2:]


# ---- where a reference leads

class Resolution:
    """One name that is resolved, with its steps to other tokens counted."""

    def __init__(self, modules):
        self.modules = modules
        self.hops = 0

    def hop(self):
        self.hops += 1
        if self.hops == 100:
            raise End('toodeep')

    def unresolved(self, name):
        raise End('unresolved ' + escaped(name))

    def token(self, m, token):
        table = table_of(token)
        if table in (TYPE_DEF, FIELD, METHOD_DEF):
            return m, token
        if table == TYPE_REF:
            return (yield from self.type_ref(m, token))
        if table == TYPE_SPEC:
            words = yield from ask(m, 'sig', token)
            head, inner = signature(token, bytes.fromhex(words[2]))[1][0]
            if head not in (0x11, 0x12, 0x15):
                self.unresolved(b'')
            self.hop()
            return (yield from self.token(m, inner))
        if table == METHOD_SPEC:
            cells = yield from row(m, token)
            if cells[0] == 'noref':
                self.unresolved(b'')
            self.hop()
            return (yield from self.token(m, cells[0][2:]))
        if table == MEMBER_REF:
            return (yield from self.member(m, token))
        raise End('stopped wrongkind ' + token)

    def type_ref(self, m, token):
        scope, name, namespace = yield from row(m, token)
        name, namespace = name[2:], namespace[2:]
        scope = token_in(scope)
        if scope is not None and table_of(scope) == 0:
            words = yield from ask(m, 'type', namespace, name)
            if words[0] == 'found':
                return m, words[1]
        elif scope is not None and table_of(scope) == ASSEMBLY_REF:
            return (yield from self.in_assembly(m, scope, namespace, name))
        elif scope is not None and table_of(scope) == TYPE_REF:
            self.hop()
            at, outer = yield from self.token(m, scope)
            found = yield from self.nested(at, outer, name)
            if found:
                return at, found
        self.unresolved(text_of(name))

    def nested(self, m, outer, name):
        words = yield from ask(m, 'nested', outer)
        for member in words[2:]:
            cells = yield from row(m, member)
            inner = token_in(cells[0])
            if inner is not None:
                cells = yield from row(m, inner)
                if cells[1][2:] == name:
                    return inner
        return None

    def module_of(self, name):
        """The first module whose assembly has the name."""
        for k in range(self.modules):
            query = ('row', '20000001')
            reply = yield k, query
            if reply in ('absent 20000001', 'removed 20000001'):
                continue
            if not fits(query, reply):
                stopped(reply)
            if reply.split(' ')[2:][7][2:] == name:
                return k
        return None

    def in_assembly(self, m, reference, namespace, name):
        cells = yield from row(m, reference)
        assembly = cells[6][2:]
        at = yield from self.module_of(assembly)
        if at is None:
            self.unresolved(text_of(assembly))
        words = yield from ask(at, 'type', namespace, name)
        if words[0] == 'found':
            return at, words[1]
        words = yield from ask(at, 'members', '00000000', '27')
        for exported in words[3:]:
            cells = yield from row(at, exported)
            if cells[2][2:] == name and cells[3][2:] == namespace:
                leads = token_in(cells[4])
                if leads is not None and table_of(leads) == ASSEMBLY_REF:
                    self.hop()
                    return (yield from self.in_assembly(at, leads, namespace, name))
                break
        self.unresolved(text_of(name))

    def member(self, m, token):
        cells = yield from row(m, token)
        owner, name = token_in(cells[0]), cells[1][2:]
        if owner is not None and table_of(owner) == METHOD_DEF:
            return m, owner
        if owner is None or table_of(owner) == MODULE_REF:
            self.unresolved(text_of(name))
        self.hop()
        at, found = yield from self.token(m, owner)
        words = yield from ask(m, 'name', token)
        text = words[2]
        words = yield from ask(m, 'sig', token)
        table = '04' if signature(token, bytes.fromhex(words[2]))[0] == 'field' else '06'
        while True:
            words = yield from ask(at, 'member', found, table, name, text)
            if words[0] == 'found':
                return at, words[1]
            cells = yield from row(at, found)
            base = token_in(cells[3])
            if base is None:
                self.unresolved(text_of(name))
            self.hop()
            at, found = yield from self.token(at, base)


# ---- what an attribute says (II.23.3)

class Bad(Exception):
    pass


class Lacks(Exception):
    """The name of an enum whose width is needed."""


WIDTHS = {0x02: 1, 0x03: 2, 0x04: 1, 0x05: 1, 0x06: 2, 0x07: 2, 0x08: 4, 0x09: 4, 0x0a: 8, 0x0b: 8, 0x0c: 4, 0x0d: 8}


class Blob:
    def __init__(self, data, widths):
        self.data, self.at, self.widths = data, 0, widths

    def little(self, width):
        if self.at + width > len(self.data):
            raise Bad
        self.at += width
        return int.from_bytes(self.data[self.at - width:self.at], 'little')

    def text(self, null):
        if null and self.data[self.at:self.at + 1] == b'\xff':
            self.at += 1
            return None
        try:
            n, at = number(self.data, self.at)
        except IndexError:
            raise Bad
        if at + n > len(self.data):
            raise Bad
        self.at = at + n
        return self.data[at:at + n]

    def type(self, inner=False):
        head = self.little(1)
        if head in WIDTHS or head in (0x0e, 0x50, 0x51):
            return head
        if head == 0x55:
            return 0x55, self.text(False)
        if head == 0x1d and not inner:
            return 0x1d, self.type(True)
        raise Bad

    def lack(self, ty):
        if isinstance(ty, tuple) and ty[0] == 0x55 and ty[1] not in self.widths:
            raise Lacks(ty[1])

    def value(self, ty):
        if ty in WIDTHS:
            return '%02x:%d' % (ty, self.little(WIDTHS[ty]))
        if ty == 0x0e:
            text = self.text(True)
            return 'null' if text is None else escaped(text)
        if ty == 0x50:
            text = self.text(True)
            return 'null' if text is None else 'type ' + escaped(text)
        if ty == 0x51:
            return 'box ' + self.value(self.type())
        if ty[0] == 0x55:
            self.lack(ty)
            width = self.widths[ty[1]]
            return 'enum %s %02x:%d' % (escaped(ty[1]), width, self.little(WIDTHS[width]))
        count = self.little(4)
        if count == 0xffffffff:
            return 'null'
        return '[' + ','.join(self.value(ty[1]) for _ in range(count)) + ']'

    def named(self):
        mark = self.little(1)
        if mark not in (0x53, 0x54):
            raise Bad
        ty = self.type()
        self.lack(ty)
        name = self.text(False)
        return ' %s %s=%s' % ('property' if mark == 0x54 else 'field', name.decode('latin-1'), self.value(ty))

    def attribute(self, types):
        if self.little(2) != 1:
            raise Bad
        out = '(' + ','.join([self.value(ty) for ty in types]) + ')'
        for _ in range(self.little(2)):
            out += self.named()
        if self.at != len(self.data):
            raise Bad
        return out


def attribute(modules, m, token):
    if table_of(token) != ATTRIBUTE:
        raise End('stopped wrongkind ' + token)
    cells = yield from row(m, token)
    constructor, blob = token_in(cells[1]), bytes.fromhex(cells[2][2:])
    if constructor is None:
        raise End('bad')
    words = yield from ask(m, 'sig', constructor)
    sort, params = signature(constructor, bytes.fromhex(words[2]))
    if sort != 'method':
        raise End('bad')
    tokens, types, good = [], [], True
    for head, inner in params:
        array = head == 0x1d
        if array:
            head, inner = inner
        if head in WIDTHS or head == 0x0e:
            ty = head
        elif head == 0x1c:
            ty = 0x51
        elif head in (0x11, 0x12):
            words = yield from ask(m, 'name', inner)
            name = text_of(words[2])
            if head == 0x11:
                tokens.append((name, inner))
                ty = 0x55, name
            else:
                ty = 0x50
                good = good and name == b'System.Type'
        else:
            good = False
            continue
        types.append((0x1d, ty) if array else ty)
    if not good:
        raise End('bad')
    if not blob:
        raise End('bad' if params else 'value ()')
    widths = {}
    while True:
        try:
            value = Blob(blob, widths).attribute(types)
        except Bad:
            raise End('bad')
        except Lacks as lack:
            name = lack.args[0]
            at, found = yield from enum(modules, m, tokens, name)
            widths[name] = yield from width(at, found)
            continue
        raise End('value ' + value)


def enum(modules, m, tokens, name):
    end = End('unresolved ' + escaped(name))
    search = Resolution(modules)
    for own, token in tokens:
        if own == name:
            try:
                return (yield from search.token(m, token))
            except End as found:
                raise end if str(found).startswith('unresolved') else found
    parts = name.decode('latin-1').split(',')
    names = parts[0].split('+')
    namespace, _, first = names[0].rpartition('.')
    namespace, first = namespace.replace(' ', '~'), first.replace(' ', '~')
    if len(parts) > 1:
        at = yield from search.module_of(parts[1].replace(' ', ''))
        places = [] if at is None else [at]
    else:
        places = [m] + list(range(modules))
    for at in places:
        words = yield from ask(at, 'type', namespace, first)
        if words[0] == 'found':
            found = words[1]
            for inner in names[1:]:
                found = yield from search.nested(at, found, inner.replace(' ', '~'))
                if found is None:
                    raise end
            return at, found
    raise end


def width(m, token):
    words = yield from ask(m, 'members', token, '04')
    for field in words[3:]:
        cells = yield from row(m, field)
        if int(cells[0][2:]) & 0x10 == 0:
            words = yield from ask(m, 'sig', field)
            head = signature(field, bytes.fromhex(words[2]))[1][0][0]
            if 0x02 <= head <= 0x0b:
                return head
    raise End('bad')


# ---- cases

def shown(m, query):
    quoted = lambda word: escaped(text_of(word))
    if query[0] == 'type':
        return 'm%d type %s %s' % (m, quoted(query[1]), quoted(query[2]))
    if query[0] == 'member':
        return 'm%d member %s %s %s %s' % (m, query[1], query[2], quoted(query[3]), quoted(query[4]))
    return 'm%d %s' % (m, ' '.join(query))


class Module(dict):
    """Replies by their questions; what is not there is absent, empty or not found."""

    def reply(self, query):
        if query in self:
            return self[query]
        if query[0] == 'members':
            return 'owned %s %s' % query[1:]
        if query[0] == 'nested':
            return 'nested ' + query[1]
        if query[0] in ('type', 'member'):
            return 'notfound'
        return 'absent ' + query[1]

    def row(self, token, *cells):
        self['row', token] = ' '.join(('row', token) + cells)
        return self

    def sig(self, token, hexes, text=None):
        self['sig', token] = 'sig %s %s' % (token, hexes)
        if text is not None:
            self['name', token] = 'name %s %s' % (token, text)
        return self

    def name(self, token, text):
        self['name', token] = 'name %s %s' % (token, text)
        return self

    def assembly(self, name):
        return self.row('20000001', 'n/32772', 'n/1', 'n/0', 'n/0', 'n/0', 'n/0', 'b/', 't/' + name, 't/')

    def reference(self, token, name):
        return self.row(token, 'n/1', 'n/0', 'n/0', 'n/0', 'n/0', 'b/', 't/' + name, 't/', 'b/')

    def type_ref(self, token, scope, name, namespace=''):
        return self.row(token, 'r/' + scope if scope else 'noref', 't/' + name, 't/' + namespace)

    def type_def(self, token, name, namespace='', extends=None):
        self['type', namespace, name] = 'found ' + token
        return self.row(token, 'n/0', 't/' + name, 't/' + namespace, 'r/' + extends if extends else 'noref')

    def nests(self, outer, *pairs):
        """NestedClass rows of types, None for one that names none."""
        self['nested', outer] = ' '.join(['nested', outer] + [nesting for nesting, inner in pairs])
        for nesting, inner in pairs:
            self.row(nesting, 'r/' + inner if inner else 'noref', 'r/' + outer)
        return self

    def exports(self, *rows):
        self['members', '00000000', '27'] = ' '.join(['owned 00000000 27'] + [r[0] for r in rows])
        for token, name, namespace, leads in rows:
            self.row(token, 'n/0', 'n/0', 't/' + name, 't/' + namespace, 'r/' + leads if leads else 'noref')
        return self

    def fields(self, owner, *rows):
        self['members', owner, '04'] = ' '.join(['owned', owner, '04'] + [r[0] for r in rows])
        for token, flags, name, sig in rows:
            self.row(token, 'n/%d' % flags, 't/' + name).sig(token, sig)
        return self

    def attribute(self, token, constructor, blob):
        return self.row(token, 'r/00000001', 'r/' + constructor if constructor else 'noref', 'b/' + blob)

    def enum(self, token, name, namespace, sig='0608'):
        return self.type_def(token, name, namespace).fields(token, (token.replace('02', '04', 1), 6, 'value__', sig))


CASES = []


def case(start, modules, instead=None, cut=None):
    """A start over modules. `instead` has replies by the number of their question, `cut` how many are given."""
    words = start.split(' ')
    count, home = len(modules), int(words[1])
    machine = attribute(count, home, words[2]) if words[0] == 'attribute' else None
    if machine is None:
        def resolved():
            at, found = yield from Resolution(count).token(home, words[2])
            raise End('found m%d %s' % (at, found))
        machine = resolved()
    line, answer, reply, given = [f'{words[0]} {count} {home} {words[2]}'], [], None, 0
    while True:
        try:
            m, query = machine.send(reply)
        except End as end:
            answer.append(str(end))
            break
        answer.append(shown(m, query))
        if cut is not None and given == cut:
            break
        reply = (instead or {}).get(given) or modules[m].reply(query)
        line.append(reply)
        given += 1
    CASES.append(('; '.join(line), ', '.join(answer)))


def each_end():
    small = Module().type_def('02000001', '<Module>')
    for token in ('02000001', '04000009', '06000009', '00000001', '00000000', '08000001', '0c000001', '20000001', '2a000001'):
        case('resolve 0 ' + token, [small])
    for token in ('02000001', '00000000', '01000001'):
        case('attribute 0 ' + token, [small])


def type_refs():
    lib = Module().assembly('lib').type_def('02000002', 'Lib', 'N')
    user = Module().reference('23000001', 'lib').type_ref('01000001', '23000001', 'Lib', 'N')
    case('resolve 0 01000001', [user, lib])
    for cut in range(5):
        case('resolve 0 01000001', [user, lib], cut=cut)
    case('resolve 0 01000001', [user, lib], {2: 'removed 20000001'})
    case('resolve 0 01000001', [user, lib], {2: 'absent 20000002'})
    case('resolve 0 01000001', [user, lib], {2: 'removed 1a000001'})
    case('resolve 0 01000001', [user, lib], {2: 'wrongkind 20000001'})
    case('resolve 0 01000001', [user, lib], {2: 'fault 20000001'})
    case('resolve 0 01000001', [user, lib, lib])
    case('resolve 0 01000001', [user, Module().assembly('Lib'), Module(), lib])
    case('resolve 2 01000001', [lib, Module(), user])
    case('resolve 0 01000001', [user])
    case('resolve 0 01000001', [user, Module().assembly('lib')])
    for scope in ('00000001', '1a000001', None):
        own = Module().type_ref('01000001', scope, 'Own', 'A.B')
        case('resolve 0 01000001', [own])
        case('resolve 0 01000001', [own.type_def('02000004', 'Own', 'A.B')])


def forwards():
    def facade(name, to, *rows):
        return Module().assembly(name).reference('23000001', to).exports(*rows)
    user = Module().reference('23000007', 'a').type_ref('01000001', '23000007', 'T', 'N')
    other, there = ('27000001', 'T', 'M', None), ('27000002', 'T', 'N', '23000001')
    c = Module().assembly('c').type_def('02000009', 'T', 'N')
    case('resolve 0 01000001', [user, facade('a', 'b', other, there), facade('b', 'c', there), c])
    case('resolve 0 01000001', [user, facade('a', 'b', other, there), facade('b', 'a', there)])
    for leads in (None, '26000001', '27000001'):
        case('resolve 0 01000001', [user, facade('a', 'b', ('27000003', 'T', 'N', leads), there), c])
    case('resolve 0 01000001', [user, facade('a', 'b', other), c])
    case('resolve 0 01000001', [user, facade('a', 'd', there), c])
    case('resolve 0 01000001', [user, facade('a', 'b', other, there)], {5: 'owned 00000000 27 27000001 28000001'})
    case('resolve 0 01000001', [user, facade('a', 'b', other, there)], {5: 'owned 00000000 28'})
    case('resolve 0 01000001', [user, facade('a', 'b', other, there)], {5: 'owned 02000001 27'})


def nested():
    m = (Module().type_ref('01000001', '00000001', 'Outer', 'N').type_ref('01000002', '01000001', 'In')
         .type_ref('01000003', '01000002', 'Deep').type_def('02000002', 'Outer', 'N'))
    m.type_def('02000003', 'Out').type_def('02000004', 'In').type_def('02000005', 'Deep')
    m.nests('02000002', ('29000001', '02000003'), ('29000002', None), ('29000003', '02000004'))
    case('resolve 0 01000002', [m])
    case('resolve 0 01000003', [m])
    m.nests('02000004', ('29000004', '02000005'))
    case('resolve 0 01000003', [m])
    case('resolve 0 01000002', [m], {3: 'inside 02000002 29000001'})
    case('resolve 0 01000002', [m], {3: 'nested 02000003 29000001'})
    case('resolve 0 01000002', [m], {3: 'nested 02000002 29000001 09000001'})
    case('resolve 0 01000002', [m], {3: 'nested 02000002'})
    case('resolve 0 01000002', [m], {5: 'removed 02000003'})
    case('resolve 0 01000002', [m], {4: 'row 29000001 r/01000001 r/02000002'})


def specs():
    m = Module().type_ref('01000001', '00000001', 'T', 'N').type_def('02000002', 'T', 'N')
    for sig in ('1205', '1105', '1208', '1512050108', '1d1205', '0f1205', '08', '1300', '1f05' + '1205', '1206', '120a'):
        case('resolve 0 1b000001', [m.sig('1b000001', sig)])
    m.sig('1b000002', '1208')
    case('resolve 0 1b000001', [m.sig('1b000001', '120a')])
    case('resolve 0 1b000001', [m], {0: 'sig 1b000002 1208'})
    case('resolve 0 1b000001', [m], {0: 'sig 06000001 000001'})
    case('resolve 0 2b000001', [Module().row('2b000001', 'noref')])
    case('resolve 0 2b000001', [Module().row('2b000001', 'r/06000003')])
    case('resolve 0 2b000001', [Module().row('2b000001', 'r/0a000003')])
    case('resolve 0 2b000001', [Module().row('2b000001', 'r/02000003')])


def members():
    def user(owner, sig='200001'):
        return (Module().row('0a000001', 'r/' + owner if owner else 'noref', 't/Go').sig('0a000001', sig, 'SIG~OF~GO')
                .type_ref('01000001', '00000001', 'T', 'N').type_def('02000002', 'T', 'N').sig('1b000001', '1512050108')
                .reference('23000001', 'lib').type_ref('01000002', '23000001', 'Base', 'L'))
    for owner in ('06000007', '1a000001', None, '02000002', '01000001', '1b000001'):
        m = user(owner)
        case('resolve 0 0a000001', [m])
        m['member', '02000002', '06', 'Go', 'SIG~OF~GO'] = 'found 06000004'
        case('resolve 0 0a000001', [m])
    m = user('02000002', '0608')
    m['member', '02000002', '06', 'Go', 'SIG~OF~GO'] = 'found 06000004'
    case('resolve 0 0a000001', [m])
    m['member', '02000002', '04', 'Go', 'SIG~OF~GO'] = 'found 04000004'
    case('resolve 0 0a000001', [m])
    case('resolve 0 0a000001', [m], {3: 'found 06000004'})
    case('resolve 0 0a000001', [m], {2: 'sig 0a000001 0a0108'})
    case('resolve 0 0a000001', [m], {1: 'name 0a000002 X'})
    case('resolve 0 2b000001', [m.row('2b000001', 'r/0a000001')])
    lib = Module().assembly('lib').type_def('02000005', 'Base', 'L', '02000006').type_def('02000006', 'Root', 'L')
    m = user('01000001').type_def('02000002', 'T', 'N', '01000002')
    case('resolve 0 0a000001', [m, lib])
    lib['member', '02000006', '06', 'Go', 'SIG~OF~GO'] = 'found 06000001'
    case('resolve 0 0a000001', [m, lib])
    case('resolve 0 0a000001', [user('02000002').type_def('02000002', 'T', 'N', '02000002')])


def hops():
    for count in (98, 99, 100, 101):
        m = Module().type_ref('01000001', '00000001', 'T').type_def('02000001', 'T')
        for k in range(1, count + 1):
            m.type_ref('01%06x' % (k + 1), '01%06x' % k, 'T')
            m.type_def('02%06x' % (k + 1), 'T').nests('02%06x' % k, ('29%06x' % k, '02%06x' % (k + 1)))
        m['type', '', 'T'] = 'found 02000001'
        case('resolve 0 01%06x' % (count + 1), [m])
        m = Module()
        for k in range(1, count):
            m.sig('1b%06x' % k, '12' + spec_token(k + 1))
        case('resolve 0 1b000001', [m.sig('1b%06x' % count, '1208')])


def other_forms():
    lib = Module().assembly('lib').type_def('02000002', 'Lib', 'N')
    user = Module().reference('23000001', 'lib').type_ref('01000001', '23000001', 'Lib', 'N')
    for reply in ('fault 01000001', 'absent 01000001', 'removed 01000001', 'wrongkind 01000001', 'filled 3', 'notfound',
                  'found 02000001', 'name 01000001 X', 'sig 1b000001 08', 'owned 00000000 01', 'nested 01000001',
                  'row 01000002 r/23000001 t/Lib t/N', 'row 02000001 r/23000001 t/Lib t/N',
                  'row 01000001 r/23000001 t/Lib', 'row 01000001 r/23000001 t/Lib t/N t/', 'row 01000001 t/Lib t/N noref',
                  'row 01000001 r/02000001 t/Lib t/N', 'row 01000001 n/1 t/Lib t/N', 'row 01000001 r/23000001 b/00 t/N',
                  'row 01000001 noguid t/Lib t/N', 'row 01000001 noref t/Lib t/N', 'row 01000001 r/1a000001 t/Lib t/N'):
        case('resolve 0 01000001', [user, lib], {0: reply})
    big = 'row 23000001 n/%d n/0 n/0 n/0 n/%d b/ t/lib t/ b/'
    for major, flags in ((65535, 4294967295), (65536, 0), (0, 4294967296)):
        case('resolve 0 01000001', [user, lib], {1: big % (major, flags)})
    for reply in ('found 01000001', 'found 06000001', 'absent 02000001', 'row 02000002 n/0 t/Lib t/N noref'):
        case('resolve 0 01000001', [user, lib], {4: reply})


def text(word):
    data = word.encode()
    return '%02x' % len(data) + data.hex()


def values():
    def user(sig, blob):
        return (Module().attribute('0c000001', '06000001', blob).sig('06000001', sig)
                .name('01000001', 'System.Type').name('01000002', 'N.E').name('02000003', 'Other').type_ref('01000002', '00000001', 'E', 'N'))
    case('attribute 0 0c000001', [user('200001', '')])
    case('attribute 0 0c000001', [user('200001', '01000000')])
    case('attribute 0 0c000001', [user('200001', '0100000000')])
    case('attribute 0 0c000001', [user('20010108', '')])
    for blob in ('01000568656c6c6f0000', '0100ff0000', '01000568'):
        case('attribute 0 0c000001', [user('2001010e', blob)])
    case('attribute 0 0c000001', [user('20020108' + '1c', '0100' + '05000000' + '0e0161' + '0000')])
    case('attribute 0 0c000001', [user('2002011205' + '1d1205', '0100' + text('A.B') + '01000000ff' + '0000')])
    case('attribute 0 0c000001', [user('200101120c', '0100ff0000')])
    for bad in ('0f08', '1008', '1d1d08', '1300', '18', '1d0f1205', '1f0508', '1512050108'):
        case('attribute 0 0c000001', [user('200201' + bad + '1205', '0100ff0000')])
    case('attribute 0 0c000001', [Module().attribute('0c000001', None, '')])
    field = Module().attribute('0c000001', '0a000001', '01000000').sig('0a000001', '0608')
    case('attribute 0 0c000001', [field])
    case('attribute 0 0c000001', [field.sig('0a000001', '200001')])
    case('attribute 0 0c000001', [user('200001', '')], {1: 'sig 06000001 0608'})
    case('attribute 0 0c000001', [user('200001', '')], {0: 'row 0c000001 r/00000001 r/02000001 b/'})
    case('attribute 0 0c000001', [user('200001', '')], {0: 'absent 0c000001'})
    case('attribute 0 0c000001', [user('2001011205', '0100ff0000')], {2: 'absent 01000001'})
    case('attribute 1 0c000001', [Module(), user('200001', '01000000')])


def enums():
    def user(sig='2001011109', blob='0100020000000000', name='N.E'):
        return (Module().attribute('0c000001', '06000001', blob).sig('06000001', sig).name('01000002', name)
                .type_ref('01000002', '00000001', 'E', 'N'))
    case('attribute 0 0c000001', [user()])
    case('attribute 0 0c000001', [user().enum('02000005', 'E', 'N')])
    case('attribute 0 0c000001', [user(), Module().enum('02000005', 'E', 'N')])
    for sig, blob in (('0602', '01'), ('0605', '07'), ('0606', 'feff'), ('060a', '0100000000000000'), ('060b', '02' * 8)):
        case('attribute 0 0c000001', [user(blob='0100' + blob + '0000').enum('02000005', 'E', 'N', sig)])
    for sig in ('060c', '060e', '06111c', '061f0508', '061d08'):
        case('attribute 0 0c000001', [user().enum('02000005', 'E', 'N', sig)])
    many = user().type_def('02000005', 'E', 'N').fields(
        '02000005', ('04000001', 0x8056, 'A', '0606'), ('04000002', 6, 'odd', '060e'), ('04000003', 0x16, 'B', '0605'),
        ('04000004', 0x606, 'value__', '0608'), ('04000005', 6, 'next', '0605'))
    case('attribute 0 0c000001', [many])
    case('attribute 0 0c000001', [many], {5: 'owned 02000005 04 06000001'})
    case('attribute 0 0c000001', [many], {6: 'removed 04000001'})
    case('attribute 0 0c000001', [user().type_def('02000005', 'E', 'N')])
    case('attribute 0 0c000001', [user().type_ref('01000002', '01000002', 'E', 'N')])
    case('attribute 0 0c000001', [user()], {3: 'fault 01000002'})
    one = Module().attribute('0c000001', '06000001', '0100020000000000').sig('06000001', '2001011114').name('02000005', 'N.E')
    case('attribute 0 0c000001', [one.enum('02000005', 'E', 'N')])
    array = '0100' + '02000000' + '01000000' + '02000000' + '03000000' + '0000'
    case('attribute 0 0c000001', [user('2002011d1109' + '1109', array).enum('02000005', 'E', 'N')])
    case('attribute 0 0c000001', [user('2001011d1109', '0100' + '00000000' + '0000')])
    same = Module().attribute('0c000001', '06000001', '0100' + '0100' + '0200' + '0000').sig('06000001', '20020111091114')
    same.name('01000002', 'N.E').name('02000005', 'N.E').type_ref('01000002', '00000001', 'E', 'N')
    case('attribute 0 0c000001', [same.enum('02000005', 'E', 'N', '0606')])


def named_enums():
    def user(*names):
        blob = '0100' + struct.pack('<H', len(names)).hex()
        for name in names:
            blob += '5355' + text(name) + text('f') + '07000000'
        return Module().attribute('0c000001', '06000001', blob).sig('06000001', '200001').assembly('user')
    lib = Module().assembly('lib').enum('02000002', 'E', 'N')
    lib.type_def('02000003', 'I').type_def('02000004', 'J').type_def('02000006', 'K~L')
    lib.fields('02000003', ('04000003', 6, 'v', '0608')).fields('02000004', ('04000004', 6, 'v', '0609'))
    lib.fields('02000006', ('04000006', 6, 'v', '0608'))
    lib.nests('02000002', ('29000001', None), ('29000002', '02000004'), ('29000003', '02000003'), ('29000004', '02000006'))
    lib.nests('02000003', ('29000005', '02000004'))
    for name in ('N.E', 'N.E+I', 'N.E+I+J', 'N.E+J', 'N.E+X', 'N.E+I+X', 'N.E+', 'E', '.E', 'N.', 'N.M.E', 'N.E+I.J', 'N.E+K L',
                 'N.E,lib', 'N.E, lib', 'N.E, l i b ', 'N.E,lib, Version=1.0.0.0, Culture=neutral', 'N.E+I, lib', 'N.E+I+J,lib,x',
                 'N.E,Lib', 'N.E,', 'N.X,lib', 'N.E+X,lib', 'N.E ,lib', ' N.E,lib', 'N.E\\+I', ',lib', '', '+', 'A+B.C'):
        case('attribute 0 0c000001', [user(name), lib])
    case('attribute 1 0c000001', [lib, user('N.E'), lib])
    case('attribute 0 0c000001', [user('N.E', 'N.E', 'N.E, lib'), lib])
    case('attribute 0 0c000001', [user('N.E, lib'), Module(), lib], {2: 'removed 20000001'})
    case('attribute 0 0c000001', [user('N.E, lib'), Module(), lib], {2: 'fault 20000001'})
    case('attribute 0 0c000001', [user('N.E, other'), Module(), lib])
    case('attribute 0 0c000001', [user('A.B.C.E'), Module().enum('02000007', 'E', 'A.B.C')])
    forwards = Module().assembly('lib').reference('23000001', 'to').exports(('27000001', 'E', 'N', '23000001'))
    case('attribute 0 0c000001', [user('N.E, lib'), forwards, Module().assembly('to').enum('02000002', 'E', 'N')])
    own = user('N.E').name('01000002', 'N.E').type_ref('01000002', '23000001', 'E', 'N').reference('23000001', 'lib')
    own.sig('06000001', '2001011109').attribute('0c000001', '06000001', '0100' + '03000000' + '0100' + '5355' + text('N.E') + text('f') + '04000000')
    case('attribute 0 0c000001', [own, lib])


def spec_token(rid):
    """A TypeSpec in a signature, after the byte of a class or a value type (II.23.2.8)."""
    n = rid << 2 | 2
    return '%02x' % n if n < 0x80 else '%04x' % (0x8000 | n)


def hops_of_names():
    """The steps of each enum of an attribute are counted from its own first one."""
    for first, second in ((60, 60), (99, 99), (60, 100), (100, 60)):
        m = Module().attribute('0c000001', '06000001', '0100' + '01000000' + '02000000' + '0000')
        m.sig('06000001', '20020111' + spec_token(1) + '11' + spec_token(first + 1))
        m.name('1b000001', 'N.A').name('1b%06x' % (first + 1), 'N.B').enum('02000001', 'E', 'N')
        for rid in range(1, first + second + 1):
            last = rid in (first, first + second)
            m.sig('1b%06x' % rid, '1204' if last else '12' + spec_token(rid + 1))
        case('attribute 0 0c000001', [m])


def sorts_of_parameters():
    """All numbers, and an enum that has the name of a class among the parameters."""
    m = Module().attribute('0c000001', '06000001', '0100' + '01' + '0200' + '03' + '04' + '0500' + '0600' + '07000000' + '08000000'
                           + '0900000000000000' + '0a00000000000000' + '0000803f' + '000000000000f03f' + '0000')
    case('attribute 0 0c000001', [m.sig('06000001', '200c01' + '02030405060708090a0b0c0d')])
    m = Module().attribute('0c000001', '06000001', '0100' + 'ff' + '0100' + '5355' + text('System.Type') + text('f') + '07000000')
    m.sig('06000001', '2001011205').name('01000001', 'System.Type').type_ref('01000001', '00000001', 'Type', 'System')
    case('attribute 0 0c000001', [m])
    case('attribute 0 0c000001', [m.enum('02000002', 'Type', 'System')])


def main():
    for part in (each_end, type_refs, forwards, nested, specs, members, hops, other_forms, values, enums, named_enums,
                 hops_of_names, sorts_of_parameters):
        part()
    with open('crates/resolver_cases/stdin', 'w') as out:
        out.writelines(line + '\n' for line, _ in CASES)
    with open('crates/resolver_cases/stdout', 'w') as out:
        out.writelines('%d %s\n' % (number, answer) for number, (_, answer) in enumerate(CASES, 1))


if __name__ == '__main__':
    main()
