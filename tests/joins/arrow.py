"""Columns of the Arrow Columnar Format as plain buffers, made from rows, laid into one body, and read back.

Rows: None; an int (for `f` and `g` the bits); bytes; a list of rows; (id, row) for a union. A dictionary's row is
None where the entry that its key names is null, else the stored bytes of that entry. Nothing here is taken from the port: it follows the format and document 01."""
import struct

WIDTH = {'c': 1, 'C': 1, 's': 2, 'S': 2, 'i': 4, 'I': 4, 'l': 8, 'L': 8, 'f': 4, 'g': 8}
OFFSETS = {'z': 4, 'u': 4, 'Z': 8, 'U': 8, '+l': 4, '+L': 8, '+vl': 4, '+vL': 8}


def number(n, width):
    return (n % (1 << 8 * width)).to_bytes(width, 'little')


def numbers(ns, width):
    return b''.join(number(n, width) for n in ns)


def entry(buffer, width, k, signed=False):
    return int.from_bytes(buffer[k * width:k * width + width], 'little', signed=signed)


class Type:
    """`entries` of a dictionary type: its rows, or a column that all share."""
    def __init__(self, format, *children, dictionary=None, entries=(), nullable=True):
        self.format, self.children, self.dictionary, self.nullable, self.entries = format, list(children), dictionary, nullable, entries

    def kind(self):
        if self.dictionary: return 'dictionary'
        f = self.format
        if f in WIDTH: return 'number'
        if f in ('z', 'u', 'Z', 'U'): return 'string'
        if f in ('vz', 'vu'): return 'view'
        if f in ('+l', '+L'): return 'list'
        if f in ('+vl', '+vL'): return 'list_view'
        return {'+us': 'sparse', '+ud': 'dense', '+r': 'runs'}[f[:3]]

    def ids(self):
        text = self.format[4:]
        return [int(x) for x in text.split(',')] if text else []

    def below(self):
        return [self.dictionary] if self.dictionary else self.children

    def nodes(self):
        return [self] + [n for c in self.below() for n in c.nodes()]


class Column:
    """offset and length count slots; `slots` is how many the buffers have."""
    def __init__(self, type, length, offset=0):
        self.type, self.length, self.offset = type, length, offset
        self.validity, self.one, self.two, self.data, self.children = None, b'', b'', [], []

    def nodes(self):
        return [self] + [n for c in self.children for n in c.nodes()]

    def valid(self, slot):
        return self.validity is None or self.validity[slot // 8] >> slot % 8 & 1 == 1

    def nulls(self):
        if self.validity is None: return 0
        return sum(not self.valid(self.offset + r) for r in range(self.length))


def bits(flags, rest=1):
    """The last byte's free bits are `rest`: a reader must not look at them."""
    flags = list(flags) + [rest] * (-len(flags) % 8)
    return bytes(sum(f << k for k, f in enumerate(flags[p:p + 8])) for p in range(0, len(flags), 8))


def masked(column, slots):
    if any(s is None for s in slots): column.validity = bits([s is not None for s in slots])


def make(type, rows, before=()):
    """A column of these rows; `before` are rows in front of its offset."""
    slots = list(before) + list(rows)
    c, kind = Column(type, len(rows), len(before)), type.kind()
    if kind == 'number':
        c.one = numbers([0x5a5a5a5a5a5a5a5a if s is None else s for s in slots], WIDTH[type.format])
        masked(c, slots)
    elif kind == 'string':
        at, offsets = 1, [1]
        for s in slots: at += len(s if s is not None else b'?'); offsets.append(at)
        c.one = numbers(offsets, OFFSETS[type.format])
        c.two = b'.' + b''.join(b'?' if s is None else s for s in slots) + b'.'
        masked(c, slots)
    elif kind == 'view':
        for s in slots:
            if s is None: c.one += b'\xff' * 16
            elif len(s) <= 12: c.one += number(len(s), 4) + s + bytes(12 - len(s))
            else:
                c.one += number(len(s), 4) + s[:4] + number(len(c.data), 4) + number(1, 4)
                c.data.append(b'.' + s)
        masked(c, slots)
    elif kind == 'list':
        # a child's row in front of the lists and one behind them, and one under each null
        t = type.children[0]
        edge = [filler(t)] if slots else []
        child, offsets = edge + [], [len(edge)]
        for s in slots:
            child += [filler(t)] if s is None else s
            offsets.append(len(child))
        c.one = numbers(offsets, OFFSETS[type.format])
        c.children = [make(t, child + edge)]
        masked(c, slots)
    elif kind == 'list_view':
        w, child, offsets, sizes = OFFSETS[type.format], [], [], []
        for s in slots:
            inner = s if s is not None else ['any']
            offsets.append(len(child)), sizes.append(len(inner))
            child += [filler(type.children[0]) if x == 'any' else x for x in inner]
        c.one, c.two = numbers(offsets, w), numbers(sizes, w)
        c.children = [make(type.children[0], child)]
        masked(c, slots)
    elif kind == 'sparse':
        c.one = bytes(s[0] for s in slots)
        for i, t in zip(type.ids(), type.children):
            c.children.append(make(t, [s[1] if s[0] == i else filler(t) for s in slots]))
    elif kind == 'dense':
        kept = {i: [] for i in type.ids()}
        for s in slots:
            c.two += number(len(kept[s[0]]), 4)
            kept[s[0]].append(s[1])
        c.one = bytes(s[0] for s in slots)
        c.children = [make(t, kept[i]) for i, t in zip(type.ids(), type.children)]
    elif kind == 'runs':
        runs = []
        for k, s in enumerate(slots):
            if runs and runs[-1][1] == s: runs[-1] = (k + 1, s)
            else: runs.append((k + 1, s))
        c.children = [make(type.children[0], [e for e, _ in runs]), make(type.children[1], [v for _, v in runs])]
    elif kind == 'dictionary':
        entries = type.entries
        return keyed(type, rows, entries if isinstance(entries, Column) else make(type.dictionary, entries), before)
    return c


def filler(type):
    kind = type.kind()
    if kind == 'number': return 7
    if kind in ('string', 'view'): return b'fill'
    if kind in ('list', 'list_view'): return []
    if kind in ('sparse', 'dense'): return (type.ids()[0], filler(type.children[0]))
    if kind == 'runs': return filler(type.children[1])
    return 0


def keyed(type, keys, dictionary, before=(), under_null=250):
    """A dictionary column of keys; a null's key may be anything."""
    slots = list(before) + list(keys)
    c = Column(type, len(keys), len(before))
    c.one = numbers([under_null if k is None else k for k in slots], WIDTH[type.format])
    masked(c, slots)
    c.children = [dictionary]
    return c


def run_column(type, ends, values, offset, length):
    c = Column(type, length, offset)
    c.children = [make(type.children[0], ends), values]
    return c


def sliced(column, offset, length):
    c = Column(column.type, length, offset)
    c.validity, c.one, c.two, c.data, c.children = column.validity, column.one, column.two, column.data, column.children
    return c


# ---- reading: "from the top of the tree downward"

def read(c, row):
    slot, kind = c.offset + row, c.type.kind()
    if not c.valid(slot): return None
    if kind == 'number': return entry(c.one, WIDTH[c.type.format], slot, c.type.format in 'csil')
    if kind == 'string':
        w = OFFSETS[c.type.format]
        return c.two[entry(c.one, w, slot):entry(c.one, w, slot + 1)]
    if kind == 'view':
        v = c.one[16 * slot:16 * slot + 16]
        n = entry(v, 4, 0)
        return v[4:4 + n] if n <= 12 else c.data[entry(v, 4, 2)][entry(v, 4, 3):entry(v, 4, 3) + n]
    if kind == 'list':
        w = OFFSETS[c.type.format]
        a = entry(c.one, w, slot)
        return Rows(c.children[0], a, entry(c.one, w, slot + 1) - a)
    if kind == 'list_view':
        w = OFFSETS[c.type.format]
        a, n = entry(c.one, w, slot), entry(c.two, w, slot)
        return Rows(c.children[0], a, n)
    if kind == 'sparse': return (c.one[slot], read(c.children[c.type.ids().index(c.one[slot])], slot))
    if kind == 'dense': return (c.one[slot], read(c.children[c.type.ids().index(c.one[slot])], entry(c.two, 4, slot)))
    if kind == 'runs':
        ends, w = c.children[0], WIDTH[c.children[0].type.format]
        run = next(k for k in range(ends.length) if entry(ends.one, w, ends.offset + k) > slot)
        return read(c.children[1], run)
    key = entry(c.one, WIDTH[c.type.format], slot, c.type.format in 'csil')
    d = c.children[0]
    if not d.valid(d.offset + key): return None
    if d.type.kind() == 'number':
        w = WIDTH[d.type.format]
        return d.one[(d.offset + key) * w:(d.offset + key + 1) * w]
    w = OFFSETS[d.type.format]
    return d.two[entry(d.one, w, d.offset + key):entry(d.one, w, d.offset + key + 1)]


class Rows:
    """The rows start .. start + count - 1 of a column, read when they are wanted."""
    def __init__(self, column, start, count):
        self.column, self.start, self.count = column, start, count

    def __eq__(self, other):
        return self.count == other.count and all(self.at(k) == other.at(k) for k in range(min(self.count, 50)))

    def at(self, k):
        return read(self.column, self.start + k)


def shown(type, row):
    """A row as the program prints it."""
    if row is None: return 'null'
    if isinstance(row, int):
        leaf = leaf_of(type)
        return 'f%0*x' % (2 * WIDTH[leaf], row) if leaf in 'fg' else str(row)
    if isinstance(row, bytes):
        if row and all(32 <= b <= 126 for b in row): return "'" + row.decode() + "'"
        return 'x' + row.hex()
    if isinstance(row, tuple):
        return '%d:%s' % (row[0], shown(type.children[type.ids().index(row[0])] if type.kind() != 'runs' else type.children[1], row[1]))
    return shown_rows(row)


def leaf_of(type):
    while type.kind() == 'runs': type = type.children[1]
    return type.format


def shown_rows(rows):
    t = rows.column.type
    while t.kind() == 'runs': t = t.children[1]
    text = [shown(t, rows.at(k)) for k in range(min(rows.count, 12))]
    return '[' + ' '.join(text) + (' ..' if rows.count > 12 else '') + ']'


# ---- one body, and the tables of docs/FORMAT.md

class Laid:
    def __init__(self):
        self.body, self.formats, self.schema, self.lengths, self.places = bytearray(b'\xff\xff'), b'', [], [], []
        self.buffers, self.sources, self.known = [], [], {}

    def put(self, buffer):
        at = len(self.body)
        self.body += buffer + b'\xdd'
        return [at, len(buffer)]

    def placed(self, c):
        key = (id(c.validity), id(c.one), id(c.two)) + tuple(id(d) for d in c.data)
        if key not in self.known:
            data = [self.put(d) for d in c.data]
            v = [0, 0, 0] if c.validity is None else [1] + self.put(c.validity)
            self.known[key] = (v + self.put(c.one) + self.put(c.two), data, c)
        return self.known[key]

    def same(self, a, b):
        """`ptr_eq`: same offset, length, type and start positions, validity likewise."""
        p, q = self.placed(a)[0], self.placed(b)[0]
        return (a.offset, a.length, a.type.format, p[0], p[1], p[3], p[5]) == (b.offset, b.length, b.type.format, q[0], q[1], q[3], q[5])

    def add(self, column):
        first = len(self.lengths) // 2
        for c in column.nodes():
            t = c.type
            at = self.formats.find(t.format.encode())
            if at < 0: at, self.formats = len(self.formats), self.formats + t.format.encode()
            self.schema += [at, len(t.format), 2 if t.nullable else 0, 0 if t.dictionary else len(t.children), 1 if t.dictionary else 0]
            self.lengths += [c.length, c.offset]
            places, data, _ = self.placed(c)
            self.places += places + [len(self.buffers) // 2, len(data)]
            self.buffers += [x for d in data for x in d]
        self.sources += [first, len(self.lengths) // 2 - first]
