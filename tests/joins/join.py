"""A join as document 01 and the text of arrow-data 60.1.0's src/transform have it, on columns of arrow.py: opening, copies, nulls and
finishing with their grounds, and the text that the program prints for each call. One run for gaps is W14's choice, and what stopped an order is
W10's answer, which the Rust does not have."""
import copy
from arrow import OFFSETS, WIDTH, Column, Rows, bits, entry, number, numbers, shown_rows

BUFFERS = {'number': 1, 'dictionary': 1, 'string': 2, 'view': 1, 'list': 1, 'list_view': 2, 'sparse': 1, 'dense': 2, 'runs': 0}


# offsets, sizes, positions and run ends of so many bytes stay below
LIMIT = {2: 1 << 15, 4: 1 << 31, 8: 1 << 63}
TOP = (1 << 64) - 1


class Refused(Exception):
    pass


def refuse(ground, node=0, row=0, needed=0, allowed=0):
    """What stopped an order: the ground, the node in tree order, the row within its range, and for 6, 7 and 13 two numbers."""
    raise Refused(ground, node, row, min(needed, TOP), allowed)


def text_of(buffer):
    if not buffer: return '-'
    if len(buffer) <= 48: return bytes(buffer).hex()
    sum = 0
    for b in buffer: sum = (31 * sum + b) % (1 << 64)
    return '%d#%016x' % (len(buffer), sum)


def key_limit(format):
    return 1 << (8 * WIDTH[format] - (1 if format in 'csil' else 0))


class Node:
    def __init__(self, type, sources, keep, same, gaps=False):
        self.type, self.sources, self.kind = type, sources, type.kind()
        self.keeps = keep or any(s.nulls() for s in sources)
        self.masks = self.kind not in ('sparse', 'dense', 'runs')
        self.rows, self.null_count, self.bits, self.kept = 0, 0, [], None
        self.one, self.two, self.children = bytearray(), bytearray(), []
        # of a run-end node with one run for gaps: whether its last run was written by null orders alone
        self.gaps, self.grows = gaps, False
        if self.kind in ('string', 'list'): self.one += number(0, OFFSETS[type.format])
        if self.kind == 'dictionary':
            values = [s.children[0] for s in sources]
            node = Node(type.dictionary, values, False, same)
            if all(same(a, b) for a, b in zip(values, values[1:])): node.kept = values[0]
            self.children = [node]
            starts = [0 if node.kept else sum(v.length for v in values[:k]) for k in range(len(values))]
            self.bases = starts
        else:
            for k, t in enumerate(type.children):
                self.children.append(Node(t, [s.children[k] for s in sources], self.keeps and not (self.kind == 'runs' and k == 0), same, gaps))
        if self.kind == 'view':
            self.bases = [sum(len(s.data) for s in sources[:k]) for k in range(len(sources))]

    def nodes(self):
        return [self] + [n for c in self.children for n in c.nodes()]

    def open(self):
        """Per dictionary in tree order: 6 (joining), 8."""
        if self.kind == 'dictionary':
            values, limit = self.children[0], key_limit(self.type.format)
            if not values.kept:
                for k, s in enumerate(values.sources): values.copy(k, 0, s.length)
            for start, s in zip(self.bases, values.sources):
                if max(start + s.length - 1, 0) >= limit or start >= limit: refuse(8)
            return
        for c in self.children: c.open()

    # ---- copies

    def copy(self, s, a, n):
        c = self.sources[s]
        slot = c.offset + a
        if self.masks and self.keeps:
            added = [c.valid(slot + k) for k in range(n)]
            self.bits += added
            self.null_count += added.count(False)
        getattr(self, 'copy_' + self.kind)(s, c, slot, n)
        self.rows += n

    def copy_number(self, s, c, slot, n):
        w = WIDTH[self.type.format]
        self.one += c.one[slot * w:(slot + n) * w]

    def copy_dictionary(self, s, c, slot, n):
        w = WIDTH[self.type.format]
        for k in range(slot, slot + n): self.one += number(entry(c.one, w, k) + self.bases[s], w)

    def copy_string(self, s, c, slot, n):
        w = OFFSETS[self.type.format]
        if n == 0: return
        first, last = entry(c.one, w, slot), len(self.two)
        for k in range(slot + 1, slot + n + 1):
            new = last + entry(c.one, w, k) - first
            if new >= LIMIT[w]: refuse(6, self.at, k - slot - 1, new, LIMIT[w] - 1)
            self.one += number(new, w)
        self.two += c.two[first:entry(c.one, w, slot + n)]

    def copy_view(self, s, c, slot, n):
        for k in range(slot, slot + n):
            v = c.one[16 * k:16 * k + 16]
            if entry(v, 4, 0) > 12: v = v[:8] + number(entry(v, 4, 2) + self.bases[s], 4) + v[12:]
            self.one += v

    def copy_list(self, s, c, slot, n):
        """All offsets, then one stretch of the child."""
        w, child = OFFSETS[self.type.format], self.children[0]
        if n == 0: return
        first, last = entry(c.one, w, slot), child.rows
        for k in range(slot + 1, slot + n + 1):
            new = last + entry(c.one, w, k) - first
            if new >= LIMIT[w]: refuse(6, self.at, k - slot - 1, new, LIMIT[w] - 1)
            self.one += number(new, w)
        child.copy(s, first, entry(c.one, w, slot + n) - first)

    def copy_list_view(self, s, c, slot, n):
        w, child = OFFSETS[self.type.format], self.children[0]
        for k in range(slot, slot + n):
            size = entry(c.two, w, k)
            if child.rows + size >= LIMIT[w]: refuse(6, self.at, k - slot, child.rows + size, LIMIT[w] - 1)
            self.one += number(child.rows, w)
            self.two += number(size, w)
            child.copy(s, entry(c.one, w, k), size)

    def copy_sparse(self, s, c, slot, n):
        self.one += c.one[slot:slot + n]
        for child in self.children: child.copy(s, slot, n)

    def copy_dense(self, s, c, slot, n):
        for k in range(slot, slot + n):
            child = self.children[self.type.ids().index(c.one[k])]
            if child.rows >= LIMIT[4]: refuse(6, self.at, k - slot, child.rows, LIMIT[4] - 1)
            self.one.append(c.one[k])
            self.two += number(child.rows, 4)
            child.copy(s, entry(c.two, 4, k), 1)

    def copy_runs(self, s, c, slot, n):
        if n == 0: return
        ends, values = self.children
        w, source = WIDTH[ends.type.format], c.children[0]
        if self.rows + n >= LIMIT[w]: refuse(7, self.at, 0, self.rows + n, LIMIT[w] - 1)
        at = [entry(source.one, w, source.offset + k) for k in range(source.length)]
        runs = [k for k, e in enumerate(at) if e > slot and (k == 0 or at[k - 1] < slot + n)]
        values.copy(s, runs[0], len(runs))
        for k in runs: ends.one += number(self.rows + min(at[k], slot + n) - slot, w)
        ends.rows += len(runs)
        self.grows = False

    # ---- nulls

    def nulls(self, n):
        if n == 0: return
        getattr(self, 'nulls_' + self.kind)(n)
        if self.masks and self.keeps: self.bits += [False] * n
        if self.keeps: self.null_count += n
        self.rows += n

    def nulls_number(self, n):
        self.one += bytes(n * WIDTH[self.type.format])

    nulls_dictionary = nulls_number

    def nulls_string(self, n):
        self.one += number(len(self.two), OFFSETS[self.type.format]) * n

    def nulls_view(self, n):
        self.one += bytes(16 * n)

    def nulls_list(self, n):
        self.one += number(self.children[0].rows, OFFSETS[self.type.format]) * n

    def nulls_list_view(self, n):
        self.one += bytes(n * OFFSETS[self.type.format])
        self.two += bytes(n * OFFSETS[self.type.format])

    def home(self):
        if not self.children: refuse(4, self.at)
        for i, c in zip(self.type.ids(), self.children):
            if c.type.nullable: return i, c
        refuse(5, self.at)

    def nulls_sparse(self, n):
        i, _ = self.home()
        self.one += bytes([i]) * n
        for c in self.children: c.nulls(n)

    def nulls_dense(self, n):
        i, c = self.home()
        if c.rows + n > LIMIT[4]: refuse(6, self.at, max(LIMIT[4] - c.rows, 0), max(LIMIT[4], c.rows), LIMIT[4] - 1)
        self.one += bytes([i]) * n
        self.two += numbers(range(c.rows, c.rows + n), 4)
        c.nulls(n)

    def nulls_runs(self, n):
        ends, values = self.children
        w = WIDTH[ends.type.format]
        if not self.grows: values.nulls(1)
        if self.rows + n >= LIMIT[w]: refuse(7, self.at, 0, self.rows + n, LIMIT[w] - 1)
        if self.grows: del ends.one[-w:]
        else: ends.rows += 1
        ends.one += number(self.rows + n, w)
        self.grows = self.gaps

    # ---- parts, and the finished column

    def parts(self):
        """(buffer number, bytes) of each part."""
        if self.kept: return []
        valid = [(0, bits(self.bits, 0))] if self.masks and self.keeps else []
        return valid + [(1, self.one), (2, self.two)][:BUFFERS[self.kind]]

    def finished(self):
        if self.kept: return self.kept
        c = Column(self.type, self.rows, 0)
        if self.masks and self.keeps and not all(self.bits): c.validity = bits(self.bits, 0)
        c.one, c.two = bytes(self.one), bytes(self.two)
        if self.kind == 'view': c.data = [d for s in self.sources for d in s.data]
        c.children = [x.finished() for x in self.children]
        return c


class Join:
    """One join over lent room: `table` has a start and a size for each part. With `gaps` there is one run for a gap."""
    def __init__(self, columns, keep, same, gaps=False):
        self.columns, self.node, self.table, self.room = columns, Node(columns[0].type, columns, keep, same, gaps), None, b''
        for k, node in enumerate(self.node.nodes()): node.at = k
        # of the last order: the ground, the node, the row, the number needed and the largest allowed
        self.why = (0, 0, 0, 0, 0)

    def all_parts(self):
        return [(k, b, buffer) for k, n in enumerate(self.node.nodes()) for b, buffer in n.parts()]

    def placed(self):
        if len(self.table) != len(self.all_parts()): return False
        for k, (a, m) in enumerate(self.table):
            if a + m > len(self.room): return False
            if any(m and n and a < b + n and b < a + m for b, n in self.table[:k]): return False
        return True

    def settle(self, made):
        """13 last; else what was made is written."""
        parts = [(x, y) for x, y in zip(made.all_parts(), self.table)] if self.table is not None else []
        for x, y in parts:
            if len(x[2]) > y[1]: return self.answer(13, x[0], 0, len(x[2]), y[1])
        for x, y in parts: self.room[y[0]:y[0] + len(x[2])] = x[2]
        self.node = made.node
        return self.answer(0)

    def answer(self, ground, *more):
        self.why = (ground,) + (more or (0, 0, 0, 0))
        return ground

    def tried(self, work):
        made = copy.copy(self)
        made.node = duplicate(self.node)
        try: work(made.node)
        except Refused as r: return self.answer(*r.args)
        return self.settle(made)

    def open(self):
        if self.table is not None and not self.placed(): return 14
        return self.tried(lambda node: node.open())

    def copy(self, s, a, e):
        if s >= len(self.columns): return self.answer(1)
        if e < a or e > self.columns[s].length: return self.answer(2)
        return self.tried(lambda node: node.copy(s, a, e - a))

    def nulls(self, n):
        if not self.node.keeps: return self.answer(3)
        return self.tried(lambda node: node.nulls(n))

    def trip(self, orders):
        """A list of orders, all or none: the ground and the place of the first that is refused."""
        if len(orders) > 256: return self.answer(9), 0
        node, room = self.node, bytes(self.room)
        for place, order in enumerate(orders):
            ground = self.copy(*order[1:]) if order[0] == 'copy' else self.nulls(*order[1:])
            if ground:
                self.node, self.room[:] = node, room
                return ground, place
        return self.answer(0), 0

    def finish_text(self):
        text = ' finish 0 %d' % self.node.null_count
        for c in self.node.finished().nodes():
            text += ' | %d+%d %d' % (c.length, c.offset, c.nulls())
            text += ' no' if c.validity is None else ' ' + text_of(c.validity)
            text += ' %s %s' % (text_of(c.one), text_of(c.two)) + ''.join(' d ' + text_of(d) for d in c.data)
        return text + ' room ' + text_of(self.room)

    def rows_text(self):
        c = self.node.finished()
        return ' ' + shown_rows(Rows(c, 0, c.length))


def duplicate(node):
    """The destination; sources and a kept dictionary are never changed."""
    new = copy.copy(node)
    new.bits, new.one, new.two = list(node.bits), bytearray(node.one), bytearray(node.two)
    new.children = [duplicate(c) for c in node.children]
    return new
