"""Cases as the program's text, and the lines that it must print."""
from arrow import Laid
from join import Join, Refused


class Script:
    def __init__(self):
        self.text, self.lines, self.told = [], [], {}

    def tell(self, letter, numbers):
        """A table, unless the program has it."""
        line = '%s %d %s' % (letter, len(numbers), ' '.join(map(str, numbers)))
        if self.told.get(letter) != line: self.text.append(line.rstrip())
        self.told[letter] = line

    def tables(self, laid):
        if self.told.get('F') != laid.formats: self.text.append('F ' + laid.formats.decode())
        self.told['F'] = laid.formats
        for letter, table in (('S', laid.sources), ('Y', laid.schema), ('L', laid.lengths), ('P', laid.places), ('D', laid.buffers)):
            self.tell(letter, table)
        if self.told.get('B') != bytes(laid.body):
            self.text.append('T')
            self.text.append('B %d %s' % (len(laid.body), ' '.join(map(str, laid.body))))
        self.told['B'] = bytes(laid.body)

    def state(self, plan=872, counters=96):
        self.text.append('Q %d 7 K %d 7' % (plan, counters))

    def lend(self, table, room):
        self.tell('A', [x for part in table for x in part])
        self.text.append('R %d' % room)

    def start(self, name):
        self.text.append('C ' + name)
        self.lines.append(name + ':')

    def say(self, text):
        self.lines[-1] += text

    def end(self):
        self.text.append('.')

    def answer(self, what, ground, why=()):
        """`why`: node, row, needed and allowed of a refused order, told where one is not 0."""
        self.say(' %s %d' % (what, ground) + (' kept' if ground else '') + (' why %d %d %d %d' % why if any(why) else ''))
        return ground

    def step(self, join, step):
        """One step of a case; a refusal must keep every byte."""
        kind, rest = step[0], step[1:]
        if kind == 'copy':
            self.text.append('E %d %d %d' % rest)
            self.answer('copy', join.copy(*rest), join.why[1:])
        elif kind == 'nulls':
            self.text.append('N %d' % rest)
            self.answer('nulls', join.nulls(*rest), join.why[1:])
        elif kind == 'finish':
            self.text.append('W 0 0')
            self.say(join.finish_text())
            self.told = {}
        elif kind == 'rows':
            self.text.append('V')
            self.say(join.rows_text())
        elif kind == 'told':
            """Commands with the answers that 01 or a definition gives, by hand."""
            self.text.append(rest[0])
            self.say(rest[1])
            self.told = {}
        else: raise ValueError(kind)


def needs(make_join, steps):
    """The bytes of each part after all steps, where room is no matter."""
    join = make_join()
    try: join.node.open()
    except Refused: pass
    else:
        for step in steps:
            if step[0] == 'copy': join.copy(*step[1:])
            if step[0] == 'nulls': join.nulls(*step[1:])
    return [len(b) for _, _, b in join.all_parts()]


def table_of(sizes, gap=1):
    table, at = [], 3
    for size in sizes:
        table.append((at, size))
        at += size + gap
    return table, at


def run(script, name, columns, steps, keep=False, short=None, table=None, room=None, ask=False, again=None, plan=872, counters=96, lay=None, gaps=False):
    """A case: parts that are exactly as long as the steps need, `short` = (part, bytes) shorter. `again` are the keep and the steps of a
    second join whose only source is the finished array."""
    laid = Laid()
    for c in columns: laid.add(c)
    if lay: lay(laid)
    make_join = lambda: Join(columns, keep, laid.same, gaps)
    sizes = needs(make_join, steps)
    if short: sizes[short[0]] -= short[1]
    own, end = table_of(sizes)
    join = make_join()
    join.table, join.room = own if table is None else table(own), bytearray(b'\xee' * (end if room is None else room))
    script.start(name)
    script.tables(laid)
    script.state(plan, counters)
    if ask:
        script.text.append('M %d' % (keep + 2 * gaps))
        script.say(' parts 0 (' + ''.join(' %d.%d' % (k, b) for k, b, _ in join.all_parts()) + ' )')
    script.lend(join.table, len(join.room))
    script.text.append('O %d' % (keep + 2 * gaps))
    ground = 14 if (plan, counters) != (872, 96) else join.open()
    if script.answer('open', ground) == 0:
        for step in steps: script.step(join, step)
        if again: once_more(script, join, *again)
    script.end()
    return join


def once_more(script, first, keep, steps):
    column = first.node.finished()
    make_join = lambda: Join([column], keep, None)
    table, end = table_of(needs(make_join, steps))
    join = make_join()
    join.table, join.room = table, bytearray(b'\xee' * end)
    script.text.append('X')
    script.say(' again')
    script.state()
    script.lend(table, end)
    script.text.append('O %d' % keep)
    if script.answer('open', join.open()) == 0:
        for step in steps: script.step(join, step)


def refused(script, name, laid, ground, keep=False, parts=()):
    """An opening that 01 refuses, by the number that the case says."""
    script.start(name)
    script.tables(laid)
    script.state()
    script.lend(list(parts), 64)
    script.text.append('O %d' % keep)
    script.answer('open', ground)
    script.end()
