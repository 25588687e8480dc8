"""A script of calls for the program `cases`, with what it must print for each. src/records.rt has the layout."""
from .layout import TABLE

CELLS = 300
TEXT = 65536
PAGE = 65600  # the most bytes lent for a text
READ, PUT, FILL, TRANSLATE, LIST, CHECK, RUN, RUN_TRANSLATED, SHOW, SHOW_TRANSLATED = range(10)


def numbers(ns):
    return b''.join(n.to_bytes(8, 'little') for n in ns)


def cell_list(cells):
    """Four bytes for each cell that is not 0: its place in three, low first, and its value."""
    return b''.join(k.to_bytes(3, 'little') + bytes([v]) for k, v in sorted(cells.items()))


def ran(kind, value=0, number=0, place=0, steps=0):
    """The words for a run's answer."""
    return {'returned': f'returned {value}, {steps} steps', 'left': f'left, {steps} steps',
            'stopped': f'stopped {number} at {place}, {steps} steps', 'refused': f'refused {number} at {place}'}[kind]


class Script:
    def __init__(self):
        self.records, self.blob, self.printed, self.places = [], b'', b'', {}

    def store(self, data):
        """Where the bytes stand behind the records; the same bytes stand there once."""
        if data not in self.places:
            self.places[data] = len(self.blob)
            self.blob += data
        return self.places[data], len(data)

    def add(self, kind, label, printed, given=b'', want=b'', source=TABLE, function=0, budget=0, lent=0):
        label = label.encode()
        self.records.append((kind, self.store(label), source, function, budget, lent, self.store(given), self.store(want)))
        self.printed += label + printed

    def read(self, label, text, cells, refused=None, lent=TABLE):
        words = f'refused {refused[0]} at {refused[1]}' if refused else 'read'
        self.add(READ, label, words.encode() + b', cells right\n', text, cell_list(cells), lent=lent)

    def list(self, text, lines):
        self.add(LIST, '', lines, text)

    def check(self, label, refused=None, source=TABLE):
        words = f'refused {refused[0]} at {refused[1]}\n' if refused else 'accepted\n'
        self.add(CHECK, label, words.encode(), source=source)

    def put(self, cells):
        self.add(PUT, '', b'', b''.join(k.to_bytes(3, 'little') + bytes([v]) for k, v in cells))

    def fill(self, label, gaps, seed):
        self.add(FILL, label, b'', b''.join(n.to_bytes(4, 'little') for g in gaps for n in g), budget=seed)

    def run(self, label, function, budget, args, answer, registers, lent=CELLS, translated=False, source=TABLE):
        self.add(RUN_TRANSLATED if translated else RUN, label, answer.encode() + b', registers right\n', numbers(args),
                 numbers(registers), source, function, budget, lent)

    def translate(self, label, function, cells, refused=None, lent=TABLE, source=TABLE):
        words = f'refused {refused[0]} at {refused[1]}' if refused else 'translated'
        self.add(TRANSLATE, label, words.encode() + b', cells right\n', b'', cell_list(cells), source, function, 0, lent)

    def show(self, label, text, refused=None, lent=TEXT, translated=False, source=TABLE):
        """The source table, or the translation, written as text."""
        words = f'refused {refused[0]} at {refused[1]}' if refused else f'wrote {len(text)}'
        self.add(SHOW_TRANSLATED if translated else SHOW, label, words.encode() + b', text right\n', b'', b'' if refused else text, source, lent=lent)

    def data(self):
        """The script's file."""
        base = 8 + 88 * len(self.records)
        out = numbers([len(self.records)])
        for kind, label, source, function, budget, lent, given, want in self.records:
            out += numbers([kind, base + label[0], label[1], source, function, budget, lent, base + given[0], given[1],
                            base + want[0], want[1]])
        out += self.blob
        assert len(out) <= 262144, len(out)
        return out


def with_cells(script, table, label, changed, refused):
    """The table checked with some cells changed, which are put back then."""
    script.put(changed.items())
    script.check(f' {label} ', refused)
    script.put([(k, table.get(k, 0)) for k in changed])
