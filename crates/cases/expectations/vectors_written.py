"""The outside vectors of A1's writer: each text read, its table checked and written, also with names taken away or changed and translated; what is written is read
back and written again."""
from .parsing import parse
from .programs import dump, translation
from .script import PAGE
from .tables import cells, name_cells
from .writing import written


class Lines:
    def __init__(self, data):
        self.data, self.at = data, 0

    def bytes(self, n):
        self.at += n
        return self.data[self.at - n:self.at]

    def line(self):
        line = self.bytes(self.data.index(b'\n', self.at) - self.at)
        self.at += 1
        return line.decode().split('\t')

    def more(self):
        return self.at < len(self.data)


class Vector:
    """What a vector has come to: the tables it writes, and the texts shown with their tables."""

    def __init__(self, script, name, text):
        self.script, self.functions = script, parse(text)
        self.table = cells(dump(self.functions))
        self.edits, self.put_now, self.shown, self.translated = {}, {}, [], None
        script.read(f'{name} ', text, self.table)

    def cells_of(self, source):
        if source == 'own':
            return dict(self.table)
        if source == 'edited':
            return {k: v for k, v in {**self.table, **self.edits}.items() if v}
        return cells(dump([translation(self.functions[int(source.partition('.')[2])])]))

    def turn_to(self, source):
        """The source table as it must be, or the translation made."""
        if source.startswith('translation'):
            if self.translated != source:
                self.translated = source
                self.script.translate(f' {source} ', int(source.partition('.')[2]), self.cells_of(source))
            return
        wanted = self.edits if source == 'edited' else {}
        if self.put_now != wanted:
            self.script.put([(k, wanted.get(k, self.table.get(k, 0))) for k in sorted(self.put_now.keys() | wanted.keys())])
            self.put_now = wanted

    def edit(self, lines, count):
        self.edits = {}
        for _ in range(count):
            self.edits.update(name_cells(*lines.line()[1:]))

    def write(self, lines, source, lent, answer, *numbers):
        self.turn_to(source)
        refused = numbers if answer == 'refused' else None
        if answer == 'ok':
            text = lines.bytes(int(numbers[0]))
            self.shown.append((text, self.cells_of(source)))
        text = b'' if refused else self.shown[-1][0]
        if int(lent) <= PAGE:
            self.script.show(f' {source} {lent} ', text, refused, lent=int(lent), translated=source.startswith('translation'))

    def made(self, kind, function, index, name):
        self.shown[-1][1].update({k: v for k, v in name_cells(kind, function, index, name).items() if v})

    def back(self):
        for text, table in self.shown:
            assert cells(dump(parse(text))) == table and written(parse(text)) == text
            self.script.read(' back ', text, table)
            self.script.show(' again ', text, lent=len(text))


def vector(script, name, text, data):
    lines = Lines(data)
    lines.bytes(int(lines.line()[1]))
    read = lines.line()
    if read[1] != '0':
        script.read(f'{name} ', text, {}, read[1:3])
        return
    v = Vector(script, name, text)
    while lines.more():
        word, *rest = lines.line()
        if word in ('check', 'check.edited'):
            v.turn_to('own' if word == 'check' else 'edited')
            script.check(' ', None if rest[0] == '0' else rest[:2])
        elif word == 'edited':
            v.edit(lines, int(rest[0]))
        elif word == 'write':
            v.write(lines, *rest)
        elif word == 'made':
            v.made(*rest[1:])
        else:
            assert word == 'translate'
            v.turn_to('own')
            script.translate(f' translation.{rest[0]} ', int(rest[0]), {}, rest[2:4])
            v.translated = None
    v.back()
