"""Names by their contents, by document 02's A2: spellings of one name, bytes that count, 2, 6, 7 and 9, and how names are listed and written."""
from .layout import NAME, NAME_OFFSET, block_at, function_at, register_at
from .papers import TURN, jump
from .parsing import parse
from .programs import WORDS, Function, Row, dump, spelling
from .runs import LEAVE, NONE, read
from .script import Script, ran, with_cells
from .tables import cells, needed
from .texts_written import whole
from .writing import written

# "A client declared `x` and used `'x'`"
CLIENT = b"function ssa uint 'sum'(uint x,uint 'y'){register uint 'z';block entry{z=ari.add 'x',y;jump('out');}block out{return 'z';}}"

# "A quoted keyword is still a name."; `'entry'` is a block like others.
KEYWORDS = b"function void 'jump'(uint 'uint'){register uint 'register';block 'entry'{jump('block');}" \
           b"block entry{'register'=copy 'uint';jump('entry');}block 'block'{jump(entry);}}"


def read_text(script, label, t):
    script.read(label + ' ', t, cells(dump(parse(t))))


def spelled(script):
    read_text(script, 'x and its like now in quotes, now not', CLIENT)
    script.list(CLIENT, b'sum\t1\t3\t2\t3\n')
    script.check(' ')
    script.run(' ', 0, 9, [3, 4], ran('returned', 7, steps=3), [3, 4, 7])
    script.show(' ', written(parse(CLIENT)))
    read_text(script, 'keywords in quotes', KEYWORDS)
    script.list(KEYWORDS, b"'jump'\t0\t2\t3\t4\n")
    script.check(' ')
    script.run(' ', 0, 5, [3], ran('stopped', number=43, place=2, steps=5), [3, 3])
    script.show(' ', written(parse(KEYWORDS)))
    every = [spelling(w) for w in sorted(WORDS)]
    blocks = [(n, [jump(to)]) for n, to in zip(['entry'] + every, every)] + [(every[-1], [LEAVE])]
    whole(script, 'every word in quotes', [Function("'function'", registers=[('int8', n) for n in every], blocks=blocks)])


def head(name):
    """A text of one function, so called."""
    return b'function void ' + name.encode('latin-1') + b'(){block entry{leave;}}'


def lengths(script):
    """"The 64 bytes are counted on the contents." """
    for n in (1, NAME - 1, NAME, NAME + 1):
        for what, inside in (('letters', 'a' * n), ('blanks', ' ' * n), ('quotes', "\\'" * n), ('a quote last', 'a' * (n - 1) + "\\'"),
                             ('backslashes before a letter', '\\' * (n - 1) + 'a'), ('backslashes before a quote', '\\' * n + "'")):
            t = head(f"'{inside}'")
            script.read(f'{n} bytes in quotes, {what} ', t, {} if NAME < n else cells(dump(parse(t))), (2, 14) if NAME < n else None)
    script.read('130 bytes of text for 64 ', head("'" + "\\'" * NAME + "'"), cells(dump([Function("'" + "\\'" * NAME + "'", blocks=NONE.blocks)])))


# "Any byte but a bare quote may stand inside; a backslash directly before a quote makes that quote part of the name"
NO_NAMES = ["''", "'", "'\\'", "'\\\\'", "'\\\\\\'", "'a\\'", "'" + '\\' * 65 + "'"]
CONTENTS = ["'", "''", "'''", "\\'", "\\\\'", "\\x", "\\\\x", "'x'", "x'", "'x", '9', '0x1', '-1', ' ', '/', '//', '{', '\n', '\t', '\0', '\xff', '"', 'a b', 'a\\ b', 'jump.cond', 'jump.', 'x\\y',
            "'" * 64, '\\' * 63 + "'", 'a' * 64]


def quotes(script):
    for name in NO_NAMES:
        script.read(f'{name} is no name ', head(name), {}, (2, 14))
    t = head("'\\'(){}'")
    script.read('a name that goes on past its escaped quote ', t, cells(dump([Function("'\\'(){}'", blocks=NONE.blocks)])))
    for i, c in enumerate(CONTENTS):
        n = spelling(c)
        f = Function(n, 'uint', [('uint', n)], [('uint', 'r')], [(n, [Row('return', None, (n,))]), ('entry', [Row('copy', 'r', (n,)), jump(n)])])
        whole(script, f'contents {i}', [f])
        script.list(f.text().encode('latin-1'), n.encode('latin-1') + b'\t0\t2\t2\t3\n')


# Each declared twice, where the second has the other spelling; then a use that is nearly what was declared.
TWICE = [('a function', b'function void %s(){block entry{leave;}}function void %s'), ('a parameter', b'function void f(int8 %s,uint8 %s'),
         ('a register', b'function void f(){register int8 %s;register uint8 %s'), ('a parameter and a register', b'function void f(int8 %s){register uint8 %s'),
         ('a block', b'function void f(){block entry{leave;}block %s{leave;}block %s')]
NEARLY = ["'\\x'", "' x'", "'x '", "X", "'xx'", "'\\''", "'\\'x\\''", "'x\\''"]


def mentions(script):
    """"Answers 2, 6, 7 and 9 go by the contents." """
    for what, t in TWICE:
        for one, other in ((b'x', b"'x'"), (b"'x'", b'x'), (b"'x'", b"'x'")):
            refused = t % (one, other)
            script.read(f'{what} twice ', refused, {}, (6, len(refused) - len(other)))
    for name in NEARLY:
        n = name.encode()
        t = b'function void f(uint x){block entry{x=copy '
        script.read(f'{name} for x ', t + n, {}, (7, len(t)))
        t = b'function void f(){block entry{jump('
        script.read(f'block {name} for x ', t + n + b');}block x{leave;}}', {}, (7, len(t)))
    t = b"function void f(){block entry{jump('entry');}}"
    script.read("block 'entry' for entry ", t, {}, (7, t.index(b"'")))
    t = b"function void f(){block 'entry'{leave;}}"
    script.read("block 'entry' alone ", t, {}, (8, len(t) - 1))


UNSPELLED = [b'\\', b'a\\', b"'\\", b'\\\\', b'\\' * 64, b'a' * 63 + b'\\', b'a' * 65, b'\\' * 255]


def stored(script):
    """9: "a name no text can spell". Here of a function, a register and a block; past 64 bytes the cells are others'."""
    read(script, 'turn', [TURN])
    a, table = function_at(0), needed(dump([TURN]))
    for at, what in ((a + NAME_OFFSET, 'function'), (register_at(a, 0) + 1, 'register'), (block_at(a, 1) + 4, 'block')):
        for i, name in enumerate(UNSPELLED):
            with_cells(script, table, f'{what} by no name {i}', {at: len(name), **{at + 1 + j: c for j, c in enumerate(name[:NAME])}}, (9, 0))
        for i, name in enumerate(CONTENTS):
            with_cells(script, table, f'{what} by contents {i}', {at: len(name), **{at + 1 + j: ord(c) for j, c in enumerate(name)}}, None)
    script.check(' as read ')


def names():
    script = Script()
    for part in (spelled, lengths, quotes, mentions, stored):
        part(script)
    return script
