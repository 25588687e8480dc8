"""Texts made by document 01 for what reading keeps of a text: blocks mentioned before they are resolved, names that are nearly the same, lines of comments, and what a
text ends with; and texts that are judged for no table."""
from .layout import TABLE
from .papers import TURN, jump
from .programs import Function, Row, dump, text
from .runs import LEAVE
from .tables import cells


def small(i):
    return Function(f'f{i}', blocks=[('entry', [LEAVE])])


def read(script, label, functions, lent=TABLE):
    script.read(label + ' ', text(functions), cells(dump(functions)) if lent == TABLE else {}, None if lent == TABLE else (22, 0), lent)


def refused(script, label, functions, number, word, lent=TABLE, last=False):
    """Refused at the first place of this word, or at its last."""
    t = text(functions)
    script.read(label + ' ', t, {}, (number, (t.rindex if last else t.index)(word.encode())), lent)


def mentioning(count, missing=(), entry='entry'):
    """The first block mentions itself, then b1, b2 and so on, of which some are not declared: so many names."""
    names = [f'b{i}' for i in range(1, count)]
    return Function('f', blocks=[(entry, [jump(n) for n in [entry] + names])] + [(n, [LEAVE]) for n in names if n not in missing])


def mentions(script):
    """"Block names are resolved at the function's closing brace: 8, then 7 with the first undeclared mention." """
    read(script, '64 names of blocks, all declared', [mentioning(64)])
    for count, missing in ((63, ['b62']), (64, ['b63']), (65, ['b64']), (65, ['b1']), (66, ['b64', 'b65']), (66, ['b2', 'b65']), (70, [f'b{i}' for i in range(64, 70)])):
        label = f'{count} names of blocks, {missing[0]} the first not declared'
        refused(script, label, [mentioning(count, missing)], 7, f'{missing[0]})')
    refused(script, '66 names of blocks, and no entry block', [mentioning(66, ['b1', 'b2', 'b3'], 'b')], 8, '}', last=True)
    refused(script, '66 names of blocks, all declared', [mentioning(66)], 5, 'block b64')


ENDS = [start + 'the_same' for start in ('', 'a', 'b', 'ab', 'ba', 'a' * 8, 'a' * 9, 'a' * 55, 'a' * 56, 'b' + 'a' * 55, 'a' * 55 + 'b')]
SHORT = ['x' * n for n in range(1, 10)] + ['y' + 'x' * n for n in range(1, 9)] + ['x' * n + 'y' for n in range(1, 9)]


def naming(names, used):
    """Parameters of these names, and a row that names each of those used."""
    return Function('f', params=[('int8', n) for n in names], blocks=[('entry', [Row('copy', n, (n,)) for n in used] + [LEAVE])])


def alike(script):
    """"7: name not declared", "6: .. declared twice" """
    read(script, 'names of the same last eight bytes', [naming(ENDS, reversed(ENDS))])
    read(script, 'names of 1 to 9 bytes', [naming(SHORT, SHORT)])
    for name in ('c' + 'the_same', 'a' * 7 + 'the_same', 'a' * 54 + 'the_same', 'c' + 'a' * 55 + 'the_same', 'x' * 10, 'xyx'):
        refused(script, f'{name} not declared', [naming(ENDS + SHORT, [name])], 7, name + '=')
    for name in ('x', 'x' * 8, 'the_same', 'a' * 56 + 'the_same'):
        refused(script, f'{name} twice', [naming(ENDS + SHORT + [name], [])], 6, name + ')')


def comments(script):
    """"`//` starts a comment up to LF or the end" """
    words = text([TURN]).decode().replace(' ', '\t ').replace(',', ' , ').replace('(', ' ( ').replace(';', ' ; ').split(' ')
    laid = ''.join(f'{word}//{"c" * (i % 21)}\n' for i, word in enumerate(words))
    script.read('turn with comments of 0 to 20 bytes ', laid.encode(), cells(dump([TURN])))
    for n in range(9):
        script.read(f'no token after // and {n} bytes ', b'//' + b'c' * n + b'\n?', {}, (2, n + 3))
        script.read(f'no more than // and {n} bytes ', b'//' + b'?' * n, {})


def ends(script):
    """"3: token not allowed here, end included" """
    for t, number, place in ((b'function', 3, 8), (b'functio', 3, 0), (b'function void f', 3, 15), (b"function void 'f'", 3, 17), (b"function void 'f", 2, 14),
                             (b'function void ' + b'f' * 64, 3, 78), (b'function void ' + b'f' * 65, 2, 14), (b'function void f//', 3, 17), (b'function void f/', 2, 15)):
        script.read(f'{t.decode()} ', t, {}, (number, place))


def judged(script):
    """"reading gives 22 last": 1 to 8 are given for an output of any length."""
    own = Function('g', params=[('int8', 'q')], blocks=[('entry', [jump('b')]), ('b', [LEAVE])])
    for n in (0, TABLE + 1):
        label = f'output of {n}, '
        read(script, label + '16 functions', [small(i) for i in range(16)], n)
        refused(script, label + '17 functions', [small(i) for i in range(17)], 5, 'function', n, last=True)
        for i in (1, 15):
            refused(script, label + f'a name of functions 0 and {i}', [small(j % i) for j in range(i + 1)], 6, 'f0(', n, last=True)
        refused(script, label + 'a register of another function', [own, naming([], ['q'])], 7, 'q=', n)
        refused(script, label + 'a block of another function', [own, Function('f', blocks=[('entry', [jump('b')])])], 7, 'b)', n, last=True)
        refused(script, label + '65 names of blocks', [mentioning(64), Function('g', blocks=mentioning(65, ['b64']).blocks)], 7, 'b64)', n)


def reading(script):
    mentions(script)
    alike(script)
    comments(script)
    ends(script)
    judged(script)
