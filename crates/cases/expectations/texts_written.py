"""Tables written as text, by document 02's A1: the forms of its lines, numbers, made names, buffers, refusals, and the limit of a text."""
from dataclasses import replace

from .layout import TABLE, function_at
from .papers import TURN, jump
from .programs import Function, Row, dump, text, translation
from .runs import LEAVE, NONE
from .script import PAGE, TEXT, Script
from .tables import cells, gaps
from .translations import phi_function
from .writing import named, written

TURN_WRITTEN = b'''function ssa uint64 turn ( uint64 a , uint64 b , uint8 n ) {
register uint64 x ;
register uint64 y ;
register uint8 k ;
register uint8 one ;
register uint8 z ;
register uint8 m ;
register uint c ;
block entry {
one = load.ui8 ( 1 ) ;
z = load.ui8 ( 0 ) ;
jump ( head ) ;
}
block head {
x = phi ( a , y ) ;
y = phi ( b , x ) ;
k = phi ( n , m ) ;
c = cmp.eq k , z ;
jump.cond c ( out , body ) ;
}
block body {
m = ari.sub k , one ;
jump ( head ) ;
}
block out {
return x ;
}
}
'''


def spelled(f):
    """The function with a name wherever it has none, so that a text can hold it."""
    registers = {n: f'_{i}' if n[0] == ' ' else n for i, (_, n) in enumerate(f.params + f.registers)}
    blocks = {n: f'_{i}' if n[0] == ' ' else n for i, (n, _) in enumerate(f.blocks)}

    def row(r):
        operand = [(registers if r.op == 'phi' else blocks)[n] for n in r.operand] if isinstance(r.operand, list) else r.operand
        return Row(r.op, r.target and registers[r.target], tuple(registers[s] for s in r.sources), operand)

    declared = lambda pairs: [(t, registers[n]) for t, n in pairs]
    return replace(f, params=declared(f.params), registers=declared(f.registers), blocks=[(blocks[n], [row(r) for r in rows]) for n, rows in f.blocks])


def put_changed(script, old, new):
    """Cells of one table turned into those of another."""
    changed = sorted(k for k in old.keys() | new.keys() if old.get(k, 0) != new.get(k, 0))
    if changed:
        script.put([(k, new.get(k, 0)) for k in changed])


def lend(script, label, functions):
    """A table of these functions: a text is read, and the names that are none are taken away."""
    source = [spelled(f) for f in functions]
    script.read(label + ': ', text(source), cells(dump(source)))
    put_changed(script, cells(dump(source)), cells(dump(functions)))


def back(script, functions):
    """"Read back, the text gives the same table, cells not needed 0, with the made names filled in"; and that is written as the same text."""
    t = written(functions)
    script.read(' back ', t, cells(dump([named(f) for f in functions])))
    script.show(' again ', t, lent=len(t))


def whole(script, label, functions):
    """Written into buffers of some lengths, with anything in the cells that are not needed, and read back."""
    t = written(functions)
    lend(script, label, functions)
    script.show(' ', t)
    script.show(' no byte past it ', t, lent=len(t))
    script.show(' one byte short ', t, refused=(32, 0), lent=len(t) - 1)
    script.fill('', gaps(dump(functions)), len(t))
    script.show(' with cells that are not needed ', t, lent=len(t) + 1)
    back(script, functions)


def turn(script):
    assert written([TURN]) == TURN_WRITTEN
    whole(script, 'turn', [TURN])
    for n in (0, 1, 63, len(TURN_WRITTEN) - 2):
        script.show(f' {n} bytes lent ', b'', refused=(32, 0), lent=n)
    script.show(' more bytes lent than a text has ', TURN_WRITTEN, lent=PAGE)
    script.translate(' translated ', 0, cells(dump([translation(TURN)])))
    t = written([translation(TURN)])
    script.show(' ', t, translated=True)
    script.show(' no byte past it ', t, lent=len(t), translated=True)
    script.show(' one byte short ', t, refused=(32, 0), lent=len(t) - 1, translated=True)
    back(script, [translation(TURN)])


def nothing(script):
    script.read('no functions: ', b'', {})
    for n in (0, 1, TEXT):
        script.show(f' {n} bytes lent ', b'', lent=n)
    for n in (0, 1, TABLE - 1, TABLE + 1):
        script.show(f' a table of {n} cells ', b'', refused=(9, 0), source=n)
        script.show(f' a table of {n} cells, no byte lent ', b'', refused=(9, 0), source=n, lent=0)


BINARY = 'ari.add ari.sub ari.mul ari.div ari.rem bit.and bit.or bit.xor'.split()
UNARY = 'ari.neg bit.neg copy conv'.split()
SHIFTS = 'shl shr rol ror'.split()
COMPARES = 'cmp.eq cmp.neq cmp.gt cmp.lt cmp.gteq cmp.lteq'.split()
TYPES = 'int8 int16 int32 int64 uint8 uint16 uint32 uint64 int uint'.split()


def forms(script):
    """Every instruction and every type; the words in order of the paper."""
    f = Function('forms', 'void', [(t, f'a_{t}') for t in TYPES], [('int16', 'x'), ('uint', 'c')], [
        ('entry', [Row('nop')] + [Row(op, 'x', ('x', 'a_int16')) for op in BINARY] + [Row(op, 'x', ('a_int16',)) for op in UNARY]
         + [Row(op, 'x', ('x', 'a_uint')) for op in SHIFTS] + [Row(op, 'c', ('a_int8', 'a_int8')) for op in COMPARES]
         + [Row('jump.cond', None, ('c',), ['last', 'entry'])]),
        ('middle', [jump('middle')]), ('last', [LEAVE])])
    functions = [f] + [Function(f'of_{t}', t, [(t, 'a')], [], [('entry', [Row('return', None, ('a',))])], ssa=bool(i % 2))
                       for i, t in enumerate(TYPES)]
    whole(script, 'every instruction and type', functions)


def numbers(script):
    """"Shortest decimal numbers", by meaning: the least and the greatest of each load, and where the digits grow."""
    rows, registers = [], []
    for w in (8, 16, 32, 64):
        registers += [(f'int{w}', f's{w}'), (f'uint{w}', f'u{w}')]
        signed = [-2**(w - 1), 1 - 2**(w - 1), -100, -99, -10, -9, -1, 0, 2**(w - 1) - 1]
        unsigned = [0, 9, 10, 99, 100, 2**(w - 1), 2**w - 1] + [n for k in range(3, 20) for n in (10**k - 1, 10**k) if n < 2**w]
        rows += [Row(f'load.i{w}', f's{w}', operand=n) for n in signed] + [Row(f'load.ui{w}', f'u{w}', operand=n) for n in unsigned]
    whole(script, 'numbers', [Function('numbers', registers=registers, blocks=[('entry', rows + [LEAVE])])])


def clash(registers, blocks, params=2, assigned=None):
    """A function of registers and blocks so called, those registers assigned or all."""
    declared = [('uint', n) for n in registers]
    rows = [Row('copy', n, (registers[0],)) for n in assigned or registers]
    return Function('f', 'uint', declared[:params], declared[params:],
                    [(n, (rows if n == 'entry' else []) + [Row('jump.cond', None, (registers[-1],), [n, blocks[-1]])]) for n in blocks])


# "With the smallest decimal numbers not in use by that kind in the function"
CLASHES = [('no names', [' 1', ' 2', ' 3'], [' 1', 'entry', ' 2']),
           ('names in use', ['p.1', ' 1', 'p.0', ' 2', 'p.4', ' 3', ' 4'], ['e.2', ' 1', 'entry', 'e.0', ' 2', ' 3']),
           ('names in use, the last first', [' 1', ' 2', ' 3', 'p.2', 'p.1', 'p.0'], [' 1', ' 2', 'entry', 'e.1', 'e.0']),
           ('names that only look so', ['p.00', ' 1', 'p.', ' 2', 'p.01', "' p.0'", 'P.0', 'p_0', 'p.0x', 'p.1.', ' 3', 'p.18446744073709551616'],
            ['e.00', ' 1', "'e.0 '", 'entry', 'e.', ' 2', 'e.0_']),
           ('names of the other kind', ['e.0', ' 1', 'e.1', ' 2'], ['p.0', ' 1', 'entry', 'p.1', ' 2']),
           ('past ten', [f'p.{n}' for n in range(9)] + [' 1', ' 2'], [f'e.{n}' for n in range(9)] + [' 1', 'entry', ' 2']),
           ('past a hundred', [f'p.{n}' for n in range(99, -1, -1)] + [' 1', 'p.101', ' 2'], ['entry', ' 1']),
           ('names with anything in them', ["'\\''", " 1", "'p.0\n'", "'{ }\t//'", "'\x00\xff'", "'\\\\'a'"], ["' '", 'entry', ' 1', "'block'"])]


def clashes(script):
    for label, registers, blocks in CLASHES:
        whole(script, label, [clash(registers, blocks)])
    whole(script, 'each function by itself', [clash(['p.0', ' 1'], ['e.0', 'entry', ' 1']), replace(clash([' 1', ' 2'], [' 1', 'entry']), name='g')])
    unnamed = [f' {n}' for n in range(256)]
    whole(script, '256 registers and 64 blocks without a name', [clash(unnamed, unnamed[:63] + ['entry'], 3, unnamed[::50])])
    f = phi_function(3, more=2, before=2)
    names = {'a': 'p.1', 'm0': 'p.0', 'b0': 'e.1'}
    f = replace(f, params=[(t, names.get(n, n)) for t, n in f.params], registers=[(t, names.get(n, n)) for t, n in f.registers],
                blocks=[(names.get(n, n), [replace(r, operand=[names.get(o, o) for o in r.operand]) if r.operand else r for r in rows])
                        for n, rows in f.blocks])
    script.read('a translation past names in use: ', text([f]), cells(dump([f])))
    script.translate(' ', 0, cells(dump([translation(f)])))
    script.show(' ', written([translation(f)]), translated=True)
    back(script, [translation(f)])


def changed(block, k, row):
    """`turn` with one row of a block changed."""
    return replace(TURN, blocks=[(n, rows[:k] + [row] + rows[k + 1:] if n == block else rows) for n, rows in TURN.blocks])


def moved(block, order):
    return replace(TURN, blocks=[(n, [rows[k] for k in order] if n == block else rows) for n, rows in TURN.blocks])


# A function that each number of the check refuses, at a row.
REFUSED = [(10, 10, changed('out', 0, Row('nop'))), (11, 10, replace(TURN, result='uint8')),
           (12, 1, changed('entry', 1, Row('load.ui8', 'one', operand=0))), (13, 8, changed('body', 0, Row('copy', 'm', ('k',)))),
           (14, 6, moved('head', (0, 1, 3, 2, 4))), (15, 3, changed('head', 0, Row('phi', 'x', operand=['a']))),
           (16, 8, changed('entry', 0, Row('nop'))), (17, 8, changed('body', 0, Row('ari.sub', 'm', ('k', 'm'))))]


def refusals(script):
    """"The table is checked first, as for running." """
    for number, row, f in REFUSED:
        script.read(f'{number} in the second function: ', text([NONE, f]), cells(dump([NONE, f])))
        script.check(' ', (number, 2048 + row))
        script.show(' ', b'', (number, 2048 + row))
        script.show(' no byte lent ', b'', (number, 2048 + row), lent=0)
    script.read('9 in the second function: ', text([NONE, TURN]), cells(dump([NONE, TURN])))
    script.put([(function_at(1), 2)])
    script.show(' ', b'', (9, 1))
    script.show(' no byte lent ', b'', (9, 1), lent=0)


def texts_written():
    script = Script()
    for part in (turn, nothing, forms, numbers, clashes, refusals):
        part(script)
    return script


LONG = 'long' * 16  # 64 bytes


def long_function(name, rows, nops):
    f = Function(name, registers=[('int8', LONG)], blocks=[('entry', [Row('ari.add', LONG, (LONG, LONG))] * rows + [Row('nop')] * nops + [LEAVE])])
    short = replace(f, registers=[('int8', 'a')], blocks=[('entry', [Row('ari.add', 'a', ('a', 'a'))] * rows + [Row('nop')] * nops + [LEAVE])])
    return f, short


def exactly(length):
    """A function whose text has so many bytes, by its `nop ;` lines and one to six bytes of name."""
    nops, name = divmod(length - 1 - len(written([long_function('', 300, 0)[0]])), len('nop ;\n'))
    return long_function('n' * (name + 1), 300, nops)


def long_cells(script, label, pair):
    """The function read with short names, and given its long ones."""
    f, short = pair
    script.read(label + ': ', text([short]), cells(dump([short])))
    put_changed(script, cells(dump([short])), cells(dump([f])))
    return written([f])


def limits_written():
    """"33 if the text exceeds 65,536 bytes, then 32 exactly if it exceeds the buffer" """
    script = Script()
    t = long_cells(script, f'text of {TEXT} bytes', exactly(TEXT))
    assert len(t) == TEXT
    script.show(' ', t)
    script.show(' one byte short ', b'', (32, 0), lent=TEXT - 1)
    script.show(' no byte lent ', b'', (32, 0), lent=0)
    script.show(' more bytes lent ', t, lent=PAGE)
    script.read(' back ', t, cells(dump([exactly(TEXT)[0]])))
    for label, pair in ((f'text of {TEXT + 1} bytes', exactly(TEXT + 1)), ('1,024 rows', long_function('f', 1023, 0))):
        assert TEXT < len(long_cells(script, label, pair))
        for n in (0, TEXT - 1, TEXT, PAGE):
            script.show(f' {n} bytes lent ', b'', (33, 0), lent=n)
    script.put([(1, 2)])
    script.show(' and marked 2 ', b'', (9, 0))
    return script
