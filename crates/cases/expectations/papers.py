"""The marked cases P1 to P12 of document 01: run, and `turn` translated and run again."""
from .programs import Function, Row, dump, text, translation
from .script import Script, ran
from .tables import cells


def jump(*names):
    return Row('jump', operand=list(names))


TURN = Function(
    'turn', 'uint64', [('uint64', 'a'), ('uint64', 'b'), ('uint8', 'n')],
    [('uint64', 'x'), ('uint64', 'y'), ('uint8', 'k'), ('uint8', 'one'), ('uint8', 'z'), ('uint8', 'm'), ('uint', 'c')],
    [('entry', [Row('load.ui8', 'one', operand=1), Row('load.ui8', 'z', operand=0), jump('head')]),
     ('head', [Row('phi', 'x', operand=['a', 'y']), Row('phi', 'y', operand=['b', 'x']), Row('phi', 'k', operand=['n', 'm']),
               Row('cmp.eq', 'c', ('k', 'z')), Row('jump.cond', None, ('c',), ['out', 'body'])]),
     ('body', [Row('ari.sub', 'm', ('k', 'one')), jump('head')]),
     ('out', [Row('return', None, ('x',))])], ssa=True)

# As document 01 has it.
TURN_TEXT = b'''function ssa uint64 turn(uint64 a, uint64 b, uint8 n) {
 register uint64 x; register uint64 y; register uint8 k;
 register uint8 one; register uint8 z; register uint8 m; register uint c;
 block entry { one = load.ui8 (1); z = load.ui8 (0); jump (head); }
 block head { x = phi (a, y); y = phi (b, x); k = phi (n, m);
  c = cmp.eq k, z; jump.cond c (out, body); }
 block body { m = ari.sub k, one; jump (head); }
 block out { return x; }
}
'''

# "P1 turn(7,9,0) = 7, 9 steps, translated 13. P2 turn(7,9,1) = 9, 16 steps, translated 24. P3 turn(7,9,2) = 7, 23 steps."; the 35 of P3 are 23,
# 9 phi and 3 ways to `head`. Then x and y at the end; k and m are 0, c is 1.
TURNS = [(1, 0, 7, 9, 13, (7, 9)), (2, 1, 9, 16, 24, (9, 7)), (3, 2, 7, 23, 35, (7, 9))]


def turn_registers(n, xy):
    return [7, 9, n, *xy, 0, 1, 0, 0, 1]


def turns(script):
    assert translation(TURN).sizes() == (13, 6, 22)
    script.read('turn ', TURN_TEXT, cells(dump([TURN])))
    script.list(TURN_TEXT, b'turn\t1\t10\t4\t11\n')
    script.translate('turn ', 0, cells(dump([translation(TURN)])))
    for p, n, value, steps, translated, xy in TURNS:
        registers = turn_registers(n, xy)
        script.run(f'P{p} turn(7,9,{n}) ', 0, 99, [7, 9, n], ran('returned', value, steps=steps), registers)
        script.run(f'P{p} translated ', 0, 99, [7, 9, n], ran('returned', value, steps=translated), registers + [*xy, 0], translated=True)


def one_instruction(result, op, *types):
    names = 'ab'[:len(types)]
    return Function('f', result, list(zip(types, names)), [(result, 'r')], [('entry', [Row(op, 'r', tuple(names)), Row('return', None, ('r',))])])


# Numbers below 2^w: -7 is 249, -128 is 128, -56 is 200 in eight bits.
MARKED = [('P4 int8 100 + 100', 'int8', 'ari.add', ('int8', 'int8'), (100, 100), 256 - 56),
          ('P5 int8 -7 div 2', 'int8', 'ari.div', ('int8', 'int8'), (249, 2), 256 - 3),
          ('P5 int8 -7 rem 2', 'int8', 'ari.rem', ('int8', 'int8'), (249, 2), 256 - 1),
          ('P6 int8 -128 div -1', 'int8', 'ari.div', ('int8', 'int8'), (128, 255), None),
          ('P6 int8 -128 rem -1', 'int8', 'ari.rem', ('int8', 'int8'), (128, 255), 0),
          ('P7 int8 -128 shr 7', 'int8', 'shr', ('int8', 'uint'), (128, 7), 256 - 1),
          ('P8 uint8 3 shl 7', 'uint8', 'shl', ('uint8', 'uint'), (3, 7), 128),
          ('P8 uint8 3 shl 8', 'uint8', 'shl', ('uint8', 'uint'), (3, 8), None),
          ('P9 uint8 0x81 rol 1', 'uint8', 'rol', ('uint8', 'uint'), (0x81, 1), 3),
          ('P10 conv int8 -1 to uint16', 'uint16', 'conv', ('int8',), (255,), 65535),
          ('P11 negated int8 -128', 'int8', 'ari.neg', ('int8',), (128,), 128)]


def instructions(script):
    for label, result, op, types, args, value in MARKED:
        f = one_instruction(result, op, *types)
        script.read(label + ': ', text([f]), cells(dump([f])))
        stop = 42 if op == 'ari.div' else 41
        answer = ran('stopped', number=stop, steps=1) if value is None else ran('returned', value, steps=2)
        script.run(' ', 0, 99, args, answer, [*args, value or 0])


def loads(script):
    """P12: "`load.ui8 (255)` reads, `(256)` is 4", at the number."""
    for n, refused in ((255, None), (256, 4)):
        f = Function('f', 'uint8', [], [('uint8', 'r')], [('entry', [Row('load.ui8', 'r', operand=n), Row('return', None, ('r',))])])
        t = text([f])
        script.read(f'P12 load.ui8 ({n}) ', t, {} if refused else cells(dump([f])), refused and (4, t.index(b'256')))


def papers():
    script = Script()
    turns(script)
    instructions(script)
    loads(script)
    return script
