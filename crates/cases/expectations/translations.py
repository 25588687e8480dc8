"""Translations made by document 01: 21, 30, 31 and 22 with their order, each size of 31 at its limit and one past."""
from .layout import TABLE
from .papers import TURN, jump
from .programs import Function, Row, dump, translation
from .runs import LAST, LEAVE, NONE, read
from .script import Script, ran
from .tables import cells

PLAIN = Function('plain', params=[('int8', 'a')], blocks=[('entry', [LEAVE])])
REFUSED = {9: (9, 0), 10: (10, 2048), 21: (21, 0), 22: (22, 0), 30: (30, 0), 31: (31, 0)}


def refuse(script, label, number, function=0, **lent):
    script.translate(f' {label} ', function, {}, REFUSED[number], **lent)


def outputs(script):
    """"22: .. table output of another length"; "translating then 30, 31, 22"."""
    read(script, 'a plain function and turn', [PLAIN, TURN])
    right = cells(dump([translation(TURN)]))
    script.translate(' turn ', 1, right)
    script.run(' turn(7,9,1) translated ', 0, 99, [7, 9, 1], ran('returned', 9, steps=24), [7, 9, 1, 9, 7, 0, 1, 0, 0, 1, 9, 7, 0], translated=True)
    for n in (0, 1, TABLE - 1, TABLE + 1):
        refuse(script, f'turn, output of {n}', 22, 1, lent=n)
        refuse(script, f'the plain function, output of {n}', 30, lent=n)
        refuse(script, f'no function, output of {n}', 21, 2, lent=n)
    refuse(script, 'the plain function', 30)
    for i in (2, 15, 16, 2**32, 2**63, LAST):
        refuse(script, f'function {i}', 21, i)
    refuse(script, 'a table one short, and turn', 9, 1, source=TABLE - 1)
    refuse(script, 'a table one short, 21 and 22', 9, 2, source=TABLE - 1, lent=0)
    refuse(script, 'a table one long', 9, 1, source=TABLE + 1)
    refuse(script, 'no table', 9, source=0)


def broken(script):
    """"check all of the table (9 to 17), then 21" """
    read(script, 'a block without terminator in the second function', [TURN, Function('g', blocks=[('entry', [Row('nop')])])])
    refuse(script, 'turn', 10)
    refuse(script, '30', 10, 1)
    refuse(script, '21 and 22', 10, 2, lent=0)
    read(script, 'no functions', [])
    refuse(script, 'function 0', 21)


def phi_function(phis, more=0, nops=0, before=0, after=0):
    """Entry goes to `head`, with so many phi; more registers, rows, blocks that go to `head` and blocks that go nowhere are added."""
    names = [f'x{i}' for i in range(phis)]
    registers = [('int8', n) for n in names] + [('int8', f'm{i}') for i in range(more)]
    blocks = [('entry', [Row('nop')] * nops + [jump('head')]),
              ('head', [Row('phi', n, operand=['a'] * (1 + before)) for n in names] + [LEAVE])]
    blocks += [(f'b{i}', [jump('head')]) for i in range(before)] + [(f'c{i}', [LEAVE]) for i in range(after)]
    return Function('f', params=[('int8', 'a')], registers=registers, blocks=blocks, ssa=True)


# "R + P registers, B + E blocks, and the old instructions less P, plus 2p + 1 for each pair": at its limit, and one past.
SIZES = [('256 registers', phi_function(10, more=235), None), ('257 registers', phi_function(10, more=236), 31),
         ('256 registers by phi', phi_function(127, more=1), None), ('257 registers by phi', phi_function(128), 31),
         ('64 blocks', phi_function(2, before=30, after=1), None), ('65 blocks', phi_function(2, before=30, after=2), 31),
         ('65 blocks by a pair', phi_function(2, before=31), 31),
         ('1024 instructions', phi_function(10, nops=1001), None), ('1025 instructions', phi_function(10, nops=1002), 31),
         ('256 registers, 64 blocks, 1023 instructions', phi_function(14, more=227, nops=41, before=30, after=1), None),
         ('all three past', phi_function(20, more=230, before=40), 31)]


def sizes(script):
    """"Answer 31 exactly if one is over its limit.", and before 22."""
    for label, f, past in SIZES:
        read(script, label, [f])
        phis, nops = sum(r.op == 'phi' for r in f.blocks[1][1]), len(f.blocks[0][1]) - 1
        if past:
            assert max(a - b for a, b in zip(translation(f).sizes(), (256, 64, 1024))) >= 1
            refuse(script, '', 31)
            refuse(script, 'output one short', 31, lent=TABLE - 1)
            refuse(script, 'no output', 31, lent=0)
            refuse(script, '21, and no output', 21, 1, lent=0)
        else:
            assert all(a <= b for a, b in zip(translation(f).sizes(), (256, 64, 1024)))
            refuse(script, 'output one short', 22, lent=TABLE - 1)
            script.translate(' ', 0, cells(dump([translation(f)])))
            registers = [7] + [7] * phis + [0] * (len(f.registers) - phis)
            script.run(' ', 0, 9999, [7], ran('left', steps=nops + phis + 2), registers)
            # "n + f + e, f being the phi among those n steps, e the terminators among them that go to a block with phi"
            script.run(' ', 0, 9999, [7], ran('left', steps=nops + phis + 2 + phis + 1), registers + [7] * phis, translated=True)


def shapes(script):
    """A function with no phi, one whose `jump.cond` names the phi block twice, and a phi block that is its own predecessor."""
    none = Function('none', blocks=NONE.blocks, ssa=True)
    read(script, 'no phi', [none])
    script.translate(' ', 0, cells(dump([translation(none)])))
    script.run(' ', 0, 1, [], ran('left', steps=1), [], translated=True)
    twice = Function('f', 'uint', [('uint', 'a')], [('uint', 'x')],
                     [('entry', [Row('jump.cond', None, ('a',), ['head', 'head'])]),
                      ('head', [Row('phi', 'x', operand=['a']), Row('return', None, ('x',))])], ssa=True)
    read(script, 'the phi block named twice', [twice])
    script.translate(' ', 0, cells(dump([translation(twice)])))
    for a in (0, 5):
        script.run(' ', 0, 9, [a], ran('returned', a, steps=3), [a, a])
        script.run(' ', 0, 9, [a], ran('returned', a, steps=5), [a, a, a], translated=True)
    itself = Function('f', 'uint', [('uint', 'a'), ('uint', 'b')], [('uint', 'x'), ('uint', 'y')],
                      [('entry', [jump('head')]),
                       ('head', [Row('phi', 'x', operand=['a', 'y']), Row('phi', 'y', operand=['b', 'x']),
                                 Row('jump.cond', None, ('x',), ['head', 'out'])]),
                       ('out', [Row('return', None, ('y',))])], ssa=True)
    read(script, 'a phi block that is its own predecessor', [itself])
    script.translate(' ', 0, cells(dump([translation(itself)])))
    # x, y are 5, 0, then 0, 5: two rounds of two phi and a terminator, a `jump` before, a `return` after.
    script.run(' ', 0, 99, [5, 0], ran('returned', 5, steps=8), [5, 0, 0, 5])
    script.run(' ', 0, 99, [5, 0], ran('returned', 5, steps=8 + 4 + 2), [5, 0, 0, 5, 0, 5], translated=True)


def translations():
    script = Script()
    outputs(script)
    broken(script)
    shapes(script)
    return script


def translated_sizes():
    script = Script()
    sizes(script)
    return script
