"""Runs made by document 01: 20, 21 and 22 with their order, budgets, and anything in the cells that are not needed."""
from .layout import TABLE
from .papers import TURN, TURNS, jump, one_instruction, turn_registers
from .programs import Function, Row, dump, text, translation
from .script import CELLS, Script, ran
from .tables import cells, gaps

LAST = 2**64 - 1
LEAVE = Row('leave')
TYPES = [('int8', 8), ('int16', 16), ('int32', 32), ('uint8', 8), ('uint16', 16), ('uint32', 32), ('int64', 64), ('uint64', 64), ('int', 64),
         ('uint', 64)]
NONE = Function('none', blocks=[('entry', [LEAVE])])


def refused(number, place=0):
    return ran('refused', number=number, place=place)


def read(script, label, functions):
    script.read(label + ': ', text(functions), cells(dump(functions)))


def arguments(script):
    """20: "argument count wrong, tested first, or one not below 2^w", placed at "count given; first such argument from 0"."""
    f = Function('f', params=[(t, f'a{i}') for i, (t, _) in enumerate(TYPES)], blocks=[('entry', [LEAVE])])
    read(script, 'a parameter of each type', [f])
    most = [2**w - 1 for _, w in TYPES]
    past = [2**w if w < 64 else 2**w - 1 for _, w in TYPES]
    script.run(' each at its most ', 0, 9, most, ran('left', steps=1), most)
    for i in range(6):
        script.run(f' argument {i} one past ', 0, 9, most[:i] + past[i:i + 1] + most[i + 1:], refused(20, i), [])
        script.run(f' arguments {i} to 5 one past ', 0, 9, most[:i] + past[i:], refused(20, i), [])
    for n in (0, 1, 9, 11, 256):
        script.run(f' {n} arguments ', 0, 9, [0] * n, refused(20, n), [])
    script.run(' 9 arguments, one past ', 0, 9, past[:9], refused(20, 9), [])
    buffers(script, most, past)


def buffers(script, most, past):
    """22: "register buffer too short"; "then 21; running then 20, 22"."""
    for n in (0, 1, 9):
        script.run(f' buffer of {n} ', 0, 9, most, refused(22), [], lent=n)
    for n in (10, 11, CELLS):
        script.run(f' buffer of {n} ', 0, 9, most, ran('left', steps=1), most, lent=n)
    script.run(' 22, and 20 by the count ', 0, 9, most[:9], refused(20, 9), [], lent=9)
    script.run(' 22, and 20 by an argument ', 0, 9, past, refused(20, 0), [], lent=9)
    for i in (1, 15, 16, 2**32, 2**63, LAST):
        script.run(f' function {i} ', i, 9, most, refused(21), [])
    script.run(' 21, and 20 ', 1, 9, past[:9], refused(21), [])
    script.run(' 21, and 22 ', 1, 9, most, refused(21), [], lent=9)
    script.run(' 21, 20 and 22 ', LAST, 9, [], refused(21), [], lent=0)
    script.run(' a table one short, 21, 20 and 22 ', 1, 9, [], refused(9), [], lent=0, source=TABLE - 1)
    script.run(' a table one long ', 0, 9, most, refused(9), [], source=TABLE + 1)
    script.run(' no table ', 0, 9, most, refused(9), [], source=0)


def small(script):
    """Few functions, many, and one that breaks a rule beside the one that is run."""
    read(script, 'no functions', [])
    script.run(' ', 0, 9, [], refused(21), [])
    read(script, 'no registers', [NONE])
    for n in (0, 1, CELLS):
        script.run(f' buffer of {n} ', 0, 9, [], ran('left', steps=1), [], lent=n)
    script.run(' one argument ', 0, 9, [0], refused(20, 1), [])
    divide = one_instruction('int8', 'ari.div', 'int8', 'int8')
    many = [Function(f'f{i}', divide.result, divide.params, divide.registers, divide.blocks) for i in range(16)]
    read(script, '16 functions', many)
    for i in range(16):
        # "a row as a place is 2,048 times the function's number plus the row"
        script.run(f' function {i} ', i, 9, [9, 0], ran('stopped', number=40, place=2048 * i, steps=1), [9, 0, 0])
        script.run(f' function {i} ', i, 1, [9, 2], ran('stopped', number=43, place=2048 * i + 1, steps=1), [9, 2, 4])
    script.run(' function 16 ', 16, 9, [9, 2], refused(21), [])
    open_block = Function('g', blocks=[('entry', [Row('nop'), Row('nop')])])
    read(script, 'a block without terminator in the second function', [NONE, open_block])
    script.run(' the first function ', 0, 9, [], refused(10, 2049), [])
    script.run(' 21, 20 and 22 ', 2, 9, [0], refused(10, 2049), [], lent=0)


def budgets(script):
    """"Budget 0 means answer 43 after 0 steps; a run that needs exactly its budget ends normally." """
    f = Function('f', params=[('int8', 'a')], registers=[('int8', 'r')],
                 blocks=[('late', [LEAVE]), ('entry', [Row('copy', 'r', ('a',)), jump('late')])])
    read(script, 'entry is the second block', [f])
    for budget, place, r in ((0, 1, 0), (1, 2, 5), (2, 0, 5)):
        script.run(f' budget {budget} ', 0, budget, [5], ran('stopped', number=43, place=place, steps=budget), [5, r])
    for budget in (3, 4, 2**32, 2**63, LAST):
        script.run(f' budget {budget} ', 0, budget, [5], ran('left', steps=3), [5, 5])
    endless = Function('f', blocks=[('entry', [Row('nop'), jump('entry')])])
    read(script, 'a run without end', [endless])
    for budget in (1, 2, 99999, 100000):
        script.run(f' budget {budget} ', 0, budget, [], ran('stopped', number=43, place=budget % 2, steps=budget), [])
    turn_budgets(script)


def turn_budgets(script):
    """turn(7,9,0) for each budget up to its 9 steps: the next row, and the registers. "All phi of a block read before any writes"."""
    read(script, 'turn(7,9,0)', [TURN])
    rows = [0, 1, 2, 3, 4, 5, 6, 7, 10]
    for budget, row in enumerate(rows):
        x, y = (7, 9) if 6 <= budget else (0, 0)
        registers = [7, 9, 0, x, y, 0, int(1 <= budget), 0, 0, int(7 <= budget)]
        script.run(f' budget {budget} ', 0, budget, [7, 9, 0], ran('stopped', number=43, place=row, steps=budget), registers)
    for budget in (9, 10, LAST):
        script.run(f' budget {budget} ', 0, budget, [7, 9, 0], ran('returned', 7, steps=9), [7, 9, 0, 7, 9, 0, 1, 0, 0, 1])


def ignored(script):
    """"cells not needed are .. ignored in an input" """
    for seed in (1, 2, 3):
        script.read(f'turn, sequence {seed}: ', text([TURN]), cells(dump([TURN])))
        script.fill('', gaps(dump([TURN])), seed)
        script.check(' ')
        script.translate(' ', 0, cells(dump([translation(TURN)])))
        for _, n, value, steps, translated, xy in TURNS:
            registers = turn_registers(n, xy)
            script.run(' ', 0, 99, [7, 9, n], ran('returned', value, steps=steps), registers)
            script.run(' ', 0, 99, [7, 9, n], ran('returned', value, steps=translated), registers + [*xy, 0], translated=True)
        script.run(' ', 1, 99, [7, 9, 0], refused(21), [])


def runs():
    script = Script()
    arguments(script)
    small(script)
    budgets(script)
    ignored(script)
    return script
