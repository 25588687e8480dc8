"""The predecessors in the blocks' records, by document 02's A5: "A lent table whose stored list differs is refused with 9; only a block's last row
names blocks there." """
from dataclasses import replace

from .layout import BLOCKS, block_at, function_at, predecessors_at, row_at
from .papers import TURN, jump
from .programs import Function, Row, dump, translation
from .runs import LEAVE, NONE, read, refused
from .script import ran, with_cells
from .tables import INSTRUCTIONS, cells, needed

# `lost` is unreachable, entry names `head` twice, and `head` is its own predecessor.
WEB = Function('web', 'uint', [('uint', 'a')], [('uint', 'x')],
               [('lost', [jump('head')]), ('entry', [Row('jump.cond', None, ('a',), ['head', 'head'])]),
                ('head', [Row('phi', 'x', operand=['a', 'a', 'x']), Row('jump.cond', None, ('x',), ['head', 'out'])]),
                ('out', [Row('return', None, ('x',))])], ssa=True)
LISTS = [[], [], [0, 1, 2], [2]]
# "A block for each pair, by phi block, then predecessor": 4, 5 and 6.
TRANSLATED = [[], [], [4, 5, 6], [2], [0], [1], [2]]
HEAD = 2

# Lists that `head` may have but for the right one.
WRONG = [('none', []), ('the last left out', [0, 1]), ('the first left out', [1, 2]), ('the middle left out', [0, 2]), ('one more', [0, 1, 2, 3]),
         ('one more before', [3, 0, 1, 2]), ('first and second exchanged', [1, 0, 2]), ('backwards', [2, 1, 0]), ('the last twice', [0, 1, 2, 2]),
         ('entry once for each mention', [0, 1, 1, 2]), ('one twice, another left out', [0, 1, 1]), ('another block', [0, 1, 3]),
         ('a number past the blocks', [0, 1, 4]), ('64', [0, 64, 2]), ('255', [255, 1, 2]), ('64 blocks', list(range(BLOCKS)))]


def stored(function, b, numbers):
    """The cells of a block's list."""
    return {predecessors_at(function, b) + i: n for i, n in enumerate([len(numbers), *numbers])}


def all_stored(function, lists):
    return {k: n for b, numbers in enumerate(lists) for k, n in stored(function, b, numbers).items()}


def wrong(script, at, functions):
    """Each wrong list of `web`, that function, is 9 there."""
    a, table = function_at(at), needed(dump(functions))
    for label, numbers in WRONG:
        with_cells(script, table, f'{label}: {numbers}' if len(numbers) < 5 else label, stored(a, HEAD, numbers), (9, at))
    for count in (0, 1, 2, 4, 64, 65, 255):
        with_cells(script, table, f'a count of {count} alone', {predecessors_at(a, HEAD): count}, (9, at))
    for b, numbers in ((0, [0]), (1, [1]), (3, []), (3, [1]), (3, [2, 3])):
        with_cells(script, table, f'{numbers} of block {b}', stored(a, b, numbers), (9, at))
    script.check(' as read ')


def of_web(script):
    table, translated = needed(dump([WEB])), cells(dump([translation(WEB)]))
    # The lists by hand: the cells of the two tables have them so.
    assert all_stored(function_at(0), LISTS).items() <= table.items()
    assert all_stored(function_at(0), TRANSLATED).items() <= needed(dump([translation(WEB)])).items()
    read(script, 'an unreachable predecessor, one that names the block twice, and the block itself', [WEB])
    wrong(script, 0, [WEB])
    script.put(stored(function_at(0), HEAD, [1, 0, 2]).items())
    script.run(' run with another order ', 0, 99, [0], refused(9), [])
    script.translate(' translated with another order ', 0, {}, (9, 0))
    script.show(' written with another order ', b'', (9, 0))
    script.put(table.items())
    # "cells not needed are .. ignored in an input"
    script.put([(predecessors_at(function_at(0), b) + k, 85) for b, numbers in enumerate(LISTS) for k in range(1 + len(numbers), 1 + BLOCKS)])
    script.check(' anything past the count ')
    script.translate(' ', 0, translated)
    script.run(' ', 0, 99, [0], ran('returned', 0, steps=4), [0, 0])
    script.run(' ', 0, 99, [0], ran('returned', 0, steps=6), [0, 0, 0], translated=True)
    read(script, 'the same in the second function', [NONE, WEB])
    wrong(script, 1, [NONE, WEB])


def of_turn(script):
    """Rows that the lists no longer follow, and lists that follow them: "only a block's last row names blocks"."""
    a, table = function_at(0), needed(dump([TURN]))
    block, row = (lambda b: block_at(a, b)), (lambda k: row_at(a, k))
    read(script, 'turn, its rows changed', [TURN])
    nop, leave = INSTRUCTIONS.index('nop'), INSTRUCTIONS.index('leave')
    for label, changed, lists, number in (
            ('entry without terminator', {row(2): nop}, stored(a, 1, [2]), (10, 2)),
            ('a jump before the end of entry', {row(0): INSTRUCTIONS.index('jump'), row(0) + 4: 3}, {}, (10, 0)),
            ('body without rows', {block(2) + 2: 0, block(3): 8, block(3) + 2: 3}, stored(a, 1, [0]), (10, 8)),
            ('body leaves', {row(9): leave}, stored(a, 1, [0]), (11, 9)),
            ('both ways to body', {row(7) + 4: 2}, stored(a, 3, []), None),
            ('out and body exchanged', {row(7) + 4: 2, row(7) + 5: 3}, {}, None)):
        with_cells(script, table, label, changed, (9, 0) if lists else number)
        if lists:
            with_cells(script, table, f'{label}, and the lists', {**changed, **lists}, number)


def of_many(script):
    """A block that all of 64 go to, and lists in more than one function."""
    names = ['entry'] + [f'b{i}' for i in range(1, BLOCKS)]
    full = Function('full', blocks=[(n, [jump('b40')]) for n in names])
    read(script, '64 predecessors', [full])
    table, k = needed(dump([full])), predecessors_at(function_at(0), 40)
    assert stored(function_at(0), 40, range(BLOCKS)).items() <= table.items()
    script.check(' ')
    script.run(' ', 0, 9, [], ran('stopped', number=43, place=40, steps=9), [])
    for label, changed in (('63 of them', {k: 63}), ('a count of 65', {k: 65}), ('a count of 255', {k: 255}), ('the last is 0', {k + 64: 0}),
                           ('the first is 64', {k + 1: 64}), ('the last two exchanged', {k + 63: 63, k + 64: 62})):
        with_cells(script, table, label, changed, (9, 0))
    alone = Function('alone', blocks=[(n, [LEAVE]) for n in names])
    read(script, '64 blocks without predecessors', [alone, replace(alone, name='more'), full])
    table = needed(dump([alone, replace(alone, name='more'), full]))
    for i, b in ((0, 63), (1, 0), (2, 39)):
        with_cells(script, table, f'one at block {b} of function {i}', stored(function_at(i), b, [0]), (9, i))
    with_cells(script, table, 'one in each function', {**stored(function_at(1), 5, [1]), **stored(function_at(2), 5, [1])}, (9, 1))
    script.check(' as read ')


def of_lists(script):
    of_web(script)
    of_turn(script)
    of_many(script)
