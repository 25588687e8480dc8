"""Tables made from `turn`'s: each clause of 9 broken by a cell or two, and lengths one off."""
from .layout import TABLE, block_at, entry_at, function_at, register_at, row_at
from .papers import TURN
from .predecessors import of_lists
from .programs import Function, dump
from .runs import NONE, read
from .script import Script, with_cells
from .tables import needed

FIRST = function_at(0)
REGISTER, ENTRY = register_at(FIRST, 0), entry_at(FIRST, 0)
BLOCK = [block_at(FIRST, b) for b in range(4)]
ROW = [row_at(FIRST, k) for k in range(9)]

# "number outside its range"
RANGES = [('17 functions', {0: 17}), ('mark 2', {1: 2}), ('result type 11', {2: 11}), ('11 parameters of 10 registers', {3: 11}),
          ('register type 10', {REGISTER: 10}), ('instruction 36', {ROW[0]: 36}), ('target beyond the registers', {ROW[0] + 1: 10}),
          ('source beyond the registers', {ROW[8] + 2: 10}), ('phi entry beyond the registers', {ENTRY: 10}),
          ('block beyond the blocks', {ROW[2] + 4: 4}), ('load.ui8 of 256', {ROW[0] + 5: 1})]

# "size exceeded, block rows not in sequence, no entry block"
COUNTS = [('257 registers', {5: 1, 6: 1}), ('65 blocks', {7: 65}), ('1,025 rows', {BLOCK[3] + 2: 247, BLOCK[3] + 3: 3}),
          ('1,030 phi entries', {ROW[3] + 7: 4}), ('first row one late', {BLOCK[1]: 4}), ('first entry one late', {ROW[4] + 4: 3}),
          ('entry beyond the blocks', {8: 4})]

# "a name no text can spell (no bytes excepted as above), or one declared twice"
NAMES = [('function without a name', {9: 0}), ('name of 65 bytes', {9: 65}), ('name that ends in a backslash', {13: ord('\\')}),
         ('register named twice', {REGISTER + 2: ord('b')}),
         ('entry block with a name', {8: 1}), ('block named twice', {BLOCK[2] + 4: 1, BLOCK[3] + 4: 1, BLOCK[3] + 5: ord('b')})]


def of_turn(script):
    read(script, 'turn', [TURN])
    table = needed(dump([TURN]))
    for label, changed in RANGES + COUNTS + NAMES:
        with_cells(script, table, label, changed, (9, 0))
    with_cells(script, table, '256 registers', {5: 0, 6: 1}, None)
    # Row 10 is the terminator; the rows past it are `nop`.
    with_cells(script, table, '1,024 rows', {BLOCK[3] + 2: 246, BLOCK[3] + 3: 3}, (10, 10))
    with_cells(script, table, 'register without a name', {REGISTER + 1: 0}, None)
    script.check(' as read ')


def of_others(script):
    other = Function('more', blocks=NONE.blocks)
    read(script, 'two functions', [NONE, other])
    # "9: .. function", that declared second
    with_cells(script, needed(dump([NONE, other])), 'of one name', {function_at(1) + 9 + i: c for i, c in enumerate(b'none')}, (9, 1))
    with_cells(script, needed(dump([NONE, other])), 'the second marked 2', {function_at(1): 2}, (9, 1))
    read(script, 'no functions', [])
    script.check(' ')
    for n in (0, 1, TABLE - 1, TABLE + 1):
        script.check(f' {n} cells ', (9, 0), source=n)


def faults():
    script = Script()
    of_turn(script)
    of_others(script)
    of_lists(script)
    return script
