"""Texts made by document 01: each size at its limit and one past, and outputs of other lengths than a table's."""
from .layout import TABLE
from .programs import Function, Row, dump, text
from .reading import reading, small
from .runs import LEAVE
from .script import Script
from .tables import cells


def at_limit(script, label, functions, past):
    """Read, or 5 at the last place of this word: "the first token of the item beyond"."""
    t = text(functions)
    script.read(label + ' ', t, {} if past else cells(dump(functions)), past and (5, t.rindex(past.encode())))


def wide(params, registers):
    return Function('f', params=[('int8', f'a{i}') for i in range(params)], registers=[('uint8', f'r{i}') for i in range(registers)],
                    blocks=[('entry', [LEAVE])])


def blocks(n):
    return Function('f', blocks=[('entry', [LEAVE])] + [(f'b{i}', [LEAVE]) for i in range(n - 1)])


def rows(n):
    return Function('f', blocks=[('b', [Row('nop')] * 500 + [LEAVE]), ('entry', [Row('nop')] * (n - 502) + [LEAVE])])


def entries(n):
    """Two entries in a phi of their own."""
    return Function('f', params=[('int8', 'q')], blocks=[('entry', [Row('phi', 'q', operand=['q', 'q']), Row('phi', 'q', operand=['q'] * (n - 2)),
                                                                     LEAVE])], ssa=True)


def items(script):
    """"16 functions; in each function 256 registers (parameters counted), 64 blocks, 1,024 instructions, 1,024 phi entries" """
    for n, past in ((16, None), (17, 'function')):
        at_limit(script, f'{n} functions', [small(i) for i in range(n)], past)
    for n, past in ((256, None), (257, 'register')):
        at_limit(script, f'{n} registers', [wide(0, n)], past)
        at_limit(script, f'{n} registers, one a parameter', [wide(1, n - 1)], past)
    for n, past in ((256, None), (257, 'int8')):
        at_limit(script, f'{n} parameters', [wide(n, 0)], past)
    for n, past in ((64, None), (65, 'block')):
        at_limit(script, f'{n} blocks', [blocks(n)], past)
    for n, past in ((1024, None), (1025, 'leave')):
        at_limit(script, f'{n} instructions', [rows(n)], past)
    for n, past in ((1024, None), (1025, 'q')):
        at_limit(script, f'{n} phi entries', [entries(n)], past)


def names(script):
    """"1 to 64 bytes", else 2 at the name."""
    for n in (64, 65):
        f = Function('a' * n, blocks=[('entry', [LEAVE])])
        t = text([f])
        script.read(f'plain name of {n} bytes ', t, {} if 64 < n else cells(dump([f])), (2, t.index(b'aa')) if 64 < n else None)


def texts(script):
    """"text 65,536 bytes" """
    script.read('no text ', b'', {})
    script.read('text of 65536 bytes ', b' ' * 65536, {})
    script.read('text of 65537 bytes ', b' ' * 65537, {}, (1, 0))
    script.read('text of 65537 bytes, with no token and output of 0 ', b'?' + b' ' * 65536, {}, (1, 0), lent=0)


def outputs(script):
    """22: "table output of another length"; "reading gives 22 last"."""
    t = text([small(0)])
    for n in (0, 1, TABLE - 1, TABLE + 1):
        script.read(f'output of {n} ', t, {}, (22, 0), lent=n)
        script.read(f'output of {n}, and a token not allowed ', t + b'x', {}, (3, len(t)), lent=n)
        script.read(f'output of {n}, and no token ', t + b'?', {}, (2, len(t)), lent=n)
        script.read(f'output of {n}, and no entry block ', b'function void f(){}', {}, (8, 18), lent=n)


def sizes():
    script = Script()
    items(script)
    names(script)
    outputs(script)
    reading(script)
    return script


def long_texts():
    script = Script()
    texts(script)
    return script
