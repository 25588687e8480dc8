"""The text of functions, by document 02's A1. A name that begins with a blank is no name, and one is made for it."""
from dataclasses import replace

from .programs import Row


def made(prefix, names):
    """"With the smallest decimal numbers not in use by that kind in the function, in table order from 0": the name of each."""
    free = (name for name in (f'{prefix}{n}' for n in range(len(names) + 1)) if name not in names)
    return {name: next(free) if name[0] == ' ' else name for name in names}


def named(f):
    """The function with the made names filled in."""
    registers = made('p.', [n for _, n in f.params + f.registers])
    blocks = made('e.', [n for n, _ in f.blocks])
    declared = lambda pairs: [(t, registers[n]) for t, n in pairs]

    def row(r):
        operand = r.operand
        if isinstance(operand, list):
            operand = [(registers if r.op == 'phi' else blocks)[n] for n in operand]
        return Row(r.op, r.target and registers[r.target], tuple(registers[s] for s in r.sources), operand)

    return replace(f, params=declared(f.params), registers=declared(f.registers), blocks=[(blocks[n], [row(r) for r in rows]) for n, rows in f.blocks])


def parted(lists):
    return [token for i, tokens in enumerate(lists) for token in ([','] if i else []) + list(tokens)]


def row_line(r):
    """"Optional target and `=`, instruction word, source registers parted by commas, optional operand in parentheses, `;`" """
    operand = [] if r.operand is None else ['(', *parted([[n] for n in ([str(r.operand)] if isinstance(r.operand, int) else r.operand)]), ')']
    return ([r.target, '='] if r.target else []) + [r.op] + parted([[s] for s in r.sources]) + operand + [';']


def lines(f):
    yield ['function', *(['ssa'] if f.ssa else []), f.result, f.name, '(', *parted(f.params), ')', '{']
    for kind, name in f.registers:
        yield ['register', kind, name, ';']
    for name, rows in f.blocks:
        yield ['block', name, '{']
        yield from map(row_line, rows)
        yield ['}']
    yield ['}']


def written(functions):
    """"Each line is a declaration, an instruction, a head with its `{` or a `}`, ended by LF; one space between tokens" """
    return ''.join(' '.join(tokens) + '\n' for f in functions for tokens in lines(named(f))).encode('latin-1')
