"""Functions as document 01 has them: their text, their dump, and their translation out of ssa. Their names are spelled as document 02's A2 says."""
import re
from dataclasses import dataclass, field

from .tables import INSTRUCTIONS, TYPES

PLAIN = re.compile(r'[A-Za-z._][A-Za-z._0-9]*')
WORDS = {'function', 'ssa', 'register', 'block', 'entry', *TYPES, *INSTRUCTIONS}


def contents(name):
    """"No outer quotes, and each backslash directly before a quote is dropped." """
    return name[1:-1].replace("\\'", "'") if name[0] == "'" else name


def spelling(name):
    """The spelling of contents: "quotes only where plain spelling isn't possible"."""
    if PLAIN.fullmatch(name) and name not in WORDS:
        return name
    return "'" + name.replace("'", "\\'") + "'"


@dataclass
class Row:
    op: str
    target: str = None
    sources: tuple = ()
    operand: object = None  # a load's number, or the names of blocks or of a phi's registers

    def text(self):
        head = f'{self.target}=' if self.target else ''
        words = ' '.join(x for x in (self.op, ','.join(self.sources)) if x)
        if self.operand is None:
            return head + words + ';'
        names = str(self.operand) if isinstance(self.operand, int) else ','.join(self.operand)
        return f'{head}{words}({names});'


@dataclass
class Function:
    name: str
    result: str = 'void'
    params: list = field(default_factory=list)  # (type, name)
    registers: list = field(default_factory=list)  # (type, name), without the parameters
    blocks: list = field(default_factory=list)  # (name, rows)
    ssa: bool = False

    def text(self):
        params = ','.join(f'{t} {n}' for t, n in self.params)
        registers = ''.join(f'register {t} {n};' for t, n in self.registers)
        blocks = ''.join(f'block {n}{{{"".join(r.text() for r in rows)}}}' for n, rows in self.blocks)
        return f'function {"ssa " if self.ssa else ""}{self.result} {self.name}({params}){{{registers}{blocks}}}'

    def sizes(self):
        return len(self.params) + len(self.registers), len(self.blocks), sum(len(rows) for _, rows in self.blocks)

    def dump(self, index=0):
        """A name that begins with a blank is no name; entry has none."""
        registers = self.params + self.registers
        at = {n: i for i, (_, n) in enumerate(registers)}
        block = {n: i for i, (n, _) in enumerate(self.blocks)}
        shown = lambda n: '-' if n == 'entry' or n[0] == ' ' else contents(n).encode('latin-1').hex()
        r, b, rows = self.sizes()
        out = ['\t'.join(('function', str(index), shown(self.name), 'ssa' if self.ssa else 'plain', self.result, f'params={len(self.params)}',
                          f'registers={r}', f'blocks={b}', f'rows={rows}', f'entry={block["entry"]}'))]
        out += [f'register\t{i}\t{t}\t{shown(n)}' for i, (t, n) in enumerate(registers)]
        lines, k = [], 0
        for i, (n, rs) in enumerate(self.blocks):
            out.append(f'block\t{i}\t{shown(n)}\t{k}\t{len(rs)}')
            for x in rs:
                lines.append('\t'.join(('row', str(k), x.op, str(at[x.target]) if x.target else '-',
                                        ','.join(str(at[s]) for s in x.sources) or '-', operand(x, at, block))))
                k += 1
        return out + lines


def width(load):
    """The bits of the type that a load's word ends with."""
    return int(load.rpartition('i')[2])


def operand(row, at, block):
    if row.operand is None:
        return '-'
    if isinstance(row.operand, int):
        return f'number {row.operand % 2 ** width(row.op)}'
    if row.op == 'phi':
        return 'registers ' + ','.join(str(at[n]) for n in row.operand)
    return 'blocks ' + ','.join(str(block[n]) for n in row.operand)


def text(functions):
    return '\n'.join(f.text() for f in functions).encode('latin-1')


def dump(functions):
    return [line for i, f in enumerate(functions) for line in f.dump(i)]


def phis(rows):
    return [r for r in rows if r.op == 'phi']


def predecessors(f, name):
    """"The blocks whose terminator names it, each once, in the order declared." """
    return [n for n, rows in f.blocks if rows[-1].op in ('jump', 'jump.cond') and name in rows[-1].operand]


def translation(f):
    """"What is kept in order, then a register for each phi by row and a block for each pair, by phi block, then predecessor." """
    types = dict((n, t) for t, n in f.params + f.registers)
    registers, edges, going = list(f.registers), [], {}
    for name, rows in f.blocks:
        ps = phis(rows)
        registers += [(types[p.target], f' {p.target}') for p in ps]
        for k, before in enumerate(predecessors(f, name) if ps else []):
            # "it copies entries to new registers, then these to targets, each by row, and jumps to the phi block"
            copies = [Row('copy', f' {p.target}', (p.operand[k],)) for p in ps] + [Row('copy', p.target, (f' {p.target}',)) for p in ps]
            edges.append((f' {before} {name}', copies + [Row('jump', operand=[name])]))
            going[before, name] = f' {before} {name}'
    blocks = []
    for name, rows in f.blocks:
        rows = [r for r in rows if r.op != 'phi']
        last = rows[-1]
        if last.op in ('jump', 'jump.cond'):
            last = Row(last.op, None, last.sources, [going.get((name, n), n) for n in last.operand])
        blocks.append((name, rows[:-1] + [last]))
    return Function(f.name, f.result, f.params, registers, blocks + edges)
