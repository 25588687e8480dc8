"""The cells of a table from the lines of a dump as the outside vectors have them."""
from .layout import NAME_OFFSET, TABLE, block_at, entry_at, function_at, predecessors_at, register_at, row_at

TYPES = 'int8 int16 int32 int64 uint8 uint16 uint32 uint64 int uint void'.split()
INSTRUCTIONS = ('nop load.i8 load.ui8 load.i16 load.ui16 load.i32 load.ui32 load.i64 load.ui64 ari.add ari.sub ari.mul ari.div ari.rem '
                'ari.neg bit.and bit.or bit.xor bit.neg shl shr rol ror cmp.eq cmp.neq cmp.gt cmp.lt cmp.gteq cmp.lteq conv copy phi '
                'jump jump.cond return leave').split()


def two(n):
    return [n % 256, n // 256]


def needed(lines):
    """Every cell that is needed, with its value."""
    t = {}

    def put(k, *values):
        t.update((k + i, v) for i, v in enumerate(values))

    def name(k, word):
        b = b'' if word == '-' else bytes.fromhex(word)
        put(k, len(b), *b)

    functions = 0
    for line in lines:
        p = line.split('\t')
        if p[0] == 'function':
            a, entries, ends = function_at(functions), 0, {}
            functions += 1
            n = {k: int(v) for k, v in (x.split('=') for x in p[5:])}
            put(a, int(p[3] == 'ssa'), TYPES.index(p[4]), *two(n['params']), *two(n['registers']), n['blocks'], n['entry'])
            name(a + NAME_OFFSET, p[2])
        elif p[0] == 'register':
            k = register_at(a, int(p[1]))
            put(k, TYPES.index(p[2]))
            name(k + 1, p[3])
        elif p[0] == 'block':
            k = block_at(a, int(p[1]))
            put(k, *two(int(p[3])), *two(int(p[4])))
            name(k + 4, p[2])
            put(predecessors_at(a, int(p[1])), 0)
            ends[int(p[3]) + int(p[4]) - 1] = int(p[1])
        else:
            entries += put_row(put, a, p, entries)
            if int(p[1]) in ends:
                put_predecessor(t, a, p, ends[int(p[1])])
    put(0, functions)
    return t


def put_predecessor(t, a, p, block):
    """"The blocks whose terminator names it, each once, in the order declared": a block with this last row, behind those declared before."""
    if p[2] in ('jump', 'jump.cond'):
        for b in dict.fromkeys(p[5].removeprefix('blocks ').split(',')):
            k = predecessors_at(a, int(b))
            t[k] += 1
            t[k + t[k]] = block


def put_row(put, a, p, entries):
    """A row's cells, where so many phi entries came before; how many it has."""
    k = row_at(a, int(p[1]))
    put(k, INSTRUCTIONS.index(p[2]))
    if p[3] != '-':
        put(k + 1, int(p[3]))
    if p[4] != '-':
        put(k + 2, *map(int, p[4].split(',')))
    kind, _, operand = p[5].partition(' ')
    if kind == 'number':
        put(k + 4, *int(operand).to_bytes(8, 'little'))
    elif kind == 'blocks':
        put(k + 4, *map(int, operand.split(',')))
    elif kind == 'registers':
        es = list(map(int, operand.split(',')))
        put(k + 4, *two(entries), *two(len(es)))
        put(entry_at(a, entries), *es)
        return len(es)
    return 0


def cells(lines):
    """The cells that are not 0."""
    return {k: v for k, v in needed(lines).items() if v}


def name_cells(kind, function, index, name):
    """A name's length cell and those of its bytes, as many as there is room for."""
    a, i = function_at(int(function)), int(index)
    k = {'function': a + NAME_OFFSET, 'register': register_at(a, i) + 1, 'block': block_at(a, i) + 4}[kind]
    b = b'' if name == '-' else bytes.fromhex(name)
    return {k: len(b), **{k + 1 + i: c for i, c in enumerate(b[:64].ljust(64, b'\0'))}}


def gaps(lines):
    """Where cells that are not needed begin and end."""
    out, at = [], 0
    for k in sorted(needed(lines)) + [TABLE]:
        if at < k:
            out.append((at, k))
        at = k + 1
    return out
