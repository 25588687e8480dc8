"""The outside vectors of texts: each read, listed and checked; each run and translation, then these again, every third run, with anything in the cells
that are not needed; those of document 02's A2 also with other names in the table."""
import re

from .script import ran, with_cells
from .tables import cells, gaps, name_cells, needed


def parse(data):
    """The listing, what reading and the check answer if that is said, and the lines after it."""
    m = re.match(rb'listing\t(\d+)\n', data)
    end = m.end() + int(m.group(1))
    lines, said = data[end:].decode().split('\n')[:-1], {}
    while lines and lines[0].startswith(('read\t', 'check\t')):
        word, number, place = lines.pop(0).split('\t')[:3]
        said[word] = (number, place)
    return data[m.end():end], said, lines


def ints(word):
    return [] if word == '-' else [int(x) for x in word.split(',')]


def refusal(number, place):
    return None if number == '0' else (number, place)


def calls(script, table, lines, every=1):
    """The translations and their runs, the checks with other names, and the runs, all or every so many."""
    i = runs = 0
    while i < len(lines):
        p = lines[i].split('\t')
        i += 1
        if p[0] == 'run':
            runs += 1
            if runs % every:
                continue
        if p[0] in ('run', 'trun'):
            function, budget = int(p[1]), int(p[2])
            script.run(' ', function, budget, ints(p[3]), ran(p[4], *p[5:9]), ints(p[9]), translated=p[0] == 'trun')
        elif p[0] == 'edited':
            edits, i = lines[i:i + int(p[1])], i + int(p[1])
            changed = {k: v for line in edits for k, v in name_cells(*line.split('\t')[1:]).items()}
            word, number, place = lines[i].split('\t')
            assert word == 'check.edited'
            with_cells(script, table, 'other names', changed, refusal(number, place))
            i += 1
        elif p[2] == 'refused':
            script.translate(' ', int(p[1]), {}, refused=p[3:5])
        else:
            n = int(p[6])
            script.translate(' ', int(p[1]), cells(lines[i:i + n]))
            i += n


def vector(script, name, text, data):
    listing, said, lines = parse(data)
    if not lines:
        refused = tuple(listing.decode().split()[1:])
        assert said.get('read', refused) == refused
        script.read(name + ' ', text, {}, refused)
        script.list(text, listing)
        return
    n = 1 + int(lines[0].split('\t')[1])
    table, rest = lines[1:n], lines[n:]
    script.read(name + ' ', text, cells(table))
    script.list(text, listing)
    if 'check' in said:
        script.check(' ', refusal(*said['check']))
    calls(script, needed(table), rest)
    script.fill(name + ' with cells that are not needed\n', gaps(table), int(name))
    calls(script, needed(table), rest, every=3)
