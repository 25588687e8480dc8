"""Makes data/ and stdout of this crate, from the outside vectors in vectors/ and from documents 01 and 02:

    python3 crates/cases/expected.py            writes them
    python3 crates/cases/expected.py --check    writes nothing, and says which of them are not as it would write them
"""
import sys
from pathlib import Path

sys.dont_write_bytecode = True

from expectations import vectors, vectors_written
from expectations.faults import faults
from expectations.names import names
from expectations.papers import papers
from expectations.runs import runs
from expectations.script import Script
from expectations.sizes import long_texts, sizes
from expectations.texts_written import limits_written, texts_written
from expectations.translations import translated_sizes, translations

CRATE = Path(__file__).resolve().parent
VECTORS = CRATE.parent.parent / 'vectors'
SHORT = 8000  # text and answers of a request's vector that is taken: there are some of each of its kinds
FULL = 200000  # a script that is so long gets no more vectors


def add(script, path, vector):
    vector(script, path.stem, path.read_bytes(), path.with_suffix('.expect').read_bytes())


def short(folder, vector):
    """The vectors of a request in scripts of many."""
    parts = []
    for path in sorted((VECTORS / 'requests' / folder).glob('*.ial')):
        if path.stat().st_size + path.with_suffix('.expect').stat().st_size < SHORT:
            if not parts or FULL < len(parts[-1].data()):
                parts.append(Script())
            add(parts[-1], path, vector)
    return parts


def scripts():
    """The scripts, in the order in which `cases` runs them."""
    for path in sorted(VECTORS.glob('*.ial')):
        script = Script()
        add(script, path, vectors.vector)
        yield path.stem, script
    yield from {'papers': papers(), 'runs': runs(), 'translations': translations(), 'translated_sizes': translated_sizes(), 'sizes': sizes(),
                'texts': long_texts(), 'faults': faults(), 'names': names(), 'texts_written': texts_written(), 'limits_written': limits_written()}.items()
    for title, folder, vector in (('vectors_named', 'a2', vectors.vector), ('vectors_written', 'a2-write', vectors_written.vector)):
        for i, script in enumerate(short(folder, vector)):
            yield f'{title}_{i}', script


def made():
    """Each file with its bytes."""
    files, printed = {}, b''
    for name, script in scripts():
        files[CRATE / 'data' / f'{name}.case'] = script.data()
        printed += script.printed
    return {**files, CRATE / 'stdout': printed}


def main():
    files = made()
    committed = set((CRATE / 'data').iterdir()) | {CRATE / 'stdout'}
    if sys.argv[1:] == ['--check']:
        wrong = [path for path in sorted(committed | files.keys()) if not path.is_file() or path.read_bytes() != files.get(path)]
        for path in wrong:
            print(f'{path.relative_to(CRATE.parent.parent)} is not what crates/cases/expected.py makes')
        sys.exit(1 if wrong else 0)
    if sys.argv[1:]:
        sys.exit(__doc__)
    for path in committed - files.keys():
        path.unlink()
    for path, data in files.items():
        path.write_bytes(data)


main()
