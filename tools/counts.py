"""What there is to count in the crates, as tools/measure prints it and tools/docs holds the documents to it."""
import re

import programs

HEAD = '| Crate | specs | src | proofs | mutants | edit files | prove, s |\n|---|---|---|---|---|---|---|\n'
TABLE = re.compile(rf'(?<={re.escape(HEAD)})(?:\|.*\n)+')
FUNCTION = re.compile(r'^ *(?:#\[\w+\] *)?pub (?:extern "C" )?fn \w+', re.M)


def crates(top):
    """The names in crates.txt, in their order."""
    names = [line.split('#')[0].split(':')[0].split() for line in (top / 'crates.txt').read_text().splitlines()]
    return [name[0] for name in names if name]


def static_libraries(top):
    """The crates that only export what others have: their functions are the exported ones."""
    return re.findall(r'^(\w+) +staticlib *:', (top / 'crates.txt').read_text(), re.M)


def lines(folder, pattern):
    return sum(len(file.read_text().splitlines()) for file in folder.rglob(pattern))


def defining(file):
    """The lines of a file of definitions that are neither blank nor a comment nor name other files."""
    return sum(not re.match(r'\s*(?:$|--|(?:pub )?(?:use|mod) )', line) for line in file.read_text().splitlines()) if file.is_file() else 0


def row(top, name):
    """A crate's lines of specs, src and proofs, its mutants, and the edit files that hold them."""
    crate = top / 'crates' / name
    edits = sorted((crate / 'must-fail').glob('*.edit'))
    mutants = sum(len(programs.read(edit)[0]) for edit in edits)
    return [lines(crate / 'specs', '*.antt'), lines(crate / 'src', '*.rt'), lines(crate / 'proofs', '*.antt'), mutants, len(edits)]


def table(top, seconds):
    """A line of Markdown for each crate, with the seconds that are known of it, and one for all."""
    rows = {name: row(top, name) for name in crates(top)}
    total = [sum(column) for column in zip(*rows.values())]
    for name, counts in rows.items():
        yield f'| `{name}` | {" | ".join(map(str, counts))} | {seconds.get(name, "")} |\n'
    yield f'| all | {" | ".join(map(str, total))} | |\n'


def renewed(top, text, seconds):
    """A text with its table of the crates counted anew. The seconds are those given, else those that stand there."""
    def counted(old):
        stand = dict(re.findall(r'^\| `(\w+)` \|.*\| (\d*) \|$', old.group(), re.M))
        return ''.join(table(top, {**stand, **seconds}))

    return TABLE.sub(counted, text)


def public_functions(top):
    named = [name for name in crates(top) if name not in static_libraries(top)]
    return sum(len(FUNCTION.findall(file.read_text())) for name in named for file in (top / 'crates' / name / 'src').rglob('*.rt'))


def declared(top):
    """The functions that the C header declares; those that it defines itself are not among them."""
    return len(re.findall(r'^[A-Za-z]\w* mant_\w+\(', (top / 'include/mant.h').read_text(), re.M))


def generated(top):
    """The inputs on which tests/run_rust compares, 2,000 for each share of a kind."""
    return 2000 * sum(map(int, re.findall(r'^    \("[^"]+", (\d+), \w+::\w+\),$', (top / 'rust/differential/src/main.rs').read_text(), re.M)))


def totals(top):
    """What the documents count, by the words that they have for it."""
    rows = [row(top, name) for name in crates(top)]
    return {'crates': len(rows), 'mutants': sum(row[3] for row in rows), 'public functions': public_functions(top),
            'exported functions': declared(top), 'generated inputs': generated(top)}
