"""Which definitions no record, export or program rests on, for tools/docs: by their text, as tools/definitions.py reads it, over all crates.

An auditor may leave these out: each is the promise of a function that others are put together from, and what those promise stands elsewhere."""
import pathlib
import re

import definitions

USE = re.compile(r'^ *(?:(?:ghost|pub|unfoldable) )*use Rattle\.(\w+)\.specs\.([\w.]+?)(?:\.\{([^}]*)\}| as (\S+))?;?$', re.M)
TOKEN = re.compile(r'[^\s(){}\[\],;"`]+')
FUNCTION = re.compile(r'\bfn (\w+)(.*?)\n *\{\n', re.S)
EXPORTED = re.compile(r'\bextern "C" fn (\w+)')
CALL = re.compile(r'\b(\w+)::(?:\w+::)*(\w+)\(')
BELIEVED_WHOLE = ('audit', 'promises')  # crates whose definitions are what is claimed, and the form of a promise
CALLED_FROM_OUTSIDE = 'mant_c'
TESTS = ('cases', 'vectors')  # programs that only try the others
TYPE = re.compile(r'^ *pub (?:struct|enum) (\w+)', re.M)


def key_of(file):
    return file.parts[-3], file.stem


class Reading:
    """All definitions, as (crate, file, name), and which of them each names."""

    def __init__(self, top):
        self.top = top
        files = [file for file in sorted(top.glob('crates/*/specs/*.antt')) if file.name != 'Lib.antt']
        self.texts = {key_of(file): file.read_text() for file in files}
        declared = {place: definitions.declarations(text) for place, text in self.texts.items()}
        self.own = {place: {name: (*place, one.name) for one in ones for name in one.names} for place, ones in declared.items()}
        self.under = {}
        for place, ones in declared.items():
            known = self.known(self.texts[place], place)
            for one in ones:
                self.under.setdefault((*place, one.name), set()).update(self.named(one.text, known))

    def known(self, text, place=None):
        """What each name means in a text: what its `use` lines bring in, and what its own file defines."""
        found = {}
        for crate, module, names, alias in USE.findall(text):
            theirs = self.own.get((crate, module), {})
            for name in re.split(r',\s*', names.strip()) if names else theirs:
                name, _, here = name.partition(' as ')
                if name in theirs:
                    found[f'{alias}.{name}' if alias else here or name] = theirs[name]
        return {**found, **self.own.get(place, {})}

    def named(self, text, known):
        whole = set(TOKEN.findall(re.sub(r'--.*|//.*', '', text)))
        tokens = {'.'.join(parts[:size]) for parts in (token.split('.') for token in whole) for size in range(1, len(parts) + 1)}
        return {key for name, key in known.items() if name in tokens or '◌' in name and tokens & definitions.spelled(name)}

    def contracts(self, crate):
        """What the contract of each function of a crate names."""
        for file in sorted((self.top / 'crates' / crate / 'src').rglob('*.rt')):
            text = file.read_text()
            known = self.known(text)
            for function in FUNCTION.finditer(text):
                yield function.group(1), self.named(function.group(2), known)

    def roots(self):
        """What is claimed, what the exports promise, and what the programs and the functions that they call do."""
        programs = [file.parts[-3] for file in sorted(self.top.glob('crates/*/src/main.rt')) if file.parts[-3] not in TESTS]
        found = {key for key in self.under if key[0] in BELIEVED_WHOLE}
        exported = {name for file in (self.top / 'crates' / CALLED_FROM_OUTSIDE / 'src').rglob('*.rt') for name in EXPORTED.findall(file.read_text())}
        found |= set().union(*(names for name, names in self.contracts(CALLED_FROM_OUTSIDE) if name in exported))
        for crate in programs:
            found |= set().union(*(names for _, names in self.contracts(crate)))
        called = {call for crate in programs for file in (self.top / 'crates' / crate / 'src').rglob('*.rt') for call in CALL.findall(file.read_text())}
        for crate in sorted({crate for crate, _ in called}):
            found |= set().union(*(names for name, names in self.contracts(crate) if (crate, name) in called))
        return found

    def read(self):
        seen, left = set(), self.roots()
        while left:
            key = left.pop()
            seen.add(key)
            left |= self.under[key] - seen
        return seen


def skipped(top):
    """A line of Markdown for each file with definitions that may be left out: their names, or `all`."""
    reading = Reading(pathlib.Path(top))
    read = reading.read()
    for crate, file in sorted(reading.texts):
        there = list(dict.fromkeys(name for c, f, name in reading.under if (c, f) == (crate, file)))
        left = [name for name in there if (crate, file, name) not in read]
        if left:
            names = 'all' if left == there else ', '.join(f'`{name}`' for name in left)
            yield f'| `crates/{crate}/specs/{file}.antt` | {names} |'


def defined(top):
    """The names of all definitions."""
    return {name for *_, name in Reading(top).under}


def namesakes(top):
    """The names that more than one file defines, of definitions and of the types that src declares for them, each with its files."""
    files = {}
    for crate, file, name in Reading(top).under:
        files.setdefault(name.strip('◌'), set()).add(f'crates/{crate}/specs/{file}.antt')
    for file in top.glob('crates/*/src/**/*.rt'):
        for name in TYPE.findall(file.read_text()):
            files.setdefault(name, set()).add(str(file.relative_to(top)))
    return {name: sorted(there) for name, there in sorted(files.items()) if len(there) > 1}
