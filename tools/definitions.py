"""What rests on what among the definitions and laws of a crate, for tools/programs.py: by their text, and rather too much than too little.

A definition's clauses are shut to whatever does not name it after `unfolding`; only an `abbrev`, a record and a data type are open to all that name them."""
import dataclasses
import functools
import re

DECLARED = re.compile(r'^ *(?:(?:abbrev|unfoldable|pub) )*(?:(?:record|data) (\S+)|(\S+) :(?= |$))')
FIELD = re.compile(r'^ *(?:pub )?(\S+) :(?= |$)', re.M)
WORD = re.compile(r'(\.?)([^\s(){}\[\],;:.«»⌜⌝"`]+)')
UNFOLDS = re.compile(r'\bunfold(?:ing)?\s(.*?)(?:\s=\s|\sin\s|\Z)', re.S)
USE = re.compile(r'^ *(?:(?:ghost|pub|unfoldable) )*use Rattle\.\w+\.(specs|proofs)\.([\w+.]+?)(?:\.\{([^}]*)\}|\.\*| as \S+)?;?$', re.M)


@functools.cache
def words(text):
    """The names in a text, comments left out, as (whether it is a field asked for, name); of an operator the parts between its `◌` too."""
    return {(bool(dot), part) for dot, word in WORD.findall(re.sub(r'--.*|//.*', '', text)) for part in spelled(word)}


def spelled(name):
    return {part for part in [name, *name.split('◌')] if part}


@dataclasses.dataclass
class Declaration:
    """A definition or law: its place in the file's lines, its names, with those of a data type's cases, the lines of each field that it declares or gives,
    whether its clauses are shut, the heads of the modules that it stands in, over whose parameters it is, and its text with these."""
    name: str
    lines: range
    indent: int
    names: set
    fields: dict
    shut: bool
    over: str
    text: str

    def field_at(self, number):
        """The name of the field that a line of the file stands in; None where it stands in none."""
        return next((name for name, lines in self.fields.items() if number in lines), None)


@functools.cache
def declarations(text):
    """The declarations of a file of definitions or laws. What stands in none of them, as a `use` line, is left out."""
    modules, found, current, head = [], [], None, False
    for number, line in enumerate(text.split('\n')):
        indent = len(line) - len(line.lstrip())
        if not line.strip() or line.lstrip().startswith('--'):
            continue
        if head:
            modules[-1][1] += line + '\n'
            head = not line.endswith(' where')
        elif (not current or indent <= current.indent) and line.lstrip().startswith('module '):
            modules = [module for module in modules if module[0] < indent] + [[indent, line + '\n']]
            current, head = None, not line.endswith(' where')
        else:
            if not current or indent <= current.indent:
                modules = [module for module in modules if module[0] < indent]
                current = begun(line, number, indent, modules, current)
                found += [current] if current and current not in found else []
            if current:
                current.lines, current.text = range(current.lines.start, number + 1), current.text + line + '\n'
    for one in found:
        if re.search(rf'^ {{{one.indent}}}(?:pub )?data ', one.text, re.M):
            one.names.update(FIELD.findall(one.text.partition('data ')[2]))
        one.fields.update(fields(text.split('\n'), one.lines))
    return found


def is_record(line):
    return re.match(r' *(?:pub )?record ', line)


def fields(lines, place):
    """The lines of each field of a record that is declared or given, in the layout of `rt fmt`, among the lines of one declaration."""
    begins, declared = {}, is_record(lines[place.start])
    first = next((at + 1 for at in place if re.search(r' where$' if declared else r'^ *record \{$', lines[at])), place.stop)
    depth = len(lines[first]) - len(lines[first].lstrip()) if first < place.stop else 0
    for at in range(first, place.stop):
        if named := re.match(rf' {{{depth}}}(?:pub )?(\S+) (?:=|:)(?: |$)', lines[at]):
            begins[at] = named.group(1)
    ends = [*begins, place.stop][1:]
    return {name: range(at, end) for (at, name), end in zip(begins.items(), ends)}


def begun(line, number, indent, modules, current):
    """The declaration that a line begins, or else the one that it goes on with; none at a `use` line."""
    if line.lstrip().startswith(('use ', 'infix')):
        return None
    if named := DECLARED.match(line):
        name = named.group(1) or named.group(2)
        shut = bool(named.group(2)) and 'abbrev' not in line.split()
        over = ''.join(module for _, module in modules)
        return Declaration(name, range(number, number), indent, {name}, {}, shut, over, over)
    return current


def at(file, text, place):
    """The definition or law whose clauses or fields stand at a place of a file, as (file, name), or ('use', '') for a `use` line; None where it is neither,
    as a signature or a record's head, which are open to all that name it."""
    number, lines = text[:place].count('\n'), text.split('\n')
    for one in declarations(text):
        if number in one.lines and not one.shut and (field := one.field_at(number)):
            return file, f'{one.name}.{field}'
        if number in one.lines and is_record(lines[one.lines.start]):
            return None
        if number in one.lines:
            clauses = (line for line in one.lines[1:] if lines[line].startswith(' ' * one.indent + one.name + ' '))
            return (file, one.name) if not one.shut or number >= next(clauses, one.lines.stop) else None
    return ('use', '') if lines[number].startswith('use ') else None


class Definitions:
    """The definitions and laws of a crate, each as (file, name), and which of them each rests on: of the definitions in `specs/` those that are open to it, of
    the laws in `proofs/` all that it names."""

    def __init__(self, folder):
        self.texts = {f'{part}/{path.name}': path.read_text() for part in ('specs', 'proofs') for path in sorted((folder / part).glob('*.antt'))}
        declared = {file: declarations(text) for file, text in self.texts.items()}
        self.own = {file: {name: (file, one.name) for one in ones for name in one.names} for file, ones in declared.items()}
        self.shut = {(file, one.name) for file, ones in declared.items() for one in ones if one.shut and file.startswith('specs/')}
        self.asked, self.under = {}, {}
        for file, ones in declared.items():
            for one in ones:
                for name in {} if one.shut else one.fields:
                    self.asked.setdefault(name, set()).add((file, f'{one.name}.{name}'))
        for file, ones in declared.items():
            known = self.known(self.texts[file], file)
            for one in ones:
                self.note(file, one, known)

    def note(self, file, one, known):
        """What a declaration rests on, and each field by itself: a record that is declared on all its fields, a field that is given on what it is to be."""
        opened = self.names(' '.join(UNFOLDS.findall(one.text)), known) - {(file, one.name)}
        self.under.setdefault((file, one.name), set()).update(self.names(one.text, known) - self.shut | opened)
        lines = self.texts[file].split('\n')
        for name, place in one.fields.items():
            text = one.over + '\n'.join(lines[place.start:place.stop])
            beside = {other: (file, f'{one.name}.{other}') for other in one.fields}
            found = self.names(text, known if one.shut else {**known, **beside}) - self.shut | opened
            self.under[file, f'{one.name}.{name}'] = found | (self.asked.get(name, set()) if one.shut else set())
            if not one.shut:
                self.under[file, one.name].add((file, f'{one.name}.{name}'))

    def known(self, text, file=None):
        """What each name means in a file: its own definitions, and those of the crate that its `use` lines bring in."""
        found = {}
        for part, module, names in USE.findall(text):
            theirs = self.own.get(f'{part}/{module}.antt', {})
            for name in re.split(r',\s*', names.strip()) if names else theirs:
                name, _, here = name.partition(' as ')
                if name in theirs:
                    found[here or name] = theirs[name]
        return {part: key for name, key in {**found, **self.own.get(file, {})}.items() for part in spelled(name)}

    def names(self, text, known):
        """The definitions that a text names, and the records that have a field it asks for."""
        found = {known[word] for _, word in words(text) if word in known}
        return found.union(*(self.asked.get(word, ()) for dot, word in words(text) if dot))

    def anywhere(self, text):
        """The same of a text whose file is not known: every definition of a name in it."""
        return self.names(text, {}).union(key for own in self.own.values() for name, key in own.items() if spelled(name) & {word for _, word in words(text)})

    def below(self, keys):
        """These, and all that they rest on, by others too."""
        seen, left = set(), set(keys)
        while left:
            key = left.pop()
            seen.add(key)
            left |= self.under.get(key, set()) - seen
        return seen
