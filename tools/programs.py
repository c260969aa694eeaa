"""The mutants of crates/*/must-fail, as tools/edits, tools/refusals and tools/wrong read them.

An edit file holds one or more mutants. Each begins with `# ` lines that say what goes wrong, has a line `fact: FUNCTION NEED` for each fact that
the prover must miss (`fact: FILE LAW` of a law, `fact: FILE LAW.FIELD` of one that gives a record), and then the `file:`, `old:` and `new:` lines of its
change. `rt` applies the whole file and passes over every other line."""
import dataclasses
import functools
import pathlib
import re

import definitions

FUNCTION = re.compile(r'^( *)(?:#\[\w+\] *)?(?:pub(?:\(\w+\))? )?(?:extern "C" )?fn (\w+)')
CIRCLE = re.compile(r'^ *#\[cycle\((\w+)\)\]')
CONSTANT = re.compile(r'^ *(?:pub(?:\(\w+\))? )?const (\w+)')
PROOF = re.compile(r'proofs/(.+)/(?:Proof|Answers|Invariants)\.antt')


@dataclasses.dataclass
class Change:
    """One replacement: in `file`, before which `text` stood there, `old` becomes `new`."""
    file: str
    old: str
    new: str
    text: str


@dataclasses.dataclass
class Program:
    says: str
    facts: list
    changes: list
    lines: list


def edits(top):
    return sorted((top / 'crates').glob('*/must-fail/*.edit'))


def crate_of(edit):
    return edit.parent.parent


def read(edit):
    """The mutants of an edit file, and what is wrong with its form."""
    programs, faults, texts = [], [], {}
    file = old = None
    for line in edit.read_text().splitlines():
        key, _, value = line.partition(':')
        value = value.removeprefix(' ')
        if line.startswith('# '):
            if not programs or programs[-1].changes:
                programs.append(Program(line[2:], [], [], []))
        elif not line.strip():
            continue
        elif not programs:
            faults.append(f'no line says what goes wrong before: {line}')
            continue
        elif key == 'fact' and len(value.split()) == 2:
            programs[-1].facts.append(tuple(value.split()))
        elif key == 'file':
            file = value
            path = crate_of(edit) / file
            if file not in texts and path.is_file():
                texts[file] = path.read_text()
            elif not path.is_file():
                faults.append(f'there is no such file: {file}')
        elif key == 'old':
            old = value
        elif key == 'new' and old and file in texts:
            if texts[file].count(old) != 1:
                faults.append(f'stands {texts[file].count(old)} times in {file}: {old}')
            else:
                programs[-1].changes.append(Change(file, old, value, texts[file]))
                texts[file] = texts[file].replace(old, value, 1)
            old = None
        else:
            faults.append(f'not understood: {line}')
        programs[-1].lines.append(line)
    return programs, faults


def functions_by_line(file, text):
    """Each line of a source file with the function that it stands in, or None, and whether that is in its body."""
    module = [] if pathlib.Path(file).stem in ('lib', 'main') else [pathlib.Path(file).stem]
    type_name, function, indent, body = None, None, '', False
    for line in text.split('\n'):
        if found := re.match(r'^impl (\w+)', line):
            type_name = found.group(1)
        elif line.startswith('}'):
            type_name = None
        if found := FUNCTION.match(line):
            indent, name = found.groups()
            function, body = '/'.join(module + [type_name] * bool(type_name) + [name]), line.endswith('{')
        elif function and not body and line == indent + '{':
            body = True
        yield line, function, body
        if function and line == indent + '}':
            function, body = None, False


def circles(folder):
    """The functions of a crate that call one another, each with the name of its circle of calls."""
    found = {}
    for path in sorted((folder / 'src').rglob('*.rt')):
        circle = None
        for line, function, _ in functions_by_line(path, path.read_text()):
            if named := CIRCLE.match(line):
                circle = named.group(1)
            elif circle and function:
                found[function], circle = circle, None
    return found


class Crate:
    """A crate as the rules for mutants side by side need it: which functions it has, which call which, and what rests on which definition."""

    def __init__(self, folder):
        bodies, self.contracts, self.files, self.circles = {}, {}, {}, circles(folder)
        for path in sorted((folder / 'src').rglob('*.rt')):
            for line, function, body in functions_by_line(path, path.read_text()):
                if function and body:
                    bodies[function] = bodies.get(function, '') + line + '\n'
                if function and (not body or FUNCTION.match(line)):
                    self.contracts[function] = self.contracts.get(function, '') + line + '\n'
                    self.files[function] = path
        named = {}
        for function in bodies:
            named.setdefault(function.split('/')[-1], set()).add(function)
        self.calls = {}
        for function, text in bodies.items():
            names = set(re.findall(r'\b(\w+)\b *[(<]', text)) & set(named)
            self.calls[function] = set().union(*(named[name] for name in names)) - {function}
        self.folder, self.bodies, self.definitions = folder, bodies, definitions.Definitions(folder)

    def reached(self, function):
        """All functions that it calls, by others too."""
        seen, left = set(), [function]
        while left:
            for callee in self.calls.get(left.pop(), ()):
                if callee not in seen:
                    seen.add(callee)
                    left.append(callee)
        return seen

    def cycle(self, function):
        """The functions that are proved in one piece with it: those that it calls and that call it. Often only itself."""
        return {function} | {other for other in self.reached(function) if function in self.reached(other)}

    def functions(self, place):
        """The functions that the place of a fact stands for: itself, or those of a circle of calls, `+name`."""
        return {one for one in self.bodies if one == place or f'+{self.circles.get(one)}' == place} or {place}

    @functools.cache
    def promised(self, function, more=''):
        """The definitions that a function's promise names, and those that more text in its file does."""
        return self.definitions.names(self.contracts[function] + more, self.definitions.known(self.files[function].read_text()))

    @functools.cache
    def told(self, file):
        """The functions whose promise a file of laws is about: it uses what is made of them."""
        return {one for one in self.bodies for _, module, _ in definitions.USE.findall(file.read_text()) if module.startswith(one.replace('/', '.') + '.')}

    def told_of(self, function, fact):
        """Whether a fact rests on a function's promise: it is of a function that calls it, or of a law about it."""
        place, _ = fact
        file = self.folder / f'proofs/{place}.antt'
        callers = {one for one in self.bodies if function in self.calls[one]}
        return callers & self.functions(place) or file.is_file() and function in self.told(file)

    def resting(self, fact, changes):
        """The definitions and laws that a fact rests on, by others too: of a function those that its promise, its body, its proof and the promises of what it
        calls name; of a law those that it opens or cites itself. What its program writes instead names some as well."""
        place, need = fact
        file = f'proofs/{place}.antt'
        files = [self.folder / file] if (self.folder / file).is_file() else sorted((self.folder / 'proofs' / place).glob('*.antt'))
        functions = self.functions(place)
        found = {(file, need)} if (file, need) in self.definitions.under else set()
        for path in [] if found else files:
            found |= self.definitions.names(path.read_text(), self.definitions.known(path.read_text(), file))
        for one in functions & set(self.bodies):
            found |= self.promised(one, self.bodies[one]).union(*(self.promised(callee) for callee in self.calls[one]))
        for one in set().union(*(self.told(path) for path in files)):
            found |= self.promised(one)
        code = '\n'.join(change.new for change in changes if change.file.startswith('src/'))
        other = '\n'.join(change.new for change in changes if not change.file.startswith('src/'))
        found |= self.definitions.anywhere(code) | self.definitions.anywhere(other) - self.definitions.shut
        found |= set().union(*(self.promised(one) for one in self.bodies if (False, one.split('/')[-1]) in definitions.words(code)))
        return self.definitions.below(found)

    def uncalled(self, function):
        return not any(function in callees for callees in self.calls.values())


def follows(change):
    """The function whose own proof a change alters, as a walk by hand that follows changed code; None where it alters something else."""
    found = PROOF.fullmatch(change.file)
    return found.group(1) if found else None


def unfollowed(crate, program):
    """The functions whose proof a program changes without their code: such a program would be refused for its proof alone."""
    bodies = set().union(*(places(crate, change) for change in program.changes if not follows(change)))
    return {follows(change) for change in program.changes} - {None} - {function for function, _ in bodies}


def redefined(change):
    """The definition or law that a change outside the code and its own proof alters, as (file, name), or ('use', '') for a `use` line; None where it is
    neither."""
    return None if change.file.startswith('src/') or follows(change) else definitions.at(change.file, change.text, change.text.index(change.old))


def altered_by(program):
    """The definitions and laws that a program alters."""
    return {redefined(change) for change in program.changes} - {None, ('use', '')}


def widens(change):
    """Whether a changed `use` line brings in what it did, under the same names, and perhaps more."""
    old, new = (set(re.findall(r'[^\s{},;]+', text)) for text in (change.old, change.new))
    return old <= new and change.new.count(' as ') == change.old.count(' as ')


def places(crate, change):
    """What a change alters, as (function, whether no other function's needs rest on it): a body; what is added after a promise; the promise of a
    function that none of its crate calls; a function's own proof; a constant, over as many lines as end in `\\`, which stands in the body of each function
    that names it."""
    if function := follows(change):
        return {(function, True)}
    if not change.file.startswith('src/'):
        followed = widens(change) if redefined(change) == ('use', '') else redefined(change) in crate.definitions.under
        return set() if followed else {(change.file, False)}
    at, end = change.text.index(change.old), 0
    lines = list(functions_by_line(change.file, change.text))
    first, continued = '', False
    for line, function, body in lines:
        first = first if continued else line
        continued = line.endswith('\\')
        end += len(line) + 1
        if at < end:
            break
    if constant := CONSTANT.match(first):
        return {(user, True) for user, text in crate.bodies.items() if re.search(rf'\b{constant.group(1)}\b', text)}
    if function is None:
        return {(change.file, False)}
    added = change.new.startswith(change.old) and change.old.endswith('}') and change.new[len(change.old):].startswith(' {')
    return {(function, body or added or crate.uncalled(function))}


def changed(crate, program):
    return set().union(*(places(crate, change) for change in program.changes)) if program.changes else set()


def side_by_side(crate, programs):
    """What keeps mutants from being refused side by side in one check, each at its own fact; nothing where they may share a file."""
    if len(programs) < 2:
        return []
    faults, taken = [], {}
    for program in programs:
        altered = changed(crate, program)
        beside = [fact for other in programs if other is not program for fact in other.facts]
        for place, apart in sorted(altered):
            if not apart and (place not in crate.bodies or any(crate.told_of(place, fact) for fact in beside)):
                faults.append(f'a changed definition or promise, on which others rest, stands alone: {program.says}')
            for one in crate.cycle(place):
                if taken.setdefault(one, program) is not program:
                    faults.append(f'two mutants in {one}: {program.says}')
        if not altered_by(program) and not all(crate.functions(place) & {one for one, _ in altered} for place, _ in program.facts):
            faults.append(f'a fact of a function that it does not change: {program.says}')
    for program in programs:
        for function, need in program.facts:
            others = {one for one, other in taken.items() if other is not program}
            if need.endswith('-spec') and (hidden := set().union(*map(crate.reached, crate.functions(function))) & others):
                faults.append(f'the proof of {function} is one piece, and it calls {min(hidden)}, changed beside it: {program.says}')
            if crate.functions(function) & others:
                faults.append(f'two mutants in {function}: {program.says}')
    return faults + rests_beside(crate, programs)


def rests_beside(crate, programs):
    """The facts that rest on a definition changed beside them, or not on what their own program changes, where any changes one."""
    faults, altered = [], [altered_by(program) for program in programs]
    if not any(altered):
        return []
    for program, own in zip(programs, altered):
        if own and (idle := own - set().union(*(crate.resting(fact, program.changes) for fact in program.facts))):
            faults.append(f'none of its facts rests on {min(idle)[1]}: {program.says}')
        for fact in program.facts:
            resting = crate.resting(fact, program.changes)
            if own and not own & resting:
                faults.append(f'{" ".join(fact)} does not rest on what it changes: {program.says}')
            for other, theirs in zip(programs, altered):
                if other is not program and (beside := theirs & resting):
                    faults.append(f'{" ".join(fact)} rests on {min(beside)[1]}, changed beside it: {program.says}')
    return faults


def shape_of(line):
    """Whether what the prover says is that a proof names what is not there: a goal, or a step of the function, that a change of the code took away."""
    return re.search(r'has no field|that can be named from here|is not in scope', line)


def missed(said, crate, texts):
    """The facts that the prover tells as missed, as (function or file of laws, goal or law), and the places where a proof names what is not there. A goal
    without an answer is told in a note before the line of its function, or in that line. A law that gives a record is missed field by field, as `law.field`,
    by its file's text, of the crate or changed."""
    facts, shapes, open_goals, own = set(), set(), [], circles(crate)
    for line in re.sub(r'\n  +', ' ', said).splitlines():
        if found := re.match(r'(?:\./)?((?:proofs|specs)/(\S+?)\.antt):(\d+):\d+: error: (?:`([^`]+)`: )?(.*)', line):
            file, place, number, need, what = found.groups()
            place = re.sub(r'/(?:Proof|Answers|Invariants)$', '', place)
            if shape_of(what):
                shapes.add(f'{place} {need}')
            elif 'was not admitted' not in what:
                text = texts.get(file) or (crate / file).read_text()
                facts.add((place, need))
                facts.update((place, f'{need}.{field}') for field in [given_at(text, need, int(number) - 1)] if field)
        elif found := re.match(r'note: src/\S+?:\d+:\d+: it is not proved .*?\(`([^`]+)`\)', line):
            open_goals.append(found.group(1))
        elif found := re.match(r'fn \w+::(\S+): ', line):
            searched = re.search(r'`search` did not prove ((?:`[^`]+`(?:, )?)+)', line)
            open_goals += re.findall(r'`([^`]+)`', searched.group(1)) if searched else []
            place = found.group(1).replace('::', '/')
            facts.update((f'+{own[place]}' if place in own else place, goal) for goal in open_goals)
            open_goals = []
    return facts, shapes


def given_at(text, law, number):
    """The field of a record that a law gives at a line of its file; None where it gives none."""
    return next((one.field_at(number) for one in definitions.declarations(text) if one.name == law and number in one.lines), None)
