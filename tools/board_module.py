"""The LLVM module of the proved library, made fit for every processor.

Each export of the module only unpacks what the x86-64 convention packs, and calls an inner function. That takes numbers and pointers alone: a slice as its
pointer and its 64-bit length, a struct of two numbers as both, any other struct by its address, and the address of room for a struct that is returned. A struct
of two numbers is returned as both. So each export gives way to a function mant_at_NAME with the same call, which C can declare on every processor: it takes
what the inner function takes, after the address of room for two numbers that are returned. Every line of the module must be of a form that is known here, and
known not to depend on a processor."""
import re
from typing import NamedTuple

from board_header import need

# All that may stand in the module: numbers of 1 to 64 bits and pointers, none made of the other, every load and store with its alignment, two numbers as one
# value, which lie as in a C struct, and bytes that are constant, which are all zero where they are read as more than bytes. It calls its own functions, and
# those that move, fill and trap.
WORDS = 'add|alloca|and|br|call|extractvalue|insertvalue|lshr|mul|or|phi|ret|select|shl|sub|switch|trunc|udiv|unreachable|urem|xor|zext'
KNOWN = re.compile(
    rf'  (%\S+ = )?(({WORDS})\b|icmp \w+ i|getelementptr (inbounds nuw )?i8, ptr |(load|store) (?!volatile|atomic).*, align ).*|    i\d+ -?\d+, label .*|  \]|'
    r'declare void @llvm\.(memmove\.p0\.p0\.i64|memset\.p0\.i64|trap)\(.*|define .*|}|[\w.]+:( +;.*)?|(attributes|source|;|!).*|'
    r'@static\.\d+ = private unnamed_addr constant \[\d+ x i8\] (c".*", align 1|zeroinitializer, align \d+)|')
# a number and a pointer as one value: the pointer lies at byte 8 on 64 bits, where the module stores it, and at byte 4 on 32
FOREIGN = re.compile(r'\b(i128|float|double|asm|addrspace|inttoptr|ptrtoint)\b|<\d+ x |\{ ptr, (?!i64 \})|\{ i\d+, ptr \}')
PAIR = r'\{ i\d+, i\d+ \}'
HEAD = re.compile(rf'define (?:noundef |zeroext )*(void|ptr|i\d+|{PAIR}) @\w+\((.*)\) #0 \{{')
ARGUMENT = re.compile(r'(ptr|i\d+)(?: noundef| zeroext)*(?: byval\(\[(\d+) x i8\]\) align 8)? %a(\d+)')
ROOM = re.compile(r'(%r\d+) = alloca \[(\d+) x i8\], align \d+')
STORED = re.compile(r'store (ptr|i\d+) (%[ar]\d+), ptr (%r\d+), align \d+')
SPOT = re.compile(r'(%r\d+) = getelementptr (?:inbounds nuw )?i8, ptr (%[ar]\d+), i64 (\d+)')
LOADED = re.compile(rf'(%r\d+) = load (ptr|i\d+|{PAIR}), ptr (%[ar]\d+), align \d+')
HALF = re.compile(rf'(%r\d+) = extractvalue {PAIR} (%r\d+), ([01])')
CALL = re.compile(rf'(?:(%r\d+) = )?call (void|i\d+|{PAIR}) @"([\w:]+)"\((.*)\)')
RETURN = re.compile(rf'ret (?:void|(?:ptr|i\d+|{PAIR}) (%[ar]\d+))')
# the pointer of a slice: where it is null, some address that is not
THERE = re.compile(r'  (%r\d+) = icmp eq ptr (%a\d+), null\n  (%r\d+) = zext i1 \1 to i64\n  (%r\d+) = mul i64 \3, 4096\n'
                   r'  (%r\d+) = getelementptr i8, ptr \2, i64 \4\n')


class Inner(NamedTuple):
    """An inner function. It takes ('result', bytes), ('struct', bytes), ('fields', places and types), ('slice', 16), ('number', type) or ('pointer', 0) each;
    bytes are 0 where the module does not say. Where it returns two numbers, ('pair', places and types) stands first."""
    name: str
    returned: str
    takes: list


def at(name):
    """The name of what stands for an export on every processor."""
    return name.replace('mant_', 'mant_at_', 1)


def arguments_of(name, words):
    """What an export is given, by the names of its arguments."""
    given = {}
    for order, word in enumerate(filter(None, words.split(', '))):
        found = ARGUMENT.fullmatch(word)
        need(found and int(found[3]) == order, f'{name}: an argument of another form: {word}')
        given[f'%a{order}'] = ('struct', int(found[2])) if found[2] else ('pointer', 0) if found[1] == 'ptr' else ('number', found[1])
    return given


class Export:
    """What an export does, read from its few kinds of instruction: its rooms, what is put into each and taken out, and the one function that it calls."""

    def __init__(self, name, lines):
        text = '\n'.join(lines) + '\n'
        head = HEAD.fullmatch(lines[0])
        need(head and lines[1] == 'start:' and lines[-1] == '}', f'{name}: an export of another form: {lines[0]}')
        self.name, self.returned, self.given = name, head[1], arguments_of(name, head[2])
        self.pointers = {found[5]: found[2] for found in THERE.finditer(text)}
        self.room, self.kept, self.spots, self.parts, self.halves, self.call, self.answer = {}, {}, {}, {}, {}, None, None
        for line in THERE.sub('', text).splitlines()[2:-1]:
            need(self.follows(line.removeprefix('  ')), f'{name}: an instruction that is not known: {line}')
        need(self.call is not None, f'{name} calls nothing')

    def place_of(self, value):
        return self.spots.get(value, (value, 0))

    def follows(self, line):
        """Follows an instruction; whether it is one of those that are known."""
        if found := ROOM.fullmatch(line):
            self.room[found[1]], self.kept[found[1]] = int(found[2]), []
        elif found := STORED.fullmatch(line):
            base, place = self.place_of(found[3])
            self.kept[base].append((place, found[1], found[2]))
        elif found := SPOT.fullmatch(line):
            self.spots[found[1]] = found[2], int(found[3])
        elif found := LOADED.fullmatch(line):
            self.parts[found[1]] = *self.place_of(found[3]), found[2]
        elif found := HALF.fullmatch(line):
            self.halves[found[1]] = found[2], int(found[3])
        elif (found := CALL.fullmatch(line)) and self.call is None:
            self.call = found
        elif found := RETURN.fullmatch(line):
            self.answer = found[1]
        else:
            return False
        return True

    def inner(self):
        takes, used, values = [], [], [word.split(' ')[-1] for word in self.call[4].split(', ') if word]
        while values:
            take, names = self.taken(values)
            takes.append(take)
            used += names
        pair = self.pair()
        if self.returned == 'ptr':
            need(takes[:1] == [('pointer', 0)] and self.answer == used[0], f'{self.name} returns another pointer')
            takes[0] = 'result', 0
        elif self.answer and not pair:
            base = self.parts.get(self.answer, (None,))[0]
            need(self.answer == self.call[1] or takes[:1] == [('result', self.room.get(base))], f'{self.name} returns something else')
        need(used == list(self.given), f'{self.name} hands its arguments on in another order, or not all: {used}')
        return Inner(self.call[3], self.call[2], pair + takes)

    def taken(self, values):
        """What the inner function takes next of these values, and the arguments of the export that this is made of."""
        value = values.pop(0)
        if value in self.given:
            return self.given[value], [value]
        if value in self.room:
            need(all(kind != 'ptr' for _, kind, _ in self.kept[value]), f'{self.name}: {value} holds a pointer')
            return ('struct' if self.kept[value] else 'result', self.room[value]), [argument for *_, argument in self.kept[value]]
        base = self.parts.get(value, (None,))[0]
        need(base is not None, f'{self.name}: {value} is no argument')
        parts = [self.parts[value][1:]]
        while values and self.parts.get(values[0], (None,))[0] == base:
            parts.append(self.parts[values.pop(0)][1:])
        if base in self.given:
            return ('fields', tuple(parts)), [base]
        kept = self.kept[base]
        if [(place, kind) for place, kind, _ in kept] == parts == [(0, 'ptr'), (8, 'i64')]:
            need(kept[0][2] in self.pointers, f'{self.name}: a slice whose pointer can be null')
            return ('slice', 16), [self.pointers[kept[0][2]], kept[1][2]]
        need(all(kind != 'ptr' for _, kind, _ in kept), f'{self.name}: {value} is neither of a slice nor of a struct')
        return ('fields', tuple(parts)), [argument for *_, argument in kept]

    def pair(self):
        """Where both numbers that the inner function returns lie in the struct that the export returns."""
        if not re.fullmatch(PAIR, self.call[2]):
            return []
        room = self.parts[self.answer][0]
        halves = [self.halves.get(value) for *_, value in self.kept[room]]
        kinds = re.findall(r'i\d+', self.call[2])
        need(halves == [(self.call[1], 0), (self.call[1], 1)] and kinds == [kind for _, kind, _ in self.kept[room]], f'{self.name} returns another pair')
        return [('pair', tuple((place, kind) for place, kind, _ in self.kept[room]))]


def exports_of(module):
    """The inner function of each export."""
    found = re.finditer(r'^define (?!internal\b)[^@]*@(\w+)\(.*?^}', module, flags=re.M | re.S)
    return {export[1]: Export(export[1], export[0].splitlines()).inner() for export in found}


def types_of(take):
    """The types under which an inner function is given what it takes."""
    kind, what = take
    return {'slice': ['ptr', 'i64'], 'number': [what], 'fields': [one for _, one in what] if kind == 'fields' else []}.get(kind, ['ptr'])


def stands_for(name, inner):
    """What stands for an export: the same call. A number that it returns fills its register."""
    pair = [what for kind, what in inner.takes if kind == 'pair']
    types = [one for take in inner.takes[len(pair):] for one in types_of(take)]
    words = ', '.join(f'{one} %a{order}' for order, one in enumerate(types))
    call = f'call {inner.returned} @"{inner.name}"({words})'
    if pair:
        words = ', '.join(filter(None, ['ptr %room', words]))
        lines = [f'%both = {call}']
        for order, (place, kind) in enumerate(pair[0]):
            lines += [f'%half{order} = extractvalue {inner.returned} %both, {order}', f'%spot{order} = getelementptr i8, ptr %room, i64 {place}',
                      f'store {kind} %half{order}, ptr %spot{order}, align {int(kind[1:]) // 8}']
        lines.append('ret void')
    elif inner.returned == 'void':
        lines = [call, 'ret void']
    else:
        need(inner.returned in ('i1', 'i8', 'i16', 'i64'), f'{name} returns {inner.returned}')
        lines = [f'%number = {call}', f'ret {inner.returned} %number']
    returned = 'void' if pair or inner.returned == 'void' else f'zeroext {inner.returned}'
    return '\n'.join([f'define {returned} @{at(name)}({words}) #0 {{', 'start:', *(f'  {line}' for line in lines), '}', ''])


def neutral(module, exports):
    """The module without its exports and without a word about x86-64, and with what stands for each export."""
    module = re.sub(r'^define (?!internal\b).*?^}\n', '', module, flags=re.M | re.S)
    module = re.sub(r'^target (datalayout|triple) = .*\n| "(target-cpu|probe-stack|stack-probe-size)"="[^"]*"', '', module, flags=re.M)
    for line in module.splitlines():
        need(KNOWN.fullmatch(line) and not FOREIGN.search(line), f'the module holds what is not known: {line}')
    return '\n'.join([module, *(stands_for(name, inner) for name, inner in exports.items())])
