"""The C source between include/mant.h and the library's module: each function of the header, on top of the inner function that does its work.

It is written from both sides. What the header declares is compared with what the module's export does, parameter by parameter. A slice becomes the pointer and
64-bit length that the module takes. A struct of two numbers becomes these where the module takes both. A struct that holds a size is copied field by field into
one that is laid out as on x86-64. Every other struct is passed by its address as it is. A fact about each struct ends the compiler where a processor lays it
out otherwise."""
from typing import NamedTuple

from board_header import NUMBERS, need
from board_module import at

HEAD = '''/* Made by tools/build boards: the functions of mant.h, by those of the library that take pointers and numbers alone. */
#include "mant.h"

typedef uint64_t Wide __attribute__((aligned(8)));
#define SAME(fact) _Static_assert(fact, "laid out otherwise in the library")
#define WAY static inline __attribute__((unused))
SAME(_Alignof(uint64_t) == 8);
/* the pointer of a slice, which the library never takes null: where there is nothing, any other */
WAY void *there(const void *at) { return (void *)(at != NULL ? (uintptr_t)at : 4096); }
'''
WIDENED = {'size_t': 'uint64_t'}
IN_STRUCTS = {'bool': 'i8'}
BY_WIDTH = {'i8': 'uint8_t', 'i16': 'uint16_t', 'i32': 'uint32_t', 'i64': 'uint64_t'}


class Part(NamedTuple):
    """What the shim does for what an inner function takes: lines before the call, what the module should take there, what is passed, and its types."""
    lines: list
    wanted: tuple
    passed: str
    types: tuple = ('void *',)


class Shim:
    def __init__(self, header, exports):
        need(set(header.functions) == set(exports), f'header and module differ in {", ".join(sorted(set(header.functions) ^ set(exports)))}')
        self.header, self.lengths = header, {}  # of each slice, by function and parameter, the parameter that is its length
        kinds = {kind for function in header.functions.values() for kind in [function.returned, *(one.kind for one in function.parameters)]}
        while more := {field.kind for name in kinds & set(header.structs) for field in header.structs[name]} - kinds:
            kinds |= more
        self.text = '\n'.join([HEAD, *(self.struct(name) for name in header.structs if name in kinds),
                               *(self.function(name, exports[name], function) for name, function in header.functions.items())])

    def own(self, kind):
        """The type that the module knows for a struct of the header."""
        return f'{"In" * self.header.varies(kind)}{kind}'

    def struct(self, name):
        """The facts about a struct. Where it varies, about one that does not, with both ways between them."""
        fields, lines = self.header.structs[name], []
        need(all(field.kind in self.header.structs or field.kind in NUMBERS for field in fields), f'{name} holds what is no number, such as a pointer')
        if self.header.varies(name):
            need(all(field.times is None for field in fields), f'{name} holds a size and an array')
            lines = self.both_ways(name, fields)
        facts = [f'sizeof({self.own(name)}) == {self.header.places[name, None]}']
        facts += [f'offsetof({self.own(name)}, {field.name}) == {self.header.places[name, field.name]}' for field in fields]
        return '\n'.join(lines + [f'SAME({fact});' for fact in facts]) + '\n'

    def both_ways(self, name, fields):
        kinds = ['Wide' if NUMBERS.get(field.kind) == 'i64' else self.own(field.kind) for field in fields]
        members = ' '.join(f'{kind} {field.name};' for kind, field in zip(kinds, fields))
        lines = [f'typedef struct {{ {members} }} {self.own(name)};']
        for way, made, other in (('in', self.own(name), name), ('out', name, self.own(name))):
            values = ', '.join(self.moved(way, field) for field in fields)
            lines.append(f'WAY {made} {way}_{name}({other} from) {{ return ({made}){{{values}}}; }}')
        return lines

    def moved(self, way, field):
        if self.header.varies(field.kind):
            return f'{way}_{field.kind}(from.{field.name})'
        return f'({field.kind})from.{field.name}' if field.kind in NUMBERS else f'from.{field.name}'

    def lent(self, name, one, left, is_slice):
        """The part of a pointer: a slice with the length after it, or as many elements as the header says, whose address is passed as it is."""
        is_struct = one.kind in self.header.structs
        known = not self.header.varies(one.kind) if is_struct else one.kind in ('uint8_t', 'uint16_t', 'uint32_t', 'uint64_t')
        need(known, f'{name}: what {one.name} points to varies')
        if is_slice and one.times is None and left and left[0].kind == 'size_t' and not left[0].points:
            self.lengths[name, one.name] = length = left.pop(0).name
            return Part([], ('slice', 16), f'there({one.name}), {length}', ('void *', 'uint64_t'))
        need(is_struct or one.times, f'{name}: no length after {one.name}; if it has a fixed one, declare {one.kind} {one.name}[LENGTH]')
        return Part([], ('pointer', 0), f'(void *){one.name}')

    def parts_of(self, name, function, takes):
        """What is done for each argument of the inner function. A pointer and a size after it can be a slice, or lent memory and a number: the module tells."""
        parts, left = [], list(function.parameters)
        if function.returned in self.header.structs:
            wanted = self.both(function.returned, 'pair', takes[:1]) or ('result', self.header.places[function.returned, None])
            parts.append(Part([f'{self.own(function.returned)} result;'], wanted, '&result'))
        while left:
            one, take = left.pop(0), takes[len(parts):len(parts) + 1]
            if one.points:
                parts.append(self.lent(name, one, left, take == [('slice', 16)]))
            elif one.kind in self.header.structs:
                parts.append(self.given(one, take))
            else:
                need(one.kind in NUMBERS, f'{name}: a parameter of type {one.kind}')
                parts.append(Part([], ('number', NUMBERS[one.kind]), one.name, (WIDENED.get(one.kind, one.kind),)))
        return parts

    def both(self, kind, way, take):
        """A struct whose fields the module takes or returns as numbers, and so in which place and of which type each is; None where it does not."""
        fields = self.header.structs[kind]
        if [what for what, _ in take] != [way] or not all(field.kind in NUMBERS and field.times is None for field in fields):
            return None
        return way, tuple((self.header.places[kind, field.name], IN_STRUCTS.get(field.kind, NUMBERS[field.kind])) for field in fields)

    def given(self, one, take):
        """The part of a struct that is passed by value."""
        fields, varies = self.both(one.kind, 'fields', take), self.header.varies(one.kind)
        if fields:
            names = [field.name for field in self.header.structs[one.kind]]
            return Part([], fields, ', '.join(f'{one.name}.{name}' for name in names), tuple(BY_WIDTH[width] for _, width in fields[1]))
        lines = [f'{self.own(one.kind)} {one.name}_in = in_{one.kind}({one.name});'] if varies else []
        return Part(lines, ('struct', self.header.places[one.kind, None]), f'&{one.name}_in' if varies else f'&{one.name}')

    def agree(self, name, returned, parts, inner):
        """Header and module say the same. Where a struct is returned in one register, the module keeps its bytes for it, in two registers 16 whole bytes; where
        it is returned by its address, the module does not say how many."""
        wanted = [part.wanted for part in parts]
        kept = {want: want[1] if want[1] <= 8 else 16 if want[1] <= 16 else 0 for want in wanted if want[0] == 'result'}
        found = [want if kept.get(want) == room and kind == 'result' else (kind, room) for want, (kind, room) in zip(wanted, inner.takes)]
        need(wanted == found and len(wanted) == len(inner.takes), f'{name} is declared to take {wanted}; in the module it takes {inner.takes}')
        known = returned in NUMBERS or returned in self.header.structs or returned == 'void'
        right = inner.returned == NUMBERS.get(returned, 'void') or wanted[:1] == inner.takes[:1] and wanted[0][0] == 'pair'
        need(known and right, f'{name} is declared to return {returned}; in the module it returns {inner.returned}')

    def function(self, name, inner, function):
        parts, returned = self.parts_of(name, function, inner.takes), function.returned
        self.agree(name, returned, parts, inner)
        lines = [line for part in parts for line in part.lines]
        call = f'{at(name)}({", ".join(part.passed for part in parts)});'
        if returned in self.header.structs:
            lines += [call, f'return {f"out_{returned}(result)" if self.header.varies(returned) else "result"};']
        else:
            lines.append(call if returned == 'void' else f'return ({returned}){call}')
        types = [one for part in parts for one in part.types]
        answer = WIDENED.get(returned, returned) if returned in NUMBERS else 'void'
        return '\n'.join([f'extern {answer} {at(name)}({", ".join(types) or "void"});', f'{returned} {name}({function.words or "void"})', '{',
                          *(f'    {line}' for line in lines), '}\n'])
