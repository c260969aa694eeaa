"""What include/mant.h declares: its structs, its functions, and where each field lies on a processor. Read from the header as the kit's compiler
preprocesses it, so that a length that is a name has become a number."""
import re
from typing import NamedTuple

# The kit's compiler has no headers of the C library; these are all that mant.h includes.
INCLUDED = {
    'stdint.h': ''.join(f'typedef __UINT{bits}_TYPE__ uint{bits}_t;\n' for bits in (8, 16, 32, 64)) + 'typedef __UINTPTR_TYPE__ uintptr_t;\n',
    'stddef.h': 'typedef __SIZE_TYPE__ size_t;\n#define NULL ((void *)0)\n#define offsetof __builtin_offsetof\n',
    'stdbool.h': '#ifndef __cplusplus\ntypedef _Bool bool;\n#define true 1\n#define false 0\n#endif\n',
}
NUMBERS = {'uint8_t': 'i8', 'uint16_t': 'i16', 'uint32_t': 'i32', 'uint64_t': 'i64', 'size_t': 'i64', 'bool': 'i1'}
STRUCT = re.compile(r'typedef struct (\w+) \{(.*?)\} \1;', re.S)
FIELD = re.compile(r'(const \w+ \*|\w+ )(\w+)(?:\[(\d+)\])?')
FUNCTION = re.compile(r'\b(?!return\b)(\w+)\s+(mant_\w+)\(([^()]*)\)\s*;')
PARAMETER = re.compile(r'(const )?(\w+ \*?)(\w+)(?:\[(\d+)\])?')


class Fault(Exception):
    """What is not known, in words: nothing is made of it."""


class Field(NamedTuple):
    """A field of a struct; `times` is how many elements it has, or None where it is no array."""
    kind: str
    name: str
    times: int


class Parameter(NamedTuple):
    """A parameter. `kind` is a type of the header; `points` whether the parameter is a pointer to it, and `times` then how many there are, where it says."""
    kind: str
    name: str
    points: bool
    constant: bool
    times: int


class Function(NamedTuple):
    returned: str
    parameters: list
    words: str


class Header(NamedTuple):
    structs: dict
    functions: dict
    places: dict

    def varies(self, kind):
        """Whether a type is a struct that holds a size: not every processor lays it out as x86-64 does."""
        return any(field.kind == 'size_t' or self.varies(field.kind) for field in self.structs.get(kind, ()))


def need(holds, words):
    if not holds:
        raise Fault(words)


def fields_of(name, body):
    found = [FIELD.fullmatch(' '.join(field.split())) for field in body.split(';')[:-1]]
    need(all(found), f'{name} has a field of another form')
    return [Field(field[1].strip(), field[2], int(field[3]) if field[3] else None) for field in found]


def parameters_of(name, words):
    found = [PARAMETER.fullmatch(' '.join(word.split())) for word in words.split(',') if word.strip() != 'void']
    need(all(found), f'{name} has a parameter of another form')
    return [Parameter(one[2].rstrip('* '), one[3], '*' in one[2] or one[4] is not None, bool(one[1]), int(one[4]) if one[4] else None) for one in found]


def declared(text):
    """The structs and the functions of a preprocessed header."""
    structs = {name: fields_of(name, body) for name, body in STRUCT.findall(text)}
    functions = {name: Function(returned, parameters_of(name, words), ' '.join(words.split())) for returned, name, words in FUNCTION.findall(text)}
    return structs, functions


def places_of(structs, clang, folder, target):
    """The size of each struct on a processor, at (name, None), and the place of each field, by the kit's compiler."""
    wanted = [(name, field) for name in structs for field in [None, *(field.name for field in structs[name])]]
    source = folder / 'places.c'
    values = [f'offsetof({name}, {field})' if field else f'sizeof({name})' for name, field in wanted]
    source.write_text('#include "mant.h"\nconst unsigned long long all[] = {' + ', '.join(values) + '};\n')
    text = clang(*target, f'-I{folder}', '-S', '-emit-llvm', source, '-o', '-')
    found = re.findall(r'i64 (\d+)', re.search(r'@all = .* constant \[\d+ x i64\] \[(.*?)\]', text)[1])
    return dict(zip(wanted, map(int, found), strict=True))


def read(header, clang, folder, target):
    """The header, with the places that its fields have on a processor. The folder gets the header and those that it includes."""
    folder.mkdir(parents=True, exist_ok=True)
    for name, text in {**INCLUDED, 'mant.h': header}.items():
        (folder / name).write_text(text)
    structs, functions = declared(clang(*target, '-E', '-P', f'-I{folder}', folder / 'mant.h'))
    return Header(structs, functions, places_of(structs, clang, folder, target))
