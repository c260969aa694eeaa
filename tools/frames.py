"""How deep each call of the library can go on the stack, over every way through its code, counted in the disassembly.

Each function is followed from its first instruction, with count of what is pushed, reserved and released, and what the functions take that it calls is
added. A call through a pointer, a frame of no fixed size and a function that calls itself and is not in LEVELS cannot be counted, and are faults. Of memcpy
and memset the return address is counted, and not what the C library takes; nor are the arguments that a caller puts on the stack."""
import functools
import re
import shutil
import subprocess

TOOL = 'llvm-objdump'
# how often it is under way at once: elements go four levels down, and the fifth is refused; a path has each of up to 255 nodes once
LEVELS = {'elements::run_fault': 5, 'ways::count_from': 255}
PADDING = ('nop', 'cs', 'data16', 'int3')
OUTSIDE = {'memcpy', 'memset'}
FUNCTION = re.compile(r'^[0-9a-f]+ <(.+)>:$')
TARGET = re.compile(r'^\t\t[0-9a-f]+:\s+R_X86_64_\w+\s+(?:\.text\.)?([\w:]+)')
CODE = re.compile(r'^\s*([0-9a-f]+):\s+(\S+)\s*([^#]*)')
BELOW = re.compile(r'(?<![\w$])-(0x[0-9a-f]+|\d+)\(%rsp')


class Fault(Exception):
    """What is found in the code that cannot be counted."""


def functions(archive):
    """The instructions of each function: place, operation, operands, and the name that the linker puts in."""
    words = [TOOL, '-dr', '--no-show-raw-insn', str(archive)]
    code, body = {}, []
    for line in subprocess.run(words, check=True, stdout=subprocess.PIPE, text=True).stdout.splitlines():
        if name := FUNCTION.match(line):
            body = code[name[1]] = []
        elif target := TARGET.match(line):
            body[-1][3] = target[1]
        elif found := CODE.match(line):
            body.append([int(found[1], 16), found[2], found[3].strip(), None])
    return code


def moved(name, operation, operands):
    """How many bytes further down an instruction moves the stack pointer."""
    if operation.startswith('push'):
        return 8
    if operation.startswith('pop'):
        return -8
    if operands.split(', ')[-1] != '%rsp' or operation.startswith(('cmp', 'test')):
        return 0
    fixed = re.fullmatch(r'\$(-?\w+), %rsp', operands)
    if not fixed or operation not in ('subq', 'addq'):
        raise Fault(f'{name} has a frame of no fixed size: {operation} {operands}')
    return int(fixed[1], 0) * (1 if operation == 'subq' else -1)


def walked(name, code):
    """The most bytes that a function itself has below its return address, and each call that it makes with those there then. What only a table of jumps leads
    to is begun with as many as there are at such a jump."""
    place_of = {place: at for at, (place, *_) in enumerate(code)}
    depths, waiting, own, calls, by_table = {}, [(0, 0)], 0, [], []
    while waiting:
        at, depth = waiting.pop()
        if at in depths:
            if depths[at] != depth:
                raise Fault(f'{name} comes to one place with {depth} and with {depths[at]} bytes')
            continue
        depths[at] = depth
        _, operation, operands, target = code[at]
        after = depth + moved(name, operation, operands)
        own = max([own, after] + [depth + int(below, 0) for below in BELOW.findall(operands)])
        if operation.startswith('call'):
            if '*' in operands:
                raise Fault(f'{name} calls through a pointer')
            calls.append((depth + 8, target or re.search('<(.+)>', operands)[1]))
        elif operation.startswith('j') and target:
            calls.append((depth, target))
        elif operation.startswith('jmp') and '*' in operands:
            by_table.append(depth)
            if all(other in depths for other in range(len(code))):
                raise Fault(f'{name} goes on through a pointer')
        elif operation.startswith('j'):
            waiting.append((place_of[int(operands.split()[0], 16)], depth))
        if not operation.startswith(('jmp', 'ret', 'ud2')) and at + 1 < len(code):
            waiting.append((at + 1, after))
        left = [at for at, line in enumerate(code) if at not in depths and not line[1].startswith(PADDING)] if by_table and not waiting else []
        waiting += [(at, by_table[0]) for at in left[:1]]
    return own, calls


def deepest(code):
    """The most bytes that a call of each function can take, its return address included."""
    shapes = {name: walked(name, body) for name, body in code.items()}

    @functools.lru_cache(None)
    def below(name, under_way):
        if name in OUTSIDE:
            return 0
        if name not in shapes:
            raise Fault(f'{under_way[-1]} calls {name}, which is not in the library')
        if under_way.count(name) >= LEVELS.get(name, 1):
            if name not in LEVELS:
                raise Fault(f'{name} calls itself')
            return 0
        own, calls = shapes[name]
        return max([own] + [depth + below(other, under_way + (name,)) for depth, other in calls])

    return {name: 8 + below(name, ()) for name in shapes if name.startswith('mant_')}


def counted(archive):
    """The most bytes of each call of a library; None where there is nothing to disassemble with."""
    return deepest(functions(archive)) if shutil.which(TOOL) else None
