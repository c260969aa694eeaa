"""The library for other processors: target/boards/TARGET/libmant.a, and for WebAssembly also libmant.wasm, which JavaScript loads alone.

All are made of the LLVM module that the x86-64 library is made of, by the Rattle kit's own compiler. The module is made fit for every processor
(tools/board_module.py), and C is written between it and include/mant.h (tools/board_shim.py). The compiler makes one object of both. Its symbols are exactly
the header's."""
import contextlib
import hashlib
import json
import pathlib
import subprocess
import tempfile

import board_header
import board_module
from board_shim import Shim

ARM = '-fshort-enums -meabi gnu'  # as arm-none-eabi-gcc: enums as short as can be, and memcpy by its own name
SMALL, FAST = '-Os', '-O3'
# Soft and hard float do not link together, although the library uses no float. So there are two archives for the Cortex-M4.
TARGETS = {
    'cortex-m0plus': (SMALL, f'--target=thumbv6m-none-eabi -mcpu=cortex-m0plus {ARM}'),
    'cortex-m3': (SMALL, f'--target=thumbv7m-none-eabi -mcpu=cortex-m3 -mfloat-abi=soft {ARM}'),
    'cortex-m4': (SMALL, f'--target=thumbv7em-none-eabi -mcpu=cortex-m4 -mfloat-abi=soft {ARM}'),
    'cortex-m4f': (SMALL, f'--target=thumbv7em-none-eabihf -mcpu=cortex-m4 -mfloat-abi=hard {ARM}'),
    'armv7-linux': (FAST, '--target=armv7-linux-gnueabihf -mfpu=vfpv3-d16 -fPIC'),
    'aarch64-linux': (FAST, '--target=aarch64-linux-gnu -fPIC'),
    'riscv32imac': (FAST, '--target=riscv32-unknown-elf -march=rv32imac -mabi=ilp32'),
    'riscv64-linux': (FAST, '--target=riscv64-linux-gnu -march=rv64gc -mabi=lp64d -fPIC'),
    'wasm32': (SMALL, '--target=wasm32-unknown-unknown -mcpu=mvp -mbulk-memory'),
}
X86_64 = '--target=x86_64-unknown-linux-gnu --no-default-config -ffreestanding'.split()
COMPILED = ('-std=c11 --no-default-config -ffreestanding -ffunction-sections -fdata-sections -Wall -Wextra -Werror -mllvm -trap-unreachable '
            '-mllvm -no-trap-after-noreturn -c').split()
LINKED = '-flavor wasm --no-entry --strip-all --export-memory --export=__heap_base --stack-first -z stack-size=65536'.split()
# In WebAssembly a product of two 64-bit numbers with all its bits is a call, which only a compiler's own library has. These lines are it.
MULTIPLIED = '''typedef unsigned long long Half;
typedef struct { Half low, high; } Whole;
__attribute__((visibility("hidden"))) Whole __multi3(Half a, Half a_high, Half b, Half b_high)
{
    const Half low = 0xFFFFFFFFu, c = (a & low) * (b & low), d = (a >> 32) * (b & low), e = (a & low) * (b >> 32);
    const Half middle = (c >> 32) + (d & low) + (e & low);
    return (Whole){(middle << 32) | (c & low), (a >> 32) * (b >> 32) + (d >> 32) + (e >> 32) + (middle >> 32) + a * b_high + a_high * b};
}
'''
MADE_BY = [pathlib.Path(__file__).with_name(f'{name}.py') for name in ('boards', 'board_header', 'board_module', 'board_shim')]


def run(*words):
    """What a command says; a fault where it fails."""
    done = subprocess.run(list(map(str, words)), capture_output=True, text=True)
    board_header.need(done.returncode == 0, f'{" ".join(map(str, words))}\n{done.stderr}')
    return done.stdout


class Maker:
    """Makes the library for one target after another of a module (bitcode or text) and a header."""

    def __init__(self, toolchain, module, header, folder):
        self.tools, self.folder, self.header_text = toolchain / 'bin', folder, header.read_text()
        self.work = folder / 'work'
        text = self.clang(*X86_64, '-x', 'ir', module, '-S', '-emit-llvm', '-Xclang', '-disable-llvm-passes', '-o', '-')
        self.header = board_header.read(self.header_text, self.clang, self.work, X86_64)
        exports = board_module.exports_of(text)
        self.shim, self.module = self.work / 'shim.c', self.work / 'module.ll'
        shim = Shim(self.header, exports)
        self.lengths = shim.lengths
        self.shim.write_text(shim.text)
        self.module.write_text(board_module.neutral(text, exports))

    def clang(self, *words):
        return run(self.tools / 'clang', *words)

    def object_for(self, target, code, level=None):
        """One object of shim and module."""
        usual, flags = TARGETS[target]
        bitcode = code.with_suffix('.bc')
        self.clang(*flags.split(), '--no-default-config', '-Wno-override-module', '-x', 'ir', self.module, '-c', '-emit-llvm',
                   '-Xclang', '-disable-llvm-passes', '-o', bitcode)
        self.clang(*flags.split(), level or usual, *COMPILED, f'-I{self.work}', '-Xclang', '-mlink-builtin-bitcode', '-Xclang', bitcode, self.shim, '-o', code)
        bitcode.unlink()

    def archive(self, target, archive, level=None):
        """The archive for a target, at its own level of optimization or at another. It appears whole or not at all."""
        archive.parent.mkdir(parents=True, exist_ok=True)
        with tempfile.TemporaryDirectory(dir=archive.parent) as work:
            code, made = pathlib.Path(work, 'mant.o'), pathlib.Path(work, archive.name)
            self.object_for(target, code, level)
            run(self.tools / 'llvm-ar', 'crs', made, code)
            if target.startswith('wasm'):
                self.module_for_javascript(target, code, archive.with_suffix('.wasm'))
            made.replace(archive)

    def module_for_javascript(self, target, code, wasm):
        """libmant.wasm needs no import: it has its memory, and all that it calls. Beside it, libmant.json says what JavaScript has to know of the header."""
        flags, part, more = TARGETS[target][1].split(), code.with_name('multi3.o'), code.with_name('multi3.c')
        more.write_text(MULTIPLIED)
        self.clang(*flags, '-O2', *COMPILED, more, '-o', part)
        names = [f'--export={name}' for name in self.header.functions]
        run(self.tools / 'ld.lld', *LINKED, *names, code, part, '-o', code.with_name(wasm.name))
        code.with_name(wasm.name).replace(wasm)
        there = board_header.read(self.header_text, self.clang, self.work, [*flags, '--no-default-config', '-ffreestanding'])
        wasm.with_suffix('.json').write_text(json.dumps(described(there), indent=1) + '\n')


def described(header):
    """Structs and functions of a header as data: a field is its place, its type and its count, where it is an array."""
    structs = {name: {'size': header.places[name, None], 'fields': {field.name: [header.places[name, field.name], field.kind, *filter(None, [field.times])]
                                                                    for field in fields}} for name, fields in header.structs.items()}
    functions = {name: {'returns': function.returned, 'takes': [[one.kind + ' *' * one.points, one.name, *filter(None, [one.times])]
                                                                for one in function.parameters]} for name, function in header.functions.items()}
    return {'structs': structs, 'functions': functions}


def made_for(folder, target):
    """The files that are made for a target."""
    return [folder / target / f'libmant.{kind}' for kind in (('a', 'wasm', 'json') if target.startswith('wasm') else ('a',))]


def state_of(module, header, made):
    """A sum over all that a target's files are made of, and the files."""
    return ' '.join(hashlib.sha256(file.read_bytes()).hexdigest() for file in [module, header, *MADE_BY, *made])


def make(toolchain, module, header, folder, targets):
    """Makes the library for these targets, unless what is there was made of the same. Raises board_header.Fault where something is not known."""
    maker = None
    for target in targets:
        made, made_from = made_for(folder, target), folder / target / 'libmant.from'
        with contextlib.suppress(OSError):
            if made_from.read_text() == state_of(module, header, made):
                continue
        maker = maker or Maker(toolchain, module, header, folder)
        made_from.unlink(missing_ok=True)
        maker.archive(target, made[0])
        made_from.write_text(state_of(module, header, made))
