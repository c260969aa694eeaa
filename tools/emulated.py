"""How a C program is compiled and run for each target of tools/boards.py, with the cross compilers and the emulators of Debian's packages. The library is made
by the kit's compiler and its callers by another, so each calling convention is tried between two compilers."""
import pathlib
import shutil
import subprocess
import tempfile
from typing import NamedTuple

TOP = pathlib.Path(__file__).resolve().parent.parent
BOARD = TOP / 'examples/board'
STRICT = '-std=c11 -O2 -Wall -Wextra -pedantic -Werror'.split()
SEMIHOSTING = '-nographic -monitor none -serial none -semihosting-config enable=on,target=native'
# what picolibc's own linker script asks for: where memory lies on QEMU's virt
VIRT = '-Wl,' + ','.join(f'--defsym=__{name}={value}' for name, value in (
    ('flash', 0x80000000), ('flash_size', 0x400000), ('ram', 0x80400000), ('ram_size', 0x800000), ('stack_size', 0x10000)))
PICOLIBC = f'--specs=picolibc.specs --oslib=semihost --crt0=hosted {VIRT}'
NEWLIB = f'-mthumb -nostartfiles --specs=rdimon.specs {BOARD}/start.c -Wno-pedantic'
ARM_PACKAGES = ('gcc-arm-none-eabi', 'libnewlib-arm-none-eabi', 'make', 'qemu-system-arm')


class Target(NamedTuple):
    """The compiler and its words, the words that run a program, and Debian's packages for both."""
    compiler: str
    runner: str
    packages: tuple


def linux(triple, emulator, libc):
    return Target(f'{triple}-gcc -static', emulator, (f'gcc-{triple}', libc, 'qemu-user'))


def cortex(words, machine):
    return Target(f'arm-none-eabi-gcc {words} {NEWLIB}', f'qemu-system-arm -M {machine} {SEMIHOSTING} -kernel', ARM_PACKAGES)


TARGETS = {
    'cortex-m0plus': cortex('-mcpu=cortex-m0plus', 'microbit -global nrf51-soc.sram-size=4194304'),
    'cortex-m3': cortex('-mcpu=cortex-m3', 'mps2-an385'),
    'cortex-m4': cortex('-mcpu=cortex-m4', 'mps2-an386'),
    'cortex-m4f': cortex('-mcpu=cortex-m4 -mfpu=fpv4-sp-d16 -mfloat-abi=hard', 'mps2-an386'),
    'armv7-linux': linux('arm-linux-gnueabihf', 'qemu-arm', 'libc6-dev-armhf-cross'),
    'aarch64-linux': linux('aarch64-linux-gnu', 'qemu-aarch64', 'libc6-dev-arm64-cross'),
    'riscv32imac': Target(f'riscv64-unknown-elf-gcc -march=rv32imac -mabi=ilp32 {PICOLIBC}', f'qemu-system-riscv32 -M virt -bios none {SEMIHOSTING} -kernel',
                          ('gcc-riscv64-unknown-elf', 'picolibc-riscv64-unknown-elf', 'qemu-system-misc')),
    'riscv64-linux': linux('riscv64-linux-gnu', 'qemu-riscv64', 'libc6-dev-riscv64-cross'),
    'wasm32': Target('clang-14 --target=wasm32-wasi -Wl,-z,stack-size=262144', f'node --no-warnings {TOP}/tests/boards/wasi.mjs',
                     ('clang-14', 'lld-14', 'wasi-libc', 'libclang-rt-14-dev-wasm32', 'nodejs')),
}


class Fault(Exception):
    """What a compiler said, or that a program did not end."""


class Emulated:
    """A target whose programs are compiled and run in a folder."""

    def __init__(self, name, archive, work):
        self.name, self.archive, self.work = name, archive, pathlib.Path(work)
        self.compiler, self.runner = TARGETS[name].compiler.split(), TARGETS[name].runner.split()
        self.is_cortex = name.startswith('cortex')

    def compiled(self, program, *sources, more=()):
        """Compiles and links a program. On a Cortex-M by the start and the linker script of examples/board, with more memory."""
        if self.is_cortex:
            script = self.work / 'board.ld'
            script.write_text((BOARD / 'board.ld').read_text().replace('0x20000000, LENGTH = 256K', '0x20000000, LENGTH = 4096K'))
            more = [*more, '-T', script]
        made = self.work / program
        words = [self.compiler[0], *STRICT, f'-I{TOP}/include', *more, *sources, *self.compiler[1:], self.archive, '-o', made]
        done = subprocess.run(list(map(str, words)), capture_output=True, text=True)
        if done.returncode != 0:
            raise Fault(f'{self.name}: {program} is not compiled:\n{done.stderr}')
        return made

    def run(self, program, more=()):
        """The status of a program and what it said; `more` are words for the emulator."""
        try:
            words = [*self.runner[:1], *more, *self.runner[1:], program]
            done = subprocess.run(words, capture_output=True, timeout=300, stdin=subprocess.DEVNULL, cwd=self.work)
        except subprocess.TimeoutExpired as error:
            raise Fault(f'{self.name}: {program.name} does not end') from error
        return done.returncode, (done.stdout + done.stderr).decode(errors='replace')


def lacking(name):
    """Why programs for a target cannot be compiled or run here, or None."""
    for word in (TARGETS[name].compiler.split()[0], TARGETS[name].runner.split()[0], *(word for word in TARGETS[name].packages if word == 'make')):
        if not shutil.which(word):
            return f'{word} is not installed'
    with tempfile.TemporaryDirectory() as work:
        source = pathlib.Path(work, 'nothing.c')
        source.write_text('#include <stdio.h>\n#include <stdint.h>\nint main(void) { return printf("ok\\n") != 3; }\n')
        try:
            here = Emulated(name, source.with_name('none.c'), work)
            here.archive.write_text('typedef int none;\n')
            return None if here.run(here.compiled('nothing', source)) == (0, 'ok\n') else f'{here.runner[0]} does not run a program'
        except (Fault, OSError) as fault:
            return str(fault).splitlines()[0]
