#!/usr/bin/env python3
"""tests/boards/faults.py: changes of the header or of the module that tools/boards.py must refuse, each with a line that says what is wrong; and figures of
docs/firmware.md that tools/firmware must take or mend. Prints a count; exits 1 where one is taken that should not be, or where nothing is left to change."""
import importlib.machinery
import importlib.util
import pathlib
import re
import sys
import tempfile

sys.dont_write_bytecode = True
TOP = pathlib.Path(__file__).resolve().parent.parent.parent
sys.path.insert(0, str(TOP / 'tools'))
import board_header  # noqa: E402
import boards  # noqa: E402
import building  # noqa: E402
import verdict  # noqa: E402

HEADER, MODULE = 'mant.h', 'mant.ll'
FIRST = r'(define internal [^\n]*\{\nstart:\n)'
# the file, what stands there, what is put in its place, and a word of the line that refuses it
CHANGES = (
    (HEADER, r'MantLimits mant_limits\(void\);', r'', 'mant_limits'),
    (HEADER, r'MantLimits mant_limits\(void\);', r'MantLimits mant_limits(void);\nuint8_t mant_other(void);', 'mant_other'),
    (HEADER, r'size_t bytes_length, uint16_t address\);', r'size_t bytes_length, uint32_t address);', 'mant_path_has'),
    (HEADER, r'size_t bytes_length, uint16_t address\);', r'size_t bytes_length, int address);', 'type int'),
    (HEADER, r'mant_read\(uint64_t edition, const uint8_t \*bytes, size_t bytes_length\)',
     r'mant_read(const uint8_t *bytes, size_t bytes_length, uint64_t edition)', 'mant_read'),
    (HEADER, r'MantWritten mant_seal\(MantKey key, uint64_t number', r'MantWritten mant_seal(uint64_t number, MantKey key', 'mant_seal'),
    (HEADER, r'MantWritten mant_seal\(MantKey key', r'MantWritten mant_seal(MantSending key', 'mant_seal'),
    (HEADER, r'mant_acknowledge\((.*?)MantAnswer answer, MantSending sending', r'mant_acknowledge(\1MantSending answer, MantAnswer sending',
     'mant_acknowledge'),
    (HEADER, r'uint16_t mant_path_address', r'uint8_t mant_path_address', 'mant_path_address'),
    (HEADER, r'MantFound mant_station_at', r'MantLimits mant_station_at', 'mant_station_at'),
    (HEADER, r'uint64_t length;( +/\* not)', r'size_t length; \1', 'MantRetained'),
    (HEADER, r'uint8_t mant_queue_add\(MantQueue \*queue', r'uint8_t mant_queue_add(MantLevel *queue', 'queue points to varies'),
    (HEADER, r'uint64_t sent_at;', r'const uint8_t *sent_at;', 'no number'),
    (HEADER, r'MANT_SIZE\(MantHeard, 6\);', r'MANT_SIZE(MantHeard, 8);', 'MantHeard'),
    (HEADER, r'uint16_t block\[MANT_LIST_WORDS\]', r'uint16_t *block', 'no length after block'),
    (HEADER, r'uint8_t mant_queue_add\(MantQueue \*queue', r'uint8_t mant_queue_add(MantQueue *queue, size_t queue_length', 'mant_queue_add'),
    (HEADER, r'uint8_t mant_queue_add\(MantQueue \*queue', r'uint8_t mant_queue_add(MantQueue queue', 'mant_queue_add'),
    (HEADER, r'uint64_t value;\n\} MantBound;\nMANT_SIZE\(MantBound, 16\);', r'uint32_t value;\n} MantBound;\nMANT_SIZE(MantBound, 8);', 'mant_most'),
    (HEADER, r'defined\(__ARM_ARCH_7EM__\)', r'defined(__ARM_ARCH_9Z__)', 'tested on'),
    (MODULE, r'(define [^\n]*i16 @mant_path_address\(.*?)  ret i16', r'\1  %r99 = add i64 1, 1\n  ret i16', 'mant_path_address'),
    (MODULE, r'(define [^\n]*@mant_most_bytes\(.*?)i64 %a0, i64 %a1, i64 %a2\)\n', r'\1i64 %a1, i64 %a0, i64 %a2)\n', 'mant_most_bytes'),
    (MODULE, r'(define [^\n]*@mant_most_bytes\(.*?)i64 %a0, i64 %a1, i64 %a2\)\n', r'\1i64 %a0, i64 %a1, i64 %a1)\n', 'mant_most_bytes'),
    (MODULE, r'(define [^\n]*ptr @mant_read\(.*?)  store i64 %a3, ptr %r\d+', r'\1  store i64 %a3, ptr %r0', 'mant_read'),
    (MODULE, r'define internal void @"mant::reading::mant_read"', r'define void @"mant::reading::mant_read"', 'mant'),
    (MODULE, r'(define [^\n]*@mant_count_answer\([^\n]*)byval\(\[40 x i8\]\)', r'\1byval([48 x i8])', 'mant_count_answer'),
    (MODULE, r'(define [^\n]*@mant_count_heard\([^\n]*), i48 ', r'\1, i40 ', 'i40'),
    (MODULE, FIRST, r'\1  %rp = alloca i8, align 1\n  %rn = ptrtoint ptr %rp to i64\n', 'ptrtoint'),
    (MODULE, FIRST, r'\1  %rp = alloca i8, align 1\n  %rn = icmp eq ptr %rp, null\n', 'icmp'),
    (MODULE, FIRST, r'\1  %rn = add i128 1, 1\n', 'i128'),
    (MODULE, FIRST, r'\1  %rp = alloca [16 x i8], align 8\n  %rn = load { i8, ptr }, ptr %rp, align 8\n', 'i8, ptr'),
    (MODULE, FIRST, r'\1  %rp = alloca i8, align 1\n  %rn = load volatile i8, ptr %rp, align 1\n', 'volatile'),
    (MODULE, r'(declare void @llvm.trap)', r'declare void @other()\n\n\1', 'other'),
    (MODULE, r'(define internal )', r'@other = global i64 0\n\n\1', 'other'),
)


def refused(texts, work):
    """The line that refuses these texts, or None."""
    for name, text in texts.items():
        (work / name).write_text(text)
    try:
        boards.Maker(building.toolchain(), work / MODULE, work / HEADER, work / 'made').archive('cortex-m4', work / 'made/libmant.a')
    except board_header.Fault as fault:
        return str(fault)
    return None


def faults_of(texts):
    for file, old, new, word in CHANGES:
        changed, times = re.subn(old, new, texts[file], count=1, flags=re.S)
        if times == 0 or changed == texts[file]:
            yield f'nothing to change in {file}: {old}'
            continue
        with tempfile.TemporaryDirectory() as work:
            said = refused({**texts, file: changed}, pathlib.Path(work))
        if said is None:
            yield f'{file} is taken with {new}'
        elif word not in said:
            yield f'{file} with {new} is refused by another line: {said[:300]}'


def loaded(name):
    """A command of tools/ as a module."""
    loader = importlib.machinery.SourceFileLoader(name, str(TOP / 'tools' / name))
    module = importlib.util.module_from_spec(importlib.util.spec_from_loader(name, loader))
    loader.exec_module(module)
    return module


def page_faults():
    """A figure that is near is left as it is said, and one that is not, or another level, is mended."""
    firmware = loaded('firmware')
    text = '| `cortex-m4` | bare | -Os | 1,000 | 500 | not counted | 64 |\n| `mant_read` | 100 | 200 |\n'
    for what, rows, same in (('the same', {'cortex-m4': ['-Os', 1000, 500, None, 64], 'mant_read': [100, 200]}, True),
                             ('a tenth more', {'cortex-m4': ['-Os', 1099, 549, None, 64], 'mant_read': [164, 136]}, True),
                             ('more flash', {'cortex-m4': ['-Os', 1120, 500, None, 64]}, False),
                             ('another level', {'cortex-m4': ['-O3', 1000, 500, None, 64]}, False),
                             ('more stack', {'mant_read': [100, 265]}, False), ('no stack told', {'cortex-m4': ['-Os', 1000, 500, 7, 64]}, False)):
        if (firmware.right_page(text, rows, None, False) == text) != same:
            yield f'docs/firmware.md with {what} is {"mended" if same else "taken"}'


def main():
    clang = building.toolchain() / 'bin/clang'
    with tempfile.TemporaryDirectory() as work:
        work = pathlib.Path(work)
        boards.run(clang, *boards.X86_64, '-x', 'ir', building.module_of('mant'), '-S', '-emit-llvm', '-Xclang', '-disable-llvm-passes', '-o', work / MODULE)
        texts = {HEADER: (TOP / 'include/mant.h').read_text(), MODULE: (work / MODULE).read_text()}
        faults = [f'header and module as they are: {said}'] if (said := refused(texts, work)) else []
    faults += [*faults_of(texts), *page_faults()]
    return verdict.told('boards', faults, f'{len(CHANGES)} changes of header and module, {len(faults)} not refused as they should be')


if __name__ == '__main__':
    sys.exit(main())
