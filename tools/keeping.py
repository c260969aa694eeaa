"""Keeps the LLVM module that the Rattle kit makes of a proved library, and compiles for x86-64: the library for every other processor is made of the same
module (tools/boards.py)."""

KEEPER = """#!/bin/sh
# Keeps the module that it is asked to compile, and compiles it as asked.
for word; do
    case $word in *.bc) cp "$word" {kept} ;; esac
done
exec {compiler} "$@"
"""


def linked(folder, there, *left_out):
    """A folder with a link to everything in another but for what is left out."""
    folder.mkdir(exist_ok=True)
    for file in there.iterdir():
        if file.name not in left_out:
            (folder / file.name).symlink_to(file)


def keeping_toolchain(folder, toolchain, kept):
    """A toolchain like this one, whose compiler also keeps the module that it compiles."""
    linked(folder, toolchain, 'bin')
    linked(folder / 'bin', toolchain / 'bin', 'clang')
    compiler = folder / 'bin/clang'
    compiler.write_text(KEEPER.format(kept=kept, compiler=toolchain / 'bin/clang'))
    compiler.chmod(0o755)
    return folder
