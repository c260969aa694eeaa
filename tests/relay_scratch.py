"""./relay in a scratch folder, for tests/run_relay."""
import os
import pathlib
import shutil
import subprocess
import sys
import time

from trying import TOP, copied, heeding, script, written

TOOLS = ('building', 'board_header', 'board_module', 'board_shim', 'boards', 'command', 'digits', 'keeping', 'paging')
PARTS = ('relay', *(f'tools/{name}.py' for name in TOOLS), 'docs/NUMBERS.md', 'examples')
BUILDS = 'mkdir -p crates/relay/out\ncp built crates/relay/out/relay && echo rt: running out/relay\n'  # as the real one, which also runs what it built
BUILT = TOP / 'target/bin/relay'


class Scratch:
    """A folder with ./relay, an `rt` of these shell lines and a program `relay`: a copy of the built one, or of these shell lines."""

    def __init__(self, folder, rt=BUILDS, program=None):
        self.top = copied(folder, PARTS, rt)
        written(self.top, {'crates.txt': 'relay:\n', 'crates/relay/src/main.rt': ''})
        if program is None:
            shutil.copy(BUILT, self.top / 'built')
        else:
            script(self.top / 'built', program)
        self.path = f'{self.top}/bin:{os.environ["PATH"]}'

    def start(self, *words, **more):
        streams = {'stdin': subprocess.DEVNULL, 'stdout': subprocess.PIPE, 'stderr': subprocess.PIPE}
        more = {**streams, 'env': {**os.environ, 'PATH': self.path}, 'preexec_fn': heeding, **more}
        return subprocess.Popen([sys.executable, self.top / 'relay', *words], cwd=self.top, **more)

    def run(self, *words, **more):
        """The status, what was printed, and what was said on standard error."""
        child = self.start(*words, **more)
        printed, said = child.communicate(timeout=60)
        said = said.decode()
        assert 'Traceback' not in said, said
        return child.returncode, printed, said

    def relayed(self, content, *words):
        (self.top / 'job').write_bytes(content)
        return self.run(*words, 'job')


def same(found, wanted):
    assert found == wanted, f'{found!r}, should be {wanted!r}'


def has(text, words):
    assert words in text, f'{text!r}, should have {words!r}'


def is_gone(pid):
    """Whether a process has ended, in a moment at the latest, on a machine that is busy too."""
    for _ in range(600):
        stat = pathlib.Path(f'/proc/{pid}/stat')
        if not stat.exists() or ') Z ' in stat.read_text():
            return True
        time.sleep(0.05)
    return False


def appears(file):
    for _ in range(200):
        if file.exists() and file.read_text().endswith('\n'):
            return file.read_text().strip()
        time.sleep(0.05)
    raise AssertionError(f'{file.name} was not written')
