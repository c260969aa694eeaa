"""What the tests in Python share: a count of what they ask, small repositories and copies of this one in scratch folders, and the reference model
(rust/reference). With it the modules in tools/ and python/ can be imported."""
import pathlib
import shutil
import signal
import subprocess
import sys
import time

TOP = pathlib.Path(__file__).resolve().parent.parent
sys.path[:0] = [str(TOP / 'tools'), str(TOP / 'python')]
SEEDS = ('1', time.strftime('%Y%m%d', time.gmtime()))  # of generated inputs: a fixed one, and a new one each day


class Tally:
    """Counts what is asked, and says what differs, each as it is to be shown."""

    def __init__(self, shown=str):
        self.asked, self.differ, self.shown = 0, 0, shown

    def same(self, what, found, wanted):
        self.asked += 1
        if found != wanted:
            self.differ += 1
            print(f'{what}:\n{self.shown(found)}\nshould be\n{self.shown(wanted)}')

    def told(self, name):
        """Says the counts since this was last called. Whether something was asked and nothing differs."""
        print(f'{name}: {self.asked} asked, {self.differ} differ', flush=True)
        right, self.asked, self.differ = self.asked > 0 and not self.differ, 0, 0
        return right


def written(folder, files):
    """Writes these texts, by name, to a folder."""
    for name, text in files.items():
        file = pathlib.Path(folder) / name
        file.parent.mkdir(parents=True, exist_ok=True)
        file.write_text(text)


def changed(files, what, file, old, new):
    """The files with a text in one of them, which stands there once, replaced."""
    assert files[file].count(old) == 1, what
    return {**files, file: files[file].replace(old, new)}


def script(file, lines):
    """Makes a program of these shell lines."""
    file.parent.mkdir(exist_ok=True)
    file.write_text(f'#!/bin/sh\n{lines}')
    file.chmod(0o755)


def fake_rt(top, lines):
    """Makes an `rt` of these shell lines, which run at the top of a scratch folder, in its bin/."""
    script(top / 'bin/rt', f'cd "$(dirname "$0")/.."\n{lines}')


def copied(folder, parts, rt):
    """Copies parts of this repository to a folder, with an `rt` of these shell lines in its bin/."""
    top = pathlib.Path(folder)
    for part in parts:
        (top / part).parent.mkdir(exist_ok=True)
        copy = shutil.copytree if (TOP / part).is_dir() else shutil.copy
        copy(TOP / part, top / part)
    fake_rt(top, rt)
    return top


def heeding():
    """A signal that this test was started without heeding stops what it starts all the same."""
    for number in (signal.SIGINT, signal.SIGHUP):
        signal.signal(number, signal.SIG_DFL)


def counted(number, what):
    return f'{number} {what}' + ('' if number == 1 else 's')


def reading(*words, **more):
    """Starts the program of the reference model, rust/jobs."""
    return subprocess.Popen(['cargo', 'run', '--offline', '--release', '--quiet', '-p', 'jobs', '--', *words], cwd=TOP / 'rust', **more)
