"""The check of a crate with wrong programs in it, as `rt` makes it of a must-fail edit; but here all that the prover says is kept, where `rt` shows a line.

A check begins with what a check of the crate as it is has proved, and stands on the libraries below it, as `rt check` or `rt ci` built them."""
import contextlib
import os
import pathlib
import shutil
import subprocess
import tempfile
import threading

import programs

PARTS = ('src', 'specs', 'proofs')


class Failed(Exception):
    """Why a crate cannot be tried, in words."""


def kit():
    """The folder of the Rattle kit."""
    return pathlib.Path(shutil.which('rt') or '/nowhere/bin/rt').resolve().parent.parent


def linked(folder, to):
    """Copies what a check kept: of what was proved by links where these can be made, since a check replaces such a file and never writes into it."""
    def copied(one, other):
        with contextlib.suppress(OSError):
            if one.endswith('.oantt'):
                return os.link(one, other)
        return shutil.copy2(one, other)

    shutil.copytree(folder, to, copy_function=copied)


def texts_of(crate, wrong):
    """The texts of the files that these programs change, after their changes, or None where one no longer applies without the others of its file."""
    texts = {}
    for change in (change for program in wrong for change in program.changes):
        text = texts.get(change.file) or (crate / change.file).read_text()
        if text.count(change.old) != 1:
            return None
        texts[change.file] = text.replace(change.old, change.new, 1)
    return texts


class Prover:
    """Checks crates of a repository with other texts in place of their own."""

    def __init__(self, top, jobs=1):
        self.crates, self.jobs, self.uses, self.turn = top / 'crates', jobs, {}, threading.Lock()
        for line in (top / 'crates.txt').read_text().splitlines():
            name, colon, uses = line.split('#')[0].partition(':')
            if colon:
                self.uses[name.split()[0]] = uses.split()

    def own(self, name):
        return [other for other in self.uses[name] if other in self.uses]

    def below(self, name):
        """The libraries of the repository below a crate."""
        found = []
        for other in self.own(name):
            found += [one for one in [*self.below(other), other] if one not in found]
        return found

    def size(self, name):
        """How much text a crate has, by which the time of a check is guessed."""
        return sum(path.stat().st_size for part in PARTS for path in (self.crates / name / part).rglob('*') if path.is_file())

    def library(self, name):
        return self.crates / name / 'out/rlib' / f'{name}.rlib'

    def words(self, name):
        """The prover's arguments for a crate, as `rt` gives them."""
        root = 'main' if (self.crates / name / 'src/main.rt').is_file() else 'lib'
        libraries = {other: kit() / 'rlibs' / f'{other}.rlib' for other in ['std', *self.uses[name]]} | {other: self.library(other) for other in self.own(name)}
        words = [kit() / 'bin/rattle', 'check', '--crate-name', name, f'src/{root}.rt', '-L', f'dependency={kit() / "rlibs"}']
        for other, library in libraries.items():
            words += ['--extern', f'{other}={library}']
        for other in self.below(name):
            words += ['-L', f'dependency={self.library(other).parent}']
        words += ['--antt-project', kit() / 'rattle/logic/antt-project.json', '--logic-built', kit() / 'logic_built']
        return [*words, '--links', f'{name}=', '--jobs', str(self.jobs)]

    def refreshed(self, name):
        """Has `rt check` prove a crate as it is, and build the libraries below it, unless these are all of `rt ci`, which builds them anew."""
        if all(self.library(other).is_dir() and not (self.library(other).parent / 'stamp').is_file() for other in self.below(name)):
            return
        with self.turn:
            ran = subprocess.run(['rt', 'check'], cwd=self.crates / name, stdout=subprocess.PIPE, stderr=subprocess.STDOUT, text=True, check=False)
        if ran.returncode:
            raise Failed(f'{name} is not proved as it is: run `rt check` in crates/{name}')

    def check(self, name, texts, seed):
        """What the prover says of a crate with these texts, and its exit status. What is proved goes into the folder of what was proved already."""
        with tempfile.TemporaryDirectory() as room:
            for part in PARTS:
                if (self.crates / name / part).is_dir():
                    shutil.copytree(self.crates / name / part, f'{room}/{part}')
            for file, text in texts.items():
                pathlib.Path(room, file).write_text(text)
            words = [*self.words(name), '--incremental', seed]
            ran = subprocess.run(words, cwd=room, stdin=subprocess.DEVNULL, stdout=subprocess.PIPE, stderr=subprocess.STDOUT, text=True, errors='replace')
        return ran.stdout, ran.returncode

    @contextlib.contextmanager
    def seed(self, name):
        """A folder with what a check of the crate as it is proves."""
        self.refreshed(name)
        with tempfile.TemporaryDirectory() as room:
            seed, kept = pathlib.Path(room, 'seed'), self.crates / name / 'out/incremental'
            if kept.is_dir():
                linked(kept, seed)
            said, status = self.check(name, {}, seed)
            if status:
                raise Failed(f'{name} is not proved as it is: {said[-600:]}')
            yield seed

    def tried(self, name, wrong, seed):
        """What the prover says of a crate with these programs in it, in one check or more. A goal that `search` is to prove waits where a function that is
        called is wrong too: such programs are tried again without those that were seen to miss their facts."""
        logs, left, facts = [], wrong, set()
        while left:
            texts = texts_of(self.crates / name, left)
            if texts is None:
                break
            with tempfile.TemporaryDirectory() as room:
                linked(seed, f'{room}/seed')
                said, _ = self.check(name, texts, f'{room}/seed')
            logs.append(said)
            facts |= programs.missed(said, self.crates / name, texts)[0]
            again = [program for program in left if not facts.issuperset(program.facts)]
            left = again if len(again) < len(left) else []
        return logs


def kept(prover, name, edits):
    """What the prover says of each edit file of a crate, by the programs in it."""
    with prover.seed(name) as seed:
        return {edit: prover.tried(name, wrong, seed) for edit, wrong in edits.items()}
