"""Builds from the present sources, for the commands at the top, tools/build and the tests: one build at a time in a clone, and none left running. What is
built is for x86-64, as the Rattle kit is; tools/boards.py makes the library for other processors."""
import contextlib
import fcntl
import hashlib
import json
import os
import pathlib
import shutil
import signal
import subprocess
import sys
import tempfile
import time

import board_header
import boards
from keeping import keeping_toolchain
import paging

TOP = pathlib.Path(__file__).resolve().parent.parent
TARGET = TOP / 'target'
QUIET = 1.5  # seconds before a build says that it goes on
SIGNALS = (signal.SIGINT, signal.SIGTERM, signal.SIGHUP)
NO_KIT = '`rt`, of the Rattle kit, is not in PATH: install the kit, or add to PATH the folder where its `rt` lies'


class Failed(Exception):
    """Why nothing was built, in words."""


class Stopped(BaseException):
    """A signal that asks to end."""


def say(words, end='\n'):
    with contextlib.suppress(OSError):
        if sys.stderr is not None:
            print(words, end=end, file=sys.stderr, flush=True)


def stop_by_signals():
    def stopped(number, frame):
        raise Stopped(number)
    for number in SIGNALS:
        if signal.getsignal(number) is not signal.SIG_IGN:
            signal.signal(number, stopped)


@contextlib.contextmanager
def alone(name):
    """Holds the clone: whoever else wants to build or run what is built here waits."""
    folder = os.open(TOP, os.O_RDONLY)
    try:
        try:
            fcntl.flock(folder, fcntl.LOCK_EX | fcntl.LOCK_NB)
        except BlockingIOError:
            say(f'{name}: another build goes on in {TOP}; waiting for it')
            fcntl.flock(folder, fcntl.LOCK_EX)
        yield
    finally:
        os.close(folder)


@contextlib.contextmanager
def started(words, **more):
    """A child in a process group of its own. If this process is stopped, so is all of that group."""
    child = subprocess.Popen(words, start_new_session=True, **more)
    try:
        yield child
    except BaseException:
        for number in SIGNALS:
            signal.signal(number, signal.SIG_IGN)
        for number in (signal.SIGTERM, signal.SIGKILL):
            with contextlib.suppress(ProcessLookupError, subprocess.TimeoutExpired):
                os.killpg(child.pid, number)
                child.wait(timeout=5)
        raise


def told(name, what, words, folder):
    """Runs a command in a folder; after a while, with a line on standard error that grows. Its status and what it said."""
    began, is_told = time.monotonic(), False
    with started(words, cwd=folder, stdin=subprocess.DEVNULL, stdout=subprocess.PIPE, stderr=subprocess.STDOUT) as child:
        while True:
            try:
                said = child.communicate(timeout=QUIET)[0]
                break
            except subprocess.TimeoutExpired:
                say('.' if is_told else f'{name}: proving and building {what} ', end='')
                is_told = True
            except BaseException:
                if is_told:
                    say('')
                raise
    if is_told:
        say(f' {"done" if child.returncode == 0 else "ended"}, {time.monotonic() - began:.0f} s')
    return child.returncode, said.decode(errors='replace')


def asked(name, crate, words, passes=None):
    """Runs a command of the kit in the folder of a crate. It has to end with status 0, or where `passes` is given, to say these words."""
    try:
        status, said = told(name, crate, words, TOP / 'crates' / crate)
    except OSError as error:
        raise Failed(f'{words[0]} cannot be run: {error.strerror}') from error
    if passes not in said if passes else status != 0:
        fail_where_read_only()
        raise Failed(f'{said[-2000:]}`{" ".join(map(str, words[:2]))}` failed in crates/{crate}')


def fail_where_read_only():
    """What is built lies in target/; one line where that cannot be written."""
    try:
        TARGET.mkdir(exist_ok=True)
    except OSError as error:
        raise Failed(f'{TARGET} cannot be written: {error.strerror}') from error
    if not os.access(TARGET, os.W_OK):
        raise Failed(f'{TARGET} cannot be written, and what is there is not built from the present sources')


def kit():
    """The folder of the Rattle kit."""
    found = shutil.which('rt')
    if not found:
        raise Failed(NO_KIT)
    return pathlib.Path(found).resolve().parent.parent


def toolchain():
    return kit() / 'toolchain'


def crates():
    """The crates that each crate names, by crates.txt."""
    lines = [line.split('#')[0] for line in (TOP / 'crates.txt').read_text().splitlines()]
    return {line.split(':')[0].split()[0]: line.split(':')[1].split() for line in lines if ':' in line}


def below(crate):
    """A crate and all that it stands on, of this repository."""
    every, wanted, seen = crates(), [crate], {}
    while wanted:
        one = wanted.pop()
        if one in every and one not in seen:
            seen[one] = True
            wanted += every[one]
    return list(seen)


def sources_of(crate):
    """The files that a crate is made of, its own and those of the crates below it."""
    folders = [TOP / 'crates' / name / part for name in below(crate) for part in ('src', 'specs', 'proofs')]
    return [TOP / 'crates.txt', *sorted(file for folder in folders for file in folder.rglob('*') if file.is_file())]


def state_of(crate, *made):
    """A sum over the kit's name, the sources of a crate, and what was made of them."""
    name = kit() / 'KIT-ID'
    total = hashlib.sha256(name.read_bytes() if name.is_file() else b'')
    for file in [*sources_of(crate), *made]:
        content = file.read_bytes()
        total.update(f'{file.relative_to(TOP)} {len(content)}\n'.encode() + content)
    return total.hexdigest()


def is_made(crate, made_from, *made):
    """Whether these files were made here from the present sources of a crate."""
    try:
        return all(file.is_file() for file in (made_from, *made)) and made_from.read_text() == state_of(crate, *made)
    except OSError as error:
        raise Failed(f'{error.filename}: {error.strerror}') from error


def copied(file, to):
    """Puts a copy of a file in place of another, which is never there in part."""
    made = to.with_name(f'{to.name}.{os.getpid()}')
    try:
        to.parent.mkdir(parents=True, exist_ok=True)
        shutil.copy(file, made)
        made.replace(to)
    except OSError as error:
        fail_where_read_only()
        raise Failed(f'{error.filename}: {error.strerror}') from error
    finally:
        made.unlink(missing_ok=True)


def programs(name, *named):
    """Proves and builds programs, unless those that are there were made here from the present sources. `rt run` also runs each once, with nothing on standard
    input; how that ends says nothing."""
    kit()
    for crate in named:
        program, made_from = TARGET / 'bin' / crate, TARGET / 'bin' / f'{crate}.from'
        if is_made(crate, made_from, program):
            continue
        fail_where_read_only()
        made_from.unlink(missing_ok=True)
        asked(name, crate, ['rt', 'run', crate], passes=f'rt: running out/{crate}')
        take_program(crate)


def take_program(crate):
    """Takes a program that rt has built."""
    built, program = TOP / 'crates' / crate / 'out' / crate, TARGET / 'bin' / crate
    if not os.access(built, os.X_OK):
        raise Failed(f'rt left no program crates/{crate}/out/{crate}')
    copied(built, program)
    program.with_name(f'{crate}.from').write_text(state_of(crate, program))


def module_of(library):
    """Where the LLVM module is kept that a library is compiled from."""
    return TARGET / 'boards' / f'{library}.bc'


def library(name, library, is_below_built=False):
    """Proves a library, and writes its archive for C and its module, unless those that are there were made here from the same sources. What C gets of crate
    NAME is exported by crate NAME_c."""
    kit()
    crate, archive, made_from = f'{library}_c', TARGET / 'staticlib' / f'lib{library}.a', TARGET / 'staticlib' / f'lib{library}.from'
    module = module_of(library)
    if is_made(crate, made_from, archive, module):
        return
    fail_where_read_only()
    made_from.unlink(missing_ok=True)
    module.unlink(missing_ok=True)
    for folder in (archive.parent, module.parent):
        folder.mkdir(parents=True, exist_ok=True)
    if not is_below_built:
        asked(name, library, ['rt', 'lib'])
    with tempfile.TemporaryDirectory() as work:  # rt takes no links in a checkout
        keeping = keeping_toolchain(pathlib.Path(work), toolchain(), module)
        asked(name, crate, [kit() / 'bin/rattle', 'build', *words_of(crate), '--toolchain', keeping, '-o', archive])
    if not module.is_file():
        raise Failed(f'the kit compiled {crate} from no LLVM module that was seen')
    made_from.write_text(state_of(crate, archive, module))


def words_of(crate):
    """What `rattle build` is told of a static library: where the libraries lie that it stands on, those of the repository as rt has built them."""
    top, named, own = kit(), crates()[crate], crates()
    words = ['--crate-name', crate, 'src/lib.rt', '--crate-type', 'staticlib', '--backend', 'llvm', '--links', f'{crate}=', '--jobs', str(os.cpu_count())]
    words += ['--antt-project', top / 'rattle/logic/antt-project.json', '--logic-built', top / 'logic_built', '-L', f'dependency={top}/rlibs']
    for one in ['std', *named]:
        words += ['--extern', f'{one}={rlibs_of(one) if one in own else top / "rlibs"}/{one}.rlib']
    for one in below(crate)[1:]:
        words += ['-L', f'dependency={rlibs_of(one)}']
    return words


def rlibs_of(crate):
    return TOP / 'crates' / crate / 'out/rlib'


def take(name, said):
    """After `rt ci`, which said what stands in this file: takes the programs that it built, and builds the libraries for C over the crates that it proved. What
    it built stays in out/, unless an earlier check had its own libraries there, which it puts back; then rt builds upon these."""
    said, every = pathlib.Path(said), crates()
    try:
        passed, last = said.read_text().rstrip().endswith(' passed, 0 failed'), said.stat().st_mtime
    except OSError as error:
        raise Failed(f'{said}: {error.strerror}') from error
    newer = [file for crate in every for file in sources_of(crate) if file.stat().st_mtime > last]
    if newer or not passed:
        raise Failed(f'{newer[0]} is newer than {said}' if newer else f'by {said} `rt ci` did not pass')
    for crate in every:
        if (TOP / 'crates' / crate / 'src/main.rt').is_file():
            take_program(crate)
    for crate in every:
        if crate.endswith('_c') and crate[:-2] in every:
            library(name, crate[:-2], is_below_built=not any((rlibs_of(one) / 'stamp').is_file() for one in below(crate)))


def make_boards(crate, targets):
    try:
        boards.make(toolchain(), module_of(crate), TOP / 'include' / f'{crate}.h', TARGET / 'boards', targets)
    except (board_header.Fault, OSError) as error:
        raise Failed(f'the module of {crate} could not be compiled for another processor: {error}') from error


def for_boards(name, *targets):
    """The library for other processors, for all or for those that are named."""
    for target in targets:
        if target not in boards.TARGETS:
            raise Failed(f'{target} is none of {", ".join(boards.TARGETS)}')
    library(name, 'mant')
    make_boards('mant', targets or boards.TARGETS)


def page(name):
    """The planner's page, one HTML file with the library in it as WebAssembly."""
    for_boards(name, 'wasm32')
    library_there, made = TARGET / 'boards/wasm32', TARGET / 'page/bylgrusk.html'
    try:
        text = paging.page((library_there / 'libmant.wasm').read_bytes(), json.loads((library_there / 'libmant.json').read_text()))
        made.parent.mkdir(parents=True, exist_ok=True)
        new = made.with_name(f'{made.name}.{os.getpid()}')
        new.write_text(text)
        new.replace(made)
    except (paging.Unmade, OSError) as error:
        raise Failed(f'the page is not made: {error}') from error


def shared(name, crate):
    """Makes of a library a file that Python loads, by the kit's own linker, unless the one that is there was made here from the same archive. What it needs of
    the C library is there where Python runs."""
    library(name, crate)
    archive, loaded = TARGET / 'staticlib' / f'lib{crate}.a', TARGET / 'python' / f'lib{crate}.so'
    made_from, made = loaded.with_suffix('.from'), loaded.with_name(f'{loaded.name}.{os.getpid()}')

    def state():
        return ' '.join(hashlib.sha256(file.read_bytes()).hexdigest() for file in (archive, loaded))

    if loaded.is_file() and made_from.is_file() and made_from.read_text() == state():
        return
    fail_where_read_only()
    loaded.parent.mkdir(parents=True, exist_ok=True)
    try:
        linked = subprocess.run([toolchain() / 'bin/ld.lld', '-shared', '--whole-archive', archive, '-o', made], capture_output=True, text=True)
        if linked.returncode != 0:
            raise Failed(f'{linked.stderr}{archive} could not be linked')
        made.replace(loaded)
    except OSError as error:
        raise Failed(f'{error.filename}: {error.strerror}') from error
    finally:
        made.unlink(missing_ok=True)
    made_from.write_text(state())
