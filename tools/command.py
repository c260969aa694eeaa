"""What ./relay, ./reach, ./plan and ./show share: the ways in which a command ends, what it is given, its text written, and a program that it asks."""
import argparse
import os
import pathlib
import stat
import subprocess
import sys

import building


class End(Exception):
    """An exit status, and why, in words; without words it ends silently."""


def is_given():
    """Whether something was given on standard input, by a pipe or a file."""
    try:
        mode = os.fstat(0).st_mode
    except OSError:
        return False
    return stat.S_ISFIFO(mode) or stat.S_ISREG(mode)


def typed(name, what):
    """The bytes of standard input; at a terminal it says what it waits for."""
    if sys.stdin is None:
        raise End(2, 'standard input is closed')
    if sys.stdin.isatty():
        building.say(f'{name}: type or paste {what}, then Ctrl-D')
    return sys.stdin.buffer.read()


def content_of(name, file, what):
    """The bytes of a file, or of standard input for `-`."""
    try:
        return typed(name, what) if file == '-' else pathlib.Path(file).read_bytes()
    except OSError as error:
        raise End(2, f'{file}: {error.strerror}') from error


def write_out(text):
    """Writes a text. Where its reader has gone, as `head` does, nothing is said."""
    write_bytes(text.encode())


def write_bytes(content):
    try:
        sys.stdout.buffer.write(content)
        sys.stdout.buffer.flush()
    except OSError as error:
        os.dup2(os.open(os.devnull, os.O_WRONLY), sys.stdout.fileno())
        raise End(5, '' if isinstance(error, BrokenPipeError) else f'the text could not be written: {error.strerror}') from error


def ran(name, words, given, **more):
    """What the program of this name, proved and built first, prints for these words and this standard input, what it says on standard error where that is
    caught, and its exit status."""
    program = building.TARGET / 'bin' / name
    with building.alone(name):
        building.programs(name, name)
        try:
            with building.started([program, *words], stdin=subprocess.PIPE, stdout=subprocess.PIPE, **more) as child:
                return (*child.communicate(given), child.returncode)
        except OSError as error:
            raise End(4, f'{program} cannot be run: {error.strerror}') from error


def asked(name, words, given=b''):
    """What a program prints. What it refuses, by a line on standard error with nothing printed, ends the command with those words."""
    printed, said, status = ran(name, words, given, stderr=subprocess.PIPE)
    if status != 0:
        raise End(4, f'the program ended with status {status}')
    if said.startswith(f'{name}: '.encode()) and not printed:
        raise End(1, said.decode().removeprefix(f'{name}: ').rstrip('\n'))
    if said or not printed.endswith(b'\n'):
        raise End(4, f'the text of the program, {len(printed)} bytes, is not whole')
    return printed.decode()


class Parser(argparse.ArgumentParser):
    """Writes --help as a command writes its text, so that a full disk or a reader that has gone ends it in the same way."""

    def _print_message(self, message, file=None):
        if file is sys.stdout:
            write_out(message)
        else:
            building.say(message, end='')


def run(name, about, do, unproved, declare):
    """The exit status of a command. `declare` adds its arguments to a parser, and `do` gets them parsed."""
    building.stop_by_signals()
    try:
        if sys.stdout is None:
            raise End(5, 'the text could not be written: standard output is closed')
        parser = Parser(prog=f'./{name}' if '/' not in name else name, description=about, formatter_class=argparse.RawDescriptionHelpFormatter, allow_abbrev=False)
        declare(parser)
        do(parser.parse_args())
    except End as end:
        if end.args[1]:
            building.say(f'{name}: {end.args[1]}')
        return end.args[0]
    except building.Failed as failed:
        building.say(f'{name}: {failed}\n{name}: {unproved}')
        return 3
    except building.Stopped as stopped:
        building.say(f'{name}: stopped')
        return 128 + stopped.args[0]
    return 0
