"""What tools share that hold a repository to something: their arguments, and how they end."""
import argparse
import pathlib
import sys


def parser(about):
    """Reads the arguments of such a tool: DIR, the repository. A tool may add its own."""
    made = argparse.ArgumentParser(description=about, formatter_class=argparse.RawDescriptionHelpFormatter)
    made.add_argument('top', metavar='DIR', type=pathlib.Path, nargs='?', default=pathlib.Path(__file__).resolve().parent.parent,
                      help='the repository; by default the one that this file stands in')
    return made


def told(name, faults, counted):
    """Says each fault in a line on standard error, then the line that counts. The exit status."""
    for fault in faults:
        print(f'{name}: {fault}', file=sys.stderr)
    print(f'{name}: {counted}')
    return 1 if faults else 0
