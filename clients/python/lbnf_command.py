"""What the commands in `bin` share: their words, how they end, and how a session is begun."""
from __future__ import annotations

import argparse
import os
import sys
from collections.abc import Callable
from typing import NoReturn

import lbnf_faults
import lbnfchart
from lbnf_source import Source

REFUSED = 2
OTHERS = 3


class Stop(Exception):
    """The command ends with a message and a status."""

    def __init__(self, message: str, status: int = OTHERS) -> None:
        super().__init__(message)
        self.status = status


class Words(argparse.ArgumentParser):
    """A command's words. Wrong ones end it with status 3."""

    def __init__(self, description: str) -> None:
        super().__init__(description=description, formatter_class=argparse.RawDescriptionHelpFormatter)
        self.add_argument('grammar', metavar='GRAMMAR', help='a file of labelled BNF')
        self.add_argument(
            '--program', metavar='PATH', default=lbnfchart.COMMAND[0],
            help='the built program, else bin/lbnfchart, which proves and builds it where it has to be')

    def error(self, message: str) -> NoReturn:
        self.print_usage(sys.stderr)
        self.exit(OTHERS, f'{self.prog}: {message}\n')


def read(name: str) -> Source:
    """A file that a word names."""
    try:
        return Source.read(name)
    except OSError as fault:
        raise Stop(f'{name}: {fault.strerror}') from fault


def begin(grammar: Source, program: str) -> lbnfchart.Session:
    """A session under the grammar."""
    try:
        return lbnfchart.Session(grammar.data, [program, 'serve'])
    except lbnfchart.GrammarRefused as refused:
        raise Stop(lbnf_faults.fault_of(refused, grammar), REFUSED) from refused
    except OSError as fault:
        raise Stop(f'{program}: {fault.strerror}') from fault


def run(command: Callable[[], int]) -> NoReturn:
    """Runs a command, and ends with its status."""
    for stream in (sys.stdout, sys.stderr):
        stream.reconfigure(errors='backslashreplace')
    try:
        status = command()
        sys.stdout.flush()
    except Stop as stop:
        print(stop, file=sys.stderr)
        status = stop.status
    except lbnfchart.OutOfMemory:
        print('lbnfchart: memory ran out', file=sys.stderr)
        status = OTHERS
    except lbnfchart.SessionEnded as ended:
        print(f'lbnfchart: the program ended with status {ended.status}', file=sys.stderr)
        status = OTHERS
    except lbnfchart.SessionError as fault:
        print(f'lbnfchart: {fault}', file=sys.stderr)
        status = OTHERS
    except BrokenPipeError:
        # The reader of the output went away, so what is left of it goes nowhere.
        os.dup2(os.open(os.devnull, os.O_WRONLY), sys.stdout.fileno())
        status = OTHERS
    except KeyboardInterrupt:
        status = 130
    sys.exit(status)
