#!/usr/bin/env python3
"""Each cut of seven grammar files at each byte, and each file without each of its bytes: the three
of `grammars`, which are dense, and the four of `examples` at the top of the repository, which are
those of real languages.

    python3 tests/cuts.py CMD [ARG ..]     runs CMD on each, and prints `N passed, M failed`

CMD reads a script from standard input, as `crates/lbnfchart/out/lbnfchart serve` does. What each
file is owed is told by `notation.py`, which shares nothing with the program.
"""
import concurrent.futures
import functools
import pathlib
import subprocess
import sys

import notation

TESTS = pathlib.Path(__file__).resolve().parent
FOLDERS = [TESTS / 'grammars', TESTS.parent / 'examples']
AT_ONCE = 64                                # files that one process takes at once


def files():
    """Each file with its name."""
    for path in (path for folder in FOLDERS for path in sorted(folder.glob('*.cf'))):
        whole = path.read_bytes()
        for at in range(len(whole) + 1):
            yield f'{path.name} up to byte {at}', whole[:at]
        for at in range(len(whole)):
            yield f'{path.name} without byte {at}', whole[:at] + whole[at + 1:]


def session(line):
    """What a session with this line for its grammar writes behind it, and its status."""
    if line.startswith(b'grammar refused'):
        return line + b'\n', 2
    return line + b'\nversion 0 tokens 0\nend\n', 0


def is_right(command, named):
    _, data = named
    script = b'script 1\ngrammar %d\n' % len(data) + data + b'\nopen 0\n\nend\n'
    done = subprocess.run(command, input=script, stdout=subprocess.PIPE, check=False)
    return (done.stdout, done.returncode) == session(notation.reply(data))


def run(command):
    named = list(files())
    with concurrent.futures.ProcessPoolExecutor() as pool:
        right = list(pool.map(functools.partial(is_right, command), named, chunksize=AT_ONCE))
    for (name, data), good in zip(named, right):
        if not good:
            print(f'FAILED {name}, which is owed {notation.reply(data)!r}')
    print(f'{sum(right)} passed, {len(right) - sum(right)} failed')
    return 0 if all(right) else 1


if __name__ == '__main__':
    if sys.argv[1:]:
        sys.exit(run(sys.argv[1:]))
    print(__doc__)
    sys.exit(2)
