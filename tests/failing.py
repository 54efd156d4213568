#!/usr/bin/env python3
"""Sessions in which one allocation, one read or one write fails.

    python3 tests/failing.py PROGRAM [ARG ..]

Each script of `tests/sessions.py` of at most 260 bytes, and each example, is run with its first
allocation failing, its second, and so on up to the last; then each read, in pieces of 1, 40 and
4,096 bytes, and each write, in one piece, and where the script edits a text or asks for a tree also
in pieces of 1 and 8 bytes. Scripts with a macro of about a thousand rules are left out, since each
has tens of thousands of allocations. What is wanted of a run in which standard input gave k bytes:

- an allocation fails: status 6, and a prefix of the session in whole lines, or up to a place within
  a tree, which alone begins with no lower-case letter; or the whole session with its own status,
  since a growth may be asked for again with less;
- a read fails: status 4, and just the replies to the grammar and to the commands that lie, with
  their blocks, wholly in the k bytes;
- a write fails: status 5, and a prefix of the session;
- an allocation or a write fails: the replies to those that end more than 4,096 bytes before the
  last of the k bytes are in the prefix;
- no call fails, since the number is past the last: the whole session with its own status.

It prints how the runs of each kind ended, and `N passed, M failed`. It takes a C compiler, `cc`, and
some minutes on four processors. PROGRAM has to use the C library that is loaded with it.
"""
import collections
import concurrent.futures
import os
import pathlib
import re
import subprocess
import sys
import tempfile

import sessions

SOURCE = pathlib.Path(__file__).resolve().parent / 'failing.c'
PIECES = {'alloc': (4_096,), 'read': (1, 40, 4_096), 'write': (4_096,)}
SMALL_WRITES = (1, 8, 4_096)
FAULTS = {'alloc': 6, 'read': 4, 'write': 5}
MANY_RULES = b'coercions E 102'
# How many bytes may have been read ahead of what is replied to.
AHEAD = 4_096
WITH_BLOCK = re.compile(rb'(?:grammar|open|edit \d+ \d+) (\d+)')


def cases():
    """The scripts that are run, each with what its session writes and its status."""
    for name, given, wanted, status in sessions.CASES:
        is_small = len(given) <= 260 and MANY_RULES not in given
        if is_small or name.startswith('the example'):
            yield name, given, wanted, status


def pieces(given, kind):
    """The most bytes that a read or a write moves, in each row of runs."""
    is_long = kind == 'write' and re.search(rb'^(?:edit|tree)\b', given, re.MULTILINE)
    return SMALL_WRITES if is_long else PIECES[kind]


def part_ends(given):
    """The offsets at which the parts of the script end that have a reply: its grammar and commands."""
    at = given.find(b'\n') + 1
    while (end := given.find(b'\n', at) + 1) > 0:
        block = WITH_BLOCK.fullmatch(given[at:end - 1])
        at = end + int(block[1]) + 1 if block else end
        yield at


def replies_within(given, wanted, count):
    """The replies to the parts of the script that lie wholly in so many of its first bytes."""
    replied = sum(end <= count for end in part_ends(given))
    return b''.join(wanted.splitlines(keepends=True)[:replied])


def ended(command, library, given, kind, number, piece):
    """What the program wrote and its status, whether the call that was to fail was made, and how many
    bytes the program was given."""
    told, tell = os.pipe()
    env = {
        'LD_PRELOAD': library,
        'FAIL_CALL': f'{kind} {number}',
        'FAIL_PIECE': str(piece),
        'FAIL_TELL': str(tell),
    }
    done = subprocess.run(
        command, input=given, stdout=subprocess.PIPE, env=env, pass_fds=[tell], check=False
    )
    os.close(tell)
    made, _, count = os.read(told, 64).partition(b' ')
    os.close(told)
    return done.stdout, done.returncode, bool(made), int(count or 0)


def is_cut_right(out, kind, given, wanted, count):
    """Whether what was written may stand where a call fails, after so many bytes were given."""
    if kind == 'read':
        return out == replies_within(given, wanted, count)
    part = out.rsplit(b'\n', 1)[-1]
    if kind == 'alloc' and part[:1].islower():
        return False
    return wanted.startswith(out) and out.startswith(replies_within(given, wanted, count - AHEAD - 1))


def verdict(run, kind, case):
    """How a run of the case ended, or None where it is none of the ways that are wanted."""
    (out, code, made, count), (_, given, wanted, status) = run, case
    if (out, code) == (wanted, status) and (kind == 'alloc' or not made):
        return 'whole'
    if not made or code != FAULTS[kind] or not is_cut_right(out, kind, given, wanted, count):
        return None
    return 'a prefix' if out else 'nothing'


def runs(command, library, case, kind, piece):
    """Every number of a call of the kind up to the first that is not made."""
    name, given, _, _ = case
    found, number, made = collections.Counter(), 0, True
    while made:
        number += 1
        run = ended(command, library, given, kind, number, piece)
        how = verdict(run, kind, case)
        out, code, made, _ = run
        if how is None:
            print(f'FAILED {name}, {kind} {number} in pieces of {piece}: {out[-80:]!r}, status {code}', flush=True)
        found[(kind, 'no call failed' if not made and how else how)] += 1
    return found


def main(command):
    total = collections.Counter()
    with tempfile.TemporaryDirectory() as folder:
        library = f'{folder}/failing.so'
        subprocess.run(['cc', '-O2', '-shared', '-fPIC', '-o', library, SOURCE], check=True)
        with concurrent.futures.ProcessPoolExecutor(os.cpu_count()) as pool:
            jobs = [
                pool.submit(runs, command, library, case, kind, piece)
                for case in cases()
                for kind in FAULTS
                for piece in pieces(case[1], kind)
            ]
            for job in jobs:
                total += job.result()
    for (kind, how), count in sorted(total.items(), key=str):
        print(f'{kind}: {how or "otherwise"}: {count}')
    failed = sum(count for (_, how), count in total.items() if how is None)
    print(f'{sum(total.values()) - failed} passed, {failed} failed')
    return 1 if failed else 0


if __name__ == '__main__':
    if sys.argv[1:]:
        sys.exit(main(sys.argv[1:]))
    print(__doc__)
    sys.exit(2)
