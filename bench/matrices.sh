#!/usr/bin/env bash
# Measures union, cut, gather and product of matrices beside a plain Rust program of the same form, in
# one run on the same input, and writes the ratios of their times: that of crates/matrix_bench over
# that of the other. bench/matrices.sh PROGRAM SAMPLE.. : the program is run as `PROGRAM time TIMES`
# with a sample on standard input, and writes a line for each call as matrix_bench does: its name, the
# least nanoseconds of so many, and a sum over what it made. The status is 1 where a ratio is above
# 1.5, and 2 where a program fails or their sums differ.
#
# bench/matrices.sh memory: the four calls, on two diagonals of 100 rows and columns, with each
# allocation of the program failing in turn, by tests/failing.c. What is wanted of a run is the first
# of the lines that all calls write, with status 6, or with 1 where the sample is read; or all, where
# a growth is asked for again with less, or what was made is not remembered. It writes how the runs
# ended, and takes some minutes. The status is 1 where one ended otherwise.
#
# A sample is numbers with white space between them: the row and the column of a cut; the matrix that
# is cut; two matrices of one size; two factors; and a grammar.
#
# A matrix is its rows, its columns, how many different rows it has that are not empty, these, and for
# each row its number among these, from 1, or 0 where it is empty. A row is how many entries it has,
# and of each the column, how many symbols it has, and these, below 128. A grammar is how many
# categories, kinds and rules it has, and of each rule its category, how many items it has, and these,
# a kind as its number behind the categories. Symbols are numbered as the binary form numbers them.
set -eu

root=$(cd -- "$(dirname -- "${BASH_SOURCE[0]}")/.." && pwd)
program=$root/crates/matrix_bench/out/matrix_bench

if [[ $# -lt 2 && ${1-} != memory ]]; then
    echo "usage: bench/matrices.sh PROGRAM SAMPLE.. | memory" >&2
    exit 2
fi

# The run proves and builds the program, where it has to be built.
(cd -- "$root/crates/matrix_bench" && rt run -- random 1 1 </dev/null >/dev/null) || exit 2

if [[ $1 == memory ]]; then
    folder=$(mktemp -d)
    trap 'rm -r -- "$folder"' EXIT
    cc -O2 -shared -fPIC -o "$folder/failing.so" "$root/tests/failing.c" || exit 2
    python3 - "$program" "$folder/failing.so" <<'PROGRAM'
import collections
import concurrent.futures
import os
import subprocess
import sys

SIZE = 100


def diagonals(on, beside):
    """A matrix with one symbol on the diagonal and one beside it on the right, as a sample has it."""
    rows = [[(i, on), (i + 1, beside)][: SIZE - i] for i in range(SIZE)]
    words = [SIZE, SIZE, SIZE]
    for row in rows:
        words.append(len(row))
        for column, symbol in row:
            words += [column, 1, symbol]
    return words + list(range(1, SIZE + 1))


def sample():
    """Of S ::= S S S and S ::= a, whose suffixes are 2, 3 and 4, and 5."""
    one, other = diagonals(0, 0), diagonals(4, 3)
    grammar = [1, 1, 2, 0, 3, 0, 0, 0, 0, 1, 1]
    words = [SIZE // 2, SIZE // 2, *one, *one, *other, *one, *other, *grammar]
    return " ".join(map(str, words)).encode()


def ended(program, library, number):
    """The calls with their sums and the status, and whether the allocation was made."""
    told, tell = os.pipe()
    env = {"LD_PRELOAD": library, "FAIL_CALL": f"alloc {number}", "FAIL_TELL": str(tell)}
    command = [program, "time", "1"]
    pipes = {"stdout": subprocess.PIPE, "stderr": subprocess.DEVNULL, "pass_fds": [tell]}
    run = subprocess.run(command, input=sample(), env=env, check=False, **pipes)
    os.close(tell)
    made = os.read(told, 64).startswith(b"failed")
    os.close(told)
    calls = [(line.split()[0], line.split()[-1]) for line in run.stdout.decode().splitlines()]
    return calls, run.returncode, made


def main():
    program, library = sys.argv[1:]
    whole, status, _ = ended(program, library, 0)
    wanted = {(status, len(whole))} | {(6, count) for count in range(len(whole))} | {(1, 0)}
    found, block, failed, more = collections.Counter(), 1000, 0, status == 0
    with concurrent.futures.ThreadPoolExecutor(os.cpu_count()) as pool:
        first = 1
        while more:
            runs = pool.map(lambda n: ended(program, library, n), range(first, first + block))
            for calls, code, made in runs:
                more = made
                if made:
                    right = calls == whole[: len(calls)] and (code, len(calls)) in wanted
                    failed += not right
                    found[code, len(calls)] += 1
            first += block
    for (code, calls), count in sorted(found.items()):
        print(f"status {code} after {calls} calls: {count}")
    print(f"{sum(found.values()) - failed} passed, {failed} failed")
    sys.exit(1 if failed or status else 0)


main()
PROGRAM
    exit
fi

exec python3 - "$program" "$@" <<'PROGRAM'
import pathlib
import subprocess
import sys

ROUNDS, TIMES, MOST_RATIO = 5, 40, 1.5


def measured(program, sample):
    """For each call its least nanoseconds in one run, and the sum over what it made."""
    run = subprocess.run(
        [program, "time", str(TIMES)], input=sample, stdout=subprocess.PIPE, check=False
    )
    lines = [line.split() for line in run.stdout.decode().splitlines()]
    if run.returncode != 0 or any(len(line) != 3 for line in lines):
        print(f"bench: {program} failed with status {run.returncode}", file=sys.stderr)
        sys.exit(2)
    return {name: (int(nanoseconds), made) for name, nanoseconds, made in lines}


def main():
    ours, other, *samples = sys.argv[1:]
    worst = 0.0
    print(f"{'sample':<16}{'call':<10}{'us':>10}{'plain us':>10}{'ratio':>8}")
    for name in samples:
        sample = pathlib.Path(name).read_bytes()
        # The programs run in turn, so that both meet the same load.
        runs = [(measured(ours, sample), measured(other, sample)) for _ in range(ROUNDS)]
        for call in runs[0][0]:
            if len({run[call][1] for pair in runs for run in pair}) != 1:
                print(f"bench: {call} of {name}: the sums differ", file=sys.stderr)
                sys.exit(2)
            one, two = (min(pair[k][call][0] for pair in runs) for k in (0, 1))
            worst = max(worst, one / two)
            stem = pathlib.Path(name).stem
            print(f"{stem:<16}{call:<10}{one / 1e3:>10.1f}{two / 1e3:>10.1f}{one / two:>8.2f}")
    sys.exit(0 if worst <= MOST_RATIO else 1)


main()
PROGRAM
