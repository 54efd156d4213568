#!/usr/bin/env bash
# Times a million questions to `lbnfchart serve`, from a file into a file, under a grammar of 676
# categories: once on the category that is numbered first, and once on the last one. Each time is
# the least of fifteen runs, which take turns. The last two lines say whether the last category takes
# at most 1.2 times as long as the first, and whether a million replies or more are written in a
# second. The status is 1 where one is not so, and 2 where the program gives a wrong answer.
#
#     bench/questions.sh [PROGRAM]
#
# measures another build of the program in place of the one that stands here.
set -eu

source "$(dirname -- "${BASH_SOURCE[0]}")/program.bash"

exec python3 - "$program" <<'PROGRAM'
import pathlib
import string
import subprocess
import sys
import tempfile
import time

PROGRAM = sys.argv[1]
QUESTIONS = 1_000_000
RUNS = 15
MOST_TIMES, LEAST_REPLIES = 1.2, 1_000_000

# Aaa, Aab, and so on up to Azz, each the same one token.
CATEGORIES = [f"A{x}{y}" for x in string.ascii_lowercase for y in string.ascii_lowercase]
GRAMMAR = "\n".join(f'R. {category} ::= "a" ;' for category in CATEGORIES)
REPLIES = (
    "grammar rules 676 categories 676 kinds 1\nversion 0 tokens 1\n" + "yes\n" * QUESTIONS + "end\n"
)


def script(category, count):
    """A session with so many questions on the category over the one token."""
    opening = f"script 1\ngrammar {len(GRAMMAR)}\n{GRAMMAR}\nopen 1\na\n"
    return opening + f"has {category} 0 1\n" * count + "end\n"


def seconds(given, out):
    """How long the session of the file takes, which writes into the other file."""
    with given.open("rb") as source, out.open("wb") as sink:
        began = time.monotonic()
        done = subprocess.run([PROGRAM, "serve"], stdin=source, stdout=sink)
        taken = time.monotonic() - began
    if done.returncode != 0 or out.read_text() != REPLIES:
        print("bench: the program gave a wrong answer", file=sys.stderr)
        sys.exit(2)
    return taken


def main():
    with tempfile.TemporaryDirectory() as made:
        place = pathlib.Path(made)
        chosen = (CATEGORIES[0], CATEGORIES[-1])
        for category in chosen:
            (place / category).write_text(script(category, QUESTIONS))
        runs = [[seconds(place / c, place / "out") for c in chosen] for _ in range(RUNS)]
    first, last = (min(run[k] for run in runs) for k in (0, 1))
    for category, taken in zip(chosen, (first, last)):
        print(f"{QUESTIONS} questions on {category}: {taken:.3f} s")
    fair, fast = last <= MOST_TIMES * first, QUESTIONS / last >= LEAST_REPLIES
    print(f"last within {MOST_TIMES} times the first: {'yes' if fair else 'NO'} ({last / first:.2f})")
    print(f"{LEAST_REPLIES} replies a second: {'yes' if fast else 'NO'} ({QUESTIONS / last:.0f})")
    sys.exit(0 if fair and fast else 1)


main()
PROGRAM
