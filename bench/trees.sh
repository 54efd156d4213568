#!/usr/bin/env bash
# Measures what first trees cost in `lbnfchart serve`, in instructions, which valgrind counts. For each
# family of bench/looks.py, at about 512, 1,024 and 2,048 tokens, it takes the session that opens the
# text, less one that opens an empty text, and the session that asks for the tree of the whole text
# too, less the first. The chart of a call with many arguments goes with the cube of its tokens, so
# those texts are an eighth as long. It takes some minutes.
#
# Where what a search asks goes with the tokens, the tree of the longest text, of four times as many
# as the shortest has, may take 4.4 times its instructions; where it goes with their square, 19.4 times,
# the square of 4.4, since a look is a search by halves.
# The growth of each line is over the one before: it jumps where a list that is full takes twice its
# room. The status is 1 where one is not so, and 2 where the program gives a wrong answer.
#
#     bench/trees.sh [PROGRAM]
#
# measures another build of the program in place of the one that stands here.
set -eu

source "$(dirname -- "${BASH_SOURCE[0]}")/program.bash"

exec python3 - "$program" "$root/bench" <<'PROGRAM'
import re
import subprocess
import sys

PROGRAM, BENCH = sys.argv[1:]
sys.path.insert(0, BENCH)

import looks

COUNTED = ["valgrind", "--tool=callgrind", "--callgrind-out-file=/dev/null", PROGRAM, "serve"]
SIZES = (512, 1_024, 2_048)
# Families of which a tree goes with the square of the tokens, and those whose texts are shorter.
SQUARES = ("sums", "left lists")
CUBES = ("separators",)
MOST, MOST_OF_SQUARES = 4.4, 19.4


def command(line, block):
    """A command with its block."""
    return b"%s %d\n%s\n" % (line, len(block), block)


def instructions(grammar, tokens, question):
    """How many instructions the session takes that opens these tokens, and asks."""
    text = " ".join(tokens).encode()
    script = b"script 1\n" + command(b"grammar", grammar.encode()) + command(b"open", text)
    done = subprocess.run(COUNTED, input=script + question + b"end\n", capture_output=True)
    replies = done.stdout.splitlines()
    opened = replies[1:2] == [b"version 0 tokens %d" % len(tokens)]
    asked = not question or replies[2][:1] in (b"(", b"[")
    if done.returncode != 0 or replies[-1:] != [b"end"] or not (opened and asked):
        print(f"bench: a wrong answer: {done.stdout[:80]!r}", file=sys.stderr)
        sys.exit(2)
    return int(re.search(rb"Collected : (\d+)", done.stderr).group(1))


def costs(grammar, tokens):
    """The instructions of opening the tokens, and of their tree."""
    bare = instructions(grammar, [], b"")
    opened = instructions(grammar, tokens, b"")
    return opened - bare, instructions(grammar, tokens, b"tree\n") - opened


def main():
    good = True
    print(f"{'text':<12}{'tokens':>8}{'opening':>16}{'tree':>14}{'a token':>9}{'of opening':>12}{'growth':>8}")
    for name, grammar, text in looks.FAMILIES:
        trees = []
        for size in SIZES:
            tokens = text(size // 8 if name in CUBES else size)
            opening, tree = costs(grammar, tokens)
            told = f"{tree / trees[-1]:.2f}" if trees else ""
            trees.append(tree)
            print(
                f"{name:<12}{len(tokens):>8}{opening:>16}{tree:>14}{tree / len(tokens):>9.0f}"
                f"{tree / opening:>12.4f}{told:>8}",
                flush=True,
            )
        most = MOST_OF_SQUARES if name in SQUARES else MOST
        good = good and trees[-1] <= most * trees[0]
    print("as they should grow" if good else "NOT as they should grow")
    sys.exit(0 if good else 1)


main()
PROGRAM
