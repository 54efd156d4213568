#!/usr/bin/env bash
# Measures what edits cost in `lbnfchart serve`. Instructions are counted by valgrind, since one edit
# is too short to be timed. In a text of 200 tokens of JSON one digit is replaced by another, with a
# question behind each edit: an edit with its question may take 1.05 times the instructions of opening
# the text and asking once. The resident memory of a session behind its edit 10,000 may be 1.1 times
# that behind its edit 1,000. At last, texts of 8,192 and of 16,384 stray tokens are opened, of which
# no span is derived: a token of the second may take 1.3 times the instructions of one of the first.
# The status is 1 where one is not so, and 2 where the program gives a wrong answer.
#
#     bench/edits.sh [PROGRAM]
#
# measures another build of the program in place of the one that stands here.
set -eu

source "$(dirname -- "${BASH_SOURCE[0]}")/program.bash"

exec python3 - "$program" "$root/examples/json.cf" <<'PROGRAM'
import pathlib
import re
import subprocess
import sys

PROGRAM, JSON = sys.argv[1], pathlib.Path(sys.argv[2]).read_bytes()
COUNTED = ["valgrind", "--tool=callgrind", "--callgrind-out-file=/dev/null", PROGRAM, "serve"]
FEW, MANY = 1_000, 10_000
STRAYS = 8_192
MOST_EDIT, MOST_MEMORY, MOST_GROWTH = 1.05, 1.1, 1.3

# A hundred numbers, and the brackets and commas between them.
TEXT = b"[" + b", ".join(b"%d" % (number % 10) for number in range(100)) + b"]"
TOKENS = 201
# Two letters that make a rule, and no digit.
PLAIN = b'A. S ::= "a" "b" ;'


def command(line, block):
    """A command with its block."""
    return b"%s %d\n%s\n" % (line, len(block), block)


def opening(grammar, text):
    """A script up to the text that it opens."""
    return b"script 1\n" + command(b"grammar", grammar) + command(b"open", text)


def edit(number):
    """An edit of this number, which replaces one digit of the text, and a question."""
    at = 1 + 3 * (number * 37 % 100)
    return command(b"edit %d 1" % at, b"%d" % (number % 10)) + b"has\n"


def edits(count):
    """So many edits."""
    return b"".join(edit(number) for number in range(count))


def wrong():
    """Ends where the program gave a wrong answer."""
    print("bench: the program gave a wrong answer", file=sys.stderr)
    sys.exit(2)


def instructions(script, last):
    """How many instructions the session of the script takes, whose last reply is this one."""
    done = subprocess.run(COUNTED, input=script + b"end\n", capture_output=True)
    if done.returncode != 0 or done.stdout.splitlines()[-2:] != [last, b"end"]:
        wrong()
    return int(re.search(rb"Collected : (\d+)", done.stderr).group(1))


def resident(process):
    """How many bytes of the process are in memory."""
    status = pathlib.Path(f"/proc/{process.pid}/status").read_text()
    return 1024 * int(re.search(r"VmRSS:\s+(\d+)", status).group(1))


def memory():
    """The resident bytes behind the edits 1,000 and 10,000 of one session."""
    seen = {}
    with subprocess.Popen([PROGRAM, "serve"], stdin=subprocess.PIPE, stdout=subprocess.PIPE) as process:
        process.stdin.write(opening(JSON, TEXT))
        process.stdin.flush()
        for _ in range(2):
            process.stdout.readline()
        for number in range(MANY):
            process.stdin.write(edit(number))
            process.stdin.flush()
            told = process.stdout.readline() + process.stdout.readline()
            if told != b"version %d tokens %d\nyes\n" % (number + 1, TOKENS):
                wrong()
            if number in (FEW - 1, MANY - 1):
                seen[number] = resident(process)
        process.stdin.write(b"end\n")
        process.stdin.flush()
    return seen[FEW - 1], seen[MANY - 1]


def verdict(words, good, ratio):
    """Prints whether it is so, and says it."""
    print(f"{words}: {'yes' if good else 'NO'} ({ratio:.2f})")
    return good


def main():
    bare = instructions(opening(JSON, b""), b"version 0 tokens 0")
    once = instructions(opening(JSON, TEXT) + b"has\n", b"yes") - bare
    some = instructions(opening(JSON, TEXT) + edits(100), b"yes")
    more = instructions(opening(JSON, TEXT) + edits(200), b"yes")
    one = (more - some) / 100
    print(f"opening {TOKENS} tokens and asking once: {once} instructions; an edit and asking: {one:.0f}")
    low, high = memory()
    print(f"resident bytes behind edit {FEW}: {low}; behind edit {MANY}: {high}")
    none = instructions(opening(PLAIN, b""), b"version 0 tokens 0")
    half, whole = (
        instructions(opening(PLAIN, b"?" * count), b"version 0 tokens %d" % count) - none
        for count in (STRAYS, 2 * STRAYS)
    )
    print(f"opening {STRAYS} stray tokens: {half} instructions; {2 * STRAYS}: {whole}")
    good = [
        verdict(f"an edit within {MOST_EDIT} times of opening", one <= MOST_EDIT * once, one / once),
        verdict(f"memory within {MOST_MEMORY} times", high <= MOST_MEMORY * low, high / low),
        verdict(f"a stray token within {MOST_GROWTH} times", whole <= 2 * MOST_GROWTH * half, whole / 2 / half),
    ]
    sys.exit(0 if all(good) else 1)


main()
PROGRAM
