#!/usr/bin/env bash
# Measures what an automaton of kinds takes with the program of crates/lexer_bench, beside the time
# in which `flex` turns the same kinds into the source of a scanner, in turns in one run: (a) the
# five predefined kinds with 20 words and two comments, (b) the same with 300 words, (c) with 1,000
# words that fill a grammar file of 65,536 bytes, which both refuse. It writes the median times,
# their ratio, and the peak memory that the automaton leaves beside its table.
# The status is 1 where the program takes longer than flex or more than 16 MB beside the table, and
# 2 where it fails or refuses what it should not.
set -eu

root=$(cd -- "$(dirname -- "${BASH_SOURCE[0]}")/.." && pwd)
program=$root/crates/lexer_bench/out/lexer_bench

# The run proves and builds the program, where it has to be built.
(cd -- "$root/crates/lexer_bench" && rt run </dev/null >/dev/null) || exit 2

exec python3 - "$program" <<'PROGRAM'
import pathlib
import random
import statistics
import subprocess
import sys
import tempfile
import time

PROGRAM = sys.argv[1]
RUNS = 25
MOST_MB = 16.0
LETTERS = 'abcdefghijklmnopqrstuvwxyz'

# The predefined kinds, as the program reads them and as flex does.
TOKENS = [
    'digit +',
    "digit + '. digit + 'e '- ? digit + .3 ? .4",
    "letter letter digit '_ '' |4 * .2",
    """'" char ["\\ - '\\ ["'\\nt .2 |2 * '" .3""",
    """'' char ['\\ - '\\ ["'\\nt .2 |2 '' .3""",
]
SCANNER = r"""%option noyywrap
NEXT [\x80-\xBF]
WIDE ([\xC2-\xDF]{NEXT}|[\xE0-\xEF]{NEXT}{NEXT}|[\xF0-\xF4]{NEXT}{NEXT}{NEXT})
ESC \\["'\\nt]
%%
[ \t\n\r\f\v]
"//"[^\n]*
"/*"([^*]|\*+[^*/])*\*+"/"
WORDS
[0-9]+ return 1;
[0-9]+\.[0-9]+(e-?[0-9]+)? return 2;
[A-Za-z][A-Za-z0-9_']* return 3;
\"([^"\\\x80-\xFF]|{WIDE}|{ESC})*\" return 4;
'([^'\\\x80-\xFF]|{WIDE}|{ESC})' return 5;
%%
"""


def lines(words):
    """What the program reads."""
    parts = ['line //', 'block /* */', *(f'word {word}' for word in words)]
    parts += [f'token {token}' for token in TOKENS]
    return '\n'.join([*parts, 'make', '']).encode()


def scanner(words):
    """What flex reads."""
    rules = [f'"{word}" return {number};' for number, word in enumerate(words, 6)]
    return SCANNER.replace('WORDS', '\n'.join(rules))


def some_words(count, shortest, longest):
    """Different words of small letters, always the same."""
    draw = random.Random(count)
    words = {}
    while len(words) < count:
        length = draw.randint(shortest, longest)
        words[''.join(draw.choices(LETTERS, k=length))] = True
    return list(words)


def grammar_words(count, size):
    """The words of a grammar file of this size, one in each rule."""
    frame = len('A. S ::= "" ;\n')
    length = size // count - frame
    return some_words(count, length, length)


CASES = [
    ('(a) 20 words', some_words(20, 2, 8), 'states'),
    ('(b) 300 words', some_words(300, 2, 4), 'states'),
    ('(c) 1,000 words', grammar_words(1_000, 65_536), 'too many states'),
]


def timed(command, data):
    """The seconds of a run."""
    began = time.perf_counter()
    done = subprocess.run(command, input=data, capture_output=True, check=False)
    return time.perf_counter() - began, done


def peak(data):
    """The line that the program writes, and its peak megabytes."""
    with subprocess.Popen([PROGRAM], stdin=subprocess.PIPE, stdout=subprocess.PIPE) as child:
        child.stdin.write(data)
        child.stdin.flush()
        line = child.stdout.readline().decode().strip()
        status = pathlib.Path(f'/proc/{child.pid}/status').read_text()
        child.communicate()
    return line, int(status.partition('VmHWM:')[2].split()[0]) / 1024


def measure(words, folder):
    """The median seconds of the program and of flex."""
    source = folder / 'kinds.l'
    source.write_text(scanner(words))
    own, other = [], []
    for _ in range(RUNS):
        seconds, done = timed([PROGRAM], lines(words))
        if done.returncode != 0:
            print(f'bench: status {done.returncode}', file=sys.stderr)
            sys.exit(2)
        own.append(seconds)
        other.append(timed(['flex', '-t', source], b'')[0])
    return statistics.median(own), statistics.median(other)


def main():
    print(f"{'kinds':<18}{'answer':<18}{'seconds':>9}{'flex':>9}{'ratio':>7}{'MB beside':>11}")
    good = True
    for name, words, wanted in CASES:
        line, mb = peak(lines(words))
        if not line.startswith(wanted):
            print(f'bench: {name} gave {line!r}', file=sys.stderr)
            sys.exit(2)
        states = int(line.split()[1]) if wanted == 'states' else 0
        beside = mb - states * 512 / 1024 / 1024
        with tempfile.TemporaryDirectory() as folder:
            own, other = measure(words, pathlib.Path(folder))
        print(f'{name:<18}{line:<18}{own:>9.4f}{other:>9.4f}{own / other:>7.2f}{beside:>11.1f}')
        good = good and own <= other and beside <= MOST_MB
    sys.exit(0 if good else 1)


main()
PROGRAM
