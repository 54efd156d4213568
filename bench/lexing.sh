#!/usr/bin/env bash
# Measures how fast a text of JSON is cut into tokens by the program of crates/text_bench, beside
# scanners of the same kinds that `flex` makes, with its default tables and with full ones (-Cf), in
# turns in one run over the same bytes: (a) 1,048,576 bytes of records with long strings, (b) as
# many short tokens as a text may have. It writes the least microseconds of all rounds and their
# ratios, and for (a) the most bytes that are allocated at a time for each token, as valgrind counts
# them, by the difference to a text of as many bytes that has three tokens. A scanner of flex copies
# the bytes too, and keeps its tokens in an array that is there before.
# The status is 1 where the program takes more than 3 times as long as the scanner with default
# tables, or more than 24 bytes a token, and 2 where a program fails or their tokens differ. It takes
# a C compiler and valgrind.
set -eu

root=$(cd -- "$(dirname -- "${BASH_SOURCE[0]}")/.." && pwd)
program=$root/crates/text_bench/out/text_bench

# The run proves and builds the program, where it has to be built.
(cd -- "$root/crates/text_bench" && rt run <stdin >/dev/null) || exit 2

exec python3 - "$program" <<'PROGRAM'
import pathlib
import random
import subprocess
import sys
import tempfile

PROGRAM = sys.argv[1]
BYTES, TOKENS = 1_048_576, 16_384
ROUNDS, TIMES = 5, 30
MOST_RATIO, MOST_BYTES = 3.0, 24.0

SCANNER = r"""%option noyywrap 8bit never-interactive nounput noinput
%{
#include <stdint.h>
#include <stdio.h>
#include <stdlib.h>
#include <time.h>
struct token { uint32_t kind, first, end; };
static struct token tokens[16384];
static uint32_t count, end;
#define YY_USER_ACTION end += yyleng;
#define KEEP(number) { struct token *t = &tokens[count++]; t->kind = (number); \
    t->first = end - yyleng; t->end = end; }
%}
NEXT [\x80-\xBF]
WIDE ([\xC2-\xDF]{NEXT}|[\xE0-\xEF]{NEXT}{NEXT}|[\xF0-\xF4]{NEXT}{NEXT}{NEXT})
HEX [0-9a-fA-F]
ESC \\(["\\/bfnrt]|u{HEX}{HEX}{HEX}{HEX})
%%
[ \t\n\r\f\v]
"{" KEEP(1)
"}" KEEP(2)
"[" KEEP(3)
"]" KEEP(4)
"true" KEEP(5)
"false" KEEP(6)
"null" KEEP(7)
":" KEEP(8)
"," KEEP(9)
-?(0|[1-9][0-9]*)(\.[0-9]+)?([eE][+-]?[0-9]+)? KEEP(10)
\"([^"\\\x00-\x1F\x80-\xFF]|{WIDE}|{ESC})*\" KEEP(11)
{WIDE}|. KEEP(0)
%%
static char bytes[1048577];
int main(int words, char **word) {
    size_t len = fread(bytes, 1, sizeof bytes, stdin);
    int64_t least = INT64_MAX;
    if (words < 2 || len == 0 || bytes[len - 1] != '\n') return 1;
    for (int i = atoi(word[1]); i > 0; i--) {
        struct timespec from, to;
        clock_gettime(CLOCK_MONOTONIC, &from);
        YY_BUFFER_STATE buffer = yy_scan_bytes(bytes, len - 1);
        count = end = 0;
        while (yylex()) {}
        clock_gettime(CLOCK_MONOTONIC, &to);
        yy_delete_buffer(buffer);
        int64_t taken = (to.tv_sec - from.tv_sec) * 1000000000L + to.tv_nsec - from.tv_nsec;
        if (taken < least) least = taken;
    }
    uint64_t sum = 0;
    for (uint32_t i = 0; i < count; i++)
        sum = ((sum * 31 + tokens[i].kind) * 31 + tokens[i].first) * 31 + tokens[i].end;
    printf("bytes %zu tokens %u sum %llu\nnanoseconds %lld\n", len - 1, count,
        (unsigned long long)sum, (long long)least);
    return 0;
}
"""

draw = random.Random(17)
LETTERS = 'abcdefghijklmnopqrstuvwxyz      ABCDEFGHIJ0123456789.,:;-()'
RARE = ['\\n', '\\"', '\\\\', '\\u00e9', 'é', '€', '😀']


def string(size):
    """A string of so many bytes, one in forty of which is an escape or no ASCII character."""
    parts, left = [], size - 2
    while left > 0:
        part = draw.choice(RARE if draw.random() < 0.025 and left > 6 else LETTERS)
        parts.append(part)
        left -= len(part.encode())
    return '"' + ''.join(parts) + '"'


def records():
    """An array of records of ten tokens with long strings, filled up by a last string."""
    parts = []
    for number in range(1_540):
        parts.append(f'{{"id": {number}, "text": {string(650)}}}')
    text = '[' + ', '.join(parts) + ', '
    return text + string(BYTES - len(text.encode()) - 1) + ']'


def short_tokens():
    """An array of as many short tokens as fit. Its tokens are an odd number."""
    draws = [lambda: str(draw.randrange(1000)), lambda: f'{draw.random() * 100 - 50:.2f}e+3',
             lambda: 'true', lambda: 'false', lambda: 'null', lambda: string(draw.randint(2, 9)),
             lambda: '0', lambda: '-7']
    items = [draw.choice(draws)() for _ in range(TOKENS // 2 - 1)]
    return '[' + ', '.join(items) + ']'


def few_tokens():
    """An array of one string."""
    return '[' + string(BYTES - 2) + ']'


def run(program, text):
    """What the program tells of the tokens, and its least nanoseconds."""
    command = [program, str(TIMES)]
    done = subprocess.run(command, input=text + b'\n', capture_output=True, check=False)
    lines = done.stdout.decode().splitlines()
    if done.returncode != 0 or len(lines) != 2:
        print(f'bench: {program} ended with status {done.returncode}', file=sys.stderr)
        sys.exit(2)
    return lines[0], int(lines[1].split()[1])


def peak(folder, text):
    """The tokens of the text, and the most bytes that the program that opens it takes at a time."""
    out = folder / 'massif'
    flags = ['--tool=massif', f'--massif-out-file={out}', '--peak-inaccuracy=0.0']
    done = subprocess.run(['valgrind', *flags, PROGRAM], input=text + b'\n', capture_output=True,
                          check=True)
    sizes = [line for line in out.read_text().splitlines() if line.startswith('mem_heap_B=')]
    return int(done.stdout.split()[3]), max(int(line.partition('=')[2]) for line in sizes)


def scanner(folder, name, *flags):
    """The scanner that flex makes with these flags."""
    source = folder / 'json.l'
    source.write_text(SCANNER)
    subprocess.run(['flex', *flags, '-o', folder / f'{name}.c', source], check=True)
    subprocess.run(['cc', '-O2', '-o', folder / name, folder / f'{name}.c'], check=True)
    return folder / name


def measure(programs, text):
    """The least nanoseconds of each program, where all tell the same of the tokens."""
    # The programs run in turn, so that all meet the same load.
    rounds = [[run(program, text) for program in programs] for _ in range(ROUNDS)]
    told = {line for turn in rounds for line, _ in turn}
    if len(told) != 1:
        print('bench: the tokens differ', *sorted(told), sep='\n', file=sys.stderr)
        sys.exit(2)
    return told.pop(), [min(turn[i][1] for turn in rounds) for i in range(len(programs))]


def main():
    good = True
    texts = {'(a) long strings': records().encode(), '(b) short tokens': short_tokens().encode()}
    print(f"{'text':<18}{'bytes':>9}{'tokens':>8}{'us':>8}{'flex':>8}{'-Cf':>8}"
          f"{'ratio':>7}{'to -Cf':>8}")
    with tempfile.TemporaryDirectory() as name:
        folder = pathlib.Path(name)
        programs = [PROGRAM, scanner(folder, 'default'), scanner(folder, 'full', '-Cf')]
        for name, text in texts.items():
            told, times = measure(programs, text)
            _, size, _, tokens, *_ = told.split()
            own, default, full = (time / 1000 for time in times)
            print(f'{name:<18}{size:>9}{tokens:>8}{own:>8.0f}{default:>8.0f}{full:>8.0f}'
                  f'{own / default:>7.2f}{own / full:>8.2f}')
            good = good and own <= MOST_RATIO * default
        many = peak(folder, texts['(a) long strings'])
        few = peak(folder, few_tokens().encode())
    each = (many[1] - few[1]) / (many[0] - few[0])
    print(f'(a) takes {each:.1f} bytes for each token beside the text')
    sys.exit(0 if good and each <= MOST_BYTES else 1)


main()
PROGRAM
