#!/usr/bin/env bash
# Counts the allocations that an item of a rule takes in `lbnfchart serve`, by valgrind, which counts
# calls of malloc and of realloc alike. A session ends behind its grammar, and two grammars differ
# only in how many items each rule has: the difference of their counts, by the items, is written.
# A grammar of too many symbols is read and expanded and then refused, so that no binary form is
# made; the other figure is of grammars that have one.
# The status is 1 where an item that is read and expanded takes more than 3 allocations, and 2 where
# the program gives a wrong answer.
#
#     bench/allocations.sh [PROGRAM]
#
# measures another build of the program in place of the one that stands here.
set -eu

source "$(dirname -- "${BASH_SOURCE[0]}")/program.bash"

exec python3 - "$program" <<'PROGRAM'
import re
import subprocess
import sys

PROGRAM = sys.argv[1]
COUNTED = ['valgrind', '--tool=memcheck', '--undef-value-errors=no', PROGRAM, 'serve']
RULES, FEW, MANY = 40, 16, 32
MOST = 3.0

# More symbols than a binary form may have.
TOO_MANY = 'Many. Many ::= ' + 'B ' * 2048 + '; B. B ::= "b" ;'
LONG = 'A_category_of_25_bytes_xy'

# What is counted, how it is written, how many items it is, and the definitions that it needs.
ITEMS = (
    ('a category, name of 1 byte', 'A', 1, 'A. A ::= "a" ;'),
    ('a category, name of 25 bytes', LONG, 1, f'A. {LONG} ::= "a" ;'),
    ('a token kind that is defined', 'T', 1, "token T 'x' ;"),
    ('a token kind that is predefined', 'Integer', 1, ''),
    ('a word of 1 byte', '"a"', 1, ''),
    ('a word of 8 bytes', '"eight678"', 1, ''),
    ('a word of 16 bytes', '"sixteen890123456"', 1, ''),
    ('a word of 40 bytes', f'"{"forty67890" * 4}"', 1, ''),
    ('a word of 8 quotes', '"' + '\\"' * 8 + '"', 1, ''),
    ('four words in one string', '"a b c d"', 4, ''),
    ('a list category, [A]', '[A]', 1, '[]. [A] ::= "a" ;'),
    ('a list of lists, name of 25 bytes', f'[[{LONG}]]', 1, f'[]. [[{LONG}]] ::= "a" ;'),
)


def grammar(item, items, needed):
    """Rules of so many items, which are parts of the item, behind the definitions."""
    rules = [f'R{n:02d}. Start ::= {" ".join([item] * items)} ;' for n in range(RULES)]
    return '\n'.join([needed] + rules).encode()


def allocations(block, begins):
    given = b'script 1\ngrammar %d\n' % len(block) + block + b'\n'
    done = subprocess.run(COUNTED, input=given, capture_output=True)
    found = re.search(rb'total heap usage: ([\d,]+) allocs', done.stderr)
    if not done.stdout.startswith(begins) or not found:
        print(f'bench: a wrong answer: {done.stdout[:80]!r}', file=sys.stderr)
        sys.exit(2)
    return int(found.group(1).replace(b',', b''))


def of_an_item(item, each, needed, begins):
    """The allocations of an item, from the difference of two grammars."""
    few, many = (
        allocations(grammar(item, items // each, needed), begins) for items in (FEW, MANY)
    )
    return (many - few) / (RULES * (MANY - FEW))


fine = True
for title, item, each, needed in ITEMS:
    read = of_an_item(item, each, f'{needed} {TOO_MANY}', b'grammar refused symbols ')
    whole = of_an_item(item, each, needed, b'grammar rules ')
    fine = fine and read <= MOST
    print(f'{title}: {read:.2f} read and expanded, {whole:.2f} with its binary form', flush=True)
print(f'at most {MOST:.0f}' if fine else f'NOT at most {MOST:.0f}')
sys.exit(0 if fine else 1)
PROGRAM
