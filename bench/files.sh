#!/usr/bin/env bash
# Counts the instructions of `lbnfchart serve` on grammar files of 8,192 to 65,536 bytes, by
# valgrind, in a session that ends behind its grammar, less those of an empty grammar: a file takes
# one or two milliseconds, which are too few to be timed. Each family of files has one of each size.
# Where the closures of the binary form grow with the square of the file, a member of these is the
# measure, where the searches for a category that reaches itself do, a category that one looks at,
# where the automaton looks for each word at those that begin alike, a byte or 22 such looks, and else
# a byte. The last line says whether in each family such a unit of the largest file takes at
# most 1.3 times the instructions of one of the smallest.
# The status is 1 where it is not so, and 2 where the program gives a wrong answer.
#
#     bench/files.sh [PROGRAM]
#
# measures another build of the program in place of the one that stands here.
set -eu

source "$(dirname -- "${BASH_SOURCE[0]}")/program.bash"

exec python3 - "$program" <<'PROGRAM'
import re
import subprocess
import sys

PROGRAM = sys.argv[1]
COUNTED = ['valgrind', '--tool=callgrind', '--callgrind-out-file=/dev/null', PROGRAM, 'serve']
SIZES = (8_192, 16_384, 32_768, 65_536)
MOST = 1.3


def padded(lines, size):
    """The lines, and spaces up to the size."""
    text = ''.join(line + '\n' for line in lines).encode()
    assert len(text) <= size, len(text)
    return text.ljust(size)


def internal(size):
    """Internal rules, which are read whole: all categories are known, and none gives a rule."""
    rule = 'internal Add. Exp ::= Exp "+" [Exp1] ; -- a rule'
    return padded([rule] * (size // (len(rule) + 1)), size), 'rules 0 categories 1 kinds 0'


def refused(size):
    """The same, with a sign at the last byte that begins no definition."""
    return internal(size - 1)[0] + b']', 'refused syntax %d' % (size - 1)


def name(number):
    """A name of 24 bytes."""
    return f'A_category_of_number_{number:03d}' if number < 1000 else 'A_category_of_a_number_z'


def chain(size):
    """Categories of which each is the next one, and the last one is empty: all are nullable."""
    count = size // 66
    rules = [f'R{n:03d}. {name(n)} ::= {name(n + 1)} ;' for n in range(count)]
    rules.append(f'End. {name(count)} ::= ;')
    return padded(rules, size), f'rules {count + 1} categories {count + 1} kinds 0'


def rising(size):
    """The same chain, written from its empty end on."""
    block, reply = chain(size)
    return padded(reversed(block.decode().strip().split('\n')), size), reply


def copies(size):
    """A chain of 26 categories, each of which is many of the next one: all are nullable, and the
    items are more than a grammar may have."""
    count = size // (26 * 2) - 16
    rules = [f'R. {chr(65 + n)} ::= {chr(66 + n) + " " if n < 25 else ""}' for n in range(26)]
    rules = [rule + (rule[-2] + ' ') * (count - 1) * (n < 25) + ';' for n, rule in enumerate(rules)]
    symbols = 26 + 25 * count
    return padded(rules, size), None if symbols <= 2048 else f'refused symbols {symbols}'


def empty(size):
    """Categories that are empty, all of which the first rule has."""
    count = min(size // 64, 1000)
    rules = ['First. First ::= ' + ' '.join(name(n) for n in range(count)) + ' ;']
    rules += [f'R{n:03d}. {name(n)} ::= ;' for n in range(count)]
    return padded(rules, size), f'rules {count + 1} categories {count + 1} kinds 0'


def chain_members(size):
    """The category number k of a chain reaches itself and those before it."""
    count = size // 66 + 1
    return count * (count + 1) // 2


def empty_members(size):
    """The category number k of the rule reaches the k items that a suffix may begin with, and so
    does the item; about the square of their number."""
    return min(size // 64, 1000) ** 2


def scalar(number):
    """A scalar of two bytes. A thousand of them have 16 first bytes, so that as many words of one
    scalar have 1,018 states, with the start and white space."""
    return chr(0x100 + number)


def kinds(size):
    """Rules with a word each, all different, of one scalar; each rule has a line of 64 bytes."""
    count = min(size // 64, 1000)
    rules = [f'{f"R{n:03d}. Word ::= {chr(34)}{scalar(n)}{chr(34)} ; -- of one scalar":<62}' for n in range(count)]
    return padded(rules, size), f'rules {count} categories 1 kinds {count}'


def kind_looks(size):
    """The bytes, and the looks for each word at all others, of which 22 cost as much as one byte."""
    count = min(size // 64, 1000)
    return size + count * count // 22


def tokens(size):
    """Definitions of tokens, and every tenth one of a comment, each with a scalar of its own."""
    count = size // 80
    lines = [f'comment "#{scalar(n)}" ;' if n % 10 == 0 else
             f"token T{n:03d} ('{scalar(n)}' | [{chr(34)}{scalar(n)}{chr(34)}]) ; -- a token"
             for n in range(count)]
    lines = [line + ' ' * (79 - len(line.encode())) for line in lines]
    return padded(lines, size), f'rules 0 categories 0 kinds {count - (count + 9) // 10}'


def categories(size):
    """Rules of as many categories, each with a word and a category of a greater number."""
    count = size // 100
    rules = [f'R{n:03d}. {name(n)} ::= "{n % 10}" {name(n + 1)} ;' for n in range(count)]
    rules.append(f'End. {name(count)} ::= "0" ;')
    return padded(rules, size), f'rules {count + 1} categories {count + 1} kinds 10'


def tower(size):
    """A tower of levels, each with an operator: an expression of a level is one of each below."""
    count = levels(size)
    rules = [f'coercions Exp {count} ;', f'One. Exp{count} ::= "1" ;']
    for n in range(count):
        level = f'Exp{n}' if n else 'Exp'
        rules.append(f'R{n:03d}. {level} ::= Exp{n + 1} "plus" {level} ;')
    return padded(rules, size), f'rules {2 * count + 2} categories {count + 1} kinds 4'


def levels(size):
    return min(size // 80, 330)


def tower_members(size):
    """An expression of a level is one of each level below it."""
    return levels(size) * (levels(size) + 1) // 2


def cycle(size):
    """A chain of categories of which the last one alone reaches itself."""
    count = size // 70
    rules = [f'R{n:03d}. {name(n)} ::= {name(n + 1)} ;' for n in range(count)]
    rules.append(f'End. {name(count)} ::= {name(count)} ;')
    return padded(rules, size), f'refused cyclic {name(count)}'


def cycle_searches(size):
    """There is a search from each category of the chain, which looks at all behind it."""
    count = size // 70 + 1
    return count * (count + 1) // 2


def instructions(block, reply):
    given = b'script 1\ngrammar %d\n' % len(block) + block + b'\n'
    done = subprocess.run(COUNTED, input=given, capture_output=True)
    found = re.search(rb'Collected : (\d+)', done.stderr)
    wanted = b'' if reply is None else b'grammar ' + reply.encode() + b'\n'
    if not done.stdout.startswith(wanted) or not found:
        print(f'bench: a wrong answer: {done.stdout[:80]!r}', file=sys.stderr)
        sys.exit(2)
    return int(found.group(1))


FAMILIES = (
    ('internal rules, read whole', internal, 'byte', None),
    ('the same, refused at the last byte', refused, 'byte', None),
    ('a chain of nullable categories', chain, 'member', chain_members),
    ('the same, from its end', rising, 'member', chain_members),
    ('26 categories, each many of the next', copies, 'byte', None),
    ('all nullable, in one rule', empty, 'member', empty_members),
    ('1,000 kinds', kinds, 'byte or 22 looks', kind_looks),
    ('definitions of tokens and comments', tokens, 'byte', None),
    ('1,000 categories', categories, 'byte', None),
    ('a tower of levels', tower, 'member', tower_members),
    ('a chain into a cycle', cycle, 'category looked at', cycle_searches),
)

base = instructions(b'', 'rules 0 categories 0 kinds 0')
fine = True
for title, made, unit, count in FAMILIES:
    counts = SIZES if count is None else [count(size) for size in SIZES]
    costs = [(instructions(*made(size)) - base) / units for size, units in zip(SIZES, counts)]
    ratio = costs[-1] / costs[0]
    fine = fine and ratio <= MOST
    told = ', '.join(f'{size} bytes {cost:.0f}' for size, cost in zip(SIZES, costs))
    print(f'{title}: instructions a {unit} at {told}; {ratio:.2f} times', flush=True)
print(f'within {MOST} times' if fine else f'NOT within {MOST} times')
sys.exit(0 if fine else 1)
PROGRAM
