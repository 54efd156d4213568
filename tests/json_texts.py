#!/usr/bin/env python3
"""JSON texts made at random, held against Python's `json`.

    python3 tests/json_texts.py CMD [ARG ..] [--texts N] [--seed S]

opens each text under the grammar examples/json.cf and asks whether the whole is a Value: the answer
is `yes` exactly where `json` reads the text. Of a text that `json` reads, the strings and numbers
among the tokens are those that it reads, in their order, and the printed tree of the whole, read
back, is the value that it gives. Half of the texts are whole, and half are
broken by one byte. It prints `N passed, M failed`.

Two readings differ on purpose, and no text asks for them: the vertical tab and the form feed are
white space here and not in JSON, and `json` reads NaN and Infinity.
"""
import json
import pathlib
import random
import re
import subprocess
import sys

import compared

GRAMMAR = (pathlib.Path(__file__).resolve().parent.parent / 'examples' / 'json.cf').read_bytes()
SPACES = ['', '', '', ' ', '\n', '\t ', '\r\n']
PLAIN = [chr(c) for c in range(32, 127) if chr(c) not in '"\\'] + ['\x7f', '\x80', 'é', '€', '\ufeff', '😀']
ESCAPED = ['\\"', '\\\\', '\\/', '\\b', '\\f', '\\n', '\\r', '\\t', '\\u0041', '\\uD83d', '\\u00e9']
# The bytes that break a text: all of ASCII but the two that are white space here alone.
BREAKING = [chr(c) for c in range(128) if c not in (11, 12)]
MOST = 4096                                 # letters of a text


def string(chance):
    parts = [chance.choice(ESCAPED if chance.random() < 0.2 else PLAIN)
             for _ in range(chance.randrange(0, 9))]
    return '"' + ''.join(parts) + '"'


def number(chance):
    whole = str(chance.choice([0, 1, 7, 10, 305, 98765]))
    fraction = '.' + chance.choice(['0', '25', '007']) if chance.random() < 0.4 else ''
    exponent = ''
    if chance.random() < 0.3:
        exponent = chance.choice('eE') + chance.choice(['', '+', '-']) + chance.choice(['0', '3', '12'])
    return ('-' if chance.random() < 0.3 else '') + whole + fraction + exponent


def value(chance, depth):
    sort = chance.randrange(7 if depth > 0 else 5)
    space = chance.choice(SPACES)
    if sort < 2:
        text = string(chance) if sort == 0 else number(chance)
    elif sort < 5:
        text = ['true', 'false', 'null'][sort - 2]
    elif sort == 5:
        parts = [value(chance, depth - 1) for _ in range(chance.randrange(0, 5))]
        text = '[' + (','.join(parts) or chance.choice(SPACES)) + ']'
    else:
        parts = [chance.choice(SPACES) + string(chance) + chance.choice(SPACES) + ':'
                 + value(chance, depth - 1) for _ in range(chance.randrange(0, 5))]
        text = '{' + (','.join(parts) or chance.choice(SPACES)) + '}'
    return space + text + chance.choice(SPACES)


def broken(chance, text):
    """The text with one byte left out, put in, or exchanged."""
    at = chance.randrange(0, len(text))
    sort = chance.randrange(3)
    new = '' if sort == 0 else chance.choice(BREAKING)
    return text[:at] + new + text[at + (0 if sort == 1 else 1):]


def texts(seed, count):
    chance = random.Random(seed)
    found = []
    while len(found) < count:
        text = value(chance, chance.randrange(0, 6))
        if len(found) % 2 == 1:
            text = broken(chance, text)
        if len(text) <= MOST:
            found.append(text)
    return found


def refuse(word):
    raise ValueError(word)


class Numeral(str):
    """A number as it stands in the text."""


def leaves(read):
    """The strings and numbers of what was read, in the order of the text."""
    if isinstance(read, Numeral):
        yield 'Number', str(read)
    elif isinstance(read, str):
        yield 'Text', read
    elif isinstance(read, tuple):
        for key, held in read:
            yield 'Text', key
            yield from leaves(held)
    elif isinstance(read, list):
        for held in read:
            yield from leaves(held)


def expected(text):
    """What `json` reads, alone in a list; it is empty where `json` reads none of the text."""
    try:
        return [json.loads(text, parse_constant=refuse, parse_int=Numeral, parse_float=Numeral,
                           object_pairs_hook=tuple)]
    except ValueError:
        return []


# A token as it is printed: a backslash is doubled, and a control byte is written by its number.
STRING = r'Text:("(?:[^"\\]|\\\\\\\\|\\\\[^\\]|\\x7f)*")'
TOKEN = re.compile(r' (?:word:([^ ]+)|Number:([^ ]+)|' + STRING + ')')
LEAF = re.compile(r'Number:([^ )\],]+)|' + STRING)
LABEL = re.compile(r'\((\w+)')


def string_of(printed):
    """The string that a token is, as `json` reads it."""
    return json.loads(printed.replace('\\x7f', '\x7f').replace('\\\\', '\\'))


def node(line, at):
    """The printed node that begins here, and where it ends: a label with children, a list of
    elements, or a token."""
    if line[at] == '(':
        label = LABEL.match(line, at)
        children, at = [], label.end()
        while line[at] == ' ':
            child, at = node(line, at + 1)
            children.append(child)
        if line[at] != ')':
            raise ValueError(line[at:])
        return (label[1], children), at + 1
    if line[at] == '[':
        elements, at = [], at + 1
        while line[at] != ']':
            if elements and not line.startswith(', ', at):
                raise ValueError(line[at:])
            element, at = node(line, at + 2 if elements else at)
            elements.append(element)
        return elements, at + 1
    leaf = LEAF.match(line, at)
    if not leaf:
        raise ValueError(line[at:])
    return (Numeral(leaf[1]) if leaf[1] else string_of(leaf[2])), leaf.end()


def value_of(tree):
    """The value that a printed tree stands for, each part with its sort."""
    label, children = tree
    if label in ('EmptyObject', 'EmptyArray') and not children:
        return label[5:], []
    if label == 'Object' and len(children) == 1:
        return label, [(key, value_of(held)) for _, (key, held) in children[0]]
    if label == 'Array' and len(children) == 1:
        return label, [value_of(held) for held in children[0]]
    if label in ('Text', 'Number') and len(children) == 1:
        return label, str(children[0])
    if label in ('True', 'False', 'Null') and not children:
        return label, None
    raise ValueError(label)


def sorted_value(read):
    """The same of what `json` reads."""
    if isinstance(read, Numeral):
        return 'Number', str(read)
    if isinstance(read, str):
        return 'Text', read
    if isinstance(read, tuple):
        return 'Object', [(key, sorted_value(held)) for key, held in read]
    if isinstance(read, list):
        return 'Array', [sorted_value(held) for held in read]
    return {True: 'True', False: 'False', None: 'Null'}[read], None


def printed_value(line):
    """The value of a reply to `tree`, or None where it is none."""
    try:
        tree, end = node(line, 0)
        return value_of(tree) if end == len(line) else None
    except (ValueError, IndexError, TypeError):
        return None


def told(line):
    """The strings and numbers of a reply to `tokens`, or None where it is none."""
    begin = re.match(r'tokens [0-9]+', line)
    if not begin:
        return None
    found, at = [], begin.end()
    while at < len(line):
        match = TOKEN.match(line, at)
        if not match:
            return None
        if match[2]:
            found.append(('Number', match[2]))
        if match[3]:
            found.append(('Text', string_of(match[3])))
        at = match.end()
    return found


def script(grammar, text):
    data = text.encode()
    return (b'script 1\ngrammar %d\n' % len(grammar) + grammar + b'\nopen %d\n' % len(data) + data
            + b'\nhas\ntokens\ntree\nend\n')


def fault(command, text):
    """What is wrong with the replies to the text, or None."""
    run = subprocess.run(command, input=script(GRAMMAR, text), capture_output=True, timeout=60)
    lines = run.stdout.decode().split('\n')
    if run.returncode != 0 or len(lines) != 7 or lines[5] != 'end':
        return f'status {run.returncode}, {run.stdout!r}'
    wanted = expected(text)
    if lines[2] != ('yes' if wanted else 'no'):
        return f'{lines[2]} in place of the other answer'
    if not wanted:
        return None if lines[4] == 'none' else f'{lines[4]!r} in place of none'
    if told(lines[3]) != list(leaves(wanted[0])):
        return f'{lines[3]!r} in place of {wanted[0]!r}'
    if printed_value(lines[4]) != sorted_value(wanted[0]):
        return f'{lines[4]!r} in place of {wanted[0]!r}'
    return None


if __name__ == '__main__':
    sys.exit(compared.run(__doc__, 'texts', 3000, texts, fault))
