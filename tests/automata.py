#!/usr/bin/env python3
"""Automata: small lexicons worked out by hand, and random expressions beside Python's `re`.

    python3 tests/automata.py CMD [ARG ..]     prints `N passed, M failed`

CMD reads lines as `crates/lexer_bench/out/lexer_bench` does. Each random expression is made alone
into an automaton, which is asked for the longest match at the beginning of some texts; `re` is
asked by `fullmatch` for each length. Texts are drawn from a few scalars of each length in UTF-8,
with those at the borders of the lengths, and two of five begin with a match. There are no white
scalars among them, since white space is a kind of its own.
"""
import random
import re
import subprocess
import sys

EXPRESSIONS, TEXTS = 2_500, 8
ASCII = "abzAZ09_-*.'\"\\~\x01\x7f"
WIDE = '\x80éß\u07ff\u0800€\uffff\U00010000😀\U0010ffff'
CLASSES = {
    'digit': '[0-9]',
    'letter': '[A-Za-z]',
    'upper': '[A-Z]',
    'lower': '[a-z]',
    'char': r'[\s\S]',
}
# Scalars that are mostly drawn, so that texts match.
COMMON = 'abA0é€'


# Lexicons by hand: their lines, what `make` writes, and texts with their longest matches. The start
# and white space are two states of each.
FITS, FULL = 'states 1023', 'too many states'
BORDERS = '\x7f\x80\u07ff\u0800\uffff\U00010000\U0010ffff'
BY_HAND = [
    # Families with one state less than the most, the most, and one more: a word has a state for
    # each letter; a block comment one for its opening text and one for each front of its closing
    # text; `(a|b)* a (a|b)...` tells the last letters apart.
    (['word ' + 'a' * 1_020], 'states 1022', [('a' * 1_020, '1020 0'), ('a' * 1_019, 'none')]),
    (['word ' + 'a' * 1_021], FITS, [('a' * 1_022, '1021 0')]),
    (['word ' + 'a' * 1_022], FULL, []),
    (['block < ' + 'a' * 1_018], 'states 1022', [('<b' + 'a' * 1_018, '1020 comment')]),
    (['block < ' + 'a' * 1_019], FITS, [('<' + 'a' * 1_018, 'none')]),
    (['block < ' + 'a' * 1_020], FULL, []),
    (["token [ab * 'a" + ' [ab' * 8 + ' .10'], 'states 514', [('abbbbbbbbb', '9 0')]),
    (["token [ab * 'a" + ' [ab' * 9 + ' .11'], FULL, []),
    # No scalar, no byte, and a difference that takes all.
    (['token ['], 'states 2', [('', 'none'), ('a', 'none'), (' ', '1 white')]),
    (['token {'], 'states 2', [('', 'none'), ('a', 'none')]),
    (["token 'a 'a - 'b .2"], 'states 2', [('ab', 'none'), ('b', 'none')]),
    (["token 'c 'a 'a - 'b .3", 'word c'], 'states 3', [('cb', '1 1'), ('ccb', '1 1')]),
    # The least kind of the longest match.
    (['line //', 'word //'], 'states 5', [('//', '2 comment'), ('// é', '5 comment')]),
    (['word ab', 'token lower +'], 'states 5', [('ab', '2 0'), ('abc', '3 1'), ('a', '1 1')]),
    (['token lower +', 'word ab'], 'states 5', [('ab', '2 0'), ('abc', '3 0')]),
    (['word \t', 'word \t\t'], 'states 4', [('\t', '1 white'), ('\t\t', '2 1')]),
    # A block comment ends with its first closing text, of which nothing is in the opening text.
    (['block < aba'], 'states 7', [('<ababa', '4 comment'), ('<aaba', '5 comment')]),
    (['block < aba'], 'states 7', [('<ab', 'none'), ('<', 'none'), ('<aba', '4 comment')]),
    (['block /* **/'], 'states 8', [('/***/*', '5 comment'), ('/****/', '6 comment')]),
    (['block /* **/'], 'states 8', [('/**/', 'none'), ('/**a*/', 'none')]),
    (['block /* */'], 'states 7', [('/*/', 'none'), ('/*/*/', '5 comment'), ('/**/', '4 comment')]),
    (['block a a'], 'states 5', [('aa', '2 comment'), ('aba', '3 comment'), ('a', 'none')]),
    # 64 brackets, each with eight signs behind it.
    (["token 'a " + '* + ? * + ? * + ' * 64], 'states 3', [('aaa', '3 0'), ('b', 'none')]),
    (["token 'a " + '? + ' * 256 + "'b .2"], 'states 4', [('aab', '3 0'), ('b', '1 0')]),
    # Scalars of all lengths, at the borders.
    *[(['token char'], 'states 12', [(c + c, f'{len(c.encode())} 0')]) for c in BORDERS],
    *[([f"token '{c} +"], None, [(c + c, f'{2 * len(c.encode())} 0')]) for c in BORDERS],
    *[([f'token char [{c[:c < chr(128)]}ab - +'], None,
       [(c + 'a', 'none' if c < chr(128) else f'{len(c.encode())} 0')]) for c in BORDERS],
]


class Expression:
    """An expression in reverse Polish notation, the same for `re`, and a drawn match of it."""

    def __init__(self, polish, pattern, example):
        self.polish, self.pattern, self.example = polish, pattern, example


def scalar(draw, ascii_alone=False):
    if draw.random() < 0.7:
        return draw.choice(COMMON[:4] if ascii_alone else COMMON)
    return draw.choice(ASCII if ascii_alone else ASCII + WIDE)


def class_part(draw, ascii_alone):
    """A class of one form: its notation, its members for `re` in a set, and a test of a scalar."""
    form = draw.random()
    if form < 0.35:
        one = scalar(draw, ascii_alone)
        return f"'{one}", re.escape(one)
    if form < 0.6:
        some = ''.join(scalar(draw, ascii_alone) for _ in range(draw.randint(0, 4)))
        return f'[{some}', f'[{re.escape(some)}]' if some else r'[^\s\S]'
    names = [name for name in CLASSES if not (ascii_alone and name == 'char')]
    name = draw.choice(names)
    return name, CLASSES[name]


def class_of(draw, depth, ascii_alone=False):
    """A class: its notation, and a pattern that matches one scalar."""
    if depth == 0 or draw.random() < 0.5:
        return class_part(draw, ascii_alone)
    left = class_of(draw, depth - 1, ascii_alone)
    if draw.random() < 0.5:
        right = class_of(draw, depth - 1, ascii_alone)
        return f'{left[0]} {right[0]} |2', f'(?:{left[1]}|{right[1]})'
    right = class_of(draw, depth - 1, True)
    return f'{left[0]} {right[0]} -', f'(?:(?!{right[1]}){left[1]})'


def leaf(draw):
    form = draw.random()
    if form < 0.1:
        return Expression('eps', '(?:)', '')
    if form < 0.25:
        text = ''.join(scalar(draw) for _ in range(draw.randint(0, 3)))
        return Expression(f'{{{text}', f'(?:{re.escape(text)})', text)
    polish, pattern = class_of(draw, 2)
    members = [c for c in COMMON + ASCII + WIDE if re.fullmatch(pattern, c)]
    return Expression(polish, pattern, draw.choice(members) if members else '')


def expression(draw, depth):
    if depth == 0 or draw.random() < 0.2:
        return leaf(draw)
    form = draw.random()
    if form < 0.35:
        parts = [expression(draw, depth - 1) for _ in range(draw.randint(0, 3))]
        polish = ' '.join([part.polish for part in parts] + [f'.{len(parts)}'])
        pattern = ''.join(part.pattern for part in parts)
        return Expression(polish, f'(?:{pattern})', ''.join(part.example for part in parts))
    if form < 0.6:
        parts = [expression(draw, depth - 1) for _ in range(draw.randint(1, 3))]
        polish = ' '.join([part.polish for part in parts] + [f'|{len(parts)}'])
        pattern = '|'.join(part.pattern for part in parts)
        return Expression(polish, f'(?:{pattern})', draw.choice(parts).example)
    sign = draw.choice('*+?')
    part = expression(draw, depth - 1)
    least, most = {'*': (0, 3), '+': (1, 3), '?': (0, 1)}[sign]
    example = part.example * draw.randint(least, most)
    return Expression(f'{part.polish} {sign}', f'(?:{part.pattern}){sign}', example)


def some_text(draw, given):
    """A text that may begin with a match, with one scalar changed now and then."""
    text = given.example if draw.random() < 0.6 else ''
    text += ''.join(scalar(draw) for _ in range(draw.randint(0, 4)))
    if text and draw.random() < 0.3:
        at = draw.randrange(len(text))
        text = text[:at] + scalar(draw) + text[at + 1:]
    return text[:12]


def longest(pattern, text):
    """What the program owes: the longest match of one scalar or more, in bytes."""
    for end in range(len(text), 0, -1):
        if pattern.fullmatch(text, 0, end):
            return '%d 0' % len(text[:end].encode())
    return 'none'


def cases():
    """Each expression with its texts."""
    draw = random.Random(2_500)
    for _ in range(EXPRESSIONS):
        given = expression(draw, 3)
        yield given, [some_text(draw, given) for _ in range(TEXTS)]


def checks():
    """Each lexicon: its lines, what `make` is owed, if known, and the texts with their matches."""
    yield from BY_HAND
    for given, texts in cases():
        pattern = re.compile(given.pattern)
        yield [f'token {given.polish}'], None, [(text, longest(pattern, text)) for text in texts]


def run(command):
    rows = list(checks())
    lines = []
    for kinds, _, texts in rows:
        lines += [*kinds, 'make', *(f'text {text}' for text, _ in texts)]
    data = ''.join(line + '\n' for line in lines).encode()
    done = subprocess.run(command, input=data, stdout=subprocess.PIPE, check=False)
    answers = iter(done.stdout.decode().split('\n'))
    passed, failed = 0, 1 if done.returncode else 0
    for kinds, made, texts in rows:
        told = next(answers, '')
        owed = [(kinds, told, told if made is None else made)]
        owed += [(f'{kinds} on {text!r}', next(answers, ''), wanted) for text, wanted in texts]
        for name, told, wanted in owed:
            passed += told == wanted
            failed += told != wanted
            if told != wanted:
                print(f'FAILED {name}: {told!r} in place of {wanted!r}'[:400])
    print(f'{passed} passed, {failed} failed')
    return 1 if failed else 0


if __name__ == '__main__':
    if sys.argv[1:]:
        sys.exit(run(sys.argv[1:]))
    print(__doc__)
    sys.exit(2)
