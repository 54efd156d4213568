#!/usr/bin/env python3
"""Random edits, each version held against a fresh session on the same text.

    python3 tests/edits.py CMD [ARG ..] [--edits N] [--seed S]

makes sessions of some 40 edits each on three grammars of `examples`, JSON, the imperative language
and labelled BNF, on texts of 60 to 200 tokens, until there are N edits. An edit puts another phrase
of the same category in the place of one, or other white space, so that the text stays well formed;
or it breaks the text, which later edits mend; or it is refused. Behind each edit the session is
asked for `has` alone and over 50 spans, `tokens` and `tree`. All replies are, byte for byte, those of
a session that opens the same text; the numbers of versions, the refusals, and how many tokens a well
formed text has are worked out here. It prints the seed, what the edits were, and
`N passed, M failed`, N the sessions.
"""
import collections
import pathlib
import random
import subprocess
import sys

import compared

EXAMPLES = pathlib.Path(__file__).resolve().parent.parent / 'examples'
MOST_BYTES, MOST_TOKENS = 1_048_576, 16_384
FEWEST, MOST = 60, 200
PER_SESSION = 40
SPANS = 50

# The phrases of each category, the shortest first; a word that is no category is a kind of token or a word.
JSON = {
    'Value': ['null', 'true', 'false', 'Text', 'Number', '{ }', '[ ]'] + ['{ [Member] }', '[ [Value] ]'] * 4,
    '[Member]': ['Member'] + ['Member , [Member]'] * 3,
    '[Value]': ['Value'] + ['Value , [Value]'] * 3,
    'Member': ['Text : Value'],
}
IMPERATIVE = {
    'Prog': ['[Def]'],
    '[Def]': ['Def'] + ['Def [Def]'] * 2,
    'Def': ['Type Ident ( [Param] ) { [Stm] }'],
    '[Param]': ['', 'Param', 'Param , [Param]'],
    'Param': ['Type Ident'],
    'Type': ['int', 'bool'],
    '[Stm]': [''] + ['Stm [Stm]'] * 3,
    'Stm': ['return Exp ;', 'Ident = Exp ;', 'Type Ident = Exp ;', 'while ( Exp ) Stm',
            'if ( Exp ) Stm else Stm', '{ [Stm] }'],
    'Exp': ['Exp1', 'Exp1 < Exp1'],
    'Exp1': ['Exp2', 'Exp1 + Exp2'],
    'Exp2': ['Exp3', 'Exp2 * Exp3'],
    'Exp3': ['Ident', 'Integer', 'Ident ( [Exp] )', '( Exp )'],
    '[Exp]': ['', 'Exp', 'Exp , [Exp]'],
}
LBNF = {
    'Grammar': ['[Def]'],
    '[Def]': ['', 'Def', '; [Def]'] + ['Def ; [Def]'] * 6,
    'Def': ['Label . Cat ::= [Item]'] * 3 + [
        'internal Label . Cat ::= [Item]', 'terminator Cat String', 'terminator nonempty Cat String',
        'separator Cat String', 'separator nonempty Cat String', 'coercions Name Integer', 'entrypoints [Cat]',
        'token Name Expr', 'position token Name Expr', 'comment String', 'comment String String'],
    'Label': ['Name', '_', '[ ]', '( : )', '( : [ ] )'],
    'Cat': ['Name', '[ Cat ]'],
    '[Cat]': ['Cat', 'Cat , [Cat]'],
    'Item': ['Cat', 'String'],
    '[Item]': [''] + ['Item [Item]'] * 2,
    'Expr': ['Expr1', 'Expr | Expr1'],
    'Expr1': ['Expr2', 'Expr1 - Expr2'],
    'Expr2': ['Expr3', 'Expr2 Expr3'],
    'Expr3': ['Expr4', 'Expr3 *', 'Expr3 +', 'Expr3 ?'],
    'Expr4': ['digit', 'letter', 'upper', 'lower', 'char', 'eps', 'Char', '[ String ]', '{ String }', '( Expr )'],
}
KINDS = {
    'Text': ['""', '"a"', '"\\u00e9"', '"é"', '"a € b"', '"😀"', '"{"'],
    'Number': ['0', '7', '-12', '2.5e3'],
    'Ident': ['x', 'y1', 'sum', 'is_0'],
    'Integer': ['0', '7', '305'],
    'Name': ['A', 'Exp', 'Stm2', "S'"],
    'String': ['"a"', '""', '";"', '"é"', '"😀 €"', '"--"'],
    'Char': ["'a'", "'é'", "'\\''", "'😀'"],
}
# The file of each grammar, its phrases, and what may stand before a token.
LANGUAGES = [
    ('json', JSON, [' ', '  ', '\n', '\t\r\n']),
    ('imperative', IMPERATIVE, [' ', '  ', '\n', ' // é\n', ' /* € 😀 */ ']),
    ('lbnf', LBNF, [' ', '  ', '\n', ' -- é\n', ' {- € 😀 -} ']),
]
# Tokens that may stand beside any other without white space.
ALONE = set('()[]{},;')
# What breaks a text, most often.
BREAKING = ['"', "'", '/*', '*/', '//', '{-', '-}', '--', '(', ')', '{', '}', ';', ',', ' ', '\n', '~', '0', 'x', 'é', '€', '😀',
            '\x00', '\x7f', 'else', '::=']
# What is no UTF-8.
WRONG = [b'\x80', b'\xc3', b'\xe2\x82', b'\xf0\x9f\x98', b'\xc0\x80', b'\xe0\x9f\xbf', b'\xed\xa0\x80', b'\xf4\x90\x80\x80', b'\xff']


class Phrase:
    """A category with its parts, or a token with the white space before it."""

    def __init__(self, name, parts, space=''):
        self.name, self.parts, self.space = name, parts, space

    def tokens(self):
        if self.parts is None:
            return [self]
        return [token for part in self.parts for token in part.tokens()]

    def text(self):
        return ''.join(token.space + token.name for token in self.tokens())

    def spans(self, first=0):
        """Each phrase of it, with its first token and the one behind its last."""
        end, found = first, []
        for part in self.parts or []:
            inner = part.spans(end)
            end = inner[-1][2]
            found += inner
        return found + [(self, first, end if self.parts is not None else first + 1)]


class Language:
    """Makes phrases at random."""

    def __init__(self, chance, file, phrases, spaces):
        self.chance, self.phrases, self.spaces = chance, phrases, spaces
        self.file = file
        self.grammar = (EXAMPLES / (file + '.cf')).read_bytes()
        self.entry = next(iter(phrases))
        kinds = {word for forms in phrases.values() for form in forms for word in form.split()} & set(KINDS)
        self.names = sorted(phrases) + sorted(kinds)

    def space(self, word):
        if word in ALONE and self.chance.random() < 0.5:
            return ''
        return ' ' if self.chance.random() < 0.8 else self.chance.choice(self.spaces)

    def phrase(self, name, depth):
        """A phrase of the category, of about this depth at most."""
        if name not in self.phrases:
            word = self.chance.choice(KINDS[name]) if name in KINDS else name
            return Phrase(word, None, self.space(word))
        forms = self.phrases[name]
        form = self.chance.choice(forms) if depth > 0 else forms[0]
        below = depth if name[0] == '[' and depth > 0 else depth - 1
        return Phrase(name, [self.phrase(word, below) for word in form.split()])

    def whole(self):
        """A whole text."""
        while True:
            made = self.phrase(self.entry, self.chance.randrange(3, 10))
            if FEWEST <= len(made.tokens()) <= MOST:
                return made


def replaced(old, new):
    """The least edit of one text into the other."""
    least = min(len(old), len(new))
    first = next((k for k in range(least) if old[k] != new[k]), least)
    last = next((k for k in range(least - first) if old[-1 - k] != new[-1 - k]), least - first)
    return first, len(old) - first - last, new[first:len(new) - last]


def in_bytes(old, at, deleted, inserted):
    """An edit of scalars as one of bytes."""
    return len(old[:at].encode()), len(old[at:at + deleted].encode()), inserted.encode()


def refusal(text, at, deleted, inserted):
    """The line that refuses the edit, or None; the number of tokens is not looked at."""
    if at + deleted > len(text):
        return b'refused range %d' % len(text)
    if len(text) - deleted + len(inserted) > MOST_BYTES:
        return b'refused full'
    for place in (at, at + deleted):
        if place < len(text) and 0x80 <= text[place] < 0xc0:
            return b'refused utf8 %d' % place
    try:
        inserted.decode()
    except UnicodeDecodeError as fault:
        return b'refused utf8 %d' % (at + fault.start)
    return None


class Session:
    """A session that is being made: its text, its version, and each step: the sort of the edit, its
    place, what it deletes and inserts, the refusal or None, the text behind it, the questions, and
    of a well formed text how many tokens it has."""

    def __init__(self, number, language):
        self.number, self.language, self.chance = number, language, language.chance
        self.tree = language.whole()
        self.text = self.tree.text()
        self.opened = self.text.encode()
        self.asked = self.first = self.questions(), self.count()
        self.steps = []

    def __repr__(self):
        return f'session {self.number} on {self.language.file}'

    def count(self):
        """How many tokens the text has where it is well formed."""
        return len(self.tree.tokens()) if self.text == self.tree.text() else None

    def questions(self):
        spans = self.tree.spans()
        count = spans[-1][2]
        asked = [b'has']
        for k in range(SPANS):
            phrase, i, j = self.chance.choice(spans)
            name = phrase.name
            if phrase.parts is None or k % 2 == 1:
                name = self.chance.choice(self.language.names)
            if k % 4 == 3:
                i, j = self.chance.randrange(count + 2), self.chance.randrange(count + 2)
                i, j = (j, i) if i > j and self.chance.random() < 0.9 else (i, j)
            asked.append(f'has {name} {i} {j}'.encode())
        return asked + [b'tokens', b'tree']

    def step(self, sort, edit, new):
        """One more edit of the text in bytes, which is refused where `new` is a line."""
        line = new if isinstance(new, bytes) else None
        if line is None:
            at, deleted, inserted = edit
            old = self.text.encode()
            assert refusal(old, *edit) is None
            assert old[:at] + inserted + old[at + deleted:] == new.encode()
            self.text = new
            self.asked = self.questions(), self.count()
        self.steps.append((sort, edit, line, self.text.encode(), *self.asked))

    def rephrase(self):
        """Another phrase in the place of one of its category."""
        phrase, first, end = self.chance.choice([span for span in self.tree.spans() if span[0].parts is not None])
        made = self.language.phrase(phrase.name, self.chance.randrange(0, 5))
        count = len(self.tree.tokens()) - (end - first) + len(made.tokens())
        if not FEWEST <= count <= MOST:
            return
        at = sum(len(token.space + token.name) for token in self.tree.tokens()[:first])
        edit = at, len(phrase.text()), made.text()
        phrase.parts = made.parts
        self.change('phrase', edit)

    def respace(self):
        """Other white space, or a comment, before a token."""
        tokens = self.tree.tokens()
        place = self.chance.randrange(len(tokens))
        at = sum(len(token.space + token.name) for token in tokens[:place])
        space = self.language.space(tokens[place].name)
        edit = at, len(tokens[place].space), space
        tokens[place].space = space
        self.change('space', edit)

    def change(self, sort, edit):
        """An edit into the text of the tree: as it is, the least one, or all of the text anew."""
        new, how = self.tree.text(), self.chance.random()
        if how < 0.3:
            edit = replaced(self.text, new)
        elif how < 0.35:
            edit = 0, len(self.text), new
        self.step(sort, in_bytes(self.text, *edit), new)

    def damage(self):
        """A few edits that may break the text, and one or more that mend it."""
        texts = [self.text]
        for _ in range(self.chance.randrange(1, 4)):
            old = texts[-1]
            at = self.chance.randrange(len(old) + 1)
            deleted = min(self.chance.choice([0, 0, 1, 1, 2, 5]), len(old) - at)
            other = self.chance.randrange(len(old))
            inserted = self.chance.choice(['', self.chance.choice(BREAKING), self.chance.choice(BREAKING), old[other:other + 6]])
            texts.append(old[:at] + inserted + old[at + deleted:])
            self.step('damage', in_bytes(old, at, deleted, inserted), texts[-1])
        back = texts[-2::-1] if self.chance.random() < 0.5 else texts[:1]
        for new in back:
            self.step('mending', in_bytes(self.text, *replaced(self.text, new)), new)

    def refuse(self):
        """An edit that is refused."""
        old = self.text.encode()
        sort = self.chance.random()
        if sort < 0.03:
            edit = 0, 0, b',' * (MOST_TOKENS + 1)
            return self.step('too many tokens', edit, b'refused full')
        if sort < 0.06:
            edit = self.chance.randrange(len(old)), 0, b' ' * (MOST_BYTES + self.chance.randrange(-3, 2))
            line = refusal(old, *edit)
            return line and self.step('too many bytes', edit, line)
        inner = [place for place, byte in enumerate(old) if 0x80 <= byte < 0xc0]
        line = None
        while not line:
            at, end = sorted(self.chance.choice([self.chance.randrange(len(old) + 1), self.chance.choice(inner or [0])])
                             for _ in range(2))
            deleted = end - at
            if self.chance.random() < 0.3:
                deleted = self.chance.choice([len(old) - at + 1, len(old), 999_999_999])
            if self.chance.random() < 0.1:
                at = self.chance.choice([len(old) + 1, 999_999_999])
            inserted = self.chance.choice([b'', b'x', 'é😀'.encode()])
            if self.chance.random() < 0.5:
                inserted += self.chance.choice(WRONG) + self.chance.choice([b'', b'x'])
            line = refusal(old, at, deleted, inserted)
        return self.step(line.split()[1].decode(), (at, deleted, inserted), line)


def made(seed, wanted):
    """Sessions, until they have so many edits."""
    chance = random.Random(seed)
    languages = [Language(chance, *language) for language in LANGUAGES]
    found, count, sorts = [], 0, collections.Counter()
    while count < wanted:
        session = Session(len(found), languages[len(found) % len(languages)])
        while len(session.steps) < PER_SESSION:
            chance.choice([session.rephrase, session.rephrase, session.respace, session.damage, session.refuse])()
        count += len(session.steps)
        sorts.update(step[0] for step in session.steps)
        found.append(session)
    print(f'{count} edits in {len(found)} sessions: ' + ', '.join(f'{sort} {many}' for sort, many in sorted(sorts.items())))
    return found


def replies(command, grammar, text, steps):
    """The replies behind the grammar's, and the status of a session that opens the text with these
    questions behind it, and then edits it, each time with the questions behind it."""
    script = [b'script 1\ngrammar %d\n%b\nopen %d\n%b' % (len(grammar), grammar, len(text), text)]
    for edit, questions in steps:
        if edit:
            script.append(b'edit %d %d %d\n%b' % (edit[0], edit[1], len(edit[2]), edit[2]))
        script += questions
    script.append(b'end\n')
    run = subprocess.run(command, input=b'\n'.join(script), stdout=subprocess.PIPE, timeout=120, check=False)
    return run.stdout.split(b'\n')[1:], run.returncode


def fresh(command, grammar, text, questions):
    """The replies of a session that opens the text."""
    lines, status = replies(command, grammar, text, [(None, questions)])
    whole = status == 0 and len(lines) == len(questions) + 3 and lines[-2:] == [b'end', b'']
    return lines[:-2] if whole else None


def fault(command, session):
    """What is wrong with the replies of the session, or None."""
    grammar = session.language.grammar
    questions, tokens = session.first
    steps = [('open', None, None, session.opened, questions, tokens)] + session.steps
    lines, status = replies(command, grammar, session.opened, [(step[1], step[4]) for step in steps])
    if status != 0 or len(lines) != sum(1 + len(step[4]) for step in steps) + 2 or lines[-2:] != [b'end', b'']:
        return f'status {status}, {len(lines)} lines, the last ones {lines[-3:]!r}'
    at, number, before, owes = 0, -1, b'', None
    for sort, edit, line, text, questions, tokens in steps:
        if line is None:
            owes = fresh(command, grammar, text, questions)
        if owes is None:
            return f'{text!r} has no whole session'
        wanted = list(owes)
        if tokens is not None and wanted[:2] != [b'version 0 tokens %d' % tokens, b'yes']:
            return f'{text!r} is well formed of {tokens} tokens, but gets {wanted[:2]!r}'
        number += line is None
        wanted[0] = line or wanted[0].replace(b'version 0', b'version %d' % number)
        for asked, had, owed in zip([sort.encode()] + questions, lines[at:], wanted):
            if had != owed:
                named = edit and f'edit {edit[0]} {edit[1]} {edit[2][:80]!r}'
                return f'{asked!r}: {had!r} in place of {owed!r} behind {named} of {before!r}'
        at, before = at + len(wanted), text
    return None


if __name__ == '__main__':
    sys.exit(compared.run(__doc__, 'edits', 5000, made, fault))
