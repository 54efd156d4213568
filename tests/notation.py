"""The notation of grammar files, read by hand: what line the program owes for a file.

It is written from the tables of docs/FORMATS.md and shares nothing with the program, so that the two
can be held against each other. `reply(data)` is the line without its LF; nothing here is fast.
"""
import re

SPACE = re.compile(r'[ \t\n\x0b\x0c\r]|--[^\n]*|\{-.*?-\}', re.DOTALL)
TOKENS = [
    ('name', re.compile(r"[A-Za-z][A-Za-z0-9_']*")),
    ('number', re.compile(r'[0-9]+')),
    ('string', re.compile(r'''"((?:[^"\\\n]|\\["'\\nt])*)"''')),
    ('character', re.compile(r"""'([^'\\\n]|\\["'\\nt])'""")),
    ('sign', re.compile(r'::=|[.;:\[\](){},|*+?_-]')),
]
LONGEST = {'name': 64, 'number': 4}
ESCAPES = {'n': '\n', 't': '\t'}
PREDEFINED = ['Integer', 'Double', 'Ident', 'String', 'Char']
CLASSES = ['digit', 'letter', 'upper', 'lower', 'char']
FIRST_WORDS = ['internal', 'terminator', 'separator', 'coercions', 'entrypoints', 'token', 'position', 'comment']
OPEN, SIGNS, DIFFERENCES = 64, 8, 8          # the most brackets that are open, signs and differences in a row


class Refused(Exception):
    """A line behind `grammar refused `."""


def tokens_of(text):
    """The tokens as (sort, text, place in bytes), and the place where the last of them ends."""
    found, at = [], 0

    def place():
        return len(text[:at].encode())

    while at < len(text):
        space = SPACE.match(text, at)
        if space:
            at = space.end()
            continue
        if text.startswith('{-', at):
            return found, place()
        for sort, pattern in TOKENS:
            match = pattern.match(text, at)
            if match:
                break
        else:
            return found, place()
        if len(match.group()) > LONGEST.get(sort, len(text)):
            return found, place()
        value = match.group(1) if sort in ('string', 'character') else match.group()
        if sort in ('string', 'character'):
            value = re.sub(r'\\(.)', lambda part: ESCAPES.get(part[1], part[1]), value)
        found.append((sort, value, place()))
        at = match.end()
    return found, place()


class Stuck(Exception):
    """A definition cannot go on at its token of this number."""


class TooLong(Exception):
    """The category that begins at the token of this number has too many bytes."""


class Definition:
    """Reads one definition, token by token."""

    def __init__(self, tokens):
        self.tokens = tokens
        self.at = 0

    def next(self):
        return self.tokens[self.at][:2] if self.at < len(self.tokens) else ('end', '')

    def take(self, *choices):
        """Goes past a sign or a word that is one of these."""
        if self.next()[0] not in ('sign', 'name') or self.next()[1] not in choices:
            raise Stuck(self.at)
        self.at += 1
        return choices.index(self.tokens[self.at - 1][1])

    def sort(self, sort):
        if self.next()[0] != sort:
            raise Stuck(self.at)
        self.at += 1
        return self.tokens[self.at - 1][1]

    def upper(self):
        sort, text = self.next()
        if sort != 'name' or not text[0].isupper():
            raise Stuck(self.at)
        return self.sort('name')

    def category(self):
        first, depth = self.at, 0
        while self.next() == ('sign', '['):
            self.at, depth = self.at + 1, depth + 1
        text = '[' * depth + self.upper() + ']' * depth
        for _ in range(depth):
            self.take(']')
        if len(text) > 128:
            raise TooLong(first)
        return text

    def label(self):
        if self.next()[0] == 'name':
            return self.upper()
        sign = self.take('_', '[', '(')
        if sign == 1:
            self.take(']')
            return '[]'
        if sign == 2:
            self.take(':')
            if self.take(')', '[') == 1:
                self.take(']')
                self.take(')')
                return '(:[])'
            return '(:)'
        return '_'

    def words(self):
        return [('word', word) for word in self.sort('string').split(' ') if word]

    def atom(self, opened):
        """An atom of a token expression, with so many brackets open around it."""
        sort, text = self.next()
        if sort == 'character':
            return 'character', self.sort('character')
        if sort == 'name':
            if text not in CLASSES + ['eps']:
                raise Stuck(self.at)
            return self.sort('name'),
        if (sort, text) == ('sign', '(') and opened == OPEN:
            raise Stuck(self.at)
        sign = self.take('(', '[', '{')
        if sign == 0:
            inside = self.alternatives(opened + 1)
            self.take(')')
            return inside
        string = self.sort('string')
        self.take('?]}'[sign])
        return ('any', string) if sign == 1 else ('text', string)

    def factor(self, opened):
        read, signs = self.atom(opened), 0
        while self.next()[0] == 'sign' and self.next()[1] in '*+?':
            if signs == SIGNS:
                raise Stuck(self.at)
            read, signs = (self.sort('sign'), read), signs + 1
        return read

    def sequence(self, opened):
        factors = [self.factor(opened)]
        while self.next()[0] in ('character', 'name') or self.next() in (('sign', '('), ('sign', '['), ('sign', '{')):
            factors.append(self.factor(opened))
        return ('sequence', factors) if factors[1:] else factors[0]

    def differences(self, opened):
        read, signs = self.sequence(opened), 0
        while self.next() == ('sign', '-'):
            if signs == DIFFERENCES:
                raise Stuck(self.at)
            sign, signs = self.at, signs + 1
            self.sort('sign')
            read = ('difference', read, self.sequence(opened), self.tokens[sign][2])
        return read

    def alternatives(self, opened):
        parts = [self.differences(opened)]
        while self.next() == ('sign', '|'):
            self.sort('sign')
            parts.append(self.differences(opened))
        return ('alternatives', parts) if parts[1:] else parts[0]

    def comment(self):
        words = []
        while not words or len(words) == 1 and self.at < len(self.tokens):
            if self.next() == ('string', ''):
                raise Stuck(self.at)
            words.append(self.sort('string'))
        return words

    def rule(self):
        label = self.label()
        self.take('.')
        category = self.category()
        self.take('::=')
        items = []
        while self.at < len(self.tokens):
            if self.next()[0] == 'string':
                items += self.words()
            else:
                items.append(('category', self.category()))
        return label, category, items

    def read(self):
        first = self.next()[1] if self.next()[0] == 'name' else ''
        if first in FIRST_WORDS:
            self.at = 1
        if first == 'position':
            self.take('token')
        if first in ('token', 'position'):
            return 'token', self.upper(), self.alternatives(0)
        if first == 'comment':
            return 'comment', self.comment()
        if first == 'internal':
            return 'internal', self.rule()
        if first in ('terminator', 'separator'):
            nonempty = self.next() == ('name', 'nonempty')
            self.at += nonempty
            return first, nonempty, self.category(), self.words()
        if first == 'coercions':
            return first, self.upper(), int(self.sort('number'))
        if first == 'entrypoints':
            categories = [self.category()]
            while self.at < len(self.tokens):
                self.take(',')
                categories.append(self.category())
            return first, categories
        return 'rule', self.rule()

    def whole(self):
        read = self.read()
        if self.at < len(self.tokens):
            raise Stuck(self.at)
        return read


def fault(front, token):
    """The line of a token at which a definition that began with these cannot go on."""
    sort, text, place = token
    names = [part[1] for part in front if part[0] == 'name']
    lower = sort == 'name' and text[0].islower()
    if not front and lower:
        return f'unsupported {text} {place}'
    if lower and names == ['internal'] and len(front) == 1:
        return f'unsupported {text} {place}'
    labels = names[1:] if names[:1] == ['internal'] else names
    if (sort, text) == ('sign', '(') and len(front) == len(names) and len(labels) == 1 and labels[0][0].isupper():
        return f'unsupported ( {place}'
    return f'syntax {place}'


def is_class(read):
    if read[0] == 'alternatives':
        return all(is_class(part) for part in read[1])
    return read[0] in CLASSES + ['character', 'any', 'difference']


def is_ascii_class(read):
    if read[0] == 'alternatives':
        return all(is_ascii_class(part) for part in read[1])
    if read[0] == 'difference':
        return is_ascii_class(read[1])
    if read[0] in ('character', 'any'):
        return read[1].isascii()
    return read[0] in CLASSES and read[0] != 'char'


def bad_differences(read):
    """The places of the signs of bad differences, those inside before those around them."""
    if read[0] in ('alternatives', 'sequence'):
        return [place for part in read[1] for place in bad_differences(part)]
    if read[0] in '*+?':
        return bad_differences(read[1])
    if read[0] == 'difference':
        bad = not (is_class(read[1]) and is_ascii_class(read[2]))
        return bad_differences(read[1]) + bad_differences(read[2]) + [read[3]] * bad
    return []


def definitions_of(data):
    """The definitions that the file spells."""
    if len(data) > 65536:
        raise Refused(f'large {len(data)}')
    try:
        text = data.decode()
    except UnicodeDecodeError as wrong:
        raise Refused(f'utf8 {wrong.start}') from None
    tokens, stop = tokens_of(text)
    definitions, piece = [], []
    for token in tokens + [('stop', '', stop)]:
        if token[0] != 'stop' and token[:2] != ('sign', ';'):
            piece.append(token)
            continue
        if piece:
            try:
                definitions.append(Definition(piece).whole())
            except Stuck as stuck:
                at = stuck.args[0]
                raise Refused(fault(piece[:at], (piece + [token])[at])) from None
            except TooLong as long:
                raise Refused(f'syntax {piece[long.args[0]][2]}') from None
        piece = []
    if stop < len(data):
        raise Refused(f'syntax {stop}')
    bad = [place for read in definitions if read[0] == 'token' for place in bad_differences(read[2])]
    if bad:
        raise Refused(f'difference {min(bad)}')
    return definitions


def categories_in(items):
    return [text for sort, text in items if sort == 'category']


def is_list(category):
    return category.startswith('[')


def label_fault(label, category, items):
    """Whether the rule is a bad coercion or a bad list."""
    named = categories_in(items)
    if label == '_':
        if len(named) != 1:
            return 'coercion'
        return 'list' if is_list(category) and not is_list(named[0]) else None
    if label in ('[]', '(:[])', '(:)'):
        wanted = {'[]': 0, '(:[])': 1, '(:)': 2}[label]
        good = is_list(category) and len(named) == wanted and (label != '(:)' or is_list(named[1]))
        return None if good else 'list'
    return 'list' if is_list(category) else None


def rules_of(definition):
    """The rules of a definition, in order."""
    sort = definition[0]
    if sort == 'rule':
        return [definition[1]]
    if sort in ('terminator', 'separator'):
        _, nonempty, category, words = definition
        lists = f'[{category}]'
        one, more = ('category', category), ('category', lists)
        behind = words if sort == 'terminator' else []
        rules = [('(:[])', lists, [one] + behind)]
        if not nonempty:
            rules = [('[]', lists, [])] + (rules if sort == 'separator' and words else [])
        return rules + [('(:)', lists, [one] + words + [more])]
    if sort == 'coercions':
        _, name, levels = definition
        names = [name] + [f'{name}{level}' for level in range(1, levels + 1)]
        steps = [('_', names[k], [('category', names[k + 1])]) for k in range(levels)]
        return steps + [('_', names[levels], [('word', '('), ('category', name), ('word', ')')])]
    return []


def first_cycle(rules, categories):
    """The first category that reaches itself by steps."""
    empty = set()
    while True:
        more = {rule[1] for rule in rules if all(sort == 'category' and text in empty for sort, text in rule[2])}
        if more <= empty:
            break
        empty |= more
    steps = {category: set() for category in categories}
    for _, category, items in rules:
        for k, (sort, text) in enumerate(items):
            others = items[:k] + items[k + 1:]
            if sort == 'category' and text in steps and all(other[0] == 'category' and other[1] in empty for other in others):
                steps[category].add(text)
    for category in categories:
        reached, new = set(), set(steps[category])
        while new:
            reached |= new
            new = {far for near in new for far in steps[near]} - reached
        if category in reached:
            return category
    return None


def grammar_of(definitions):
    """The counts of rules, categories and kinds."""
    for number, definition in enumerate(definitions):
        bad = label_fault(*definition[1]) if definition[0] in ('rule', 'internal') else None
        if definition[0] == 'coercions' and definition[2] == 0:
            bad = 'coercion'
        if bad:
            raise Refused(f'{bad} {number}')
    count = sum(definition[2] + 1 if definition[0] == 'coercions' else len(rules_of(definition)) for definition in definitions)
    if count > 1024:
        raise Refused(f'rules {count}')
    tokens = [definition[1] for definition in definitions if definition[0] == 'token']
    internal = [definition[1] for definition in definitions if definition[0] == 'internal']
    own = [[definition[1]] if definition[0] == 'internal' else rules_of(definition) for definition in definitions]
    defined = set()
    for definition, rules in zip(definitions, own):
        if definition[0] == 'token' and definition[1] in defined:
            raise Refused(f'token {definition[1]}')
        defined |= {definition[1]} if definition[0] == 'token' else set()
        for rule in rules:
            if rule[1] in PREDEFINED + tokens:
                raise Refused(f'token {rule[1]}')
    known = {rule[1] for rules in own for rule in rules}
    asked = []
    for number, definition in enumerate(definitions):
        named = [text for rule in rules_of(definition) for text in categories_in(rule[2])]
        named = definition[1] if definition[0] == 'entrypoints' else named
        asked += named
        for text in named:
            if text not in known and text not in PREDEFINED + tokens:
                raise Refused(f'category {text} {number}')
    kinds_by_name = tokens + [name for name in PREDEFINED if name in asked and name not in tokens]
    rules = [rule for definition in definitions for rule in rules_of(definition)]
    met = [text for rule in rules for text in [rule[1]] + categories_in(rule[2]) if text not in kinds_by_name]
    categories = list(dict.fromkeys(met + [rule[1] for rule in internal]))
    cycle = first_cycle(rules, categories)
    if cycle:
        raise Refused(f'cyclic {cycle}')
    words = {text for rule in rules for sort, text in rule[2] if sort == 'word'}
    kinds = list(words) + kinds_by_name
    symbols = len(categories) + len(kinds) + sum(len(rule[2]) for rule in rules)
    if symbols > 2048:
        raise Refused(f'symbols {symbols}')
    return len(rules), len(categories), len(kinds)


def reply(data):
    """The line that a grammar block of these bytes is answered with."""
    try:
        return b'grammar rules %d categories %d kinds %d' % grammar_of(definitions_of(data))
    except Refused as refused:
        return b'grammar refused ' + str(refused).encode()
