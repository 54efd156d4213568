"""The definitions of a grammar file with their places, and the rules that they stand for.

A file is read that is well formed, such as one that the program accepts: nothing is checked here.
A place is a number of scalars from the file's start. docs/FORMATS.md defines the notation.
"""
from __future__ import annotations

import re
from collections.abc import Iterator
from dataclasses import dataclass, field

SPACE = re.compile(r'(?:[ \t\n\x0b\x0c\r]|--[^\n]*|\{-.*?-\})*', re.DOTALL)
LEXEME = re.compile(
    r'''(?P<name>[A-Za-z][A-Za-z0-9_']*)|(?P<number>[0-9]+)|(?P<string>"(?:[^"\\\n]|\\.)*")'''
    r'''|(?P<character>'(?:[^'\\\n]|\\.)')|(?P<sign>::=|.)''', re.DOTALL)
ESCAPES = {'n': '\n', 't': '\t'}
PREDEFINED = ['Integer', 'Double', 'Ident', 'String', 'Char']
FIRST_WORDS = ['internal', 'terminator', 'separator', 'coercions', 'entrypoints', 'token', 'position', 'comment']


@dataclass(frozen=True)
class Lexeme:
    """A token of the notation: its sort, its text without quotes and escapes, and its place."""

    sort: str
    text: str
    place: int


@dataclass(frozen=True)
class Item:
    """An item of a rule: a word, or a category or kind of token by its name."""

    is_word: bool
    text: str
    place: int


@dataclass(frozen=True)
class Rule:
    """A rule. One that a macro stands for has the place of the macro."""

    label: str
    category: str
    items: list[Item]
    place: int

    def names(self) -> list[str]:
        """The categories and kinds of token among its items."""
        return [item.text for item in self.items if not item.is_word]


@dataclass
class Definition:
    """A definition. Its `sort` is `rule`, or its first word, which is `token` for `position token` too.

    `rules` are those that it stands for; an internal rule is its one rule here, and is none of the
    grammar. `spelled` are the categories that stand in it, from the left, and `strings` those of a
    rule, a macro or a comment. A token has a `name` and an `expression`, and `coercions` a `name`.
    """

    number: int
    sort: str
    place: int
    rules: list[Rule] = field(default_factory=list)
    spelled: list[Item] = field(default_factory=list)
    strings: list[Lexeme] = field(default_factory=list)
    name: str = ''
    name_place: int = 0
    expression: list[Lexeme] = field(default_factory=list)


class Reader:
    """Reads one definition from its lexemes."""

    def __init__(self, number: int, lexemes: list[Lexeme]) -> None:
        self.left = lexemes[::-1]
        first = lexemes[0].text if lexemes[0].text in FIRST_WORDS else 'rule'
        self.found = Definition(number, 'token' if first == 'position' else first, lexemes[0].place)

    def peek(self) -> str:
        """The text of the next lexeme, also where it is a string, or nothing."""
        return self.left[-1].text if self.left else ''

    def take(self, *texts: str) -> bool:
        """Goes past the next lexeme where it is one of these."""
        is_one = self.peek() in texts and self.left[-1].sort in ('name', 'sign')
        if is_one:
            self.left.pop()
        return is_one

    def category(self) -> Item:
        place, depth = self.left[-1].place, 0
        while self.take('['):
            depth += 1
        name = '[' * depth + self.left.pop().text + ']' * depth
        while depth and self.take(']'):
            depth -= 1
        self.found.spelled.append(Item(False, name, place))
        return self.found.spelled[-1]

    def label(self) -> str:
        label = ''
        while self.peek() != '.':
            label += self.left.pop().text
        self.take('.')
        return label

    def words(self) -> list[Item]:
        """The words that a string is split into."""
        string = self.left.pop()
        self.found.strings.append(string)
        return [Item(True, word, string.place) for word in string.text.split(' ') if word]

    def rule(self) -> list[Rule]:
        place, label = self.left[-1].place, self.label()
        category, items = self.category().text, []
        self.take('::=')
        while self.left:
            items += self.words() if self.left[-1].sort == 'string' else [self.category()]
        return [Rule(label, category, items, place)]

    def lists(self) -> list[Rule]:
        """The rules of a terminator or a separator."""
        is_separator, is_nonempty = self.found.sort == 'separator', self.take('nonempty')
        one = self.category()
        words = self.words()
        lists = Item(False, f'[{one.text}]', one.place)
        last = [one] if is_separator else [one, *words]
        rules = [('(:[])', last)] if is_nonempty or is_separator and words else []
        rules = [*([] if is_nonempty else [('[]', [])]), *rules, ('(:)', [one, *words, lists])]
        return [Rule(label, lists.text, items, one.place) for label, items in rules]

    def coercions(self) -> list[Rule]:
        name, levels = self.left.pop(), self.left.pop()
        self.found.name, self.found.name_place = name.text, name.place
        names = [name.text] + [f'{name.text}{level}' for level in range(1, int(levels.text) + 1)]
        bodies = [[Item(False, level, name.place)] for level in names[1:]]
        inside = Item(False, name.text, name.place)
        bodies.append([Item(True, '(', name.place), inside, Item(True, ')', name.place)])
        self.found.spelled.append(inside)
        return [Rule('_', level, body, name.place) for level, body in zip(names, bodies)]

    def read(self) -> Definition:
        sort = self.found.sort
        self.take('position')
        self.take(sort)
        if sort in ('rule', 'internal'):
            self.found.rules = self.rule()
        elif sort in ('terminator', 'separator'):
            self.found.rules = self.lists()
        elif sort == 'coercions':
            self.found.rules = self.coercions()
        elif sort == 'entrypoints':
            self.category()
            while self.take(','):
                self.category()
        elif sort == 'token':
            name = self.left.pop()
            self.found.name, self.found.name_place = name.text, name.place
            self.found.expression = self.left[::-1]
        else:
            self.found.strings = self.left[::-1]
        return self.found


class Grammar:
    """The definitions of a file, and of the grammar that they stand for the rules, in order, the
    categories that they name, the kinds of token, and the entries; the first of these is asked for
    where none is named."""

    def __init__(self, text: str) -> None:
        self.definitions = list(definitions_of(text))
        self.rules = [rule for read in self.definitions if read.sort != 'internal' for rule in read.rules]
        self.tokens = [read.name for read in self.definitions if read.sort == 'token']
        named = [item.text for read in self.definitions if read.sort == 'entrypoints' for item in read.spelled]
        self.entries = named or [rule.category for rule in self.rules[:1]]
        asked = {name for rule in self.rules for name in rule.names()} | set(named)
        predefined = [name for name in PREDEFINED if name in asked and name not in self.tokens]
        words = dict.fromkeys(item.text for rule in self.rules for item in rule.items if item.is_word)
        self.kinds = [*words, *self.tokens, *predefined]
        of_rules = [name for rule in self.rules for name in [rule.category, *rule.names()]]
        internal = [rule.category for read in self.definitions if read.sort == 'internal' for rule in read.rules]
        kinds = {*self.tokens, *predefined}
        self.categories = [name for name in dict.fromkeys([*of_rules, *internal]) if name not in kinds]
        self._by_category: dict[str, list[Rule]] = {}
        for rule in self.rules:
            self._by_category.setdefault(rule.category, []).append(rule)

    def rules_of(self, category: str) -> list[Rule]:
        """The rules of a category, in order."""
        return self._by_category.get(category, [])


def lexemes_of(text: str) -> Iterator[Lexeme]:
    """The tokens of the notation."""
    at = SPACE.match(text).end()
    while at < len(text):
        match = LEXEME.match(text, at)
        value = match.group()
        if match.lastgroup in ('string', 'character'):
            value = re.sub(r'\\(.)', lambda part: ESCAPES.get(part[1], part[1]), value[1:-1])
        yield Lexeme(match.lastgroup, value, at)
        at = SPACE.match(text, match.end()).end()


def definitions_of(text: str) -> Iterator[Definition]:
    """The definitions of a file, numbered from 0."""
    piece, number = [], 0
    for lexeme in [*lexemes_of(text), Lexeme('sign', ';', len(text))]:
        if (lexeme.sort, lexeme.text) != ('sign', ';'):
            piece.append(lexeme)
        elif piece:
            yield Reader(number, piece).read()
            piece, number = [], number + 1
