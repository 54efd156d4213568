"""What is worth a warning in a grammar that is accepted.

docs/FROM-BNFC.md has the table of what the BNF Converter, version 2.9, refuses or reads otherwise.
"""
from __future__ import annotations

import re
from collections.abc import Callable, Iterator

import lbnf_expressions
from lbnf_notation import PREDEFINED, Grammar, Rule, lexemes_of
from lbnf_source import Source

REFUSES = 'the BNF Converter refuses '
READS = 'the BNF Converter reads '
Warnings = Iterator[tuple[int, str]]


def warnings_of(grammar: Grammar, source: Source) -> list[tuple[int, str]]:
    """The place and the words of each warning, in the order of places."""
    found = [warning for check in CHECKS for warning in check(grammar, source)]
    return sorted(dict.fromkeys(found))


def _base(category: str) -> str:
    """The category of which it is a level: `[Exp2]` is one of `[Exp]`."""
    return re.sub(r'[0-9]+(?=\]*$)', '', category)


def _all_rules(grammar: Grammar) -> list[Rule]:
    """The rules and the internal rules, in file order."""
    return [rule for read in grammar.definitions for rule in read.rules]


def _joins_categories(rule: Rule) -> bool:
    """Whether the rule has the label _ and joins more than levels of one category."""
    return rule.label == '_' and _base(rule.category) != _base(rule.names()[0])


def coercions(grammar: Grammar, source: Source) -> Warnings:
    """Rules with the label _ between categories of different names."""
    for rule in _all_rules(grammar):
        if _joins_categories(rule):
            other = rule.names()[0]
            yield rule.place, f'{REFUSES}a rule _ from {rule.category} to {other}, which are no levels of one category'


def lists(grammar: Grammar, source: Source) -> Warnings:
    """Rules of lists whose element or tail is of another category."""
    for rule in _all_rules(grammar):
        if rule.label not in ('(:)', '(:[])'):
            continue
        element, *tail = rule.names()
        if _base(element) != _base(rule.category)[1:-1]:
            yield rule.place, f'{REFUSES}a rule of {rule.category} whose element is {element}'
        if tail and _base(tail[0]) != _base(rule.category):
            yield rule.place, f'{REFUSES}a rule of {rule.category} that goes on as {tail[0]}'


def labels(grammar: Grammar, source: Source) -> Warnings:
    """Labels that stand at two types."""
    seen: dict[str, tuple[str, list[str], int]] = {}
    for rule in _all_rules(grammar):
        if not rule.label[0].isalpha():
            continue
        category, names = _base(rule.category), [_base(name) for name in rule.names()]
        first = seen.setdefault(rule.label, (category, names, rule.place))
        if first[:2] != (category, names):
            line = source.line_of(first[2])
            yield rule.place, f'{REFUSES}the label {rule.label} at this type: it has another in line {line}'


def nothing_to_read(grammar: Grammar, source: Source) -> Warnings:
    """Grammars with no rule, or with no word and no token."""
    words = [item.text for rule in grammar.rules for item in rule.items if item.is_word and item.text.strip()]
    named = {name for rule in _all_rules(grammar) for name in rule.names()}
    if not grammar.rules:
        yield 0, f'{REFUSES}a grammar without a rule'
    elif not words and named.isdisjoint([*grammar.tokens, *PREDEFINED]):
        yield 0, f'{REFUSES}a grammar without a word or a token in its rules'


def names(grammar: Grammar, source: Source) -> Warnings:
    """Names with an apostrophe, and one escape of a character."""
    seen = set()
    for lexeme in lexemes_of(source.text):
        if lexeme.sort == 'name' and "'" in lexeme.text and lexeme.text not in seen:
            seen.add(lexeme.text)
            yield lexeme.place, f'{REFUSES}the name {lexeme.text}, since it has an apostrophe'
        if lexeme.sort == 'character' and source.text.startswith("'\\\"'", lexeme.place):
            yield lexeme.place, f'{REFUSES}the character \'\\"\'; without its backslash both read it'


def internal_items(grammar: Grammar, source: Source) -> Warnings:
    """Internal rules with an item that is unknown."""
    known = {*grammar.categories, *grammar.tokens, *PREDEFINED}
    for read in grammar.definitions:
        for item in read.spelled if read.sort == 'internal' else []:
            if item.text not in known:
                yield item.place, f'{REFUSES}an internal rule with the item {item.text}, which no rule has'


def tokens(grammar: Grammar, source: Source) -> Warnings:
    """Tokens that may be empty or match nothing, or whose name ends with a digit."""
    for read in grammar.definitions:
        if read.sort != 'token':
            continue
        found = lbnf_expressions.matches(read.expression)
        if not found.any:
            yield read.name_place, f'{REFUSES}tokens that match nothing, as {read.name} does, where it finds that out'
        elif found.empty:
            yield read.name_place, f'{REFUSES}the token {read.name}, which may be empty; in a text it never is'
        if read.name[-1].isdigit():
            yield read.name_place, f'{REFUSES}the token {read.name}, whose name ends with a digit'


def levels(grammar: Grammar, source: Source) -> Warnings:
    """Levels of a name that ends with a digit, and names of levels with leading zeros."""
    for read in grammar.definitions:
        if read.sort == 'coercions' and read.name[-1].isdigit():
            yield read.name_place, f'{REFUSES}levels of {read.name}, whose name ends with a digit'
        for item in read.spelled:
            if re.search(r'[^0-9]0[0-9]+\]*$', item.text):
                yield item.place, f'{READS}{item.text} without the zeros of its level; here it is a category of its own'


def without_labels(grammar: Grammar, source: Source) -> Warnings:
    """Categories all of whose rules have the label _."""
    labelled = {
        _base(rule.category) for rule in _all_rules(grammar) if rule.label[0].isalpha() or _joins_categories(rule)}
    for category in grammar.categories:
        if not category.startswith('[') and _base(category) not in labelled:
            labelled.add(_base(category))
            yield _first_place(grammar, category), f'{REFUSES}the category {category}, whose rules have no label but _'


def strings(grammar: Grammar, source: Source) -> Warnings:
    """Strings that are cut into other words."""
    for read in grammar.definitions:
        for string in read.strings:
            if read.sort in ('separator', 'terminator') and ' ' in string.text:
                yield string.place, f'{READS}this string with its spaces, as one symbol; here spaces cut it into words'
            elif read.sort in ('rule', 'internal') and re.search(r'[^\S ]', string.text):
                yield string.place, f'{READS}this string as cut at all white space; here spaces alone cut it'


def unreached(grammar: Grammar, source: Source) -> Warnings:
    """Categories that no entry reaches."""
    reached, left = set(), list(grammar.entries)
    while left:
        category = left.pop()
        if category not in reached:
            reached.add(category)
            left += [name for rule in grammar.rules_of(category) for name in rule.names()]
    for category in grammar.categories:
        if category not in reached and grammar.rules_of(category):
            yield _first_place(grammar, category), f'no entry reaches {category}'


def unproductive(grammar: Grammar, source: Source) -> Warnings:
    """Categories that derive no text."""
    deriving = set(grammar.kinds)
    for read in grammar.definitions:
        if read.sort == 'token' and not lbnf_expressions.matches(read.expression).any:
            deriving.discard(read.name)
    more = True
    while more:
        more = {rule.category for rule in grammar.rules if deriving.issuperset(rule.names())} - deriving
        deriving |= more
    for category in grammar.categories:
        if category not in deriving and grammar.rules_of(category):
            yield _first_place(grammar, category), f'{category} derives no text'


def _first_place(grammar: Grammar, category: str) -> int:
    """The place of the first rule of the category."""
    return next(rule.place for rule in _all_rules(grammar) if rule.category == category)


CHECKS: list[Callable[[Grammar, Source], Warnings]] = [
    coercions, lists, labels, nothing_to_read, names, internal_items, tokens, levels, without_labels, strings,
    unreached, unproductive]
