"""Whether a token that a grammar defines may be empty, or matches nothing at all."""
from __future__ import annotations

from dataclasses import dataclass

from lbnf_notation import Lexeme

ASCII = frozenset(range(128))
ALL = frozenset(range(129))                 # 128 stands for all scalars behind ASCII
CLASSES = {
    'digit': frozenset(range(48, 58)),
    'upper': frozenset(range(65, 91)),
    'lower': frozenset(range(97, 123)),
    'letter': frozenset(range(65, 91)) | frozenset(range(97, 123)),
    'char': ALL,
}


@dataclass(frozen=True)
class Matches:
    """What is told of an expression: whether it matches the empty text, and whether it matches any
    text at all. `scalars` are those of a class, with all behind ASCII as one."""

    empty: bool
    any: bool
    scalars: frozenset[int] = frozenset()


class Expression:
    """Reads an expression from its lexemes."""

    def __init__(self, lexemes: list[Lexeme]) -> None:
        self.left = lexemes[::-1]

    def take(self, *signs: str) -> str:
        """Goes past the next sign where it is one of these, and answers it."""
        is_one = self.left and self.left[-1].sort == 'sign' and self.left[-1].text in signs
        return self.left.pop().text if is_one else ''

    def alternatives(self) -> Matches:
        found = self.difference()
        while self.take('|'):
            more = self.difference()
            found = Matches(found.empty or more.empty, found.any or more.any, found.scalars | more.scalars)
        return found

    def difference(self) -> Matches:
        found = self.sequence()
        while self.take('-'):
            found = _class(found.scalars - self.sequence().scalars)
        return found

    def sequence(self) -> Matches:
        found = self.factor()
        while self.left and (self.left[-1].sort != 'sign' or self.left[-1].text in '([{'):
            more = self.factor()
            found = Matches(found.empty and more.empty, found.any and more.any)
        return found

    def factor(self) -> Matches:
        found = self.atom()
        sign = self.take('*', '+', '?')
        while sign:
            found = Matches(found.empty or sign != '+', found.any or sign != '+')
            sign = self.take('*', '+', '?')
        return found

    def atom(self) -> Matches:
        if self.take('('):
            found = self.alternatives()
            self.take(')')
            return found
        bracket = self.take('[', '{')
        lexeme = self.left.pop()
        if lexeme.sort == 'name':
            return Matches(True, True) if lexeme.text == 'eps' else _class(CLASSES[lexeme.text])
        self.take(']', '}')
        if bracket == '{':
            return Matches(not lexeme.text, True)
        return _class(frozenset(min(ord(scalar), 128) for scalar in lexeme.text))


def _class(scalars: frozenset[int]) -> Matches:
    return Matches(False, bool(scalars), scalars)


def matches(lexemes: list[Lexeme]) -> Matches:
    """What is told of the expression of a token."""
    return Expression(lexemes).alternatives()
