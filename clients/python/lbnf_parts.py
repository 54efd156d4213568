"""Where tokens stand in a text, and which parts at its ends a category or its corners derive."""
from __future__ import annotations

import re
from collections.abc import Iterable
from dataclasses import dataclass

from lbnf_notation import Grammar
from lbnfchart import Session, Token

MOST_QUESTIONS = 20_000                     # of one search
MOST_CORNERS = 200                          # where a search begins
WHITE = re.compile(r'[ \t\n\r\x0b\x0c]')
WHITE_RUN = re.compile(r'[ \t\n\r\x0b\x0c]*')


@dataclass(frozen=True)
class Part:
    """The tokens from `first` up to and not including `end`, which a category derives."""

    category: str
    first: int
    end: int


@dataclass(frozen=True)
class Search:
    """The part that a search found, and the place up to which it came; None where it went through all."""

    part: Part | None
    place: int | None


def places_of(text: str, tokens: Iterable[Token], grammar: Grammar) -> list[int]:
    """The place of each token in the text, in scalars, and behind them the text's end."""
    comments = [
        [string.text for string in read.strings] for read in grammar.definitions if read.sort == 'comment']
    places, at = [], 0
    for token in tokens:
        starts = [token.text, *(first for first, *_ in comments)]
        at = _behind_white(text, at, starts)
        skipped = _skipped(text, at, comments)
        while not _stands(text, at, token, skipped):
            at = _behind_white(text, at + skipped, starts)
            skipped = _skipped(text, at, comments)
        places.append(at)
        at += len(token.text)
    return [*places, len(text)]


def _behind_white(text: str, at: int, starts: list[str]) -> int:
    """The place behind the white scalars there, where nothing else that may stand there starts with one."""
    return at if any(WHITE.match(start) for start in starts) else WHITE_RUN.match(text, at).end()


def _stands(text: str, at: int, token: Token, skipped: int) -> bool:
    """Whether the next token stands there, where else so many scalars are skipped: the longest match
    does, and a stray token where there is no match."""
    return skipped == 0 or token.kind != 'stray' and len(token.text) > skipped and text.startswith(token.text, at)


def _skipped(text: str, at: int, comments: list[list[str]]) -> int:
    """The length of the longest white scalar or comment there, or 0."""
    longest = 1 if WHITE.match(text, at) else 0
    for first, *second in comments:
        if text.startswith(first, at):
            behind = at + len(first)
            found = text.find(second[0] if second else '\n', behind)
            if second and found >= 0:
                longest = max(longest, found + len(second[0]) - at)
            elif not second:
                longest = max(longest, (found if found >= 0 else len(text)) - at)
    return longest


def corners(grammar: Grammar, tokens: list[Token], whole: Part, *, at_end: bool) -> list[tuple[str, int]]:
    """What the beginning of a text of the category may be made of, the nearest first: each category
    with the place at which it begins, behind words that stand in the text. With `at_end` the end of
    such a text, each with the place at which it ends."""
    nullable = _nullable(grammar)
    found = [(whole.category, whole.end if at_end else whole.first)]
    for category, start in found:
        for rule in grammar.rules_of(category):
            place = start
            for item in rule.items[::-1] if at_end else rule.items:
                if item.is_word and not _is_word_at(tokens, place - at_end, item.text):
                    break
                if item.is_word:
                    place += -1 if at_end else 1
                    continue
                if item.text in grammar.categories and (item.text, place) not in found:
                    found.append((item.text, place))
                if item.text not in nullable:
                    break
        if len(found) > MOST_CORNERS:
            break
    return found


def _is_word_at(tokens: list[Token], place: int, word: str) -> bool:
    return 0 <= place < len(tokens) and tokens[place] == Token('word', word)


def _nullable(grammar: Grammar) -> set[str]:
    """The categories that derive the empty text."""
    found: set[str] = set()
    while True:
        more = {rule.category for rule in grammar.rules
                if all(not item.is_word and item.text in found for item in rule.items)}
        if more <= found:
            return found
        found |= more


def furthest(session: Session, corners_found: list[tuple[str, int]], ends: range, *, at_end: bool) -> Search:
    """The part that begins at a corner and goes the furthest, where `ends` are the places up to which
    it may go, the furthest first. With `at_end` one that ends at a corner, and begins the furthest before."""
    asked = 0
    for place in ends:
        for category, corner in corners_found:
            first, end = (place, corner) if at_end else (corner, place)
            if first >= end:
                continue
            if asked == MOST_QUESTIONS:
                return Search(None, place)
            asked += 1
            if session.has(category, first, end):
                return Search(Part(category, first, end), place)
    return Search(None, None)
