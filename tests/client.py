#!/usr/bin/env python3
"""The client clients/python/lbnfchart.py, on the built program.

    python3 tests/client.py CMD [ARG ..]

CMD reads a script from standard input, as `crates/lbnfchart/out/lbnfchart serve` does. Programs that
end too early are played by a shell.
"""
from __future__ import annotations

import pathlib
import sys
import unittest

ROOT = pathlib.Path(__file__).resolve().parents[1]
sys.path.insert(0, str(ROOT / 'clients' / 'python'))

import lbnfchart
from lbnfchart import Session, Token, Version

COMMAND: list[str] = []
JSON = (ROOT / 'examples' / 'json.cf').read_bytes()
JSON_TEXT = (ROOT / 'examples' / 'json.txt').read_bytes()
LETTERS = 'Cat. S ::= S S ; One. S ::= "a" ;'
WORD = 'One. S ::= T ; token T char ;'
# Grammars that are refused, with the fields that are not None.
REFUSED = [
    (' ' * 65_537, {'reason': 'large', 'count': 65_537}),
    (b'S. S ::= \xff', {'reason': 'utf8', 'place': 9}),
    ('F E ::= "a" ;', {'reason': 'syntax', 'place': 2}),
    ('F ([],[]) . E ::= ;', {'reason': 'unsupported', 'name': '(', 'place': 2}),
    ("token T ('a' 'b') - 'a' ;", {'reason': 'difference', 'place': 18}),
    ('A. E ::= "b" ; _. E ::= "a" ;', {'reason': 'coercion', 'definition': 1}),
    ('(:). [E] ::= E ;', {'reason': 'list', 'definition': 0}),
    ('coercions E 1024 ;', {'reason': 'rules', 'count': 1_025}),
    ("token T 'a' ; token T 'b' ;", {'reason': 'token', 'name': 'T'}),
    ('A. S ::= [T] ;', {'reason': 'category', 'name': '[T]', 'definition': 0}),
    ('A. S ::= S ;', {'reason': 'cyclic', 'name': 'S'}),
    ('A. S ::= "' + 'x' * 1_022 + '" ;', {'reason': 'states'}),
    ('coercions E 1023 ;', {'reason': 'symbols', 'count': 2_052}),
]


class Answers(unittest.TestCase):
    """What a session answers."""

    def test_the_example(self) -> None:
        with Session(JSON, COMMAND) as session:
            self.assertEqual((session.rules, session.categories, session.kinds), (14, 4, 11))
            self.assertEqual(session.open(JSON_TEXT), Version(0, 23))
            self.assertIs(session.has(), True)
            self.assertIs(session.has('Value', 8, 11), False)
            printed = '(Array [(Number Number:1), (Number Number:-2.5e3), (Number Number:0)])'
            self.assertEqual(session.tree('Value', 7, 14), printed)
            self.assertIsNone(session.tree('Member'))
            found = [Token('Number', '-2.5e3'), Token('word', ','), Token('Number', '0')]
            self.assertEqual(session.tokens(10, 13), found)
            self.assertEqual(session.edit(81, 4, '[{}]'), Version(1, 26))
            self.assertEqual(session.tree('Value', 21, 25), '(Array [(EmptyObject)])')

    def test_offsets_count_bytes(self) -> None:
        with Session(LETTERS.encode(), COMMAND) as session:
            self.assertEqual(session.open('é a'.encode()), Version(0, 2))
            self.assertEqual(session.edit(2, 0, b' a'), Version(1, 3))
            self.assertEqual([token.text for token in session.tokens()], ['é', 'a', 'a'])

    def test_a_text_of_no_tokens(self) -> None:
        with Session(LETTERS, COMMAND) as session:
            session.open('')
            self.assertEqual(session.tokens(), [])
            self.assertIs(session.has(), False)

    def test_tokens_that_look_like_others(self) -> None:
        texts = ['"a b"', '"word:"', '" word:x Text:y"', '"Text:"', '":"', '" "', '"é Text:"'] * 3
        with Session(JSON, COMMAND) as session:
            session.open('[' + ','.join(texts) + ']')
            found = [token.text for token in session.tokens() if token.kind == 'Text']
            self.assertEqual(found, texts)
            first = [Token('Text', '"a b"'), Token('word', ','), Token('Text', '"word:"')]
            self.assertEqual(session.tokens(1, 4), first)

    def test_escapes(self) -> None:
        scalars = ['\x00', '\x1f', '\x7f', '\\', '\x80', 'x', '"', '😀']
        with Session(WORD, COMMAND) as session:
            session.open(''.join(scalars))
            found = session.tokens()
            self.assertEqual([token.text for token in found], scalars)
            for number, token in enumerate(found):
                self.assertEqual(session.tree('T', number, number + 1), str(token))


class Refusals(unittest.TestCase):
    """The exceptions, with their fields."""

    def test_grammars(self) -> None:
        fields = ['reason', 'place', 'definition', 'name', 'count']
        for grammar, wanted in REFUSED:
            with self.subTest(wanted), self.assertRaises(lbnfchart.GrammarRefused) as caught:
                Session(grammar, COMMAND)
            found = {field: getattr(caught.exception, field) for field in fields}
            self.assertEqual({field: value for field, value in found.items() if value is not None}, wanted)

    def test_before_a_text(self) -> None:
        with Session(LETTERS, COMMAND) as session:
            for call in (session.has, session.tree, session.tokens, lambda: session.edit(0, 0, '')):
                self.assertRaises(lbnfchart.NoText, call)
            self.assertEqual(self.refusal(lbnfchart.NotUtf8, session.open, b'a\xff').place, 1)
            self.assertRaises(lbnfchart.TextFull, session.open, ' ' * 1_048_577)
            self.assertRaises(lbnfchart.TextFull, session.open, 'a ' * 16_385)
            self.assertEqual(session.open('a'), Version(0, 1))

    def test_behind_a_text(self) -> None:
        with Session(LETTERS, COMMAND) as session:
            session.open('a é')
            self.assertRaises(lbnfchart.TextIsOpen, session.open, 'a')
            self.assertEqual(self.refusal(lbnfchart.OutOfRange, session.edit, 4, 1, '').length, 4)
            self.assertEqual(self.refusal(lbnfchart.NotUtf8, session.edit, 3, 0, 'a').place, 3)
            self.assertRaises(lbnfchart.TextFull, session.edit, 0, 0, ' ' * 1_048_576)
            self.assertRaises(lbnfchart.NoSuchCategory, session.has, 'T')
            self.assertEqual(self.refusal(lbnfchart.NoSuchSpan, session.tree, 'S', 0, 3).tokens, 2)
            self.assertEqual(self.refusal(lbnfchart.NoSuchSpan, session.tokens, 2, 1).tokens, 2)
            self.assertIs(session.has('S', 0, 1), True)

    def test_no_entry(self) -> None:
        with Session('', COMMAND) as session:
            session.open('')
            self.assertRaises(lbnfchart.NoSuchCategory, session.has)

    def test_what_no_line_can_say(self) -> None:
        with Session(LETTERS, COMMAND) as session:
            session.open('a')
            for call in (
                lambda: session.has('S', 0), lambda: session.has(None, 0, 1), lambda: session.has(''),
                lambda: session.has('S T'), lambda: session.has('S\n'), lambda: session.has('S' * 225),
                lambda: session.tokens(-1, 1), lambda: session.edit(1_000_000_000, 0, ''),
            ):
                self.assertRaises(ValueError, call)
            self.assertIs(session.has(), True)

    def refusal(self, sort: type[lbnfchart.Refused], call, *given) -> lbnfchart.Refused:
        """The refusal that the call raises."""
        with self.assertRaises(sort) as caught:
            call(*given)
        return caught.exception


class Ends(unittest.TestCase):
    """How sessions end."""

    def test_closed(self) -> None:
        session = Session(LETTERS, COMMAND)
        session.close()
        session.close()
        self.assertEqual(session.status, 0)
        self.assertEqual(self.ended(session.has).status, 0)

    def test_refused(self) -> None:
        session = Session(LETTERS, COMMAND)
        with self.assertRaises(lbnfchart.ScriptBroken) as caught:
            session._ask(b'hass\n')
        self.assertEqual(caught.exception.place, 54)
        session.close()
        self.assertEqual(self.ended(session.has).status, 3)

    def test_left_by_a_fault(self) -> None:
        with self.assertRaises(KeyError), Session(LETTERS, COMMAND) as session:
            raise KeyError
        self.assertIsNotNone(session.status)

    def test_memory(self) -> None:
        for words in ('exit 6', 'head -c 1; exit 6', 'printf grammar; exit 6'):
            with self.assertRaises(lbnfchart.OutOfMemory):
                Session(LETTERS, ['sh', '-c', words])

    def test_pipes(self) -> None:
        ends = [('exit 5', 5), ('printf "grammar rules"; exit 4', 4), ('exit 70', 70), ('kill -9 $$', -9)]
        for words, status in ends:
            with self.subTest(words):
                found = self.ended(lambda: Session('x' * 1_000_000, ['sh', '-c', words]))
                self.assertEqual(found.status, status)

    def test_no_program(self) -> None:
        self.assertRaises(OSError, Session, LETTERS, [str(ROOT / 'no such program')])

    def ended(self, call) -> lbnfchart.SessionEnded:
        """The fault of a session that has ended."""
        with self.assertRaises(lbnfchart.SessionEnded) as caught:
            call()
        return caught.exception


if __name__ == '__main__':
    if not sys.argv[1:]:
        print(__doc__)
        sys.exit(2)
    COMMAND = sys.argv[1:]
    unittest.main(argv=sys.argv[:1])
