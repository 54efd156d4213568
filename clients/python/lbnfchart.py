"""Sessions of the program lbnfchart, as objects.

    with Session(grammar) as session:
        session.open('a a')
        session.has('S', 0, 2)
        session.tree()

A grammar and a text are `str`, or `bytes` of UTF-8. An offset counts bytes, and a place counts
tokens, both from 0. Each call writes one command of a script and reads its reply before it answers.
docs/FORMATS.md defines the replies. A refusal is an exception that has its numbers as fields: one of
the grammar ends the session, and one of a command leaves the session as it was.
"""
from __future__ import annotations

import pathlib
import re
import subprocess
from collections.abc import Callable, Sequence
from dataclasses import dataclass
from types import TracebackType

ROOT = pathlib.Path(__file__).resolve().parents[2]
# The program of this repository. It is proved and built first where it has to be, which takes minutes.
COMMAND = (str(ROOT / 'bin' / 'lbnfchart'), 'serve')

NUMBERS_END = 1_000_000_000
LONGEST_NAME = 224
ESCAPED = re.compile(r'[\x00-\x1f\x7f\\]')
TOKEN = re.compile(r'[A-Za-z][A-Za-z0-9_\']*:')


class SessionError(Exception):
    """A call that did not get the answer that it asked for."""

    def __str__(self) -> str:
        return repr(self)


class Refused(SessionError):
    """A line of refusal. After one of a command the session goes on."""


@dataclass(eq=False)
class GrammarRefused(Refused):
    """The grammar is refused, and the session has ended.

    `reason` is the word behind `grammar refused`. The others are None where the reason has none:
    `place` is an offset in the grammar, `definition` the number of one, `name` a category or a kind of
    token, or the word that is unsupported, and `count` a number of bytes, rules or symbols.
    """

    reason: str
    place: int | None = None
    definition: int | None = None
    name: str | None = None
    count: int | None = None


class NoText(Refused):
    """No text is open: `refused closed`."""


class TextIsOpen(Refused):
    """A text is open already: `refused open`."""


@dataclass(eq=False)
class OutOfRange(Refused):
    """The bytes to replace end behind the text: `refused range`. `length` is the text's, in bytes."""

    length: int


class TextFull(Refused):
    """The text would have too many bytes or tokens: `refused full`."""


@dataclass(eq=False)
class NotUtf8(Refused):
    """The text would not be UTF-8, first at the offset `place`: `refused utf8`."""

    place: int


class NoSuchCategory(Refused):
    """The grammar has no such category, and no such kind of token: `refused category`."""


@dataclass(eq=False)
class NoSuchSpan(Refused):
    """The places are none of the text: `refused span`. The text has `tokens` tokens."""

    tokens: int


class TreeTooLarge(Refused):
    """The first tree has more than 4,194,304 nodes: `refused tree`."""


@dataclass(eq=False)
class ScriptBroken(SessionError):
    """The program found a line of no form at the offset `place` of what it was sent."""

    place: int


class OutOfMemory(SessionError):
    """Memory ran out, and the session has ended."""


@dataclass(eq=False)
class SessionEnded(SessionError):
    """The program ended before it replied. `status` is its exit status, negative for a signal."""

    status: int


@dataclass(frozen=True)
class Version:
    """A version of the text: its number and how many tokens it has."""

    number: int
    tokens: int


@dataclass(frozen=True)
class Token:
    """A token: its kind's name, `word` or `stray`, and its text."""

    kind: str
    text: str

    def __str__(self) -> str:
        """The token as the program prints it, also in a tree."""
        return f'{self.kind}:{escaped(self.text)}'


class Session:
    """One grammar, and one text under edit.

    The grammar has `rules`, `categories` and `kinds`, which are counted. `command` is the program with
    its words. A session is used by one thread at a time.
    """

    def __init__(self, grammar: str | bytes, command: Sequence[str] = COMMAND) -> None:
        """Starts the program and sends it the grammar, which may be refused."""
        block = _bytes(grammar)
        line = _line('grammar', len(block))
        self._process = subprocess.Popen(command, stdin=subprocess.PIPE, stdout=subprocess.PIPE)
        try:
            reply = self._ask(b'script 1\n' + line + block + b'\n')
            self.rules, self.categories, self.kinds = _numbers(reply, 'grammar rules', 'categories', 'kinds')
        except BaseException:
            self._stop()
            raise

    def open(self, text: str | bytes) -> Version:
        """Opens a text, which becomes version 0."""
        block = _bytes(text)
        return _version(self._ask(_line('open', len(block)) + block + b'\n'))

    def edit(self, at: int, delete: int, text: str | bytes) -> Version:
        """Replaces `delete` bytes from the offset `at` on, which makes the next version."""
        block = _bytes(text)
        return _version(self._ask(_line('edit', at, delete, len(block)) + block + b'\n'))

    def has(self, category: str | None = None, first: int | None = None, end: int | None = None) -> bool:
        """Whether the category, or else the entry, derives the tokens from `first` up to and not
        including `end`, or else the whole text."""
        return self._ask(_question('has', category, first, end)) == 'yes'

    def tree(self, category: str | None = None, first: int | None = None, end: int | None = None) -> str | None:
        """The first tree, printed as one line, or None where `has` answers that there is none."""
        reply = self._ask(_question('tree', category, first, end))
        return None if reply == 'none' else reply

    def tokens(self, first: int | None = None, end: int | None = None) -> list[Token]:
        """The tokens from `first` up to and not including `end`, or else all.

        A token may have spaces in it, so that a reply does not always say where one ends. Each half of
        such a span is then asked for, down to single tokens.
        """
        reply = self._ask(_line('tokens', *_span(first, end)))
        _, count, *pieces = reply.split(' ')
        starts = [number for number, piece in enumerate(pieces) if TOKEN.match(piece)]
        if int(count) == 1:
            starts = [0]
        if len(starts) == int(count):
            ends = starts[1:] + [len(pieces)]
            return [_token(' '.join(pieces[start:stop])) for start, stop in zip(starts, ends)]
        first = first or 0
        middle = first + int(count) // 2
        return self.tokens(first, middle) + self.tokens(middle, first + int(count))

    def close(self) -> None:
        """Ends the session. One that has ended is left as it is."""
        try:
            if not self._process.stdin.closed:
                self._ask(b'end\n')
        finally:
            self._stop()

    @property
    def status(self) -> int | None:
        """The program's exit status, or None while it runs."""
        return self._process.poll()

    def __enter__(self) -> Session:
        return self

    def __exit__(
        self, sort: type[BaseException] | None, fault: BaseException | None, trace: TracebackType | None
    ) -> None:
        if fault is None:
            self.close()
        else:
            self._process.kill()
            self._stop()

    def _ask(self, command: bytes) -> str:
        """The reply to a command, without its LF."""
        try:
            self._process.stdin.write(command)
            self._process.stdin.flush()
        except (BrokenPipeError, ValueError):
            pass                            # what the program wrote before it ended says why
        reply = b'' if self._process.stdout.closed else self._process.stdout.readline()
        if not reply.endswith(b'\n'):
            raise _ended(self._stop())
        words = reply[:-1].decode()
        refusal = _refusal(words)
        if isinstance(refusal, (GrammarRefused, ScriptBroken)):
            self._stop()
        if refusal:
            raise refusal
        return words

    def _stop(self) -> int:
        """Lets the program come to its end, and answers its status."""
        for pipe in (self._process.stdin, self._process.stdout):
            try:
                pipe.close()
            except BrokenPipeError:
                pass
        return self._process.wait()


def _bytes(text: str | bytes) -> bytes:
    return text.encode() if isinstance(text, str) else bytes(text)


def _line(word: str, *numbers: int) -> bytes:
    """The line of a command."""
    for number in numbers:
        if not 0 <= number < NUMBERS_END:
            raise ValueError(f'{number} is no number of nine digits')
    return ' '.join([word, *map(str, numbers)]).encode() + b'\n'


def _span(first: int | None, end: int | None) -> list[int]:
    """Both places, or neither."""
    if (first is None) != (end is None):
        raise ValueError('one place alone is no span')
    return [] if first is None else [first, end]


def _question(word: str, category: str | None, first: int | None, end: int | None) -> bytes:
    """The line of a question about a category."""
    span = _span(first, end)
    if category is None:
        if span:
            raise ValueError('a span is asked about with a category')
        return _line(word)
    if not category or ' ' in category or '\n' in category or len(category.encode()) > LONGEST_NAME:
        raise ValueError(f'{category!r} can name no category')
    return _line(f'{word} {category}', *span)


def _numbers(reply: str, *words: str) -> list[int]:
    """The numbers of a reply, each behind its words."""
    match = re.fullmatch(' '.join(f'{word} ([0-9]+)' for word in words), reply)
    if match is None:
        raise SessionError(f'the reply {reply!r} is none of {words[0]!r}')
    return [int(number) for number in match.groups()]


def _version(reply: str) -> Version:
    return Version(*_numbers(reply, 'version', 'tokens'))


def _token(printed: str) -> Token:
    """A token that is printed as its kind, a colon and its text."""
    kind, _, text = printed.partition(':')
    return Token(kind, re.sub(r'\\(\\|x..)', lambda found: _unescaped(found[1]), text))


def escaped(text: str) -> str:
    """The text as the program writes it in a token: control characters and backslashes are escaped."""
    return ESCAPED.sub(lambda found: '\\\\' if found[0] == '\\' else f'\\x{ord(found[0]):02x}', text)


def _unescaped(written: str) -> str:
    return '\\' if written == '\\' else chr(int(written[1:], 16))


# Behind `grammar refused` and the reason: which fields the words of the line are.
GRAMMAR_FIELDS = {
    'large': ['count'],
    'utf8': ['place'],
    'syntax': ['place'],
    'unsupported': ['name', 'place'],
    'difference': ['place'],
    'coercion': ['definition'],
    'list': ['definition'],
    'rules': ['count'],
    'token': ['name'],
    'category': ['name', 'definition'],
    'cyclic': ['name'],
    'states': [],
    'symbols': ['count'],
}
# Behind `refused`: the exception that has the numbers of the line.
REFUSALS: dict[str, Callable[..., Refused]] = {
    'closed': NoText,
    'open': TextIsOpen,
    'range': OutOfRange,
    'full': TextFull,
    'utf8': NotUtf8,
    'category': NoSuchCategory,
    'span': NoSuchSpan,
    'tree': TreeTooLarge,
}


def _refusal(reply: str) -> SessionError | None:
    """The exception that a line of refusal stands for."""
    words = reply.split(' ')
    if words[:2] == ['grammar', 'refused']:
        fields = zip(GRAMMAR_FIELDS[words[2]], words[3:])
        return GrammarRefused(words[2], **{field: word if field == 'name' else int(word) for field, word in fields})
    if words[:2] == ['script', 'refused']:
        return ScriptBroken(int(words[2]))
    if words[0] == 'refused':
        return REFUSALS[words[1]](*map(int, words[2:]))
    return None


def _ended(status: int) -> SessionError:
    return OutOfMemory() if status == 6 else SessionEnded(status)
