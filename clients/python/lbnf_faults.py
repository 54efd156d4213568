"""What is said to people of a refused grammar: its place and the fault in words."""
from __future__ import annotations

import re

from lbnf_notation import LEXEME, PREDEFINED, Definition, definitions_of, lexemes_of
from lbnf_source import Source
from lbnfchart import GrammarRefused

SIGNS = '.;:[](){},|*+?-_'
UNSUPPORTED = ['layout', 'define', 'delimiters', 'rules']
WHOLE_FILE = {
    'large': 'the file has {count:,} bytes, more than 65,536',
    'rules': 'the definitions stand for {count:,} rules, more than 1,024',
    'states': 'the words, tokens and comments need more than 1,023 states',
    'symbols': 'the categories, kinds of token and items of all rules are {count:,}, more than 2,048',
}
DIFFERENCE = 'the left side of a difference is a class of characters, and its right side one of ASCII characters alone'
LIST = ('a rule of lists has the label [] and no category among its items, (:[]) and one, '
        '(:) and two of which the second is a list, or _ and a list; each other rule has another label')


def fault_of(refused: GrammarRefused, source: Source) -> str:
    """The lines that are shown of a refused grammar."""
    if refused.reason in WHOLE_FILE:
        return f'{source.located(0)}: refused: ' + WHOLE_FILE[refused.reason].format(count=refused.count)
    if refused.place is not None:
        place = source.place_of(refused.place)
        text = _of_form(refused, source.text, place)
    else:
        place, text = _of_definitions(refused, source)
    return source.message(place, f'refused: {text}')


def _of_form(refused: GrammarRefused, text: str, place: int) -> str:
    """What is said of a fault that has an offset."""
    if refused.reason == 'utf8':
        return 'the file is not UTF-8'
    if refused.reason == 'difference':
        return DIFFERENCE
    if refused.reason == 'unsupported' and refused.name == '(':
        return 'a label with a profile is not supported'
    if refused.reason == 'unsupported' and refused.name in UNSUPPORTED:
        return f'`{refused.name}` is not supported'
    if refused.reason == 'unsupported':
        return f'`{refused.name}` begins no definition, and a label begins in upper case'
    if place == len(text):
        return 'the file ends within a definition'
    return _of_lexeme(text, place) or _of_limit(text, place) or f'{LEXEME.match(text, place).group()} cannot stand here'


def _of_lexeme(text: str, place: int) -> str | None:
    """What is said where no token of the notation stands."""
    match = LEXEME.match(text, place)
    sort, spelled = match.lastgroup, match.group()
    if text.startswith('{-', place):
        return 'this comment has no end'
    if spelled in '"\'':
        return f'this {"string" if spelled == chr(34) else "character"} has no end on its line, or a wrong escape'
    if sort in ('string', 'character') and re.search(r'\\[^"\'\\nt]', re.sub(r'\\\\', '', spelled)):
        return 'the escapes are \\" \\\' \\\\ \\n \\t'
    if sort == 'name' and len(spelled) > 64:
        return 'a name has at most 64 bytes'
    if sort == 'number' and len(spelled) > 4:
        return 'a number has at most four digits'
    if sort == 'sign' and spelled not in SIGNS and spelled != '::=':
        return f'{spelled!r} begins no token of the notation'
    return None


def _of_limit(text: str, place: int) -> str | None:
    """What is said of a sign that ends a definition too early, or is one too many."""
    before: list[str] = []
    for lexeme in lexemes_of(text[:place]):
        sign = lexeme.text if lexeme.sort == 'sign' else lexeme.sort
        before = [] if sign == ';' else [*before, sign]
    spelled = LEXEME.match(text, place).group()
    if spelled == ';':
        return 'the definition before this ; is not finished'
    if spelled == '(' and before.count('(') - before.count(')') >= 64:
        return 'at most 64 brackets are open at a time'
    if spelled in '*+?' and len(before) > 8 and set(before[-8:]) <= set('*+?'):
        return 'at most 8 of the signs * + ? stand in a row'
    if spelled == '-' and before.count('-') >= 8:
        return 'a chain of differences has at most 8 signs'
    category = re.compile(r'(\[\s*)+[A-Za-z0-9_\']*(\s*\])*').match(text, place)
    return 'a category has at most 128 bytes' if category and len(''.join(category[0].split())) > 128 else None


def _of_definitions(refused: GrammarRefused, source: Source) -> tuple[int, str]:
    """The place and what is said of a fault of whole definitions."""
    read = list(definitions_of(source.text))
    if refused.definition is not None and refused.reason != 'category':
        found = read[refused.definition]
        return found.place, _of_labels(refused.reason, found)
    named = places_of(refused.name, read)
    lines = _in_lines(source, named)
    if refused.reason == 'category':
        inside = [item.place for item in read[refused.definition].spelled if item.text == refused.name]
        return (inside or named)[0], f'{refused.name} is no category of a rule and no token; it stands in {lines}'
    if refused.reason == 'cyclic':
        heads = [rule.place for found in read for rule in found.rules if rule.category == refused.name]
        return heads[0], f'{refused.name} derives itself, by rules whose other items may be empty; it stands in {lines}'
    return _repeated(refused.name, read), f'{refused.name} is a token, and is defined once more; it stands in {lines}'


def _of_labels(reason: str, found: Definition) -> str:
    if reason == 'list':
        return LIST
    if found.sort == 'coercions':
        return 'coercions has one level or more'
    return 'a rule with the label _ has one item that is no word'


def places_of(name: str, read: list[Definition]) -> list[int]:
    """The places at which a category or a token is named, in order."""
    spelled = {item.place for found in read for item in found.spelled if item.text == name}
    made = {rule.place for found in read for rule in found.rules if rule.category == name and found.sort == 'coercions'}
    tokens = {found.name_place for found in read if found.sort == 'token' and found.name == name}
    return sorted(spelled | made | tokens)


def _repeated(name: str, read: list[Definition]) -> int:
    """The place of the first definition that gives the name of a token to something else."""
    tokens = {found.name for found in read if found.sort == 'token'}
    seen: set[str] = set()
    for found in read:
        if found.sort == 'token':
            if found.name in seen:
                return found.name_place
            seen.add(found.name)
        if any(rule.category == name for rule in found.rules) and name in tokens | set(PREDEFINED):
            return found.place
    return read[0].place


def _in_lines(source: Source, places: list[int]) -> str:
    """`line 3`, or `lines 3, 5 and 7`."""
    lines = [str(line) for line in sorted({source.line_of(place) for place in places})]
    if len(lines) == 1:
        return f'line {lines[0]}'
    return f'lines {", ".join(lines[:-1])} and {lines[-1]}'
