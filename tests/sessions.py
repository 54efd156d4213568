#!/usr/bin/env python3
"""Scripts and the bytes that a session writes for them, worked out by hand.

    python3 tests/sessions.py CMD [ARG ..]     runs CMD on each script, and prints `N passed, M failed`

CMD reads the script from standard input, as `bin/lbnfchart serve` does. The first cases are the
examples of the README, whose replies stand in files; each other one is
(name, input bytes, output bytes, status).
"""
import pathlib
import subprocess
import sys

import edit_sessions
import grammar_files

# The beginning that most cases share, and the offsets that their breaks name:
#   0 `script 1`   9 `grammar 33`   20 the block   53 its LF   54 `open 3`   61 the block   65 the first question
G = b'Cat. S ::= S S ; One. S ::= "a" ;'
H = b'script 1\n'
HG = H + b'grammar 33\n' + G + b'\n'
HGO = HG + b'open 3\na a\n'
assert (len(G), len(H), len(HG), len(HGO)) == (33, 9, 54, 65)

# A grammar of one byte too many.
LARGE = G + b' ' * 65504
assert len(LARGE) == 65537

RULES = b'grammar rules 2 categories 1 kinds 1\n'
TEXT = b'version 0 tokens 2\n'
OPENED = RULES + TEXT


def broken(at, before=b''):
    return before + b'script refused ' + str(at).encode() + b'\n'


EXAMPLES = pathlib.Path(__file__).resolve().parent.parent / 'examples'
CASES = [
    (
        'the example ' + name,
        (EXAMPLES / (name + '.script')).read_bytes(),
        (EXAMPLES / (name + '.replies')).read_bytes(),
        0,
    )
    for name in ['first', 'brackets', 'levels']
]


def whole(grammar, text, questions):
    """The script of a grammar, a text and questions."""
    return b'script 1\ngrammar %d\n%b\nopen %d\n%b\n%bend\n' % (
        len(grammar), grammar, len(text), text, questions)


REAL = {name: (EXAMPLES / (name + '.cf')).read_bytes() for name in ['json', 'imperative', 'lambda', 'lbnf']}
for name, grammar in REAL.items():
    CASES.append((
        'the example ' + name,
        whole(grammar, (EXAMPLES / (name + '.txt')).read_bytes(), (EXAMPLES / (name + '.ask')).read_bytes()),
        (EXAMPLES / (name + '.replies')).read_bytes(),
        0,
    ))
# Labelled BNF in itself reads all four.
for name, tokens in [('json', 171), ('imperative', 181), ('lambda', 52), ('lbnf', 363)]:
    CASES.append((
        'labelled BNF reads the grammar ' + name,
        whole(REAL['lbnf'], REAL[name], b'has\n'),
        b'grammar rules 50 categories 13 kinds 36\nversion 0 tokens %d\nyes\nend\n' % tokens,
        0,
    ))


def case(name, given, wanted, status):
    CASES.append((name, given, wanted, status))


# ---- The header. A break is at the line's first byte, at the input's length, or at another byte
# in the place of a block's LF.

LINE, LENGTH = 'the line\'s first byte', 'the input\'s length'


def place(given, line, at):
    return line if at is LINE else len(given) if at is LENGTH else at



for name, line, at in [
    ('the empty input', b'', LENGTH),
    ('a header without its LF', b'script 1', LENGTH),
    ('a header that ends in CR LF', b'script 1\r\n', LINE),
    ('a header behind a space', b' script 1\n', LINE),
    ('a header before a space', b'script 1 \n', LINE),
    ('a header with two spaces', b'script  1\n', LINE),
    ('a header with a tab', b'script\t1\n', LINE),
    ('a header with a leading zero', b'script 01\n', LINE),
    ('a header with another number', b'script 2\n', LINE),
    ('a header without a number', b'script\n', LINE),
    ('a header in upper case', b'SCRIPT 1\n', LINE),
    ('a header of more digits', b'script 11\n', LINE),
    ('an empty first line', b'\nscript 1\n', LINE),
    ('a byte order mark', b'\xef\xbb\xbfscript 1\n', LINE),
    ('a zero byte', b'\x00', LENGTH),
    ('a first line of 256 bytes', b'x' * 256 + b'\n', LINE),
    ('a first line of 257 bytes', b'x' * 257 + b'\n', LINE),
    ('257 bytes without an LF', b'x' * 257, LINE),
    ('256 bytes without an LF', b'x' * 256, LENGTH),
    ('255 bytes without an LF', b'x' * 255, LENGTH),
    ('a grammar before the header', b'grammar 33\n' + G + b'\n', LINE),
]:
    case(name, line, broken(place(line, 0, at)), 3)

# ---- The grammar's line, which begins at 9, and its block.

for name, more, at in [
    ('the input ends behind the header', b'', LENGTH),
    ('the end behind the header', b'end\n', LINE),
    ('a second header', b'script 1\n', LINE),
    ('an empty second line', b'\n', LINE),
    ('a text before the grammar', b'open 3\na a\n', LINE),
    ('a question before the grammar', b'has S 0 1\n', LINE),
    ('a grammar line without its LF', b'grammar 33', LENGTH),
    ('a grammar without a number', b'grammar\n' + G + b'\n', LINE),
    ('a grammar with a space and no number', b'grammar \n' + G + b'\n', LINE),
    ('a grammar with two spaces', b'grammar  33\n' + G + b'\n', LINE),
    ('a grammar with a space behind', b'grammar 33 \n' + G + b'\n', LINE),
    ('a grammar line that ends in CR LF', b'grammar 33\r\n' + G + b'\n', LINE),
    ('a grammar with a leading zero', b'grammar 033\n' + G + b'\n', LINE),
    ('a grammar with the number 00', b'grammar 00\n\n', LINE),
    ('a grammar with a sign', b'grammar +33\n' + G + b'\n', LINE),
    ('a negative grammar', b'grammar -1\n\n', LINE),
    ('a grammar in hexadecimal', b'grammar 0x21\n' + G + b'\n', LINE),
    ('a grammar with two numbers', b'grammar 33 33\n' + G + b'\n', LINE),
    ('65,537 bytes of a grammar without their LF', b'grammar 65537\n' + LARGE, LENGTH),
    ('65,537 bytes of a grammar cut short by one byte', b'grammar 65537\n' + LARGE[:-1], LENGTH),
    ('65,537 bytes of a grammar and another byte than LF', b'grammar 65537\n' + LARGE + b' open 3\na a\nend\n', 65560),
    ('a grammar of 65,536 bytes that is told one byte too long', b'grammar 65537\n' + LARGE[:-1] + b'\nopen 3\na a\nend\n', 65560),
    ('a grammar of 65,537 bytes that is told one byte too short', b'grammar 65536\n' + LARGE + b'\nopen 3\na a\nend\n', 65559),
    ('65,536 bytes of a grammar cut short by one byte', b'grammar 65536\n' + LARGE[:-2], LENGTH),
    ('65,536 bytes of a grammar without their LF', b'grammar 65536\n' + LARGE[:-1], LENGTH),
    ('a grammar of nine digits, cut short', b'grammar 999999999\n' + G + b'\n', LENGTH),
    ('a grammar of ten digits', b'grammar 1000000000\n' + G + b'\n', LINE),
    ('a grammar of ten digits with leading zeros', b'grammar 0000000033\n' + G + b'\n', LINE),
    ('a large grammar of ten digits with leading zeros', b'grammar 0000065537\n' + LARGE + b'\n', LINE),
    ('the input ends behind the line of the grammar', b'grammar 33\n', LENGTH),
    ('the input ends inside the grammar', b'grammar 33\n' + G[:20], LENGTH),
    ('the input ends before the LF of the grammar', b'grammar 33\n' + G, LENGTH),
    ('another byte in the place of the LF of the grammar', b'grammar 33\n' + G + b' open 3\na a\nend\n', 53),
    ('a grammar that is told one byte too short', b'grammar 32\n' + G + b'\nopen 3\na a\nend\n', 52),
    ('a grammar that is told one byte too long', b'grammar 34\n' + G + b'\nopen 3\na a\nend\n', 54),
    ('CR before the LF of the grammar', b'grammar 33\n' + G + b'\r\nopen 3\na a\nend\n', 53),
    ('an empty grammar without its LF', b'grammar 0\n', LENGTH),
    ('a bad grammar without its LF', b'grammar 10\nA. S ::= s', LENGTH),
]:
    case(name, H + more, broken(place(H + more, 9, at)), 3)

# ---- The text's line, which begins at 54, and its block, behind the grammar's reply.

for name, more, at in [
    ('the input ends behind the grammar', b'', LENGTH),
    ('a second grammar', b'grammar 33\n' + G + b'\n', LINE),
    ('an empty line behind the grammar', b'\nopen 3\na a\nend\n', LINE),
    ('a text line without its LF', b'open 3', LENGTH),
    ('a text without a number', b'open\na a\nend\n', LINE),
    ('a text with two spaces', b'open  3\na a\nend\n', LINE),
    ('a text with a space behind', b'open 3 \na a\nend\n', LINE),
    ('a text line that ends in CR LF', b'open 3\r\na a\nend\n', LINE),
    ('a text with a leading zero', b'open 03\na a\nend\n', LINE),
    ('a text of ten digits', b'open 1000000000\na a\nend\n', LINE),
    ('the input ends behind the line of the text', b'open 3\n', LENGTH),
    ('the input ends inside the text', b'open 3\na ', LENGTH),
    ('the input ends before the LF of the text', b'open 3\na a', LENGTH),
    ('another byte in the place of the LF of the text', b'open 3\na a end\n', 64),
    ('a text that is told one byte too short', b'open 2\na a\nend\n', 63),
    ('a text that is told one byte too long', b'open 4\na a\nend\n', 65),
    ('an empty text without its LF', b'open 0\n', LENGTH),
    ('1,048,577 bytes of a text without their LF', b'open 1048577\n' + b' ' * 1048577, LENGTH),
    ('1,048,577 bytes of a text cut short by one byte', b'open 1048577\n' + b' ' * 1048576, LENGTH),
    ('1,048,577 bytes of a text and another byte than LF', b'open 1048577\n' + b' ' * 1048578 + b'end\n', 1048644),
    ('1,048,576 bytes of a text without their LF', b'open 1048576\n' + b' ' * 1048576, LENGTH),
    ('1,048,576 bytes of a text and another byte than LF', b'open 1048576\n' + b' ' * 1048577 + b'end\n', 1048643),
    ('a line of 257 bytes behind the grammar', b'o' * 257 + b'\n', LINE),
    ('a line of 256 bytes behind the grammar', b'o' * 256 + b'\n', LINE),
    ('257 bytes without an LF behind the grammar', b'o' * 257, LINE),
    ('256 bytes without an LF behind the grammar', b'o' * 256, LENGTH),
    ('a misspelt command', b'hass S\n', LINE),
]:
    case(name, HG + more, broken(place(HG + more, 54, at), RULES), 3)

# A block is read to its LF before anything is said of its command.
for name, more, wanted in [
    ('an edit before the text, whose block is cut short', b'edit 0 0 2\na', broken(66)),
    ('an edit before the text, whose block has no LF', b'edit 0 0 1\na', broken(66)),
    ('an edit before the text, whose block is told one byte too short', b'edit 0 0 1\naa\nend\n', broken(66)),
    ('a question before the text, and nothing', b'has S 0 2\n', b'refused closed\n' + broken(64)),
    ('a question before the text, and a break', b'has\nhass\n', b'refused closed\n' + broken(58)),
    ('an edit before the text, and a break', b'edit 0 0 1\na\nopens 1\na\n', b'refused closed\n' + broken(67)),
    ('a text that is no UTF-8, and a break', b'open 1\n\xff\nopens 1\na\n', b'refused utf8 0\n' + broken(63)),
]:
    case(name, HG + more, RULES + wanted, 3)

# ---- Edits, questions and the end, whose lines begin at 65, behind the replies to grammar and text.

for name, more, at in [
    ('the input ends behind the text', b'', LENGTH),
    ('an end without its LF', b'end', LENGTH),
    ('an end before a space', b'end \n', LINE),
    ('an end behind a space', b' end\n', LINE),
    ('an end that ends in CR LF', b'end\r\n', LINE),
    ('an end in upper case', b'END\n', LINE),
    ('a grammar behind the text', b'grammar 33\n' + G + b'\nend\n', LINE),
    ('a header behind the text', b'script 1\nend\n', LINE),
    ('an empty line behind the text', b'\nend\n', LINE),
    ('a second text that is told one byte too short', b'open 2\na a\nend\n', 74),
    ('a second text without its LF', b'open 3\na a', LENGTH),
    ('an edit without numbers', b'edit\nb\nend\n', LINE),
    ('an edit with one number', b'edit 1\nb\nend\n', LINE),
    ('an edit with two numbers', b'edit 0 1\nb\nend\n', LINE),
    ('an edit with four numbers', b'edit 0 1 1 1\nb\nend\n', LINE),
    ('an edit with a space behind', b'edit 0 1 1 \nb\nend\n', LINE),
    ('an edit behind a space', b' edit 0 1 1\nb\nend\n', LINE),
    ('an edit with two spaces behind its word', b'edit  0 1 1\nb\nend\n', LINE),
    ('an edit with two spaces before its second number', b'edit 0  1 1\nb\nend\n', LINE),
    ('an edit with two spaces before its third number', b'edit 0 1  1\nb\nend\n', LINE),
    ('an edit with a tab', b'edit 0\t1 1\nb\nend\n', LINE),
    ('an edit that ends in CR LF', b'edit 0 1 1\r\nb\nend\n', LINE),
    ('an edit in upper case', b'EDIT 0 1 1\nb\nend\n', LINE),
    ('an edit of one longer word', b'edits 0 1 1\nb\nend\n', LINE),
    ('an edit without a space', b'edit0 1 1\nb\nend\n', LINE),
    ('an edit with a leading zero in its place', b'edit 00 1 1\nb\nend\n', LINE),
    ('an edit with a leading zero in what it deletes', b'edit 0 01 1\nb\nend\n', LINE),
    ('an edit with a leading zero in its length', b'edit 0 1 01\nb\nend\n', LINE),
    ('an edit with a sign', b'edit -1 1 1\nb\nend\n', LINE),
    ('an edit with a letter for a number', b'edit 0 x 1\nb\nend\n', LINE),
    ('an edit at a place of ten digits', b'edit 1000000000 0 1\nb\nend\n', LINE),
    ('an edit that deletes a number of ten digits', b'edit 0 1000000000 1\nb\nend\n', LINE),
    ('an edit whose length has ten digits', b'edit 0 1 1000000000\nb\nend\n', LINE),
    ('an edit without its LF', b'edit 0 1 1', LENGTH),
    ('the input ends behind the line of the edit', b'edit 0 1 1\n', LENGTH),
    ('the input ends inside the block of the edit', b'edit 0 1 3\nab', LENGTH),
    ('the input ends before the LF of the block', b'edit 0 1 1\nb', LENGTH),
    ('another byte in the place of the LF of the block', b'edit 0 1 1\nb end\n', 77),
    ('a block that is told one byte too short', b'edit 0 1 1\nbb\nend\n', 77),
    ('a block that is told one byte too long', b'edit 0 1 2\nb\nend\n', 78),
    ('an empty block with a byte', b'edit 0 1 0\nb\nend\n', 76),
    ('an empty block without its LF', b'edit 0 1 0\n', LENGTH),
    ('CR before the LF of the block', b'edit 0 1 1\nb\r\nend\n', 77),
    ('a block of nine digits, cut short', b'edit 0 1 999999999\nb\nend\n', LENGTH),
    ('an edit out of range, whose block is cut short', b'edit 9 9 2\nb', LENGTH),
    ('an edit of bytes that are no UTF-8, whose block is cut short', b'edit 0 1 2\n\xff', LENGTH),
    ('a question for a tree without its LF', b'tree', LENGTH),
    ('a question for a tree with a space behind', b'tree \nend\n', LINE),
    ('a question for a tree in upper case', b'TREE\nend\n', LINE),
    ('a question for trees', b'trees\nend\n', LINE),
    ('a question for a tree with one place alone', b'tree S 0\nend\n', LINE),
    ('a question for a tree with a leading zero', b'tree S 00 2\nend\n', LINE),
    ('a question for a tree with two spaces', b'tree  S\nend\n', LINE),
    ('a question for tokens without its LF', b'tokens', LENGTH),
    ('a question for tokens with a space behind', b'tokens \nend\n', LINE),
    ('a question for tokens that ends in CR LF', b'tokens\r\nend\n', LINE),
    ('a question for tokens in upper case', b'TOKENS\nend\n', LINE),
    ('a question for a token', b'token\nend\n', LINE),
    ('a question for tokens with a name', b'tokens S\nend\n', LINE),
    ('a question for tokens with one number', b'tokens 0\nend\n', LINE),
    ('a question for tokens with one number and a space behind', b'tokens 0 \nend\n', LINE),
    ('a question for tokens with three numbers', b'tokens 0 1 2\nend\n', LINE),
    ('a question for tokens with a name and a span', b'tokens S 0 2\nend\n', LINE),
    ('a question for tokens with two spaces before its numbers', b'tokens  0 2\nend\n', LINE),
    ('a question for tokens with two spaces between its numbers', b'tokens 0  2\nend\n', LINE),
    ('a question for tokens with a space behind its numbers', b'tokens 0 2 \nend\n', LINE),
    ('a question for tokens with a leading zero', b'tokens 00 2\nend\n', LINE),
    ('a question for tokens with a number of ten digits', b'tokens 0 1000000000\nend\n', LINE),
    ('a question for tokens without a space', b'tokens0 2\nend\n', LINE),
    ('a question of one word without its LF', b'has', LENGTH),
    ('a question of one word with a space behind', b'has \nend\n', LINE),
    ('a question of one word that ends in CR LF', b'has\r\nend\n', LINE),
    ('a question of one word with two spaces behind', b'has  \nend\n', LINE),
    ('a question of one longer word', b'hass\nend\n', LINE),
    ('a question of one word in upper case', b'HAS\nend\n', LINE),
    ('a question behind a space', b' has\nend\n', LINE),
    ('a question with a tab behind its word', b'has\tS\nend\n', LINE),
    ('a question with two spaces before its category', b'has  S\nend\n', LINE),
    ('a question with a space behind its category', b'has S \nend\n', LINE),
    ('a question with a category without its LF', b'has S', LENGTH),
    ('a question with one number', b'has S 0\nend\n', LINE),
    ('a question with one number and a space behind', b'has S 0 \nend\n', LINE),
    ('a question with two categories', b'has S S\nend\n', LINE),
    ('a question with a number for its category and one number', b'has 0 2\nend\n', LINE),
    ('a question with a category of 253 bytes', b'has ' + b'A' * 253 + b'\nend\n', LINE),
    ('a question with three numbers', b'has S 0 1 2\nend\n', LINE),
    ('a question with two spaces behind its word', b'has  S 0 2\nend\n', LINE),
    ('a question with two spaces before a number', b'has S  0 2\nend\n', LINE),
    ('a question with two spaces between its numbers', b'has S 0  2\nend\n', LINE),
    ('a question with a space behind', b'has S 0 2 \nend\n', LINE),
    ('a question with a tab', b'has S\t0 2\nend\n', LINE),
    ('a question that ends in CR LF', b'has S 0 2\r\nend\n', LINE),
    ('a question with a leading zero', b'has S 00 2\nend\n', LINE),
    ('a question with a leading zero at the end', b'has S 0 02\nend\n', LINE),
    ('a question with a number of ten digits', b'has S 0 1000000000\nend\n', LINE),
    ('a question with a first number of ten digits', b'has S 1000000000 2\nend\n', LINE),
    ('a question with a sign', b'has S -1 2\nend\n', LINE),
    ('a question with letters for a number', b'has S x 2\nend\n', LINE),
    ('a question without its LF', b'has S 0 2', LENGTH),
    ('a question of 257 bytes', b'has ' + b'A' * 249 + b' 0 0\nend\n', LINE),
    ('257 bytes of a question without an LF', b'has ' + b'A' * 249 + b' 0 0', LINE),
    ('256 bytes of a question without an LF', b'has ' + b'A' * 248 + b' 0 0', LENGTH),
    ('a question in upper case', b'HAS S 0 2\nend\n', LINE),
]:
    case(name, HGO + more, broken(place(HGO + more, 65, at), OPENED), 3)

# ---- Breaks further on: the replies before the break stand.

for name, more, wanted in [
    ('a break behind one question', b'has S 0 2\nhass\n', b'yes\n' + broken(75)),
    ('a break behind the entry and a category', b'has\nhas S\nhas S \n', b'yes\nyes\n' + broken(75)),
    ('the input ends behind the entry', b'has\n', b'yes\n' + broken(69)),
    ('a break behind two questions', b'has S 0 2\nhas T 0 2\nend', b'yes\nrefused category\n' + broken(88)),
    ('the input ends behind a question', b'has S 1 1\n', b'no\n' + broken(75)),
    ('the input ends behind an edit', b'edit 0 1 0\n\n', b'version 1 tokens 1\n' + broken(77)),
    ('a break behind an edit', b'edit 0 1 0\n\nhass\n', b'version 1 tokens 1\n' + broken(77)),
    ('a break behind a second text', b'open 1\na\nopen\n', b'refused open\n' + broken(74)),
    ('a break behind a refused edit', b'edit 4 0 0\n\nedit 4 0\n', b'refused range 3\n' + broken(77)),
]:
    case(name, HGO + more, OPENED + wanted, 3)

# ---- Sessions that end well.

END = b'end\n'
for name, more, wanted in [
    ('no question', END, b''),
    ('what stands behind the end has no effect', END + b'has\n\xff\x00', b''),
    ('the first session', b'has S 0 2\nhas S 1 1\nhas T 0 1\nhas S 0 3\n' + END, b'yes\nno\nrefused category\nrefused span 2\n'),
    ('the entry over the whole text', b'has\n' + END, b'yes\n'),
    ('a category over the whole text', b'has S\n' + END, b'yes\n'),
    ('an unknown category over the whole text', b'has T\n' + END, b'refused category\n'),
    ('a number for a category over the whole text', b'has 0\n' + END, b'refused category\n'),
    ('a word of the script for a category over the whole text', b'has has\nhas end\n' + END, b'refused category\nrefused category\n'),
    ('a category over the whole text that ends in CR', b'has S\r\n' + END, b'refused category\n'),
    ('a category over the whole text that is no UTF-8', b'has \xff\xfe\n' + END, b'refused category\n'),
    ('a category of 252 bytes over the whole text', b'has ' + b'A' * 252 + b'\n' + END, b'refused category\n'),
    ('a label for a category over the whole text', b'has One\n' + END, b'refused category\n'),
    ('an empty span at the text\'s end', b'has S 2 2\n' + END, b'no\n'),
    ('an empty span behind the text', b'has S 3 3\n' + END, b'refused span 2\n'),
    ('a span that runs backwards', b'has S 1 0\n' + END, b'refused span 2\n'),
    ('a span that runs backwards behind the text', b'has S 9 8\n' + END, b'refused span 2\n'),
    ('a span that runs backwards from behind the text', b'has S 3 2\n' + END, b'refused span 2\n'),
    ('a span that ends behind the text', b'has S 1 3\n' + END, b'refused span 2\n'),
    ('an unknown category with a bad span', b'has T 1 0\n' + END, b'refused category\n'),
    ('a number of nine digits', b'has S 0 999999999\n' + END, b'refused span 2\n'),
    ('two numbers of nine digits', b'has S 999999999 999999999\n' + END, b'refused span 2\n'),
    ('a number for a category', b'has 0 0 2\n' + END, b'refused category\n'),
    ('a category that ends in CR', b'has S\r 0 2\n' + END, b'refused category\n'),
    ('a category that is no UTF-8', b'has \xff\xfe 0 2\n' + END, b'refused category\n'),
    ('a category in other case', b'has s 0 2\n' + END, b'refused category\n'),
    ('a label for a category', b'has Cat 0 2\n' + END, b'refused category\n'),
    ('a word for a category', b'has a 0 1\n' + END, b'refused category\n'),
    ('a list for a category', b'has [S] 0 2\n' + END, b'refused category\n'),
    ('a question of 256 bytes', b'has ' + b'A' * 248 + b' 0 0\n' + END, b'refused category\n'),
    ('the tokens of the text', b'tokens\n' + END, b'tokens 2 word:a word:a\n'),
    ('the tokens of each span', b'tokens 0 0\ntokens 0 1\ntokens 0 2\ntokens 1 1\ntokens 1 2\ntokens 2 2\n' + END,
     b'tokens 0\ntokens 1 word:a\ntokens 2 word:a word:a\ntokens 0\ntokens 1 word:a\ntokens 0\n'),
    ('tokens of spans that the text does not have', b'tokens 0 3\ntokens 3 3\ntokens 1 0\ntokens 9 8\ntokens 0 999999999\n' + END,
     b'refused span 2\n' * 5),
    ('each span of two tokens', b'has S 0 0\nhas S 0 1\nhas S 0 2\nhas S 1 1\nhas S 1 2\nhas S 2 2\n' + END, b'no\nyes\nyes\nno\nyes\nno\n'),
]:
    case(name, HGO + more, OPENED + wanted + b'end\n', 0)


def open_text(text):
    return b'open ' + str(len(text)).encode() + b'\n' + text + b'\n'


def version(tokens, number=0):
    return b'version %d tokens %d\n' % (number, tokens)


# Texts under the grammar of one word, `a`: white space gives no token, and another byte is a stray token.
for name, text, tokens, questions, answers in [
    ('an empty text', b'', 0, b'has S 0 0\nhas S 0 1\n', b'no\nrefused span 0\n'),
    ('the whole of an empty text', b'', 0, b'has\nhas S\nhas T\n', b'no\nno\nrefused category\n'),
    ('the whole of a text of one LF', b'\n', 0, b'has\nhas S\n', b'no\nno\n'),
    ('the whole of a text of one token', b'a', 1, b'has\nhas S\n', b'yes\nyes\n'),
    ('the whole of a text with a stray byte', b'a?a', 3, b'has\nhas S\n', b'no\nno\n'),
    ('a text of one LF', b'\n', 0, b'has S 0 0\n', b'no\n'),
    ('each empty span of a text', b'aa', 2, b'has S 0 0\nhas S 1 1\nhas S 2 2\nhas S 3 3\n', b'no\nno\nno\nrefused span 2\n'),
    ('a text of each white byte', b' \t\n\r\x0b\x0c', 0, b'', b''),
    ('words side by side', b'aaa', 3, b'has S 0 3\n', b'yes\n'),
    ('words on lines', b'a\r\na\n', 2, b'has S 0 2\n', b'yes\n'),
    ('a stray byte between words', b'a?a', 3, b'has S 0 1\nhas S 1 2\nhas S 0 3\nhas S 2 3\n', b'yes\nno\nno\nyes\n'),
    ('a word in upper case is stray', b'A', 1, b'has S 0 1\n', b'no\n'),
    ('the byte 7F is stray', b'\x7f', 1, b'has S 0 1\n', b'no\n'),
    ('zero bytes are stray', b'\x00\x00', 2, b'', b''),
    ('the bytes 08, 0E and 1F are stray', b'\x08\x0e\x1f', 3, b'', b''),
    ('a line `end` inside a text', b'end', 3, b'has S 0 3\n', b'no\n'),
    ('a text of 4,096 white bytes', b' ' * 4096, 0, b'has S 0 0\n', b'no\n'),
    ('a text of 4,096 bytes of 64 words', (b'a' + b' ' * 63) * 64, 64, b'has S 0 64\nhas S 63 64\nhas S 0 65\n', b'yes\nyes\nrefused span 64\n'),
]:
    case(name, HG + open_text(text) + questions + END, RULES + version(tokens) + answers + b'end\n', 0)


# The tokens of such texts, by their bytes: a control byte is told by its number, and a backslash doubled.
for name, text, wanted in [
    ('no tokens of an empty text', b'', b'tokens 0\n'),
    ('no tokens of white space', b' \n\t', b'tokens 0\n'),
    ('stray tokens among words', b'a?ab', b'tokens 4 word:a stray:? word:a stray:b\n'),
    ('stray tokens that are escaped', b'\x00a\\\x1f\x7f', b'tokens 5 stray:\\x00 word:a stray:\\\\ stray:\\x1f stray:\\x7f\n'),
    ('stray tokens of signs', b'":"', b'tokens 3 stray:" stray:: stray:"\n'),
    ('many tokens', b'?' * 4096, b'tokens 4096' + b' stray:?' * 4096 + b'\n'),
]:
    tokens = int(wanted.split()[1])
    case(name, HG + open_text(text) + b'tokens\n' + END, RULES + version(tokens) + wanted + END, 0)


def with_grammar(grammar, more):
    return H + b'grammar ' + str(len(grammar)).encode() + b'\n' + grammar + b'\n' + more


def counts(rules, categories, kinds):
    return f'grammar rules {rules} categories {categories} kinds {kinds}\n'.encode()


# Other grammars, with texts and questions.
LONGER = b'A. S ::= "a" ; B. S ::= "ab" ; C. S ::= "b" ;'
NESTED = (b'Nest. S ::= Open Rest ; Flat. S ::= Open Close ; Both. S ::= S S ; '
          b'Rest. Rest ::= S Close ; Open. Open ::= "(" ; Close. Close ::= ")" ;')
SIGNS = b'Eq. S ::= "=" ; EqEq. S ::= "==" ; Is. T ::= "::=" ;'
case('the longest word wins', with_grammar(LONGER, open_text(b'aba bab') + b'has S 0 1\n' + END),
     counts(3, 1, 3) + version(4) + b'yes\nend\n', 0)
case('the longest word wins from the left', with_grammar(SIGNS, open_text(b'=== ::= ::') + b'has S 0 1\nhas T 2 3\nhas S 2 3\nhas T 3 4\n' + END),
     counts(3, 2, 3) + version(5) + b'yes\nyes\nno\nno\nend\n', 0)
case('nested brackets', with_grammar(NESTED, open_text(b'(())()') + b'has S 0 6\nhas S 0 4\nhas S 1 3\nhas S 1 4\nhas Rest 1 4\nhas Open 0 1\nhas S 4 6\nhas S 2 4\n' + END),
     counts(6, 4, 2) + version(6) + b'yes\nyes\nyes\nno\nyes\nyes\nyes\nno\nend\n', 0)
case('brackets that are not closed', with_grammar(NESTED, open_text(b'(()') + b'has S 0 3\nhas S 1 3\nhas Rest 1 3\n' + END),
     counts(6, 4, 2) + version(3) + b'no\nyes\nno\nend\n', 0)
case('a category that derives nothing', with_grammar(b'P. S ::= S S ;', open_text(b'a') + b'has S 0 1\nhas S 0 0\n' + END),
     counts(1, 1, 0) + version(1) + b'no\nno\nend\n', 0)
case('a word of two rules', with_grammar(b'A. S ::= "x" ; B. T ::= "x" ;', open_text(b'x') + b'has S 0 1\nhas T 0 1\n' + END),
     counts(2, 2, 1) + version(1) + b'yes\nyes\nend\n', 0)
PAIR_FIRST = b'P. S ::= A B ; Q. A ::= "x" ; R. B ::= "y" ;'
PAIR_LAST = b'Q. A ::= "x" ; R. B ::= "y" ; P. S ::= A B ;'
case('the entry is the category of the first rule', with_grammar(PAIR_FIRST, open_text(b'x y') + b'has\nhas S\nhas A\nhas B\nhas A 0 1\n' + END),
     counts(3, 3, 2) + version(2) + b'yes\nyes\nno\nno\nyes\nend\n', 0)
case('the entry is not the category of a later rule', with_grammar(PAIR_LAST, open_text(b'x y') + b'has\nhas S\nhas A\n' + END),
     counts(3, 3, 2) + version(2) + b'no\nyes\nno\nend\n', 0)
case('the entry over a text of one token', with_grammar(PAIR_LAST, open_text(b'x') + b'has\nhas S\nhas A\nhas B\n' + END),
     counts(3, 3, 2) + version(1) + b'yes\nno\nyes\nno\nend\n', 0)
case('a grammar without rules has no entry', with_grammar(b'', open_text(b'a a') + b'has\nhas S\nhas S 9 0\n' + END),
     counts(0, 0, 0) + version(2) + b'refused category\n' * 3 + END, 0)
case('a grammar without rules has no entry over an empty text', with_grammar(b'', open_text(b'') + b'has\n' + END),
     counts(0, 0, 0) + version(0) + b'refused category\n' + END, 0)
case('an empty grammar', with_grammar(b'', open_text(b'a a') + b'has S 0 2\n' + END),
     counts(0, 0, 0) + version(2) + b'refused category\nend\n', 0)
case('a grammar of 65,536 bytes', with_grammar(G + b' ' * 65503, open_text(b'a a') + b'has S 0 2\n' + END),
     RULES + TEXT + b'yes\nend\n', 0)

# A larger block is passed over, whatever is in it, and nothing behind it is read as a command.
for name, grammar, more in [
    ('a grammar of 65,537 bytes', LARGE, open_text(b'a a') + END),
    ('a grammar of 65,537 bytes, behind which the input ends', LARGE, b''),
    ('a grammar of 65,537 bytes before a broken line', LARGE, b'opens\n'),
    ('a bad grammar of 65,537 bytes', b'\xff' * 65537, open_text(b'a a') + END),
    ('a grammar of 65,537 LF', b'\n' * 65537, b'\n' * 9),
    ('a grammar of 70,000 bytes', G + b' ' * 69967, open_text(b'a a') + END),
    ('a grammar of 5,000,000 bytes', G + b' ' * 4999967, open_text(b'a a') + END),
]:
    case(name, with_grammar(grammar, more), f'grammar refused large {len(grammar)}\n'.encode(), 2)

# ---- Right sides of any length, with texts and questions. The counts are those of rules, categories, kinds and tokens.

BRACKETS = b'W. S ::= "(" S ")" ; E. S ::= ;'
PAIR = b'Pair. S ::= A B ; NoA. A ::= ; NoB. B ::= ; OneA. A ::= "a" ;'
assert (len(BRACKETS), len(PAIR)) == (31, 61)
LADDER = b'A. S ::= T ; B. T ::= U ; C. U ::= "u" ;'
BOTH = b'A. S ::= S "[" S "]" ; B. S ::= ;'
STATEMENTS = b'If. Stm ::= "if" Exp Stm "else" Stm ; Skip. Stm ::= ; Var. Exp ::= "x" ;'
for name, grammar, counted, text, tokens, questions, answers in [
    ('three words', b'A. S ::= "a" "b" "c" ;', (1, 1, 3), b'abc', 3,
     b'has\nhas S\nhas S 0 2\nhas S 1 3\nhas S 0 0\n', b'yes\nyes\nno\nno\nno\n'),
    ('three words in another order', b'A. S ::= "a" "b" "c" ;', (1, 1, 3), b'acb', 3, b'has\n', b'no\n'),
    ('a word three times', b'A. S ::= "a" "a" "a" ;', (1, 1, 1), b'aaaa', 4,
     b'has\nhas S 0 3\nhas S 1 4\nhas S 1 3\n', b'no\nyes\nyes\nno\n'),
    ('three categories', b'A. S ::= S S S ; B. S ::= "a" ;', (2, 1, 1), b'aaaaa', 5,
     b'has\nhas S 0 4\nhas S 1 4\nhas S 3 5\nhas S 4 5\nhas S 2 2\n', b'yes\nno\nyes\nno\nyes\nno\n'),
    ('a category and a word', b'A. S ::= S "b" ; B. S ::= "a" ;', (2, 1, 2), b'abb', 3,
     b'has\nhas S 0 1\nhas S 0 2\nhas S 1 3\n', b'yes\nyes\nyes\nno\n'),
    ('a word and a category', b'A. S ::= "b" S ; B. S ::= "a" ;', (2, 1, 2), b'bba', 3,
     b'has\nhas S 2 3\nhas S 1 3\nhas S 0 2\n', b'yes\nyes\nyes\nno\n'),
    ('an empty right side alone', b'A. S ::= ;', (1, 1, 0), b'', 0, b'has\nhas S\nhas S 0 0\nhas T\n', b'yes\nyes\nyes\nrefused category\n'),
    ('an empty right side alone, over a stray token', b'A. S ::= ;', (1, 1, 0), b'a', 1,
     b'has\nhas S 0 0\nhas S 1 1\nhas S 2 2\n', b'no\nyes\nyes\nrefused span 1\n'),
    ('a chain of three categories', LADDER, (3, 3, 1), b'u', 1,
     b'has\nhas S\nhas T\nhas U\nhas S 0 0\nhas U 1 1\n', b'yes\nyes\nyes\nyes\nno\nno\n'),
    ('a chain of three categories, over two tokens', LADDER, (3, 3, 1), b'uu', 2,
     b'has\nhas S 0 1\nhas T 1 2\nhas U 0 2\n', b'no\nyes\nyes\nno\n'),
    ('a chain of three categories of which the last is empty', b'A. S ::= T ; B. T ::= U ; C. U ::= ;', (3, 3, 0), b'?', 1,
     b'has\nhas U\nhas S 0 0\nhas T 1 1\nhas U 0 0\n', b'no\nno\nyes\nyes\nyes\n'),
    ('brackets two deep', BRACKETS, (2, 1, 2), b'(())', 4,
     b'has\nhas S 1 3\nhas S 0 3\nhas S 2 2\nhas S 0 0\nhas S 4 4\n', b'yes\nyes\nno\nyes\nyes\nyes\n'),
    ('brackets 64 deep', BRACKETS, (2, 1, 2), b'(' * 64 + b')' * 64, 128,
     b'has\nhas S 1 127\nhas S 63 65\nhas S 64 64\nhas S 0 127\nhas S 1 128\nhas S 62 65\n', b'yes\nyes\nyes\nyes\nno\nno\nno\n'),
    ('brackets of which one is not closed', BRACKETS, (2, 1, 2), b'(()', 3,
     b'has\nhas S 1 3\nhas S 0 2\nhas S 3 3\n', b'no\nyes\nno\nyes\n'),
    ('brackets of which one is not opened', BRACKETS, (2, 1, 2), b'())', 3, b'has\nhas S 0 2\nhas S 1 3\n', b'no\nyes\nno\n'),
    ('brackets side by side', BRACKETS, (2, 1, 2), b'()()', 4, b'has\nhas S 0 2\nhas S 2 4\nhas S 1 3\n', b'no\nyes\nyes\nno\n'),
    ('brackets over an empty text', BRACKETS, (2, 1, 2), b'', 0,
     b'has\nhas S\nhas S 0 0\nhas S 0 1\n', b'yes\nyes\nyes\nrefused span 0\n'),
    ('brackets side by side and nested', BOTH, (2, 1, 2), b'[][[]]', 6,
     b'has\nhas S 0 2\nhas S 2 6\nhas S 3 5\nhas S 1 3\nhas S 0 3\nhas S 3 3\n', b'yes\nyes\nyes\nyes\nno\nno\nyes\n'),
    ('statements in statements', STATEMENTS, (3, 2, 3), b'if x if x else else', 6,
     b'has\nhas Stm 2 5\nhas Stm 2 6\nhas Stm 4 4\nhas Stm 0 5\nhas Exp 1 2\nhas Exp 1 1\n', b'yes\nyes\nno\nyes\nno\nyes\nno\n'),
    ('two categories that derive the empty span', PAIR, (4, 3, 1), b'a', 1,
     b'has S 0 0\nhas B\nhas S 0 2\nhas T 0 0\nhas S\nhas S 1 1\n', b'yes\nno\nrefused span 1\nrefused category\nyes\nyes\n'),
    ('each span of two categories that derive the empty span', PAIR, (4, 3, 1), b'a', 1,
     b'has\nhas A\nhas A 0 0\nhas A 1 1\nhas B 0 0\nhas B 0 1\nhas B 1 1\n', b'yes\nyes\nyes\nyes\nyes\nno\nyes\n'),
    ('two categories that derive the empty span, over an empty text', PAIR, (4, 3, 1), b'', 0,
     b'has\nhas S\nhas A\nhas B\nhas T\nhas S 0 0\nhas B 0 0\nhas S 0 1\n',
     b'yes\nyes\nyes\nyes\nrefused category\nyes\nyes\nrefused span 0\n'),
    ('an empty span beside a stray token', PAIR, (4, 3, 1), b'a?a', 3,
     b'has\nhas S 0 1\nhas S 1 2\nhas S 1 1\nhas S 2 3\nhas S 3 3\n', b'no\nyes\nno\nyes\nyes\nyes\n'),
    ('a span in each wrong way', PAIR, (4, 3, 1), b'a', 1,
     b'has S 1 0\nhas S 0 2\nhas S 1 2\nhas S 2 2\nhas S 2 1\nhas S 2 0\nhas S 3 2\n', b'refused span 1\n' * 7),
    ('a span in each wrong way, of an unknown category', PAIR, (4, 3, 1), b'a', 1,
     b'has T 1 0\nhas T 0 2\nhas T 1 2\nhas T 2 2\nhas T 2 1\nhas T 2 0\nhas T 3 2\n', b'refused category\n' * 7),
    ('a category beside one that does not derive the empty span', b'A. S ::= T S ; B. T ::= "t" ; C. S ::= ;', (3, 2, 1), b'tt', 2,
     b'has\nhas T\nhas S 1 2\nhas S 1 1\nhas T 1 1\n', b'yes\nno\nyes\nyes\nno\n'),
    ('a grammar without a rule', b'', (0, 0, 0), b'a', 1,
     b'has\nhas S\nhas S 0 0\nhas S 0 1\nhas S 1 0\n', b'refused category\n' * 5),
    ('a grammar without a rule, over an empty text', b' ;; ', (0, 0, 0), b'', 0, b'has\nhas S\nhas S 0 0\n', b'refused category\n' * 3),
]:
    case('any length: ' + name, with_grammar(grammar, open_text(text) + questions + END),
         counts(*counted) + version(tokens) + answers + b'end\n', 0)

# ---- Grammars that are accepted: with an empty text and the end behind them.

N64 = b'A' * 64
N65 = b'A' * 65


def words(count):
    """The words 0, 1, .., so many. Each front of one is another, so they have a state each, and with
    the start and white space there are two more."""
    return b''.join(b'"%d" ' % k for k in range(count))


for name, grammar, wanted in [
    ('no last semicolon', b'One. S ::= "a"', counts(1, 1, 1)),
    ('no white byte', b'One.S::="a"', counts(1, 1, 1)),
    ('one white byte alone, between two categories', b'P.S::=S S;One.S::="a"', counts(2, 1, 1)),
    ('each white byte between tokens', b'\tOne\n.\r\n S\x0b::=\x0c"a" ', counts(1, 1, 1)),
    ('two categories on two lines', b'P. S ::= S\nS ; One. S ::= "a" ;', counts(2, 1, 1)),
    ('a grammar of white bytes', b' \t\r\n', counts(0, 0, 0)),
    ('a grammar of semicolons', b';; ;', counts(0, 0, 0)),
    ('a label of 64 bytes', N64 + b'. S ::= "a" ;', counts(1, 1, 1)),
    ('a category of 64 bytes', b'One. ' + N64 + b' ::= "a" ;', counts(1, 1, 1)),
    ('a right side of 64 and 64 bytes', b'P. ' + N64 + b' ::= ' + N64 + b' ' + N64 + b' ;', counts(1, 1, 0)),
    ('names with digits, underscores and apostrophes', b"A_1'. S_2'' ::= \"a\" ;", counts(1, 1, 1)),
    ('a predefined name for a label', b'Integer. S ::= "a" ;', counts(1, 1, 1)),
    ('a longer name than a predefined one', b'A. Integers ::= "a" ; B. Ident_ ::= "b" ; C. Str ::= "c" ;', counts(3, 3, 3)),
    ('words of the least and the greatest byte', b'A. S ::= "!~" ;', counts(1, 1, 1)),
    ('a word of signs', b'A. S ::= "::=." ;', counts(1, 1, 1)),
    ('a word of 1,000 bytes', b'A. S ::= "' + b'x' * 1000 + b'" ;', counts(1, 1, 1)),
    ('a word that stands twice', b'A. S ::= "a" ; B. T ::= "a" ;', counts(2, 2, 1)),
    ('a rule that stands twice', b'A. S ::= "a" ; A. S ::= "a" ;', counts(2, 1, 1)),
    ('categories that are first named among items', b'P. S ::= A B ; Q. A ::= "x" ; R. B ::= "y" ;', counts(3, 3, 2)),
    ('a category that only a later rule has', b'P. S ::= T T ; Q. T ::= "x" ;', counts(2, 2, 1)),
    ('an empty right side', b'A. S ::= ;', counts(1, 1, 0)),
    ('an empty right side at the end of the block', b'A.S::=', counts(1, 1, 0)),
    ('a right side of three categories', b'A. S ::= S S S ;', counts(1, 1, 0)),
    ('a right side of two words', b'A. S ::= "a" "b" ;', counts(1, 1, 2)),
    ('a right side of three words', b'A. S ::= "a" "b" "c" ;', counts(1, 1, 3)),
    ('three words without a white byte, the first again', b'A.S::="a""b""a"', counts(1, 1, 2)),
    ('a category and a word', b'A. S ::= S "b" ;', counts(1, 1, 1)),
    ('a word and a category', b'A. S ::= "b" S ;', counts(1, 1, 1)),
    ('words and categories without a white byte', b'A.S::="a"S"b"S;B.S::="x""y"', counts(2, 1, 4)),
    ('a chain of three categories', LADDER, counts(3, 3, 1)),
    ('a category beside itself that does not derive the empty span', b'Two. A ::= A A ;', counts(1, 1, 0)),
    ('a category beside a word and an empty one', b'A. S ::= N S "x" ; B. S ::= "s" ; C. N ::= ;', counts(3, 2, 2)),
    ('a category beside one that does not derive the empty span', b'A. S ::= T S ; B. T ::= "t" ; C. S ::= ;', counts(3, 2, 1)),
    ('two categories that derive the empty span', PAIR, counts(4, 3, 1)),
    ('brackets of any depth', BRACKETS, counts(2, 1, 2)),
    ('2,048 symbols of one rule', b'A. S ::= ' + b'S ' * 2047 + b';', counts(1, 1, 0)),
    ('2,048 symbols, one of them a kind', b'A. S ::= ' + b'"a" ' * 2046 + b';', counts(1, 1, 1)),
    ('2,048 symbols of many rules', b'A. S ::= "a" S ;' * 1023, counts(1023, 1, 1)),
    ('2,048 symbols by one macro', b'coercions E 1021 ;', counts(1022, 1022, 2)),
    ('2,047 symbols and 1,023 states, of 1,021 kinds', b'A. S ::= ' + words(1021) + b'"0" ' * 4 + b';', counts(1, 1, 1021)),
    ('1,023 states of one word', b'A. S ::= "' + b'x' * 1021 + b'" ;', counts(1, 1, 1)),
    ('1,023 states of two words', b'A. S ::= "' + b'x' * 500 + b'" "y' + b'x' * 520 + b'" ;', counts(1, 1, 2)),
    ('an empty string', b'A. S ::= "" ;', counts(1, 1, 0)),
    ('two words in a string', b'A. S ::= "a b" ;', counts(1, 1, 2)),
    ('a backslash in a word', b'A. S ::= "\\\\" ;', counts(1, 1, 1)),
    ('the byte 7F in a word', b'A. S ::= "\x7f" ;', counts(1, 1, 1)),
    ('a semicolon in a word', b'A. S ::= "a" ; B. S ::= ";" ;', counts(2, 1, 2)),
    ('a line comment', b'-- one rule\nA. S ::= "a" ;', counts(1, 1, 1)),
    ('a terminator', b'A. S ::= "a" ; terminator S "," ;', counts(3, 2, 2)),
    ('coercions', b'coercions Exp 2 ;', counts(3, 3, 2)),
    ('a predefined name among the items', b'A. S ::= "a" ; B. S ::= S Char ;', counts(2, 1, 2)),
    ('a comment of the language', b'comment "//" ; A. S ::= "a" ;', counts(1, 1, 1)),
    ('a token with its place', b'A. S ::= "a" ; position token T \'a\' ;', counts(1, 1, 2)),
    ('1,024 rules', b'A. S ::= "a" ;' * 1024, counts(1024, 1, 1)),
    ('1,024 rules and empty definitions', b' ;' + b'A. S ::= "a" ;' * 1024 + b'; ;', counts(1024, 1, 1)),
]:
    case('accepted: ' + name, with_grammar(grammar, b'open 0\n\nend\n'), wanted + b'version 0 tokens 0\nend\n', 0)

# ---- Grammars that are refused: nothing behind them is read as a command, and nothing else is written.


def refused(*reason):
    words = [word if isinstance(word, bytes) else str(word).encode() for word in reason]
    return b'grammar refused ' + b' '.join(words) + b'\n'


def syntax(at):
    return refused(b'syntax', at)


def unknown(name, number):
    return refused(b'category', name, number)


def cyclic(name):
    return refused(b'cyclic', name)


def symbols(number):
    return refused(b'symbols', number)


STATES = refused(b'states')


for name, grammar, wanted in [
    ('a label of 65 bytes', N65 + b'. S ::= "a" ;', syntax(0)),
    ('a category of 65 bytes', b'One. ' + N65 + b' ::= "a" ;', syntax(5)),
    ('an item of 65 bytes', b'P. S ::= S ' + N65 + b' ;', syntax(11)),
    ('a label in lower case', b'one. S ::= "a" ;', refused(b'unsupported one 0')),
    ('a category in lower case', b'One. s ::= "a" ;', syntax(5)),
    ('an item in lower case', b'One. S ::= S s ;', syntax(13)),
    ('a label that begins with a digit', b'1A. S ::= "a" ;', syntax(0)),
    ('no label of its own beside two items', b'_. S ::= S S ;', refused(b'coercion', 0)),
    ('a label of two bytes above 7F', b'\xc3\x89. S ::= "a" ;', syntax(0)),
    ('a name for a list', b'A. [S] ::= "a" ;', refused(b'list', 0)),
    ('a list label for no list', b'[]. S ::= "a" ;', refused(b'list', 0)),
    ('a predefined name for a category', b'A. Integer ::= "a" ;', refused(b'token Integer')),
    ('a quote in a word', b'A. S ::= "a"b" ;', syntax(12)),
    ('the byte FF in a word', b'A. S ::= "\xff" ;', refused(b'utf8', 10)),
    ('the byte FF behind a rule', b'A. S ::= "a" \xff', refused(b'utf8', 13)),
    ('a word without its last quote', b'A. S ::= "a ;', syntax(9)),
    ('a word without its first quote', b'A. S ::= a" ;', syntax(9)),
    ('no label', b'S ::= "a" ;', syntax(2)),
    ('no dot', b'A S ::= "a" ;', syntax(2)),
    ('no category', b'A. ::= "a" ;', syntax(3)),
    ('another sign for `::=`', b'A. S := "a" ;', syntax(5)),
    ('a white byte inside `::=`', b'A. S : := "a" ;', syntax(5)),
    ('a token behind a word', b'A. S ::= "a" . ;', syntax(13)),
    ('a token behind two categories', b'A. S ::= S S . ;', syntax(13)),
    ('a zero byte between tokens', b'A.\x00S ::= "a" ;', syntax(2)),
    ('empty definitions are not counted', b' ; ;; A. S ::= "a" ; \n; A. S ::= T ;', unknown(b'T', 1)),
    ('a difference of two characters in turn', b"token T ('a' 'b') - 'a' ;", refused(b'difference', 18)),
    ('the first of two faults', b'A. S ::= "a" ; B. S ::= s ; C. S ::= t ;', syntax(24)),
    ('1,025 rules', b'A. S ::= "a" ;' * 1025, refused(b'rules', 1025)),
    ('1,030 rules', b'A. S ::= "a" ;' * 1030, refused(b'rules', 1030)),
    ('1,025 rules, a fault in the fourth', b'A. S ::= "a" ;' * 3 + b'B. S ::= s ;' + b'A. S ::= "a" ;' * 1021, syntax(51)),
    ('1,025 rules, a fault in the last', b'A. S ::= "a" ;' * 1024 + b'B. S ::= s ;', syntax(14345)),
    ('1,025 rules, the last with an empty right side', b'A. S ::= "a" ;' * 1024 + b'B. S ::= ;', refused(b'rules', 1025)),
    ('1,025 rules by one macro', b'coercions E 1024 ;', refused(b'rules', 1025)),
    ('2,050 symbols by one macro', b'coercions E 1022 ;', symbols(2050)),
    ('the symbols of 1,024 rules by one macro', b'coercions E 1023 ;', symbols(2052)),
    ('two categories without a white byte are one', b'A. S ::= "a" ; P. S ::= SS ;', unknown(b'SS', 1)),
    ('an unknown category', b'A. S ::= S T ;', unknown(b'T', 0)),
    ('an unknown category on the left', b'A. S ::= "a" ; B. S ::= T S ;', unknown(b'T', 1)),
    ('the leftmost of two unknown categories', b'A. S ::= U T ;', unknown(b'U', 0)),
    ('the first definition that names an unknown category', b'A. S ::= S U ; B. S ::= T S ;', unknown(b'U', 0)),
    ('a category in other case is unknown', b'A. Exp ::= "a" ; B. Exp ::= Exp EXP ;', unknown(b'EXP', 1)),
    ('a label is no category', b'One. S ::= "a" ; P. S ::= S One ;', unknown(b'One', 1)),
    ('a fault of syntax stands before an unknown category', b'A. S ::= T T ; B. S ::= s ;', syntax(24)),
    ('a fault of syntax stands before a cycle', b'A. S ::= S ; B. S ::= s ;', syntax(22)),
    ('an unknown category of 64 bytes', b'P. S ::= S ' + N64 + b' ;', unknown(N64, 0)),
    ('an unknown category behind an empty right side', b'A. S ::= ; B. S ::= "a" S T ;', unknown(b'T', 1)),
    ('an unknown category behind a cycle', b'A. S ::= S ; B. S ::= "a" T ;', unknown(b'T', 1)),
    ('an unknown category that is a right side', b'A. S ::= T ;', unknown(b'T', 0)),
    ('an unknown category behind many items', b'A. S ::= ' + b'S ' * 2048 + b'T ;', unknown(b'T', 0)),
    ('a category that is its own right side', b'A. S ::= S ;', cyclic(b'S')),
    ('a category that is its own right side, and has a word', b'A. S ::= "a" ; B. S ::= S ;', cyclic(b'S')),
    ('a category that is its own right side, and an empty one', b'A. S ::= "a" ; B. S ::= S ; C. S ::= ;', cyclic(b'S')),
    ('a category of 64 bytes that is its own right side', b'A. ' + N64 + b' ::= ' + N64 + b' ;', cyclic(N64)),
    ('a category beside itself that derives the empty span', b'Two. A ::= A A ; Nil. A ::= ;', cyclic(b'A')),
    ('a category three times that derives the empty span', b'A. S ::= S S S ; B. S ::= ;', cyclic(b'S')),
    ('a category between two that derive the empty span', b'A. S ::= N S N ; B. S ::= "s" ; C. N ::= ;', cyclic(b'S')),
    ('a category beside one that a later rule makes empty', b'A. S ::= T S ; B. T ::= "t" ; C. T ::= ;', cyclic(b'S')),
    ('a category beside one that is empty by two others', b'A. S ::= P S ; B. P ::= Q R ; C. Q ::= ; D. R ::= ; E. S ::= "s" ;', cyclic(b'S')),
    ('a cycle over two categories', b'A. S ::= T ; B. T ::= S ; C. T ::= "t" ;', cyclic(b'S')),
    ('a cycle over two categories by an empty span', b'A. S ::= T T ; B. T ::= S ; C. T ::= ;', cyclic(b'S')),
    ('a category that leads to a cycle and is not on it', b'A. S ::= T ; B. T ::= U ; C. U ::= T ;', cyclic(b'T')),
    ('a category that has a word before a cycle', b'A. S ::= "s" T ; B. T ::= U ; C. U ::= T ;', cyclic(b'T')),
    ('a cycle over three categories', b'A. S ::= T ; B. T ::= U ; C. U ::= S ; D. U ::= "u" ;', cyclic(b'S')),
    ('the least number of three, whose rule is not the first', b'A. S ::= U ; B. T ::= U ; C. U ::= V ; D. V ::= T ;', cyclic(b'U')),
    ('the lesser of two cycles', b'A. S ::= "a" ; B. T ::= T ; C. U ::= U ;', cyclic(b'T')),
    ('the lesser of two cycles, whose rule is the later', b'A. S ::= "s" U T ; B. T ::= T ; C. U ::= U ;', cyclic(b'U')),
    ('a cycle of the last of many rules', b'A. S ::= "a" ;' * 1023 + b'B. S ::= S ;', cyclic(b'S')),
    ('a cycle with 2,049 symbols', b'A. S ::= ' + b'S ' * 2048 + b'; B. S ::= ;', cyclic(b'S')),
    ('2,049 symbols of one rule', b'A. S ::= ' + b'S ' * 2048 + b';', symbols(2049)),
    ('2,049 symbols, one of them a kind', b'A. S ::= ' + b'"a" ' * 2047 + b';', symbols(2049)),
    ('1,024 states of 1,022 kinds', b'A. S ::= ' + words(1022) + b';', STATES),
    ('1,024 states of one word', b'A. S ::= "' + b'x' * 1022 + b'" ;', STATES),
    ('1,024 states of two words', b'A. S ::= "' + b'x' * 500 + b'" "y' + b'x' * 521 + b'" ;', STATES),
    ('1,026 states, and 2,049 symbols', b'A. S ::= ' + words(1024) + b';', STATES),
    ('1,024 states, and an unknown category', b'A. S ::= "' + b'x' * 1022 + b'" ; B. S ::= T ;', unknown(b'T', 1)),
    ('1,024 states, and a cycle', b'A. S ::= "' + b'x' * 1022 + b'" ; B. S ::= S ;', cyclic(b'S')),
    ('2,050 symbols of many rules', b'A. S ::= "a" S ;' * 1024, symbols(2050)),
]:
    case('refused: ' + name, with_grammar(grammar, b'open 0\n\nend\n'), wanted, 2)

case('refused: the input ends behind the grammar', with_grammar(b'A. S ::= s ;', b''), syntax(9), 2)
case('refused: the input ends behind a cyclic grammar', with_grammar(b'A. S ::= S ;', b''), cyclic(b'S'), 2)
case('refused: a break behind a cyclic grammar has no effect', with_grammar(b'A. S ::= S ;', b'hass S\n'), cyclic(b'S'), 2)
case('refused: a break behind the grammar has no effect', with_grammar(b'A. S ::= S T ;', b'hass S\n'), unknown(b'T', 0), 2)

# ---- More questions on small grammars.

for name, more, replies, status in [
    ('a break behind the entry and a category', b'has\nhas S\nhas S \nend\n', b'yes\nyes\nscript refused 75\n', 3),
    ("a question's word for a category over the whole text", b'has has\nend\n', b'refused category\nend\n', 0),
    ('a span that ends behind the text', b'has S 0 3\nend\n', b'refused span 2\nend\n', 0),
]:
    case(name, HGO + more, OPENED + replies, status)

for name, more, replies in [
    ('an empty text with questions', b'open 0\n\nhas\nhas S\nhas T\nhas S 0 0\nhas S 0 1\nend\n',
     b'version 0 tokens 0\nno\nno\nrefused category\nno\nrefused span 0\nend\n'),
    ('a text of one LF', b'open 1\n\n\nhas\nhas S 0 0\nend\n', b'version 0 tokens 0\nno\nno\nend\n'),
    ('words side by side', b'open 3\naaa\nhas\nhas S\nhas S 0 3\nend\n', b'version 0 tokens 3\nyes\nyes\nyes\nend\n'),
    ('a stray byte between words', b'open 3\na?a\nhas\nhas S\nhas S 0 1\nhas S 1 2\nhas S 0 3\nhas S 2 3\nend\n',
     b'version 0 tokens 3\nno\nno\nyes\nno\nno\nyes\nend\n'),
]:
    case(name, HG + more, RULES + replies, 0)

PAIR = b'Pair. S ::= A B ; NoA. A ::= ; NoB. B ::= ; OneA. A ::= "a" ;'
PAIR_RULES = b'grammar rules 4 categories 3 kinds 1\nversion 0 tokens 1\n'
NO_RULES = b'grammar rules 0 categories 0 kinds 0\nversion 0 tokens 1\n'
for name, grammar, more, replies in [
    ('a grammar without rules has no entry', b'', b'open 1\na\nhas\nhas S\nhas S 0 9\nend\n',
     NO_RULES + b'refused category\n' * 3 + b'end\n'),
    ('a grammar without rules has no empty span', b'', b'open 1\na\nhas S 0 0\nhas S 1 1\nhas\nend\n',
     NO_RULES + b'refused category\n' * 3 + b'end\n'),
    ('a chain of three categories', b'A. S ::= T ; B. T ::= U ; C. U ::= "u" ;',
     b'open 1\nu\nhas\nhas T\nhas U\nhas S 0 0\nhas U 1 1\nend\n',
     b'grammar rules 3 categories 3 kinds 1\nversion 0 tokens 1\nyes\nyes\nyes\nno\nno\nend\n'),
    ('brackets eight deep', b'W. S ::= "(" S ")" ; E. S ::= ;',
     b'open 16\n(((((((())))))))\nhas\nhas S 1 15\nhas S 7 9\nhas S 8 8\nhas S 0 15\nhas S 1 16\nhas S 6 9\nend\n',
     b'grammar rules 2 categories 1 kinds 2\nversion 0 tokens 16\nyes\nyes\nyes\nyes\nno\nno\nno\nend\n'),
    ('two categories that derive the empty span', PAIR,
     b'open 1\na\nhas S 0 0\nhas B\nhas S 0 2\nhas T 0 0\nhas S\nhas S 1 1\nhas\nhas A\nhas A 0 0\nhas B 1 1\nhas B 0 1\nend\n',
     PAIR_RULES + b'yes\nno\nrefused span 1\nrefused category\nyes\nyes\nyes\nyes\nyes\nyes\nno\nend\n'),
    ('a span in each wrong way', PAIR,
     b'open 1\na\nhas S 1 0\nhas S 0 2\nhas S 2 2\nhas S 2 1\nhas S 3 2\nhas T 2 1\nend\n',
     PAIR_RULES + b'refused span 1\n' * 5 + b'refused category\nend\n'),
]:
    case(name, with_grammar(grammar, more), replies, 0)

# ---- First trees, worked by hand: by the least rule, then by the shortest first item.

SUM = b'Add. E ::= E "+" E ; N. E ::= T ; token T digit+ ;'
for name, grammar, counted, text, tokens, questions, answers in [
    ('the shorter first item', SUM, (2, 1, 2), b'1+2+3', 5,
     b'tree\ntree E 2 5\ntree E 0 1\ntree T 0 1\ntree E 0 2\ntree E 1 1\ntree T 1 2\ntree T 0 5\n',
     b'(Add (N T:1) (Add (N T:2) (N T:3)))\n(Add (N T:2) (N T:3))\n(N T:1)\nT:1\nnone\nnone\nnone\nnone\n'),
    ('the lesser rule before the shorter item', b'Two. S ::= A S ; One. S ::= A ; A. A ::= "a" ; AA. A ::= "a" "a" ;',
     (4, 2, 1), b'aa', 2, b'tree\ntree A\ntree S 1 2\n', b'(Two (A) (One (A)))\n(AA)\n(One (A))\n'),
    ('a rule without a label of its own hands its child on', b'_. S ::= "(" S ")" ; _. S ::= T ; token T letter ;',
     (2, 1, 3), b'((x))', 5, b'tree\ntree S 2 3\ntree S 0 4\n', b'T:x\nT:x\nnone\n'),
    ('an empty span', b'P. S ::= A B ; Q. S ::= ; R. A ::= ; X. B ::= "b" ; Y. B ::= ;', (5, 3, 1), b'b', 1,
     b'tree S 0 0\ntree S 1 1\ntree S\ntree A\ntree A 1 1\ntree B 0 0\n',
     b'(P (R) (Y))\n(P (R) (Y))\n(P (R) (X))\nnone\n(R)\n(Y)\n'),
    ('the hidden choice between empty siblings', b'P. S ::= A A ; X. A ::= "x" ; E. A ::= ;', (3, 2, 1), b'x', 1,
     b'tree\ntree S 0 0\n', b'(P (E) (X))\n(P (E) (E))\n'),
    ('tokens that are escaped', b"A. S ::= T ; token T '\\\\' char ;", (1, 1, 1), b'\\\x7f', 1, b'tree\ntree T\n',
     b'(A T:\\\\\\x7f)\nT:\\\\\\x7f\n'),
    ('each refusal, and the category before the span', SUM, (2, 1, 2), b'1+', 2,
     b'tree F\ntree E 0 3\ntree E 1 0\ntree F 0 3\ntree F 1 0\ntree T 3 3\ntree + 0 1\ntree\n',
     b'refused category\nrefused span 2\nrefused span 2\nrefused category\nrefused category\nrefused span 2\nrefused category\nnone\n'),
    ('no entry', b'', (0, 0, 0), b'', 0, b'tree\ntree S\ntree S 1 0\n', b'refused category\n' * 3),
    ('a stray token', b'A. S ::= "a" ;', (1, 1, 1), b'?', 1, b'tree\ntree S 0 0\n', b'none\nnone\n'),
    ('lists', b'L. S ::= "(" [A] ")" ; A. A ::= T ; separator A "," ; token T letter+ ;', None, b'(a,bc)', 5,
     b'tree\ntree [A] 1 4\ntree [A] 1 2\ntree [A] 1 1\ntree [A] 1 3\ntree A 3 4\n',
     b'(L [(A T:a), (A T:bc)])\n[(A T:a), (A T:bc)]\n[(A T:a)]\n[]\n[(A T:a)]\n(A T:bc)\n'),
]:
    counted = counted or (5, 3, 4)
    case('tree: ' + name, with_grammar(grammar, open_text(text) + questions + END),
         counts(*counted) + version(tokens) + answers + b'end\n', 0)

# A tree of the empty text has 8,388,607 nodes for A0, and half as many and no root for A1.
DOUBLED = b''.join(b'N%d. A%d ::= A%d A%d ;' % (n, n, n + 1, n + 1) for n in range(22)) + b'N22. A22 ::= ;'
PRINTED = b'(N22)'
for n in range(21, 0, -1):
    PRINTED = b'(N%d %b %b)' % (n, PRINTED, PRINTED)
for name, rules, question, answer in [
    ('4,194,304 nodes', b'Top. B ::= A1 ;', b'tree B', b'(Top %b)' % PRINTED),
    ('one node too many', b'Top. B ::= A1 ; Over. C ::= B ;', b'tree C', b'refused tree'),
    ('twice as many nodes', b'', b'tree A0', b'refused tree'),
]:
    more = rules.count(b';')
    case('tree: ' + name, with_grammar(DOUBLED + rules, open_text(b'') + question + b'\n' + END),
         counts(23 + more, 23 + more, 0) + version(0) + answer + b'\nend\n', 0)

# ---- Texts that are opened and edited.

for name, steps in edit_sessions.ROWS:
    case('edits: ' + name, HG + b''.join(command for command, _ in steps) + END,
         RULES + b''.join(reply + b'\n' for _, reply in steps) + END, 0)

for name, grammar, line, steps in edit_sessions.OTHERS:
    case('edits: ' + name, with_grammar(grammar, b''.join(command for command, _ in steps) + END),
         b'grammar ' + line + b'\n' + b''.join(reply + b'\n' for _, reply in steps) + END, 0)

# ---- Grammar files by their lines, and questions on some of them.

for file, line in grammar_files.ROWS:
    refuses = line.startswith(b'refused')
    case('the file ' + repr(file[:60]), with_grammar(file, b'open 0\n\nend\n'),
         b'grammar ' + line + (b'\n' if refuses else b'\nversion 0 tokens 0\nend\n'), 2 if refuses else 0)

for file, line, text, tokens, questions, answers in grammar_files.ASKED:
    case('asked: ' + repr(file[:60]), with_grammar(file, open_text(text) + b'\n'.join(questions + [END])),
         b'grammar ' + line + b'\n' + version(tokens) + b'\n'.join(answers + [END]), 0)


def run(command):
    passed, failed = 0, 0
    for name, given, wanted, status in CASES:
        done = subprocess.run(command, input=given, stdout=subprocess.PIPE, check=False)
        if (done.stdout, done.returncode) == (wanted, status):
            passed += 1
            continue
        failed += 1
        print(f'FAILED {name}')
        print(f'  wanted {wanted[-200:]!r} and status {status}')
        print(f'  got    {done.stdout[-200:]!r} and status {done.returncode}')
    print(f'{passed} passed, {failed} failed')
    return 1 if failed else 0


if __name__ == '__main__':
    if sys.argv[1:]:
        sys.exit(run(sys.argv[1:]))
    print(__doc__)
    sys.exit(2)
