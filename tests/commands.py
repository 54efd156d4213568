#!/usr/bin/env python3
"""The commands bin/lbnf-parse and bin/lbnf-check, and how they read grammars, on the built program.

    python3 tests/commands.py PROGRAM

PROGRAM is the built program alone, as `crates/lbnfchart/out/lbnfchart`. How grammars are read is held
against notation.py, and the warnings against the tables of docs/FROM-BNFC.md.
"""
from __future__ import annotations

import pathlib
import re
import subprocess
import sys
import tempfile
import unittest

import from_bnfc
import notation

ROOT = pathlib.Path(__file__).resolve().parents[1]
sys.path.insert(0, str(ROOT / 'clients' / 'python'))

import lbnf_notation

PROGRAM = ''
EXAMPLES = ROOT / 'examples'
NAMES = ['json', 'imperative', 'lambda', 'lbnf']

# Grammars that are refused, with what is shown of them behind the file's name.
REFUSED = [
    (b' ' * 70_000, ':1:1: refused: the file has 70,000 bytes, more than 65,536'),
    (b'A. S ::= "a" ;\nB. S ::= \xff', ':2:10: refused: the file is not UTF-8\n  B. S ::= �\n           ^'),
    (b'A. S ::= "a" ;\nF E ::= "b" ;', ':2:3: refused: E cannot stand here\n  F E ::= "b" ;\n    ^'),
    (b'A. S ::= "a', ':1:10: refused: this string has no end on its line, or a wrong escape\n  A. S ::= "a\n           ^'),
    (b'A. S ::= "a\\r" ;', ':1:10: refused: the escapes are \\" \\\' \\\\ \\n \\t\n  A. S ::= "a\\r" ;\n           ^'),
    (b'A. S\n', ':2:1: refused: the file ends within a definition\n  \n  ^'),
    ('A. É ::= ;'.encode(), ":1:4: refused: 'É' begins no token of the notation\n  A. É ::= ;\n     ^"),
    (b'\tA. S ;', ':1:7: refused: the definition before this ; is not finished\n  \tA. S ;\n  \t     ^'),
    (b'A. S ::= {- a', ':1:10: refused: this comment has no end\n  A. S ::= {- a\n           ^'),
    (b'token T ' + b'(' * 65, ':1:73: refused: at most 64 brackets are open at a time'),
    (b"token T 'a'+++++++++", ':1:20: refused: at most 8 of the signs * + ? stand in a row'),
    (b"token T char" + b"-'a'" * 9, ':1:45: refused: a chain of differences has at most 8 signs'),
    (b'A. ' + b'[' * 64 + b'E' + b']' * 64, ':1:4: refused: a category has at most 128 bytes'),
    (b'A' * 65, ':1:1: refused: a name has at most 64 bytes'),
    (b'coercions E 00001', ':1:13: refused: a number has at most four digits'),
    (b'layout "of" ;', ':1:1: refused: `layout` is not supported'),
    (b'add. E ::= "+" ;', ':1:1: refused: `add` begins no definition, and a label begins in upper case'),
    (b'F ([],[]) . E ::= ;', ':1:3: refused: a label with a profile is not supported'),
    (b"token T ('a' 'b') - 'a' ;", ':1:19: refused: the left side of a difference is a class'),
    (b';\nA. S ::= "a" ;\n_. S ::= "b" ;', ':3:1: refused: a rule with the label _ has one item that is no word'),
    (b'coercions E 0 ;', ':1:1: refused: coercions has one level or more'),
    (b'A. S ::= ;\n(:). [E] ::= E ;', ':2:1: refused: a rule of lists has the label [] and no category'),
    (b'coercions E 1024 ;', ':1:1: refused: the definitions stand for 1,025 rules, more than 1,024'),
    (b"token T 'a' ;\n token T 'b' ;", ':2:8: refused: T is a token, and is defined once more; it stands in lines 1 and 2'),
    (b'\nA. Ident ::= "b" ;', ':2:1: refused: Ident is a token, and is defined once more; it stands in line 2'),
    (b'A. S ::= "a" T ;\nB. S ::= T ;\nC. S ::= T ;', ':1:14: refused: T is no category of a rule and no token; '
     'it stands in lines 1, 2 and 3'),
    (b'terminator Foo ";" ;', ':1:12: refused: Foo is no category of a rule and no token; it stands in line 1'),
    (b'A. S ::= T ;\n\nB. T ::= S ;\nC. T ::= ;', ':1:1: refused: S derives itself, by rules whose other items may be empty; '
     'it stands in lines 1 and 3'),
    (b'A. S ::= "' + b'x' * 1_022 + b'" ;', ':1:1: refused: the words, tokens and comments need more than 1,023 states'),
    (b'coercions E 1023 ;', ':1:1: refused: the categories, kinds of token and items of all rules are 2,052'),
]

# Texts that JSON does not derive, with all that is printed of them, where `FILE` is the text's name.
UNDERIVED = [
    (b'{ "a": 1,\n\t"b" 2 }\n', '''\
FILE: Value does not derive the 8 tokens from 0 up to 8
at the beginning [Member] derives the 3 tokens from 1 up to 4
FILE:1:9: behind it stands word:,
  { "a": 1,
          ^
at the end Value derives the token 6
FILE:2:6: here it begins
  \t"b" 2 }
  \t    ^
'''),
    (b'[1, ?, 2', '''\
FILE: Value does not derive the 6 tokens from 0 up to 6
FILE:1:5: no token of the grammar is '?'
  [1, ?, 2
      ^
at the beginning [Value] derives the token 1
FILE:1:3: behind it stands word:,
  [1, ?, 2
    ^
at the end Value derives the token 5
FILE:1:8: here it begins
  [1, ?, 2
         ^
'''),
    (b'[1', '''\
FILE: Value does not derive the 2 tokens from 0 up to 2
at the beginning [Value] derives the token 1
FILE:1:3: behind it is the end
  [1
    ^
at the end Value derives the token 1
FILE:1:2: here it begins
  [1
   ^
'''),
    (b' ', 'FILE: Value does not derive the empty text\n'),
    (b'}{', '''\
FILE: Value does not derive the 2 tokens from 0 up to 2
no part at the beginning is derived by: Value
no part at the end is derived by: Value
'''),
]

READS = 'the BNF Converter reads '
# Accepted grammars, with the places and the words of their warnings.
WARNED = [
    (b'A. S ::= "a" ;\nB. T ::= "b" ;', [(':2:1', 'no entry reaches T')]),
    (b'A. S ::= T "a" ;\nB. T ::= T "b" ;', [(':1:1', 'S derives no text'), (':2:1', 'T derives no text')]),
    (b'A. S ::= "a" ; internal B. T ::= S ;', []),
    (b'A. S ::= "a" E02 "b\tc" ;\nB. E02 ::= [E] ;\nseparator E ", ;" ; C. E ::= ;', [
        (':1:14', READS + 'E02 without the zeros of its level; here it is a category of its own'),
        (':1:18', READS + 'this string as cut at all white space; here spaces alone cut it'),
        (':2:4', READS + 'E02 without the zeros of its level; here it is a category of its own'),
        (':3:13', READS + 'this string with its spaces, as one symbol; here spaces cut it into words'),
    ]),
]


def ran(command: str, *words: str) -> subprocess.CompletedProcess[str]:
    """A command that has ended."""
    line = [str(ROOT / 'bin' / command), '--program', PROGRAM, *words]
    return subprocess.run(line, capture_output=True, encoding='utf-8', check=False)


class WithFiles(unittest.TestCase):
    """Tests that write files."""

    def setUp(self) -> None:
        folder = tempfile.TemporaryDirectory()
        self.addCleanup(folder.cleanup)
        self.folder = pathlib.Path(folder.name)

    def file(self, name: str, data: bytes) -> str:
        path = self.folder / name
        path.write_bytes(data)
        return str(path)


class Parse(WithFiles):
    """bin/lbnf-parse."""

    def test_trees_of_the_examples(self) -> None:
        for name in NAMES:
            run = ran('lbnf-parse', f'{EXAMPLES / name}.cf', f'{EXAMPLES / name}.txt')
            self.assertEqual((run.returncode, run.stderr), (0, ''))
            self.assertLessEqual(max(map(len, run.stdout.split('\n'))), 100)
            self.assertEqual(re.sub(r'\n *', ' ', run.stdout[:-1]).replace('[ (', '[('), self.tree(name))

    def tree(self, name: str) -> str:
        """The tree of an example, printed by the program as one line."""
        script = subprocess.run(['bash', str(EXAMPLES / 'script.sh'), name], capture_output=True, check=True).stdout
        front = script[:script.index(b'\nhas\n')]
        run = subprocess.run([PROGRAM, 'serve'], input=front + b'\ntree\nend\n', capture_output=True, check=False)
        return run.stdout.decode().split('\n')[2]

    def test_a_token_that_looks_like_a_tree(self) -> None:
        text = self.file('text', b'["a) (b", "c, d]", "Text:\\\\"]')
        run = ran('lbnf-parse', f'{EXAMPLES}/json.cf', text)
        self.assertEqual(run.stdout, '(Array [(Text Text:"a) (b"), (Text Text:"c, d]"), (Text Text:"Text:\\\\\\\\")])\n')

    def test_a_deep_tree(self) -> None:
        text = self.file('text', b'[' * 40 + b']' * 40)
        run = ran('lbnf-parse', f'{EXAMPLES}/json.cf', text)
        self.assertEqual((run.returncode, run.stdout.count('(Array')), (0, 39))
        self.assertLess(max(map(len, run.stdout.split('\n'))), 200)

    def test_tokens(self) -> None:
        grammar = self.file('grammar', b'A. S ::= "a" ; comment "//" ; comment "/*" "*/" ;')
        text = self.file('text', '/* a */ é // a\n\t a/ /* a'.encode())
        run = ran('lbnf-parse', '--tokens', grammar, text)
        self.assertEqual(run.stdout, '0 1:9 stray:é\n1 2:3 word:a\n2 2:4 stray:/\n3 2:6 stray:/\n4 2:7 stray:*\n5 2:9 word:a\n')
        run = ran('lbnf-parse', '--tokens', '--from', '1', '--to', '2', grammar, text)
        self.assertEqual(run.stdout, '1 2:3 word:a\n')

    def test_spans(self) -> None:
        words = [f'{EXAMPLES}/json.cf', f'{EXAMPLES}/json.txt', '--from', '7', '--to', '14']
        self.assertEqual(ran('lbnf-parse', *words).returncode, 0)
        self.assertEqual(ran('lbnf-parse', *words, '--category', 'Member').returncode, 1)

    def test_texts_that_are_not_derived(self) -> None:
        for data, shown in UNDERIVED:
            text = self.file('text', data)
            run = ran('lbnf-parse', f'{EXAMPLES}/json.cf', text)
            self.assertEqual((run.returncode, run.stdout, run.stderr), (1, shown.replace('FILE', text), ''))

    def test_refusals(self) -> None:
        for data, shown in [
            (b'"a\xff"', ':1:3: the text is not UTF-8\n  "a�"\n    ^\n'),
            (b' ' * 1_048_577, ': a text has at most 1,048,576 bytes and 16,384 tokens\n'),
        ]:
            text = self.file('text', data)
            run = ran('lbnf-parse', f'{EXAMPLES}/json.cf', text)
            self.assertEqual((run.returncode, run.stdout, run.stderr), (2, '', text + shown))

    def test_wrong_words(self) -> None:
        files = [f'{EXAMPLES}/json.cf', f'{EXAMPLES}/json.txt']
        for words in (
            [], files[:1], ['--no', *files], ['--from', '1', *files], ['--from', '1', '--to', '99', *files],
            ['--from', '-1', '--to', '1', *files], ['--category', 'No', *files], ['--category', 'N o', *files],
            [files[0], 'no such file'], ['no such file', files[1]], [files[0], str(ROOT)],
            ['--program', 'no such program', *files], [self.file('empty', b''), files[1]],
        ):
            run = ran('lbnf-parse', *words)
            self.assertEqual((run.returncode, run.stdout), (3, ''), words)
            self.assertNotIn('Traceback', run.stderr)


class Check(WithFiles):
    """bin/lbnf-check."""

    def test_rules_of_the_examples(self) -> None:
        for name in NAMES:
            run = ran('lbnf-check', '--strict', f'{EXAMPLES / name}.cf')
            self.assertEqual((run.returncode, run.stderr), (0, ''))
            self.assertEqual(run.stdout, self.rules((EXAMPLES / f'{name}.cf').read_bytes()))

    def rules(self, data: bytes) -> str:
        """The lines of the rules, by notation.py."""
        rules = [rule for read in notation.definitions_of(data) for rule in notation.rules_of(read)]
        lines = []
        for number, (label, category, items) in enumerate(rules):
            shown = ['"' + text.replace('\\', '\\\\') + '"' if sort == 'word' else text for sort, text in items]
            lines.append(' '.join([str(number), label, category, '::=', *shown]) + '\n')
        return ''.join(lines)

    def test_refused_grammars(self) -> None:
        for data, shown in REFUSED:
            with self.subTest(shown):
                grammar = self.file('grammar', data)
                run = ran('lbnf-check', grammar)
                self.assertEqual((run.returncode, run.stdout), (2, ''))
                self.assertEqual(run.stderr[:len(grammar + shown)], grammar + shown)
        run = ran('lbnf-parse', grammar, grammar)
        self.assertEqual((run.returncode, run.stdout), (2, ''))

    def test_warnings(self) -> None:
        for data, wanted in WARNED:
            grammar = self.file('grammar', data)
            run = ran('lbnf-check', grammar)
            found = re.findall(r'^(?:.*/grammar)(:\d+:\d+): warning: (.*)$', run.stderr, re.MULTILINE)
            self.assertEqual((run.returncode, found), (0, wanted))
            self.assertEqual(ran('lbnf-check', '--strict', grammar).returncode, 1 if wanted else 0)

    def test_what_bnfc_refuses(self) -> None:
        for file, *_ in from_bnfc.rows('Taken here alone'):
            run = ran('lbnf-check', '--strict', self.file('grammar', from_bnfc.spelled(file)))
            self.assertEqual((run.returncode, 'warning: the BNF Converter refuses' in run.stderr), (1, True), file)

    def test_wrong_words(self) -> None:
        for words in ([], ['no such file'], [str(ROOT)], ['--no', f'{EXAMPLES}/json.cf']):
            run = ran('lbnf-check', *words)
            self.assertEqual((run.returncode, run.stdout), (3, ''), words)
            self.assertNotIn('Traceback', run.stderr)


class Notation(unittest.TestCase):
    """How grammars are read: as notation.py reads them."""

    def test_each_accepted_file(self) -> None:
        files = [path.read_bytes() for folder in (EXAMPLES, ROOT / 'tests' / 'grammars') for path in folder.glob('*.cf')]
        titles = ['Taken here alone', 'Taken by both and read differently']
        files += [from_bnfc.spelled(row[0]) for title in titles for row in from_bnfc.rows(title)]
        files += [data[:at] for data in files for at in range(0, len(data), 7)]
        for data in files:
            if b'refused' not in notation.reply(data):
                found = lbnf_notation.Grammar(data.decode())
                rules = [rule for read in notation.definitions_of(data) for rule in notation.rules_of(read)]
                self.assertEqual([as_notation(rule) for rule in found.rules], rules, data)
                counts = len(found.rules), len(found.categories), len(found.kinds)
                self.assertEqual(b'grammar rules %d categories %d kinds %d' % counts, notation.reply(data))


def as_notation(rule: lbnf_notation.Rule) -> tuple[str, str, list[tuple[str, str]]]:
    """A rule as notation.py has it."""
    return rule.label, rule.category, [('word' if item.is_word else 'category', item.text) for item in rule.items]


if __name__ == '__main__':
    if len(sys.argv) != 2:
        print(__doc__)
        sys.exit(2)
    PROGRAM = str(pathlib.Path(sys.argv[1]).resolve())
    unittest.main(argv=sys.argv[:1])
