#!/usr/bin/env python3
"""The tables of docs/FROM-BNFC.md, row by row, on both programs.

    python3 tests/from_bnfc.py CMD [ARG ..]     runs CMD on each row, and prints `N passed, M failed`

CMD reads a script from standard input, as `bin/lbnfchart serve` does. The files of the first table
are accepted by it, and refused by `bnfc`; those of the second the other way round, with the line that
stands in the row; those of the third are accepted by both, and the text gets the answers of the row.
Where `bnfc`, or `alex`, `happy` and `ghc` to build its parsers, are not installed, this side is left
out, and a line says so. The parsers take some minutes.
"""
import pathlib
import re
import shutil
import subprocess
import sys
import tempfile

# What builds a parser of the file Language.cf.
PARSER = ['bnfc --haskell Language.cf', 'alex LexLanguage.x', 'happy ParLanguage.y', 'ghc -O0 TestLanguage.hs -o Test']
HAS_BNFC = shutil.which('bnfc') is not None
HAS_PARSERS = all(shutil.which(words.split()[0]) for words in PARSER)
PAGE = pathlib.Path(__file__).resolve().parent.parent / 'docs' / 'FROM-BNFC.md'


def cells(line):
    """The cells of a table's row."""
    return [cell.strip().replace('\\|', '|') for cell in re.split(r'(?<!\\)\|', line)[1:-1]]


def rows(title):
    """The rows of the first table behind the title."""
    section = PAGE.read_text(encoding='utf-8').split('\n## ' + title + '\n')[1].split('\n## ')[0]
    return [cells(line) for line in section.split('\n') if line.startswith('|')][2:]


def spelled(cell):
    """The bytes that a cell shows."""
    if cell == '(an empty file)':
        return b''
    text = cell.split('`')[1].replace('⇥', '\t').replace('⏎', '\n')
    return re.sub(r'(.)×(\d+)', lambda m: m[1] * int(m[2]), text).encode()


def refused_by_bnfc(grammar):
    """Whether `bnfc` refuses the file."""
    with tempfile.TemporaryDirectory() as folder:
        (pathlib.Path(folder) / 'Language.cf').write_bytes(grammar)
        run = subprocess.run(['bnfc', '--haskell', 'Language.cf'], cwd=folder, capture_output=True, check=False)
        return run.returncode != 0


def read_by_bnfc(grammar, text):
    """Whether the parser that `bnfc` makes of the file reads the text."""
    with tempfile.TemporaryDirectory() as folder:
        (pathlib.Path(folder) / 'Language.cf').write_bytes(grammar)
        (pathlib.Path(folder) / 'text').write_bytes(text)
        for words in PARSER:
            subprocess.run(words.split(), cwd=folder, capture_output=True, check=True)
        env = {'LC_ALL': 'C.UTF-8'}
        run = subprocess.run(['./Test', 'text'], cwd=folder, env=env, capture_output=True, check=False)
        return b'Parse Successful' in run.stdout


def replies(command, grammar, text):
    """The replies of a session that opens the text and asks whether its entry derives it."""
    script = b'script 1\ngrammar %d\n%b\nopen %d\n%b\nhas\nend\n' % (len(grammar), grammar, len(text), text)
    run = subprocess.run(command, input=script, capture_output=True, check=False)
    return run.stdout.decode().split('\n')


def looks(command):
    """What is looked at, row by row: a name, and whether it is as the row says."""
    for file, _, _ in rows('Taken here alone'):
        grammar = spelled(file)
        yield file, replies(command, grammar, b'')[0].startswith('grammar rules ')
        yield file + ' by bnfc', not HAS_BNFC or refused_by_bnfc(grammar)
    for file, _, line in rows('Taken there alone'):
        grammar = spelled(file)
        yield file, replies(command, grammar, b'')[0] == spelled(line).decode()
        yield file + ' by bnfc', not HAS_BNFC or not refused_by_bnfc(grammar)
    for file, text, answer, there in rows('Taken by both and read differently'):
        grammar = spelled(file)
        yield file, replies(command, grammar, spelled(text))[2:3] == [spelled(answer).decode()]
        yield file + ' by bnfc', not HAS_BNFC or not refused_by_bnfc(grammar)
        if HAS_PARSERS and there.startswith(('`yes`', '`no`')):
            yield file + ' by its parser', read_by_bnfc(grammar, spelled(text)) == (spelled(there) == b'yes')


def main():
    found = list(looks(sys.argv[1:]))
    faults = [name for name, is_so in found if not is_so]
    for name in faults:
        print('FAILED ' + name)
    if not HAS_BNFC:
        print('bnfc is not installed: its side of each row was not run')
    elif not HAS_PARSERS:
        print('alex, happy or ghc is not installed: no parser of bnfc was run')
    print(f'{len(found) - len(faults)} passed, {len(faults)} failed')
    return 1 if faults else 0


if __name__ == '__main__':
    sys.exit(main())
