"""Sessions in which texts are opened and edited, worked out by hand: commands in any order, each
refusal of a text or an edit, two refusals at once, and the limits.

Those of ROWS stand under the grammar of `a` and its sequences, so `a` is a word, white space gives
no token, and each other scalar is a stray token. ROWS has each session's name and its commands, each
with its reply. OTHERS has, between name and commands, a grammar and the line that accepts it.
"""

MOST_BYTES = 1_048_576
MOST_TOKENS = 16_384

# A text of as many bytes as it may have, one of a byte more, and one of a token too many.
FULL = b' ' * MOST_BYTES
LONG = FULL + b' '
MANY = b'?' * (MOST_TOKENS + 1)

E_ACUTE, EURO, FACE = b'\xc3\xa9', b'\xe2\x82\xac', b'\xf0\x9f\x98\x80'


def opens(text):
    return b'open %d\n%b\n' % (len(text), text)


def edit(at, deleted, inserted=b''):
    return b'edit %d %d %d\n%b\n' % (at, deleted, len(inserted), inserted)


def version(number, tokens):
    return b'version %d tokens %d' % (number, tokens)


CLOSED, OPEN, FULL_LINE = b'refused closed', b'refused open', b'refused full'
HAS, TREE, TOKENS = b'has\n', b'tree\n', b'tokens\n'

ROWS = [
    # ---- Commands in any order.
    ('the end behind the grammar', []),
    ('a text that is opened twice', [
        (opens(b'a a'), version(0, 2)), (opens(b'a'), OPEN), (HAS, b'yes'), (opens(b'a a'), OPEN),
        (TOKENS, b'tokens 2 word:a word:a')]),
    ('questions before the text', [
        (HAS, CLOSED), (b'has S\n', CLOSED), (b'has S 0 0\n', CLOSED), (TREE, CLOSED), (b'tree S\n', CLOSED),
        (b'tree S 0 0\n', CLOSED), (TOKENS, CLOSED), (b'tokens 0 0\n', CLOSED)]),
    ('questions before and behind the text', [
        (HAS, CLOSED), (TOKENS, CLOSED), (opens(b'a'), version(0, 1)), (HAS, b'yes'), (TREE, b'(One)')]),
    ('edits before the text', [
        (edit(0, 0), CLOSED), (edit(0, 0, b'a'), CLOSED), (opens(b''), version(0, 0)),
        (edit(0, 0, b'a'), version(1, 1)), (HAS, b'yes')]),
    ('a question between each two edits', [
        (opens(b'a'), version(0, 1)), (TREE, b'(One)'), (edit(1, 0, b'a'), version(1, 2)), (TREE, b'(Cat (One) (One))'),
        (edit(0, 0, b'?'), version(2, 3)), (TREE, b'none'), (b'tree S 1 3\n', b'(Cat (One) (One))'),
        (edit(0, 2), version(3, 1)), (TREE, b'(One)'), (b'has S 0 2\n', b'refused span 1')]),
    ('texts that are refused, and then one that is opened', [
        (opens(b'\xff'), b'refused utf8 0'), (HAS, CLOSED), (edit(0, 0), CLOSED), (opens(MANY), FULL_LINE), (TOKENS, CLOSED),
        (opens(LONG), FULL_LINE), (opens(b'a'), version(0, 1)), (opens(b'\xff'), OPEN), (HAS, b'yes')]),
    ('only what is not refused has a number', [
        (edit(0, 0, b'a'), CLOSED), (opens(b'\xff'), b'refused utf8 0'), (opens(b'a'), version(0, 1)), (opens(b''), OPEN),
        (edit(2, 0), b'refused range 1'), (edit(1, 0, b'a'), version(1, 2)), (edit(0, 0, b'\xff'), b'refused utf8 0'),
        (edit(0, 0, LONG), FULL_LINE), (edit(0, 2), version(2, 0)), (edit(0, 0, MANY), FULL_LINE),
        (edit(0, 0), version(3, 0))]),
    ('twelve versions', [(opens(b''), version(0, 0))] + [
        (edit(count, 0, b'a'), version(count + 1, count + 1)) for count in range(11)]),
    # ---- Places of edits.
    ('at the start, in the middle and at the end', [
        (opens(b'a a'), version(0, 2)), (edit(0, 0, b'?'), version(1, 3)), (edit(2, 0, b'!'), version(2, 4)),
        (edit(5, 0, b'-'), version(3, 5)), (TOKENS, b'tokens 5 stray:? word:a stray:! word:a stray:-')]),
    ('of nothing', [
        (opens(b'a a'), version(0, 2)), (edit(0, 0), version(1, 2)), (edit(1, 0), version(2, 2)), (edit(3, 0), version(3, 2)),
        (edit(4, 0), b'refused range 3'), (TOKENS, b'tokens 2 word:a word:a')]),
    ('of an empty text', [
        (opens(b''), version(0, 0)), (edit(0, 0), version(1, 0)), (edit(0, 1), b'refused range 0'),
        (edit(1, 0), b'refused range 0'), (edit(1, 0, b'a'), b'refused range 0'), (edit(0, 0, b'aa'), version(2, 2))]),
    ('of everything', [
        (opens(b'a a'), version(0, 2)), (edit(0, 3, b'aaa'), version(1, 3)), (edit(0, 3), version(2, 0)), (HAS, b'no'),
        (TOKENS, b'tokens 0'), (edit(0, 0, b'a'), version(3, 1)), (edit(0, 1, b'a'), version(4, 1)), (HAS, b'yes')]),
    ('up to the end, and one byte too far', [
        (opens(b'a a'), version(0, 2)), (edit(0, 4), b'refused range 3'), (edit(1, 3), b'refused range 3'),
        (edit(3, 1), b'refused range 3'), (edit(1, 2, b'?'), version(1, 2)), (edit(1, 2), b'refused range 2'),
        (TOKENS, b'tokens 2 word:a stray:?')]),
    ('numbers of nine digits', [
        (opens(b'a a'), version(0, 2)), (edit(999_999_999, 999_999_999), b'refused range 3'),
        (edit(999_999_999, 0), b'refused range 3'), (edit(0, 999_999_999), b'refused range 3'),
        (edit(999_999_999, 999_999_999, b'a'), b'refused range 3'), (edit(3, 0), version(1, 2))]),
    ('tokens that are cut apart and joined', [
        (opens(b'a'), version(0, 1)), (edit(0, 1, b'?a?'), version(1, 3)), (edit(1, 1, b' '), version(2, 2)),
        (edit(1, 1, b'\n\n'), version(3, 2)), (edit(1, 2), version(4, 2)), (TOKENS, b'tokens 2 stray:? stray:?')]),
    ('a block that looks like commands', [
        (opens(b'end\n'), version(0, 3)), (edit(0, 4, b'a\nend\nhas\n'), version(1, 7)),
        (edit(1, 9, b'\n' * 9), version(2, 1)), (HAS, b'yes')]),
    # ---- Scalars that are cut: 0 1 3 4, 0 1 4 5 and 0 1 5 6 are the places where none is.
    ('a cut scalar of two bytes', [
        (opens(b'a' + E_ACUTE + b'a'), version(0, 3)), (edit(2, 0), b'refused utf8 2'), (edit(2, 1), b'refused utf8 2'),
        (edit(2, 2), b'refused utf8 2'), (edit(0, 2), b'refused utf8 2'), (edit(1, 1), b'refused utf8 2'),
        (TOKENS, b'tokens 3 word:a stray:\xc3\xa9 word:a'), (edit(1, 0), version(1, 3)), (edit(3, 0), version(2, 3)),
        (edit(1, 2), version(3, 2)), (HAS, b'yes')]),
    ('a cut scalar of three bytes', [
        (opens(b'a' + EURO + b'a'), version(0, 3)), (edit(2, 0), b'refused utf8 2'), (edit(3, 0), b'refused utf8 3'),
        (edit(2, 1), b'refused utf8 2'), (edit(2, 2), b'refused utf8 2'), (edit(3, 1), b'refused utf8 3'),
        (edit(1, 1), b'refused utf8 2'), (edit(1, 2), b'refused utf8 3'), (edit(0, 3), b'refused utf8 3'),
        (edit(1, 3), version(1, 2)), (HAS, b'yes')]),
    ('a cut scalar of four bytes', [
        (opens(b'a' + FACE + b'a'), version(0, 3)), (edit(2, 0), b'refused utf8 2'), (edit(3, 0), b'refused utf8 3'),
        (edit(4, 0), b'refused utf8 4'), (edit(2, 2), b'refused utf8 2'), (edit(3, 1), b'refused utf8 3'),
        (edit(4, 2), b'refused utf8 4'), (edit(1, 1), b'refused utf8 2'), (edit(1, 2), b'refused utf8 3'),
        (edit(1, 3), b'refused utf8 4'), (edit(0, 4), b'refused utf8 4'), (edit(1, 4), version(1, 2)), (HAS, b'yes')]),
    ('two scalars that are cut', [
        (opens(E_ACUTE + EURO + FACE), version(0, 3)), (edit(1, 2), b'refused utf8 1'), (edit(3, 3), b'refused utf8 3'),
        (edit(4, 4), b'refused utf8 4'), (edit(1, 7), b'refused utf8 1'), (edit(0, 8), b'refused utf8 8'),
        (edit(1, 8), b'refused utf8 1'), (edit(2, 3), version(1, 2)), (edit(0, 6), version(2, 0))]),
    ('a byte that would complete a scalar', [
        (opens(E_ACUTE), version(0, 1)), (edit(1, 1, b'\xa9'), b'refused utf8 1'), (edit(0, 1, b'\xc3'), b'refused utf8 1'),
        (edit(0, 0, b'\xc3'), b'refused utf8 0'), (edit(2, 0, b'\xa9'), b'refused utf8 2'), (edit(0, 2, EURO), version(1, 1)),
        (TOKENS, b'tokens 1 stray:\xe2\x82\xac')]),
    # ---- Two refusals at once: the first in order is told.
    ('no text, and all else', [
        (edit(9, 9), CLOSED), (edit(0, 0, LONG), CLOSED), (edit(0, 0, b'\xff'), CLOSED), (edit(0, 0, MANY), CLOSED),
        (b'has T\n', CLOSED), (b'has S 1 0\n', CLOSED), (b'tree T 1 0\n', CLOSED), (b'tokens 9 8\n', CLOSED)]),
    ('an open text, and all else', [
        (opens(b'a'), version(0, 1)), (opens(LONG), OPEN), (opens(b'\xff'), OPEN), (opens(MANY), OPEN),
        (edit(1, 0, b'a'), version(1, 2))]),
    ('out of range, and all else', [
        (opens(E_ACUTE), version(0, 1)), (edit(3, 0, LONG), b'refused range 2'), (edit(3, 0, FULL), b'refused range 2'),
        (edit(1, 2), b'refused range 2'), (edit(0, 3, b'\xff'), b'refused range 2'), (edit(1, 9, b'\xff'), b'refused range 2'),
        (edit(3, 0, MANY), b'refused range 2'), (edit(2, 0), version(1, 1))]),
    ('too many bytes, and all behind it', [
        (opens(E_ACUTE), version(0, 1)), (edit(1, 0, FULL), FULL_LINE), (edit(0, 1, FULL), FULL_LINE),
        (edit(1, 1, FULL), FULL_LINE), (edit(0, 0, b'\xff' * MOST_BYTES), FULL_LINE), (edit(0, 2, b'\xff' * (MOST_BYTES + 1)), FULL_LINE),
        (edit(1, 0, LONG), FULL_LINE), (edit(1, 1, b'\xff' * (MOST_BYTES - 1)), b'refused utf8 1'), (edit(2, 0), version(1, 1))]),
    ('a scalar that is cut first, and all behind it', [
        (opens(E_ACUTE + E_ACUTE), version(0, 2)), (edit(1, 2), b'refused utf8 1'), (edit(1, 0, b'a\xff'), b'refused utf8 1'),
        (edit(1, 1, b'a\xff'), b'refused utf8 1'), (edit(1, 0, MANY), b'refused utf8 1'), (edit(4, 0), version(1, 2))]),
    ('a scalar that is cut last, and all behind it', [
        (opens(E_ACUTE + E_ACUTE), version(0, 2)), (edit(0, 1, b'\xff'), b'refused utf8 1'), (edit(0, 3, b'aa\xff'), b'refused utf8 3'),
        (edit(0, 1, MANY), b'refused utf8 1'), (edit(2, 1, MANY), b'refused utf8 3'), (edit(4, 0), version(1, 2))]),
    ('a block that is no UTF-8 and has too many tokens', [
        (opens(MANY + b'\xff'), b'refused utf8 16385'), (opens(b'\xff' + MANY), b'refused utf8 0'), (opens(b'a'), version(0, 1)),
        (edit(1, 0, MANY + b'\xff'), b'refused utf8 16386'), (edit(0, 1, b'\xff' + MANY), b'refused utf8 0'), (HAS, b'yes')]),
    ('an unknown category, and a bad span', [
        (opens(b'a'), version(0, 1)), (b'has T 1 0\n', b'refused category'), (b'tree T 0 9\n', b'refused category')]),
    # ---- Limits.
    ('as many bytes as there may be', [
        (opens(FULL), version(0, 0)), (edit(0, 0, b' '), FULL_LINE), (edit(MOST_BYTES, 0, b'a'), FULL_LINE),
        (edit(0, 1, b'aa'), FULL_LINE), (edit(0, 1, b'a'), version(1, 1)), (edit(MOST_BYTES - 1, 1, b'a'), version(2, 2)),
        (edit(MOST_BYTES + 1, 0), b'refused range 1048576'), (edit(MOST_BYTES, 1), b'refused range 1048576'),
        (edit(1, MOST_BYTES), b'refused range 1048576'), (edit(MOST_BYTES, 0), version(3, 2)), (HAS, b'yes'),
        (edit(1, MOST_BYTES - 1), version(4, 1)), (HAS, b'yes')]),
    ('a byte more than there may be', [
        (opens(LONG), FULL_LINE), (TOKENS, CLOSED), (opens(b' ' + FULL[1:]), version(0, 0))]),
    ('a byte less than there may be', [
        (opens(FULL[1:]), version(0, 0)), (edit(0, 0, b'aa'), FULL_LINE), (edit(0, 0, b'a'), version(1, 1)),
        (edit(1, 0, b'a'), FULL_LINE), (edit(0, 1), version(2, 0))]),
    ('blocks of as many bytes as there may be, and one more', [
        (opens(b'a'), version(0, 1)), (edit(0, 0, FULL), FULL_LINE), (edit(1, 0, FULL), FULL_LINE), (edit(0, 1, LONG), FULL_LINE),
        (edit(0, 0, FULL[1:]), version(1, 1)), (edit(0, MOST_BYTES, FULL), version(2, 0)), (edit(0, MOST_BYTES, LONG), FULL_LINE),
        (edit(0, MOST_BYTES, FULL), version(3, 0)), (TOKENS, b'tokens 0'), (edit(0, MOST_BYTES, b'a'), version(4, 1))]),
    ('larger blocks, in which nothing is read as a command', [
        (opens(b'end\n' * 300_000), FULL_LINE), (opens(b'a'), version(0, 1)), (edit(0, 1, b'end\n' * 300_000), FULL_LINE),
        (opens(b'\n' * 5_000_000), OPEN), (edit(2, 0, b'\xff' * 5_000_000), b'refused range 1'), (HAS, b'yes')]),
    ('full of scalars of four bytes', [
        (opens(FACE * (MOST_TOKENS + 1)), FULL_LINE), (opens(FACE * MOST_TOKENS), version(0, MOST_TOKENS)),
        (edit(0, 0, FACE), FULL_LINE), (edit(1, 0), b'refused utf8 1'), (edit(4 * MOST_TOKENS - 3, 3), b'refused utf8 65533'),
        (edit(0, 4 * MOST_TOKENS), version(1, 0))]),
    ('as many tokens as there may be', [
        (opens(MANY[1:]), version(0, MOST_TOKENS)), (edit(0, 0, b'?'), FULL_LINE), (edit(MOST_TOKENS, 0, b'a'), FULL_LINE),
        (edit(5, 1, b'a'), version(1, MOST_TOKENS)), (edit(5, 0, b' \n'), version(2, MOST_TOKENS)), (edit(0, 1, b'??'), FULL_LINE),
        (b'tokens 5 6\n', b'tokens 1 word:a'), (b'tokens 16384 16385\n', b'refused span 16384'),
        (edit(0, 1), version(3, MOST_TOKENS - 1)), (edit(0, 0, b'a'), version(4, MOST_TOKENS)), (b'has S 0 1\n', b'yes')]),
    ('a token more than there may be', [
        (opens(MANY), FULL_LINE), (opens(b' ' + MANY[1:]), version(0, MOST_TOKENS)), (edit(0, 1, b'?'), FULL_LINE),
        (edit(0, 1), version(1, MOST_TOKENS))]),
    ('too many tokens at once', [
        (opens(b'a'), version(0, 1)), (edit(0, 0, MANY[1:]), FULL_LINE), (edit(0, 1, MANY), FULL_LINE),
        (edit(0, 1, MANY[1:]), version(1, MOST_TOKENS)), (edit(0, MOST_TOKENS, b'a'), version(2, 1)), (HAS, b'yes')]),
]

# Bytes that are no UTF-8, and the first byte of the sequence that is wrong or cut short.
for bad, place in [
    (b'\x80', 0), (b'\xbf', 0), (b'a\x80', 1), (E_ACUTE + b'\x80', 2), (EURO + b'\xbf', 3), (FACE + b'\x80', 4),
    (b'\xc2', 0), (b'a\xc2', 1), (b'\xc2a', 0), (b'\xc2\xc2\x80', 0), (b'\xdf\x7f', 0), (b'\xdf\xc0', 0), (E_ACUTE + b'\xc3', 2),
    (b'\xe2', 0), (b'\xe2\x82', 0), (b'a\xe2\x82', 1), (b'\xe2\x82a', 0), (b'\xe2a\x82', 0), (b'\xe2\x82\xc0', 0), (EURO + b'\xe2\x82', 3),
    (b'\xf0', 0), (b'\xf0\x9f', 0), (b'\xf0\x9f\x98', 0), (b'a\xf0\x9f\x98', 1), (b'\xf0\x9f\x98a', 0), (b'\xf0\x9fa\x98', 0),
    (b'\xf0a\x9f\x98', 0), (FACE + b'\xf0\x9f\x98', 4),
    # Forms that are longer than need be.
    (b'\xc0\x80', 0), (b'\xc0\xaf', 0), (b'\xc1\xbf', 0), (b'\xe0\x80\x80', 0), (b'\xe0\x9f\xbf', 0), (b'aa\xe0\x9f\xbf', 2),
    (b'\xf0\x80\x80\x80', 0), (b'\xf0\x8f\xbf\xbf', 0), (b'a\xf0\x8f\xbf\xbf', 1),
    # Surrogates, and scalars above 10FFFF.
    (b'\xed\xa0\x80', 0), (b'\xed\xbf\xbf', 0), (b'\xed\xa0\xbd\xed\xb8\x80', 0), (b'aaa\xed\xaf\xbf', 3),
    (b'\xf4\x90\x80\x80', 0), (b'\xf5\x80\x80\x80', 0), (b'a\xf7\xbf\xbf\xbf', 1), (b'\xf8\x88\x80\x80\x80', 0), (b'\xfe', 0), (b'\xff', 0),
]:
    ROWS.append((f'bytes that are no UTF-8, {bad!r}', [
        (opens(bad), b'refused utf8 %d' % place), (opens(b'aa'), version(0, 2)),
        (edit(0, 0, bad), b'refused utf8 %d' % place), (edit(1, 0, bad), b'refused utf8 %d' % (place + 1)),
        (edit(2, 0, bad), b'refused utf8 %d' % (place + 2)), (edit(1, 1, bad), b'refused utf8 %d' % (place + 1)),
        (TOKENS, b'tokens 2 word:a word:a'), (edit(2, 0, b'a'), version(1, 3))]))

# The least and the greatest scalar of each length, and those around the surrogates.
for scalar, told in [
    (b'\x00', b'\\x00'), (b'\x7f', b'\\x7f'), (b'\xc2\x80', None), (b'\xdf\xbf', None), (b'\xe0\xa0\x80', None), (b'\xed\x9f\xbf', None),
    (b'\xee\x80\x80', None), (b'\xef\xbb\xbf', None), (b'\xef\xbf\xbf', None), (b'\xf0\x90\x80\x80', None), (b'\xf4\x8f\xbf\xbf', None),
]:
    told = told or scalar
    ROWS.append((f'the scalar {scalar!r}', [
        (opens(scalar), version(0, 1)), (TOKENS, b'tokens 1 stray:' + told), (edit(len(scalar), 0, b'a' + scalar), version(1, 3)),
        (TOKENS, b'tokens 3 stray:%b word:a stray:%b' % (told, told)), (edit(0, len(scalar)), version(2, 2)),
        (b'has S 0 1\n', b'yes'), (edit(0, 1 + len(scalar)), version(3, 0))]))

OTHERS = [
    ('a word that an edit cuts and joins', b'A. S ::= "a" ; B. S ::= "ab" ; C. S ::= "b" ;', b'rules 3 categories 1 kinds 3', [
        (opens(b'ab'), version(0, 1)), (TREE, b'(B)'), (edit(1, 0, b' '), version(1, 2)), (TOKENS, b'tokens 2 word:a word:b'),
        (TREE, b'none'), (edit(1, 1), version(2, 1)), (TREE, b'(B)'), (edit(1, 1), version(3, 1)), (TREE, b'(A)'),
        (edit(0, 0, b'ab'), version(4, 2)), (b'tree S 0 1\n', b'(B)'), (edit(1, 2), version(5, 1)), (TREE, b'(A)')]),
    ('a number that becomes one of another kind', b'I. S ::= Integer ; D. S ::= Double ;', b'rules 2 categories 1 kinds 2', [
        (opens(b'1.x'), version(0, 3)), (TOKENS, b'tokens 3 Integer:1 stray:. stray:x'), (TREE, b'none'),
        (edit(2, 1, b'5'), version(1, 1)), (TREE, b'(D Double:1.5)'), (edit(1, 1), version(2, 1)), (TREE, b'(I Integer:15)'),
        (edit(1, 0, b'.'), version(3, 1)), (edit(2, 0, b'e'), version(4, 4)), (TOKENS, b'tokens 4 Integer:1 stray:. stray:e Integer:5'),
        (edit(2, 0, b'0'), version(5, 1)), (TREE, b'(D Double:1.0e5)')]),
    ('a comment that is opened and closed', b'comment "/*" "*/" ; Cat. S ::= S S ; One. S ::= "a" ;', b'rules 2 categories 1 kinds 1', [
        (opens(b'a a'), version(0, 2)), (edit(1, 0, b'/*'), version(1, 4)), (TOKENS, b'tokens 4 word:a stray:/ stray:* word:a'),
        (edit(5, 0, b'*/'), version(2, 1)), (HAS, b'yes'), (edit(5, 1), version(3, 5)), (HAS, b'no'), (edit(5, 0, b'*'), version(4, 1)),
        (edit(2, 1), version(5, 5)), (TOKENS, b'tokens 5 word:a stray:/ word:a stray:* stray:/')]),
    ('a line comment that is opened and ended', b'comment "#" ; Cat. S ::= S S ; One. S ::= "a" ;', b'rules 2 categories 1 kinds 1', [
        (opens(b'a a'), version(0, 2)), (edit(1, 0, b'#'), version(1, 1)), (edit(2, 0, b'\n'), version(2, 2)),
        (edit(2, 1, b'\xc3\xa9'), version(3, 1)), (edit(1, 1), version(4, 3)), (TOKENS, b'tokens 3 word:a stray:\xc3\xa9 word:a')]),
    ('a list that grows and shrinks', b'L. S ::= "(" [A] ")" ; A. A ::= T ; separator A "," ; token T letter+ ;', b'rules 5 categories 3 kinds 4', [
        (opens(b'()'), version(0, 2)), (TREE, b'(L [])'), (edit(1, 0, b'a'), version(1, 3)), (TREE, b'(L [(A T:a)])'),
        (edit(2, 0, b',bc'), version(2, 5)), (TREE, b'(L [(A T:a), (A T:bc)])'), (edit(2, 1), version(3, 3)), (TREE, b'(L [(A T:abc)])'),
        (edit(1, 3), version(4, 2)), (TREE, b'(L [])'), (edit(1, 1), version(5, 1)), (TREE, b'none')]),
    ('a grammar without rules', b'', b'rules 0 categories 0 kinds 0', [
        (HAS, CLOSED), (opens(b'a'), version(0, 1)), (HAS, b'refused category'), (edit(0, 1), version(1, 0)),
        (HAS, b'refused category'), (TOKENS, b'tokens 0')]),
]
