#!/usr/bin/env python3
"""First trees of ambiguous grammars made at random, held against plain enumeration.

    python3 tests/trees.py CMD [ARG ..] [--trees N] [--seed S]

makes grammars of a few rules with words, a kind of token, lists and rules without a label of their
own, and short texts, and asks for the tree of each symbol over each span. All trees of the symbol
are listed, and the first of them, by rule, then by the ends of the items from the left, then by the
subtrees in turn, is the one that has to be printed. Cyclic grammars, which are refused, are left
out. It goes on until N answers have been chosen among two trees or more, and prints
`N passed, M failed`.
"""
import itertools
import random
import subprocess
import sys

import compared

WORDS = ['"a"', '"b"']
TOKEN = 'T'
CATEGORIES = ['A', 'B', 'C']
MOST_TREES = 3000


class Grammar:
    """Rules in order, each a label, a category and its items: words in quotes, `T`, categories."""

    def __init__(self, rules):
        self.rules = rules
        self.by_category = {}
        for number, (_, category, _) in enumerate(rules):
            self.by_category.setdefault(category, []).append(number)
        self.nullable = set()
        size = -1
        while size < len(self.nullable):
            size = len(self.nullable)
            for _, category, items in rules:
                if all(item in self.nullable for item in items):
                    self.nullable.add(category)

    def text(self):
        lines = [f'{label}. {category} ::= {" ".join(items)} ;' for label, category, items in self.rules]
        return '\n'.join(lines + [f"token {TOKEN} 'x' ;"])

    def is_whole(self):
        """Whether each category that is named has a rule."""
        return all(item in WORDS or item == TOKEN or item in self.by_category
                   for _, _, items in self.rules for item in items)

    def is_cyclic(self):
        """Whether a category steps to itself: by one item, the others being nullable."""
        steps = {category: set() for category in self.by_category}
        for _, category, items in self.rules:
            for place, item in enumerate(items):
                others = items[:place] + items[place + 1:]
                if item in steps and all(other in self.nullable for other in others):
                    steps[category].add(item)
        for start in steps:
            seen, front = set(), [start]
            while front:
                for target in steps[front.pop()]:
                    if target not in seen:
                        seen.add(target)
                        front.append(target)
            if start in seen:
                return True
        return False


class Trees:
    """All trees of a grammar over the tokens of a text; a tree is a rule's number, the ends of its
    items and its subtrees, and a leaf is its place."""

    def __init__(self, grammar, tokens):
        self.grammar, self.tokens, self.known = grammar, tokens, {}
        self.derived = set()
        size = -1
        while size < len(self.derived):
            size = len(self.derived)
            for _, category, items in grammar.rules:
                for i in range(len(tokens) + 1):
                    for j in range(i, len(tokens) + 1):
                        if any(True for _ in self.cuts(items, i, j)):
                            self.derived.add((category, i, j))

    def derives(self, symbol, i, j):
        if symbol in WORDS or symbol == TOKEN:
            return j == i + 1 and self.tokens[i] == symbol
        return (symbol, i, j) in self.derived

    def cuts(self, items, i, j):
        """The ends of the items, in each way in which they derive adjacent spans."""
        if not items:
            if i == j:
                yield ()
            return
        for k in range(i, j + 1):
            if self.derives(items[0], i, k):
                for ends in self.cuts(items[1:], k, j):
                    yield (k,) + ends

    def count(self, symbol, i, j):
        return len(self.all_of(symbol, i, j))

    def all_of(self, symbol, i, j):
        if (symbol, i, j) not in self.known:
            self.known[symbol, i, j] = list(itertools.islice(self.listed(symbol, i, j), MOST_TREES + 1))
        return self.known[symbol, i, j]

    def listed(self, symbol, i, j):
        if not self.derives(symbol, i, j):
            return
        if symbol in WORDS or symbol == TOKEN:
            yield i
            return
        for number in self.grammar.by_category[symbol]:
            items = self.grammar.rules[number][2]
            for ends in self.cuts(items, i, j):
                begins = (i,) + ends[:-1]
                parts = [self.all_of(*part) for part in zip(items, begins, ends)]
                for subtrees in itertools.product(*parts):
                    yield number, ends, subtrees


def order(tree):
    """The place of a tree among those of one symbol and span."""
    if isinstance(tree, int):
        return ()
    number, ends, subtrees = tree
    return number, ends, tuple(order(subtree) for subtree in subtrees)


def shown(grammar, tokens, tree):
    """A tree as it is printed: None of a word, a list of elements, or a text."""
    if isinstance(tree, int):
        return f'{TOKEN}:x' if tokens[tree] == TOKEN else None
    number, _, subtrees = tree
    label = grammar.rules[number][0]
    children = [shown(grammar, tokens, subtree) for subtree in subtrees]
    children = [child for child in children if child is not None]
    if label == '_':
        return children[0]
    if label == '[]':
        return []
    if label == '(:[])':
        return [as_text(children[0])]
    if label == '(:)':
        return [as_text(children[0])] + children[1]
    return '(' + ' '.join([label] + [as_text(child) for child in children]) + ')'


def as_text(child):
    return child if isinstance(child, str) else '[' + ', '.join(child) + ']'


def made(chance):
    """A grammar made at random: rules of plain categories, and those of one list."""
    categories = CATEGORIES[:chance.randrange(1, 4)]
    symbols = WORDS + [TOKEN] + categories * 2
    listed = f'[{chance.choice(categories)}]' if chance.random() < 0.4 else None
    if listed:
        symbols.append(listed)
    rules = []
    for category in categories + [chance.choice(categories) for _ in range(chance.randrange(1, 6))]:
        if chance.random() < 0.2:
            items = [chance.choice([TOKEN] + categories)]
            items += [chance.choice(WORDS)] if chance.random() < 0.3 else []
            rules.append(('_', category, items))
        else:
            items = [chance.choice(symbols) for _ in range(chance.choice([0, 1, 1, 2, 2, 2, 3]))]
            rules.append((f'R{len(rules)}', category, items))
    if listed:
        comma = [chance.choice(WORDS)] if chance.random() < 0.5 else []
        of_list = [('[]', listed, []), ('(:[])', listed, [listed[1:-1]]),
                   ('(:)', listed, [listed[1:-1]] + comma + [listed])]
        rules += chance.sample(of_list, chance.randrange(1, 4))
    chance.shuffle(rules)
    return Grammar(rules)


def cases(seed, wanted):
    """Grammars and texts, each with its questions and their answers, until so many answers are
    chosen among two trees or more."""
    chance = random.Random(seed)
    found, chosen = [], 0
    while chosen < wanted:
        grammar = made(chance)
        if not grammar.is_whole() or grammar.is_cyclic():
            continue
        tokens = [chance.choice(WORDS + [TOKEN]) for _ in range(chance.randrange(0, 6))]
        trees = Trees(grammar, tokens)
        asked = []
        for symbol in list(grammar.by_category) + [TOKEN]:
            for i in range(len(tokens) + 1):
                for j in range(i, len(tokens) + 1):
                    count = trees.count(symbol, i, j)
                    if count > MOST_TREES:
                        continue
                    first = min(trees.all_of(symbol, i, j), key=order, default=None)
                    answer = 'none' if first is None else as_text(shown(grammar, tokens, first))
                    asked.append((f'tree {symbol} {i} {j}', answer))
                    chosen += count > 1
        found.append((grammar.text(), tokens, asked))
    return found


def fault(command, case):
    """What is wrong with the replies to the questions, or None."""
    grammar, tokens, asked = case
    text = ' '.join(token.strip('"') if token != TOKEN else 'x' for token in tokens)
    script = (f'script 1\ngrammar {len(grammar)}\n{grammar}\nopen {len(text)}\n{text}\n'
              + ''.join(question + '\n' for question, _ in asked) + 'end\n')
    run = subprocess.run(command, input=script.encode(), capture_output=True, timeout=60)
    lines = run.stdout.decode().split('\n')
    if run.returncode != 0 or len(lines) != len(asked) + 4:
        return f'status {run.returncode}, {run.stdout!r}'
    for (question, answer), line in zip(asked, lines[2:]):
        if line != answer:
            return f'{question}: {line!r} in place of {answer!r}'
    return None


if __name__ == '__main__':
    sys.exit(compared.run(__doc__, 'trees', 2500, cases, fault))
