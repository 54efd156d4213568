#!/usr/bin/env python3
"""How often the search for a first tree looks into the chart, counted in a model of the search.

    python3 bench/looks.py [TOKENS ..]

writes for six families of texts, at about so many tokens, 512, 1,024 and 2,048 where none are given,
how many nodes the first tree of the whole text has, how many places are tried as the end of an item,
and how many looks are made, in all and for each token. It takes about half a minute.

The model is written after `search.rt`, `choosing.rt` and `derivation.rt` of `crates/first_tree`, over a
chart that is filled here. A look is one call of `Chart::has`; a question on an empty span is none,
since the grammar alone answers it.
"""
import pathlib
import re
import sys

ROOT = pathlib.Path(__file__).resolve().parent.parent

STATEMENTS = """\
Prog. Prog ::= [Stm] ;
terminator Stm ";" ;
Let. Stm ::= Ident "=" Exp ;
Add. Exp ::= Exp "+" Exp1 ;
Sub. Exp ::= Exp "-" Exp1 ;
Mul. Exp1 ::= Exp1 "*" Exp2 ;
Num. Exp2 ::= Integer ;
coercions Exp 2 ;
"""
SUMS = 'Add. Exp ::= Exp "+" Exp1 ;\nNum. Exp1 ::= Integer ;\ncoercions Exp 1 ;\n'
CALLS = 'Call. Exp ::= Ident "(" [Exp] ")" ;\nNum. Exp ::= Integer ;\nseparator Exp "," ;\n'
NESTS = 'Wrap. S ::= "(" S ")" ;\nEnd. S ::= ;\n'
# Its control characters are to stay as they are, with CR among them.
JSON = (ROOT / 'examples' / 'json.cf').read_bytes().decode()


def statements(tokens):
    """Assignments of a sum, a difference or a product in brackets, eight tokens each."""
    signs = '+-*'
    parts = [f'v = ( {n % 10} {signs[n % 3]} {n % 7} ) ;' for n in range(tokens // 8)]
    return ' '.join(parts).split()


def sums(tokens):
    """A sum of ones: one token fewer."""
    return ' + '.join(['1'] * (tokens // 2)).split()


def calls(tokens):
    """A call with ones as its arguments."""
    return f"f ( {' , '.join(['1'] * (tokens // 2 - 1))} )".split()


def nests(tokens):
    """Brackets around nothing."""
    return ['('] * (tokens // 2) + [')'] * (tokens // 2)


def json(tokens):
    """A list of records with a number and a list of two texts, 16 tokens each with their comma: one
    token more."""
    record = '{ "id" : 7 , "tags" : [ "a" , "b" , "c" ] }'
    return f"[ {' , '.join([record] * (tokens // 16))} ]".split()


def left_lists(tokens):
    """Lists of two values, the first of which is such a list again: one token more."""
    levels = tokens // 4
    return ['['] * levels + ['1'] + [',', '1', ']'] * levels


FAMILIES = [
    ('statements', STATEMENTS, statements),
    ('sums', SUMS, sums),
    ('separators', CALLS, calls),
    ('nests', NESTS, nests),
    ('JSON', JSON, json),
    ('left lists', JSON, left_lists),
]


def kind_of(token):
    """The kind of a token of these texts: a token kind, or its word in quotes."""
    if token[0] == '"':
        return 'Text'
    if token.isdigit():
        return 'Integer'
    return 'Ident' if token in ('v', 'f') else f'"{token}"'


def rules_of(grammar):
    """The rules that the definitions before those of tokens give, in order: of each its category and
    its items."""
    rules = []
    text = re.sub(r'--.*', '', grammar).partition('\ntoken ')[0]
    for definition in re.findall(r'(?:"[^"]*"|[^";])+;', text):
        words = re.findall(r'"[^"]*"|[^\s"]+', definition)[:-1]
        if words[0] in ('terminator', 'separator'):
            empty = 'nonempty' not in words
            element, sign = [word for word in words[1:] if word != 'nonempty']
            rules += listed(words[0], element, sign, empty)
        elif words[0] == 'coercions':
            rules += coerced(words[1], int(words[2]))
        elif words[0] != 'entrypoints':
            rules.append((words[1], words[3:]))
    return rules


def listed(form, element, sign, empty):
    """The rules of a list, of which the elements are ended or parted by the sign."""
    name = f'[{element}]'
    shortest = [] if empty else [element, sign] if form == 'terminator' else [element]
    last = [(name, [element])] if form == 'separator' and empty else []
    return [(name, shortest), *last, (name, [element, sign, name])]


def coerced(name, levels):
    """The rules from each level to the next, and from the last in brackets to the first."""
    names = [name, *(f'{name}{level}' for level in range(1, levels + 1))]
    return [*((a, [b]) for a, b in zip(names, names[1:])), (names[-1], ['"("', name, '")"'])]


class Chart:
    """For each span of the kinds that is not empty, the symbols and the suffixes that derive it. A
    suffix is the number of a rule and the place from which its items are taken."""

    def __init__(self, rules, kinds):
        self.rules, self.kinds = rules, kinds
        self.nullable = self.nullable_symbols()
        self.ups, self.joins = {}, {}
        for r, (category, items) in enumerate(rules):
            for place, item in enumerate(items):
                self.add_steps(r, place, item, category)
        self.closures = {}
        self.rows = [None] * len(kinds)
        for i in reversed(range(len(kinds))):
            self.fill(i)

    def nullable_symbols(self):
        """The symbols and suffixes that derive the empty span."""
        found, size = set(), -1
        while size < len(found):
            size = len(found)
            for r, (category, items) in enumerate(self.rules):
                for place in range(len(items) + 1):
                    if all(item in found for item in items[place:]):
                        found.add((r, place))
                if (r, 0) in found:
                    found.add(category)
        return found

    def add_steps(self, r, place, item, category):
        """What the item and the suffix from it on lead to."""
        suffix, behind = (r, place), (r, place + 1)
        self.joins.setdefault(item, []).append((behind, suffix))
        if place == 0:
            self.ups.setdefault(suffix, []).append(category)
        if behind in self.nullable:
            self.ups.setdefault(item, []).append(suffix)
        if item in self.nullable:
            self.ups.setdefault(behind, []).append(suffix)

    def closure(self, symbol):
        """The symbol, and what derives each span that it derives."""
        if symbol not in self.closures:
            found, front = {symbol}, [symbol]
            while front:
                more = [up for up in self.ups.get(front.pop(), []) if up not in found]
                found.update(more)
                front += more
            self.closures[symbol] = found
        return self.closures[symbol]

    def fill(self, i):
        """The row of the spans that begin with token i: of each end its symbols, and of each symbol
        its ends."""
        cells, ends = {i + 1: set(self.closure(self.kinds[i]))}, {}
        for end in range(i + 1, len(self.kinds) + 1):
            for symbol in cells.get(end, ()):
                ends.setdefault(symbol, []).append(end)
                for behind, suffix in self.joins.get(symbol, ()) if end < len(self.kinds) else ():
                    for last in self.rows[end][1].get(behind, ()):
                        cells.setdefault(last, set()).update(self.closure(suffix))
        self.rows[i] = (cells, ends)

    def has(self, symbol, i, j):
        """Whether the symbol or suffix derives the span, which is not empty."""
        return symbol in self.rows[i][0].get(j, ())


class Search:
    """The search for a first tree, with its looks into the chart and the places that it tries."""

    def __init__(self, rules, kinds):
        self.rules, self.chart = rules, Chart(rules, kinds)
        self.categories = {category for category, _ in rules}
        self.looks, self.places, self.nodes = 0, 0, 0

    def is_derived(self, symbol, first, end):
        if first < end:
            self.looks += 1
            return self.chart.has(symbol, first, end)
        return symbol in self.chart.nullable

    def items_derive(self, r, place, first, end):
        if place == len(self.rules[r][1]):
            return first == end
        return self.is_derived((r, place), first, end)

    def least_rule(self, category, first, end):
        for r, (own, _) in enumerate(self.rules):
            if own == category and self.items_derive(r, 0, first, end):
                return r
        raise AssertionError(category)

    def are_kinds(self, items):
        return not any(item in self.categories for item in items)

    def least_cut(self, r, place, first, end):
        item, *behind = self.rules[r][1][place:]
        if self.are_kinds([item]):
            return first + 1
        if self.are_kinds(behind):
            return end - len(behind)
        for cut in range(first, end):
            self.places += 1
            if self.is_derived(item, first, cut) and self.items_derive(r, place + 1, cut, end):
                return cut
        return end

    def find(self, symbol):
        """Goes through the first tree of the symbol over the whole text in preorder."""
        whole = (0, len(self.chart.kinds))
        assert self.is_derived(symbol, *whole)
        kept = []
        self.enter(kept, symbol, *whole)
        while kept:
            r, place, first, end = kept.pop()
            cut = self.least_cut(r, place, first, end)
            self.keep(kept, r, place + 1, cut, end)
            self.enter(kept, self.rules[r][1][place], first, cut)
        return self

    def enter(self, kept, symbol, first, end):
        self.nodes += 1
        if symbol in self.categories:
            self.keep(kept, self.least_rule(symbol, first, end), 0, first, end)

    def keep(self, kept, r, place, first, end):
        if place < len(self.rules[r][1]):
            kept.append((r, place, first, end))


def searched(grammar, tokens):
    """The search for the first tree of the first rule's category over the tokens."""
    rules = rules_of(grammar)
    kinds = [kind_of(token) for token in tokens]
    if any('Number' in items for _, items in rules):
        kinds = ['Number' if kind == 'Integer' else kind for kind in kinds]
    return Search(rules, kinds).find(rules[0][0])


def main():
    sizes = [int(word) for word in sys.argv[1:]] or [512, 1024, 2048]
    print(f"{'text':<12}{'tokens':>8}{'nodes':>8}{'places':>10}{'looks':>10}{'a token':>9}")
    for name, grammar, text in FAMILIES:
        for size in sizes:
            tokens = text(size)
            told = searched(grammar, tokens)
            print(f'{name:<12}{len(tokens):>8}{told.nodes:>8}{told.places:>10}{told.looks:>10}'
                  f'{told.looks / len(tokens):>9.2f}', flush=True)


if __name__ == '__main__':
    main()
