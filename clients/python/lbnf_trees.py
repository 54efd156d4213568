"""Printed trees, read back and shown in lines."""
from __future__ import annotations

import re
from collections.abc import Iterable, Iterator
from dataclasses import dataclass, field

from lbnfchart import Token

MOST_INDENT = 60                            # columns, so that a deep tree has no endless lines
LABEL = re.compile(r'\(([A-Za-z0-9_\']+)')


@dataclass
class Node:
    """A part of a printed tree, from `start` to `end` in it. `head` is what it begins with before its
    first child, `(Label` or `[`; a token has its whole text there, and no children."""

    head: str
    start: int
    end: int = 0
    children: list[Node] = field(default_factory=list)

    @property
    def close(self) -> str:
        """What it ends with behind its last child."""
        return {'(': ')', '[': ']'}.get(self.head[0], '')


def read_tree(printed: str, tokens: Iterable[Token]) -> Node:
    """Reads a tree that was printed of these tokens, words and stray ones among them.

    The text of a token may look like a part of a tree. So each leaf is read by the next token.
    """
    leaves = (str(token) for token in tokens if token.kind != 'word')
    whole = Node('(', 0)
    inside, at = [whole], 0
    while at < len(printed):
        if printed[at] in ' ,':
            at += 1
        elif printed[at] in ')]':
            at += 1
            inside.pop().end = at
        else:
            label = LABEL.match(printed, at)
            is_leaf = label is None and printed[at] != '['
            node = Node(label.group() if label else next(leaves) if is_leaf else '[', at)
            at += len(node.head)
            node.end = at
            inside[-1].children.append(node)
            if not is_leaf:
                inside.append(node)
    return whole.children[0]


def lines_of(printed: str, tree: Node, width: int) -> Iterator[str]:
    """The tree in lines: a part that has room in one line of the width is printed in one, and else
    each child of it in lines of its own, two columns further in, up to `MOST_INDENT`."""
    left = [(tree, 0, '')]
    while left:
        node, indent, behind = left.pop()
        if not node.children or indent + node.end - node.start + len(behind) <= width:
            yield ' ' * indent + printed[node.start:node.end] + behind
            continue
        yield ' ' * indent + node.head
        comma = ',' if node.head == '[' else ''
        inner = min(indent + 2, MOST_INDENT)
        *others, last = node.children
        left.append((last, inner, node.close + behind))
        left += [(child, inner, comma) for child in reversed(others)]
