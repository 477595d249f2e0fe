"""All trees that operators and operands can be, and which of them fit a table."""

import collections
import itertools
import re

Operator = collections.namedtuple("Operator", "role precedence symbol")
Tree = collections.namedtuple("Tree", "operator operands")
TABLE = re.compile(r'^table +(\w+) +(\d) +"([^"]+)";', re.MULTILINE)


def table_of(grammar):
    return [Operator(role, int(precedence), symbol) for role, precedence, symbol in TABLE.findall(grammar)]


def is_unary(tree):
    return tree.operator is not None and len(tree.operands) == 1


def trees(tokens, table):
    """Every tree with these tokens, from left to right, whether it fits or not."""
    if len(tokens) == 1 and tokens[0].isdigit():
        yield Tree(None, tokens)
    for operator in table:
        if operator.role == "prefix" and tokens[:1] == [operator.symbol]:
            yield from (Tree(operator, [operand]) for operand in trees(tokens[1:], table))
        elif operator.role == "postfix" and tokens[-1:] == [operator.symbol]:
            yield from (Tree(operator, [operand]) for operand in trees(tokens[:-1], table))
        elif operator.role.startswith("infix"):
            for at in (at for at, token in enumerate(tokens) if token == operator.symbol):
                sides = itertools.product(trees(tokens[:at], table), trees(tokens[at + 1 :], table))
                yield from (Tree(operator, list(both)) for both in sides)


def takes(operator, side, operand):
    """Whether the operand may stand on this side of the operator: it binds tighter, or it is one of those of its own row."""
    if operand.operator is None or operand.operator.precedence > operator.precedence:
        return True
    if operand.operator.precedence < operator.precedence or operator.role == "prefix":
        return False
    if operator.role == "postfix":
        return operand.operator.role == "prefix"
    own = ("infixl", "infixr")[side]
    return is_unary(operand) or operator.role == operand.operator.role == own


def fits(tree):
    if tree.operator is None:
        return True
    return all(fits(one) and takes(tree.operator, side, one) for side, one in enumerate(tree.operands))


def printed(tree):
    """What the builders of the grammar make of a tree."""
    if tree.operator is None:
        return {"kids": tree.operands, "node": "num"}
    return {"kids": [printed(one) for one in tree.operands], "node": tree.operator.symbol}


def fitting(text, table):
    """The trees of a text. An operator is all the operator characters that stand together."""
    tokens = re.findall(r"[0-9]+|[^0-9]+", text)
    return [[printed(tree)] for tree in trees(tokens, table) if fits(tree)]
