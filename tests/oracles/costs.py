"""Computes the step costs of grammars straight from their definition, as plainly as can be.

A step is a turn of the machine's loop. A parse of a text of n characters takes at most the step cost times n + 1; the check
(C11) refuses a grammar whose step cost is over a limit. Nothing here knows how pg_predict_costs works: numbers don't stop anywhere.
"""

import functools
import sys

from oracles.sets import only

COST_LIMIT = 4_294_967_296
DECLARE = 40
LEVELS = {"many": 1, "chainl1": 2, "chainr1": 2, "expr": 30, "declare": 4}


class Costs:
    """What the nodes of a grammar cost, by its sets. No rule may head itself."""

    def __init__(self, grammar, sets):
        self.grammar = grammar
        self.sets = sets
        self.rows = 200 * (grammar.most_operators + 10)
        self.cost = functools.cache(self.cost)

    def cost(self, number):
        """The steps of a run of the node that consumes nothing."""
        word, parts, other = self.grammar.nodes[number]
        if word == "declare":
            return DECLARE
        if word == "try" and self.is_lexeme(only(parts)):
            return 2 * (1 + self.count(only(parts)))
        reached = sum(map(self.cost, self.sets.reached_parts(number)))
        body = self.cost(self.grammar.rules[other]) if word == "rule" else 0
        return 2 + reached + body + (self.rows if word == "expr" else 0)

    def is_lexeme(self, number):
        word, parts, _ = self.grammar.nodes[number]
        inner = [self.grammar.nodes[part][0] for part in parts]
        return word in ("string", "satisfy", "word") or (word == "seq" and inner == ["string", "notFollowedBy"])

    def count(self, number):
        """How many nodes stand in the node, itself among them."""
        return 1 + sum(map(self.count, self.grammar.nodes[number][1]))

    def size(self, number):
        """What all nodes that stand in the node take, each once."""
        word, parts, other = self.grammar.nodes[number]
        if word == "declare":
            own = DECLARE
        elif word == "rule":
            own = 2 + self.cost(self.grammar.rules[other])
        elif word == "expr":
            own = 2 + self.rows + self.cost(only(parts))
        else:
            own = 2
        return own + sum(map(self.size, parts))

    def levels(self):
        return 1 + len(self.grammar.rules) + sum(LEVELS.get(word, 0) for word, _, _ in self.grammar.nodes)

    def step_cost(self):
        sizes = [self.size(body) for body in self.grammar.rules.values()]
        return self.levels() * max(sizes + [self.rows])


def step_cost(grammar, sets):
    """The step cost of a grammar; none where a rule heads itself, as then some rule has no rank."""
    if len(sets.ranks()) < len(grammar.rules):
        return None
    sys.setrecursionlimit(100_000)
    return Costs(grammar, sets).step_cost()
