"""Goes along trails as tests/oracles/replay.py does, with trees that know what their forms read.

A leaf or a node has `place`, where its form began, and `end`, where it ended. The tree of a chain or of an operator begins with its first operand, or with
the symbol before it, and ends with its last operand, or with the symbol behind it, without the gap after that.
"""

from oracles.replay import Walk, built


class Leaf(str):
    place = end = 0


class Node(dict):
    place = end = 0


def placed(tree, place, end):
    tree = Leaf(tree) if isinstance(tree, str) else Node(tree)
    tree.place, tree.end = place, end
    return tree


class Placed(Walk):
    """A walk whose trees know where they begin and end."""

    def here(self, tree, place):
        return placed(tree, place, self.place)

    def read(self, characters):
        place = self.place
        super().read(characters)
        return [self.here(characters, place)]

    def do_declare(self, parts, ranges):
        place = self.place
        (tree,) = super().do_declare(parts, ranges)
        digit = self.past_gap(place + len(tree["kids"][0]))
        places = (place, digit, self.past_gap(digit + 1))
        return [self.here({"kids": [placed(kid, at, at + len(kid)) for kid, at in zip(tree["kids"], places)], "node": "declare"}, place)]

    def folded(self, parts):
        """The stretches of the operands, and the forests of the operands and separators."""
        rounds, place = self.item("rounds"), self.place
        forests = [self.node(parts[0])]
        stretches = [(place, self.place)]
        for _ in range(rounds):
            forests.append(self.node(parts[1]))
            place = self.place
            forests.append(self.node(parts[0]))
            stretches.append((place, self.place))
        return stretches, forests

    def do_chainl1(self, parts, other):
        stretches, forests = self.folded(parts)
        forest = forests[0]
        for at in range(1, len(stretches)):
            made = built(other[0][0], other[1], forest + forests[2 * at - 1] + forests[2 * at])
            forest = [placed(made, stretches[0][0], stretches[at][1])]
        return forest

    def do_chainr1(self, parts, other):
        stretches, forests = self.folded(parts)
        forest = forests[-1]
        for at in reversed(range(len(stretches) - 1)):
            made = built(other[0][0], other[1], forests[2 * at] + forests[2 * at + 1] + forest)
            forest = [placed(made, stretches[at][0], stretches[-1][1])]
        return forest

    def expression(self, tree, term, builders):
        return self.operand(tree, term, builders)[0]

    def operand(self, tree, term, builders):
        """The forest of an operand, and where it ends."""
        place = self.place
        if tree.operator is None:
            return self.node(term), self.place
        role, _, symbol = tree.operator
        infix, prefix, postfix = builders
        if role == "prefix":
            self.operator(symbol)
            forest, end = self.operand(tree.operands[0], term, builders)
            made = built(prefix, symbol, forest)
        else:
            forest, _ = self.operand(tree.operands[0], term, builders)
            end = self.place + len(symbol)
            self.operator(symbol)
            if role == "postfix":
                made = built(postfix, symbol, forest)
            else:
                more, end = self.operand(tree.operands[1], term, builders)
                made = built(infix, symbol, forest + more)
        return [placed(made, place, end)], end

    def do_text(self, parts, other):
        place = self.place
        return [self.here(super().do_text(parts, other)[0], place)]

    def do_build(self, parts, other):
        place = self.place
        return [self.here(super().do_build(parts, other)[0], place)]
