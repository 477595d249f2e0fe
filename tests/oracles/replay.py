"""Goes along trails by the definition of what a grammar derives, as plainly and slowly as can be.

`replayed` tells what `pgw replay` has to print of a grammar file without a fault, a text and a trail: the tree, or the line that says
where the trail doesn't lead on. `drawn` makes a text and a trail by walking through a grammar with a generator of random numbers.
`tests/replays` compares the program with both.

Nothing here knows how pg_trail_replay works. Of the trees that the operators of an expression can be, all are listed, and those that don't fit
the table dropped, by tests/operator_trees.
"""

import json

from oracles import operator_trees
from oracles.operator_trees import Operator
from oracles.sets import BUILDERS, KEYWORDS, SMALL_LETTERS, WITH_SYMBOL, Reader, base_form, class_of, only



MOST_OPERATORS = 64
LONGEST_SYMBOL = 16
NODES = {"num": "num", "name": "name", "list": "list", "call": "call"}
ITEM, TEXT, LEFT_OVER, NOT_ADMITTED = (
    "Y1 item doesn't fit",
    "Y2 text doesn't fit",
    "Y3 text or items left over",
    "Y4 declaration not admitted",
)

# ---- reading grammar files, with their builders and tables


class WholeReader(Reader):
    """Reads what is left out where only sets are asked for: builders, tables and how many operators there may be."""

    def __init__(self, text):
        super().__init__(text)
        self.grammar.table = []
        self.grammar.most = MOST_OPERATORS

    def item(self):
        if self.peek() == ("name", "table"):
            self.take("name")
            role, precedence, symbol = self.take("name"), int(self.take("number")), self.literal()
            self.grammar.table.append(Operator(role, precedence, symbol))
            self.take("mark", ";")
        else:
            super().item()

    def operators_item(self):
        before = self.place
        super().operators_item()
        if ("name", "max") in self.tokens[before : self.place]:
            self.grammar.most = int(self.tokens[self.place - 1][1])

    def arguments(self, word):
        if word not in BUILDERS:
            return super().arguments(word)
        builders, symbol = [], ""
        for _ in range(BUILDERS[word]):
            builders.append(self.take("name"))
            self.take("mark", ",")
        if word in WITH_SYMBOL and self.peek()[0] == "literal":
            symbol = self.literal()
            self.take("mark", ",")
        made, parts, _ = base_form(word, self.values())
        return made, parts, (builders, symbol)


def grammar_of(text):
    return WholeReader(text).read()


# ---- trees: a leaf is a string, a node an object as it is printed


def text_of(trees):
    return "".join(tree if isinstance(tree, str) else text_of(tree["kids"]) for tree in trees)


def flattened(label, trees):
    for tree in trees:
        if isinstance(tree, dict) and tree["node"] == label:
            yield from tree["kids"]
        else:
            yield tree


def built(builder, symbol, kids):
    if builder == "join":
        return text_of(kids)
    if builder == "flat":
        return {"kids": list(flattened("list", kids)), "node": "list"}
    return {"kids": kids, "node": NODES.get(builder, symbol)}


# ---- operators


def is_prefix(operator):
    return operator.role == "prefix"


def is_refused(grammar, table, operator):
    """Whether a table doesn't admit an operator."""
    reserved = grammar.operators[3]
    taken = any(other.symbol == operator.symbol and is_prefix(other) == is_prefix(operator) for other in table)
    return len(operator.symbol) > LONGEST_SYMBOL or operator.symbol in reserved or taken or len(table) >= grammar.most


def tree_of(table, read):
    """The tree that fits the table and whose operators are read so, if there is one. A term is a digit, which no symbol is here."""
    tokens, term_is_due = [], True
    for fixity, symbol in read:
        if fixity != "prefix" and term_is_due:
            tokens.append("1")
            term_is_due = False
        tokens.append((fixity, symbol))
        term_is_due = term_is_due or fixity == "infix"
    if term_is_due:
        tokens.append("1")
    trees = [tree for tree in all_trees(tokens, table) if operator_trees.fits(tree)]
    assert len(trees) < 2, (table, read)
    return trees[0] if trees else None


def all_trees(tokens, table):
    """Every tree of these tokens whose operators are in the table, whether it fits or not."""
    if tokens == ["1"]:
        yield operator_trees.Tree(None, ["1"])
        return
    for at, token in enumerate(tokens):
        if token == "1":
            continue
        before, after = tokens[:at], tokens[at + 1 :]
        fixity, symbol = token
        for operator in (one for one in table if one.symbol == symbol and one.role.startswith(fixity)):
            if fixity == "prefix" and not before:
                yield from (operator_trees.Tree(operator, [one]) for one in all_trees(after, table))
            elif fixity == "postfix" and not after:
                yield from (operator_trees.Tree(operator, [one]) for one in all_trees(before, table))
            elif fixity == "infix" and before and after:
                for left in all_trees(before, table):
                    yield from (operator_trees.Tree(operator, [left, right]) for right in all_trees(after, table))


# ---- walking


class Halted(Exception):
    """Why a walk goes no further, at its place and with what is left of its trail."""


def has(ranges, character):
    return any(low <= ord(character) <= high for low, high in ranges)


class Walk:
    """What was derived so far: a place in the text, a table, and the items that aren't taken yet."""

    def __init__(self, grammar, text, items):
        self.grammar = grammar
        self.text = text
        self.items = items
        self.taken = 0
        self.place = 0
        self.table = list(grammar.table)
        self.entered = []

    def whole(self):
        """The forest of the start rule over the whole text, or where and why there is none."""
        try:
            forest = self.rule(self.grammar.start)
            if self.place != len(self.text) or self.taken != len(self.items):
                raise Halted(LEFT_OVER)
        except Halted as halted:
            return None, str(halted)
        return forest, None

    def halt_unless(self, holds, why):
        if not holds:
            raise Halted(why)

    def item(self, kind):
        """Takes the next item, which has to be of this kind."""
        self.halt_unless(self.taken < len(self.items) and kind in self.items[self.taken], ITEM)
        self.taken += 1
        return self.items[self.taken - 1][kind]

    def rule(self, name):
        here = (name, self.place, self.taken)
        self.halt_unless(here not in self.entered, ITEM)
        self.entered.append(here)
        forest = self.node(self.grammar.rules[name])
        self.entered.remove(here)
        return forest

    def node(self, number):
        word, parts, other = self.grammar.nodes[number]
        return getattr(self, f"do_{word}")(parts, other)

    # Leaves.

    def run(self, ranges, place):
        end = place
        while end < len(self.text) and has(ranges, self.text[end]):
            end += 1
        return self.text[place:end]

    def read(self, characters):
        self.place += len(characters)
        return [characters]

    def next_is_of(self, ranges):
        return self.place < len(self.text) and has(ranges, self.text[self.place])

    def do_satisfy(self, parts, ranges):
        self.halt_unless(self.next_is_of(ranges), TEXT)
        return self.read(self.text[self.place])

    def do_string(self, parts, characters):
        self.halt_unless(self.text.startswith(characters, self.place), TEXT)
        return self.read(characters)

    def do_word(self, parts, name):
        _, head, rest, reserved = self.grammar.words[name]
        self.halt_unless(self.next_is_of(head), TEXT)
        word = self.text[self.place] + self.run(rest, self.place + 1)
        self.halt_unless(word not in reserved, TEXT)
        return self.read(word)

    def do_notFollowedBy(self, parts, ranges):
        self.halt_unless(not self.next_is_of(ranges), TEXT)
        return []

    def do_eof(self, parts, other):
        self.halt_unless(self.place == len(self.text), TEXT)
        return []

    def do_declare(self, parts, ranges):
        role, precedence, symbol, end = self.declaration(ranges)
        operator = Operator(role, int(precedence), symbol)
        self.halt_unless(not is_refused(self.grammar, self.table, operator), NOT_ADMITTED)
        self.table = [*self.table, operator]
        self.place = end
        return [{"kids": [role, precedence, symbol], "node": "declare"}]

    def declaration(self, ranges):
        """The keyword, the digit and the symbol that stand here, and the place after them."""
        going_on = class_of(ranges + SMALL_LETTERS)
        for keyword in KEYWORDS:
            at = self.place + len(keyword)
            if not self.text.startswith(keyword, self.place) or has_at(going_on, self.text, at):
                continue
            digit = self.past_gap(at)
            if digit < len(self.text) and self.text[digit] in "0123456789":
                at = self.past_gap(digit + 1)
                symbol = self.run(self.grammar.operators[1], at)
                if symbol:
                    return keyword, self.text[digit], symbol, self.past_gap(at + len(symbol))
        raise Halted(TEXT)

    def past_gap(self, place):
        return place + len(self.run(self.grammar.gap[1], place))

    # Forms with parts.

    def do_rule(self, parts, name):
        return self.rule(name)

    def do_seq(self, parts, other):
        return [tree for part in parts for tree in self.node(part)]

    def do_choice(self, parts, other):
        self.halt_unless(self.taken < len(self.items) and 1 <= self.items[self.taken].get("alt", 0) <= len(parts), ITEM)
        return self.node(parts[self.item("alt") - 1])

    def do_many(self, parts, other):
        forest = []
        for _ in range(self.item("rounds")):
            before = (self.place, self.taken)
            trees = self.node(only(parts))
            forest += trees
            if not trees and before == (self.place, self.taken):
                break
        return forest

    def chain(self, parts):
        """The forests of the operands and separators, in the order in which they are read."""
        rounds = self.item("rounds")
        forests = [self.node(parts[0])]
        for _ in range(rounds):
            forests += [self.node(parts[1]), self.node(parts[0])]
        return forests

    def do_chainl1(self, parts, other):
        forests = self.chain(parts)
        forest = forests[0]
        for at in range(1, len(forests), 2):
            forest = [built(other[0][0], other[1], forest + forests[at] + forests[at + 1])]
        return forest

    def do_chainr1(self, parts, other):
        forests = self.chain(parts)
        forest = forests[-1]
        for at in range(len(forests) - 2, 0, -2):
            forest = [built(other[0][0], other[1], forests[at - 1] + forests[at] + forest)]
        return forest

    def do_expr(self, parts, other):
        self.halt_unless(self.taken < len(self.items) and "ops" in self.items[self.taken], ITEM)
        tree = tree_of(self.table, self.items[self.taken]["ops"])
        self.halt_unless(tree is not None, ITEM)
        self.taken += 1
        return self.expression(tree, only(parts), other[0])

    def expression(self, tree, term, builders):
        if tree.operator is None:
            return self.node(term)
        role, _, symbol = tree.operator
        infix, prefix, postfix = builders
        if role == "prefix":
            self.operator(symbol)
            return [built(prefix, symbol, self.expression(tree.operands[0], term, builders))]
        forest = self.expression(tree.operands[0], term, builders)
        self.operator(symbol)
        if role == "postfix":
            return [built(postfix, symbol, forest)]
        return [built(infix, symbol, forest + self.expression(tree.operands[1], term, builders))]

    def operator(self, symbol):
        self.halt_unless(self.run(self.grammar.operators[1], self.place) == symbol, TEXT)
        self.place = self.past_gap(self.place + len(symbol))

    # Forms around a part.

    def around(self, parts):
        return self.node(only(parts))

    def do_try(self, parts, other):
        return self.around(parts)

    def do_label(self, parts, other):
        return self.around(parts)

    def do_skip(self, parts, other):
        self.around(parts)
        return []

    def do_text(self, parts, other):
        begin = self.place
        self.around(parts)
        return [self.text[begin : self.place]]

    def do_build(self, parts, other):
        return [built(other[0][0], other[1], self.around(parts))]

    def do_local(self, parts, other):
        table = self.table
        forest = self.around(parts)
        self.table = table
        return forest


def has_at(ranges, text, place):
    return place < len(text) and has(ranges, text[place])


# ---- what is printed


def compact(value):
    return json.dumps(value, ensure_ascii=False, separators=(",", ":"))


def position(text, place):
    """The line and the column, where a tab goes on to the next column that is one more than a multiple of 8."""
    line, column = 1, 1
    for c in text[:place]:
        if c == "\n":
            line, column = line + 1, 1
        else:
            column += 8 - (column - 1) % 8 if c == "\t" else 1
    return line, column


def replayed(grammar, text, items):
    """What is printed of the trail over the text in the file t, and the status."""
    walk = Walk(grammar, text, items)
    forest, why = walk.whole()
    if why is None:
        return compact(forest) + "\n", 0
    line, column = position(text, walk.place)
    at = f"item {walk.taken + 1} of {len(items)}" if walk.taken < len(items) else f"after all {len(items)} items"
    return f"t:{line}:{column}: {why}, {at}\n", 1


# ---- drawing a text and a trail


class TooLong(Exception):
    """A walk that was drawn found no end."""


class Drawn(Walk):
    """A walk that chooses its items and writes its text itself, so that most of what it makes is derived."""

    MOST = 60

    def __init__(self, grammar, chance):
        super().__init__(grammar, "", [])
        self.chance = chance
        self.nodes = 0

    def note(self, item):
        self.items.append(item)
        self.taken += 1

    def node(self, number):
        self.nodes += 1
        if self.nodes > self.MOST:
            raise TooLong
        return super().node(number)

    def write(self, characters):
        self.text += characters
        self.place = len(self.text)
        return [characters]

    def character(self, ranges):
        found = [c for c in "abc1+-z " if has(ranges, c)]
        if not found:
            raise TooLong
        return self.chance.choice(found)

    def do_satisfy(self, parts, ranges):
        return self.write(self.character(ranges))

    def do_string(self, parts, characters):
        return self.write(characters)

    def do_word(self, parts, name):
        _, head, rest, _ = self.grammar.words[name]
        more = self.character(rest) if rest and self.chance.random() < 0.4 else ""
        return self.write(self.character(head) + more)

    def do_eof(self, parts, other):
        return []

    def do_notFollowedBy(self, parts, ranges):
        return []

    def do_declare(self, parts, ranges):
        role, symbol = self.chance.choice(KEYWORDS), self.character(self.grammar.operators[1])
        self.write(f"{role}{self.gap()}{self.chance.randrange(10)}{self.gap()}{symbol}{self.gap()}")
        self.table = [*self.table, Operator(role, int(self.chance.randrange(10)), symbol)]
        return []

    def gap(self):
        ranges = self.grammar.gap[1]
        return self.character(ranges) if ranges and self.chance.random() < 0.3 else ""

    def do_choice(self, parts, other):
        alternative = self.chance.randint(1, len(parts))
        self.note({"alt": alternative})
        return self.node(parts[alternative - 1])

    def item(self, kind):
        rounds = self.chance.randrange(4)
        self.note({kind: rounds})
        return rounds

    def do_expr(self, parts, other):
        read = self.operators() if self.table else []
        self.note({"ops": read})
        for fixity, symbol in read:
            self.write(symbol + self.gap())
        return self.node(only(parts))

    def operators(self):
        chosen = [self.chance.choice(self.table) for _ in range(self.chance.randrange(3))]
        return [["infix" if one.role.startswith("infix") else one.role, one.symbol] for one in chosen]


def drawn(grammar, chance):
    """A text and a trail, or nothing where none was found."""
    walk = Drawn(grammar, chance)
    try:
        walk.rule(grammar.start)
    except (TooLong, Halted):
        return None
    return walk.text, walk.items


def changed(items, chance):
    """The trail with one item changed, put in or taken out."""
    items = list(items)
    at = chance.randrange(len(items) + 1)
    kind = chance.randrange(3)
    fresh = chance.choice([{"alt": chance.randrange(4)}, {"rounds": chance.randrange(4)}, {"ops": []}, {"ops": [["infix", "+"]]}, {"ops": [["prefix", "-"]]}])
    if kind == 0 or at == len(items):
        items.insert(at, fresh)
    elif kind == 1:
        del items[at]
    else:
        items[at] = near(items[at], fresh, chance)
    return items


def near(item, fresh, chance):
    """Another item, most often one of the same kind."""
    (kind, value), = item.items()
    if kind == "ops" or chance.random() < 0.3:
        return fresh
    return {kind: max(0, value + chance.choice([-1, 1]))}
