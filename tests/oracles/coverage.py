"""Counts what derivations take of a grammar in canonical form, by going along their trails over their texts as tests/oracles/replay.py does.

`told(grammar, derivations)` has what `pgw test --coverage` prints of such a grammar, without the places, where these are the texts and the trails of its cases.
"""

import unicodedata

from oracles.replay import Walk, WholeReader
from oracles.sets import class_of, only

# The named classes that tests/oracles/sets.py doesn't have, of the characters below U+3000.
CATEGORIES = {"letter": "L", "alphaNum": "LN", "upper": ("Lu", "Lt"), "lower": ("Ll",), "space": ("Zs",)}
ROUNDS = ("many", "chainl1", "chainr1")


def named(kinds):
    """The class of the characters of some categories, or of the blanks of ASCII with them."""
    return class_of([(c, c) for c in range(0x3000) if unicodedata.category(chr(c)) in kinds or (isinstance(kinds, str) and unicodedata.category(chr(c))[0] in kinds) or ("Zs" in kinds and 9 <= c <= 13)])


NAMED = {name: named(kinds) for name, kinds in CATEGORIES.items()}


def grammar_of(text):
    """The grammar of a file in canonical form."""
    reader = WholeReader(text)
    reader.classes |= NAMED
    return reader.read()


class Counted(Walk):
    """A walk that notes at each choice, repetition and chain, and at each expression, what it takes."""

    def __init__(self, grammar, text, items, noted):
        super().__init__(grammar, text, items)
        self.noted, self.here = noted, None

    def node(self, number):
        word, _, _ = self.grammar.nodes[number]
        item = self.items[self.taken] if self.taken < len(self.items) else {}
        if word == "choice" and "alt" in item:
            self.noted.add((number, item["alt"] + 2))
        if word in ROUNDS and "rounds" in item:
            self.noted.add((number, min(item["rounds"], 2)))
        if word == "expr":
            for fixity, symbol in item.get("ops", []):
                self.noted.add((fixity, symbol))
        return super().node(number)


def productive(grammar):
    """The nodes that derive something, where each leaf does."""
    found, before = set(), -1
    while len(found) != before:
        before = len(found)
        for number, (word, parts, other) in enumerate(grammar.nodes):
            if derives(grammar, found, word, parts, other):
                found.add(number)
    return found


def derives(grammar, found, word, parts, other):
    if word == "rule":
        return grammar.rules[other] in found
    if word == "choice":
        return any(part in found for part in parts)
    if word in ("seq", "many") or not parts:
        return word != "seq" or all(part in found for part in parts)
    return parts[0] in found


def reached(grammar, found):
    """The nodes that derivations of the start rule can reach."""
    seen, left = set(), [grammar.rules[grammar.start]]
    while left:
        number = left.pop()
        if number in seen or number not in found:
            continue
        seen.add(number)
        word, parts, other = grammar.nodes[number]
        left += [grammar.rules[other]] if word == "rule" else parts
    return seen


def words_for(word, rank):
    if rank > 2:
        return f"alternative {rank - 2} of {word}"
    one = "separator" if word.startswith("chain") else "round"
    return f"{('no', 'one', 'more')[rank]} {one}{'s' if rank == 2 else ''} of {word}"


def possible(grammar):
    """What can be taken of nodes, in the order of the file."""
    found = productive(grammar)
    seen = reached(grammar, found)
    for number, (word, parts, _) in enumerate(grammar.nodes):
        if number in seen and word == "choice":
            yield from ((number, at + 3) for at, part in enumerate(parts) if part in found)
        if number in seen and word in ROUNDS:
            part = only(parts) if word == "many" else parts[1]
            yield from ((number, rank) for rank in (range(3) if part in found else range(1)))


def rule_of(grammar, number):
    return max((body, name) for name, body in grammar.rules.items() if body <= number)[1]


def told(grammar, derivations):
    """The lines that tell what no derivation takes, without places, and the sum."""
    noted = set()
    for text, items in derivations:
        Counted(grammar, text, items, noted).whole()
    asked = list(possible(grammar))
    lines = [f"{rule_of(grammar, number)}: not tried: {words_for(grammar.nodes[number][0], rank)}" for number, rank in asked if (number, rank) not in noted]
    found = reached(grammar, productive(grammar))
    operators = grammar.table if any(grammar.nodes[number][0] == "expr" for number in found) else []
    unread = [it for it in operators if (it.role if it.role in ("prefix", "postfix") else "infix", it.symbol) not in noted]
    lines += [f'not tried: {it.role} {it.precedence} "{it.symbol}"' for it in unread]
    count = len(asked) + len(operators)
    return [*lines, f"{count - len(lines)} of {count} tried"]
