"""Judges grammars by the conditions of the check, each straight from its own words.

The sets that they ask for are computed by sets.py, and the step costs by costs.py. Nothing here knows how the crates do it.
"""

from oracles.costs import COST_LIMIT, step_cost
from oracles.sets import END, Reader, Sets, only, order_of, printed_start

# ---- which starts are apart


def has(ranges, character):
    return any(low <= ord(character) <= high for low, high in ranges)


def disjoint(ranges, others):
    return all(high < first or last < low for low, high in ranges for first, last in others)


def within(ranges, others):
    return all(any(first <= low and high <= last for first, last in others) for low, high in ranges)


def keys_apart(text, excluded, other, others):
    if text.startswith(other):
        text, excluded, other, others = other, others, text, excluded
    return not other.startswith(text) or (text != other and has(excluded, other[len(text)]))


def key_word_apart(text, excluded, word):
    _, heads, rest, reserved = word
    if not has(heads, text[0]):
        return True
    length = 1
    while length < len(text) and has(rest, text[length]):
        length += 1
    return text[:length] in reserved and (length < len(text) or within(rest, excluded))


def apart(one, other):
    """Whether two starts are told apart by their looks."""
    if one[0] > other[0]:
        one, other = other, one
    if END in (one, other):
        return one != other
    kinds = (one[0], other[0])
    if kinds == (0, 1):
        return not has(one[1], other[1][0])
    if kinds == (1, 1):
        return keys_apart(one[1], one[2], other[1], other[2])
    if kinds == (1, 2):
        return key_word_apart(one[1], one[2], other)
    return disjoint(one[1], other[1])


# ---- findings


class Check:
    """What is wrong with a grammar, by its sets."""

    def __init__(self, text):
        self.grammar = Reader(text).read()
        self.sets = Sets(self.grammar)
        self.cost = step_cost(self.grammar, self.sets)
        self.is_over = self.cost is not None and self.cost > COST_LIMIT

    def findings(self):
        """The lines, in the order of rules, nodes, numbers and alternatives."""
        found = []
        bodies = list(self.grammar.rules.values())
        for (name, body), end in zip(self.grammar.rules.items(), [*bodies[1:], len(self.grammar.nodes)]):
            for number in range(body, end):
                said = list(self.recursion(name) if number == body else []) + list(self.judged(number))
                if self.is_over and number == self.grammar.rules[self.grammar.start]:
                    said.append(f"C11 step cost over {COST_LIMIT}")
                found += [f"{name}:{number - body + 1}: {text}" for text in said]
        return found

    def recursion(self, rule):
        reached, waiting = set(), list(self.sets.heads(rule))
        while waiting:
            head = waiting.pop()
            if head not in reached:
                reached.add(head)
                waiting += self.sets.heads(head)
        if rule in reached:
            yield "C1 left recursion"

    def judged(self, number):
        word, parts, _ = self.grammar.nodes[number]
        if word in ("many", "chainl1", "chainr1"):
            yield from self.repetition(number, word, parts)
        if word == "choice":
            yield from self.choice(number, parts)
        if word == "expr":
            yield from self.expression(number, only(parts))
        if word == "declare":
            yield from self.gap(number, set())

    def repetition(self, number, word, parts):
        round_of = only(parts) if word == "many" else ("seq", [parts[1], parts[0]])
        if self.sets.is_nullable(round_of):
            yield "C2 repeated part can be empty"
        met = self.meeting(self.sets.first_of(round_of), self.sets.follow[number])
        if met:
            yield f"C6 repetition meets its follow set at {met}"

    def choice(self, number, parts):
        nullable = [self.sets.nullable[part] for part in parts]
        for i in range(len(parts) - 1):
            if nullable[i]:
                yield f"C3 alternative {i + 1} can be empty and is not last"
        for i, one in enumerate(parts):
            for j in range(i + 1, len(parts)):
                met = self.meeting(self.sets.first[one], self.sets.first[parts[j]])
                if met:
                    yield f"C4 alternatives {i + 1} and {j + 1} meet at {met}"
        for i, one in enumerate(parts[:-1]):
            met = nullable[-1] and self.meeting(self.sets.first[one], self.sets.follow[number])
            if met:
                yield f"C5 alternative {i + 1} meets the follow set at {met}"

    def expression(self, number, term):
        if self.sets.nullable[term]:
            yield "C7 operand can be empty"
        operators = [self.grammar.operators]
        met = self.first_met(self.sets.first[term], operators)
        if met:
            yield f"C7 operand meets operators at {met}"
        met = self.first_met(self.sets.follow[number], operators)
        if met:
            yield f"C8 follow set meets operators at {met}"
        yield from self.gap(number, self.sets.first[term])

    def gap(self, number, term):
        """The first that the gap meets: the operators, then what begins a term, then what follows."""
        for starts in ([self.grammar.operators], term, self.sets.follow[number]):
            met = self.first_met(starts, [self.grammar.gap])
            if met:
                yield f"C9 gap meets {met}"
                return

    def ordered(self, starts):
        return sorted(starts, key=lambda start: order_of(self.grammar, start))

    def meeting(self, starts, others):
        """The first two that aren't apart, as they are printed; nothing where all are."""
        for one in self.ordered(starts):
            for other in self.ordered(others):
                if not apart(one, other):
                    return f"{printed_start(self.grammar, one)} and {printed_start(self.grammar, other)}"
        return None

    def first_met(self, starts, others):
        """The first that isn't apart from one of the others, as it is printed; nothing where all are."""
        for one in self.ordered(starts):
            if not all(apart(one, other) for other in others):
                return printed_start(self.grammar, one)
        return None
