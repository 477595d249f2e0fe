"""All derivations of texts, and what a run does at each node beside them.

Both are found as plainly as can be: a derivation's ends by the least that solves the equations of the forms, and a run by the interpreter of runs.py.
"""

from oracles import runs

STEPS = 200_000
DEPTH = 1_500
LEAVES = ("satisfy", "string", "word", "notFollowedBy", "eof")
CHAINS = ("chainl1", "chainr1")
# Where the bits stand of what can end in more ways than one.
HIGH = 64
LOW = (1 << HIGH) - 1


class EmptyRound(Exception):
    """A round of a repetition took nothing."""


class NoAnswer(Exception):
    """The run goes on for ever."""


class Run(runs.Run):
    """A run that tells what has no answer, and what each node does: which alternative answers at a place, where a round of a repetition that was
    entered at a place takes something, where one takes nothing, and what is entered again at one place."""

    def __init__(self, grammar, text):
        super().__init__(grammar, text)
        self.steps = 0
        self.open = []
        self.entered = {}
        self.chosen = {}
        self.taken = set()
        self.idle = set()
        self.again = set()

    def answer(self, number, place):
        self.steps += 1
        if self.entered.get((number, place)):
            self.again.add(number)
        if self.steps > STEPS or len(self.open) > DEPTH:
            raise NoAnswer
        self.open.append((number, place))
        self.entered[number, place] = self.entered.get((number, place), 0) + 1
        found = super().answer(number, place)
        self.open.pop()
        self.entered[number, place] -= 1
        return found

    def choice(self, parts, place):
        number = self.open[-1][0]
        for which, part in enumerate(parts):
            found = self.answer(part, place)
            if found[0] or found[1]:
                self.chosen[number, place] = which
                return found
        return False, False, place

    def rounds(self, parts, place, consumed):
        number, start = self.open[-1]
        while True:
            is_ok, moved, end = self.sequence(parts, place)
            if moved:
                self.taken.add((number, start, place))
            if not is_ok:
                return not moved, consumed or moved, place
            if not moved:
                self.idle.add(number)
                raise EmptyRound if len(parts) == 1 else NoAnswer
            consumed, place = True, end

    def outcome(self):
        """What is answered from the start rule: a kind, and what belongs to it."""
        try:
            is_ok, consumed, end = self.answer(self.grammar.rules[self.grammar.start], 0)
        except EmptyRound:
            return "empty round", None
        except NoAnswer:
            return "no answer", None
        return ("ok", end) if is_ok else ("error", consumed)


class Derivations:
    """Where derivations of a grammar's nodes can end, found for the rests of texts, the shortest first.

    A row has for each node the numbers of characters that it can take, as bits of one integer; the same bits, higher up, for those that it takes
    in more ways than one. A row is the least that solves the equations of the forms, so a rule may come back to itself."""

    def __init__(self, grammar):
        self.grammar = grammar
        self.rows = {}
        self.leaves = []
        self.forms = []
        count = len(grammar.nodes)
        for number in reversed(range(count)):
            word = grammar.nodes[number][0]
            if word in LEAVES:
                self.leaves.append(number)
                continue
            if word in CHAINS:
                self.forms.append(number + count)
            self.forms.append(number)

    def row(self, rest):
        """The row of a text, and those of its rests."""
        for start in reversed(range(len(rest) + 1)):
            if rest[start:] not in self.rows:
                self.rows[rest[start:]] = self.made(rest[start:])
        return self.rows[rest]

    def made(self, rest):
        row = [0] * (2 * len(self.grammar.nodes))
        run = runs.Run(self.grammar, rest)
        for number in self.leaves:
            is_ok, _, end = run.answer(number, 0)
            row[number] = 1 << end if is_ok else 0
        rows = [row] + [self.rows[rest[start:]] for start in range(1, len(rest) + 1)]
        has_changed = True
        while has_changed:
            has_changed = False
            for number in self.forms:
                found = self.ends(number, rows)
                if found != row[number]:
                    row[number], has_changed = found, True
        return row

    def ends(self, number, rows):
        """The ends of a form, by those of its parts; those behind the nodes are the rounds of chains after their first operands."""
        count = len(self.grammar.nodes)
        word, parts, other = self.grammar.nodes[number % count]
        if word == "seq":
            found = 1
            for part in parts:
                found = after(found, part, rows)
            return found
        if word == "choice":
            found = 0
            for part in parts:
                found = plus(found, rows[0][part])
            return found
        if word == "many":
            return plus(1, after(rows[0][parts[0]], number, rows))
        if word in CHAINS:
            operand, separator = parts
            if number < count:
                return after(rows[0][operand], number + count, rows)
            return plus(1, after(after(rows[0][separator], operand, rows), number, rows))
        return rows[0][self.grammar.rules[other] if word == "rule" else parts[0]]

    def count(self, text):
        """In how many ways a text is derived: none, one or, as 2, more."""
        found = self.row(text)[self.grammar.rules[self.grammar.start]] >> len(text)
        return (found & 1) + (found >> HIGH & 1)

    def has(self, number, text, place, end):
        """Whether a node can be derived as a part of the text."""
        return bool(self.row(text[place:])[number] >> (end - place) & 1)


def plus(one, other):
    """Both ways to end together: what either has, and what both have in more ways than one."""
    return one | other | (one & other & LOW) << HIGH


def after(found, part, rows):
    """The ends of a part that stands behind these."""
    ends = 0
    place = 0
    ones = found & LOW
    while ones >> place:
        if ones >> place & 1:
            more = rows[place][part] << place
            if found >> HIGH + place & 1:
                more |= (more & LOW) << HIGH
            ends = plus(ends, more)
        place += 1
    return ends


class Passed:
    """What some derivation of a whole text does at the nodes: the alternatives of choices by their places, and where repetitions end."""

    def __init__(self, derivations, text):
        self.derivations = derivations
        self.grammar = derivations.grammar
        self.text = text
        self.seen = set()
        self.chosen = set()
        self.ended = set()
        if derivations.count(text):
            self.go(self.grammar.rules[self.grammar.start], 0, len(text))

    def go(self, number, place, end):
        """Goes into the derivations of a node from one place to another, of which there is one."""
        if (number, place, end) in self.seen:
            return
        self.seen.add((number, place, end))
        word, parts, other = self.grammar.nodes[number]
        if word == "seq":
            self.parts(parts, place, end)
        elif word == "choice":
            for which, part in enumerate(parts):
                if self.derivations.has(part, self.text, place, end):
                    self.chosen.add((number, place, which))
                    self.go(part, place, end)
        elif word == "many":
            self.ended.add((number, place, end))
            self.rounds(parts, place, end)
        elif word in CHAINS:
            self.ended.add((number, place, end))
            for middle in range(place, end + 1):
                if self.derivations.has(parts[0], self.text, place, middle) and self.rounds(parts[::-1], middle, end):
                    self.go(parts[0], place, middle)
        elif word == "rule":
            self.go(self.grammar.rules[other], place, end)
        elif word not in LEAVES:
            self.go(parts[0], place, end)

    def parts(self, parts, place, end):
        """The same of parts after one another; whether there is a derivation."""
        if not parts:
            return place == end
        found = False
        for middle in range(place, end + 1):
            if self.derivations.has(parts[0], self.text, place, middle) and self.parts(parts[1:], middle, end):
                self.go(parts[0], place, middle)
                found = True
        return found

    def rounds(self, parts, place, end):
        """The same of rounds of these parts. One that takes nothing leads back to where it began, so it is gone into once."""
        found = place == end
        for middle in range(place + 1, end + 1):
            if self.parts_end(parts, place, middle) and self.rounds(parts, middle, end):
                self.parts(parts, place, middle)
                found = True
        if found and self.parts_end(parts, place, place):
            self.parts(parts, place, place)
        return found

    def parts_end(self, parts, place, end):
        """Whether parts after one another can be derived from one place to another."""
        if not parts:
            return place == end
        return any(
            self.derivations.has(parts[0], self.text, place, middle) and self.parts_end(parts[1:], middle, end) for middle in range(place, end + 1)
        )


def loses(grammar, node, run, passed):
    """Whether the node is where a derivation is lost: the run does something else there than some derivation does."""
    if grammar.nodes[node][0] == "choice":
        return any(number == node and run.chosen.get((number, place), which) < which for number, place, which in passed.chosen)
    return any(number == node and (number, start, end) in run.taken for number, start, end in passed.ended)
