"""Makes and judges certificates straight from what they are, as plainly and slowly as can be.

`own_certificate` is what a grammar that is accepted has, and `verdict` what `pgw verify` prints of any bytes, with its status. Sets
and costs are those of tests/oracles/sets.py and tests/oracles/costs.py, where whatever is asked of the rule that a node uses is taken
from what is claimed of that rule. `mutants` changes a certificate in a number, a range, a start, a flag or a key. Nothing here knows
how the crates do it.
"""

import json
import re

from oracles.conditions import Check
from oracles.costs import Costs
from oracles.sets import END, Sets, class_of, order_of

MOST_RANK, MOST_COST = 2**32 - 1, 2**64 - 1
DEEPEST = 127
KEYS = ["first", "follow", "h", "nullable", "rank", "rule"]


def compact(value):
    return json.dumps(value, ensure_ascii=False, separators=(",", ":"))


# ---- starts as they are claimed


def ranges_value(ranges):
    return [list(pair) for pair in ranges]


def start_value(grammar, start):
    """A start of the grammar's, as a certificate has it."""
    if start == END:
        return "end"
    if start[0] == 0:
        return {"class": ranges_value(start[1])}
    if start[0] == 1:
        return {"key": start[1], "not": ranges_value(start[2])}
    names = [name for name, word in grammar.words.items() if word == start]
    return {"word": names[0]} if names else "operator"


class NotACertificate(Exception):
    """A value that isn't shaped as a certificate of the grammar."""


def need(holds):
    if not holds:
        raise NotACertificate


def is_number(value, most):
    return type(value) is int and 0 <= value <= most


def read_ranges(value):
    """The ranges of a class: ascending, with a character left out between each two neighbours."""
    need(isinstance(value, list))
    for pair in value:
        need(isinstance(pair, list) and len(pair) == 2 and all(is_number(c, 0x10FFFF) and not 0xD800 <= c <= 0xDFFF for c in pair))
    ranges = tuple(map(tuple, value))
    need(all(low <= high for low, high in ranges) and class_of(ranges) == ranges)
    return ranges


def read_start(grammar, value):
    if value == "end":
        return END
    if value == "operator":
        need(grammar.operators is not None)
        return grammar.operators
    need(isinstance(value, dict))
    if set(value) == {"class"}:
        return (0, read_ranges(value["class"]))
    if set(value) == {"key", "not"}:
        need(isinstance(value["key"], str) and value["key"] != "")
        return (1, value["key"], read_ranges(value["not"]))
    need(set(value) == {"word"} and isinstance(value["word"], str) and value["word"] in grammar.words)
    return grammar.words[value["word"]]


def read_claim(grammar, name, value):
    need(isinstance(value, dict) and sorted(value) == KEYS)
    need(value["rule"] == name and type(value["nullable"]) is bool)
    need(is_number(value["rank"], MOST_RANK) and is_number(value["h"], MOST_COST))
    need(isinstance(value["first"], list) and isinstance(value["follow"], list))
    sets = {key: {read_start(grammar, start) for start in value[key]} for key in ("first", "follow")}
    return {**value, **sets}


def read_claims(grammar, value):
    """What is claimed of each rule, by its name."""
    need(isinstance(value, dict) and set(value) == {"rules"} and isinstance(value["rules"], list))
    need(len(value["rules"]) == len(grammar.rules))
    return {name: read_claim(grammar, name, claim) for name, claim in zip(grammar.rules, value["rules"])}


# ---- JSON, by the rules of the library that the program reads it with


class Float:
    """A number that isn't whole, or doesn't fit."""


def whole(text):
    number = int(text)
    return number if text != "-0" and -(2**63) <= number <= MOST_COST else Float()


def fraction(text):
    if float(text) in (float("inf"), float("-inf")):
        raise ValueError(text)
    return Float()


def no_constant(text):
    raise ValueError(text)


def depth(text):
    """How deep arrays and objects stand in one another, in JSON."""
    deepest = now = 0
    for mark in re.sub(r'"(?:\\.|[^"\\])*"', "", text):
        now += (mark in "[{") - (mark in "]}")
        deepest = max(deepest, now)
    return deepest


def json_of(content):
    text = content.decode("utf-8")
    value = json.loads(text, parse_int=whole, parse_float=fraction, parse_constant=no_constant)
    if depth(text) > DEEPEST or re.search(r"[\ud800-\udfff]", compact_strings(value)):
        raise ValueError
    return value


def compact_strings(value):
    """All strings of a value."""
    if isinstance(value, str):
        return value
    if isinstance(value, list):
        return "".join(map(compact_strings, value))
    if isinstance(value, dict):
        return "".join(map(compact_strings, [*value, *value.values()]))
    return ""


# ---- sets and costs by claims


class ClaimedSets(Sets):
    """The sets of nodes where those of rules are claimed."""

    def __init__(self, grammar, claims):
        self.claims = claims
        super().__init__(grammar)

    def until_nothing_changes(self, clause):
        for name, body in self.grammar.rules.items():
            self.follow[body] |= self.claims[name]["follow"]
        super().until_nothing_changes(clause)

    def find_nullable(self, number):
        word, _, other = self.grammar.nodes[number]
        if word == "rule":
            self.nullable[number] = self.claims[other]["nullable"]
        else:
            super().find_nullable(number)

    def find_first(self, number):
        word, _, other = self.grammar.nodes[number]
        if word == "rule":
            self.first[number] |= self.claims[other]["first"]
        else:
            super().find_first(number)

    def find_follow(self, number):
        if self.grammar.nodes[number][0] != "rule":
            super().find_follow(number)


class ClaimedCosts(Costs):
    """The costs of nodes where those of rules' bodies are claimed."""

    def __init__(self, grammar, sets, claims):
        self.claims = claims
        super().__init__(grammar, sets)

    def cost(self, number):
        word, _, other = self.grammar.nodes[number]
        return 2 + self.claims[other]["h"] if word == "rule" else super().cost(number)


# ---- closure


def covers(claimed, start):
    """Whether a claimed start is the start, or a class that contains it."""
    if claimed == start:
        return True
    return claimed[0] == start[0] == 0 and all(any(first <= low and high <= last for first, last in claimed[1]) for low, high in start[1])


def are_covered(claimed, starts):
    return all(any(covers(one, start) for one in claimed) for start in starts)


class Closure:
    """Which claims of a rule are no less than what the claims say of its body."""

    def __init__(self, grammar, claims):
        self.grammar = grammar
        self.claims = claims
        self.sets = ClaimedSets(grammar, claims)
        self.costs = ClaimedCosts(grammar, self.sets, claims)
        # The end follows the start rule whether it is claimed or not.
        self.uses = {name: set() for name in grammar.rules}
        self.uses[grammar.start].add(END)
        for number, (word, _, other) in enumerate(grammar.nodes):
            if word == "rule":
                self.uses[other] |= self.sets.follow[number]

    def first_open(self):
        """The first rule and condition that doesn't hold, in the order of rules; nothing where all hold."""
        for name, body in self.grammar.rules.items():
            for condition, holds in self.conditions(name, body):
                if not holds:
                    return f"V3 {name} {condition}"
        return None

    def conditions(self, name, body):
        claim = self.claims[name]
        yield "nullable", claim["nullable"] or not self.sets.nullable[body]
        yield "first", are_covered(claim["first"], self.sets.first[body])
        yield "follow", are_covered(claim["follow"], self.uses[name])
        yield "rank", all(self.claims[head]["rank"] < claim["rank"] for head in self.sets.heads(name))
        yield "h", min(self.costs.cost(body), MOST_COST) <= claim["h"]


class ClaimedCheck(Check):
    """What is wrong with a grammar by the sets that are claimed."""

    def __init__(self, closure, limit):
        self.grammar = closure.grammar
        self.sets = closure.sets
        self.is_over = closure.costs.step_cost() > limit

    def recursion(self, rule):
        return []


def verdict(grammar, content, limit):
    """What is printed of a certificate, and the status."""
    try:
        value = json_of(content)
    except (ValueError, RecursionError):
        return "V1 not JSON\n", 1
    try:
        claims = read_claims(grammar, value)
    except NotACertificate:
        return "V2 not a certificate\n", 1
    closure = Closure(grammar, claims)
    found = closure.first_open()
    if found is None:
        findings = ClaimedCheck(closure, limit).findings()
        if not findings:
            return "accepted\n", 0
        place, text = findings[0].split(": ", 1)
        found = f"V4 {text.split()[0]} {place}"
    return found + "\n", 1


# ---- the certificate of a grammar, and others


def own_certificate(grammar, sets):
    """What the sets and costs of a grammar claim, as a value."""
    ranks, costs = sets.ranks(), Costs(grammar, sets)

    def listed(starts):
        return [start_value(grammar, start) for start in sorted(starts, key=lambda start: order_of(grammar, start))]

    return {
        "rules": [
            {
                "first": listed(sets.first[body]),
                "follow": listed(sets.follow[body]),
                "h": min(costs.cost(body), MOST_COST),
                "nullable": sets.nullable[body],
                "rank": ranks[name],
                "rule": name,
            }
            for name, body in grammar.rules.items()
        ]
    }


WIDER = [[[0, 0x10FFFF]], [[97, 97]], [[97, 98]], [[97, 122]], [], [[48, 57]]]


def changed_number(claim, key, chance):
    claim[key] = max(0, claim[key] + chance.choice([-2, -1, 1, 5, 2**31, 2**63]))


def changed_starts(starts, chance):
    """A start left out, put in, given twice, or another class in its place."""
    way = chance.randrange(5)
    if starts and way == 0:
        starts.pop(chance.randrange(len(starts)))
    elif starts and way == 1:
        starts.append(chance.choice(starts))
    elif starts and way == 2:
        starts.reverse()
        starts[0] = {"class": chance.choice(WIDER)}
    elif way == 3:
        starts.insert(0, {"class": chance.choice(WIDER)})
    else:
        starts.append(chance.choice(["end", "operator", {"word": "w0"}, {"word": "none"}, {"key": "ab", "not": []}, {"key": "", "not": []}]))


def changed(value, chance):
    """A copy of a certificate with one change."""
    value = json.loads(json.dumps(value))
    claim = chance.choice(value["rules"])
    way = chance.randrange(10)
    if way < 5:
        changed_starts(claim[chance.choice(["first", "follow"])], chance)
    elif way < 8:
        changed_number(claim, chance.choice(["h", "rank"]), chance)
    elif way == 8:
        claim["nullable"] = not claim["nullable"]
    else:
        chance.choice([claim.clear, value["rules"].pop, lambda: claim.update(more=1), lambda: claim.update(h=-1), lambda: claim.update(rank=0.5)])()
    return value


def mutants(value, chance, count):
    """The bytes of certificates that are changed in one or two places, and of beginnings."""
    for _ in range(count):
        other = changed(value, chance)
        if chance.randrange(3) == 0 and other["rules"] and all(other["rules"]):
            other = changed(other, chance)
        text = compact(other)
        yield (text[: chance.randrange(len(text))] if chance.randrange(20) == 0 else text).encode()
