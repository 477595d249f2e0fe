"""A plain interpreter of grammars without operators, which notes what it consumes and gives back."""

from oracles.conditions import has


class Run:
    """A run of a grammar over a text. An answer is whether it is ok, whether it consumed, and the place after it."""

    def __init__(self, grammar, text):
        self.grammar = grammar
        self.text = text
        self.log = []

    def character(self, ranges, place):
        return place < len(self.text) and has(ranges, self.text[place])

    def leaf(self, is_ok, place, end):
        """The answer of what read up to a place; what was read is noted, also where it fails."""
        if end > place:
            self.log.append(("consumed", place))
        return is_ok, end > place, end

    def answer(self, number, place):
        word, parts, other = self.grammar.nodes[number]
        if word == "satisfy":
            is_ok = self.character(other, place)
            return self.leaf(is_ok, place, place + is_ok)
        if word == "string":
            return self.string(other, place)
        if word == "word":
            return self.word(self.grammar.words[other], place)
        if word == "notFollowedBy":
            return not self.character(other, place), False, place
        if word == "eof":
            return place == len(self.text), False, place
        if word == "seq":
            return self.sequence(parts, place)
        if word == "choice":
            return self.choice(parts, place)
        if word == "many":
            return self.rounds(parts, place, False)
        if word in ("chainl1", "chainr1"):
            return self.chain(*parts, place)
        if word == "rule":
            return self.answer(self.grammar.rules[other], place)
        if word == "try":
            return self.tried(parts[0], place)
        return self.answer(parts[0], place)

    def string(self, wanted, place):
        read = 0
        while read < len(wanted) and self.text[place + read : place + read + 1] == wanted[read]:
            read += 1
        return self.leaf(read == len(wanted), place, place + read)

    def word(self, item, place):
        _, head, rest, reserved = item
        if not self.character(head, place):
            return False, False, place
        end = place + 1
        while self.character(rest, end):
            end += 1
        return (False, False, place) if self.text[place:end] in reserved else self.leaf(True, place, end)

    def sequence(self, parts, place):
        consumed = False
        for part in parts:
            is_ok, moved, place = self.answer(part, place)
            consumed = consumed or moved
            if not is_ok:
                return False, consumed, place
        return True, consumed, place

    def choice(self, parts, place):
        for part in parts:
            found = self.answer(part, place)
            if found[0] or found[1]:
                return found
        return False, False, place

    def rounds(self, parts, place, consumed):
        """Rounds of parts after one another, until one fails and consumed nothing. Each consumes, in a grammar that has no C2."""
        while True:
            is_ok, moved, end = self.sequence(parts, place)
            if not is_ok:
                return not moved, consumed or moved, place
            assert moved
            consumed, place = True, end

    def chain(self, operand, separator, place):
        is_ok, consumed, end = self.answer(operand, place)
        return self.rounds([separator, operand], end, consumed) if is_ok else (is_ok, consumed, end)

    def tried(self, part, place):
        before = len(self.log)
        is_ok, consumed, end = self.answer(part, place)
        if self.is_lexeme(part):
            del self.log[before:]
            return self.leaf(True, place, end) if is_ok else (False, False, place)
        if not is_ok and consumed:
            self.log.append(("given back", place))
        return is_ok, consumed and is_ok, end

    def is_lexeme(self, number):
        word, parts, _ = self.grammar.nodes[number]
        inside = [self.grammar.nodes[part][0] for part in parts]
        return word in ("satisfy", "string", "word") or (word == "seq" and inside == ["string", "notFollowedBy"])
