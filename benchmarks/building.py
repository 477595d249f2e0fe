"""Builds the text of large grammars."""


def character(number):
    """A literal of one character, another one for each number."""
    return f'"{chr(0x4E00 + number)}"'


def characters(count):
    """So many forms, each of another character."""
    return [f"satisfy({character(number)})" for number in range(count)]


def form(word, parts):
    return f"{word}({', '.join(parts)})"


def one_rule(value):
    return f"start a; a = {value};"


def rules_of(values):
    """A rule for each value, named r0, r1, and so on."""
    return "start r0;\n" + "".join(f"r{number} = {value};\n" for number, value in enumerate(values))
