"""Writes grammar files that are as large as the limits let them be, each in another way.

    python3 benchmarks/grammars.py FOLDER

makes FOLDER and puts one file there for each grammar of the list at the end, named after it. Only `nested_sequence` has a
fault, the last that can be found in it.
"""

import pathlib
import sys

BYTES = 262_144
CLASSES = 256
WORDS = 64
RULES = 512
NODES = 8_192
DEPTH = 64
LITERAL = 1_024
NAME = 64


def filled(text):
    """The text, and comments behind it up to the most bytes of a file."""
    lines = [text]
    left = BYTES - len(text.encode())
    while left > 1:
        length = min(left, 100)
        lines.append("#" + "x" * (length - 2) + "\n")
        left -= length
    return "".join(lines)


def long_name(prefix, number):
    """A name of the most characters, which differs from others only at its end."""
    return prefix + str(number).rjust(NAME - len(prefix), "x").replace(" ", "x")


def every_limit():
    """As many classes, words, rules and nodes as may be, and as many bytes."""
    lines = [f'class c{i} = "a".."z" | "{i}";' for i in range(CLASSES)]
    lines += [f"word w{i} head letter rest c{i} reserved \"let\";" for i in range(WORDS)]
    parts = NODES // RULES - 1
    lines += [f"r{i} = seq({', '.join(['eof'] * parts)});" for i in range(RULES)]
    return filled("start r0;\n" + "\n".join(lines) + "\n")


def names_of_rules():
    """Each rule names rules at the end of the file, whose names differ at their ends."""
    parts = NODES // RULES - 1
    names = [long_name("r", i) for i in range(RULES)]
    named = ", ".join(names[-1 - k % 32] for k in range(parts))
    lines = [f"{name} = seq({named});" for name in names]
    text = f"start {names[0]};\n" + "\n".join(lines) + "\n"
    while len(text.encode()) > BYTES:
        lines.pop(0)
        text = f"start {names[-1]};\n" + "\n".join(lines) + "\n"
    return filled(text)


def names_of_classes():
    """Class items that name the one above over and over, until the file is full."""
    lines = ["class c0 = digit;"]
    room = (BYTES - 100) // CLASSES
    for i in range(1, CLASSES):
        atom = f"c{i - 1}"
        count = (room - 20) // (len(atom) + 1)
        lines.append(f"class c{i} = " + "|".join([atom] * count) + ";")
    return filled("\n".join(lines) + "\nstart a;\na = satisfy(c255);\n")


def predicates():
    """One class expression that names a predicate of one range as often as fits."""
    return repeated_predicate("digit")


def predicates_of_many_ranges():
    """The same with a predicate of some 650 ranges, which all mentions share."""
    return repeated_predicate("letter")


def repeated_predicate(atom):
    count = (BYTES - 40) // (len(atom) + 1)
    return filled("start a;\na = satisfy(" + "|".join([atom] * count) + ");\n")


def copied_class():
    """Short forms inside one another, which copy a class expression of 60,000 atoms 32 times."""
    depth = 5
    atoms = "|".join(['"x"'] * 60_000)
    return filled("start a;\na = " + "many1(" * depth + f"satisfy({atoms})" + ")" * depth + ";\n")


def nested_sequence():
    """A form with as many parts as fit, in as many forms as may be: over the limit on nodes, so it is refused."""
    parts = ",b" * 130_000
    return "start a;a=" + "choice(" * (DEPTH - 1) + "b" + parts + ")" * (DEPTH - 1) + ";"


def nested():
    """Parentheses as deep as may be, in every rule that fits."""
    rule = "many(" * DEPTH + "eof" + ")" * DEPTH
    count = min(RULES, NODES // (DEPTH + 1), (BYTES - 20) // (len(rule) + 10))
    lines = [f"r{i} = {rule};" for i in range(count)]
    return filled("start r0;\n" + "\n".join(lines) + "\n")


def negations():
    """As many `not` in a row as fit."""
    count = (BYTES - 40) // 4
    return filled("start a;\na = satisfy(" + "not " * count + '"x");\n')


def short_forms():
    """Short forms that are replaced by many base forms: eleven levels of `many1`, which double at each level."""
    rule = "many1(" * 11 + "eof" + ")" * 11
    return filled(f"start a;\na = {rule};\n")


def literals():
    """Literals as long as may be, with escapes."""
    literal = '"' + "\\u{1F600}" * 26 + "x" * (LITERAL - 26) + '"'
    count = (BYTES - 60) // (len(literal) + 1)
    return filled("start a;\na = satisfy(" + "|".join([literal] * count) + ");\n")


def blanks():
    """Nothing but one rule and blanks."""
    text = "start a;\na = eof;\n"
    return text + " " * (BYTES - len(text))


GRAMMARS = [
    every_limit,
    names_of_rules,
    names_of_classes,
    predicates,
    predicates_of_many_ranges,
    copied_class,
    nested_sequence,
    nested,
    negations,
    short_forms,
    literals,
    blanks,
]


def main():
    folder = pathlib.Path(sys.argv[1])
    folder.mkdir(parents=True, exist_ok=True)
    for grammar in GRAMMARS:
        text = grammar().encode()
        assert len(text) <= BYTES, (grammar.__name__, len(text))
        (folder / f"{grammar.__name__}.g").write_bytes(text)


if __name__ == "__main__":
    main()
