"""Positions of places, counted anew."""


def positions(text, encoding):
    """The line and the unit of each place of a text, its end among them. Between a carriage return and its line feed it is the next line already."""
    found, line, unit, before = [], 0, 0, ""
    for character in text:
        found.append((line, unit))
        if character == "\n":
            line, unit = (line, 0) if before == "\r" else (line + 1, 0)
        elif character == "\r":
            line, unit = line + 1, 0
        elif encoding == "utf-8":
            unit += len(character.encode())
        else:
            unit += len(character.encode("utf-16-le")) // 2
        before = character
    return [*found, (line, unit)]


def place(text, line, character):
    """The place of a line and a character that count from 1, where only line feeds end lines."""
    lines = text.split("\n")
    return sum(len(one) + 1 for one in lines[: line - 1]) + character - 1
