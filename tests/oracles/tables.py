"""Reads the tables of faulty grammar files in tests/tables."""

import json
import os

TABLES = f"{os.path.dirname(os.path.dirname(os.path.realpath(__file__)))}/tables"


def rows_of(name):
    """The rows of a table."""
    with open(f"{TABLES}/{name}", encoding="utf-8") as file:
        return json.load(file)


def grammar_of(row):
    """The text of a row's grammar file."""
    if len(row) == 2:
        return row[0]
    front, text, count, behind, _ = row
    return front + text * count + behind
