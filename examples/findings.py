"""Shows each finding with the text that it is about: pgw check --json GRAMMAR .. | python3 findings.py"""

import json
import sys

for found in map(json.loads, sys.stdin):
    print("{file}:{line}:{column}: {message}".format(**found))
    with open(found["file"], encoding="utf-8") as file:
        text = file.read().split("\n")[found["line"] - 1].expandtabs(8)
    last = found["last_column"] if found.get("last_line") == found["line"] else len(text)
    print("    " + text[found["column"] - 1 : last])
