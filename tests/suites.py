"""The suites that are handed a program, and how much of each is tried."""

import os
import sys

HERE = os.path.dirname(os.path.realpath(__file__))
sys.path.insert(0, f"{os.path.dirname(HERE)}/tools")
from sums import python

# Each suite, with the words that make a sample of one that searches: the seeds of its random grammars, or which allocations, reads and writes fail.
SUITES = {
    "run": [],
    "faults": [],
    "beginnings": [],
    "several": ["0", "100"],
    "names": ["0", "500"],
    "typos": ["0", "2"],
    "recipes": ["0", "4"],
    "prints": [],
    "documents": [],
    "sets": [],
    "checks": ["0", "200"],
    "listings": ["0", "200"],
    "schemas": ["0", "60"],
    "code_pages": [],
    "certificates": ["0", "200"],
    "parsec/answers": [],
    "parsec/names": [],
    "parsec/modules": ["0", "4"],
    "short_texts": [],
    "replays": ["0", "100"],
    "outlines": ["0", "200"],
    "corpora": ["0", "60"],
    "explanations": ["0", "400"],
    "long_texts": ["0", "100"],
    "plans": ["0", "150"],
    "level": [],
    "editor/session": ["1000", "200"],
    "editor/answers": ["0", "40"],
    "editor/neovim": [],
    "refused_memory": ["7"],
    "slow_files": ["7"],
}


LEVEL = f"{os.path.dirname(HERE)}/benchmarks/level"


def run_suites(sums, program, is_sample):
    """Runs each suite over the program, and the search for what isn't level: samples, or all that the gate searches."""
    for name, sample in SUITES.items():
        sums.run(f"tests/{name} {os.path.basename(program)}", python(f"{HERE}/{name}", program, *(sample if is_sample else [])))
    sums.run(f"benchmarks/level {os.path.basename(program)}", python(LEVEL, program, "--sample", "60" if is_sample else "400"))
