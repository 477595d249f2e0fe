#!/usr/bin/env python3
"""Proves the whole repository, and tries all that takes the toolchain.

usage: tools/prove.py

It needs the toolchain's command rt, python3, bash and git. All crates are proved from nothing, but for what an earlier run on this
machine has proved of the same files. That leaves the program as LLVM builds it, which has to be the one in dist/, byte for byte,
and as Rattle's own compiler does, over which all suites are run. Then come the wrong edits, the crates' own tests and the budgets. The
last line is 'N passed, M failed', over all that was tried, and the status is 1 if anything failed.
"""

import filecmp
import os
import sys
import tempfile

sys.dont_write_bytecode = True
HERE = os.path.dirname(os.path.realpath(__file__))
TESTS = f"{os.path.dirname(HERE)}/tests"
sys.path[:0] = [HERE, TESTS]
import shipping
from suites import run_suites
from sums import Sums, python


def compare(sums, program):
    """Whether the program that was proved and built just now is the one in dist/."""
    noted = shipping.noted()
    if noted.get("toolchain") != shipping.toolchain():
        print(f"the program in dist/ isn't compared: it was built by {noted.get('toolchain')}, and this is {shipping.toolchain()}", flush=True)
    elif noted.get("sources") != shipping.sum_of_sources():
        sums.fail("the program in dist/ was built from other sources: tools/build.py --renew puts the one of these in place")
    elif not os.path.isfile(program) or not filecmp.cmp(program, shipping.SHIPPED, shallow=False):
        sums.fail("the program in dist/ isn't the one that was built of these sources: tools/build.py --renew puts that one in place")
    else:
        print("the program in dist/ is the one that was proved and built, byte for byte", flush=True)
        sums.passed += 1


def main():
    sums = Sums()
    sums.run("tools/layout.py", python(f"{HERE}/layout.py"))
    sums.run("tools/edits.py --fit", python(f"{HERE}/edits.py", "--fit"))
    with tempfile.TemporaryDirectory(prefix="prove-") as room:
        proved, proofs, edits = f"{room}/proved", f"{room}/proofs.log", f"{room}/edits.log"
        costs = python(f"{HERE}/costs.py")
        sums.run("tools/proofs.py", [*costs, proofs, *python(f"{HERE}/proofs.py", proved)])
        program = f"{proved}/crates/pg/out/pg"
        compare(sums, program)
        by_rattle = f"{program}.by-rattle"
        if os.access(by_rattle, os.X_OK):
            run_suites(sums, by_rattle, is_sample=False)
        else:
            sums.fail("tools/proofs.py left no program by Rattle's own compiler")
        sums.run("tests/backtracking", python(f"{TESTS}/backtracking"))
        sums.run("tests/promises", python(f"{TESTS}/promises"))
        sums.run("tools/crate_tests.py", python(f"{HERE}/crate_tests.py"))
        sums.run("tests/edits_tests", python(f"{TESTS}/edits_tests"))
        sums.run("tools/edits.py", [*costs, edits, *python(f"{HERE}/edits.py", "--proved", proved)])
        sums.run("tools/costs.py", [*costs, "--report", proofs, edits])
    return sums.end()


if __name__ == "__main__":
    sys.exit(main())
