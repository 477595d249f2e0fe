"""Runs commands one after another that each end with a line 'N passed, M failed', and adds these up."""

import re
import subprocess
import sys
import time

SUM = re.compile(r"(\d+) passed, (\d+) failed")


class Sums:
    """What the commands so far have come to."""

    def __init__(self):
        self.passed = 0
        self.failed = 0

    def fail(self, said):
        """Counts one failure more, and says why."""
        print(said, flush=True)
        self.failed += 1

    def run(self, name, words):
        """Runs the words, prints what they print, and adds the sum that is their last line, with the seconds that it took. No sum is
        one failure, and so is a bad status beside a sum without failures."""
        started, last = time.monotonic(), ""
        ran = subprocess.Popen(words, stdin=subprocess.DEVNULL, stdout=subprocess.PIPE, stderr=subprocess.STDOUT, text=True, errors="replace")
        for line in ran.stdout:
            last = line.rstrip("\n")
            if not SUM.fullmatch(last):
                print(last, flush=True)
        status, found = ran.wait(), SUM.fullmatch(last)
        if not found:
            self.fail(f"{name}: printed no sum, and ended with status {status}")
            return
        passed, failed = int(found[1]), int(found[2])
        print(f"{name}: {passed} passed, {failed} failed, {time.monotonic() - started:.0f} s", flush=True)
        self.passed += passed
        self.failed += failed
        if status and not failed:
            self.fail(f"{name}: ended with status {status}")

    def end(self):
        """Prints the sum of all, as the last line, and returns the exit status."""
        print(f"{self.passed} passed, {self.failed} failed", flush=True)
        return int(self.failed > 0)


def python(*words):
    """The words of a call of one of the scripts here."""
    return [sys.executable, *words]
