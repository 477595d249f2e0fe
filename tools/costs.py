#!/usr/bin/env python3
"""Measures what the gate's checks of crates cost, and holds it to the budget.

usage: tools/costs.py LOG COMMAND ..      runs the command, and writes into the file LOG what each check in it took
       tools/costs.py --report LOG ..     prints the sums of these files, and judges them by tools/budget

A check is a process of the prover. Each second its processor time is read, so that of each check up to a second is missed.
Beside it a small loop is timed: a second of the budget is as much work as a processor does on which that loop takes the time
that tools/budget has, and what other work beside it takes of a processor counts in it. A check that gets processors for which no other
waits is parted among them; each part reads the libraries, so it takes more than one that isn't. The status of the command is kept.
The report's last line is 'N passed, M failed': each crate's proof, the sum, and the longest chain of crates.
"""

import os
import subprocess
import sys
import threading
import time
from typing import NamedTuple

ROOT = os.path.dirname(os.path.dirname(os.path.realpath(__file__)))
TICKS = os.sysconf("SC_CLK_TCK")
KINDS = ("proof", "edits")
LOOP = 200_000

# ---- measuring


def content(path):
    """The bytes of a file, or none where it is gone."""
    try:
        with open(path, "rb") as file:
            return file.read()
    except OSError:
        return b""


def parent(number):
    """The process above a process, or 0 where it is gone."""
    fields = content(f"/proc/{number}/stat").rpartition(b") ")[2].split()
    return int(fields[1]) if len(fields) > 1 else 0


def is_check(number):
    return content(f"/proc/{number}/cmdline").split(b"\0")[0].endswith(b"/rattle")


def is_ours(number):
    """Whether the process is one that this one began, or one below such a process."""
    while number > 1 and number != os.getpid():
        number = parent(number)
    return number > 1


class Check(NamedTuple):
    """What was seen of a check: its crate, its kind, the processors that it is parted among, and its seconds."""

    crate: str
    kind: str
    parts: int
    seconds: float


def word_after(words, name, default):
    """The word behind the one with the name, or the default where there is none."""
    return words[words.index(name) + 1].decode() if name in words[:-1] else default


def checks():
    """The checks of ours that run now: for each its process and when it began, and the check as far as it is. The prover's own copies
    count in the process that made them, as they end."""
    for number in map(int, filter(str.isdigit, os.listdir("/proc"))):
        words = content(f"/proc/{number}/cmdline").split(b"\0")
        if not words[0].endswith(b"/rattle") or b"--crate-name" not in words or is_check(parent(number)) or not is_ours(number):
            continue
        fields = content(f"/proc/{number}/stat").rpartition(b") ")[2].split()
        if len(fields) > 19:
            kind = "edits" if b"--only" in words or b"/rt-edit-" in link(f"/proc/{number}/cwd") else "proof"
            seconds, parts = sum(map(int, fields[11:15])) / TICKS, int(word_after(words, b"--jobs", "1"))
            yield (number, fields[19]), Check(word_after(words, b"--crate-name", ""), kind, parts, seconds)


def link(path):
    try:
        return os.readlink(path).encode()
    except OSError:
        return b""


def loop_time():
    """The processor time that the loop takes now, in seconds."""
    started = time.thread_time()
    for _ in range(LOOP):
        pass
    return time.thread_time() - started


def measure(log, command):
    seen, loops, ended = {}, [], threading.Event()

    def watch():
        while not ended.wait(1):
            seen.update(checks())
            loops.append(loop_time())

    started, watcher = time.monotonic(), threading.Thread(target=watch)
    watcher.start()
    status = subprocess.run(command).returncode
    ended.set()
    watcher.join()
    loops = sorted(loops) or [loop_time()]
    with open(log, "w", encoding="utf-8") as file:
        file.write(f"wall {time.monotonic() - started:.0f}\nloop {loops[len(loops) // 2]:.6f}\n")
        file.writelines(f"{it.kind} {it.crate} {it.parts} {it.seconds:.1f}\n" for it in seen.values())
    return status


# ---- the report


def budget():
    """The numbers of tools/budget by their names; what a crate takes stands under its name where it is more than others."""
    with open(f"{ROOT}/tools/budget", encoding="utf-8") as file:
        rows = [line.split("#")[0].split() for line in file]
    return {row[0]: float(row[1]) for row in rows if row}


def allowed(limits, name):
    """The most seconds that a crate, the chain or the sum may take."""
    return limits["slack"] * limits.get(name, limits["crate"])


def below():
    """The crates that each crate uses. Lowest first, as the file has them."""
    with open(f"{ROOT}/crates.txt", encoding="utf-8") as file:
        rows = [line.split("#")[0].partition(":") for line in file]
    return {name.split()[0]: used.split() for name, colon, used in rows if colon}


def longest_chain(proofs):
    """The chain of crates, each above the one before it, whose proofs take longest, and its seconds."""
    chains, uses = {}, below()
    for name in uses:
        seconds, names = max((chains[it] for it in uses[name] if it in chains), default=(0, []))
        chains[name] = seconds + proofs.get(name, 0), [*names, name]
    return max(chains.values(), default=(0, []))


def checks_in(log, loop):
    """The checks that a file tells of, with their seconds in those of the budget, and the wall time."""
    with open(log, encoding="utf-8") as file:
        rows = [line.split() for line in file]
    wall, factor = float(rows[0][1]), loop / float(rows[1][1])
    print(f"{log}: {wall / 60:.0f} minutes, a processor {factor:.2f} times as fast as the budget's")
    return [Check(crate, kind, int(parts), factor * float(seconds)) for kind, crate, parts, seconds in rows[2:]], wall


def costs_in(logs, limits):
    """The seconds of the budget of each crate and kind, and the wall time, in the files. What a parted check takes more for
    each further part is taken off."""
    found, walls = {}, 0
    for log in logs:
        checks, wall = checks_in(log, limits["loop"])
        walls += wall
        for it in checks:
            alone = it.seconds / (1 + limits["part"] * (it.parts - 1))
            found[it.kind, it.crate] = found.get((it.kind, it.crate), 0) + alone
    return found, walls


def report(logs):
    limits = budget()
    found, wall = costs_in(logs, limits)
    proofs = {crate: seconds for (kind, crate), seconds in found.items() if kind == "proof"}
    failed = []
    for crate in below():
        most = allowed(limits, crate)
        print(f"{crate:25} " + "".join(f"{kind} {found.get((kind, crate), 0):6.0f} s  " for kind in KINDS))
        if proofs.get(crate, 0) > most:
            failed.append(f"{crate}: its proof takes {proofs[crate]:.0f} s, and the budget has {most:.0f}")
    kept = [it for it in below() if it not in proofs]
    if kept:
        print(f"no check seen, so kept from an earlier run or over within a second: {' '.join(kept)}")
    seconds, names = longest_chain(proofs)
    print(f"longest chain: {seconds / 60:.0f} minutes, {' '.join(names)}")
    if seconds > allowed(limits, "chain"):
        failed.append(f"the longest chain takes {seconds:.0f} s, and the budget has {allowed(limits, 'chain'):.0f}")
    total = sum(proofs.values())
    print(f"sum: proofs {total / 60:.0f} minutes, edits {(sum(found.values()) - total) / 60:.0f}; wall {wall / 60:.0f}")
    if total > allowed(limits, "sum"):
        failed.append(f"all proofs take {total:.0f} s, and the budget has {allowed(limits, 'sum'):.0f}")
    for line in failed:
        print(f"OVER THE BUDGET: {line}")
    print(f"{len(below()) + 2 - len(failed)} passed, {len(failed)} failed")
    return 1 if failed else 0


def main(words):
    if len(words) < 2:
        print(__doc__, file=sys.stderr)
        return 2
    return report(words[1:]) if words[0] == "--report" else measure(words[0], words[1:])


if __name__ == "__main__":
    sys.exit(main(sys.argv[1:]))
