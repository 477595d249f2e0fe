"""What the scripts here take from the toolchain's command rt: the repository's crates, and how they are checked and built."""

import concurrent.futures
import importlib.machinery
import importlib.util
import os
import shutil
import subprocess
import sys
import tempfile
import time

sys.dont_write_bytecode = True
TOOLS = os.path.dirname(os.path.realpath(__file__))
# More jobs for one check hardly help.
MOST_JOBS = 4
# A job reads all libraries below before it proves anything: so many of them take what one more job gives.
LIBRARIES_A_JOB = 5


def loaded(name, path):
    """A script without an ending as a module."""
    loader = importlib.machinery.SourceFileLoader(name, path)
    found = importlib.util.module_from_spec(importlib.util.spec_from_loader(name, loader))
    sys.modules[name] = found
    loader.exec_module(found)
    return found


rt = loaded("rt_command", os.path.realpath(shutil.which("rt")))


def crates_of(root):
    """The crates of the repository, by their names. It goes there, as the command does."""
    os.chdir(root)
    # Its first call sets a signal's handler, which only the main thread may.
    rt.rtlib.guarded()
    return {it.name: it for it in rt.rtlib.crates_below(root)}


def refusal(crate, edit, kept):
    """Whether an edit that is tried alone counts as refused, and what is said of it, as the toolchain's own command has it: a newer
    one answers by a word, an older one by a truth value."""
    came_to, said = rt.must_fail(crate, edit, ["--jobs", "1"], kept)
    return came_to if isinstance(came_to, bool) else came_to in (rt.REFUSED, rt.AT_LIMIT), said


def lanes():
    """How many checks run side by side."""
    return int(subprocess.run([sys.executable, f"{TOOLS}/jobs.py"], stdout=subprocess.PIPE, text=True).stdout)


def most_jobs(crate):
    """How many jobs the check of a crate may have."""
    return max(1, MOST_JOBS - len(crate.below()) // LIBRARIES_A_JOB)


def in_order(crates, work):
    """Calls work with each crate and how many jobs it may take, as many side by side as there are lanes, once it answered true
    of those below it that are among the crates, and first those with the most lines above them. Returns whether all did."""
    lines = {it: it.count(rb"\n") for it in crates}
    above = {it: lines[it] + sum(lines[other] for other in crates if it in other.below()) for it in crates}
    waiting, running, done, limit = sorted(crates, key=lambda it: -above[it]), {}, set(), lanes()
    with concurrent.futures.ThreadPoolExecutor(limit) as pool:
        while waiting or running:
            ready = [it for it in waiting if all(below in done or below not in lines for below in it.below())]
            idle = limit - sum(jobs for _, jobs in running.values())
            for at, crate in enumerate(ready):
                if idle > 0:
                    # Where nothing else runs or could, idle processors cost nothing.
                    most = MOST_JOBS if len(ready) == 1 and not running else most_jobs(crate)
                    jobs = max(1, min(most, idle // (len(ready) - at)))
                    running[pool.submit(work, crate, jobs)] = crate, jobs
                    waiting.remove(crate)
                    idle -= jobs
            if not running:
                return False
            for run in concurrent.futures.wait(running, return_when=concurrent.futures.FIRST_COMPLETED).done:
                crate, _ = running.pop(run)
                if run.result():
                    done.add(crate)
    return len(done) == len(lines)


def build(crates, tell):
    """Proves and builds these libraries, each after those below it, where they aren't built. It tells of each as it ends, and
    of one that fails what was said. What was built before an interruption isn't built again. Returns whether all are built."""
    left = [it for it in crates if not it.is_built()]
    ended = []

    def work(crate, jobs):
        started = time.monotonic()
        with tempfile.TemporaryFile("w+", errors="replace") as crate.out:
            well = crate.build_rlib(["--jobs", str(jobs)], anew=False) == 0
            crate.out.seek(0)
            said = crate.out.read()
        ended.append(crate)
        tell(f"{len(ended)} of {len(left)}: {crate.name} {'proved' if well else 'NOT PROVED'}, {time.monotonic() - started:.0f} s")
        if not well:
            tell(said)
        return well

    return in_order(left, work)
