#!/usr/bin/env python3
"""Prints how many checks of crates can run side by side here: one a processor, where there are 4 GB for each.

usage: tools/jobs.py

The program's check took 3.8 GB, and all others at most 2.5. What a control group grants counts, beside what
the machine has.
"""

import os
import re

BYTES_A_CHECK = 4_000_000_000
QUOTAS = [
    ("/sys/fs/cgroup/cpu.max", r"^(\d+)", "/sys/fs/cgroup/cpu.max", r" (\d+)"),
    ("/sys/fs/cgroup/cpu/cpu.cfs_quota_us", r"^(\d+)", "/sys/fs/cgroup/cpu/cpu.cfs_period_us", r"(\d+)"),
]
LIMITS = ["/sys/fs/cgroup/memory.max", "/sys/fs/cgroup/memory/memory.limit_in_bytes"]


def number_in(path, pattern):
    """The number that the file's text has there, or none."""
    try:
        with open(path, encoding="utf-8") as file:
            found = re.search(pattern, file.read(), re.M)
    except OSError:
        return None
    return int(found[1]) if found else None


def processors():
    """How many processors there are for us."""
    count = len(os.sched_getaffinity(0))
    for quota_path, quota_pattern, period_path, period_pattern in QUOTAS:
        quota, period = number_in(quota_path, quota_pattern), number_in(period_path, period_pattern)
        if quota and period:
            count = min(count, quota // period)
    return count


def memory():
    """How many bytes there are for us."""
    available = 1024 * (number_in("/proc/meminfo", r"^MemAvailable:\s+(\d+)") or 0)
    limits = [number_in(path, r"^(\d+)") for path in LIMITS]
    return min([available, *(limit for limit in limits if limit)])


if __name__ == "__main__":
    print(max(1, min(processors(), memory() // BYTES_A_CHECK)))
