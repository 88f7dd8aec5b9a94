#!/usr/bin/env python3
"""How many proofs run at a time on this machine: as many as there are processors, and memory for.

    scripts/gate/lanes.py      prints what ./test sets RT_JOBS to, which is how many tasks `rt ci` runs at a time, or nothing

`rt ci` reserves memory for a crate by its lines and by those of all that it stands on, up to RESERVED, and runs a proof in several
processes where that is there more than once. Where it is there only once, the larger crates would be proved one after another,
each in one process, while other processors have nothing to do; but most of them take some half of it. There ./test says how many run,
by what the larger ones take. docs/GATE.md has what was measured.
"""
import os
import re
from pathlib import Path

# what rt ci reserves for the largest crate, in bytes
RESERVED = 9_400_000_000
# what a proof of one of the larger crates takes in one process: 3.3 to 5.7 GB
LARGE = 5_000_000_000
# what a round of edits takes: most 1 to 3.5 GB, that of cargo_manifest 5.6
TAKEN = 3_000_000_000
# the share of the free memory that rt ci reserves at most, and by how much a second process adds to a reservation
SHARE = 0.85
SECOND = 1.6


def number_in(file, pattern):
    """The number that stands in a file, or None."""
    try:
        found = re.search(pattern, Path(file).read_text(encoding="utf-8"))
    except OSError:
        return None
    return found and int(found[1])


def free_memory():
    """The memory that is free, in bytes: the machine's, or what the control group has left where that is less."""
    free = 1024 * (number_in("/proc/meminfo", r"MemAvailable:\s+(\d+)") or 0)
    limit, held = (number_in(f"/sys/fs/cgroup/memory.{it}", r"^(\d+)") for it in ("max", "current"))
    return free if limit is None or held is None else min(free, limit - held)


def lanes(free, processors, taken=TAKEN):
    """How many tasks run at a time: one a processor, as many as memory holds, and at least one."""
    return max(1, min(processors, int(SHARE * free) // taken))


def spare_lanes(free, processors):
    """How many further tasks run while rt ci does: on half of the processors, as many as memory holds that it does not take."""
    return max(0, min(processors // 2, int(SHARE * free - processors * TAKEN) // TAKEN))


def jobs(free, processors):
    """What RT_JOBS is set to, or None where rt ci is left to itself."""
    return lanes(free, processors, LARGE) if SHARE * free < SECOND * RESERVED else None


def processors():
    """How many processors there are to use."""
    return len(os.sched_getaffinity(0))


if __name__ == "__main__":
    found = jobs(free_memory(), processors())
    if found:
        print(found)
