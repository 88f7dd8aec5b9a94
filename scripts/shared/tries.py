"""What is tried: how many tries passed and failed, and what is not tried."""
import functools
import sys

counts = [0, 0]


def told(name, fault):
    """Counts one try, which has no fault or this one."""
    counts[fault is not None] += 1
    if fault is not None:
        print(f"{name}: {fault}")


@functools.cache
def not_run(what, why):
    """Says once what is not tried, because something is missing on this machine. It counts as neither passed nor failed;
    ./test counts these lines."""
    print(f"not run: {what}: {why}")


def ended(name, run):
    """Counts a run that has to end with status 0, and says whether it did."""
    told(name, None if run.returncode == 0 else f"status {run.returncode}\n{run.stdout}{run.stderr}")
    return run.returncode == 0


def counted(name, run, pattern):
    """Counts what a run reports as passed and failed; a run that reports nothing, or ends otherwise, has failed once."""
    found = pattern.findall(run.stdout)
    failed = sum(int(no) for _, no in found)
    counts[0] += sum(int(yes) for yes, _ in found)
    counts[1] += failed
    if not found or (run.returncode != 0 and failed == 0):
        counts[1] += 1
    if not found or run.returncode != 0:
        print(f"{name}: status {run.returncode}\n{run.stdout}{run.stderr}")


def finish(lacking=None):
    """The last line, and the status. Where something has to be tried, `lacking` says what was not there if nothing was."""
    if lacking is not None and not any(counts):
        told("nothing is tried", lacking)
    print(f"{counts[0]} passed, {counts[1]} failed")
    sys.exit(counts[1] != 0)
