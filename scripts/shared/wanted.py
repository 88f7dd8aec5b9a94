"""What scripts/try/answers and scripts/library share: what is expected of a run on each manifest and folder of
tests/rust-answers. It is a table, which has to be printed, or a refusal: one of some lines, or one line of a pattern."""
import re
import tomllib

from .runs import NO_LIBRARY, differs_from_refusal, differs_from_table, stored

CAUSES = ["wrong kind", "missing", "two spellings", "not a choice", "out of range", "not true", "holds a float", "metadata"]
# the line that is expected where the crate refused in this way
REFUSED = {
    True: re.compile(f"error: schema: (?:{'|'.join(CAUSES)}) at .+"),
    "other": [f"error: other: {NO_LIBRARY}"],
}


def wanted_of(case):
    """What is expected where this project answers as the crate did."""
    return REFUSED[case["refused"]] if "refused" in case else tomllib.loads(case["answer"])


def wanted_otherwise(answer, case):
    """The table that this project answers in place of the crate's: with the named keys in it."""
    for added in case["default-features"]:
        at = answer
        for key in added["of"]:
            at = at[key]
        if at.get("workspace") is not True or "default-features" in at:
            raise ValueError(f"no inherited dependency without default-features at {added['of']}")
        at["default-features"] = added["is"]
    return answer


def wanted_of_manifests():
    """Each stored manifest: its name, its text, and what is expected of a run on it."""
    otherwise = {case["manifest"]: case for case in stored("otherwise.jsonl")}
    for number, case in enumerate(stored("manifests.jsonl"), 1):
        here = otherwise.pop(number, None)
        if here is None:
            yield f"manifest {number}", case["input"], wanted_of(case)
        else:
            wanted = here["refused"] if "refused" in here else wanted_otherwise(wanted_of(case), here)
            yield f"manifest {number}, answered otherwise on purpose", case["input"], wanted
    if otherwise:
        raise ValueError(f"otherwise.jsonl names manifests that are not there: {sorted(otherwise)}")


def differs(said, wanted):
    """How a run differs from what is expected of it, or None."""
    return differs_from_table(said, wanted) if isinstance(wanted, dict) else differs_from_refusal(said, wanted)
