"""Runs all tests of the package, from any folder:

    python3 bindings/python/tests

The library is the one that the package finds. The last line is 'N passed, M failed'; what is skipped is said, and
counts nothing.
"""
import sys
import unittest
from pathlib import Path

sys.dont_write_bytecode = True
HERE = Path(__file__).resolve().parent


def main() -> None:
    sys.path[0] = str(HERE.parent)
    suite = unittest.defaultTestLoader.discover(str(HERE), top_level_dir=str(HERE.parent))
    result = unittest.TextTestRunner(sys.stdout, buffer=True).run(suite)
    for test, why in result.skipped:
        print(f"not run: {test}: {why}")
    # (a test can fail in more than one of its cases)
    failed = {str(getattr(test, "test_case", test)) for test, _ in result.failures + result.errors}
    failed.update(str(test) for test in result.unexpectedSuccesses)
    passed = result.testsRun - len(result.skipped) - len(failed)
    print(f"{max(passed, 0)} passed, {len(failed)} failed")
    sys.exit(bool(failed) or passed <= 0)


if __name__ == "__main__":
    main()
