"""The words of a command, and runs of others."""
import subprocess
import sys
from pathlib import Path

from .repository import TOP


def run(words, **more):
    """One run, with what it writes."""
    return subprocess.run(words, capture_output=True, text=True, timeout=600, **more)


def check_words(usage, words):
    """Ends where help is asked for, or where a word is an option, of which there is none but that."""
    if words == ["--help"]:
        print(f"usage: {usage}")
        sys.exit(0)
    if any(word.startswith("-") for word in words):
        wrong_words(usage)


def wrong_words(usage):
    """Ends where the words of the command are not such as its usage says."""
    print(f"usage: {usage}", file=sys.stderr)
    sys.exit(2)


def built_files(words):
    """The folder of the built files that is named, or else prebuilt/."""
    check_words(f"{Path(sys.argv[0]).resolve().relative_to(TOP)} [FOLDER]", words)
    return (Path(words[0]) if words else TOP / "prebuilt").resolve()
