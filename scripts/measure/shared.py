"""The package scripts/shared, for the scripts of this folder: Python looks for what they import next to them."""
from pathlib import Path

__path__ = [str(Path(__file__).resolve().parent.parent / "shared")]
