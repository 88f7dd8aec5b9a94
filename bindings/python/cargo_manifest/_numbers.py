"""The numbers that an answer has, by the names that the header has for them."""
from __future__ import annotations

# (made by scripts/keys --write)
# the statuses
ACCEPTED = 0
NO_TOML = 1
SCHEMA = 2
IO = 3
NOT_UTF8 = 4
OTHER = 5
MEMORY = 6
DATE = 7
LISTINGS = 8
NO_WORKSPACE = 9
NOT_IN_WORKSPACE = 10
INHERITED_IN_WORKSPACE = 11
MIXED_LINTS = 12
TOOL_NAMED_WORKSPACE = 13
UNTAGGED = 14
TOO_DEEP = 15
ROOT_NO_TOML = 17
ROOT_SCHEMA = 18
ROOT_NOT_UTF8 = 20
ROOT_UNTAGGED = 30
ROOT_TOO_DEEP = 31
TOO_LONG = 32
NOT_A_VALUE = 33
NO_PLACE = 34
OVERLAP = 35
NOT_EDITED = 36
NOT_TEXT = 37
OFFSETS = 38
CONFIGURATION = 39
# the faults of a folder, which are the causes of IO
NOT_FOUND = 1
OUT_OF_MEMORY = 2
OTHER_FAULT = 3
# what is added to a status where it is of the root
OF_ROOT = 16
