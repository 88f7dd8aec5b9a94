"""Tables of figures, as docs/SPEED.md has them. A figure is a least one and, in brackets, the middle one; or one alone."""

# what the sizes of manifests and the steps of reading and writing are called in the rows
NAMES = {"small": "smallest", "typical": "typical", "large": "5,000 dependencies"}
STEPS = {"toml": "toml alone", "from_slice": "from_slice", "text": "with to_toml_string", "inspect": "toml and inspect"}


def beyond(whole, part):
    """What one takes beyond another, by each of its figures."""
    return tuple(a - b for a, b in zip(whole, part))


def over(one, other):
    """One over another, by each of its figures; None where one of them is not there."""
    return None if one is None or other is None else tuple(a / b for a, b in zip(one, other))


def shown(figure, unit=1, digits=2):
    """A figure with the middle one in brackets; a dash where there is none."""
    if figure is None:
        return "-"
    first, *others = (f"{part / unit:,.{digits}f}" for part in figure)
    return first + "".join(f" ({other})" for other in others)


def row(*cells):
    """Prints a row."""
    print("| " + " | ".join(cells) + " |", flush=True)


def head(title, *columns):
    """Prints the title of a table, and its first two rows."""
    print(f"\n{title}:\n")
    row(*columns)
    print("|" + "---|" * len(columns))
