"""`scripts/measure/speed picture`: how long manifests take to be read, by their sizes, as an SVG: a group of bars for each row of
the first table of a document but its last one, with a bar for each of its columns of times. The dark part of our bar is what the
last column has. The same table gives the same bytes."""
from math import ceil
from xml.sax.saxutils import escape

from shared.repository import TOP as REPOSITORY
from shared.tries import finish, told

DOCS = REPOSITORY / "docs"
TITLE = "Reading a real manifest by a Rust program: microseconds, by its bytes"
LOOK = """\
.page { fill: #ffffff } text { fill: #222222 } line { stroke: #d8d8d8 }
.c0 { fill: #56a5dc } .floor { fill: #0a5f96 } .c1 { fill: #d55e00 } .c2 { fill: #eda93f } .c3 { fill: #8c8c8c }
@media (prefers-color-scheme: dark) { .page { fill: #0d1117 } text { fill: #dddddd } line { stroke: #333a44 } }"""
WIDTH, LEFT, RIGHT, TOP, BOTTOM = 720, 44, 708, 92, 300
BAR, SPACE = 27, 2


def table(text):
    """The first table of a document: the names of its columns of times, and its rows but the last, each with its name, how many
    manifests it is of, and its times."""

    def number(cell):
        return float(cell.split()[0].replace(",", ""))

    lines = text[text.index("\n|") + 1 :].partition("\n\n")[0].splitlines()
    head, _, *rows = ([cell.strip().replace("`", "") for cell in line.strip("|").split("|")] for line in lines)
    return head[2:], [(name, count, [number(cell) for cell in cells]) for name, count, *cells in rows[:-1]]


def rect(x, top, width, bottom, look):
    return f'<rect x="{x:g}" y="{top:g}" width="{width:g}" height="{round(bottom - top, 1):g}" class="{look}"/>'


def words(x, y, text, anchor="middle", size=12):
    return f'<text x="{x:g}" y="{y:g}" text-anchor="{anchor}" font-size="{size}">{escape(text)}</text>'


def picture(text):
    """The SVG of a document's first table."""
    (*names, floor), rows = table(text)
    most = ceil(max(time for _, _, times in rows for time in times) / 50) * 50

    def up(time):
        return round(BOTTOM - time / most * (BOTTOM - TOP), 1)

    parts = [
        f'<svg xmlns="http://www.w3.org/2000/svg" viewBox="0 0 {WIDTH} {BOTTOM + 48}" width="{WIDTH}" height="{BOTTOM + 48}" '
        'role="img" font-family="sans-serif">',
        f"<title>{TITLE}</title>\n<style>\n{LOOK}\n</style>",
        rect(0, 0, WIDTH, BOTTOM + 48, "page"),
        words(WIDTH / 2, 24, TITLE, size=16),
    ]
    # what each colour is, in two rows
    looks = {"c0": names[0], "floor": f"of that, {floor}", **{f"c{n}": name for n, name in enumerate(names[1:], 1)}}
    for number, (look, name) in enumerate(looks.items()):
        x, y = LEFT + 240 * (number % 3), 50 + 20 * (number // 3)
        parts += [rect(x, y - 10, 14, y + 2, look), words(x + 20, y, name, "start")]
    for time in range(0, most + 1, 50):
        parts.append(f'<line x1="{LEFT}" y1="{up(time):g}" x2="{RIGHT}" y2="{up(time):g}"/>')
        parts.append(words(LEFT - 6, up(time) + 4, f"{time}", "end", 11))
    group = (RIGHT - LEFT) / len(rows)
    for number, (name, count, times) in enumerate(rows):
        middle = round(LEFT + group * (number + 0.5), 1)
        for bar, time in enumerate(times[:-1]):
            x = middle + (bar - len(names) / 2) * (BAR + SPACE)
            parts.append(rect(x, up(time), BAR, BOTTOM, f"c{bar}"))
            parts.append(words(x + BAR / 2, up(time) - 4, f"{time:.{int(time < 100)}f}", size=10))
            if bar == 0:
                parts.append(rect(x, up(times[-1]), BAR, BOTTOM, "floor"))
        manifests = "1 manifest" if count == "1" else f"{count} manifests"
        parts += [words(middle, BOTTOM + 18, name), words(middle, BOTTOM + 34, manifests, size=11)]
    return "\n".join([*parts, "</svg>\n"])


def write(file, text):
    """Writes the picture of a document."""
    file.write_text(picture(text), encoding="utf-8")


def check():
    """Counts whether docs/speed.svg is, byte for byte, what docs/SPEED.md gives."""
    due = picture((DOCS / "SPEED.md").read_text(encoding="utf-8"))
    is_due = (DOCS / "speed.svg").read_bytes() == due.encode()
    told("docs/speed.svg", None if is_due else "scripts/measure/speed picture docs/SPEED.md docs/speed.svg makes another one")
    finish()
