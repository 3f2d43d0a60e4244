"""Tables as docs/SPEED.md has them, and how one takes the place of the one that stands there."""
from formats import TOP

SPEED = TOP / "docs/SPEED.md"


def lines_of(columns, rows):
    """The lines of a table."""
    told = [f"| {' | '.join(map(str, row))} |" for row in (columns, *rows)]
    return [told[0], "|---" * len(columns) + "|", *told[1:]]


def write(head, columns, rows):
    """Puts the table in the place of the first one behind the line of SPEED that begins so."""
    page = SPEED.read_text().split("\n")
    at = next((number for number, line in enumerate(page) if line.startswith(head)), None)
    if at is None:
        raise SystemExit(f"docs/SPEED.md has no line that begins with {head}")
    first = next(number for number in range(at, len(page)) if page[number].startswith("|"))
    last = next(number for number in range(first, len(page)) if not page[number].startswith("|"))
    page[first:last] = lines_of(columns, rows)
    SPEED.write_text("\n".join(page))
