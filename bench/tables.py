"""Tables of Markdown."""


def shown(number, digits):
    """The number with so many digits after the point; a dash where there is none."""
    return "-" if number is None else f"{number:.{digits}f}"


def print_table(rows):
    """Prints the rows, the first as the head, with columns aligned: the first to the left, the others to the right."""
    widths = [max(len(row[at]) for row in rows) for at in range(len(rows[0]))]
    lines = [[row[0].ljust(widths[0]), *(cell.rjust(width) for cell, width in zip(row[1:], widths[1:]))] for row in rows]
    rule = ["-" * widths[0], *("-" * (width - 1) + ":" for width in widths[1:])]
    for line in [lines[0], rule, *lines[1:]]:
        print("| " + " | ".join(line) + " |")
