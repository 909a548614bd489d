"""Draws the sheet in a file, and prints the drawing or the refusal as the program place does.

Exit status: 0 drawn, 1 refused, 2 the file cannot be read or the answer cannot be written.
"""

import sys

import strip


def text(sheet):
    """The total, then layer, position and place of each node."""
    drawing = strip.draw(sheet)
    counts, _ = strip.sizes(strip.read(sheet))
    lines = [f"total {drawing.total}"]
    place = iter(drawing.places)
    for layer, count in enumerate(counts, 1):
        for position in range(1, count + 1):
            lines.append(f"{layer} {position} {next(place)}")
    return "\n".join(lines)


def main(arguments):
    """Takes the file from the command line; the exit status."""
    if len(arguments) != 1:
        print("usage: draw.py FILE", file=sys.stderr)
        return 2
    try:
        with open(arguments[0], "rb") as file:
            sheet = file.read(strip.MAX_SHEET_BYTES + 1)
    except OSError as error:
        print(f"draw.py: {arguments[0]}: {error.strerror}", file=sys.stderr)
        return 2
    try:
        answer, status = text(sheet), 0
    except strip.Refusal as refusal:
        answer, status = refusal, 1
    try:
        with open(sys.stdout.fileno(), "w", closefd=False) as output:
            print(answer, file=output)
    except OSError as error:
        print(f"draw.py: {error.strerror}", file=sys.stderr)
        return 2
    return status


if __name__ == "__main__":
    sys.exit(main(sys.argv[1:]))
