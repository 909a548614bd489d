"""Answers the questions of vectors/README.md with the library: a line of output for each line of input."""

import sys

import strip


def elements(field):
    """The numbers of a field."""
    return [] if field == "-" else [int(number) for number in field.split(",")]


def octets(field):
    """The bytes of a field."""
    return b"" if field == "-" else bytes.fromhex(field)


def listed(numbers):
    """Numbers as a field."""
    return ",".join(str(number) for number in numbers) or "-"


def need(count, room):
    """Refuses a slice with room for fewer elements."""
    if int(room) < count:
        raise strip.Refusal(strip.SLICE_SHORT, 0)


def read(room, sheet, reader=strip.read):
    """The numbers of a sheet."""
    numbers = reader(octets(sheet))
    need(len(numbers), room)
    return listed(numbers)


def write(room, numbers, writer=strip.write):
    """The bytes of a sheet."""
    written = writer(elements(numbers))
    need(len(written), room)
    return written.hex()


def draw(room, list_room, sheet):
    """The total and the places of a drawing."""
    counts, edges = strip.sizes(strip.read(octets(sheet)))
    need(sum(counts), room)
    need(edges + 2 * sum(counts), list_room)
    drawing = strip.draw(octets(sheet))
    return f"{drawing.total} {listed(drawing.places)}"


def check(sheet, places, certificate):
    """The checker's word."""
    return "yes" if strip.check(octets(sheet), elements(places), elements(certificate)) else "no"


def narrowest(sheet):
    """The minimum width and the least total there."""
    found = strip.narrowest(octets(sheet))
    return f"{found.width} {found.total}"


def totals(room, widths, sheet):
    """The total at each width, or what stands for none."""
    found = strip.totals(octets(sheet), elements(widths))
    need(len(found), room)
    return listed(strip.NO_TOTAL if total is None else total for total in found)


CALLS = {
    "read": read,
    "write": write,
    "draw": draw,
    "check": check,
    "narrowest": narrowest,
    "totals": totals,
    "read_drawing": lambda room, file: read(room, file, strip.read_drawing),
    "write_drawing": lambda room, numbers: write(room, numbers, strip.write_drawing),
}


def answer(question):
    """The answer to a question."""
    name, *fields = question.split()
    try:
        return CALLS[name](*fields)
    except strip.Refusal as refusal:
        return str(refusal)


if __name__ == "__main__":
    for line in sys.stdin:
        print(answer(line))
