"""A model of the program quote: reads a plan, prints its figures.

Usage: python3 tools/quote_model.py < input
"""

import sys

MOST_INPUT = 65536
HEAD = 14
MOST_TASKS = 16
MOST_LINES = 16
MOST_EVENTS = 16
LAYER_PLAN = 1
LAYER_PROGRAM = 4


class Refused(Exception):
    """A fault: its number, its place and its layer."""

    def __init__(self, number, place, layer):
        super().__init__(number, place, layer)
        self.number = number
        self.place = place
        self.layer = layer


def two_bytes(data, place):
    """The number in two bytes, low byte first."""
    return data[place] + 256 * data[place + 1]


def rank(rule, level):
    """The rank of a line with this level."""
    if rule == 1:
        return level // 32
    if rule == 2:
        return level // 64
    return 0


def read_plan(data):
    """The figures of the plan at the start of data, or Refused."""
    if len(data) < HEAD:
        raise Refused(1, len(data), LAYER_PLAN)
    if data[0:3] != b"PLN":
        raise Refused(2, 0, LAYER_PLAN)
    if two_bytes(data, 3) != 1:
        raise Refused(3, 3, LAYER_PLAN)

    tasks, lines, events = data[5], data[6], data[7]
    if tasks < 1 or tasks > MOST_TASKS:
        raise Refused(4, 5, LAYER_PLAN)
    if lines > MOST_LINES:
        raise Refused(4, 6, LAYER_PLAN)
    if events > MOST_EVENTS:
        raise Refused(4, 7, LAYER_PLAN)

    policy, rule = data[8], data[9]
    if policy not in (1, 2, 3):
        raise Refused(5, 8, LAYER_PLAN)
    if rule not in (1, 2, 3):
        raise Refused(5, 9, LAYER_PLAN)

    size = HEAD + tasks + lines + 2 * events
    if len(data) < size:
        raise Refused(1, len(data), LAYER_PLAN)

    # The places of all sets: start, favoured, then the wake sets.
    first_level = HEAD + tasks
    first_wake = first_level + lines
    places = [10, 12] + [first_wake + 2 * e for e in range(events)]
    for place in places:
        held = two_bytes(data, place)
        if any(held & (1 << t) for t in range(tasks, 16)):
            raise Refused(6, place, LAYER_PLAN)

    levels = data[first_level:first_wake]
    ranks = len({rank(rule, level) for level in levels})
    return [
        ("tasks", tasks),
        ("lines", lines),
        ("events", events),
        ("policy", policy),
        ("rule", rule),
        ("ranks", ranks),
        ("suspended", 1 + ranks),
        ("rest", len(data) - size),
    ]


def quote(data: bytes) -> tuple[int, str]:
    """The exit status and the full text on standard output."""
    try:
        if len(data) > MOST_INPUT:
            raise Refused(21, MOST_INPUT, LAYER_PROGRAM)
        figures = read_plan(data)
    except Refused as fault:
        return 1, f"refused {fault.number} {fault.place} {fault.layer}\n"
    return 0, "".join(f"{name} {value}\n" for name, value in figures)


def main():
    data = sys.stdin.buffer.read(MOST_INPUT + 1)
    status, text = quote(data)
    sys.stdout.buffer.write(text.encode("ascii"))
    sys.stdout.buffer.flush()
    return status


if __name__ == "__main__":
    sys.exit(main())
