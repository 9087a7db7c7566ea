"""A model of the program drive: a plan followed by a run, each step with its two numbers.

Usage: python3 tools/drive_model.py < input
Written from docs/FORMATS.md and docs/MACHINE.md, over the models of the quote and of the machine.
"""

import sys

sys.dont_write_bytecode = True

from machine_model import Machine  # noqa: E402
from quote_model import LAYER_PROGRAM, MOST_INPUT, Refused, read_plan, two_bytes  # noqa: E402

LAYER_RUN = 2
MOST_STEPS = 65535
CALLS = ["raise", "enter", "pend", "go", "signal", "block", "post", "leave", "mask", "unmask"]
USE_NUMBER = {"raise", "enter", "post", "mask", "unmask"}


def plan_of(data):
    """The parts of the plan that begins data, which is one."""
    tasks, lines, events = data[5], data[6], data[7]
    levels = 14 + tasks
    wakes = levels + lines
    return {
        "policy": data[8],
        "rule": data[9],
        "start": two_bytes(data, 10),
        "favoured": two_bytes(data, 12),
        "priorities": list(data[14:levels]),
        "levels": list(data[levels:wakes]),
        "wakes": [two_bytes(data, wakes + 2 * e) for e in range(events)],
    }


def read_run(data):
    """The steps of a run, each a code and the call with its number or set, or Refused."""
    if len(data) < 5:
        raise Refused(1, len(data), LAYER_RUN)
    if data[0:3] != b"RUN":
        raise Refused(2, 0, LAYER_RUN)
    if two_bytes(data, 3) != 1:
        raise Refused(3, 3, LAYER_RUN)
    cut = (len(data) - 5) % 4
    if cut:
        raise Refused(1, len(data) - cut, LAYER_RUN)
    if (len(data) - 5) // 4 > MOST_STEPS:
        raise Refused(9, 5 + 4 * MOST_STEPS, LAYER_RUN)
    steps = []
    for place in range(5, len(data), 4):
        code = data[place]
        if code < 1 or code > 10:
            raise Refused(7, place, LAYER_RUN)
        name = CALLS[code - 1]
        if name not in USE_NUMBER and data[place + 1]:
            raise Refused(8, place + 1, LAYER_RUN)
        for byte in (place + 2, place + 3):
            if name != "signal" and data[byte]:
                raise Refused(8, byte, LAYER_RUN)
        if name == "signal":
            steps.append((code, (name, two_bytes(data, place + 2))))
        elif name in USE_NUMBER:
            steps.append((code, (name, data[place + 1])))
        else:
            steps.append((code, (name,)))
    return steps


def drive(data):
    """The exit status and the full text on standard output."""
    try:
        if len(data) > MOST_INPUT:
            raise Refused(21, MOST_INPUT, LAYER_PROGRAM)
        rest = dict(read_plan(data))["rest"]
        steps = read_run(data[len(data) - rest:])
    except Refused as fault:
        return 1, f"refused {fault.number} {fault.place} {fault.layer}\n"
    machine = Machine(plan_of(data))
    rows = ["step code answer active"]
    for ordinal, (code, call) in enumerate(steps):
        answer, active = machine.call(*call)
        rows.append(f"{ordinal} {code} {answer} {active}")
    return 0, "\n".join(rows) + "\n"


def main():
    status, text = drive(sys.stdin.buffer.read(MOST_INPUT + 1))
    sys.stdout.write(text)
    return status


if __name__ == "__main__":
    sys.exit(main())
