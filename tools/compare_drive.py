"""Compares the program drive with its model on many inputs.

Usage: python3 tools/compare_drive.py PROGRAM [COUNT] [SEED]

PROGRAM is the path of the program; COUNT the number of random inputs (default 3000), SEED the seed of the random
generator (default 1). A few fixed inputs come first: the limits, and the longest run. A third of the random inputs is
damaged. The exit status is 0 only if all agree.
"""

import collections
import copy
import random
import subprocess
import sys

sys.dont_write_bytecode = True

from compare_quote import random_plan  # noqa: E402
from drive_model import CALLS, USE_NUMBER, drive, plan_of  # noqa: E402
from machine_model import Machine  # noqa: E402

HEAD = b"RUN\x01\x00"


def random_call(rng, plan):
    name = rng.choice(CALLS)
    if rng.random() < 0.3:
        name = "go"
    known = {"post": len(plan["wakes"]), "signal": 0}.get(name, len(plan["levels"]))
    if name == "signal":
        tasks = len(plan["priorities"])
        return name, rng.randrange(1 << (tasks if rng.random() < 0.9 else 16))
    if name in USE_NUMBER:
        return name, rng.randrange(known) if known and rng.random() < 0.95 else rng.randrange(256)
    return (name,)


def random_run(rng, plan, length):
    """Steps that are accepted more often than not."""
    machine = Machine(plan)
    out = bytearray(HEAD)
    for _ in range(length):
        for _ in range(rng.randrange(1, 6)):
            call = random_call(rng, plan)
            if copy.deepcopy(machine).call(*call)[0] in (0, 100, 101):
                break
        machine.call(*call)
        number = call[1] if call[0] in USE_NUMBER else 0
        tasks = call[1] if call[0] == "signal" else 0
        out += bytes([CALLS.index(call[0]) + 1, number]) + tasks.to_bytes(2, "little")
    return bytes(out)


def damaged(rng, data):
    make = rng.randrange(4)
    if make == 0:
        return data[:rng.randrange(len(data) + 1)]
    if make == 1:
        return data + bytes(rng.randrange(256) for _ in range(rng.randint(1, 5)))
    out = bytearray(data)
    for _ in range(rng.randint(1, 3)):
        out[rng.randrange(len(out))] = rng.choice([0, 1, 10, 11, 255, rng.randrange(256)])
    return bytes(out)


def inputs(rng, count):
    plan = random_plan(rng, tasks=3, lines=3, events=2).bytes()
    go = b"\x04\x00\x00\x00"
    steps = (65536 - len(plan) - len(HEAD)) // 4
    yield b""
    yield plan
    yield plan + HEAD
    yield plan + HEAD + go * steps
    yield plan + HEAD + go * (steps + 1)
    for size in (65535, 65536, 65537, 70000):
        yield (plan + HEAD + go * steps + bytes(9000))[:size]
    for _ in range(count):
        made = random_plan(rng)
        run = random_run(rng, plan_of(made.bytes()), rng.choice([0, 1, 5, 20, 80]))
        data = made.bytes() + run
        yield damaged(rng, data) if rng.random() < 1 / 3 else data


def main(argv):
    if not 2 <= len(argv) <= 4:
        sys.exit(__doc__)
    program = argv[1]
    count = int(argv[2]) if len(argv) > 2 else 3000
    rng = random.Random(int(argv[3]) if len(argv) > 3 else 1)
    kinds = collections.Counter()
    for data in inputs(rng, count):
        status, text = drive(data)
        kinds[" ".join(text.split()[:2]) if status else "driven"] += 1
        run = subprocess.run([program], input=data, capture_output=True, timeout=10, check=False)
        if (run.returncode, run.stdout, run.stderr) != (status, text.encode("ascii"), b""):
            print(f"differs on {data[:128].hex()} ({len(data)} bytes)")
            print(f"model {status} {text[:200]!r}\nprogram {run.returncode} {run.stdout[:200]!r} {run.stderr[:200]!r}")
            return 1
    for kind, times in sorted(kinds.items()):
        print(f"{kind}: {times}")
    print("agree")
    return 0


if __name__ == "__main__":
    sys.exit(main(sys.argv))
