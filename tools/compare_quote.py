"""Compares a quote program with the model on many inputs.

Usage: python3 tools/compare_quote.py PROGRAM [COUNT] [SEED]

PROGRAM is the path of the quote program; a .py file is run with python3.
COUNT is the number of inputs (default 5000). The fixed inputs are always
compared, even if COUNT is smaller; random ones fill up the count.
SEED is the seed of the random generator (default 1).
The exit status is 0 only if all agree.
"""

import collections
import concurrent.futures
import os
import random
import resource
import subprocess
import sys

sys.dont_write_bytecode = True

from quote_model import quote  # noqa: E402

WORKERS = 2
MOST_SHOWN = 5
MOST_HEX = 128
WAIT = 10
BORDERS = [0, 31, 32, 63, 64, 95, 96, 127, 128, 255]
WIDE = sorted(
    set(range(0, 21)) | {31, 32, 33, 63, 64, 65, 127, 128, 129, 254, 255}
)


# Building plans.

class Plan:
    """The parts of a plan; any part may be put wrong before bytes()."""

    def __init__(self, priorities, levels, wakes, policy=1, rule=1,
                 start=0, favoured=0):
        self.priorities = list(priorities)
        self.levels = list(levels)
        self.wakes = list(wakes)
        self.policy = policy
        self.rule = rule
        self.start = start
        self.favoured = favoured

    def bytes(self):
        out = bytearray(b"PLN\x01\x00")
        out += bytes([len(self.priorities), len(self.levels), len(self.wakes)])
        out += bytes([self.policy, self.rule])
        out += self.start.to_bytes(2, "little")
        out += self.favoured.to_bytes(2, "little")
        out += bytes(self.priorities)
        out += bytes(self.levels)
        for wake in self.wakes:
            out += wake.to_bytes(2, "little")
        return bytes(out)


def random_bytes(rng, size):
    return bytes(rng.randrange(256) for _ in range(size))


def random_levels(rng, count):
    """Levels of a random make: all equal, borders, close or any."""
    make = rng.randrange(4)
    if make == 0:
        return [rng.randrange(256)] * count
    if make == 1:
        return [rng.choice(BORDERS) for _ in range(count)]
    if make == 2:
        low = rng.randrange(256 - 40)
        return [low + rng.randrange(40) for _ in range(count)]
    return [rng.randrange(256) for _ in range(count)]


def random_plan(rng, tasks=None, lines=None, events=None, policy=None,
                rule=None, levels=None):
    """A valid plan; the parts that are not given are random."""
    if tasks is None:
        tasks = rng.randint(1, 16)
    if levels is None:
        if lines is None:
            lines = rng.randint(0, 16)
        levels = random_levels(rng, lines)
    if events is None:
        events = rng.randint(0, 16)

    def some_set():
        return rng.choice([0, (1 << tasks) - 1, rng.randrange(1 << tasks)])

    return Plan(
        [rng.randrange(256) for _ in range(tasks)],
        levels,
        [some_set() for _ in range(events)],
        policy or rng.randint(1, 3),
        rule or rng.randint(1, 3),
        some_set(),
        some_set(),
    )


def rest(rng, make):
    """Bytes after the plan: 0 none, 1 a few, 2 many."""
    if make == 0:
        return b""
    if make == 1:
        return random_bytes(rng, rng.randint(1, 20))
    return bytes([rng.randrange(256)]) * rng.randint(1000, 60000)


def changed(data, place, value):
    out = bytearray(data)
    out[place] = value
    return bytes(out)


def lacking_set(rng, tasks):
    """A set that holds at least one task that the plan lacks."""
    return (1 << rng.randrange(tasks, 16)) | rng.randrange(1 << 16)


# Making inputs.

def valid_inputs(rng):
    # Every pair of tasks and lines, and every pair of tasks and events.
    for tasks in range(1, 17):
        for count in range(17):
            plan = random_plan(rng, tasks=tasks, lines=count)
            yield plan.bytes() + rest(rng, rng.randrange(2))
            plan = random_plan(rng, tasks=tasks, events=count)
            yield plan.bytes() + rest(rng, rng.randrange(2))
    # Least and greatest counts, with every policy, rule and make of rest.
    for tasks in (1, 16):
        for lines in (0, 16):
            for events in (0, 16):
                for policy in (1, 2, 3):
                    for rule in (1, 2, 3):
                        for make in (0, 1, 2):
                            plan = random_plan(rng, tasks, lines, events,
                                               policy, rule)
                            yield plan.bytes() + rest(rng, make)
    # Sets that hold every task of the plan.
    for tasks in range(1, 17):
        plan = random_plan(rng, tasks=tasks, events=3)
        full = (1 << tasks) - 1
        plan.start = plan.favoured = full
        plan.wakes = [full] * 3
        yield plan.bytes()


def level_inputs(rng):
    for rule in (1, 2, 3):
        lists = [[32, 64, 96], [], BORDERS, list(range(0, 256, 16))]
        for border in BORDERS:
            lists += [[border], [border] * 16]
        # Both sides of every border, and all pairs of the chosen levels.
        for border in range(32, 256, 32):
            lists.append([border - 1, border])
        for i, first in enumerate(BORDERS):
            for second in BORDERS[i + 1:]:
                lists.append([second, first])
        for _ in range(30):
            size = rng.randint(1, 16)
            lists.append([rng.choice(BORDERS) for _ in range(size)])
        for levels in lists:
            yield random_plan(rng, rule=rule, levels=levels).bytes()


def prefix_inputs(rng):
    plans = [
        EXAMPLE,
        random_plan(rng, 1, 0, 0).bytes(),
        random_plan(rng, 16, 16, 16).bytes(),
        random_plan(rng, 5, 4, 7).bytes(),
        random_plan(rng, 3, 0, 9).bytes(),
    ]
    for data in plans:
        for size in range(len(data) + 1):
            yield data[:size]


def one_change_inputs(rng):
    plans = [
        EXAMPLE,
        random_plan(rng, 7, 5, 6).bytes(),
        random_plan(rng, 16, 16, 16).bytes(),
    ]
    for data in plans:
        for place, old in enumerate(data):
            values = {0, 255, old ^ 1, (old + 1) % 256, rng.randrange(256)}
            if place < 10:
                values.update(WIDE)
            elif place < 14:
                values.update(1 << bit for bit in range(8))
            values.discard(old)
            for value in sorted(values):
                yield changed(data, place, value)


def two_change_input(rng):
    data = random_plan(rng).bytes()
    low = min(len(data), rng.choice([14, len(data)]))
    first, second = rng.sample(range(low), 2)
    data = changed(data, first, rng.choice(WIDE))
    data = changed(data, second, rng.choice(WIDE))
    return data + rest(rng, rng.randrange(2))


def two_fault_inputs(rng):
    # Every pair of faults in the head, whole and cut short.
    faults = [(0, 112), (2, 0), (3, 2), (4, 1), (5, 0), (5, 17), (6, 17),
              (7, 17), (8, 0), (8, 4), (9, 0), (9, 4), (11, 128), (13, 128)]
    for i, (place, value) in enumerate(faults):
        for other_place, other_value in faults[i:]:
            data = random_plan(rng, 9, 3, 2).bytes()
            data = changed(data, place, value)
            data = changed(data, other_place, other_value)
            yield data
            yield data[:rng.choice([13, 14, len(data) - 1])]
        # Single faults at each of the short sizes.
        data = changed(random_plan(rng, 9, 3, 2).bytes(), place, value)
        for size in (12, 13, 14, 15, len(data) - 1):
            yield data[:size]


def lacking_inputs(rng):
    for tasks in range(1, 16):
        for bit in {tasks, 15}:
            plan = random_plan(rng, tasks=tasks)
            plan.start |= 1 << bit
            yield plan.bytes()
            plan = random_plan(rng, tasks=tasks)
            plan.favoured |= 1 << bit
            yield plan.bytes()
            plan = random_plan(rng, tasks=tasks, events=rng.randint(1, 16))
            plan.wakes[rng.randrange(len(plan.wakes))] |= 1 << bit
            yield plan.bytes()
    for event in range(16):
        for events in {event + 1, 16}:
            plan = random_plan(rng, tasks=rng.randint(1, 15), events=events)
            plan.wakes[event] = lacking_set(rng, len(plan.priorities))
            yield plan.bytes()


def many_lacking_input(rng):
    tasks = rng.randint(1, 15)
    plan = random_plan(rng, tasks=tasks, events=rng.randint(2, 16))
    if rng.randrange(3) == 0:
        plan.start = lacking_set(rng, tasks)
    if rng.randrange(3) == 0:
        plan.favoured = lacking_set(rng, tasks)
    for event in range(len(plan.wakes)):
        if rng.randrange(4) == 0:
            plan.wakes[event] = lacking_set(rng, tasks)
    return plan.bytes() + rest(rng, rng.randrange(2))


def garbage_input(rng):
    """Random bytes, often after the first parts of a sound head."""
    start = rng.choice([
        b"",
        b"PLN",
        b"PLN\x01\x00",
        b"PLN\x01\x00" + bytes([rng.randint(1, 16), rng.randint(0, 16),
                                rng.randint(0, 16)]),
        b"PLN\x01\x00" + bytes([rng.randint(14, 16), rng.randint(0, 16),
                                rng.randint(0, 16), rng.randint(1, 3),
                                rng.randint(1, 3)]),
    ])
    return start + random_bytes(rng, rng.randint(0, 100))


def long_inputs(rng):
    for size in (65535, 65536, 65537, 65538, 70000, 131072):
        plans = [
            EXAMPLE,
            random_plan(rng, 1, 0, 0).bytes(),
            random_plan(rng, 16, 16, 16).bytes(),
            many_lacking_input(rng),
            b"",
        ]
        for data in plans:
            yield data + bytes(size - len(data))
            yield data + random_bytes(rng, size - len(data))


def any_input(rng):
    """One random input, for filling up the count."""
    make = rng.randrange(6)
    if make == 0:
        return two_change_input(rng)
    if make == 1:
        return many_lacking_input(rng)
    if make == 2:
        return garbage_input(rng)
    if make == 3:
        data = random_plan(rng).bytes()
        return changed(data, rng.randrange(len(data)), rng.randrange(256))
    if make == 4:
        data = random_plan(rng).bytes()
        return data[:rng.randint(0, len(data))]
    long_one = rng.randrange(20) == 0
    return random_plan(rng).bytes() + rest(rng, 2 if long_one
                                           else rng.randrange(2))


def all_inputs(rng, count):
    inputs = [b""]
    inputs += [data for data, _, _ in EXAMPLES]
    for make in (valid_inputs, level_inputs, prefix_inputs, one_change_inputs,
                 two_fault_inputs, lacking_inputs, long_inputs):
        inputs += make(rng)
    for make, times in ((two_change_input, 300), (many_lacking_input, 150),
                        (garbage_input, 250)):
        inputs += [make(rng) for _ in range(times)]
    while len(inputs) < count:
        inputs.append(any_input(rng))
    return inputs


# Examples with known answers, to check the model itself.

EXAMPLE = bytes.fromhex("504C4E01000201010101010000000A14400200")


def examples():
    def figures(tasks, lines, events, policy, rule, ranks, suspended, after):
        return (f"tasks {tasks}\nlines {lines}\nevents {events}\n"
                f"policy {policy}\nrule {rule}\nranks {ranks}\n"
                f"suspended {suspended}\nrest {after}\n")

    out = [
        (EXAMPLE, 0, figures(2, 1, 1, 1, 1, 1, 2, 0)),
        (EXAMPLE + b"abc", 0, figures(2, 1, 1, 1, 1, 1, 2, 3)),
        (EXAMPLE[:-1], 1, "refused 1 18 1\n"),
        (EXAMPLE[:13], 1, "refused 1 13 1\n"),
        (EXAMPLE[:14], 1, "refused 1 14 1\n"),
        (b"", 1, "refused 1 0 1\n"),
        (changed(EXAMPLE, 1, 0), 1, "refused 2 0 1\n"),
        (changed(EXAMPLE, 4, 1), 1, "refused 3 3 1\n"),
        (changed(EXAMPLE, 5, 0), 1, "refused 4 5 1\n"),
        (changed(EXAMPLE, 5, 17), 1, "refused 4 5 1\n"),
        (changed(EXAMPLE, 6, 17), 1, "refused 4 6 1\n"),
        (changed(EXAMPLE, 7, 17), 1, "refused 4 7 1\n"),
        (changed(EXAMPLE, 8, 4), 1, "refused 5 8 1\n"),
        (changed(EXAMPLE, 9, 0), 1, "refused 5 9 1\n"),
        (changed(EXAMPLE, 10, 4), 1, "refused 6 10 1\n"),
        (changed(EXAMPLE, 13, 1), 1, "refused 6 12 1\n"),
        (changed(EXAMPLE, 18, 128), 1, "refused 6 17 1\n"),
        (EXAMPLE + bytes(65536 - 19), 0,
         figures(2, 1, 1, 1, 1, 1, 2, 65517)),
        (EXAMPLE + bytes(65537 - 19), 1, "refused 21 65536 4\n"),
    ]
    for rule, ranks in ((1, 3), (2, 2), (3, 1)):
        data = Plan([5], [32, 64, 96], [], 2, rule).bytes()
        out.append((data, 0, figures(1, 3, 0, 2, rule, ranks, ranks + 1, 0)))
        data = Plan([5], [], [1], 3, rule).bytes()
        out.append((data, 0, figures(1, 0, 1, 3, rule, 0, 1, 0)))
    return out


EXAMPLES = examples()


# Counting the kinds of answers.

NEEDED = (
    ["read", "1 at less than 14", "1 at 14 or more", "2 at 0", "3 at 3",
     "4 at 5", "4 at 6", "4 at 7", "5 at 8", "5 at 9", "6 at 10", "6 at 12",
     "21 at 65536"]
    + [f"6 at wake set {event}" for event in range(16)]
)


def kind(data, text):
    """The kind of an answer, and its refusal number or None."""
    words = text.split()
    if words[0] != "refused":
        return "read", None
    number, place = int(words[1]), int(words[2])
    if number == 1:
        where = "less than 14" if place < 14 else "14 or more"
    elif number == 6 and place >= 14:
        where = f"wake set {(place - 14 - data[5] - data[6]) // 2}"
    else:
        where = str(place)
    return f"{number} at {where}", number


# Running the program.

LATE = []  # the inputs that had no answer in time


def run(command, data):
    """The status and output of the program, or None and the trouble."""
    if len(LATE) >= MOST_SHOWN:
        return None, b"not run, too many had no answer in time"
    try:
        done = subprocess.run(command, input=data, stdout=subprocess.PIPE,
                              stderr=subprocess.PIPE, timeout=WAIT)
    except subprocess.TimeoutExpired:
        LATE.append(data)
        return None, b"no answer in time"
    except OSError as trouble:
        return None, str(trouble).encode()
    if done.stderr:
        return None, b"on standard error: " + done.stderr
    return done.returncode, done.stdout


def limit_memory():
    # A program that keeps an endless input must not fill the machine.
    resource.setrlimit(resource.RLIMIT_AS, (1 << 30, 1 << 30))


def run_endless(command):
    """As run, with an input that never ends."""
    source = subprocess.Popen(["yes"], stdout=subprocess.PIPE,
                              stderr=subprocess.DEVNULL)
    try:
        program = subprocess.Popen(command, stdin=source.stdout,
                                   stdout=subprocess.PIPE,
                                   stderr=subprocess.DEVNULL,
                                   preexec_fn=limit_memory)
        source.stdout.close()
        try:
            out, _ = program.communicate(timeout=WAIT)
        except subprocess.TimeoutExpired:
            program.kill()
            program.communicate()
            return None, b"no answer in time"
        return program.returncode, out
    except OSError as trouble:
        return None, str(trouble).encode()
    finally:
        source.kill()
        source.wait()


def show(name, expected, got):
    print(f"difference on {name}")
    print(f"  expected {expected[0]} {expected[1]!r}")
    print(f"  got      {got[0]} {got[1]!r}")


def in_hex(data):
    text = data[:MOST_HEX].hex(" ")
    if len(data) > MOST_HEX:
        text += " ..."
    return f"{len(data)} bytes: {text}"


def main(words):
    if not 1 <= len(words) <= 3:
        print(__doc__.strip(), file=sys.stderr)
        return 2
    program = os.path.abspath(words[0])
    count = int(words[1]) if len(words) > 1 else 5000
    seed = int(words[2]) if len(words) > 2 else 1
    if not os.path.isfile(program):
        print(f"no such program: {program}", file=sys.stderr)
        return 2
    command = [program]
    if program.endswith(".py"):
        command = [sys.executable or "python3", "-I", "-S", "-B", program]

    sound = True
    for data, status, text in EXAMPLES:
        if quote(data) != (status, text):
            sound = False
            print("the model is wrong on an example")
            show(in_hex(data), (status, text), quote(data))

    inputs = all_inputs(random.Random(seed), count)
    kinds = collections.Counter()
    numbers = collections.Counter()
    wrong = 0
    with concurrent.futures.ThreadPoolExecutor(WORKERS) as pool:
        answers = pool.map(lambda data: run(command, data), inputs)
        for data, got in zip(inputs, answers):
            status, text = quote(data)
            name, number = kind(data, text)
            kinds[name] += 1
            numbers[number] += 1
            expected = (status, text.encode("ascii"))
            if got != expected:
                wrong += 1
                if wrong <= MOST_SHOWN:
                    show(in_hex(data), expected, got)

    expected = (1, b"refused 21 65536 4\n")
    got = run_endless(command)
    if got != expected:
        wrong += 1
        show("an endless input", expected, got)

    missing = [name for name in NEEDED if not kinds[name]]
    print(f"seed {seed}")
    print(f"inputs compared {len(inputs)}, and one endless input")
    print(f"read {numbers.pop(None, 0)}")
    for number in sorted(numbers):
        print(f"refused {number}: {numbers[number]}")
    for name in missing:
        print(f"never met: {name}")
    if wrong:
        print(f"differences {wrong}")
    if wrong or missing or not sound:
        return 1
    print("agree")
    return 0


if __name__ == "__main__":
    sys.exit(main(sys.argv[1:]))
