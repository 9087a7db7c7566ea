"""An independent model of the machine, written from docs/MACHINE.md.

`Machine.call(name, number)` makes a call by its name and answers its two numbers; sets are numbers.
Usage: python3 tools/machine_model.py prints the example of fourteen calls, as ./run tour does.
"""

DIRECT, DELAYED = 0, 1


def task(t):
    return 2 + t


def handler(i):
    return 18 + i


def is_task(r):
    return 2 <= r < 18


def is_handler(r):
    return r >= 18


def priority(priorities, s, c):
    ready = [t for t in range(16) if s >> t & 1]
    return min(ready, key=lambda t: (-priorities[t], t)) if ready else None


def stay(priorities, s, c):
    c = min(c, 15)
    for k in range(16):
        t = (c + k) % 16
        if s >> t & 1:
            return t
    return None


def shared(priorities, s, c):
    ready = [t for t in range(16) if s >> t & 1]
    if not ready:
        return None
    top = max(priorities[t] for t in ready)
    return stay(priorities, sum(1 << t for t in ready if priorities[t] == top), c)


POLICIES = {1: priority, 2: stay, 3: shared}
RULES = {1: lambda level: level // 32, 2: lambda level: level // 64, 3: lambda level: 0}


class Machine:
    """plan: dict with policy, rule, start, favoured, priorities, levels, wakes."""

    def __init__(self, plan, choose=None, rank=None):
        self.tasks = len(plan["priorities"])
        self.lines = len(plan["levels"])
        self.events = len(plan["wakes"])
        self.wakes = plan["wakes"]
        padded = list(plan["priorities"]) + [0] * (16 - self.tasks)

        def by_plan(s, c):
            group = s & plan["favoured"]
            return POLICIES[plan["policy"]](padded, group if group else s, c)

        self.choose = choose or by_plan
        self.rank = rank or (lambda i: RULES[plan["rule"]](plan["levels"][i]))
        self.enabled = (1 << self.lines) - 1
        self.pending = 0
        self.delayed = True
        self.request = False
        self.active = DELAYED
        self.suspended = [task(0)]
        self.current = 0
        self.ready = plan["start"]
        self.posted = 0
        self.copied = 0
        self.chosen = None
        self.place = [0] * 16
        self.resume = [True] * 16
        self.kept = [0] * 16
        self.line = [0] * 16
        self.scheduler = 0

    def call(self, name, number=None):
        method = getattr(self, "raise_line" if name == "raise" else name)
        answer = method() if number is None else method(number)
        return answer, self.active

    def go_back(self):
        if self.request and self.delayed and is_task(self.suspended[0]):
            self.active, self.scheduler, self.request = DELAYED, 0, False
        else:
            self.active = self.suspended.pop(0)

    def raise_line(self, i):
        if i >= self.lines:
            return 11
        if self.pending >> i & 1:
            return 101
        self.pending |= 1 << i
        return 100

    def enter(self, i):
        if i >= self.lines:
            return 11
        if not self.pending >> i & 1:
            return 12
        if not self.enabled >> i & 1:
            return 13
        if handler(i) in [self.active] + self.suspended:
            return 14
        if is_handler(self.active) and self.rank(self.active - 18) <= self.rank(i):
            return 15
        self.pending &= ~(1 << i)
        self.suspended.insert(0, self.active)
        self.active, self.line[i] = handler(i), 1
        return 0

    def pend(self):
        if not self.request:
            return 16
        if not self.delayed:
            return 17
        if not is_task(self.active):
            return 18
        self.request = False
        self.suspended.insert(0, self.active)
        self.active, self.scheduler = DELAYED, 0
        return 0

    def go(self):
        if is_task(self.active):
            return self.go_task(self.active - 2)
        if is_handler(self.active):
            i = self.active - 18
            if self.line[i] == 1:
                return 19
            self.request, self.line[i] = True, 1
            return 0
        return self.go_scheduler()

    def go_task(self, t):
        p = self.place[t]
        if p == 0:
            return 19
        if p == 1:
            self.ready |= self.kept[t]
            self.place[t] = 2
        elif p == 2:
            self.request = True
            self.place[t] = 3
        elif p == 3:
            self.delayed = True
            self.place[t] = 4
        elif p == 4:
            if not self.request:
                self.place[t] = 0
        elif p == 5:
            self.ready &= ~(1 << t)
            self.place[t] = 6
        else:
            self.place[t] = 3
            self.suspended.insert(0, task(t))
            self.active, self.scheduler = DIRECT, 0
        return 0

    def go_scheduler(self):
        p = self.scheduler
        self.scheduler = p + 1
        if p == 0:
            self.copied = self.posted
        elif p == 1:
            for e in range(self.events):
                if self.copied >> e & 1:
                    self.ready |= self.wakes[e]
        elif p == 2:
            self.posted &= ~self.copied
        elif p == 3:
            t = self.choose(self.ready, self.current)
            if t is None:
                self.scheduler = 0
            else:
                self.chosen = t
        elif p == 4:
            self.resume[self.current] = self.active == DELAYED
        elif p == 5:
            self.current = self.chosen
            self.suspended[0] = task(self.chosen)
        elif p == 6:
            self.delayed = self.resume[self.current]
        else:
            self.scheduler = 7
            self.go_back()
        return 0

    def task_refusal(self):
        """Why the active routine is no task in application code."""
        if not is_task(self.active):
            return 18
        return 19 if self.place[self.active - 2] != 0 else 0

    def handler_refusal(self):
        """Why the active routine is no handler at place 1."""
        if not is_handler(self.active):
            return 18
        return 19 if self.line[self.active - 18] != 1 else 0

    def signal(self, s):
        refusal = self.task_refusal()
        if refusal:
            return refusal
        if s >> self.tasks:
            return 11
        t = self.active - 2
        self.kept[t], self.place[t], self.delayed = s, 1, False
        return 0

    def block(self):
        refusal = self.task_refusal()
        if not refusal:
            self.place[self.active - 2], self.delayed = 5, False
        return refusal

    def post(self, e):
        refusal = self.handler_refusal()
        if refusal:
            return refusal
        if e >= self.events:
            return 11
        self.posted |= 1 << e
        self.line[self.active - 18] = 2
        return 0

    def leave(self):
        refusal = self.handler_refusal()
        if not refusal:
            self.line[self.active - 18] = 0
            self.go_back()
        return refusal

    def set_enabled(self, i, on):
        if self.active in (DIRECT, DELAYED):
            return 18
        refusal = self.task_refusal() if is_task(self.active) else self.handler_refusal()
        if refusal:
            return refusal
        if i >= self.lines:
            return 11
        self.enabled = self.enabled | 1 << i if on else self.enabled & ~(1 << i)
        return 0

    def mask(self, i):
        return self.set_enabled(i, False)

    def unmask(self, i):
        return self.set_enabled(i, True)


EXAMPLE = {
    "policy": 1,
    "rule": 1,
    "start": 1,
    "favoured": 0,
    "priorities": [10, 20],
    "levels": [64],
    "wakes": [2],
}


def tour():
    machine = Machine(EXAMPLE)
    calls = [("go",)] * 8 + [("raise", 0), ("enter", 0), ("post", 0), ("leave",), ("go",), ("leave",)]
    for call in calls:
        answer, active = machine.call(*call)
        print(f"{' '.join(map(str, call))}: {answer} {active}")


if __name__ == "__main__":
    tour()
