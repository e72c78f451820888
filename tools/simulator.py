#!/usr/bin/env python3
"""An outside simulator: what the programs have to print, worked out from the prose in docs/ alone.

    python3 tools/simulator.py edfi  < text     prints what edfi has to print
    python3 tools/simulator.py trace < input    prints what trace has to print

As a library: read(text) gives a table's records, admit(records) their idle instant, run(table, calls) the lines of a run. Where the
product refuses, read, admit and the calls of Machine raise Refused with the numbers that are returned; run writes them into its lines.
Nothing here is taken from the product: it is a second reading of TABLE.md, ADMISSION.md and MACHINE.md, kept as near to their words as
Python allows.
"""
import heapq
import re
import sys
from dataclasses import dataclass

LIMIT = 1048576            # the greatest number in a text
HORIZON = 1048576          # the last instant that admission judges
LONGEST = 16384            # bytes of a text
TASKS, SECTIONS, OPEN = 32, 64, 8
LAST = 281474976710655     # the last instant that the clock can show
ENTRIES = 4294967295       # how many entries can be made
NOBODY = 32                # the running task, where none runs


class Refused(Exception):
    """A refusal: its number, then what is returned with it."""

    def __init__(self, *numbers):
        super().__init__(*numbers)
        self.numbers = numbers

    def __str__(self):
        return " ".join(["refused"] + [str(n) for n in self.numbers])


@dataclass
class Task:
    name: bytes
    place: int             # of the name in the text, from 0
    deadline: int
    period: int
    cost: int
    first: int             # its first section, or the next number if it has none
    count: int


@dataclass
class Section:
    task: int
    around: object         # the section right around it, or None
    small: int
    capital: int
    length: int
    level: object          # or None


@dataclass
class Records:
    tasks: list
    sections: list


# Reading: a line

SMALL, CAPITAL, DIGIT = b"abcdefghijklmnopqrstuvwxyz", b"ABCDEFGHIJKLMNOPQRSTUVWXYZ", b"0123456789"


class FormError(Exception):
    """The place, from 0, of the first byte that cannot stand in the line. The text's end counts as a byte."""


class Line:
    """A line's parts, taken from the left one after another; every place is from 0 in the line. What was taken can always be followed by
    something, so the first byte that does not fit is the one to blame."""

    def __init__(self, line):
        self.line, self.at = line, 0
        self.name = self.row(SMALL, 8)
        self.times = [self.number_after(word) for word in (b": D=", b" T=", b" C=")]
        self.sections = []                               # place, digits, letters with their places, around, how many are around it
        while self.ahead(b" "):
            self.one(b" ")
            self.outermost()
        self.one(b"\n")

    def ahead(self, some):
        return self.at < len(self.line) and self.line[self.at] in some

    def one(self, some):
        if not self.ahead(some):
            raise FormError(self.at)
        self.at += 1

    def row(self, some, most):
        """One or more bytes of a kind, as many as there are."""
        start = self.at
        self.one(some)
        while self.ahead(some) and self.at - start < most:
            self.at += 1
        return self.line[start:self.at]

    def number_after(self, word):
        for byte in word:
            self.one((byte,))
        return self.at, self.row(DIGIT, LONGEST)         # the form allows any number of digits

    def outermost(self):
        """A section with all that is inside it; the form allows any depth."""
        opened = []
        self.open(opened)
        while opened:
            me = opened[-1]
            self.one(b" ")
            if self.ahead(DIGIT):
                self.open(opened)
            elif self.ahead(SMALL + CAPITAL) and me == len(self.sections) - 1:     # letters come before inner sections
                letter = self.line[self.at:self.at + 1]
                self.sections[me][2].append((self.at, letter.lower(), letter))
                self.at += 1
            else:
                self.one(b"}")
                opened.pop()

    def open(self, opened):
        place, digits = self.number_after(b"")
        self.one(b"{")
        self.sections.append((place, digits, [], opened[-1] if opened else None, len(opened)))
        opened.append(len(self.sections) - 1)

    def breaches(self, tasks, sections):
        """Rule by rule, the places where it is broken; there is room for so many more tasks and sections. A rule may count on those
        before it, since the lowest number wins."""
        numbers = self.times + [(place, digits) for place, digits, _, _, _ in self.sections]
        yield 4, [place for place, digits in numbers if not in_range(digits)]
        deadline, period, cost = (int(digits) for _, digits in self.times)
        yield 5, [] if cost <= deadline <= period else [0]
        yield 6, [] if tasks > 0 else [0]
        yield 7, [s[0] for n, s in enumerate(self.sections) if n >= sections or s[4] >= OPEN]
        yield 8, self.repeated()
        bound = lambda around: cost if around is None else int(self.sections[around][1])
        yield 9, [place for place, digits, _, around, _ in self.sections if int(digits) > bound(around)]

    def repeated(self):
        """The letters whose resource stands before them in the section or in one of those around it."""
        found, held = [], []
        for _, _, letters, around, _ in self.sections:
            mine = set() if around is None else set(held[around])
            for place, resource, _ in letters:
                if resource in mine:
                    found.append(place)
                mine.add(resource)
            held.append(mine)
        return found


def in_range(digits):
    return digits[:1] != b"0" and len(digits) <= len(str(LIMIT)) and 1 <= int(digits) <= LIMIT


def read(text, room_tasks=TASKS, room_sections=SECTIONS):
    """The records of a text, or a refusal from 1 to 9."""
    if len(text) > LONGEST:
        raise Refused(1)
    if not text:
        raise Refused(2)
    room_tasks, room_sections = min(room_tasks, TASKS), min(room_sections, SECTIONS)
    tasks, sections, start = [], [], 0
    for line in re.findall(rb"[^\n]*\n|[^\n]+", text):   # the first bad line decides
        number = len(tasks) + 1
        try:
            parts = Line(line)
        except FormError as error:
            raise Refused(3, number, error.args[0] + 1) from None
        for rule, places in parts.breaches(room_tasks - len(tasks), room_sections - len(sections)):
            if places:                                   # of several breaches of one rule the earliest
                raise Refused(rule, number, min(places) + 1)
        first = len(sections)
        for _, digits, letters, around, _ in parts.sections:
            sections.append(Section(len(tasks), None if around is None else first + around, letter_set(letters, SMALL),
                                    letter_set(letters, CAPITAL), int(digits), None))
        deadline, period, cost = (int(digits) for _, digits in parts.times)
        tasks.append(Task(parts.name, start, deadline, period, cost, first, len(parts.sections)))
        start += len(line)
    records = Records(tasks, sections)
    for section, level in zip(sections, levels(records)):
        section.level = level
    return records


def letter_set(letters, kind):
    return sum(1 << resource[0] - 97 for _, resource, letter in letters if letter in kind)


def levels(records):
    """Of each section the least level of the resources that it names itself; of a resource the least D of the tasks that name it."""
    of = {}
    for s in records.sections:
        for resource in named(s):
            of[resource] = min(of.get(resource, LIMIT), records.tasks[s.task].deadline)
    return [min((of[resource] for resource in named(s)), default=None) for s in records.sections]


def named(section):
    both = section.small | section.capital
    return [resource for resource in range(both.bit_length()) if both >> resource & 1]


# Admission

def demand(tasks, t):
    return sum(k.cost * ((t - k.deadline + k.period) // k.period) for k in tasks)


def workload(tasks, t):
    return sum(k.cost * -(-t // k.period) for k in tasks)


def blocking(records, t):
    """The longest section with a level of at most t, of a task whose D is above t."""
    return max((s.length for s in records.sections
                if s.level is not None and s.level <= t < records.tasks[s.task].deadline), default=0)


def idle_instant(tasks):
    """The least t from 1 on with W(t) = t, or None if it is past the horizon: W never falls, so going on to W(t) passes none."""
    t = 1
    while t <= HORIZON:
        done = workload(tasks, t)
        if done == t:
            return t
        t = done
    return None


def admit(records):
    """The idle instant, or a refusal from 10 to 12."""
    if not sound(records):
        raise Refused(10)
    tasks, idle = records.tasks, idle_instant(records.tasks)
    last = HORIZON if idle is None else idle
    # Only deadlines can be the first to fail, so the judged instants are gone through from deadline to deadline. Demand goes up by C
    # at each; blocking can change only at instants that are some task's D.
    asked, held, changes = 0, 0, {k.deadline for k in tasks}
    coming = [(k.deadline, k.period, k.cost) for k in tasks]
    heapq.heapify(coming)
    while coming[0][0] <= last:
        t = coming[0][0]
        while coming[0][0] == t:
            _, period, cost = coming[0]
            asked += cost
            heapq.heapreplace(coming, (t + period, period, cost))
        if t in changes:
            held = blocking(records, t)
        if asked + held > t:
            raise Refused(11, t, asked + held)
    if idle is None:
        raise Refused(12)
    return idle


def admit_by_instants(records):
    """The same with nothing left out: every judged instant is looked at, as the rule is written. Slow."""
    if not sound(records):
        raise Refused(10)
    for t in range(1, HORIZON + 1):
        asked = demand(records.tasks, t) + blocking(records, t)
        if asked > t:
            raise Refused(11, t, asked)
        if workload(records.tasks, t) == t:
            return t
    raise Refused(12)


def sound(records):
    """Whether the records break no rule. Names are not judged."""
    tasks, sections = records.tasks, records.sections
    if not (1 <= len(tasks) <= TASKS and len(sections) <= SECTIONS):
        return False
    begin = 0
    for number, k in enumerate(tasks):
        if not 1 <= k.cost <= k.deadline <= k.period <= LIMIT:
            return False
        if k.first != begin or k.count < 0 or begin + k.count > len(sections):
            return False
        if any(s.task != number for s in sections[begin:begin + k.count]):
            return False
        opened = []                                      # the section just before, and those around it, outermost first
        for n in range(begin, begin + k.count):
            s = sections[n]
            while opened and opened[-1] != s.around:
                opened.pop()
            if s.around is not None and not opened:
                return False
            if len(opened) >= OPEN or s.small >> 26 or s.capital >> 26 or s.small & s.capital:
                return False
            if any((s.small | s.capital) & (sections[o].small | sections[o].capital) for o in opened):
                return False
            if not 1 <= s.length <= (sections[s.around].length if opened else k.cost):
                return False
            opened.append(n)
        begin += k.count
    return begin == len(sections) and [s.level for s in sections] == levels(records)


# The run machine

@dataclass
class Job:
    task: int
    deadline: int          # absolute
    open: list             # sections with the serials of their entries, outermost first


class Machine:
    """The run of an admitted table. A refused call raises Refused and changes nothing: every cause is looked for before any change."""

    def __init__(self, records):
        self.tasks, self.sections = records.tasks, records.sections
        self.clock = 0
        self.waiting = [(0, task) for task in range(len(self.tasks))]      # release, task
        self.released = []                                                 # absolute deadline, D, task
        self.stack = []                                                    # jobs that have begun; the last one runs
        self.releases = self.finishes = self.expiries = self.entries = self.leaves = self.taken = 0

    # questions

    def running(self):
        return self.stack[-1].task if self.stack else NOBODY

    def due(self):
        """The least of the running job's deadline, the first released job's, and the first waiting release."""
        return min([job.deadline for job in self.stack[-1:]] + [job[0] for job in self.released[:1]] + [w[0] for w in self.waiting[:1]])

    def inherited(self, job):
        """The least of the task's D and the levels of what it has open."""
        found = [self.sections[section].level for section, _ in job.open]
        return min([self.tasks[job.task].deadline] + [level for level in found if level is not None])

    def place(self, task):
        if any(w[1] == task for w in self.waiting):
            return "waiting"
        return "released" if any(job[2] == task for job in self.released) else "stacked"

    # steps inside a call

    def wait(self, task, deadline):
        """A job has ended: its task waits for a period after the job's release."""
        k = self.tasks[task]
        self.waiting.append((deadline - k.deadline + k.period, task))
        self.waiting.sort()

    def select(self):
        """The first released job begins where nothing runs, or where its deadline is before the running job's and its D is below what
        that one inherits. Neither may be equal."""
        if not self.released:
            return
        deadline, relative, task = self.released[0]
        if self.stack:
            top = self.stack[-1]
            if not (deadline < top.deadline and relative < self.inherited(top)):
                return
        self.released.pop(0)
        self.stack.append(Job(task, deadline, []))

    # calls

    def advance(self, t):
        if t < self.clock:
            raise Refused(14)
        if t > LAST:
            raise Refused(15)
        if t > self.due():
            raise Refused(16, self.due())
        self.clock = t
        expired = started = 0
        if self.stack and self.stack[-1].deadline == t:                    # the running job first, with what it has open
            job = self.stack.pop()
            self.taken += len(job.open)
            self.wait(job.task, job.deadline)
            expired += 1
        while self.released and self.released[0][0] == t:                  # then released jobs
            deadline, _, task = self.released.pop(0)
            self.wait(task, deadline)
            expired += 1
        while self.waiting and self.waiting[0][0] == t:                    # then releases, also of tasks that came to wait just now
            _, task = self.waiting.pop(0)
            self.released.append((t + self.tasks[task].deadline, self.tasks[task].deadline, task))
            started += 1
        self.released.sort()
        self.expiries += expired
        self.releases += started
        self.select()
        return expired, started, self.running()

    def enter(self, section):
        if not self.stack:
            raise Refused(17)
        job = self.stack[-1]
        innermost = job.open[-1][0] if job.open else None
        if section >= len(self.sections) or self.sections[section].task != job.task or self.sections[section].around != innermost:
            raise Refused(18)
        if self.entries == ENTRIES:
            raise Refused(19)
        serial = self.entries
        job.open.append((section, serial))
        self.entries += 1
        return job.task, section, serial

    def leave(self, task, section, serial):
        """A grant is judged by its three numbers alone."""
        if not any(job.task == task and (section, serial) in job.open for job in self.stack):
            raise Refused(21)
        job = self.stack[-1]
        if job.task != task or job.open[-1:] != [(section, serial)]:
            raise Refused(20)
        job.open.pop()
        self.leaves += 1
        self.select()
        return self.running()

    def finish(self):
        if not self.stack:
            raise Refused(17)
        if self.stack[-1].open:
            raise Refused(22)
        job = self.stack.pop()
        self.finishes += 1
        self.wait(job.task, job.deadline)
        self.select()
        return self.running()


# The programs

CALLS = {b"advance": (64,), b"enter": (64,), b"leave": (64, 64, 32), b"finish": ()}


def parse(line):
    """A call as its word and its numbers, or None for a line that is no call."""
    word, *rest = line.split(b" ")
    widths = CALLS.get(word)
    if widths is None or len(rest) != len(widths):
        return None
    numbers = []
    for digits, width in zip(rest, widths):
        if not re.fullmatch(rb"[0-9]+", digits):
            return None
        short = digits.lstrip(b"0") or b"0"              # leading zeros are fine, however many
        if len(short) > 20 or int(short) >= 1 << width:
            return None
        numbers.append(int(short))
    return word.decode(), numbers


def run(table, calls):
    """The lines that a run of the admitted table prints: one for each call, then the four of the questions. The calls are lines
    without their byte 10; empty ones are skipped."""
    machine, out = Machine(table), []
    for line in calls:
        if line:
            out.append(line + b": " + answer(machine, parse(line)).encode())
    return out + [line.encode() for line in questions(machine)]


def answer(machine, call):
    if call is None:
        return "not a call"
    word, numbers = call
    try:
        got = getattr(machine, word)(*numbers)
    except Refused as refusal:
        return str(refusal)
    if word == "advance":
        return f"expiries {got[0]} releases {got[1]} running {name(machine, got[2])}"
    if word == "enter":
        return "grant " + " ".join(str(n) for n in got)
    return "running " + name(machine, got)


def name(machine, task):
    return "-" if task == NOBODY else machine.tasks[task].name.decode()


def questions(machine):
    m = machine
    yield f"clock {m.clock} due {m.due()}"
    yield "places " + " ".join(f"{name(m, task)} {m.place(task)}" for task in range(len(m.tasks)))
    if m.stack:
        yield f"running {name(m, m.running())} deadline {m.stack[-1].deadline} inherited {m.inherited(m.stack[-1])}"
    else:
        yield "running -"
    yield (f"releases {m.releases} finishes {m.finishes} expiries {m.expiries} "
           f"entries {m.entries} leaves {m.leaves} taken {m.taken}")


def split(data):
    """The table's text, and the lines of the calls. The table ends at the first empty line. Right behind that may stand the choice of a
    queue, which is no call and shows nowhere. A last line counts without its byte 10 too."""
    if data[:1] == b"\n":
        text, rest = b"", data[1:]
    else:
        cut = data.find(b"\n\n")
        if cut < 0:
            return data, []
        text, rest = data[:cut + 1], data[cut + 2:]
    lines = rest.split(b"\n")
    return text, lines[1:] if lines[0] in (b"queue list", b"queue heap") else lines


def trace(data):
    """What trace prints for its whole input."""
    text, calls = split(data)
    try:
        table = read(text)
        admit(table)
    except Refused as refusal:
        return f"{refusal}\n".encode()
    return b"".join(line + b"\n" for line in run(table, calls))


def edfi(data):
    """What edfi prints for its whole input."""
    try:
        table = read(data[:LONGEST + 1])
        idle = admit(table)
    except Refused as refusal:
        return f"{refusal}\n".encode()
    out = "section task level length\n"
    for number, s in enumerate(table.sections):
        out += f"{number} {table.tasks[s.task].name.decode()} {'-' if s.level is None else s.level} {s.length}\n"
    return (out + f"admitted idle {idle}\n").encode()


def main():
    programs = {"edfi": edfi, "trace": trace}
    if len(sys.argv) != 2 or sys.argv[1] not in programs:
        sys.exit(__doc__)
    sys.stdout.buffer.write(programs[sys.argv[1]](sys.stdin.buffer.read()))


if __name__ == "__main__":
    main()
