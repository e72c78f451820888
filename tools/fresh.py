#!/usr/bin/env python3
"""Fresh inputs for the built programs, compared with tools/simulator.py.

    python3 tools/fresh.py texts COUNT SEED [PROGRAM]    texts against crates/edfi/out/edfi
    python3 tools/fresh.py runs  COUNT SEED [PROGRAM]    runs against crates/trace/out/trace
    python3 tools/fresh.py self  COUNT SEED              no program: the simulator against what the prose says of every run
    python3 tools/fresh.py show  texts|runs SEED         writes one input

The case with number i is made from the seed SEED + i alone, so a difference comes back with COUNT 1 and its own seed. The first
difference ends everything with status 1; its input is shown and kept in a file.
"""
import os
import random
import re
import subprocess
import sys
import tempfile
import time
from collections import Counter

sys.dont_write_bytecode = True
import simulator
from simulator import LAST, LIMIT, Machine, Refused

ROOT = os.path.dirname(os.path.dirname(os.path.abspath(__file__)))
LETTERS = "abcdefghijklmnopqrstuvwxyz"


# Drafts of tables: tasks are lists [name, D, T, C, sections], sections are lists [length, letters, inner sections]. Numbers are ints, or
# strings where they are meant to be odd.

def render_section(s):
    return f"{s[0]}{{" + "".join(" " + x for x in s[1]) + "".join(" " + render_section(i) for i in s[2]) + " }"


def render(draft):
    return "".join(f"{name}: D={d} T={t} C={c}" + "".join(" " + render_section(s) for s in sections) + "\n"
                   for name, d, t, c, sections in draft).encode()


def every_section(sections):
    for s in sections:
        yield s
        yield from every_section(s[2])


def a_name(r):
    return "".join(r.choice(LETTERS) for _ in range(r.choice([1, 1, 2, 3, 5, 7, 8])))


def a_letter(r, resource):
    return resource if r.random() < 0.5 else resource.upper()


def some_sections(r, bound, pool, depth, wide=2):
    """Sections that keep the rules: no longer than the bound, with resources from the pool."""
    out = []
    for _ in range(r.randint(0, wide)):
        length = r.choice([bound, r.randint(1, bound), r.randint(1, bound)])
        mine = r.sample(pool, min(len(pool), r.choice([0, 1, 1, 1, 2, 3])))
        left = [x for x in pool if x not in mine]
        inner = some_sections(r, length, left, depth - 1, wide) if depth > 1 else []
        out.append([length, [a_letter(r, x) for x in mine], inner])
    return out


def small(r):
    """A few tasks with short periods."""
    n, most = r.randint(1, 6), r.choice([6, 12, 30, 60])
    pool = list(LETTERS[:r.choice([1, 2, 4, 8])])
    draft = []
    for _ in range(n):
        t = r.randint(2, most)
        d = r.choice([t, r.randint(max(1, t // 3), t)])
        c = r.randint(1, max(1, min(d, t // n + r.randint(0, 1))))
        draft.append([a_name(r), d, t, c, some_sections(r, c, pool, r.randint(1, 3))])
    return draft


def equal(r):
    """Many equal deadlines: few different D and T."""
    n, t = r.randint(2, 8), r.choice([6, 8, 12, 20])
    draft = []
    for _ in range(n):
        period = r.choice([t, t, 2 * t, t // 2 * 3])
        d = min(period, r.choice([t, t, t // 2, 2 * t]))
        c = r.randint(1, 3)
        draft.append([r.choice(["x", a_name(r)]), d, period, min(c, d), some_sections(r, min(c, d), list("abc"), 2)])
    return draft


def stairs(r):
    """The later the deadline, the earlier the second release: one job after another preempts, and the stack gets high."""
    n = r.choice([3, 4, 5, 6, 8, 12, 32])
    step, gap = r.randint(2, 5), r.choice([1, 1, 2])
    first = r.randint(2, 6)
    draft = []
    for i in range(n):
        d = first + step * i
        t = first + step * (n - 1) + gap * (n - 1 - i) + r.choice([0, 0, 0, 1])
        near = [LETTERS[(i + k) % 26] for k in range(r.choice([0, 1, 1, 2]))]
        c = r.choice([1, 1, 2])
        sections = [[r.randint(1, c), [a_letter(r, x) for x in near], []]] if r.random() < 0.6 else []
        draft.append([a_name(r), d, max(t, d), c, sections])
    if r.random() < 0.5:
        r.shuffle(draft)
    return draft


def held(r):
    """One slow task whose sections hold up several fast ones: many releases come while it is inside."""
    n = r.randint(2, 6)
    draft, pool = [], list("abcd")
    for i in range(n):
        t = r.randint(4, 14)
        c = r.choice([1, 1, 2])
        draft.append([a_name(r), r.randint(max(c, t // 2), t), t, c, [[1, [a_letter(r, r.choice(pool))], []]]])
    c = r.randint(3, 12)
    slow = 40 * n + r.randint(0, 30)
    draft.append([a_name(r), slow, slow, c, [[c, ["a"], [[max(1, c - 1), ["b"], [[1, ["c", "D"], []], [1, [], []]]]]], [1, pool, []]]])
    r.shuffle(draft)
    return draft


def nested(r):
    """Sections inside sections, up to eight."""
    draft = []
    for _ in range(r.randint(1, 3)):
        t = r.randint(20, 60)
        c = r.randint(4, 10)
        sections, letters = [], r.sample(LETTERS, 26)
        for depth in range(r.randint(4, 8)):
            named = [letters.pop() for _ in range(r.choice([0, 1, 1, 2]))]
            sections = [[1, [a_letter(r, x) for x in named], sections + ([[1, [], []]] if r.random() < 0.3 else [])]]
            if depth and r.random() < 0.2:
                sections.append([1, [], []])
        if max(len(around) for around in depths(sections)) < 8:
            draft.append([a_name(r), r.randint(t // 2, t), t, c, sections])
    return draft or small(r)


def depths(sections, around=()):
    for s in sections:
        yield around
        yield from depths(s[2], around + (s,))


def full(r):
    """As many tasks, sections and letters as there may be, or nearly."""
    n = r.choice([30, 31, 32])
    draft, left = [], r.choice([62, 63, 64])
    for i in range(n):
        d = r.randint(60, 200)
        draft.append([a_name(r), d, d + r.randint(0, 60), r.choice([1, 1, 2]), []])
    while left:
        task = r.choice(draft)
        resource = a_letter(r, LETTERS[left % 26])
        chain, at = task[4], 0
        while chain and at < 7 and r.random() < 0.4 and resource.lower() not in [x.lower() for x in chain[-1][1]]:
            chain, at = chain[-1][2], at + 1
        chain.append([1, [resource], []])
        left -= 1
    return draft


def large(r):
    """Numbers up to the limit."""
    draft = []
    for _ in range(r.randint(1, 4)):
        t = r.choice([LIMIT, LIMIT - 1, LIMIT - r.randint(0, 99), r.randint(LIMIT // 3, LIMIT), r.randint(1000, LIMIT)])
        d = r.choice([t, t, r.randint(t // 2, t)])
        c = r.choice([1, 2, r.randint(1, max(1, t // 4)), max(1, t // 3)])
        draft.append([a_name(r), d, t, min(c, d), some_sections(r, min(c, d), list("ab"), 2)])
    return draft


BUILDERS = [small] * 8 + [equal] * 4 + [held] * 5 + [stairs] * 4 + [nested] * 2 + [full] + [large]


def refusal(draft):
    """The number of the refusal, or 0 where the draft is admitted."""
    try:
        simulator.admit(simulator.read(render(draft)))
        return 0
    except Refused as refused:
        return refused.numbers[0]


def clip(task):
    """Makes a task keep C <= D <= T and the rule of lengths again."""
    task[2] = min(task[2], LIMIT)
    task[1] = min(task[1], task[2])
    task[3] = min(task[3], task[1])

    def shorten(sections, bound):
        for s in sections:
            s[0] = max(1, min(s[0], bound))
            shorten(s[2], s[0])
    shorten(task[4], task[3])


def settle(r, draft):
    """Loosens a draft until it is admitted."""
    while number := refusal(draft):
        if number < 10:                                   # more sections than a table may have
            r.choice(draft)[4].clear()
        for task in r.sample(draft, max(1, len(draft) // 3)):
            way = r.randrange(4)
            if way == 0:
                task[1] = task[2]
            elif way == 1:
                task[3] = max(1, task[3] // 2)
            elif way == 2:
                task[2] += r.randint(1, 1 + task[2] // 2)
            else:
                for s in every_section(task[4]):
                    s[0] = max(1, s[0] // 2)
            clip(task)
    return draft


def squeeze(r, task):
    """Asks for a little more in one place."""
    way = r.randrange(4)
    sections = list(every_section(task[4]))
    if way == 0 and task[3] < task[1]:
        task[3] += 1
    elif way == 1 and task[1] > task[3]:
        task[1] -= 1
    elif way == 2 and task[2] > task[1]:
        task[2] -= 1
    elif sections:
        r.choice(sections)[0] += 1
        clip(task)


def brink(r, draft):
    """Tightens an admitted draft for as long as it stays admitted, and gives the last admitted one and the first refused one, if met."""
    for _ in range(r.choice([5, 20, 60])):
        i = r.randrange(len(draft))
        more = [copy_task(k) if j == i else k for j, k in enumerate(draft)]
        squeeze(r, more[i])
        if not refusal(more):
            draft = more
        elif r.random() < 0.3:
            return draft, more
    return draft, draft


def copy_task(task):
    def copies(sections):
        return [[s[0], list(s[1]), copies(s[2])] for s in sections]
    return task[:4] + [copies(task[4])]


def admitted_draft(r):
    draft = settle(r, r.choice(BUILDERS)(r))
    return brink(r, draft)[0] if r.random() < 0.4 and len(draft) < 12 else draft


# Texts

ODD_NUMBERS = ["0", "00", "01", "007", "1", "9", "1048575", "1048576", "1048577", "9999999", "10000000", "4294967295", "4294967296", "4294967297",
               "18446744073709551615", "18446744073709551616", "18446744073709551617", "0" * 40 + "1", "1" * 400]


def plant(r, draft, task, way):
    """One breach of a rule, or a limit that is just kept."""
    sections = list(every_section(task[4]))
    if way == 0:
        task[0] = r.choice(["", "a" * 8, "a" * 9, "Ab", "a1", "ab cd", "a:", LETTERS])
    elif way == 1:
        task[r.choice([1, 2, 3])] = r.choice(ODD_NUMBERS)
    elif way == 2 and sections:
        r.choice(sections)[0] = r.choice(ODD_NUMBERS)
    elif way == 3:
        d = r.randint(1, 50)
        task[1:4] = r.choice([[d, d, d + 1], [d + 1, d, d], [d, d, d], [d, d + 1, d + 1], [d + 1, d, d + 2], [LIMIT, LIMIT, LIMIT]])
    elif way == 4:
        count = r.choice([31, 32, 33, 34])
        while len(draft) < count:
            draft.insert(r.randint(0, len(draft) - 1), ["t", 90000, 90000, 1, []])
    elif way == 5:
        have = sum(1 for k in draft for _ in every_section(k[4]))
        one = r.random() < 0.5
        while have < r.choice([63, 64, 65, 66]):
            k = task if one else r.choice(draft)
            chain = k[4]
            while chain and r.random() < 0.5:
                chain = r.choice(chain)[2]
            chain.append([1, [], []])
            have += 1
    elif way == 6:
        deep = []
        for _ in range(r.choice([7, 8, 9, 10])):
            deep = [[1, [], deep]]
        task[4] = r.choice([deep + task[4], task[4] + deep])
    elif way == 7 and sections:
        s = r.choice(sections)
        letter = r.choice(LETTERS[:4])
        s[1].insert(r.randint(0, len(s[1])), a_letter(r, letter))
        if s[2] and r.random() < 0.5:
            r.choice(s[2])[1].append(a_letter(r, letter))
    elif way == 8 and sections:
        s = r.choice(sections)
        if isinstance(s[0], int):
            s[0] += r.choice([1, 1, 2, 100])


def several(r):
    """Several breaches in one line, the last: of those the lowest number wins."""
    draft = r.choice([small, held])(r)
    last = draft[-1]
    last[4] = last[4] or [[1, ["a"], [[1, ["b"], []]]]]
    if r.random() < 0.4:
        plant(r, draft, last, 4)
    if r.random() < 0.4:                                  # the sections before it nearly fill the table
        left = r.choice([60, 62, 63, 64]) - sum(1 for k in draft for _ in every_section(k[4]))
        draft.insert(0, ["f", 9, 9, 1, [[1, [], []] for _ in range(left)]])
    for way in r.choices([1, 2, 3, 6, 7, 7, 8, 8], k=r.choice([1, 2, 3])):
        plant(r, draft, last, way)
    text = render(draft)
    if r.random() < 0.15:
        cut = text.rstrip(b"\n").rfind(b"\n") + 1
        text = text[:cut] + one_byte(r, text[cut:])
    return text


NEAR = b" 0129:={}azAZDTC\n\x00\t\r\x7f\x80\xff@[`{/;<"


def one_byte(r, text):
    """One byte put in, left out, doubled, exchanged or changed."""
    at = r.randrange(len(text))
    byte = bytes([r.choice(NEAR) if r.random() < 0.85 else r.randrange(256)])
    return r.choice([
        lambda: text[:at] + byte + text[at + 1:],
        lambda: text[:at] + byte + text[at:],
        lambda: text[:at] + text[at + 1:],
        lambda: text[:at] + text[at:at + 1] + text[at:],
        lambda: text[:at] + text[at + 1:at + 2] + text[at:at + 1] + text[at + 2:],
    ])()


def one_word(r, text):
    """The same with words: what stands between spaces."""
    words = text.split(b" ")
    at, other = r.randrange(len(words)), r.randrange(len(words))
    word = r.choice([b"", b"a", b"B", b"}", b"1{", b"1{ }", b"{", b"1", b"D=1", b"T=1", b"C=1", words[other]])
    return b" ".join(r.choice([
        lambda: words[:at] + [word] + words[at:],
        lambda: words[:at] + [word] + words[at + 1:],
        lambda: words[:at] + words[at + 1:],
        lambda: words[:at] + words[at + 1:at + 2] + words[at:at + 1] + words[at + 2:],
    ])())


def long_text(r):
    """Texts about as long as they may be, and lines of great depth or with great numbers."""
    size = r.choice([16383, 16384, 16385, 16386, 20000, 16384 - r.randint(0, 300)])
    start = render(settle(r, small(r))) if r.random() < 0.5 else b""
    way = r.randrange(7)
    room = max(10, size - len(start) - 32)
    if way == 0:
        body = b"x: D=1 T=1 C=" + b"1" * (size - len(start) - 14) + b"\n"
    elif way == 1:
        deep = room // 5 if r.random() < 0.5 else r.choice([9, 100, 2000])
        body = b"x: D=9 T=9 C=9" + b" 1{" * deep + b" }" * deep + b"\n"
    elif way == 2:
        body = b"x: D=9 T=9 C=9" + b" 1{ }" * (room // 5) + b"\n"
    elif way == 3:
        body = b"x: D=9 T=9 C=9 1{" + b" a" * (room // 2) + b" }\n"
    elif way == 4:
        body = b"x: D=9 T=9 C=9\n" * (room // 15)
    elif way == 5:
        many, deep = b" 1{ }" * r.randint(50, 66), r.randint(7, 10)
        body = b"x: D=9 T=9 C=9" + b"".join(r.sample([many, b" 1{" * deep + b" }" * deep], 2)) + b"\n"
    else:
        body = b"a" * room + b"\n"
    text = start + body
    return one_byte(r, text) if r.random() < 0.3 else text


def at_horizon(r):
    """Tables that ask for everything, or nearly, for a long time."""
    way = r.randrange(6)
    if way == 0:
        c = r.choice([1, 2, 3])
        t = LIMIT - r.randint(0, 2)
        draft = [["x", LIMIT, LIMIT, LIMIT - r.randint(1, 4), []], ["y", t, t, c, []]]
    elif way == 1:
        t = r.choice([1024, 2048, 4096])
        c = r.randint(1, t - 1)
        draft = [["x", t, t, c, []], ["y", LIMIT, LIMIT, max(1, LIMIT // t * (t - c) + r.choice([-1, 0, 0, 1])), []]]
        draft[1][3] = min(draft[1][3], LIMIT)
    elif way == 2:
        a, b = r.choice([(1021, 1031), (997, 1009), (1023, 1025), (2047, 513)])
        c = r.randint(1, a - 1)
        draft = [["x", a, a, c, [[r.randint(1, c), ["a"], []]]], ["y", b, b, max(1, (a - c) * b // a + r.choice([-1, 0, 0, 1])), [[1, ["a"], []]]]]
        clip(draft[1])
    elif way == 3:                                        # as it stands, idle at 1048577: one past the horizon
        draft = [["x", 17, 17, 16, []], ["y", 524289, 524289, 30839 + r.choice([-1, 0, 0, 1]), []], ["z", 524000, 524000, 1, []]]
    elif way == 4:                                        # with 30841 to 30848 nothing fails before 1048577
        draft = [["x", 17, 17, 16, []], ["y", 524288, 524289, r.randint(30839, 30850), []]]
    else:
        draft = [["x", LIMIT, LIMIT, LIMIT - r.choice([0, 1, 2]), [[r.randint(1, 9), ["a"], []]]]]
        if r.random() < 0.7:
            t = r.randint(LIMIT // 2, LIMIT)
            draft.append(["y", t, t, r.choice([1, 2, 3]), [[1, ["A"], []]]])
    return render(draft)


def a_text(r):
    way = r.random()
    if way < 0.15:
        return render(r.choice(BUILDERS)(r))
    if way < 0.40:
        inside, outside = brink(r, settle(r, r.choice(BUILDERS)(r)))
        return render(r.choice([inside, outside, outside]))
    if way < 0.65:
        text = render(r.choice(BUILDERS)(r))
        for _ in range(r.choice([1, 1, 1, 2, 3])):
            text = r.choice([one_byte, one_byte, one_word])(r, text or b"x")
        return text
    if way < 0.75:
        return several(r)
    if way < 0.88:
        draft = r.choice(BUILDERS)(r)
        for _ in range(r.choice([1, 1, 2, 3, 4])):
            plant(r, draft, r.choice(draft), r.randrange(9))
        text = render(draft)
        return one_byte(r, text) if r.random() < 0.1 else text
    if way < 0.92:
        return long_text(r)
    if way < 0.93:
        return at_horizon(r)
    if way < 0.97:
        text = render(r.choice(BUILDERS)(r))
        cut = r.randrange(len(text) + 1)
        return r.choice([text[:cut], text[:-1], text + b"\n", text + text[:cut], text.replace(b"\n", b"\r\n"), text[cut:], b"\n" + text])
    return bytes(r.choice(NEAR) for _ in range(r.choice([0, 1, 2, 5, 40])))


# Runs

class Steps:
    """Draws calls one after another, and goes along with a machine of its own to know what makes sense."""

    MOODS = {
        "tidy": {"due": 2, "part": 3, "enter": 3, "leave": 4, "finish": 3},
        "climb": {"due": 8, "part": 2, "enter": 2, "leave": 0.3, "finish": 0.2},
        "dive": {"due": 1, "part": 2, "enter": 9, "leave": 0.4, "finish": 0.3},
        "hold": {"due": 6, "part": 1, "enter": 9, "leave": 0.5, "finish": 0.1},
        "drain": {"due": 1, "part": 1, "enter": 0.5, "leave": 6, "finish": 6},
        "mixed": {"due": 1, "part": 1, "enter": 1, "leave": 1, "finish": 1, "same": 0.3},
    }

    def weights(self, mood):
        """How likely each act is. To climb, old work has to be out of the way; to hold others up, a task has to run that can do so."""
        m = self.machine
        if mood == "climb" and len(m.stack) == 1 and m.released:
            mood = "drain"
        if mood == "hold":
            k = m.tasks[m.running()]
            if not any(s.level is not None and s.level < k.deadline for s in m.sections[k.first:k.first + k.count]):
                mood = "drain"
        return self.MOODS[mood]

    def __init__(self, r, records):
        self.r, self.machine, self.lines = r, Machine(records), []
        self.grants = []                                  # all that were ever given
        self.lawful = r.random() < 0.3                    # no job past its C, no stay past its length
        self.wrong = r.choice([0, 0.05, 0.2, 0.6])
        self.noise = r.choice([0, 0, 0.03, 0.15])
        self.ran, self.stayed = {}, {}                    # by task, of the job that is going on; by serial

    def line(self, text):
        """Takes a line into the run; keeps the books of run times and stays."""
        data = text if isinstance(text, bytes) else text.encode()
        self.lines.append(data)
        call = simulator.parse(data)
        if call is None:
            return
        m = self.machine
        before, top = m.clock, m.stack[-1] if m.stack else None
        opened = list(top.open) if top else []
        simulator.answer(m, call)
        if call[0] == "enter" and top and len(top.open) > len(opened):
            self.grants.append((top.task, *top.open[-1]))
        if top:
            self.ran[top.task] = self.ran.get(top.task, 0) + m.clock - before
            for _, serial in opened:
                self.stayed[serial] = self.stayed.get(serial, 0) + m.clock - before
        for task in [task for task in self.ran if not any(job.task == task for job in m.stack)]:
            del self.ran[task]

    def number(self, n):
        """A number, now and then with zeros in front."""
        if self.r.random() < 0.04:
            return "0" * self.r.choice([1, 2, 9, 19, 20, 21, 64]) + str(n)
        return str(n)

    def left(self):
        """How far the clock may go, in a lawful run, before the running job has to leave or finish."""
        job, m = self.machine.stack[-1], self.machine
        left = [m.tasks[job.task].cost - self.ran.get(job.task, 0)]
        return min(left + [m.sections[section].length - self.stayed.get(serial, 0) for section, serial in job.open])

    def sensible(self, mood):
        """A call that is accepted."""
        r, m = self.r, self.machine
        to = m.due()
        if not m.stack:
            return f"advance {self.number(r.choice([to, to, to, r.randint(m.clock, to)]))}"
        job, weights = m.stack[-1], self.weights(mood)
        if self.lawful:
            left = self.left()
            if left == 0:
                return self.leave(job) if job.open else "finish"
            to = min(to, m.clock + left)
        innermost = job.open[-1][0] if job.open else None
        enterable = [n for n, s in enumerate(m.sections) if s.task == job.task and s.around == innermost]
        while True:
            act = r.choices(list(weights), list(weights.values()))[0]
            if act == "due":
                return f"advance {self.number(to)}"
            if act == "part":
                return f"advance {self.number(r.choice([min(m.clock + 1, to), r.randint(m.clock, to)]))}"
            if act == "same":
                return f"advance {self.number(m.clock)}"
            if act == "enter" and enterable:
                return f"enter {self.number(r.choice(enterable))}"
            if act == "leave" and job.open:
                return self.leave(job)
            if act == "finish" and not job.open:
                return "finish"

    def leave(self, job):
        section, serial = job.open[-1]
        return "leave " + " ".join(self.number(n) for n in (job.task, section, serial))

    def mistaken(self):
        """A call that is most likely refused."""
        r, m = self.r, self.machine
        way = r.randrange(5)
        if way == 0:
            t = r.choice([m.clock - 1, m.due() + 1, m.due() + r.randint(1, 99), r.randint(0, 2 * m.clock + 9), 0, LAST, LAST + 1, 2 ** 64 - 1,
                          2 ** 63, 2 ** 32 + m.clock])
            return f"advance {self.number(max(0, t))}"
        if way == 1:
            n = len(m.sections)
            return f"enter {self.number(r.choice([r.randint(0, n), n, n + 1, 63, 64, 2 ** 32, 2 ** 64 - 1, 2 ** 64 - 1 - n]))}"
        if way == 2:
            return "finish"
        opened = [(job.task, *grant) for job in m.stack for grant in job.open]
        if m.stack and m.stack[-1].open and len(opened) > 1:
            opened.pop()                                  # mostly one that is open and not the innermost
        if opened and r.random() < 0.5:
            return "leave " + " ".join(self.number(n) for n in r.choice(opened))
        grant = list(r.choice(opened or self.grants or [(0, 0, 0)]) if r.random() < 0.6 else r.choice(self.grants or [(0, 0, 0)]))
        if r.random() < 0.5:                              # a grant that nobody gave
            at = r.randrange(3)
            grant[at] = max(0, r.choice([grant[at] + 1, grant[at] - 1, 0, 32, 2 ** 32 - 1 if at == 2 else 2 ** 64 - 1,
                                         grant[at] + 2 ** 8, grant[at] + (2 ** 31 if at == 2 else 2 ** 32)]))
        return "leave " + " ".join(self.number(n) for n in grant)

    def odd(self):
        """A line that is no call, mostly: near to one, or far from it. Where it is one after all, it moves no clock."""
        r, m = self.r, self.machine
        t = m.clock
        line = r.choice([
            "advance", "advance ", f"advance  {t}", f" advance {t}", f"advance {t} ", f"advance\t{t}", f"advance +{t}", f"advance -{t}",
            "advance -0", f"advance {t}.0", f"advance 0x{t}", f"advance {t} {t}", f"Advance {t}", f"ADVANCE {t}", f"advanc {t}",
            f"advance{t}", f"advance {t}a", f"advance a{t}", f"advance {t},", "advance 1_0", f"advance {2 ** 64}", f"advance {2 ** 64 + t}",
            f"advance {10 * 2 ** 64}", "advance " + "9" * 60, "advance " + "0" * 300 + str(t), "advance " + "0" * 300 + str(2 ** 64),
            "enter", "enter ", "enter  0", "enter 0 ", "enter a", "enter -1", f"enter {2 ** 64}", "enter 0 0", "Enter 0", "entry 0",
            "leave", "leave 0", "leave 0 0", "leave 0 0 0 0", "leave 0 0 0 ", "leave  0 0 0", "leave 0  0 0", f"leave 0 0 {2 ** 32}",
            f"leave 0 0 {2 ** 64}", f"leave {2 ** 64} 0 0", f"leave 0 {2 ** 64} 0", "leave 0 0 -1", "leave 0 0 x", "leave (0, 0, 0)",
            "leave 0 0 " + "0" * 30 + "1", f"leave 0 0 {2 ** 32 - 1}", f"leave {2 ** 64 - 1} {2 ** 64 - 1} {2 ** 32 - 1}",
            "finish ", " finish", "finish 0", "Finish", "finish.", "finis", "finishh", "finish finish", "finish\r", "finish\t", "finish\0",
            "queue", "queue list", "queue heap", "queue tree", "queue list ", " queue heap", "queue  list", "Queue list", "queuelist",
            " ", "  ", "\t", "\r", "-", ":", ": not a call", "refused 16", "running -", "#", "x", "x: D=1 T=1 C=1", "0", "clock", "due",
        ])
        if r.random() < 0.1:
            line = bytes(b for b in (r.randrange(256) for _ in range(r.choice([1, 2, 8, 40]))) if b != 10)
        elif r.random() < 0.02:
            line = r.choice(["y", "0", "finish "]) * r.choice([300, 5000])
        return line

    def draw(self, count):
        r, mood = self.r, self.r.choice(list(self.MOODS))
        while len(self.lines) < count:
            if r.random() < 0.07:
                mood = r.choice(list(self.MOODS))
            if r.random() < self.noise:
                self.line(self.odd())
            elif r.random() < self.wrong:
                line = self.mistaken()
                if self.lawful and line.startswith("advance") and self.machine.stack and int(line[8:]) > self.machine.clock + self.left():
                    line = f"advance {2 ** 64 - 1}"
                self.line(line)
            else:
                self.line(self.sensible(mood))
            if r.random() < 0.01:
                self.lines.append(b"")
        return self.lines


def a_run(r):
    draft = admitted_draft(r)
    text = render(draft)
    way = r.random()
    count = r.choice([0, 1, 5, 20, 60, 60, 150, 150, 400])
    if r.random() < 0.01:
        count = 3000
    lines = list(Steps(r, simulator.read(text)).draw(count))
    if way < 0.04:                                        # a table that is most likely refused, then calls
        text = r.choice([a_text, a_text, long_text])(r)
    elif way < 0.06:                                      # an odd place for the table's end
        return r.choice([b"", b"\n", b"\n\n", b"\n\n\n", b"\nfinish\n", text, text[:-1], text[:-1] + b"\n", text + b"\n", text + b"\n\n",
                         text + b"finish\n", b"\n" + text + b"\nfinish\n", text + b"\r\nfinish\n", text + b" \nfinish\n", text[:-1] + b"\n\nfinish",
                         text.replace(b"\n", b"\n\n"), text.replace(b"\n", b"\n\n", 1) + b"\nadvance 0\n", text + b"\n" + text + b"\nadvance 0\n",
                         text.replace(b"\n", b"\r\n") + b"\r\nadvance 0\r\n", text + b"\n\nfinish\n\n\nfinish\n\n"])
    choice = r.choice([None, None, None, b"queue list", b"queue heap", b"queue list", b"queue heap"])
    lines = ([choice] if choice else []) + lines
    if r.random() < 0.06:                                 # queue lines where they do not belong, or nearly right
        at = r.choice([0, 0, 1, 2, len(lines)])
        lines.insert(at, r.choice([b"queue list", b"queue heap", b"queue", b"queue tree", b"queue heap ", b"queue  heap", b"queue\tlist",
                                   b"QUEUE LIST"]))
    if r.random() < 0.03:
        lines.insert(0, b"")
    end = b"" if r.random() < 0.2 else b"\n"
    return text + b"\n" + b"\n".join(lines) + end


MAKERS = {"texts": a_text, "runs": a_run}
SIMULATED = {"texts": simulator.edfi, "runs": simulator.trace}
PROGRAMS = {"texts": "crates/edfi/out/edfi", "runs": "crates/trace/out/trace"}


def make(kind, seed):
    return MAKERS[kind](random.Random(seed))


# The simulator against itself

def snapshot(m):
    return (m.clock, tuple(m.waiting), tuple(m.released), tuple((job.task, job.deadline, tuple(job.open)) for job in m.stack),
            m.releases, m.finishes, m.expiries, m.entries, m.leaves, m.taken)


def promises(m):
    """What MACHINE.md says of every state that a run can reach."""
    d = lambda task: m.tasks[task].deadline
    jobs = m.stack[::-1]                                  # the running one first
    for above, below in zip(jobs, jobs[1:]):
        assert above.deadline < below.deadline, "down the stack deadlines rise"
        assert m.inherited(below) > d(above.task), "what a preempted task inherits is above the D of the one above"
    opened = [(job.task, resource) for job in jobs for section, _ in job.open for resource in simulator.named(m.sections[section])]
    assert len({resource for _, resource in opened}) == len(set(opened)) == len(opened), "no resource is open in two tasks, or twice"
    assert len(jobs) <= len({k.deadline for k in m.tasks}), "the stack is no higher than there are different Ds"
    if jobs and m.released and m.released[0][0] < jobs[0].deadline:
        assert m.released[0][1] >= m.inherited(jobs[0]), "a first released job that is more urgent is held up by what the running one inherits"
        assert all(m.released[0][1] < m.inherited(job) for job in jobs[1:]), "and by no preempted one"
    places = [w[1] for w in m.waiting] + [job[2] for job in m.released] + [job.task for job in jobs]
    assert sorted(places) == list(range(len(m.tasks))), "each task is in one place"
    assert m.releases == m.finishes + m.expiries + len(m.released) + len(jobs), "no job is lost"
    assert m.entries == m.leaves + m.taken + sum(len(job.open) for job in jobs), "no entry is lost"
    assert m.waiting == sorted(m.waiting) and m.released == sorted(m.released) and m.clock <= m.due(), "order, and due is not behind"


def watched(table, lines, tally):
    """Makes the calls of a run with an eye on every promise; gives the lines of the accepted calls."""
    m, accepted, counts = Machine(table), [], Counter()
    ran, stayed, given, ended, cut_short, lawful = {}, {}, [], Counter(), False, True
    for line in lines:
        call = simulator.parse(line)
        if call is None:
            continue
        before, clock, jobs = snapshot(m), m.clock, [(job.task, job.deadline, list(job.open)) for job in m.stack]
        try:
            got = getattr(m, call[0])(*call[1])
        except Refused as refusal:
            tally[f"{call[0]} {refusal.numbers[0]}"] += 1
            assert snapshot(m) == before, "a refused call changes nothing"
            continue
        accepted.append(line)
        promises(m)
        open_before = {(task, *grant) for task, _, opened in jobs for grant in opened}
        open_now = {(job.task, *grant) for job in m.stack for grant in job.open}
        if call[0] == "advance":
            counts["expiries"] += got[0]
            counts["releases"] += got[1]
            counts["taken"] += len(open_before - open_now)
            tally["taken back"] += len(open_before - open_now)
        else:
            counts[{"enter": "entries", "leave": "leaves", "finish": "finishes"}[call[0]]] += 1
        if call[0] == "enter":
            given.append(got[2])
        for grant in open_before - open_now:
            ended[grant] += 1
        # run times and stays: how far the clock moved over calls that found the job on top
        if jobs:
            task, deadline, opened = jobs[-1]
            ran[task, deadline] = ran.get((task, deadline), 0) + m.clock - clock
            lawful &= ran[task, deadline] <= m.tasks[task].cost
            for section, serial in opened:
                stayed[serial] = stayed.get(serial, 0) + m.clock - clock
                lawful &= stayed[serial] <= m.sections[section].length
        if call[0] == "advance":
            gone = [(task, deadline) for task, deadline, _ in jobs] + [(job[2], job[0]) for job in before[2]]
            for task, deadline in gone:
                if deadline == m.clock:                   # expired in this call
                    cut_short |= ran.get((task, deadline), 0) != m.tasks[task].cost
                    tally["expired, lawful so far"] += lawful
        held_up = m.stack and m.released and m.released[0][0] < m.stack[-1].deadline
        tally["held up"] += bool(held_up)
        tally["three or more held up"] += bool(held_up) and sum(job[0] < m.stack[-1].deadline for job in m.released) > 2
        tally["stack of " + str(min(len(m.stack), 8))] += 1
        tally["open " + str(max([len(job.open) for job in m.stack], default=0))] += 1
        tally[call[0]] += 1
    for count in ("releases", "finishes", "expiries", "entries", "leaves", "taken"):
        assert getattr(m, count) == counts[count], "the counts are what the history adds up to"
    assert given == list(range(m.entries)) and all(n == 1 for n in ended.values()), "each serial is given once, no grant ends twice"
    assert not (lawful and cut_short), "on time"
    tally["lawful runs"] += lawful
    tally["runs"] += 1
    return accepted


FLASH = b"""hostrd: D=40 T=50 C=10 9{ a B }
mapupd: D=50 T=80 C=10 8{ a 2{ B 1{ C } } }
reloc: D=60 T=100 C=20 2{ b } 17{ c 13{ b } }
scrub: D=90 T=90 C=30 18{ a c }
"""
FAST = b"fast: D=4 T=10 C=2 1{ a }\nslow: D=20 T=20 C=8 2{ a }\n"

# the runs that MACHINE.md works through: a table, calls, what they answer, and some of the four last lines
WORKED = [
    (FAST, "advance 0,advance 2,finish,advance 9,enter 1,advance 10",
     "expiries 0 releases 2 running fast,expiries 0 releases 0 running fast,running slow,expiries 0 releases 0 running slow,grant 1 1 0,"
     "expiries 0 releases 1 running slow",
     "clock 10 due 14,places fast released slow stacked,running slow deadline 20 inherited 4,"
     "releases 3 finishes 1 expiries 0 entries 1 leaves 0 taken 0"),
    (FAST, "advance 0,advance 2,finish,advance 9,enter 1,advance 10,leave 1 1 0,finish,finish",
     "expiries 0 releases 2 running fast,expiries 0 releases 0 running fast,running slow,expiries 0 releases 0 running slow,grant 1 1 0,"
     "expiries 0 releases 1 running slow,running fast,running slow,running -",
     "running -,releases 3 finishes 3 expiries 0 entries 1 leaves 1 taken 0"),
    (FLASH, "finish,enter 0,advance 1,advance 0,advance 41,advance 281474976710656,enter 1,enter 0,finish,advance 10,advance 9,leave 0 0 0,"
     "leave 0 0 0,finish,enter 1,enter 2,leave 1 1 1",
     "refused 17,refused 17,refused 16 0,expiries 0 releases 4 running hostrd,refused 16 40,refused 15,refused 18,grant 0 0 0,refused 22,"
     "expiries 0 releases 0 running hostrd,refused 14,running hostrd,refused 21,running mapupd,grant 1 1 1,grant 1 2 2,refused 20", ""),
    (FLASH, "advance 0,advance 10,finish,advance 20,finish,advance 40,finish,advance 50",
     "expiries 0 releases 4 running hostrd,expiries 0 releases 0 running hostrd,running mapupd,expiries 0 releases 0 running mapupd,"
     "running reloc,expiries 0 releases 0 running reloc,running scrub,expiries 0 releases 1 running scrub",
     "running scrub deadline 90 inherited 90,places hostrd released mapupd waiting reloc waiting scrub stacked"),
    (b"hi: D=4 T=5 C=2 1{ a }\nlo: D=10 T=10 C=4 2{ a }\nlast: D=10 T=10 C=2\n",
     "advance 0,advance 2,finish,advance 4,enter 1,advance 5,advance 6,leave 1 1 0,advance 8,finish,finish,advance 10",
     "expiries 0 releases 3 running hi,expiries 0 releases 0 running hi,running lo,expiries 0 releases 0 running lo,grant 1 1 0,"
     "expiries 0 releases 1 running lo,expiries 0 releases 0 running lo,running hi,expiries 0 releases 0 running hi,running lo,running last,"
     "expiries 1 releases 3 running hi", ""),
    (FAST.replace(b"2{ a }", b"2{ a 1{ b } }"),
     "advance 0,advance 2,finish,advance 9,enter 1,enter 2,advance 10,leave 1 2 1,enter 0",
     "expiries 0 releases 2 running fast,expiries 0 releases 0 running fast,running slow,expiries 0 releases 0 running slow,grant 1 1 0,"
     "grant 1 2 1,expiries 0 releases 1 running slow,running slow,refused 18", ""),
    (FAST.replace(b"C=8 2{ a }", b"C=12 5{ a }"), "advance 0", None, "refused 11 4 7"),
]


def worked():
    for text, calls, answers, last in WORKED:
        calls = calls.split(",")
        out = simulator.trace(text + b"\n" + "\n".join(calls).encode()).decode().split("\n")[:-1]
        if answers is None:
            assert out == [last], out
            continue
        want = [f"{call}: {answer}" for call, answer in zip(calls, answers.split(","), strict=True)]
        assert out[:-4] == want, (out, want)
        assert all(line in out[-4:] for line in last.split(",") if line), (out, last)


def examine(seed, tally):
    """One text and one run, looked at from several sides without any program."""
    text = make("texts", seed)
    try:
        records = simulator.read(text)
        assert simulator.sound(records), "what is read breaks no rule"
        try:
            verdict = simulator.admit(records)
        except Refused as refusal:
            verdict = str(refusal)
        if verdict == "refused 12" or int(str(verdict).split()[-1]) > 5000:
            tally["admission not stepped through"] += 1
        else:
            try:
                slow = simulator.admit_by_instants(records)
            except Refused as refusal:
                slow = str(refusal)
            assert verdict == slow, "admission by deadlines and by instants"
    except Refused:
        pass
    data = make("runs", seed)
    text, lines = simulator.split(data)
    try:
        table = simulator.read(text)
        simulator.admit(table)
    except Refused:
        tally["runs of refused tables"] += 1
        return
    out = simulator.trace(data)
    accepted = watched(table, lines, tally)
    assert simulator.run(table, accepted)[-4:] == [line.encode() for line in simulator.questions(follow(table, lines))]
    for choice in (b"queue list\n", b"queue heap\n"):
        assert simulator.trace(text + b"\n" + choice + b"\n".join(lines)) == out, "the choice of a queue shows nowhere"


def follow(table, lines):
    machine = Machine(table)
    for line in lines:
        if line:
            simulator.answer(machine, simulator.parse(line))
    return machine


# The driver

def kinds(kind, out):
    """What an answer has in it, for the tally."""
    if kind == "texts" or out.startswith(b"refused"):
        words = out.split(b"\n")[-2].split()
        return [b" ".join(words[:2] if words[:1] == [b"refused"] else words[:1]).decode()]
    found = re.findall(rb": (not a call|refused [0-9]+|expiries|grant|running)[^\n]*$", out, re.M)
    return [word.decode() for word in found]


def show_tally(tally):
    order = lambda item: [int(part) if part.isdigit() else part for part in re.split(r"([0-9]+)", item[0])]
    return ", ".join(f"{word} {count}" for word, count in sorted(tally.items(), key=order))


def report(kind, seed, data, what):
    keep = os.path.join(tempfile.gettempdir(), f"fresh-{kind}-{seed}.input")
    with open(keep, "wb") as file:
        file.write(data)
    print(f"\nDIFFERENCE: {kind}, seed {seed} (again: python3 tools/fresh.py {kind} 1 {seed})\n{what}\ninput, also in {keep}:")
    shown = data if len(data) < 20000 else data[:20000] + b"..."
    print(shown.decode("ascii", "backslashreplace"))
    sys.exit(1)


def first_difference(want, got):
    theirs, ours = got.split(b"\n"), want.split(b"\n")
    for n in range(max(len(ours), len(theirs))):
        a, b = (ours[n] if n < len(ours) else None), (theirs[n] if n < len(theirs) else None)
        if a != b:
            return f"line {n + 1} of the output\n  simulator: {a!r}\n  program:   {b!r}"
    return "none"


def drive(kind, count, seed, program):
    if not os.path.exists(program):
        sys.exit(f"there is no {program}")
    tally, begun, shown = Counter(), time.time(), 0.0
    for i in range(count):
        data = make(kind, seed + i)
        want = SIMULATED[kind](data)
        try:
            done = subprocess.run([program], input=data, capture_output=True, timeout=120)
        except subprocess.TimeoutExpired:
            report(kind, seed + i, data, "no end after 120 seconds")
        if done.stdout != want:
            report(kind, seed + i, data, first_difference(want, done.stdout))
        if done.returncode or done.stderr:
            report(kind, seed + i, data, f"status {done.returncode}, standard error {done.stderr!r}")
        tally.update(kinds(kind, want))
        shown = progress(kind, i + 1, count, begun, shown)
    print(f"{kind}: {count} cases from seed {seed} on, no difference, {time.time() - begun:.1f} s\n{show_tally(tally)}")


def progress(kind, done, count, begun, shown):
    now = time.time()
    if now - shown < (0.5 if sys.stdout.isatty() else 10):
        return shown
    print(f"{kind}: {done} of {count}, {now - begun:.0f} s", end="\r" if sys.stdout.isatty() else "\n", flush=True)
    return now


def main():
    words = sys.argv[1:]
    if len(words) == 3 and words[0] == "show" and words[1] in MAKERS:
        sys.stdout.buffer.write(make(words[1], int(words[2])))
    elif len(words) in (3, 4) and words[0] in MAKERS:
        drive(words[0], int(words[1]), int(words[2]), words[3] if len(words) == 4 else os.path.join(ROOT, PROGRAMS[words[0]]))
    elif len(words) == 3 and words[0] == "self":
        worked()
        count, seed, tally, begun, shown = int(words[1]), int(words[2]), Counter(), time.time(), 0.0
        for i in range(count):
            try:
                examine(seed + i, tally)
            except AssertionError as broken:
                report("runs", seed + i, make("runs", seed + i), f"the simulator breaks its own rules: {broken}")
            shown = progress("self", i + 1, count, begun, shown)
        print(f"self: {count} cases from seed {seed} on, {time.time() - begun:.1f} s\n{show_tally(tally)}")
    else:
        sys.exit(__doc__)


if __name__ == "__main__":
    main()
