#!/usr/bin/env python3
"""Makes the stored cases of crates/cases: `tools/oracle.py stdin` and `tools/oracle.py stdout`.

The answers come from tools/simulator.py, a second reading of docs/TABLE.md and docs/ADMISSION.md that is written apart from the product.
Each table is judged twice: from deadline to deadline, and by stepping through every instant.
"""
import random
import sys

sys.dont_write_bytecode = True
import simulator


def answer(room_tasks, room_sections, text):
    try:
        records = simulator.read(text, room_tasks, room_sections)
    except simulator.Refused as refusal:
        return str(refusal)
    show = lambda x: "-" if x is None else str(x)
    out = f"read {len(records.tasks)} {len(records.sections)}"
    for k in records.tasks:
        out += f" | {k.place} {len(k.name)} {k.deadline} {k.period} {k.cost} {k.first} {k.count}"
    for s in records.sections:
        out += f" | {s.task} {show(s.around)} {s.small} {s.capital} {s.length} {show(s.level)}"
    verdict = judged(simulator.admit, records)
    assert verdict == judged(simulator.admit_by_instants, records)
    return out + f" = {verdict}"


def judged(admit, records):
    try:
        return f"admitted idle {admit(records)}"
    except simulator.Refused as refusal:
        return str(refusal)


FLASH = b"""hostrd: D=40 T=50 C=10 9{ a B }
mapupd: D=50 T=80 C=10 8{ a 2{ B 1{ C } } }
reloc: D=60 T=100 C=20 2{ b } 17{ c 13{ b } }
scrub: D=90 T=90 C=30 18{ a c }
"""


def by_hand():
    one = b"x: D=1 T=1 C=1\n"
    many = lambda n: b"".join(b"t: D=90000 T=90000 C=1\n" for _ in range(n))
    nest = lambda n: b"x: D=9 T=9 C=9" + b" 1{" * n + b" }" * n + b"\n"
    row = lambda n: b"x: D=9 T=9 C=9" + b" 1{ }" * n + b"\n"
    yield from [(32, 64, FLASH), (32, 64, FLASH.replace(b"18{", b"20{")), (32, 64, FLASH.replace(b"18{", b"21{"))]
    omega = b"a: D=3 T=4 C=1\nb: D=5 T=8 C=1\nc: D=6 T=10 C=2\nd: D=9 T=15 C=%d\n"
    yield from [(32, 64, omega % 4), (32, 64, omega % 5), (32, 64, one), (32, 64, one + one), (32, 64, b"x: D=3 T=4 C=4\n")]
    yield from [(32, 64, b"fast: D=4 T=10 C=2 1{ a }\nslow: D=20 T=20 C=8 2{ a }\n")]
    yield from [(32, 64, b"fast: D=4 T=10 C=2 2{ a }\nslow: D=20 T=20 C=8 3{ a }\n")]
    # each refusal, each limit from both sides
    yield from [(32, 64, b""), (32, 64, b"\n"), (32, 64, b"x"), (32, 64, one[:-1]), (32, 64, one + b"\n"), (32, 64, one + b"x")]
    for n in (8, 9):
        yield (32, 64, b"a" * n + b": D=1 T=1 C=1\n")
    for n in (0, 1, 1048576, 1048577, 99999999999999999999):
        yield (32, 64, b"x: D=%d T=%d C=1\n" % (n, max(n, 1)))
        yield (32, 64, b"x: D=1 T=%d C=1\n" % n)
        yield (32, 64, b"x: D=9 T=9 C=9 %d{ }\n" % n)
    yield (32, 64, b"x: D=01 T=1 C=1\n")
    yield (32, 64, b"x: D=1 T=1 C=01 0{ a }\n")
    yield (32, 64, b"x: D=1 T=1 C=" + b"9" * 5000 + b"\n")
    for d, t, c in ((1, 2, 2), (2, 1, 1), (2, 2, 2), (3, 2, 4)):
        yield (32, 64, b"x: D=%d T=%d C=%d\n" % (d, t, c))
    for n in (31, 32, 33):
        yield (32, 64, many(n))
        yield (40, 64, many(n))
    for n in (0, 1, 2, 3):
        yield (n, 64, many(2))
        yield (32, n, row(2))
    for n in (63, 64, 65):
        yield (32, 64, row(n))
        yield (32, 70, row(n))
    for n in (7, 8, 9, 2000):
        yield (32, 64, nest(n))
    for body in (b"1{ a a }", b"1{ a A }", b"1{ a 1{ A } }", b"1{ a } 1{ a }", b"1{ 1{ a } 1{ a } }", b"1{ a 1{ b 1{ a } } }", b"1{ z Z }",
                 b"9{ a 9{ b } }", b"9{ 8{ } 9{ } }", b"8{ 9{ } }", b"10{ }", b"9{ 3{ 4{ } } }", b"1{ 1{ } a }", b"1{a }", b"1{ a}", b"1{ a } ",
                 b" 1{ }", b"1{ } }", b"1{", b"1", b"{ }", b"1 { }", b"1{ 0{ a a } }", b"10{ a a }", b"10{ 01{ b } }", b"1{ ab }"):
        yield (32, 64, b"x: D=9 T=9 C=9 " + body + b"\n")
    for b in (0, 9, 13, 32, 48, 58, 64, 91, 96, 123, 127, 128, 255):
        yield (32, 64, bytes([b]) + b"x: D=1 T=1 C=1\n")
        yield (32, 64, b"x: D=1 T=1 C=1" + bytes([b]) + b"\n")
    for cut in range(len(b"xy: D=12 T=34 C=5 6{ a B 7{ } }\n")):
        yield (32, 64, b"xy: D=12 T=34 C=5 6{ a B 7{ } }\n"[:cut])
    for n in (16384, 16385):
        yield (32, 64, b"x: D=1 T=1 C=" + b"1" * (n - 14) + b"\n")
    # order of refusals: a lower number later in the line wins, an earlier line wins
    yield (32, 64, b"x: D=9 T=9 C=9 1{ a a } 0{ }\n")
    yield (32, 64, b"x: D=9 T=9 C=9 10{ } 1{ a a }\n")
    yield (32, 64, b"x: D=9 T=9 C=9 10{ }\ny\n")
    yield (1, 64, b"x: D=9 T=9 C=9\ny: D=8 T=9 C=9\n")
    yield (1, 64, b"x: D=9 T=9 C=9\ny: D=9 T=9 C=9 10{ a a }\n")
    # the horizon
    yield (32, 64, b"x: D=1048576 T=1048576 C=1048574\ny: D=1048575 T=1048575 C=2\n")
    yield (32, 64, b"x: D=1048576 T=1048576 C=1048574\ny: D=1048575 T=1048575 C=1\n")


def sections_text(r, depth, bound, letters):
    out = b""
    for _ in range(r.choice([0, 0, 1, 1, 2])):
        length = max(1, r.randint(1, bound) + (r.random() < 0.02))
        mine = r.sample(letters, min(len(letters), r.choice([0, 1, 1, 2])))
        left = [x for x in letters if x not in mine] if r.random() < 0.97 else letters
        inner = sections_text(r, depth + 1, length, left) if depth < 4 else b""
        out += b" %d{" % length + b"".join(b" " + (x if r.random() < 0.5 else x.upper()).encode() for x in mine) + inner + b" }"
    return out


def drawn(seed, count):
    r = random.Random(seed)
    for _ in range(count):
        text = b""
        n = r.randint(1, 6)
        for i in range(n):
            period = r.randint(2, 60)
            deadline = r.randint(max(1, period // 3), period)
            cost = r.randint(1, max(1, min(deadline, period // n + r.randint(0, 2))))
            text += bytes([97 + i]) + b": D=%d T=%d C=%d" % (deadline, period, cost) + sections_text(r, 1, cost, list("abcd")) + b"\n"
        if r.random() < 0.25:
            at = r.randrange(len(text))
            text = text[:at] + bytes([r.choice(b" 0129:={}aDTC\n")]) + text[at + r.choice([0, 1]):]
        yield (r.choice([32, 32, 32, n - 1, n]), r.choice([64, 64, 64, 2, 5]), text)


def escaped(text):
    out = ""
    for b in text:
        out += "\\n" if b == 10 else "\\\\" if b == 92 else chr(b) if 32 <= b < 127 else f"\\x{b:02x}"
    return out


def main():
    cases = list(by_hand()) + list(drawn(1, 600))
    for t, s, text in cases:
        print(f"{t} {s} {escaped(text)}" if sys.argv[1] == "stdin" else answer(t, s, text))


if __name__ == "__main__":
    main()
