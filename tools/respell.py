#!/usr/bin/env python3
"""Brings the repository's own definitions and lemmas to snake case, once, after the kit's port.py.

Run at the top: python3 tools/respell.py. A name in lower camel case, or with dashes, becomes snake case, the dashes underscores; a fact
with dashes becomes upper camel case, and two capitals with a dash between them small letters. A dash stays only behind `length`, `sum`,
`take` and `drop` at the start of a lemma's name, as in `length-insert`. Where a lemma would fall together with a definition, the lemma
gets `_lem`. Goals and steps that the check names, names of the library, and functions of src/ are left alone.

It is done: run on what it has made it would find names that fall together, and stops before it writes anything.
"""
import glob
import re
import sys

IDENT = r"[^\s(){}\[\].,;:λ→×∷\"`]+"
TOKEN = re.compile(r"[^\s(){}\[\].,;:λ→×\"`]+|[\s(){}\[\].,;:λ→×\"`]")
GOAL = re.compile(r"^(returns|decreases|invariant|ghost|overflow|bounds|loop)-|-requires$|-preserved$|-init$|-smaller$")
KEEPS_DASH = re.compile(r"(length|sum|take|drop)-")
# where a lemma would fall together with a definition
LEMMAS = {
    "body-at", "by-refusal", "deadline-at", "goes_over", "heap-list", "in_inner", "is-out", "is-small", "line-judged", "lines-judged", "name-length",
    "no-section", "no-task", "none_open", "numeral-at", "rule-of", "running-in", "same-level", "same_place", "section-at", "task-at",
    "text-sections", "text-tasks",
}
NOT_OURS = re.compile(r"(?:ghost )?use (?!Rattle\.(?:table|admission|queue|machine|scheduler|trace|client|cases|edfi)\.)[^{]*\{([^}]*)\}")
GENERATED = re.compile(r"^(?:pub |abbrev pub )?(" + IDENT + r") : (?:goal|need|given)\.", re.M)


def spelled(name):
    if name in LEMMAS:
        return name.replace("-", "_") + "_lem"
    if re.fullmatch(r"[A-Z](-[A-Za-z]+)+", name):
        return name.lower().replace("-", "_")
    if name[0].isupper():
        return "".join(part[0].upper() + part[1:] for part in name.split("-"))
    name = re.sub(r"(?<=[a-z0-9])([A-Z])", lambda m: "_" + m.group(1).lower(), name)
    if KEEPS_DASH.match(name):
        first, rest = name.split("-", 1)
        return first + "-" + rest.replace("-", "_")
    return name.replace("-", "_")


def definitions(paths):
    """The repository's own names, and those among them that are fields of records."""
    names, fields = set(), set()
    for path in paths:
        text = open(path).read()
        generated = set(GENERATED.findall(text))
        in_record = None
        for line in text.split("\n"):
            indent = len(line) - len(line.lstrip())
            if line.strip() and in_record is not None and indent <= in_record:
                in_record = None
            if re.match(r"\s*(pub )?record .*where$", line):
                in_record = indent
            head = re.match(r"\s*(?:unfoldable )?(?:abbrev )?(?:pub )?((?:" + IDENT + r" )+):(?: |$)", line)
            header = re.match(r"\s*(?:pub )?(?:record|data) (" + IDENT + r")", line)
            if header:
                names.add(header.group(1))
            elif head and not line.lstrip().startswith(("--", "let ", "use ", "λ", "(", "unfolding ")):
                for name in head.group(1).split():
                    if name not in generated and not GOAL.search(name):
                        names.add(name)
                        if in_record is not None:
                            fields.add(name)
    return names, fields


def respell(path, names, fields):
    text = open(path).read()
    foreign = set()
    for group in NOT_OURS.findall(text):
        for item in group.split(","):
            foreign.add(item.split(" as ")[-1].strip())
    foreign |= set(GENERATED.findall(text))
    out = []
    for line in text.split("\n"):
        code, comment = line, ""
        mark = "--" if path.endswith(".antt") else "//"
        at = line.find(mark)
        prose = path.endswith(".md")
        if at >= 0 and (at == 0 or line[at - 1] == " ") and not prose:
            code, comment = line[:at], line[at:]
        if prose:
            code, comment = "", line
        tokens = TOKEN.findall(code)
        for i, token in enumerate(tokens):
            if path.endswith(".rt") and token in LEMMAS and re.fullmatch(r"[a-z0-9_]+", token):
                continue                                  # the name of a function of src/ as well
            if token in names and token not in foreign and spelled(token) != token:
                if i > 0 and tokens[i - 1] == "." and token not in fields:
                    continue
                tokens[i] = spelled(token)
        comment = re.sub(r"`(" + IDENT + r")`", lambda m: "`" + (spelled(m.group(1)) if m.group(1) in names else m.group(1)) + "`", comment)
        out.append("".join(tokens) + comment)
    new = "\n".join(out)
    if new != text:
        open(path, "w").write(new)
        return True
    return False


def main():
    antt = sorted(glob.glob("crates/*/specs/**/*.antt", recursive=True) + glob.glob("crates/*/proofs/**/*.antt", recursive=True))
    antt = [p for p in antt if "/out/" not in p]
    names, fields = definitions(antt)
    ours = {n for n in names if n in LEMMAS or "-" in n or re.match(r"[a-z]+[a-z0-9]*[A-Z]", n) or re.search(r"^[a-z].*[a-z0-9][A-Z]", n)}
    ours = {n for n in ours if spelled(n) != n}
    together = {}
    for n in names:
        together.setdefault(spelled(n), set()).add(n)
    clash = {new: sorted(olds) for new, olds in together.items() if len(olds) > 1}
    if clash:
        sys.exit("\n".join(f"falls together: {new} {olds}" for new, olds in sorted(clash.items())))
    rt = sorted(p for p in glob.glob("crates/*/src/**/*.rt", recursive=True))
    md = sorted(glob.glob("*.md") + glob.glob("docs/*.md"))
    changed = sum(respell(p, ours, fields) for p in antt + rt + md)
    print(len(ours), "names,", changed, "files")


if __name__ == "__main__":
    main()
