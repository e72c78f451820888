#!/usr/bin/env python3
"""Lists each fact that stands in the contracts of three or more functions.

    tools/repeated.py [FOLDER]

Reads the clauses of every function below crates/*/src of the folder (this repository, if none is named), splits them where a clause holds several
facts, and drops which value a fact is about: `self.old` and `self.new` count as one. Prints how many functions have it, the fact and the functions.
"""

import collections
import glob
import os
import re
import sys


def facts(path):
    """Each fact of the clauses of a file, with the function that it stands at."""
    function = None
    crate = path.split("/crates/")[1].split("/")[0]
    with open(path, encoding="utf-8") as source:
        for line in source:
            head = re.search(r"\bfn (\w+)", line)
            if head and not line.lstrip().startswith("//"):
                function = crate + ":" + head.group(1)
            clause = re.match(r"\s*(?:requires|ensures)\*? *\w* *\{ (.*) \}", line)
            if clause and function:
                for part in clause.group(1).split(" × "):
                    fact = re.sub(r"\b\w+\.(?:now|old|new)\b", "_", part.strip("() "))
                    yield re.sub(r"\((\w+)\)", r"\1", fact), function


def main():
    top = os.path.abspath(sys.argv[1] if len(sys.argv) > 1 else os.path.join(os.path.dirname(__file__), ".."))
    where = collections.defaultdict(set)
    for path in glob.glob(top + "/crates/*/src/**/*.rt", recursive=True):
        for fact, function in facts(path):
            where[fact].add(function)
    for fact, functions in sorted(where.items(), key=lambda item: (-len(item[1]), item[0])):
        if len(functions) >= 3:
            print(len(functions), fact, " ".join(sorted(functions)))


if __name__ == "__main__":
    main()
