#!/usr/bin/env python3
"""Draws twenty statements of docs/ARCHITECTURE.md by a seed that stands here, and looks whether bench/drawn.md has a row for each:
the statement, and the place that shows it, a file and words that stand in it. Prints what lacks, and ends with 1 where something does;
`--list` prints the statements that are drawn.

A statement is a sentence, or a row of a table. Those are drawn whose sums over seed and words are least, so that a change of one
statement changes no other's lot."""
import hashlib
import os
import re
import sys

TOP = os.path.dirname(os.path.dirname(os.path.abspath(__file__)))
os.chdir(TOP)
SEED = "twenty statements that hold"
MANY = 20


def statements(text):
    text = re.sub(r"```.*?```", "", text, flags=re.S)
    found, paragraph = [], []

    def close():
        if paragraph:
            words = " ".join(paragraph)
            found.extend(it.strip() for it in re.split(r"(?<=[.:])\s+(?=[A-Z`])", words) if len(it.split()) > 4)
            paragraph.clear()

    for line in text.split("\n"):
        line = line.strip()
        if line.startswith("|"):
            close()
            if not re.fullmatch(r"[|\s:-]+", line):
                found.append(line)
        elif not line or line.startswith("#"):
            close()
        else:
            if re.match(r"(?:-|\d+\.) ", line):
                close()
                line = re.sub(r"^(?:-|\d+\.) ", "", line)
            paragraph.append(line)
    close()
    heads = {"| Word | Means | Clause |", "| To change | Definition | Code | Seen by |"}
    return [it for it in found if it not in heads]


def lot(statement):
    return hashlib.sha256((SEED + statement).encode()).hexdigest()


def main(arguments):
    with open("docs/ARCHITECTURE.md", encoding="utf-8") as it:
        drawn = sorted(statements(it.read()), key=lot)[:MANY]
    if arguments == ["--list"]:
        print("\n\n".join(drawn))
        return 0
    with open("bench/drawn.md", encoding="utf-8") as it:
        parts = re.split(r"^> ", it.read(), flags=re.M)[1:]
    places = {}
    for part in parts:
        statement, _, rest = part.partition("\n\n")
        places[" ".join(statement.replace("\n> ", " ").split())] = re.findall(r"`([^`]+)`: `` (.+?) ``", rest)
    lacks = 0
    for statement in drawn:
        found = places.get(" ".join(statement.split()))
        if not found:
            print(f"bench/drawn.md has no place for: {statement}")
            lacks += 1
        for path, words in found or []:
            if not os.path.exists(path) or words not in open(path, encoding="utf-8").read():
                print(f"{path} doesn't say: {words}")
                lacks += 1
    print(f"{len(drawn)} statements drawn, {lacks} without what shows them")
    return 1 if lacks else 0


if __name__ == "__main__":
    sys.exit(main(sys.argv[1:]))
