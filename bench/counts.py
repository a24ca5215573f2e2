#!/usr/bin/env python3
"""Are the counts in the pages those of the files? Looks at each count that this script makes, prints those that differ, and
ends with 1 where one does; `--write` writes them.

- docs/DEFINITIONS.md: how many definitions of each file the clauses of `run` stand on, of each part, and in all; README.md
  and docs/PROOFS.md: how many in all
- README.md and docs/DECISIONS.md: how many wrong bodies the gate tries, and how many stand beside it
- crates/vh_cases_stored: in its README and its file `stdout` how many cases and calls each list has
- docs/ARCHITECTURE.md: how many crates there are
"""
import glob
import os
import re
import sys

import definitions

TOP = os.path.dirname(os.path.dirname(os.path.abspath(__file__)))
os.chdir(TOP)
WRITES = "--write" in sys.argv[1:]
STORED = "crates/vh_cases_stored"
differ = []


def number(n):
    return f"{n:,}"


def put(page, text, pattern, wanted, what):
    """The text with what the pattern's group 1 has replaced, where that isn't what is wanted."""
    found = re.search(pattern, text)
    if not found:
        differ.append(f"{page}: no count of {what}")
        return text
    if found[1] == wanted:
        return text
    differ.append(f"{page}: {found[1]} {what}, and there are {wanted}")
    return text[: found.start(1)] + wanted + text[found.end(1) :]


def page(path, change):
    with open(path, encoding="utf-8") as it:
        text = it.read()
    new = change(text)
    if WRITES and new != text:
        with open(path, "w", encoding="utf-8") as it:
            it.write(new)


def of_definitions(text):
    """The counts behind the files of docs/DEFINITIONS.md, which name their crate or go on in that of the file before; the sums."""
    files, everything, headline = definitions.counted()
    name, crate, seen = "docs/DEFINITIONS.md", None, set()
    part, parts = None, {}

    def one(found):
        nonlocal crate, part
        if found["part"]:
            part = found["part"]
            parts[part] = 0
            return found[0]
        crate = found["crate"] or found["whole"] or crate
        # (a folder stands for all its files)
        file = f"crates/{crate}/specs/{found['file']}.antt" if found["file"] else f"crates/{crate}/specs/"
        these = [it for it in files if it.startswith(file)] if not found["file"] else [file]
        seen.update(these)
        count = sum(files.get(it, 0) for it in these)
        if part:
            parts[part] += count
        if found["count"] != number(count):
            differ.append(f"{name}: {found['count']} definitions of {file}, and there are {number(count)}")
        return f"{found['before']}{number(count)}"

    begin, end = text.index("**The claim:"), text.index("followed. Beside them stand")
    whole = text[begin:end]
    whole = re.sub(
        r"\*\*(?P<part>[A-Z][^*:]*): [\d,]+\.\*\*|(?P<before>`(?:(?:crates/(?P<crate>vh_\w+)/specs/)?(?P<file>[\w/]+)\.antt|crates/(?P<whole>vh_\w+)/specs/)`,\s+)(?P<count>\d+(?:,\d{3})*)",
        one,
        whole,
    )
    for title, count in parts.items():
        whole = put(name, whole, rf"\*\*{re.escape(title)}: ([\d,]+)\.\*\*", number(count), f"definitions of the part '{title}'")
    for file in sorted(set(files) - seen):
        differ.append(f"{name}: doesn't name {file}, of which the clauses stand on {files[file]} definitions")
    text = text[:begin] + whole + text[end:]
    syntax = sum(count for file, count in files.items() if file.startswith("crates/vh_parse_syntax/"))
    text = put(name, text, r"(\d+) are the grammar of the subset as a table", number(syntax), "definitions of the grammar")
    text = put(name, text, r"stand on \*\*([\d,]+) definitions\*\*", number(everything), "definitions")
    return put(name, text, r"alone stands on ([\d,]+) of these", number(headline), "definitions of the headline")


def of_stored(text):
    rows = []
    for line in text.splitlines():
        found = re.match(r"(\w+): \d+ cases, \d+ calls, 0 differ$", line)
        if not found:
            rows.append(line)
            continue
        with open(f"{STORED}/data/{found[1]}", encoding="utf-8", errors="replace") as it:
            cases = re.split(r"(?m)^== ", it.read())[1:]
        # a call whose labels are said is made three times
        calls = sum(len(re.findall(r"(?m)^>(?: |$)", case)) * (3 if re.search(r"(?m)^= ", case) else 1) for case in cases)
        wanted = f"{found[1]}: {len(cases)} cases, {calls} calls, 0 differ"
        if wanted != line:
            differ.append(f"{STORED}/stdout: '{line}', and it is '{wanted}'")
        rows.append(wanted)
    return "\n".join(rows) + "\n"


def main():
    everything = number(definitions.counted()[1])
    tried = len(glob.glob("crates/*/must-fail/*"))
    beside = len(glob.glob("crates/*/wrong-bodies/*"))
    page("docs/DEFINITIONS.md", of_definitions)
    page("README.md", lambda text: put("README.md", text, r"has the ([\d,]+) definitions", everything, "definitions"))
    page("README.md", lambda text: put("README.md", text, r"tries (\d+) of the wrong bodies", str(tried), "wrong bodies in the gate"))
    page("docs/PROOFS.md", lambda text: put("docs/PROOFS.md", text, r"the definitions: ([\d,]+) under", everything, "definitions"))
    page("docs/DECISIONS.md", lambda text: put("docs/DECISIONS.md", text, r"those that tell most: (\d+) in `must-fail/`", str(tried), "wrong bodies in the gate"))
    page("docs/DECISIONS.md", lambda text: put("docs/DECISIONS.md", text, r"The others, (\d+), stand in", str(beside), "wrong bodies beside the gate"))
    page(f"{STORED}/stdout", of_stored)
    for line in differ:
        print(line)
    return 1 if differ and not WRITES else 0


if __name__ == "__main__":
    sys.exit(main())
