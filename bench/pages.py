#!/usr/bin/env python3
"""Does what the pages name exist? Looks at README.md, docs/, bench/, examples/ and the README of each crate, and prints
what doesn't: links, files, crates, and names of code in back-ticks. Ends with 1 where something is missing, or where
docs/CRATES.md isn't what it makes of crates.txt and of the first sentences of the crates' READMEs; `--write` writes that.

A name in back-ticks is looked for where it has an underscore, a capital inside, `::` or brackets behind it, so that words of
Verilog, of scripts and of the shell are left alone; a file by its path from the page, from the crate of the page or of the crate named
before it, from the top, or by its name alone in some crate.
"""
import glob
import os
import re
import sys

TOP = os.path.dirname(os.path.dirname(os.path.abspath(__file__)))
os.chdir(TOP)
PAGES = ["README.md", *sorted(glob.glob("docs/*.md")), "bench/README.md", "examples/README.md", *sorted(glob.glob("crates/*/README.md"))]


def listed():
    with open("crates.txt") as it:
        return {line.split(":")[0].split()[0] for line in it if re.match(r"[a-z]", line)}


def words_of_sources():
    found, files = set(), {}
    for pattern in ("crates/*/src/**/*.rt", "crates/*/specs/**/*.antt", "crates/*/proofs/**/*.antt", "bench/*", "bench/designs/*", "examples/*", "vhost", ".ci/run"):
        for path in glob.glob(pattern, recursive=True):
            if os.path.isfile(path):
                files.setdefault(os.path.basename(path), []).append(path)
                with open(path, encoding="utf-8", errors="replace") as it:
                    found.update(re.findall(r"[A-Za-z_][A-Za-z0-9_]*", it.read()))
    return found, files


CRATES = listed()
WORDS, FILES = words_of_sources()
# What stands in pages and is of the language of scripts, of SystemVerilog, of the standard library or of the toolchain.
OTHERS = set("cK sK tK hN always_ff always_comb always_latch join_any join_none".split())


def is_there(word, page):
    """Is this word of a page, which looks like a file, there?"""
    word = word.rstrip("/")
    folder = os.path.dirname(page)
    if any(os.path.exists(f"{at}{word}") for at in ("", f"{folder}/")):
        return True
    if os.path.basename(word) in FILES and "/" not in word:
        return True
    return any(path.endswith(f"/{word}") for path in FILES.get(os.path.basename(word), []))


def missing_of(page):
    with open(page, encoding="utf-8") as it:
        text = it.read()
    # (what stands between three back-ticks is code or output)
    prose = re.sub(r"^```.*?^```", lambda it: "\n" * it[0].count("\n"), text, flags=re.S | re.M)
    for number, line in enumerate(prose.split("\n"), 1):
        for link in re.findall(r"\]\(([^)#\s]+)(?:#[^)]*)?\)", re.sub(r"`[^`]*`", "", line)):
            if not link.startswith("http") and not os.path.exists(f"{os.path.dirname(page) or '.'}/{link}"):
                yield number, f"no such file: {link}"
    for match in re.finditer(r"`([^`\n]+(?:\n[^`\n]+)?)`", prose):
        number, word = prose.count("\n", 0, match.start()) + 1, " ".join(match[1].split())
        if re.fullmatch(r"vh_[a-z_]*[a-z]", word):
            if word not in CRATES:
                yield number, f"no such crate: {word}"
        elif re.fullmatch(r"[\w./-]+\.(rt|antt|py|sh|md|txt|v|app|c)", word):
            is_a_users = word.endswith((".v", ".app")) and "/" not in word
            if "NAME" not in word and not is_a_users and not is_there(word, page):
                yield number, f"no such file: {word}"
        elif re.fullmatch(r"(crates|docs|bench|examples)/[\w./-]*", word):
            if not is_there(word, page):
                yield number, f"no such file: {word}"
        elif re.fullmatch(r"[A-Za-z_]\w*[A-Za-z0-9](::[A-Za-z_]\w*)*(\(\))?", word) and re.search(r"_|::|\(\)|[a-z][A-Z]", word):
            for part in re.findall(r"\w+", word):
                if part not in WORDS and part not in OTHERS and part not in CRATES:
                    yield number, f"no such name: {word}"
                    break


def misplaced():
    """What a row of the map by task names and isn't where it says: a file of specs/ or src/ of the crates of the row, a list of cases."""
    with open("docs/ARCHITECTURE.md", encoding="utf-8") as it:
        rows = [line.strip("|").split("|") for line in it.read().split("\n") if line.startswith("| ") and line.count("|") == 5]
    for task, definitions, code, seen in rows:
        crates = []
        for part in definitions.split(";"):
            crates = re.findall(r"`(vh_\w+)`", part) or crates
            for name in re.findall(r"`(\w+\.antt)`", part):
                if not any(os.path.exists(f"crates/{it}/specs/{name}") for it in crates):
                    yield f"{task.strip()}: {name} isn't in {' '.join(crates)}"
        crates = re.findall(r"`(vh_\w+)`", definitions + code)
        for name in re.findall(r"`([\w/]+\.rt)`", code):
            if not any(os.path.exists(f"crates/{it}/src/{name}") for it in crates):
                yield f"{task.strip()}: {name} isn't in {' '.join(crates)}"
        for name in re.findall(r"`([a-z]+)`", seen):
            if not os.path.exists(f"crates/vh_cases_stored/data/{name}"):
                yield f"{task.strip()}: there is no list {name}"


HEAD = """# The crates

By layer, the lowest first, as `crates.txt` has them; a crate stands on those of its own layer and of the layers above it on this page.
The README of each has its contracts, what is only tested, what is neither, and choices that a reader of its code needs; those that a user
can see stand in `docs/DECISIONS.md`. This page is made by `python3 bench/pages.py --write`, of `crates.txt` and of the first sentence of
each README.
"""


def sentence_of(name):
    with open(f"crates/{name}/README.md", encoding="utf-8") as it:
        text = " ".join(it.read().split("\n\n")[1].split())
    found = re.match(r"(.*?\.)( [A-Z`]|$)", text)
    return found[1] if found else text


def list_of_crates():
    lines = [HEAD]
    with open("crates.txt", encoding="utf-8") as it:
        for line in it.read().split("\n")[1:]:
            if line.startswith("# "):
                lines.append(f"## {line[2:]}\n")
            elif line:
                name = line.split(":")[0].split()[0]
                lines.append(f"- [{name}](../crates/{name}/README.md): {sentence_of(name)}")
            elif len(lines) > 1:
                lines.append("")
    return "\n".join(lines).rstrip() + "\n"


def main():
    count = 0
    for page in PAGES:
        for number, what in missing_of(page):
            print(f"{page}:{number}: {what}")
            count += 1
    for what in misplaced():
        print(f"docs/ARCHITECTURE.md: {what}")
        count += 1
    for name in sorted(CRATES):
        if not os.path.isfile(f"crates/{name}/README.md"):
            print(f"crates/{name}: no README.md")
            count += 1
    if "--write" in sys.argv:
        with open("docs/CRATES.md", "w", encoding="utf-8") as it:
            it.write(list_of_crates())
    with open("docs/CRATES.md", encoding="utf-8") as it:
        if it.read() != list_of_crates():
            print("docs/CRATES.md: stale; python3 bench/pages.py --write")
            count += 1
    print(f"{len(PAGES)} pages, {count} names of what isn't there")
    return 1 if count else 0


if __name__ == "__main__":
    sys.exit(main())
