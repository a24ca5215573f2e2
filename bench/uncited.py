#!/usr/bin/env python3
"""Lists the lemmas that nothing cites: a name that proofs/ of a crate defines and that stands nowhere else, neither in the specs and
proofs nor in the sources of any crate. Rows (files whose names end in Rows) are read by nobody and stand for themselves. With
`--remove CRATE..` (or `--remove` alone, for all) takes them away, and the imports that then serve nothing. Ends with 1 where one stands."""
import collections
import glob
import os
import re
import sys

TOP = os.path.dirname(os.path.dirname(os.path.abspath(__file__)))
os.chdir(TOP)
NAME = re.compile(r"[A-Za-z_][\w\-']*")
HEAD = re.compile(r"( *)(?:pub |unfoldable |abbrev )*([A-Za-z_][\w\-']*) :(?: |$)")


def words(text):
    return NAME.findall(text)


def without_comments(text):
    return "\n".join("" if line.lstrip().startswith("--") else line for line in text.split("\n"))


def read(paths):
    found = {}
    for path in paths:
        with open(path, encoding="utf-8") as it:
            found[path] = it.read()
    return found


def blocks(text):
    """The definitions of a file by name: their first line, with the comment above, and the line behind them."""
    lines = text.split("\n")
    found = []
    depth = 0
    for n, line in enumerate(lines):
        opened = re.match(r"( *)module _", line)
        if opened:
            depth = len(opened[1]) + 2
        elif line.strip() and len(line) - len(line.lstrip()) < depth and not line.lstrip().startswith("--"):
            depth = 0 if not line.startswith(" ") else depth
        head = HEAD.match(line)
        if not head or len(head[1]) != depth:
            continue
        name, end = head[2], n + 1
        while end < len(lines):
            line = lines[end]
            if not line.strip():
                more = next((it for it in lines[end:] if it.strip()), "")
                if len(more) - len(more.lstrip()) <= depth or not more:
                    break
            elif not (len(line) - len(line.lstrip()) > depth or re.match(re.escape(" " * depth + name) + r"(?![\w\-'])", line) or line.strip() in ("}", ")")):
                break
            end += 1
        begin = n
        while begin and lines[begin - 1].startswith(" " * depth + "-- "):
            begin -= 1
        found.append((name, begin, n, end, bool(re.match(r" *(?:abbrev |unfoldable )*pub |.*\bpub\b", lines[n].split(":")[0]))))
    return found


def shorter(text):
    """The text without the imports that serve nothing."""
    lines = text.split("\n")
    body = collections.Counter(words("\n".join(it for it in lines if not it.startswith(("use ", "pub use ")) and not it.lstrip().startswith("--"))))
    made = []
    for line in lines:
        found = re.match(r"use ([\w.\-]+)\.\{(.*)\}$", line)
        if found:
            names = [it.strip() for it in found[2].split(",")]
            kept = []
            for it in names:
                last = it.split(" as ")[-1].strip()
                plain = NAME.fullmatch(last)
                kept += [it] if not plain or body[last] else []
            if not kept:
                continue
            if len(kept) != len(names):
                line = f"use {found[1]}.{{{', '.join(kept)}}}"
        made.append(line)
    return "\n".join(made)


def main(arguments):
    removes = "--remove" in arguments
    only = [it for it in arguments if it != "--remove"]
    texts = read(glob.glob("crates/*/specs/**/*.antt", recursive=True) + glob.glob("crates/*/proofs/**/*.antt", recursive=True)
                 + glob.glob("crates/*/src/**/*.rt", recursive=True))
    told = []
    for _ in range(12):
        uses = {}
        for path, text in texts.items():
            uses[path] = collections.Counter(words(without_comments(text)))
        everywhere = collections.Counter()
        for it in uses.values():
            everywhere.update(it.keys())
        gone = 0
        for path in sorted(texts):
            parts = path.split("/")
            if parts[2] != "proofs" or len(parts) != 4 or path.endswith(("Lib.antt", "Rows.antt")) or "_cases_" in parts[1]:
                continue
            if only and parts[1] not in only:
                continue
            text = texts[path]
            lines = text.split("\n")
            cut = []
            for name, begin, at, end, public in blocks(text):
                inside = collections.Counter(words(without_comments("\n".join(lines[at:end]))))[name]
                here = uses[path][name]
                if (public and everywhere[name] > 1) or here > inside:
                    continue
                told.append(f"{path}: {name}")
                cut.append((begin, end))
            if cut:
                gone += len(cut)
                for begin, end in reversed(cut):
                    if end < len(lines) and not lines[end].strip() and (begin == 0 or not lines[begin - 1].strip()):
                        end += 1
                    del lines[begin:end]
                texts[path] = shorter("\n".join(lines))
                while "\n\n\n" in texts[path]:
                    texts[path] = texts[path].replace("\n\n\n", "\n\n")
                if removes:
                    with open(path, "w", encoding="utf-8") as it:
                        it.write(texts[path])
        if not gone:
            break
    for it in told:
        print(it)
    return 1 if told else 0


if __name__ == "__main__":
    sys.exit(main(sys.argv[1:]))
