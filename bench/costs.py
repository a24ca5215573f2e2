#!/usr/bin/env python3
"""How many seconds of a processor each crate takes: run it beside `rt ci` or `rt check`, and end it by Ctrl-C or a signal.

It looks four times a second at the processes of the prover on this machine, and sums what each of them, copies too, took until
it was last seen. What is done in the last quarter of a second of a process is not counted. A table stands in the file that
is named, or on standard output, and is written anew each ten seconds: the crate, and the seconds of its proofs, its tests
and its wrong bodies.
"""
import os
import re
import signal
import sys
import time

TICKS = os.sysconf("SC_CLK_TCK")
taken = {}  # of a process and its begin: the crate, the kind, and the seconds


def look():
    for pid in filter(str.isdigit, os.listdir("/proc")):
        try:
            with open(f"/proc/{pid}/cmdline", "rb") as it:
                words = it.read().split(b"\0")
            if len(words) < 3 or not words[0].endswith(b"/rattle"):
                continue
            with open(f"/proc/{pid}/stat") as it:
                stat = it.read().rpartition(")")[2].split()
            folder = os.readlink(f"/proc/{pid}/cwd")
        except OSError:
            continue
        name = words[words.index(b"--crate-name") + 1].decode() if b"--crate-name" in words else "?"
        edit = re.search(r"/rt-edits?-", folder)
        seed = edit or (b"--incremental" in words and "/rt-" in folder)
        kind = "edits" if seed else "tests" if b"--test" in words else words[1].decode()
        seconds = (int(stat[11]) + int(stat[12])) / TICKS
        taken[pid, stat[19]] = name, kind, seconds


def table():
    sums = {}
    for name, kind, seconds in taken.values():
        row = sums.setdefault(name, {})
        row[kind] = row.get(kind, 0) + seconds
    kinds = sorted({kind for row in sums.values() for kind in row}, key=lambda it: (it != "check", it != "tests", it != "edits", it))
    lines = [" ".join(["crate", *kinds, "all"])]
    for name, row in sorted(sums.items(), key=lambda it: -sum(it[1].values())):
        lines.append(" ".join([name, *[f"{row.get(kind, 0):.0f}" for kind in kinds], f"{sum(row.values()):.0f}"]))
    whole = sum(sum(row.values()) for row in sums.values())
    return "\n".join([*lines, f"minutes {whole / 60:.1f}", ""])


def main():
    file = sys.argv[1] if len(sys.argv) > 1 else None

    def end(*_):
        write()
        sys.exit(0)

    def write():
        if file:
            with open(f"{file}.new", "w") as it:
                it.write(table())
            os.replace(f"{file}.new", file)
        else:
            print(table(), flush=True)

    signal.signal(signal.SIGINT, end)
    signal.signal(signal.SIGTERM, end)
    turn = 0
    while True:
        look()
        turn += 1
        if file and turn % 40 == 0:
            write()
        time.sleep(0.25)


if __name__ == "__main__":
    main()
