#!/usr/bin/env python3
"""How many seconds of a processor each function of a crate takes to be proved, the dearest first.

    python3 bench/functions.py NAME [FRACTION]

It proves the crate on one processor, over the libraries that `rt ci` kept on this machine (call `rt ci` for those below first), and
looks at what the prover has taken when it names a function as checked. The first number is what it took before the first one:
reading the libraries. Only functions are shown that took FRACTION of the whole and more, a hundredth where nothing is said.
"""
import os
import shutil
import subprocess
import sys
import tempfile

sys.path.insert(0, os.path.dirname(os.path.abspath(__file__)))
from wrong_bodies import TOP, Tries

TICKS = os.sysconf("SC_CLK_TCK")


def taken(pid):
    with open(f"/proc/{pid}/stat") as it:
        stat = it.read().rpartition(")")[2].split()
    return sum(int(it) for it in stat[11:15]) / TICKS


def main(name, fraction=0.01):
    with tempfile.TemporaryDirectory(prefix="functions-") as copy:
        shutil.copytree(f"{TOP}/crates", f"{copy}/crates", ignore=lambda at, names: ["out"] if os.path.dirname(at).endswith("crates") else [])
        for it in ("crates.txt", "HANDLES"):
            shutil.copyfile(f"{TOP}/{it}", f"{copy}/{it}")
        os.mkdir(f"{copy}/.git")
        tries = Tries(copy)
        if not tries.has_libraries(name):
            print(f"the libraries below {name} aren't kept: call rt ci for these")
            return 2
        crate = tries.crates[name]
        words = [tries.rt.rtlib.RATTLE, "check", *crate.words(["--jobs", "1"], keeps=False), "--progress"]
        ran = subprocess.Popen(words, cwd=crate.folder, stdin=subprocess.DEVNULL, stdout=subprocess.PIPE, stderr=subprocess.STDOUT, text=True, bufsize=1)
        before, first, rows, last = 0.0, None, [], ""
        for line in ran.stdout:
            last = line.strip()
            try:
                now = taken(ran.pid)
            except OSError:
                now = before
            if line.startswith("checked "):
                if first is None:
                    first = before
                rows.append((now - before, line.split()[1].rstrip(",")))
            before = now
        status = ran.wait()
        os.chdir(TOP)
    whole = before
    print(f"{whole:.0f} s in all, {first or 0:.0f} before the first function, {len(rows)} functions, status {status}, {last[:100]}")
    for seconds, function in sorted(rows, reverse=True):
        if seconds >= fraction * whole:
            print(f"{seconds:7.1f} {function}")
    return status


if __name__ == "__main__":
    sys.exit(main(sys.argv[1], *[float(it) for it in sys.argv[2:]]))
