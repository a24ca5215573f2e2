#!/usr/bin/env python3
"""Counts instructions of the designs in bench/designs by valgrind's callgrind, as the difference of two runs of unlike length, so
that reading is no part of them, and prints the table "Behavioural designs" of docs/PERFORMANCE.md; beside it the same of
Icarus Verilog where it is there ("-" where it isn't). Needs valgrind; run it after ./vhost prove, or name one."""
import pathlib
import re
import shutil
import subprocess
import sys
import tempfile

TOP = pathlib.Path(__file__).resolve().parent.parent
PROGRAM = sys.argv[1] if len(sys.argv) > 1 else str(TOP / ".vhost/vhost")
DESIGNS = TOP / "bench/designs"


def events(time):
    """How often the processes of delays.v change their variable up to a time."""
    return sum(time // (1000 + (i * 7919) % 10007) for i in range(2000))


# A design, what is counted, two lengths, and how many of what is counted a run of a length makes.
LENGTHS = [
    ("counter", "a toggle of the clock, with every second an edge that counts", 4000, 24000, int),
    ("counter_ports", "a toggle of the clock", 4000, 24000, int),
    ("datapath", "an edge of the clock", 1000, 6000, int),
    ("delays", "an event", 20000, 60000, events),
    ("drivers", "a change of one of the 1,000 drivers of a net", 1000, 3000, int),
    ("woken", "a change that wakes one of 1,000 waiting processes", 1000, 3000, int),
    ("woken_of_many", "the same of 40,000", 1000, 3000, int),
    ("sum", "an assignment of a sum of 1,001 operands", 1000, 3000, int),
    ("disabled", "a `disable` of a task that one process is in, beside 2,000 that wait, and the next call of it", 200, 1200, int),
]
BUDGETS = [("turns", "a label, of which three are a turn"), ("nothing", "a label")]


def instructions(folder, *words):
    """How many instructions a call takes, as callgrind counts them; it may end with any status."""
    call = ["valgrind", "--tool=callgrind", f"--callgrind-out-file={folder}/calls", *words]
    done = subprocess.run(call, cwd=folder, capture_output=True, text=True)
    return int(re.search(r"Collected : (\d+)", done.stderr)[1])


def with_length(folder, name, length):
    """The instructions of vhost and of vvp for a design of this length, the latter None where Icarus Verilog isn't there."""
    (pathlib.Path(folder) / "length.v").write_text(f"`define LENGTH {length}\n")
    files = ["length.v", str(DESIGNS / f"{name}.v")]
    ours = instructions(folder, PROGRAM, "run", *files)
    if not shutil.which("iverilog"):
        return ours, None
    subprocess.run(["iverilog", "-o", "design", *files], cwd=folder, check=True)
    return ours, instructions(folder, shutil.which("vvp"), "design")


def main():
    if not shutil.which("valgrind"):
        sys.exit("designs.py: valgrind isn't there")
    print("| Design | What is counted | `vhost run` | `vvp` |\n|---|---|---|---|")
    with tempfile.TemporaryDirectory() as folder:
        for name, unit, short, long, count in LENGTHS:
            (ours, theirs), (more, others) = with_length(folder, name, short), with_length(folder, name, long)
            units = count(long) - count(short)
            icarus = "-" if theirs is None else f"{(others - theirs) // units:,}"
            print(f"| `{name}.v` | {unit} | {(more - ours) // units:,} | {icarus} |", flush=True)
        for name, unit in BUDGETS:
            ours, more = (
                instructions(folder, PROGRAM, "run", "--budget", budget, str(DESIGNS / f"{name}.v"))
                for budget in ("100000", "200000")
            )
            print(f"| `{name}.v` | {unit} | {(more - ours) // 100_000:,} | - |", flush=True)


main()
