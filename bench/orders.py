#!/usr/bin/env python3
"""Counts instructions of what applications do by valgrind's callgrind: a fire, an order, a byte of a text, a callback that renews itself, a
look for a name. Each is the difference of two runs of unlike length, so that reading is no part of it but where a script must be longer to
ask more, which is then taken off by a run that reads the same and asks nothing. Prints the table "Orders" of docs/PERFORMANCE.md, and the
seconds of the processor of removals. Needs valgrind; run it after ./vhost prove, or name one."""
import pathlib
import re
import resource
import shutil
import subprocess
import sys
import tempfile

TOP = pathlib.Path(__file__).resolve().parent.parent
PROGRAM = sys.argv[1] if len(sys.argv) > 1 else str(TOP / ".vhost/vhost")
WATCH = "register cbValueChange r 0 proc seen 0; "


def toggles(changes):
    """A design whose register changes so many times."""
    return "module top; reg r; initial begin " + " ".join(f"#1 r = {i % 2};" for i in range(changes)) + " end endmodule\n"


def watching(count, body):
    """A script with so many callbacks on that register, each of which does this."""
    return (
        "app watch; var r; startup { register cbEndOfCompile null 0 proc init 0; }\n"
        f'proc init {{ r = by_name "top.r" null; {WATCH * count}}} proc seen {{ {body} }}\n'
    )


def variables(count):
    """A design of so many variables."""
    return "module top; " + " ".join(f"reg name_{i};" for i in range(count)) + " endmodule\n"


def asking(body):
    """A script that does this once."""
    return f"app watch; var x; startup {{ register cbEndOfCompile null 0 proc init 0; }} proc init {{ {body} }}\n"


def written(folder, design, script):
    for name, text in (("design.v", design), ("script.app", script)):
        (pathlib.Path(folder) / name).write_text(text)


def instructions(folder, design, script):
    """How many instructions a run takes, as callgrind counts them."""
    written(folder, design, script)
    call = ["valgrind", "--tool=callgrind", f"--callgrind-out-file={folder}/calls", PROGRAM, "run", "design.v", "script.app"]
    with open(f"{folder}/lines", "w") as lines:
        done = subprocess.run(call, cwd=folder, stdout=lines, stderr=subprocess.PIPE, text=True)
    return int(re.search(r"Collected : (\d+)", done.stderr)[1])


def seconds(folder, design, script):
    """The seconds of the processor that a run takes."""
    written(folder, design, script)
    before = resource.getrusage(resource.RUSAGE_CHILDREN)
    with open(f"{folder}/lines", "w") as lines:
        subprocess.run([PROGRAM, "run", "design.v", "script.app"], cwd=folder, stdout=lines, check=True)
    after = resource.getrusage(resource.RUSAGE_CHILDREN)
    return after.ru_utime + after.ru_stime - before.ru_utime - before.ru_stime


def in_a_fire(folder, body, callbacks=64, few=40, many=140):
    """What a fire takes with a procedure that does this. The changes of the register are part of it: the reading of their statements isn't."""
    both = [instructions(folder, toggles(n), watching(callbacks, body)) for n in (few, many)]
    read = [instructions(folder, toggles(n), watching(0, body)) for n in (few, many)]
    return (both[1] - both[0] - read[1] + read[0]) / (callbacks * (many - few))


def by_name(folder, names, few=100, many=400):
    """What a look for the last of so many names takes, once the first has been made."""
    order = f'x = by_name "top.name_{names - 1}" null; '
    design = variables(names)
    asked = [instructions(folder, design, asking(order * n)) for n in (few, many)]
    read = [instructions(folder, design, asking('if (1 == 1) { } else { ' + order * n + '}')) for n in (few, many)]
    return (asked[1] - asked[0] - read[1] + read[0]) / (many - few)


def rows(folder):
    """What is counted, and its instructions."""
    fire = in_a_fire(folder, "")
    yield "a fire of a callback that returns at once, with its line", fire
    for order in ('print "";', "remove null;"):
        yield f"`{order}`, with its line", in_a_fire(folder, order) - fire
    short, long = (in_a_fire(folder, f'print "{"a" * n}";') for n in (10, 210))
    yield "a byte of the text of a `print`", (long - short) / 200
    yield "a callback that removes itself and registers its successor, with the fire and the lines", in_a_fire(folder, "remove me; " + WATCH)
    yield "`by_name` of the last of 50,000 names, with its line", by_name(folder, 50000)


def main():
    if not shutil.which("valgrind"):
        sys.exit("orders.py: valgrind isn't there")
    with tempfile.TemporaryDirectory() as folder:
        print("| What | Instructions |\n|---|---|", flush=True)
        for name, count in rows(folder):
            print(f"| {name} | {count:,.0f} |", flush=True)
        print("\n| What | Seconds of the processor |\n|---|---|", flush=True)
        count = 20000
        for name, body in (("return at once", ""), ("remove themselves", "remove me;")):
            taken = min(seconds(folder, toggles(1), watching(count, body)) for _ in range(3))
            print(f"| {count:,} callbacks that {name} at one change, with the reading of the script | {taken:.2f} |", flush=True)
        taken = seconds(folder, toggles(17), watching(1, "remove me; " + WATCH * 2))
        print(f"| 17 changes, a callback that removes itself and registers two | {taken:.2f} |")


main()
