#!/usr/bin/env python3
"""Makes large texts, runs them with the program that ./vhost prove built, or with the one that is named, and prints the tables "Reading
and elaborating", "Scripts" and "Tokens" of docs/PERFORMANCE.md: the seconds of the processor, the greatest memory, and what was
answered; and the instructions a label of a script's loops, where valgrind is there. Takes some minutes."""
import pathlib
import re
import shutil
import subprocess
import sys
import tempfile

TOP = pathlib.Path(__file__).resolve().parent.parent
PROGRAM = sys.argv[1] if len(sys.argv) > 1 else str(TOP / ".vhost/vhost")
EMPTY = "module top; endmodule\n"
# Runs a call, its output to nowhere, and prints its seconds, its greatest memory in MB, its status and its last line of error.
CHILD = """
import resource, subprocess, sys
done = subprocess.run(sys.argv[1:], stdout=subprocess.DEVNULL, stderr=subprocess.PIPE, text=True)
use = resource.getrusage(resource.RUSAGE_CHILDREN)
print(f"{use.ru_utime + use.ru_stime:.2f} {use.ru_maxrss // 1024} {done.returncode} {done.stderr.strip()}")
"""


def lines(form, numbers):
    return "".join(form.replace("#", str(number)) + "\n" for number in numbers)


def unit(m):
    """A module of 36 registers, 24 nets and five blocks."""
    state, net = [f"s{m:03}_{k:02}" for k in range(36)], [f"w{m:03}_{k:02}" for k in range(24)]
    text = f"module unit_{m:04}(input clk, input [15:0] din, output [15:0] dout);\n"
    text += "".join(f"  reg [15:0] {name};\n" for name in state) + "".join(f"  wire [15:0] {name};\n" for name in net)
    for k, name in enumerate(net):
        text += f"  assign {name} = {state[k]} + ({state[(k * 5 + 3) % 36]} ^ 16'd{k * 37 + m});\n"
    text += f"  assign dout = {net[0]};\n"
    for first in range(0, 36, 9):
        text += "  always @(posedge clk) begin\n"
        text += "".join(f"    {state[k]} <= {net[k % 24]} + din;\n" for k in range(first, first + 9)) + "  end\n"
    text += "  initial begin\n" + "".join(f"    {name} = 16'd{k};\n" for k, name in enumerate(state))
    return text + "  end\nendmodule\n"


def units():
    instances = "".join(
        f"  wire [15:0] out_{m:04}; unit_{m:04} inst_{m:04}(.clk(clk), .din(din), .dout(out_{m:04}));\n" for m in range(500)
    )
    top = "module top;\n  reg clk; reg [15:0] din;\n" + instances
    return "".join(map(unit, range(500))) + top + "  initial begin clk = 0; din = 16'd3; #1 $finish; end\nendmodule\n"


def variables(count):
    return "module top;\n" + lines("reg r#;", range(count)) + "endmodule\n"


def parameters(numbers, needs):
    return "module top;\n" + "".join(f"parameter P{n} = {needs(n)};\n" for n in numbers) + "endmodule\n"


def ports(count):
    names = [f"p{n}" for n in range(count)]
    inner = "module inner(" + ", ".join(f"input {name}" for name in names) + "); endmodule\n"
    return inner + "module top; reg r; inner u(" + ", ".join(f".{name}(r)" for name in names) + "); endmodule\n"


def instances(count):
    inner = "module inner; reg r; initial begin " + "r = 0;\n" * 1000 + "end endmodule\n"
    return inner + "module top;\n" + lines("inner u#();", range(count)) + "endmodule\n"


def doubled():
    modules = "".join(f"module m{n}; m{n + 1} a(); m{n + 1} b(); endmodule\n" for n in range(30))
    return modules + "module m30; endmodule\n"


READING = [
    ("500 modules and 49,004 objects, 2.4 MB", units),
    ("99,999 variables in the top", lambda: variables(99_999)),
    ("one more", lambda: variables(100_000)),
    (
        "a generate loop of 2^31 turns, with a variable in each",
        lambda: "module top; genvar i; generate for (i = 0; i < 2147483647; i = i + 1) begin : b reg r; end endgenerate endmodule\n",
    ),
    ("30 modules, each with two instances of the next", doubled),
    ("1,000 parameters in a circle", lambda: parameters(range(1000), lambda n: f"P{(n + 1) % 1000}")),
    (
        "10,000 parameters, each before the one that it needs",
        lambda: parameters(range(10_000), lambda n: f"P{n + 1} + 1" if n < 9_999 else "1"),
    ),
    (
        "10,000 parameters, each behind the one that it needs",
        lambda: parameters(range(10_000), lambda n: f"P{n - 1} + 1" if n else "1"),
    ),
    ("an instance with 30,000 ports by name", lambda: ports(30_000)),
    ("4,194 instances with 1,000 statements each", lambda: instances(4_194)),
    ("one instance more", lambda: instances(4_195)),
    (
        "an expression of 1,000,000 operators",
        lambda: "module top; reg a, b; initial b = a" + "+a\n" * 1_000_000 + "; endmodule\n",
    ),
    ("a block of 4,000,000 empty statements", lambda: "module top; initial begin " + ";" * 4_000_000 + " end endmodule\n"),
    ("4 MB of `r=r+1;`", lambda: "module top; reg r; initial begin " + "r=r+1;" * 690_000 + " end endmodule\n"),
    ("a task whose `fork` calls it twice", lambda: "module top; task t; fork t; t; join endtask initial t; endmodule\n"),
    ("4 MB of `begin`", lambda: "module top; initial " + "begin " * 690_000),
    ("4 MB of `(`", lambda: "module top; reg a; initial a = " + "(" * 4_000_000),
    ("4 MB of `{`", lambda: "module top; reg a; initial a = " + "{" * 4_000_000),
    ("4 MB of `a+`", lambda: "module top; reg a; initial a = " + "a+" * 2_000_000),
    (
        "1,000,000 uses of a macro that is a name of 1,024 bytes, each a call of a task",
        lambda: "`define N " + "n" * 1024 + "\nmodule top; initial begin " + "`N;" * 1_000_000 + " end endmodule\n",
    ),
    (
        "300,000 uses of a macro that is a string of 4,096 bytes",
        lambda: ";`define S \"" + "s" * 4096 + "\"\n" + "`S\n" * 300_000,
    ),
]


def script(body):
    return "app a; var x, y; startup { register cbEndOfCompile null 0 proc p 0; } proc p { " + body + "}\n"


SCRIPTS = [
    ('65,000 commands `print "abcd";`, 0.9 MB', lambda: script('print "abcd";' * 65_000)),
    ('22,000 commands `x = by_name ".." y;`, 1.0 MB', lambda: script(f'x = by_name "{"a" * 26}" y;' * 22_000)),
    ("one `if` around 60,000 commands, 0.8 MB", lambda: script("if (1 == 1) { " + 'print "abcd";' * 60_000 + " }")),
]
LOOPS = [
    "while (1 == 1) { }",
    "while (x != 18446744073709551615) { set x = x + 1; }",
    "while (1 == 1) { remove null; }",
]


# Texts of 4,194,304 bytes at most. A `;` begins no source, so that no more than the tokens is read of most of them.
BYTES = 4_194_304
BLOCK = "always @(posedge clk) if (rst) q <= 8'd0; else q <= q + 8'd1; // one more\n"
TOKENS = [
    ("`;` throughout", lambda: ";" * BYTES),
    ("`a;` throughout", lambda: ";;" + "a;" * (BYTES // 2 - 1)),
    ("lines of an `always` block with a comment", lambda: ";" + BLOCK * ((BYTES - 1) // len(BLOCK))),
    (
        "one macro of this length, `x x x ..`, used once",
        lambda: "; `define M " + "x " * (BYTES // 2 - 10) + "\n`M\n",
    ),
    ("one comment", lambda: "/*" + "." * (BYTES - 4) + "*/"),
    ("blanks", lambda: " " * BYTES),
]


def row(folder, what, texts):
    names = []
    for name, text in texts.items():
        (pathlib.Path(folder) / name).write_text(text)
        names.append(name)
    done = subprocess.run([sys.executable, "-c", CHILD, PROGRAM, "run", *names], cwd=folder, capture_output=True, text=True)
    seconds, memory, status, *told = done.stdout.split()
    print(f"| {what} | {seconds} | {memory} | {' '.join(told) or f'exit {status}'} |", flush=True)


def loop(folder, body):
    """The instructions a label, as the difference of two runs whose budgets are 100,000 labels apart."""
    (pathlib.Path(folder) / "a.v").write_text(EMPTY)
    (pathlib.Path(folder) / "a.app").write_text(script(body))
    counts = []
    for budget in ("100000", "200000"):
        call = ["valgrind", "--tool=callgrind", f"--callgrind-out-file={folder}/calls", PROGRAM, "run", "--budget", budget]
        done = subprocess.run([*call, "a.v", "a.app"], cwd=folder, stdout=subprocess.DEVNULL, stderr=subprocess.PIPE, text=True)
        counts.append(int(re.search(r"Collected : (\d+)", done.stderr)[1]))
    print(f"| `{body}` | {(counts[1] - counts[0]) // 100_000:,} |", flush=True)


def main():
    with tempfile.TemporaryDirectory() as folder:
        print("| Text | Seconds of the processor | MB | Answer |\n|---|---|---|---|")
        for what, text in READING:
            row(folder, what, {"a.v": text()})
        print("\n| Script | Seconds | MB | Answer |\n|---|---|---|---|")
        for what, text in SCRIPTS:
            row(folder, what, {"a.v": EMPTY, "a.app": text()})
        print("\n| Tokens of a text | Seconds | MB | Answer |\n|---|---|---|---|")
        for what, text in TOKENS:
            row(folder, what, {"a.v": text()})
        if shutil.which("valgrind"):
            print("\n| Body of `while` | Instructions a label |\n|---|---|")
            for body in LOOPS:
                loop(folder, body)


main()
