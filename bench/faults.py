#!/usr/bin/env python3
"""Runs the examples of docs/FAULTS.md with the proved program, or with the one that is named, and compares what is written with the page, word
for word; and the texts of the table of docs/LANGUAGE.md of what is left out, which get their codes, and those to write instead, which are read; and those of its table of what may surprise.
Prints a line for each that differs, and at the end how many were tried; ends with 1 where one differs."""
import pathlib
import re
import subprocess
import sys
import tempfile

TOP = pathlib.Path(__file__).resolve().parent.parent
PAGE = (TOP / "docs/FAULTS.md").read_text()
LANGUAGE = (TOP / "docs/LANGUAGE.md").read_text()
PROGRAM = pathlib.Path(sys.argv[1] if len(sys.argv) > 1 else TOP / ".vhost/vhost").resolve()
TEXT = re.compile(r"The text (?:`` (.*?) ``|`([^`]*)`) gets\n\n```\n(.*?)\n```", re.S)
MADE = re.compile(r"The text of the pieces (.*?) gets\n\n```\n(.*?)\n```", re.S)
PIECE = re.compile(r"`([^`]*)`(?: ([\d,]+)\s+times)?")
CODE = re.compile(r"`` (.*?) ``|`([^`]*)`")
IN_A_MODULE = "module top; reg a, b, clk, q; reg [7:0] r, s; wire w, x; wire [7:0] bus; integer i;\n{}\nendmodule\n"
WORDS = re.compile(r"The words `([^`]*)`(?:, where `a\.v` is `([^`]*)`,)? get\n\n```\n(.*?)\n```", re.S)
SCRIPT = re.compile(r"The script `([^`]*)`, in a file `([^`]*)`,\s+gets\n\n```\n(.*?)\n```", re.S)
BESIDE = re.compile(r"Beside\s+`([^`]*)`\s+the\s+script\n\n```\n(.*?)\n```\n\nwrites among its lines\n\n```\n(.*?)\n```", re.S)
MANY = re.compile(
    r"A script whose\s+startup\s+gives `([^`]*)`\s+256 times, and whose procedure `p`\s+gives `([^`]*)`\s+256 times,"
    r"\s+writes at its end 256\s+lines\s+as\n\n```\n(.*?)\n```",
    re.S,
)


def run(folder, *words):
    """What a run in this folder writes to its two outputs; the first goes to the file of a last word `>FILE`."""
    output = subprocess.PIPE
    if words[-1].startswith(">"):
        output = open(words[-1][1:], "w")
        words = words[:-1]
    done = subprocess.run([PROGRAM, "run", *words], cwd=folder, stdout=output, stderr=subprocess.PIPE, text=True, timeout=120)
    return done.stdout or "", done.stderr


def one_line(words):
    return " ".join(words.split())


def examples():
    """Each example of the page: its files, the words of its call, and the test of what it writes."""
    for marked, plain, told in TEXT.findall(PAGE):
        yield {"a.v": marked or plain}, ["a.v"], lambda out, err, told=told: ends_so(out, told) and err == told + "\n"
    for pieces, told in MADE.findall(PAGE):
        text = "".join(piece * int(times.replace(",", "") or 1) for piece, times in PIECE.findall(pieces))
        yield {"a.v": text}, ["a.v"], lambda out, err, told=told: ends_so(out, told) and err == told + "\n"
    for words, text, told in WORDS.findall(PAGE):
        mode, *words = words.split()
        yield {"a.v": text or "module top; endmodule"}, words, lambda out, err, told=told: out == "" and err == told + "\n"
    for text, name, told in SCRIPT.findall(PAGE):
        files = {"a.v": "module top; endmodule", name: text}
        yield files, ["a.v", name], lambda out, err, told=told: out == "" and err == told + "\n"
    for design, script, line in BESIDE.findall(PAGE):
        files = {"a.v": (TOP / design).read_text(), "a.app": script}
        yield files, ["a.v", "a.app"], lambda out, err, line=line: line in out.split("\n")
    for startup, order, line in MANY.findall(PAGE):
        script = f"app a; startup {{ {one_line(startup) * 256} }} proc p {{ {one_line(order) * 256} }} proc q {{ }}"
        files = {"a.v": "module top; endmodule", "a.app": script}
        yield files, ["a.v", "a.app"], lambda out, err, line=line: refused(out, line)
    for text, code in left_out():
        words = ["--budget", "20000", "a.v"]
        yield {"a.v": text}, words, lambda out, err, code=code: err.startswith(f"design refused: {code} at ") if code else "refused" not in err
    for text, shown in surprises():
        yield {"a.v": text}, ["a.v"], lambda out, err, shown=shown: displayed(out) == shown


def left_out():
    """Each text of the table of what is left out, with the fault that it gets, or none."""
    table = LANGUAGE.split("## What is left out\n")[1].split("\n## ")[0]
    for row in re.findall(r"^\| (?!Construct)(.*) \|$", table, re.M):
        _, text, code, instead = row.split(" | ")
        (such_as,) = codes_of(text)
        yield whole(such_as), code.strip("`")
        for other in codes_of(instead):
            # (a word of the language is no text)
            if ";" in other or other.startswith("`"):
                yield whole(other), None


def surprises():
    """Each text of the table of what may surprise, with the lines that it displays."""
    table = LANGUAGE.split("## What may surprise\n")[1].split("\n## ")[0]
    for row in re.findall(r"^\| (?!Text)(.*) \|$", table, re.M):
        text, shown, _ = row.split(" | ")
        (text,) = codes_of(text)
        yield whole(text), codes_of(shown)


def displayed(out):
    return re.findall(r'^\d+ out "(.*)\\n"$', out, re.M)


def codes_of(cell):
    return [marked or plain for marked, plain in CODE.findall(cell)]


def whole(text):
    return text if "module " in text or "primitive " in text else IN_A_MODULE.format(text)


def ends_so(out, told):
    """Is nothing written of a text that is refused, and the fault last of a run that it ended?"""
    return out.endswith(f" end {told.split()[-1]}\n") if told.startswith("run fault") else out == ""


def refused(out, line):
    """Do exactly 256 lines end as this one does, it among them?"""
    end = line[line.index(" => ") :]
    ends = [told for told in out.split("\n") if told.endswith(end)]
    return len(ends) == 256 and line in ends


def main():
    tried = failed = 0
    for files, words, holds in examples():
        tried += 1
        with tempfile.TemporaryDirectory() as folder:
            for name, text in files.items():
                (pathlib.Path(folder) / name).write_text(text)
            out, err = run(folder, *words)
            if not holds(out, err):
                failed += 1
                print(f"not as the page says: {files.get('a.app', files.get('b.app', files['a.v']))[:200]}\n{err}{out[-400:]}")
    print(f"{tried} examples tried, {failed} not as the page says")
    sys.exit(1 if failed or not tried else 0)


main()
