#!/usr/bin/env python3
"""Tries when the lines of a run reach a file and a pipe, with the program that ./vhost prove built, or with the one that is named:
those of a run that goes on for ever without another line, those that come fast, and those that a nonblocking pipe has no room for.
Prints a line for each thing that isn't so, and at the end how many were tried; ends with 1 where one wasn't so."""
import os
import pathlib
import signal
import subprocess
import sys
import tempfile
import time

TOP = pathlib.Path(__file__).resolve().parent.parent
SOON = 1.0
LINES = [f'0 out "line {k}\\n"\n'.encode() for k in range(10)]
MANY = b"".join(f'0 out "line {k}\\n"\n'.encode() for k in range(20000)) + b"0 end none\n"

DESIGNS = {
    # ten lines, and then labels for ever
    "stands.v": 'module top; integer i; initial begin for (i = 0; i < 10; i = i + 1) $display("line %0d", i); forever ; end endmodule\n',
    # more lines than a pipe has room for
    "much.v": 'module top; integer i; initial for (i = 0; i < 20000; i = i + 1) $display("line %0d", i); endmodule\n',
}

tried = failed = 0


def holds(is_so, told):
    global tried, failed
    tried += 1
    if not is_so:
        failed += 1
        print(told)


def call(program, name):
    return [program, "run", "--budget", "9223372036854775807", name]


def in_a_file(program, folder):
    """A run that is ended by a signal has left its lines in the file."""
    with open(f"{folder}/text", "wb") as text:
        running = subprocess.Popen(call(program, "stands.v"), cwd=folder, stdout=text)
        time.sleep(2 * SOON)
        running.send_signal(signal.SIGTERM)
        running.wait()
    found = pathlib.Path(f"{folder}/text").read_bytes()
    holds(found == b"".join(LINES), f"a file of ten lines has {found!r}")


def through_a_pipe(program, folder):
    """The first line comes at once, and the tenth soon behind it."""
    begun = time.monotonic()
    with subprocess.Popen(call(program, "stands.v"), cwd=folder, stdout=subprocess.PIPE, bufsize=0) as running:
        os.set_blocking(running.stdout.fileno(), False)
        text, first, tenth = b"", None, None
        while tenth is None and time.monotonic() < begun + 5 * SOON:
            text += running.stdout.read() or b""
            came = time.monotonic() - begun
            first = came if first is None and b"\n" in text else first
            tenth = came if text.count(b"\n") >= 10 else None
            time.sleep(0.001)
        running.send_signal(signal.SIGTERM)
    holds(first is not None and first < SOON, f"the first line came after {first} s")
    holds(tenth is not None and tenth < SOON, f"the tenth line came after {tenth} s")
    holds(text == b"".join(LINES), f"a pipe of ten lines had {text!r}")
    if first is not None and tenth is not None:
        print(f"the first line came after {first:.3f} s, the tenth after {tenth:.3f} s")


def fast_through_a_pipe(program, folder):
    """Lines that come fast are written many at once. A pipe of packets keeps writes apart, and cuts them at 4,096 bytes."""
    reader, writer = os.pipe2(os.O_DIRECT)
    begun = time.monotonic()
    running = subprocess.Popen(call(program, "much.v"), cwd=folder, stdout=writer)
    os.close(writer)
    packets = []
    while packet := os.read(reader, 65536):
        packets.append(packet)
    os.close(reader)
    status, took = running.wait(), time.monotonic() - begun
    holds(b"".join(packets) == MANY and status == 0, f"a pipe of packets had {sum(map(len, packets))} bytes of {len(MANY)}, exit {status}")
    # (one write each 100 milliseconds at most, beside those of 65,536 bytes)
    most = 2 * len(MANY) // 4096 + 10 * took
    holds(len(packets) <= most, f"{MANY.count(10)} lines came in {len(packets)} packets, and {most:.0f} are enough")


def through_a_nonblocking_pipe(program, folder):
    """A reader that is late gets the whole transcript."""
    reader, writer = os.pipe()
    os.set_blocking(writer, False)
    running = subprocess.Popen(call(program, "much.v"), cwd=folder, stdout=writer, stderr=subprocess.PIPE)
    os.close(writer)
    time.sleep(SOON)
    with open(reader, "rb") as pipe:
        text = pipe.read()
    told = running.communicate()[1]
    holds(text == MANY, f"a nonblocking pipe had {len(text)} bytes of {len(MANY)}")
    holds(running.returncode == 0 and told == b"", f"with a nonblocking pipe: exit {running.returncode} {told!r}")


def main():
    program = str(pathlib.Path(sys.argv[1] if len(sys.argv) > 1 else TOP / ".vhost/vhost").resolve())
    with tempfile.TemporaryDirectory() as folder:
        for name, text in DESIGNS.items():
            (pathlib.Path(folder) / name).write_text(text)
        in_a_file(program, folder)
        through_a_pipe(program, folder)
        fast_through_a_pipe(program, folder)
        through_a_nonblocking_pipe(program, folder)
    print(f"{tried} tried, {failed} not so")
    sys.exit(1 if failed else 0)


main()
