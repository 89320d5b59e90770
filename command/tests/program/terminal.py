#!/usr/bin/env python3
"""Runs a program with a terminal for some of its streams:

    terminal.py FOLDER STREAMS INPUT [FILE] PROGRAM [ARGUMENT...]

STREAMS has o where standard output is the terminal, and e where standard error is. INPUT is `none`, or `slow`, where
the halves of FILE come with two seconds between them, or `broken`, where reading fails after the bytes of FILE, or
`slow-broken`. What is seen on the terminal goes to FOLDER/terminal, with what had been seen before the second half in
FOLDER/early; other output goes to FOLDER/output and FOLDER/errors. Ends with the program's status."""
import os
import pty
import subprocess
import sys
import threading
import time
import tty


def raw_terminal():
    """Its two sides: the second is the program's."""
    sides = pty.openpty()
    tty.setraw(sides[1])
    return sides


def read_all(terminal, seen):
    """A terminal that nobody writes to any more fails in reading."""
    try:
        while True:
            seen.append(os.read(terminal, 4096))
    except OSError:
        os.close(terminal)


def feed(writer, data, slowly):
    """A byte of the second half comes first, so that how far reading is can be shown twice."""
    half = len(data) // 2
    for part, pause in (data[:half], 2), (data[half:half + 1], 0.3), (data[half + 1:], 0):
        while part:
            part = part[os.write(writer, part):]
        time.sleep(pause if slowly else 0)
        yield
    os.close(writer)


def keep(folder, name, parts):
    with open(os.path.join(folder, name), "wb") as file:
        file.write(b"".join(parts))


def input_sides(kind):
    """A pipe, or a terminal from whose first side reading fails once the second is closed."""
    return raw_terminal() if "broken" in kind else os.pipe()


def main():
    folder, streams, kind, *command = sys.argv[1:]
    data = b""
    if kind != "none":
        with open(command.pop(0), "rb") as file:
            data = file.read()
    reader, writer = input_sides(kind)
    terminal, program_side = raw_terminal()
    output, errors = (open(os.path.join(folder, name), "wb") for name in ("output", "errors"))
    child = subprocess.Popen(command, stdin=reader, stdout=program_side if "o" in streams else output,
                             stderr=program_side if "e" in streams else errors)
    os.close(program_side)
    os.close(reader)
    seen = []
    watcher = threading.Thread(target=read_all, args=(terminal, seen))
    watcher.start()
    feeding = feed(writer, data, "slow" in kind)
    next(feeding)
    keep(folder, "early", seen)
    list(feeding)
    status = child.wait()
    watcher.join()
    keep(folder, "terminal", seen)
    sys.exit(status)


main()
