#!/usr/bin/env python3
"""Records what a program allocates, as a trace for `import`.

    python3 examples/trace.py PROGRAM WORDS.. > trace.txt

The program runs under valgrind, which prints each call of the allocator with its answer. A block is named after the order in which
its address first came: an address that was freed and is given out again has the name that it had. `realloc` frees the old block once
the new one is there, or before where it stays in place. The alignment is 16, what malloc and new give on a 64-bit system, or a greater
one that was asked for; a block of no byte counts as one. What is still held at the end is not freed, and what was refused is no block.

PROGRAM is linked dynamically, and allocates by malloc and its kin or by new and delete of C++. A program that PROGRAM starts is not
traced, and of a script, what runs it is. At another call, where a signal ends the program or it becomes another one, and where no block
was seen, the script prints a message and no trace, and ends with 1. What PROGRAM says on standard error is passed on.

`trace.txt` was made by: LC_ALL=C python3 examples/trace.py grep -c b examples/five.csv
"""

import os
import re
import shutil
import signal
import subprocess
import sys
import tempfile

# The process that a line of the log is of, and what it says.
LINE = re.compile(r"(?:==|--)(\d+)(?:==|--) ?(.*)")
# With this line the log of a process ends.
END = "ERROR SUMMARY: "
# A call of realloc that only allocates or only frees is told of as both calls in one line.
CALL = re.compile(r"(?:realloc\(0x[0-9A-F]+,\d+\))?(\w+)\(([^)]*)\)(?: = (0x[0-9A-F]+))?")
# The names of C++ are those of operator new, new[], delete and delete[], in all their forms.
FREES = re.compile(r"free|_Zd[la]Pv\w*")
ALLOCATES = re.compile(r"malloc|_Zn[wa]\w+")
ALIGNED = re.compile(r"memalign|posix_memalign|aligned_alloc|_Zn[wa]\w*align_val_t\w*")
ALIGNMENT = 16


def log_of(words):
    """What valgrind tells of the program's run. It goes to a file of its own: on standard error the program's text could break into it."""
    for program in ("valgrind", words[0]):
        if not shutil.which(program):
            sys.exit(f"there is no program {program}")
    with tempfile.TemporaryDirectory() as folder:
        name = f"{folder}/log"
        # The user's own options may turn off what is read here. In the name of a log % begins a pattern.
        recorder = ["valgrind", "--command-line-only=yes", "--trace-malloc=yes", "--freelist-vol=0"]
        recorder.append(f"--log-file={name.replace('%', '%%')}")
        run = run_to_its_end([*recorder, *words])
        if run.returncode < 0:
            sys.exit(f"signal {-run.returncode} ended {words[0]}")
        if not os.path.exists(name):
            sys.exit(f"valgrind did not run {words[0]}")
        with open(name, encoding="utf-8", errors="replace") as file:
            return file.read()


def run_to_its_end(words):
    """Runs a program. Ctrl-C is for it alone: it may end by that in its own way, as a server does."""
    heeded = signal.getsignal(signal.SIGINT)
    if heeded is not signal.SIG_IGN:
        signal.signal(signal.SIGINT, lambda *_: None)
    run = subprocess.run(words, stdout=subprocess.DEVNULL, check=False)
    signal.signal(signal.SIGINT, heeded)
    return run


def lines_of_first(log):
    """The lines of the first process of a log: a process that it forks writes into the same log."""
    lines = [it.groups() for it in map(LINE.fullmatch, log.splitlines()) if it]
    return [text for process, text in lines if process == lines[0][0]]


def calls(words):
    """The calls of the allocator: their names, what they were given, and what they answered."""
    lines = lines_of_first(log_of(words))
    if not any(it.startswith(END) for it in lines):
        sys.exit(f"the log has no end: {words[0]} became another program, or the disk of {tempfile.gettempdir()} is full")
    return [call.groups() for call in map(CALL.fullmatch, lines) if call]


def numbers_of(given):
    return [int(it, 0) for it in re.findall(r"0x[0-9A-F]+|\d+", given)]


def request(name, given):
    """The size and the alignment that a call asks for."""
    if ALIGNED.fullmatch(name):
        asked = dict(re.findall(r"(size|al) (\d+)", given))
        return int(asked["size"]), max(int(asked["al"]), ALIGNMENT)
    numbers = numbers_of(given)
    if name == "calloc":
        return numbers[0] * numbers[1], ALIGNMENT
    if name == "realloc":
        return numbers[1], ALIGNMENT
    if ALLOCATES.fullmatch(name):
        return numbers[0], ALIGNMENT
    sys.exit(f"a call that this script does not know: {name}")


def trace(words):
    """The lines of the trace."""
    names, lines = {}, []

    def name_of(address):
        return names.setdefault(address, f"p{len(names)}")

    for name, given, answer in calls(words):
        if FREES.fullmatch(name):
            address = numbers_of(given)[0]
            if address != 0:
                lines.append(f"free {name_of(address)}")
            continue
        size, alignment = request(name, given)
        if int(answer, 0) == 0:
            continue
        block = name_of(int(answer, 0))
        old = name_of(numbers_of(given)[0]) if name == "realloc" else None
        if old == block:
            lines.append(f"free {old}")
        lines.append(f"alloc {block} {max(size, 1)} {alignment}")
        if old is not None and old != block:
            lines.append(f"free {old}")
    return lines


def main(words):
    if not words:
        sys.exit("usage: python3 examples/trace.py PROGRAM WORDS..")
    if sys.stdout is None:
        sys.exit("standard output is closed")
    lines = trace(words)
    if not lines:
        sys.exit(f"no block was seen: {words[0]} allocates none, or is linked statically")
    try:
        with open(sys.stdout.fileno(), "w", encoding="ascii", closefd=False) as out:
            out.write("".join(f"{line}\n" for line in lines))
    except OSError as fault:
        sys.exit(f"the trace could not be written: {fault.strerror}")


if __name__ == "__main__":
    main(sys.argv[1:])
