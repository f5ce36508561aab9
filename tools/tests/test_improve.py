"""improve, over a copy of it with a stub for the program, whose answers a table gives by its steps."""

import contextlib
import csv
import errno
import importlib.machinery
import importlib.util
import io
import os
import resource
import shutil
import signal
import subprocess
import sys
import tempfile
import time
import unittest
from unittest import mock

TOOLS = os.path.dirname(os.path.dirname(os.path.abspath(__file__)))

# Whoever runs the tests may ignore signals, as nohup does, and what they begin would inherit that.
for number in (signal.SIGINT, signal.SIGTERM, signal.SIGHUP):
    if signal.getsignal(number) is signal.SIG_IGN:
        signal.signal(number, signal.SIG_DFL)
TOP = os.path.dirname(TOOLS)
MOST_BYTES = 2**26
loader = importlib.machinery.SourceFileLoader("improve", f"{TOOLS}/improve")
improve = importlib.util.module_from_spec(importlib.util.spec_from_loader("improve", loader))
loader.exec_module(improve)
STUB = """#!/usr/bin/env python3
import os, signal, sys, time
top = os.path.dirname(os.path.abspath(__file__))
if len(sys.argv) == 2:
    print("usage missing --input")
    sys.exit(3)
given = dict(zip(sys.argv[2::2], sys.argv[3::2]))
steps = given.get("--steps")
if steps:
    with open(f"{top}/calls", "a") as file:
        file.write(steps + "\\n")
if os.path.getsize(given["--input"]) > 2**26:
    print("too long --input", os.path.getsize(given["--input"]))
    sys.exit(7)
if not open(given["--input"]).read().startswith("id"):
    print("malformed no header")
    sys.exit(4)
answers = dict(line.split(":") for line in open(f"{top}/answers").read().split("\\n") if line)
if sys.argv[1] in ("verify", "refute"):
    told = answers.get(f"{sys.argv[1]} {given.get('--capacity', '')}".rstrip(), "wrong")
    if told in ("memory", "words"):
        sys.exit(6 if told == "memory" else 8)
    while told == "long":
        open(f"{top}/judging", "w").close()
        time.sleep(0.1)
    print(told)
    sys.exit(told == "wrong")
answer = answers[steps if steps in answers else "more"]
while answer == "long":
    open(given["--output"], "w").write("half")
    time.sleep(0.1)
if answer == "memory":
    sys.exit(6)
if answer == "killed":
    os.kill(os.getpid(), signal.SIGKILL)
if answer == "gone":
    os.remove(os.path.abspath(__file__))
    answer = "open 5 9"
if answer == "in the way":
    os.mkdir("o")
    answer = "open 5 9"
if answer == "no layout":
    print("open 6 8")
    sys.exit(2)
open(given["--output"], "w").write(f"layout of {steps}\\n")
if not answer.startswith("least 0"):
    open(given["--log"], "w").write(f"log of {steps}\\n")
print(answer)
sys.exit(0 if answer.startswith("least") else 2)
"""


class Improve(unittest.TestCase):
    def setUp(self):
        folder = tempfile.TemporaryDirectory()
        self.addCleanup(folder.cleanup)
        self.top, self.work = f"{folder.name}/top", f"{folder.name}/work"
        os.makedirs(f"{self.top}/crates/dsaplan/out")
        os.mkdir(self.work)
        shutil.copy(f"{TOP}/dsaplan", self.top)
        shutil.copytree(TOOLS, f"{self.top}/tools", ignore=shutil.ignore_patterns("__pycache__"))
        self.write(f"{self.top}/crates.txt", "dsaplan:\n")
        self.out = f"{self.top}/crates/dsaplan/out"
        self.write(f"{self.out}/dsaplan", STUB)
        os.chmod(f"{self.out}/dsaplan", 0o755)
        self.write(f"{self.work}/i", "id,lower,upper,size\n")
        self.environment = {it: os.environ[it] for it in os.environ if it != "DSAPLAN_HINTS"}

    def write(self, path, text):
        with open(path, "w", encoding="utf-8") as file:
            file.write(text)

    def read(self, name):
        with open(f"{self.work}/{name}", encoding="utf-8") as file:
            return file.read()

    def calls(self):
        try:
            with open(f"{self.out}/calls", encoding="utf-8") as file:
                return file.read().split()
        except FileNotFoundError:
            return []

    def words(self, *more, seconds="20"):
        return [f"{self.top}/tools/improve", "--seconds", seconds, "--input", "i", "--output", "o", "--log", "l", *more]

    def improve(self, answers, *more, seconds="20", before=(), **how):
        self.write(f"{self.out}/answers", answers)
        pipes = {"stdout": subprocess.PIPE, "stderr": subprocess.PIPE}
        how = {**pipes, "text": True, "cwd": self.work, "check": False, "env": self.environment, **how}
        return subprocess.run([*before, *self.words(*more, seconds=seconds)], **how)

    def left(self):
        return sorted(os.listdir(self.work))

    def test_steps_double_until_it_is_decided(self):
        ran = self.improve("0:open 5 9\n1000:open 5 8\n2000:open 6 8\n4000:least 7\n")
        self.assertEqual((ran.returncode, ran.stdout), (0, "least 7\n"), ran.stderr)
        self.assertEqual(self.calls(), ["0", "1000", "2000", "4000"])
        self.assertEqual((self.read("o"), self.read("l")), ("layout of 4000\n", "log of 4000\n"))
        self.assertEqual(self.left(), ["i", "l", "o"])
        self.assertEqual([it.split(", ", 1)[1] for it in ran.stderr.splitlines()], [
            "0 steps, open 5 9", "1000 steps, open 5 8", "2000 steps, open 6 8", "4000 steps, least 7",
        ])

    def test_the_best_of_each_is_kept(self):
        ran = self.improve("0:open 5 9\n1000:open 4 8\n2000:open 6 10\n4000:long\n", seconds="2")
        self.assertEqual((ran.returncode, ran.stdout), (2, "open 6 8\n"))
        self.assertEqual((self.read("o"), self.read("l")), ("layout of 1000\n", "log of 2000\n"))
        self.assertEqual(self.left(), ["i", "l", "o"])

    def test_two_halves_that_meet_decide(self):
        ran = self.improve("0:open 5 7\n1000:open 7 9\n")
        self.assertEqual((ran.returncode, ran.stdout), (0, "least 7\n"), ran.stderr)
        self.assertEqual((self.read("o"), self.read("l")), ("layout of 0\n", "log of 1000\n"))

    def lay(self, plan, log):
        """A plan and a log that were there before."""
        self.write(f"{self.work}/i", "id,lower,upper,size\na,0,1,4\n")
        self.write(f"{self.work}/o", plan)
        self.write(f"{self.work}/l", log)

    def test_it_goes_on_from_what_the_files_hold(self):
        plan = "id,lower,upper,size,offset\na,0,1,4,3\n"
        for judged, line, kept in (
            ("verify 7:right", "open 5 7", (plan, "log of 0\n")),
            ("refute:accepted 5", "open 6 9", ("layout of 0\n", "old")),
            ("verify 7:right\nrefute:accepted 5", "open 6 7", (plan, "old")),
            ("verify 8:right", "open 5 9", ("layout of 0\n", "log of 0\n")),
        ):
            with self.subTest(judged):
                self.lay(plan, "old")
                ran = self.improve(f"{judged}\n0:open 5 9\n1000:memory\n")
                self.assertEqual((ran.returncode, ran.stdout), (2, f"{line}\n"), ran.stderr)
                self.assertEqual((self.read("o"), self.read("l")), kept)

    def test_what_could_not_be_judged_stays(self):
        plan = "id,lower,upper,size,offset\na,0,1,4,3\n"
        ends = [("verify 7:long", 10), ("refute:long", 10), ("verify 7:memory", 6), ("refute:memory", 6), ("verify 7:words", 8)]
        for judged, status in ends:
            with self.subTest(judged):
                self.lay(plan, "old")
                ran = self.improve(f"{judged}\n0:open 5 9\n", seconds="2" if status == 10 else "20")
                self.assertEqual((ran.returncode, ran.stdout), (status, ""), ran.stderr)
                self.assertEqual((self.read("o"), self.read("l"), self.calls()), (plan, "old", []))

    def test_an_interrupt_while_a_file_is_judged_writes_nothing(self):
        self.lay("", "old")
        self.write(f"{self.out}/answers", "refute:long\n0:open 5 9\n")
        status, said, _ = self.interrupted(lambda: os.path.exists(f"{self.out}/judging"))
        self.assertEqual((status, said, self.read("l"), self.calls()), (130, "", "old", []))

    def test_there_may_be_time_without_end(self):
        for seconds in ("inf", "1e9"):
            self.lay("id,lower,upper,size,offset\na,0,1,4,3\n", "old")
            ran = self.improve("verify 7:right\nrefute:accepted 6\n", seconds=seconds)
            self.assertEqual((ran.returncode, ran.stdout), (0, "least 7\n"), ran.stderr)

    def test_files_that_decide_need_no_call(self):
        plan = "id,lower,upper,size,offset\na,0,1,4,3\n"
        self.lay(plan, "old")
        ran = self.improve("verify 7:right\nrefute:accepted 6\n")
        self.assertEqual((ran.returncode, ran.stdout, self.calls()), (0, "least 7\n", []))
        self.assertEqual((self.read("o"), self.read("l")), (plan, "old"))

    def test_a_plan_of_another_input_is_none(self):
        for plan in ("id,lower,upper,size,offset\na,0,2,4,3\n", "id,lower,upper,size\na,0,1,4\n", "id,offset\na,3\n", ""):
            with self.subTest(plan):
                self.lay(plan, "old")
                ran = self.improve("verify 7:right\n0:open 5 9\n1000:memory\n")
                self.assertEqual((ran.stdout, self.read("o")), ("open 5 9\n", "layout of 0\n"))

    def test_nothing_to_place_leaves_the_log_alone(self):
        self.write(f"{self.work}/l", "old")
        ran = self.improve("0:least 0\n")
        self.assertEqual((ran.returncode, ran.stdout, self.read("l")), (0, "least 0\n", "old"))

    def test_an_interrupt_leaves_whole_files(self):
        for number in (signal.SIGINT, signal.SIGTERM, signal.SIGHUP):
            with self.subTest(number=number):
                self.setUp()
                self.ends_whole(number)

    def test_a_signal_that_is_ignored_ends_nothing(self):
        for number in (signal.SIGHUP, signal.SIGTERM):
            with self.subTest(number=number):
                self.setUp()
                self.ends_whole(signal.SIGINT, ignored=number)

    def ends_whole(self, number, ignored=None):
        """That a signal in the third call ends it with whole files, and that one which it was told to ignore does not."""
        self.write(f"{self.out}/answers", "0:open 5 9\n1000:open 6 8\nmore:long\n")
        how = {"stdout": subprocess.PIPE, "stderr": subprocess.PIPE, "text": True, "cwd": self.work}
        if ignored:
            how["preexec_fn"] = lambda: signal.signal(ignored, signal.SIG_IGN)
        with subprocess.Popen(self.words(), env=self.environment, **how) as run:
            self.wait_for(lambda: len(self.calls()) == 3)
            time.sleep(0.3)
            if ignored:
                run.send_signal(ignored)
                time.sleep(1)
                self.assertIsNone(run.poll())
            run.send_signal(number)
            said, _ = run.communicate(timeout=10)
        self.assertEqual((run.returncode, said), (2, "open 6 8\n"))
        self.assertEqual((self.read("o"), self.read("l")), ("layout of 1000\n", "log of 1000\n"))
        self.assertEqual(self.left(), ["i", "l", "o"])

    def wait_for(self, is_time):
        for _ in range(400):
            if is_time():
                return
            time.sleep(0.05)
        self.fail("it did not come")

    def test_a_signal_in_a_build_that_ends_by_itself_is_an_interrupt(self):
        self.write(f"{self.top}/dsaplan", f"#!/bin/sh\n: >{self.work}/begun\nsleep 0.2\nexit 3\n")
        with subprocess.Popen(self.words(), env=self.environment, cwd=self.work, stderr=subprocess.DEVNULL) as run:
            self.wait_for(lambda: os.path.exists(f"{self.work}/begun"))
            run.send_signal(signal.SIGTERM)
            self.assertEqual(run.wait(timeout=10), 130)

    def test_a_signal_in_a_build_ends_what_builds(self):
        self.write(f"{self.top}/dsaplan", f"#!/bin/sh\nsleep 60 &\necho $! >{self.work}/number\nwait\n")
        with subprocess.Popen(self.words(), env=self.environment, cwd=self.work, stderr=subprocess.DEVNULL) as run:
            self.wait_for(lambda: os.path.exists(f"{self.work}/number") and self.read("number"))
            run.send_signal(signal.SIGTERM)
            self.assertEqual(run.wait(timeout=10), 130)
        self.wait_for(lambda: not self.is_alive(self.read("number").strip()))

    def is_alive(self, number):
        try:
            with open(f"/proc/{number}/stat", encoding="utf-8") as file:
                return file.read().split()[2] != "Z"
        except FileNotFoundError:
            return False

    def interrupted(self, is_time, *more):
        """How it ends where it is interrupted at that time: its status, and what it says."""
        how = {"stdin": subprocess.PIPE, "stdout": subprocess.PIPE, "stderr": subprocess.PIPE, "text": True, "cwd": self.work}
        with subprocess.Popen(self.words(*more), env=self.environment, **how) as run:
            self.wait_for(is_time)
            time.sleep(0.3)
            run.send_signal(signal.SIGINT)
            try:
                run.wait(timeout=10)
            finally:
                run.kill()
            return run.returncode, run.stdout.read(), run.stderr.read()

    def test_an_interrupt_before_any_answer_writes_nothing(self):
        self.write(f"{self.work}/o", "old")
        self.write(f"{self.out}/answers", "0:long\n")
        status, said, told = self.interrupted(lambda: self.calls() == ["0"])
        self.assertEqual((status, said, self.read("o")), (130, "", "old"))
        self.assertIn("interrupted before the first call had ended", told)
        self.assertEqual(self.left(), ["i", "o"])

    def test_an_interrupt_while_the_input_is_awaited_writes_nothing(self):
        status, said, told = self.interrupted(lambda: len(self.left()) == 3, "--input", "/dev/stdin")
        self.assertEqual((status, said), (130, ""))
        self.assertIn("interrupted before the first call;", told)
        self.assertEqual(self.left(), ["i"])

    def test_too_short_a_time_is_told(self):
        self.write(f"{self.work}/o", "old")
        ran = self.improve("0:long\n", seconds="0.5")
        self.assertEqual((ran.returncode, ran.stdout, self.read("o")), (10, "", "old"))
        self.assertIn("0.5 s were too short for the first call", ran.stderr)
        self.assertEqual(self.left(), ["i", "o"])

    def test_links_are_written_through(self):
        for option in ("--output", "--log"):
            with self.subTest(option):
                self.setUp()
                os.mkdir(f"{self.work}/there")
                os.symlink("there/new", f"{self.work}/link")
                ran = self.improve("0:open 5 9\n1000:least 7\n", option, "link")
                self.assertEqual((ran.returncode, ran.stdout), (0, "least 7\n"), ran.stderr)
                self.assertTrue(os.path.islink(f"{self.work}/link"))
                self.assertEqual(self.read("there/new"), "layout of 1000\n" if option == "--output" else "log of 1000\n")
                self.assertEqual(os.listdir(f"{self.work}/there"), ["new"])

    def test_a_link_to_another_disk_is_written_through(self):
        if not os.access("/dev/shm", os.W_OK) or os.stat("/dev/shm").st_dev == os.stat(self.work).st_dev:
            self.skipTest("there is no other disk")
        with tempfile.TemporaryDirectory(dir="/dev/shm") as there:
            os.symlink(f"{there}/new", f"{self.work}/o")
            ran = self.improve("0:least 7\n")
            self.assertEqual((ran.returncode, ran.stdout), (0, "least 7\n"), ran.stderr)
            self.assertTrue(os.path.islink(f"{self.work}/o"))
            self.assertEqual((self.read("o"), os.listdir(there)), ("layout of 0\n", ["new"]))

    def test_a_link_to_itself_is_told(self):
        os.symlink("o", f"{self.work}/o")
        ran = self.improve("0:least 7\n")
        self.assertEqual((ran.returncode, ran.stdout), (5, "unwritten --output\n"))
        self.assertEqual(ran.stderr, "improve: --output: o is a link that leads to itself\n")
        self.assertEqual(self.left(), ["i", "o"])

    def test_a_name_that_is_not_free_is_told(self):
        ran = self.improve("0:in the way\n")
        self.assertEqual((ran.returncode, ran.stdout), (5, "unwritten --output\n"))
        self.assertEqual(ran.stderr, "improve: --output: o cannot be written: Is a directory\n")
        self.assertEqual(self.left(), ["i", "o"])

    def test_a_file_that_does_not_take_a_later_one_ends_with_what_there_is(self):
        ran = self.improve("0:open 5 9\n1000:no layout\n")
        self.assertEqual((ran.returncode, ran.stdout), (2, "open 5 9\n"), ran.stderr)
        self.assertEqual(ran.stderr.splitlines()[-1], "improve: --output: o cannot be written: No such file or directory")
        self.assertEqual((self.read("o"), self.read("l")), ("layout of 0\n", "log of 0\n"))
        self.assertEqual(self.left(), ["i", "l", "o"])

    def test_a_file_that_is_replaced_keeps_its_mode(self):
        for name, mode in (("o", 0o640), ("l", 0o600)):
            self.write(f"{self.work}/{name}", "old")
            os.chmod(f"{self.work}/{name}", mode)
        self.assertEqual(self.improve("0:open 5 9\n1000:least 7\n").returncode, 0)
        self.assertEqual((self.read("o"), self.read("l")), ("layout of 1000\n", "log of 1000\n"))
        self.assertEqual([os.stat(f"{self.work}/{it}").st_mode & 0o777 for it in "ol"], [0o640, 0o600])

    @unittest.skipIf(os.geteuid() == 0 and not shutil.which("setpriv"), "root may write everywhere")
    def test_a_file_in_a_folder_that_takes_no_other_one_is_written_in_place(self):
        os.mkdir(f"{self.work}/closed")
        for name in ("closed/o", "closed/l"):
            self.write(f"{self.work}/{name}", "the text of an earlier run, which is longer")
            os.chmod(f"{self.work}/{name}", 0o666)
        os.chmod(f"{self.work}/closed", 0o555)
        self.addCleanup(os.chmod, f"{self.work}/closed", 0o755)
        words = ["--output", "closed/o", "--log", "closed/l"]
        ran = self.improve("0:least 7\n", *words, before=self.as_nobody())
        self.assertEqual((ran.returncode, ran.stdout), (0, "least 7\n"), ran.stderr)
        self.assertEqual((self.read("closed/o"), self.read("closed/l")), ("layout of 0\n", "log of 0\n"))
        ran = self.improve("0:least 7\n", *words, "--log", "closed/new", before=self.as_nobody())
        self.assertEqual((ran.returncode, ran.stdout), (5, "unwritten --log\n"))
        self.assertEqual(ran.stderr, "improve: --log: closed/new cannot be written: Permission denied\n")

    def as_nobody(self):
        """What has a command run by a user who is not root."""
        if os.geteuid() != 0:
            return []
        os.chmod(os.path.dirname(self.top), 0o755)
        os.chmod(self.out, 0o777)
        return ["setpriv", "--reuid=65534", "--regid=65534", "--clear-groups"]

    def test_a_misspelt_column_is_told_once(self):
        self.write(f"{self.work}/i", "id,lower,upper,size,Alignment\n")
        warning = "dsaplan: i:1: the column 'Alignment' is carried, and not read; 'alignment' would be\n"
        ran = self.improve("0:open 5 9\n1000:least 7\n")
        self.assertEqual((ran.returncode, ran.stderr[: len(warning)], ran.stderr.count("Alignment")), (0, warning, 1))
        self.write(f"{self.work}/i", "lower,upper,size,Alignment\n")
        ran = self.improve("")
        self.assertEqual((ran.returncode, ran.stderr.count("Alignment")), (4, 1), ran.stderr)
        ran = self.improve("", env={**self.environment, "DSAPLAN_HINTS": "0"})
        self.assertEqual((ran.returncode, ran.stderr), (4, ""))

    def test_help_tells_each_status(self):
        ran = subprocess.run([f"{self.top}/tools/improve", "--help"], capture_output=True, text=True, check=True)
        for word in ("least C ", "open L H ", " 3-9 ", " 10 ", " 130 ", "Ctrl-C", "SIGKILL"):
            self.assertIn(word, ran.stdout)
        self.assertEqual(ran.stderr, "")

    def test_files_that_cannot_be_written_are_told_at_once(self):
        os.mkdir(f"{self.work}/folder")
        os.remove(f"{self.out}/dsaplan")
        missing = "cannot be written: No such file or directory"
        for option, name, said in [
            ("--log", "none/l", missing), ("--output", "none/o", missing), ("--log", "folder", "is no regular file"),
            ("--output", "new/", "is the name of a folder"), ("--log", "folder/..", "is the name of a folder"),
        ]:
            ran = self.improve("0:least 4\n", option, name)
            self.assertEqual((ran.returncode, ran.stdout), (5, f"unwritten {option}\n"))
            self.assertEqual(ran.stderr, f"improve: {option}: {name} {said}\n")
        self.assertEqual(self.left(), ["folder", "i"])

    def test_a_fault_is_handed_on_with_its_hint(self):
        self.write(f"{self.work}/i", "")
        ran = self.improve("0:least 4\n")
        self.assertEqual((ran.returncode, ran.stdout), (4, "malformed no header\n"))
        self.assertEqual(ran.stderr, "dsaplan: i: has no record; the first line is to be id,lower,upper,size\n")
        self.assertEqual(self.left(), ["i"])

    def test_an_input_that_is_missing_is_told(self):
        os.remove(f"{self.work}/i")
        os.remove(f"{self.out}/dsaplan")
        ran = self.improve("0:least 4\n")
        self.assertEqual((ran.returncode, ran.stdout), (5, "unread --input\n"))
        self.assertEqual(ran.stderr, "improve: --input: i cannot be read: No such file or directory\n")
        self.assertEqual(self.left(), [])

    def test_a_copy_of_the_input_that_finds_no_room_is_no_fault_of_the_input(self):
        small = lambda: resource.setrlimit(resource.RLIMIT_FSIZE, (10, 10))
        ran = self.improve("0:least 4\n", preexec_fn=small)
        self.assertEqual((ran.returncode, ran.stdout), (5, "unwritten --output\n"))
        self.assertEqual(ran.stderr, "improve: --output: o has no room for a copy of the input: File too large\n")
        self.assertEqual(self.left(), ["i"])

    def test_a_toolchain_that_is_missing_is_told(self):
        os.remove(f"{self.out}/dsaplan")
        path = os.pathsep.join(it for it in os.environ["PATH"].split(os.pathsep) if not os.path.exists(f"{it}/rt"))
        if not all(shutil.which(it, path=path) for it in ("bash", "python3", "awk")):
            self.skipTest("rt lies beside what the launcher needs")
        ran = self.improve("0:least 4\n", env={**self.environment, "PATH": path})
        self.assertEqual((ran.returncode, ran.stdout), (9, ""))
        self.assertIn("rt, the command of the Rattle toolchain, is not on the PATH", ran.stderr)
        self.assertEqual(self.left(), ["i"])

    def test_output_that_is_closed_full_or_without_a_reader_ends_with_5(self):
        reader, writer = os.pipe()
        os.close(reader)
        with open("/dev/full", "w", encoding="utf-8") as full, os.fdopen(writer, "w") as gone:
            for how in ({"stdout": full}, {"stdout": gone}, {"stdout": None, "preexec_fn": lambda: os.close(1)}):
                ran = self.improve("0:open 5 9\n1000:least 7\n", **how)
                self.assertEqual(ran.returncode, 5, ran.stderr)
                self.assertRegex(ran.stderr.splitlines()[-1], "improve: standard output: [A-Z]")
                self.assertEqual((self.read("o"), self.read("l")), ("layout of 1000\n", "log of 1000\n"))

    def test_standard_error_that_is_closed_or_full_changes_nothing(self):
        with open("/dev/full", "w", encoding="utf-8") as full:
            for how in ({"stderr": full}, {"stderr": None, "preexec_fn": lambda: os.close(2)}):
                # Before the interpreter there may be a script that opens it again.
                ran = self.improve("0:open 5 9\n1000:least 7\n", before=[sys.executable], **how)
                self.assertEqual((ran.returncode, ran.stdout), (0, "least 7\n"))

    def test_a_program_that_is_gone_ends_with_what_there_is(self):
        ran = self.improve("0:gone\n")
        self.assertEqual((ran.returncode, ran.stdout), (2, "open 5 9\n"))
        self.assertEqual(ran.stderr.splitlines()[-1], f"improve: {self.out}/dsaplan: No such file or directory")

    def test_want_of_memory_ends_with_what_there_is(self):
        ran = self.improve("0:open 5 9\n1000:memory\n")
        self.assertEqual((ran.returncode, ran.stdout), (2, "open 5 9\n"))
        self.assertEqual(ran.stderr.splitlines()[-1], "improve: the last call ended with 6")

    def test_a_signal_that_ends_a_call_ends_with_what_there_is(self):
        ran = self.improve("0:open 5 9\n1000:killed\n")
        self.assertEqual((ran.returncode, ran.stdout), (2, "open 5 9\n"))
        self.assertEqual(ran.stderr.splitlines()[-1], "improve: the last call was ended by signal 9")

    def test_a_first_call_that_ends_without_a_line_is_told(self):
        for answer, said in [
            ("memory", "dsaplan: memory ran out"),
            ("killed", "improve: the first call was ended by signal 9; nothing is written"),
        ]:
            ran = self.improve(f"0:{answer}\n")
            self.assertEqual((ran.returncode, ran.stdout, ran.stderr), (6, "", f"{said}\n"))
            self.assertEqual(self.left(), ["i"])

    def test_words_that_are_none_end_with_3(self):
        nameless = [self.words(it, "") for it in ("--input", "--output", "--log")]
        for words in (self.words()[:-2], self.words("--step", "1"), self.words(seconds="0"), self.words("--log", "o"), *nameless):
            ran = subprocess.run(words, cwd=self.work, env=self.environment, capture_output=True, check=False)
            self.assertEqual((ran.returncode, ran.stdout), (3, b""), words)

    def test_of_an_endless_input_no_more_is_taken_than_the_program_reads(self):
        ran = self.improve("", "--input", "/dev/zero")
        self.assertEqual((ran.returncode, ran.stdout), (7, f"too long --input {MOST_BYTES + 1}\n"))

    def test_an_input_through_a_pipe_is_read_once(self):
        ran = self.improve("0:open 5 9\n1000:least 7\n", "--input", "/dev/stdin", input="id,lower,upper,size\n")
        self.assertEqual((ran.returncode, ran.stdout), (0, "least 7\n"), ran.stderr)


class Files(unittest.TestCase):
    """What improve does with its files where the system refuses something."""

    FULL = OSError(errno.ENOSPC, os.strerror(errno.ENOSPC))

    def setUp(self):
        folder = tempfile.TemporaryDirectory()
        self.addCleanup(folder.cleanup)
        self.folder, self.o, self.l = folder.name, f"{folder.name}/o", f"{folder.name}/l"
        for name in (self.o, self.l):
            self.write(name, "old")

    def write(self, path, text):
        with open(path, "w", encoding="utf-8", newline="") as file:
            file.write(text)

    def read(self, path):
        with open(path, encoding="utf-8") as file:
            return file.read()

    def test_a_disk_without_room_is_no_closed_folder(self):
        with mock.patch("tempfile.mkdtemp", side_effect=[self.FULL, self.folder]):
            with self.assertRaises(improve.Refused) as raised:
                improve.Kept("--output", self.o)
        self.assertEqual(raised.exception.args, ("unwritten --output", self.o, "cannot be written: No space left on device"))
        self.assertEqual(self.read(self.o), "old")

    def test_a_folder_is_found_beside_a_file_of_the_longest_name(self):
        for letters in ("\u00e4" * 127, "\u4e2d" * 85):
            name = f"{self.folder}/{letters}"
            self.write(name, "old")
            room, is_beside = improve.room_for(name)
            self.assertEqual((os.path.dirname(room), is_beside), (self.folder, True))
            # The program takes no other names.
            os.fsencode(room).decode("utf-8")

    def test_a_folder_that_may_be_read_alone_takes_no_other_file(self):
        for number in (errno.EROFS, errno.EACCES):
            with mock.patch("tempfile.mkdtemp", side_effect=[OSError(number, ""), self.folder]):
                self.assertFalse(improve.Kept("--output", self.o).is_beside)

    def test_a_file_that_keeps_its_name_is_written_in_place(self):
        kept = improve.Kept("--output", self.o)
        self.addCleanup(kept.clear)
        self.write(kept.draft(), "new")
        with mock.patch("os.replace", side_effect=OSError(errno.EBUSY, os.strerror(errno.EBUSY))):
            kept.take()
        self.assertEqual(self.read(self.o), "new")

    def test_an_owner_without_a_number_here_is_not_kept(self):
        os.chmod(self.o, 0o640)
        with mock.patch("os.chown", side_effect=OSError(errno.EINVAL, os.strerror(errno.EINVAL))):
            improve.make_like(self.l, self.o)
        self.assertEqual(os.stat(self.l).st_mode & 0o777, 0o640)

    def test_the_group_is_kept_where_the_owner_cannot_be(self):
        given = []

        def chown(_, owner, group):
            if owner != -1:
                raise PermissionError
            given.append(group)

        os.chmod(self.o, 0o640)
        with mock.patch("os.chown", chown):
            improve.make_like(self.l, self.o)
        self.assertEqual((given, os.stat(self.l).st_mode & 0o777), ([os.stat(self.o).st_gid], 0o640))

    def test_a_height_is_found_as_the_program_reads(self):
        long = "x" * 200000
        for given in ("\ufeffid,size\na,4\n", f"id,size,note\r\na,4,{long}\r\n", 'id,size,note\n\na,4,"b\r\nc"\n', "id,size\ra,4"):
            self.write(self.l, given)
            rows = list(improve.records_of(self.l))
            with open(self.o, "w", newline="", encoding="utf-8") as file:
                csv.writer(file).writerows([[*rows[0], "offset"], [*rows[1], "3"]])
            self.assertEqual(improve.height_of(self.l, self.o), 7)

    def test_a_file_that_is_no_layout_is_not_read_through(self):
        self.write(self.l, "id,size\na,4\n")
        os.truncate(self.o, 2**36)
        self.assertIsNone(improve.height_of(self.l, self.o))
        self.write(self.o, "other\n" + "a,4,3\n" * 5000000)
        begun = time.process_time()
        self.assertIsNone(improve.height_of(self.l, self.o))
        self.assertLess(time.process_time() - begun, 1)

    def ended(self, best):
        """How it ends after answers of which the third is not taken whole, and what it says last."""
        answers = iter([(5, 9), (6, 8), (7, 7)])

        def call(*_):
            self.write(best.layout.draft(), "layout")
            self.write(best.log.draft(), "log")
            return next(answers)

        # What was there before is neither a layout nor a log.
        stubs = mock.patch.multiple(improve, call=call, said_to=lambda *_: [])
        with stubs, contextlib.redirect_stderr(io.StringIO()) as told:
            how = improve.ended(best, 60, "", mock.Mock(came=False))
        return how, told.getvalue().splitlines()[-1]

    def test_of_two_files_the_one_that_is_taken_counts(self):
        for name, nth, bracket in (("o", 4, "open 6 8"), ("l", 5, "open 6 7")):
            best, calls, replace = improve.Best(self.o, self.l), [], os.replace

            def once(*names):
                calls.append(names)
                if len(calls) > nth:
                    raise self.FULL
                replace(*names)

            with self.subTest(name), mock.patch("os.replace", once):
                option = {"o": "--output", "l": "--log"}[name]
                said = f"improve: {option}: {self.folder}/{name} cannot be written: No space left on device"
                self.assertEqual(self.ended(best), ((2, bracket), said))
            best.clear()

    def test_a_file_that_is_half_written_holds_no_plan(self):
        for taken in (4, 5):
            best, copy = improve.Best(self.o, self.l), mock.Mock(side_effect=[None] * taken + [self.FULL])
            self.addCleanup(best.clear)
            best.layout.is_beside = best.log.is_beside = False
            with self.subTest(taken), mock.patch("shutil.copyfile", copy), self.assertRaises(improve.Refused):
                self.ended(best)


if __name__ == "__main__":
    unittest.main()
