"""How libraries are built several at a time, over a stub for the parts of rt."""

import contextlib
import importlib.machinery
import importlib.util
import io
import os
import shutil
import signal
import subprocess
import sys
import tempfile
import threading
import time
import unittest
from unittest import mock

TOOLS = os.path.dirname(os.path.dirname(os.path.abspath(__file__)))
loader = importlib.machinery.SourceFileLoader("side_by_side", f"{TOOLS}/side_by_side")
side_by_side = importlib.util.module_from_spec(importlib.util.spec_from_loader("side_by_side", loader))
loader.exec_module(side_by_side)


class Library:
    """A library that takes a moment to build, and notes what was built when it began."""

    lock, built, at_once, most = threading.Lock(), [], 0, 0

    def __init__(self, name, *deps, fails=False):
        self.name, self.folder, self.deps, self.fails, self.meets = name, name, deps, fails, None

    def build_rlib(self, flags, anew):
        with Library.lock:
            Library.at_once += 1
            Library.most = max(Library.most, Library.at_once)
            self.below = set(Library.built)
        if self.meets:
            self.meets.wait()
        time.sleep(0.02)
        print(f"crate {self.name}: checked=1", *flags, file=self.out)
        with Library.lock:
            Library.at_once -= 1
            Library.built.append(self.name)
        return int(self.fails)


def write(path, text):
    os.makedirs(os.path.dirname(path), exist_ok=True)
    with open(path, "w", encoding="utf-8") as file:
        file.write(text)


class Parts:
    """The parts of rt, over crates of a folder, with what was called of these."""

    RATTLE, KIT = "rattle", "kit"

    def __init__(self):
        self.rtlib, self.crates, self.calls = self, {}, []

    @staticmethod
    def text_of(path):
        with contextlib.suppress(FileNotFoundError), open(path, encoding="utf-8") as file:
            return file.read()

    sum_of = text_of
    processors, free, need = lambda _: 4, lambda _: 100, lambda *_: 10
    guarded = share_work = root_above = lambda *_: None
    lock, help_of = lambda *_: [], lambda *_: "--statements"

    def Crate(self, folder, *_):
        return self.crates[os.path.basename(folder)]


class Crate(Library):
    """A crate of a folder, which writes what it is asked to build, and fails where it is told to."""

    kept, now, is_program = False, "now", False

    def __init__(self, parts, folder, name, *deps, fails=False):
        super().__init__(name, *deps, fails=fails)
        self.parts, self.folder = parts, f"{folder}/{name}"
        self.rlib = f"{self.folder}/out/rlib/{name}.rlib"
        os.makedirs(self.folder)
        parts.crates[name] = self

    def below(self):
        return list(self.deps)

    def stamp(self):
        return self.now

    def is_built(self):
        return Parts.text_of(f"{self.folder}/out/rlib/stamp") == self.now

    def has_kept(self):
        return self.kept

    def words(self, flags, keeps):
        return [*flags, f"keeps={keeps}"]

    def note(self, *words):
        """Notes a call, and returns the status of what was called."""
        with Library.lock:
            self.parts.calls.append(f"{self.name}: {' '.join(words)}")
        return int(self.fails)

    def call(self, *words):
        where = words.index("-o")
        if words[where + 1] == self.rlib:
            os.makedirs(self.rlib)
            return self.note(*words[:where])
        return self.note(*words)

    def build_rlib(self, flags, _):
        return 0 if self.is_built() else self.note("build_rlib", *flags)

    def build_static(self, flags):
        return self.note("build_static", *flags)

    def run(self, flags, arguments):
        if not self.note("run", *flags, *arguments):
            write(f"{self.folder}/out/{self.name}", "program")
        return 3


class Stamps(unittest.TestCase):
    """How often a crate is read for the stamps of those above it."""

    def test_a_crate_is_read_once_for_each_stamp_that_is_asked_for(self):
        read = []

        class Stamped:
            def __init__(self, name, *deps):
                self.name, self.deps = name, deps

            def stamp(self):
                read.append(self.name)
                return self.name + "".join(it.stamp() for it in self.deps)

        low = Stamped("low")
        sides = [Stamped("left", low), Stamped("right", low)]
        top = Stamped("top", *sides)
        before = top.stamp()
        self.assertEqual(sorted(read), ["left", "low", "low", "right", "top"])
        side_by_side.stamp_quickly(Stamped)
        for _ in range(2):
            read.clear()
            self.assertEqual(top.stamp(), before)
            self.assertEqual(sorted(read), ["left", "low", "right", "top"])


class Main(unittest.TestCase):
    """What is built of a program and of a static library over two libraries."""

    BUILT = "rattle build --jobs {} keeps=False --statements"

    def setUp(self):
        folder = tempfile.TemporaryDirectory()
        self.addCleanup(folder.cleanup)
        self.parts, self.folder = Parts(), folder.name
        low = Crate(self.parts, self.folder, "low")
        self.below = [low, Crate(self.parts, self.folder, "high", low)]
        self.tops = [Crate(self.parts, self.folder, name, *self.below) for name in ("dsaplan", "archive")]
        self.tops[0].is_program = True
        for it in (
            mock.patch.object(side_by_side, "CRATES", self.folder),
            mock.patch.object(side_by_side, "parts_of_rt", lambda: self.parts),
            mock.patch.dict(os.environ, {"DSAPLAN_JOBS": "", "DSAPLAN_KEEP": ""}),
        ):
            it.start()
            self.addCleanup(it.stop)
        self.addCleanup(os.chdir, os.getcwd())
        self.addCleanup(signal.signal, signal.SIGINT, signal.getsignal(signal.SIGINT))

    def ended(self, *words):
        """The status, what was called, and what is said on standard error."""
        self.parts.calls.clear()
        with contextlib.redirect_stdout(io.StringIO()), contextlib.redirect_stderr(io.StringIO()) as told:
            status = side_by_side.main(*words)
        return status, [*self.parts.calls], told.getvalue()

    def libraries(self):
        return [f"{it.name}: {self.BUILT.format(4)}" for it in self.below]

    PROVED = "archive: rattle build --jobs 4 keeps=False --toolchain kit/toolchain --backend llvm -o out/libarchive.a"

    def test_the_program_is_built_where_nothing_is_named(self):
        self.assertEqual(self.ended(), (0, [*self.libraries(), "dsaplan: run --jobs 4"], ""))
        self.assertEqual(self.ended("dsaplan"), (0, ["dsaplan: run --jobs 4"], ""))

    def test_a_program_of_before_is_not_taken_for_the_one_that_fails(self):
        self.assertEqual(self.ended()[0], 0)
        self.tops[0].fails = True
        self.assertEqual(self.ended()[0], 1)

    def test_a_static_library_is_built_over_kept_work(self):
        self.assertEqual(self.ended("archive"), (0, [*self.libraries(), "archive: build_static --jobs 4"], ""))
        self.tops[1].fails = True
        self.assertEqual(self.ended("archive")[0], 1)

    def test_what_the_gate_left_is_taken(self):
        for it in self.below:
            os.makedirs(it.rlib)
        for words in (["--proved", "archive"], ["archive", "--proved"]):
            self.assertEqual(self.ended(*words), (0, [self.PROVED], ""))
        self.tops[1].fails = True
        self.assertEqual(self.ended("--proved", "archive")[0], 1)

    def test_what_the_gate_put_back_is_built_where_it_is_not_current(self):
        for name in ("stamp", "statements"):
            for it in self.below:
                os.makedirs(it.rlib, exist_ok=True)
            write(f"{self.below[1].folder}/out/rlib/{name}", "earlier")
            with self.subTest(name):
                self.assertEqual(self.ended("--proved", "archive"), (0, [*self.libraries(), self.PROVED], ""))
                self.assertEqual(self.ended("--proved", "archive"), (0, [self.PROVED], ""))
            for it in self.below:
                shutil.rmtree(f"{it.folder}/out")

    def test_a_library_that_rt_built_and_that_is_current_is_taken(self):
        for it in self.below:
            os.makedirs(it.rlib)
            write(f"{it.folder}/out/rlib/stamp", it.now)
        self.assertEqual(self.ended("--proved", "archive"), (0, [self.PROVED], ""))

    def test_a_library_that_is_missing_is_built(self):
        os.makedirs(self.below[0].rlib)
        self.assertEqual(self.ended("--proved", "archive"), (0, [*self.libraries(), self.PROVED], ""))

    def test_with_one_processor_nothing_is_done(self):
        os.environ["DSAPLAN_JOBS"] = "1"
        self.assertEqual(self.ended("archive"), (2, [], ""))

    def test_a_number_that_is_none_is_passed_over(self):
        for number in ("\u00b2", "0", "-1", "many"):
            os.environ["DSAPLAN_JOBS"] = number
            self.assertEqual(self.ended("archive")[0], 0, number)

    def test_a_name_that_is_no_crate_is_told(self):
        for name in ("archives", "", "--prove", "../low"):
            self.assertEqual(self.ended(name), (1, [], f"side by side: '{name}' is no crate\n"))


class SideBySide(unittest.TestCase):
    def setUp(self):
        Library.built, Library.most = [], 0
        low = Library("low")
        left, right = Library("left", low), Library("right", low)
        self.all = [low, left, right, Library("top", left, right)]

    def build(self, crates, count=4, memory=100, print_to=None, lines=()):
        said = io.StringIO()
        needs = {it.name: 10 for it in crates}
        one = lambda it, flags: it.build_rlib(flags, True) == 0
        done = side_by_side.Build(one, crates, {**needs, **dict(lines)}, needs, count, memory, print_to or said).run()
        return done, said.getvalue().splitlines()

    def meet(self, *crates):
        """Has these libraries wait for each other, so that they are built at a time however long that takes."""
        meets = threading.Barrier(len(crates), timeout=60)
        for it in crates:
            it.meets = meets

    def jobs(self, said):
        return [line.partition(" --jobs ")[2] for line in said if " --jobs " in line]

    def test_each_library_comes_after_its_own(self):
        self.meet(*self.all[1:3])
        done, said = self.build(self.all)
        self.assertTrue(done)
        for it in self.all:
            self.assertLessEqual({dep.name for dep in it.deps}, it.below)
        self.assertEqual(Library.most, 2)
        self.assertEqual(said[:3], ["proving low", "crate low: checked=1 --jobs 4", "proved low"])
        self.assertEqual({line for line in said if line.startswith("proved ")}, {f"proved {it.name}" for it in self.all})
        self.assertIn("crate left: checked=1 --jobs 2", said)
        self.assertIn("crate right: checked=1 --jobs 2", said)

    def test_each_library_is_named_as_it_begins(self):
        crates = [Library("low"), Library("side"), Library("last")]
        crates[2].deps = crates[:1]
        said = self.build(crates, 2, lines={"low": 1, "side": 20, "last": 1})[1]
        self.assertEqual(said[:2], ["proving side", "proving low"])
        self.assertEqual(sum(line == "proving last" for line in said), 1)
        self.assertLess(said.index("proved low"), said.index("proving last"))
        self.assertLess(said.index("proving last"), said.index("proved last"))

    def test_no_more_are_built_at_a_time_than_may_be(self):
        crates = [Library(f"l{k}") for k in range(9)]
        self.meet(*crates[:3])
        self.assertTrue(self.build(crates, 3)[0])
        self.assertEqual(Library.most, 3)

    def test_four_that_may_begin_have_a_job_each(self):
        done, said = self.build([Library(f"l{k}") for k in range(4)])
        self.assertTrue(done)
        self.assertEqual(self.jobs(said), ["1"] * 4)

    def test_no_more_are_built_at_a_time_than_memory_is_there_for(self):
        crates = [Library(f"l{k}") for k in range(9)]
        self.meet(*crates[:2])
        done, said = self.build(crates, 4, memory=25)
        self.assertTrue(done)
        self.assertEqual(Library.most, 2)
        self.assertEqual(self.jobs(said)[:2], ["2"] * 2)

    def test_a_library_that_needs_more_than_there_is_is_built_alone(self):
        done, said = self.build([Library(f"l{k}") for k in range(3)], 4, memory=5)
        self.assertTrue(done)
        self.assertEqual(Library.most, 1)
        self.assertEqual(self.jobs(said), ["4"] * 3)

    def test_a_reader_that_is_gone_ends_the_build(self):
        reader, writer = os.pipe()
        os.close(reader)
        with os.fdopen(writer, "w") as gone:
            self.assertFalse(self.build(self.all, print_to=gone)[0])
            self.assertNotIn("top", Library.built)
            with contextlib.suppress(BrokenPipeError):
                gone.close()

    def test_nothing_is_built_over_a_library_that_fails(self):
        self.all[1].fails = True
        done, said = self.build(self.all)
        self.assertFalse(done)
        self.assertNotIn("top", Library.built)
        self.assertIn("crate left: checked=1 --jobs 2", said)
        self.assertNotIn("proved left", said)

    def test_the_longest_way_is_begun_first(self):
        crates = [Library("short"), Library("long"), Library("longest")]
        self.build(crates, 1, lines={"short": 1, "long": 20, "longest": 30})
        self.assertEqual(Library.built, ["longest", "long", "short"])

    def test_what_a_library_that_fails_printed_comes_last(self):
        crates = [Library("bad", fails=True), Library("good")]
        done, said = self.build(crates, 2)
        self.assertFalse(done)
        self.assertEqual(said[-1], "crate bad: checked=1 --jobs 1")
        self.assertIn("proved good", said)
        self.assertNotIn("proved bad", said)

    def test_statements_are_built_again_over_another_library(self):
        with tempfile.TemporaryDirectory() as folder:
            parts = Parts()
            low = Crate(parts, folder, "low")
            high = Crate(parts, folder, "high", low)
            build = lambda it, keeps=False: self.assertTrue(side_by_side.build(parts, keeps, it, ["--jobs", "1"]))
            first = "rattle build --jobs 1 keeps=False --statements"
            for it in (low, high, low, high):
                build(it)
            self.assertEqual(parts.calls, [f"low: {first}", f"high: {first}"])
            write(f"{low.rlib}/format", "another")
            build(high)
            self.assertEqual(parts.calls[2:], [f"high: {first}"])
            high.now = "edited"
            build(high)
            self.assertEqual(parts.calls[3:], [f"high: {first}"])
            build(high, keeps=True)
            high.kept = True
            build(high)
            self.assertEqual(parts.calls[4:], ["high: build_rlib --jobs 1"] * 2)

    def ended(self, rt):
        """The status over an rt that has this text, and what is said."""
        with tempfile.TemporaryDirectory() as folder:
            with open(f"{folder}/rt", "w", encoding="utf-8") as file:
                file.write(rt)
            os.chmod(f"{folder}/rt", 0o755)
            how = {"capture_output": True, "text": True, "check": False, "env": {**os.environ, "PATH": folder}}
            ran = subprocess.run([sys.executable, f"{TOOLS}/side_by_side"], **how)
        return ran.returncode, ran.stderr

    def test_what_the_system_refuses_is_no_other_rt(self):
        full = "import errno, os\nraise OSError(errno.ENOSPC, os.strerror(errno.ENOSPC), 'out/rlib')\n"
        self.assertEqual(self.ended(full), (1, "side by side: out/rlib: No space left on device\n"))
        status, said = self.ended("processors = None\n")
        self.assertEqual((status, said[:54]), (2, "side by side: not used, since this rt is another one: "))

    def test_an_error_fails_its_library(self):
        self.all[2].build_rlib = None
        done, said = self.build(self.all)
        self.assertFalse(done)
        self.assertTrue(any(line.startswith("side by side: right: TypeError") for line in said))


if __name__ == "__main__":
    unittest.main()
