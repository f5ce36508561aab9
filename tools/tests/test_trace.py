"""examples/trace.py, over a stub for valgrind that prints what a table says, and over valgrind itself where it is there."""

import os
import shutil
import signal
import subprocess
import sys
import tempfile
import unittest

TOP = os.path.dirname(os.path.dirname(os.path.dirname(os.path.abspath(__file__))))
STUB = """#!/bin/sh
for word; do case $word in --log-file=*) log=${word#*=} ;; --command-line-only=yes) VALGRIND_OPTS= ;; esac; done
here=$(dirname "$0")
printf %s "$(cat "$here/said")" >&2
{ echo "==7== Command: true"; sed '/^--/!s/^/--7-- /' "$here/calls"; } >"$log"
if [ -e "$here/dies" ]; then kill -SEGV $$; fi
if [ -e "$here/serves" ]; then trap 'rm "$here/serves"' INT; kill -INT 0; fi
if [ -e "$here/serves" ]; then exit; fi
if [ -e "$here/goes on" ] || [ "$VALGRIND_OPTS" = -q ]; then exit; fi
echo "==7== ERROR SUMMARY: 0 errors from 0 contexts" >>"$log"
"""
PROGRAM = """
#include <new>
struct alignas(64) Wide { char text[128]; };
int main() {
    int *one = new int(1), *many = new int[10];
    Wide *wide = new Wide;
    delete wide;
    delete[] many;
    delete one;
}
"""
FORKS = """
#include <cstdio>
#include <cstdlib>
#include <sys/wait.h>
#include <unistd.h>
void *kept[3];
int main() {
    fprintf(stderr, "progress..");
    kept[0] = malloc(1000);
    if (fork() == 0) {
        kept[1] = malloc(777);
        _exit(0);
    }
    wait(nullptr);
    kept[2] = malloc(33);
}
"""


class Trace(unittest.TestCase):
    def setUp(self):
        folder = tempfile.TemporaryDirectory()
        self.addCleanup(folder.cleanup)
        self.folder = folder.name

    def write(self, name, text):
        with open(f"{self.folder}/{name}", "w", encoding="utf-8") as file:
            file.write(text)

    def trace(self, *words, path="", **how):
        environment = {**os.environ, "PATH": path + os.environ["PATH"]}
        how = {"stdout": subprocess.PIPE, "stderr": subprocess.PIPE, "text": True, "env": environment, "check": False, **how}
        return subprocess.run([sys.executable, "-B", f"{TOP}/examples/trace.py", *words], **how)

    def traced(self, *calls, said="", **how):
        """What is told of a program that says this, and for which valgrind prints these calls."""
        self.write("valgrind", STUB)
        os.chmod(f"{self.folder}/valgrind", 0o755)
        self.write("said", said)
        self.write("calls", "".join(f"{it}\n" for it in calls))
        return self.trace("true", path=f"{self.folder}:", **how)

    def of(self, *calls):
        """The lines of that trace."""
        ran = self.traced(*calls)
        self.assertEqual((ran.returncode, ran.stderr), (0, ""))
        return ran.stdout.splitlines()

    def fault(self, ran):
        """What it says where it prints no trace."""
        self.assertEqual((ran.returncode, ran.stdout), (1, ""))
        return ran.stderr

    def test_malloc_and_its_kin(self):
        first = ["malloc(9) = 0xA0", "calloc(3,4) = 0xB0", "free(0xA0)"]
        self.assertEqual(
            self.of(*first, "malloc(0) = 0xA0", "free(0x0)", "memalign(al 64, size 5) = 0xC0"),
            ["alloc p0 9 16", "alloc p1 12 16", "free p0", "alloc p0 1 16", "alloc p2 5 64"],
        )

    def test_realloc_moves_stays_allocates_and_frees(self):
        first = ["realloc(0x0,5)malloc(5) = 0xA0", "realloc(0xA0,7) = 0xA0"]
        self.assertEqual(
            self.of(*first, "realloc(0xA0,9) = 0xB0", "realloc(0xB0,0)free(0xB0)", " = 0"),
            ["alloc p0 5 16", "free p0", "alloc p0 7 16", "alloc p1 9 16", "free p0", "free p1"],
        )

    def test_what_is_refused_is_no_block(self):
        self.assertEqual(
            self.of("malloc(8) = 0xA0", "malloc(1152921504606846976) = 0x0", "realloc(0xA0,1152921504606846976) = 0x0"),
            ["alloc p0 8 16"],
        )

    def test_new_and_delete_of_cpp(self):
        taken = ["_Znwm(4) = 0xA0", "_ZnamRKSt9nothrow_t(40) = 0xB0"]
        aligned = "_ZnamSt11align_val_tRKSt9nothrow_t(size 128, al 64) = 0xC0"
        self.assertEqual(
            self.of(*taken, aligned, "_ZdlPvm(0xA0)", "_ZdaPv(0xB0)", "_ZdaPvSt11align_val_t(0xC0)"),
            ["alloc p0 4 16", "alloc p1 40 16", "alloc p2 128 64", "free p0", "free p1", "free p2"],
        )

    def test_an_unknown_call_leaves_no_trace(self):
        told = self.fault(self.traced("malloc(9) = 0xA0", "valloc(9) = 0xB0"))
        self.assertEqual(told, "a call that this script does not know: valloc\n")

    def test_a_program_that_a_signal_ends_leaves_no_trace(self):
        self.write("dies", "")
        self.assertEqual(self.fault(self.traced("malloc(9) = 0xA0")), "signal 11 ended true\n")

    def test_an_interrupt_is_the_program_s(self):
        self.write("serves", "")
        heeded = signal.signal(signal.SIGINT, signal.default_int_handler)
        self.addCleanup(signal.signal, signal.SIGINT, heeded)
        ran = self.traced("malloc(9) = 0xA0", start_new_session=True)
        self.assertEqual((ran.returncode, ran.stdout, ran.stderr), (0, "alloc p0 9 16\n", ""))

    def test_no_block_is_no_trace(self):
        for calls in ((), ("statically linked",), ("free(0x0)", "malloc(1152921504606846976) = 0x0")):
            with self.subTest(calls=calls):
                self.assertEqual(self.fault(self.traced(*calls)), "no block was seen: true allocates none, or is linked statically\n")

    def test_what_the_program_says_hides_no_call(self):
        ran = self.traced("malloc(1048576) = 0xA0", "free(0xA0)", said="progress..")
        self.assertEqual((ran.returncode, ran.stdout, ran.stderr), (0, "alloc p0 1048576 16\nfree p0\n", "progress.."))

    def test_a_process_that_it_forks_is_not_traced(self):
        child = ["--8-- malloc(777) = 0xB0", "--8-- free(0xA0)"]
        self.assertEqual(self.of(*child, "malloc(9) = 0xA0", *child, "free(0xA0)"), ["alloc p0 9 16", "free p0"])

    def test_a_log_without_its_end_leaves_no_trace(self):
        self.write("goes on", "")
        self.assertIn("the log has no end: true became another program", self.fault(self.traced("malloc(9) = 0xA0")))

    def test_options_of_the_user_change_nothing(self):
        quiet = {**os.environ, "VALGRIND_OPTS": "-q"}
        ran = self.traced("malloc(9) = 0xA0", env={**quiet, "PATH": f"{self.folder}:{os.environ['PATH']}"})
        self.assertEqual((ran.returncode, ran.stdout, ran.stderr), (0, "alloc p0 9 16\n", ""))
        if shutil.which("valgrind"):
            words = ["grep", "-c", "b", f"{TOP}/examples/five.csv"]
            plain = self.trace(*words).stdout
            self.assertIn("alloc", plain)
            self.assertEqual(self.trace(*words, env=quiet).stdout, plain)

    def test_output_that_is_full_or_closed_is_told(self):
        with open("/dev/full", "w", encoding="utf-8") as full:
            ran = self.traced("malloc(9) = 0xA0", stdout=full)
        self.assertEqual((ran.returncode, ran.stderr), (1, "the trace could not be written: No space left on device\n"))
        ran = self.traced("malloc(9) = 0xA0", stdout=None, preexec_fn=lambda: os.close(1))
        self.assertEqual((ran.returncode, ran.stderr), (1, "standard output is closed\n"))

    def test_a_program_that_is_missing_is_told(self):
        self.traced()
        self.assertEqual(self.fault(self.trace("./none", path=f"{self.folder}:")), "there is no program ./none\n")
        self.assertIn("usage", self.fault(self.trace()))

    def recorded(self, program):
        """What is told of a program of C++ under valgrind, and the sizes and alignments of its blocks."""
        if not shutil.which("valgrind") or not shutil.which("c++"):
            self.skipTest("valgrind or a compiler is missing")
        self.write("program.cc", program)
        subprocess.run(["c++", "-std=c++17", "-O0", "-o", f"{self.folder}/program", f"{self.folder}/program.cc"], check=True)
        ran = self.trace(f"{self.folder}/program")
        self.assertEqual(ran.returncode, 0, ran.stderr)
        return ran.stderr, [it.split()[2:] for it in ran.stdout.splitlines() if it.startswith("alloc")]

    def test_a_program_of_cpp_under_valgrind(self):
        self.assertEqual(self.recorded(PROGRAM)[1][-3:], [["4", "16"], ["40", "16"], ["128", "64"]])

    def test_a_program_that_forks_and_says_how_far_it_is_under_valgrind(self):
        said, sizes = self.recorded(FORKS)
        self.assertIn("progress..", said)
        self.assertEqual(sizes[-2:], [["1000", "16"], ["33", "16"]])


if __name__ == "__main__":
    unittest.main()
