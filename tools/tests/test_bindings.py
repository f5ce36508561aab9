"""bindings/build, over a copy of it with stubs for rt, for what proves side by side and for the archiver."""

import os
import shutil
import subprocess
import tempfile
import unittest

TOP = os.path.dirname(os.path.dirname(os.path.dirname(os.path.abspath(__file__))))
# Each notes its words; the status of the second is told by a file.
RT = """#!/bin/sh
echo "rt $*" >>"$ASKED"
[ "$1" != doc ] || echo kit/page
"""
SIDE_BY_SIDE = """#!/usr/bin/env python3
import os, sys
with open(os.environ["ASKED"], "a") as file:
    print("side_by_side", *sys.argv[1:], file=file)
sys.exit(int(os.environ["STATUS"]))
"""
# A name of the archiver's script ends at a blank.
AR = """#!/bin/sh
echo "ar $*" >>"$ASKED"
while read -r word name more; do [ "$word" != create ] || : >"$name"; [ -z "$more" ] || exit 9; done
"""
MADE = "made bindings/out/libdsaplan.a\nno C compiler 'no-compiler': libdsaplan.so is not made\n"


class Build(unittest.TestCase):
    def setUp(self):
        folder = tempfile.TemporaryDirectory()
        self.addCleanup(folder.cleanup)
        self.top, self.bin, self.asked = f"{folder.name}/a top", f"{folder.name}/bin", f"{folder.name}/asked"
        for name in (f"{self.top}/bindings", f"{self.top}/tools", f"{self.top}/crates/dsaplan_c", self.bin):
            os.makedirs(name)
        shutil.copy(f"{TOP}/bindings/build", f"{self.top}/bindings")
        for path, text in ((f"{self.bin}/rt", RT), (f"{self.bin}/ar", AR), (f"{self.top}/tools/side_by_side", SIDE_BY_SIDE)):
            with open(path, "w", encoding="utf-8") as file:
                file.write(text)
            os.chmod(path, 0o755)

    def built(self, *words, status=0, path=None):
        """How it ends where what proves side by side ends so, and what was asked of the others before the archive is made."""
        path = path or f"{self.bin}:{os.environ['PATH']}"
        environment = {**os.environ, "PATH": path, "ASKED": self.asked, "STATUS": str(status), "CC": "no-compiler"}
        how = {"capture_output": True, "text": True, "check": False, "env": environment}
        ran = subprocess.run([f"{self.top}/bindings/build", *words], **how)
        asked = []
        if os.path.exists(self.asked):
            with open(self.asked, encoding="utf-8") as file:
                asked = file.read().splitlines()
            os.remove(self.asked)
        return ran.returncode, ran.stdout, ran.stderr, asked

    def test_it_is_proved_side_by_side_and_put_into_one_archive(self):
        for words in ([], ["--proved"]):
            asked = ["rt doc", " ".join(["side_by_side", *words, "dsaplan_c"]), "ar -M"]
            self.assertEqual(self.built(*words), (0, MADE, "", asked))

    def test_the_shell_s_path_for_folders_changes_nothing(self):
        environment = {**os.environ, "PATH": f"{self.bin}:{os.environ['PATH']}", "ASKED": self.asked, "STATUS": "0", "CC": "no-compiler"}
        how = {"capture_output": True, "text": True, "check": False, "env": {**environment, "CDPATH": "."}, "cwd": self.top}
        ran = subprocess.run(["bindings/build"], **how)
        self.assertEqual((ran.returncode, ran.stdout, ran.stderr), (0, MADE, ""))

    def test_rt_proves_it_where_nothing_is_proved_side_by_side(self):
        self.assertEqual(self.built(status=2), (0, MADE, "", ["rt doc", "side_by_side dsaplan_c", "rt lib", "ar -M"]))

    def test_what_is_not_proved_is_put_into_no_archive(self):
        self.assertEqual(self.built(status=1), (1, "", "", ["rt doc", "side_by_side dsaplan_c"]))

    def test_another_word_is_none(self):
        for words in (["--prove"], [""], ["--proved", "dsaplan"], ["--help"]):
            self.assertEqual(self.built(*words), (3, "", "usage: bindings/build [--proved]\n", []))

    def test_a_toolchain_that_is_missing_is_told(self):
        found = f"{self.top}/found"
        os.mkdir(found)
        for name in ("bash", "dirname", "readlink"):
            os.symlink(shutil.which(name), f"{found}/{name}")
        self.assertEqual(self.built(path=found), (9, "", "bindings/build: rt is not on the PATH\n", []))


if __name__ == "__main__":
    unittest.main()
