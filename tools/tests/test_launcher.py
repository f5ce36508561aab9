"""The launcher, over a copy of it with a stub for the program and one for rt."""

import os
import re
import shutil
import signal
import subprocess
import tempfile
import time
import unittest

TOOLS = os.path.dirname(os.path.dirname(os.path.abspath(__file__)))

# Whoever runs the tests may ignore signals, as nohup does, and what they begin would inherit that.
for number in (signal.SIGINT, signal.SIGTERM, signal.SIGHUP):
    if signal.getsignal(number) is signal.SIG_IGN:
        signal.signal(number, signal.SIG_DFL)
# A hook of git tells of its repository, and the commits below would go there. Nor does anybody sign them.
for name in [it for it in os.environ if it.startswith("GIT_")]:
    del os.environ[name]
os.environ["GIT_CONFIG_GLOBAL"] = os.environ["GIT_CONFIG_SYSTEM"] = os.devnull
TOP = os.path.dirname(TOOLS)
BUILT = f"{TOP}/crates/dsaplan/out/dsaplan"
# 256 bytes
WIDE = "\u00f6" * 128
MALFORMED = "malformed row 0 bad number size"
RT = """#!/bin/bash
echo "$*" >>"$RT_ASKED"
case $1 in
version) echo 'rattle-kit-0 logic 0123' ;;
run) if [ "${RT_FAILS-}" ]; then echo 'a proof fails'; exit 1; fi
    [ "${RT_LASTS-}" ] && sleep "$RT_LASTS"
    echo "proved low"; for it in high dsaplan; do echo "crate $it: modules loaded=1 checked=2"; done
    mkdir -p out && cp ../../stub out/dsaplan; exit 3 ;;
esac
"""


SIDE_BY_SIDE = """import os, shutil
print('''{said}''')
top = os.path.dirname(os.path.dirname(os.path.abspath(__file__)))
os.makedirs(f"{{top}}/crates/dsaplan/out")
shutil.copy(f"{{top}}/stub", f"{{top}}/crates/dsaplan/out/dsaplan")
"""


class Launcher(unittest.TestCase):
    def setUp(self):
        folder = tempfile.TemporaryDirectory()
        self.addCleanup(folder.cleanup)
        self.top = f"{folder.name}/top"
        self.work = f"{folder.name}/work"
        for name in (f"{self.top}/crates/dsaplan/src", self.work, f"{folder.name}/bin"):
            os.makedirs(name)
        shutil.copy(f"{TOP}/dsaplan", self.top)
        shutil.copytree(TOOLS, f"{self.top}/tools", ignore=shutil.ignore_patterns("__pycache__"))
        self.write(f"{self.top}/crates.txt", "dsaplan: high std\nhigh: low csv  # above\nlow:\nother: low\n")
        self.write(f"{self.top}/crates/dsaplan/src/main.rt", "fn main() {}\n")
        self.write(f"{folder.name}/bin/rt", RT, 0o755)
        self.write(f"{self.work}/i", "id,lower,upper,size\nb1,0,3,4K\n")
        self.program = f"{self.top}/crates/dsaplan/out/dsaplan"
        self.environment = {
            **os.environ,
            "PATH": f"{folder.name}/bin:{os.environ['PATH']}",
            "RT_ASKED": f"{folder.name}/asked",
        }
        self.environment.pop("DSAPLAN_HINTS", None)
        self.asked = f"{folder.name}/asked"

    def write(self, path, text, mode=0o644):
        with open(path, "w", encoding="utf-8", newline="") as file:
            file.write(text)
        os.chmod(path, mode)

    def stand_in(self, script):
        """Puts a script in the program's place, newer than all sources."""
        os.makedirs(os.path.dirname(self.program), exist_ok=True)
        self.write(self.program, f"#!/bin/bash\n{script}\n", 0o755)

    def run_it(self, *words, before="", environment=(), **how):
        command = f'{before} exec "$0" "$@"' if before else 'exec "$0" "$@"'
        how = {"capture_output": True, "text": True, "cwd": self.work, "check": False, **how}
        environment = {**self.environment, **dict(environment)}
        return subprocess.run(["bash", "-c", command, f"{self.top}/dsaplan", *words], env=environment, **how)

    def run_without_reader(self, *words):
        """A run whose standard output is a pipe that nobody reads."""
        reader, writer = os.pipe()
        os.close(reader)
        with os.fdopen(writer, "w") as gone:
            return self.run_it(*words, capture_output=False, stdout=gone, stderr=subprocess.DEVNULL)

    def test_help_tells_the_commands(self):
        for words in (["--help"], ["-h"], ["help"], ["help", "help"]):
            ran = self.run_it(*words)
            self.assertEqual((ran.returncode, ran.stderr), (0, ""))
            for command in self.forms():
                self.assertRegex(ran.stdout, rf"(?m)^  {command} +[a-z]")
            self.assertIn("\n  tools/improve --help ", ran.stdout)
        self.assertFalse(os.path.exists(self.asked), "help builds nothing")

    def test_help_tells_of_one_command(self):
        for command in self.forms():
            ran = self.run_it("help", command)
            self.assertEqual((ran.returncode, ran.stderr), (0, ""))
            self.assertTrue(ran.stdout.startswith(f"dsaplan {command} --"))

    def test_help_after_a_command_is_the_launcher_s_whether_built_or_not(self):
        for stand_in in (lambda: None, lambda: self.stand_in("echo usage; exit 3")):
            stand_in()
            for command in self.forms():
                for word in ("--help", "-h"):
                    ran = self.run_it(command, word)
                    self.assertEqual((ran.returncode, ran.stderr), (0, ""))
                    self.assertEqual(ran.stdout, self.run_it("help", command).stdout)
        self.assertFalse(os.path.exists(self.asked), "help builds nothing")
        for words in (["pack", "--help", "more"], ["pack", "--input", "--help"], ["-h", "-h"], ["slove", "-h"]):
            self.assertNotIn("dsaplan pack --", self.run_it(*words).stdout)

    def test_help_of_another_word_names_the_nearest(self):
        for word in ("slove", "\\163olve"):
            ran = self.run_it("help", word)
            self.assertEqual((ran.returncode, ran.stdout), (3, ""))
            self.assertIn(" is no command", ran.stderr)
        self.assertIn("the nearest is 'solve'", self.run_it("help", "slove").stderr)
        ran = self.run_it("help", "slove", environment={"DSAPLAN_HINTS": "0"})
        self.assertEqual((ran.returncode, ran.stdout, ran.stderr), (3, "", ""))

    def forms(self):
        """The options of each command, as the definitions have them: those that are needed and those that are not."""
        with open(f"{TOP}/crates/command_words/specs/Forms.antt", encoding="utf-8") as file:
            text = file.read()
        forms = {}
        for command, needed, optional in re.findall(r'= row \(codes "(\w+)"\) \((.*?)\) (\(.*?\)|\[\])$', text, re.M):
            # What is needed is written after what is done with it; only the input may be read as an instance.
            forms[command] = [
                [f"--{it.lower()}" for it in re.findall(form, options)]
                for form, options in ((r"([A-Z]\w+)(?= ∷)", needed.replace("Instance", "Input")), (r"[A-Z]\w+", optional))
            ]
        return forms

    def test_help_has_the_options_of_the_definitions(self):
        with open(f"{TOOLS}/help.txt", encoding="utf-8") as file:
            said = dict(re.findall(r"^dsaplan ([a-z]+) (--.*)$", file.read(), re.M))
        self.assertEqual(sorted(said), sorted(self.forms()))
        for command, (needed, optional) in self.forms().items():
            without = re.sub(r"\[.*?\]", "", said[command])
            self.assertEqual(re.findall(r"--\w+", without), needed, command)
            self.assertEqual(re.findall(r"\[(--\w+) \w\]", said[command]), optional, command)

    def test_a_build_says_how_far_it_is_and_notes_the_toolchain(self):
        self.write(f"{self.top}/stub", "#!/bin/sh\necho right\n", 0o755)
        ran = self.run_it("verify")
        self.assertEqual((ran.returncode, ran.stdout), (0, "right\n"))
        self.assertEqual(
            ran.stderr.splitlines()[1:],
            [
                "dsaplan: 0 of 3 crates proved; proving low",
                "dsaplan: 1 of 3 crates proved; proving high",
                "dsaplan: 2 of 3 crates proved; proving dsaplan",
            ],
        )
        self.assertEqual(self.asked_of_rt(), ["version", "run"])
        version = self.run_it("--version")
        self.assertEqual((version.returncode, version.stderr), (0, ""))
        self.assertRegex(version.stdout, r"\Adsaplan commit \S+\nproved with rattle-kit-0 logic 0123\n\Z")
        again = self.run_it("verify")
        self.assertEqual((again.returncode, again.stdout, again.stderr), (0, "right\n", ""))

    def test_another_toolchain_is_told_before_a_build(self):
        self.write(f"{self.top}/stub", "#!/bin/sh\n", 0o755)
        for wanted, said in [
            ("logic 0123", []),
            ("logic 4567", [
                "dsaplan: rt version prints 'rattle-kit-0 logic 0123', which does not end in 'logic 4567', as README wants;"
                " the build may fail"
            ]),
        ]:
            self.write(f"{self.top}/README.md", f"# A\n\nHere `rt version` must\nend in `{wanted}`.\n")
            shutil.rmtree(os.path.dirname(self.program), ignore_errors=True)
            told = self.run_it("verify").stderr.splitlines()
            self.assertEqual(told[: len(said)], said)
            self.assertRegex(told[len(said)], "^dsaplan: building")

    def told_of(self, *said):
        """What the launcher tells of a build side by side that prints these lines."""
        self.write(f"{self.top}/stub", "#!/bin/sh\n", 0o755)
        self.write(f"{self.top}/tools/side_by_side", SIDE_BY_SIDE.format(said="\n".join(said)))
        told = self.run_it("verify").stderr.splitlines()[1:]
        return [it.removeprefix("dsaplan: ") for it in told]

    def test_a_build_side_by_side_names_what_is_being_proved(self):
        self.write(f"{self.top}/crates.txt", "dsaplan: high\nhigh: low side\nlow:\nside:\nother:\n")
        told = self.told_of(
            *("proving side", "proving low", "rt: proving is slow", "proving ", "crate side: checked=2", "proved side"),
            *("proved low", "proving high", "proved other", "proved high", "proving dsaplan", "crate dsaplan: checked=3"),
        )
        self.assertEqual(
            told,
            [
                "0 of 4 crates proved; proving side",
                "0 of 4 crates proved; proving low, side",
                "1 of 4 crates proved; proving low",
                "2 of 4 crates proved; proving high",
                "3 of 4 crates proved; proving dsaplan",
            ],
        )

    def test_a_build_of_many_at_a_time_names_four(self):
        self.write(f"{self.top}/crates.txt", "dsaplan: a b c d e f\na:\nb:\nc:\nd:\ne:\nf:\n")
        told = self.told_of(*(f"proving {it}" for it in "abcdef"))
        self.assertEqual(told[3:], [f"0 of 7 crates proved; proving a, b, c, d{more}" for more in ("", " and 1 more", " and 2 more")])

    def test_a_build_that_waits_for_another_says_so(self):
        self.write(f"{self.top}/crates.txt", "dsaplan: low\nlow:\n")
        told = self.told_of(
            "rt: waiting for another rt to finish in /a b/crates/low",
            "proving low",
            "rt: low: another copy of the repository is building this library; waiting for it, at most half an hour, to use its work",
        )
        self.assertEqual(
            told[:3],
            [
                "another build is at work in these folders; waiting for it",
                "0 of 2 crates proved; proving low",
                "another copy of the sources is building low; waiting for it",
            ],
        )

    def test_a_build_that_fails_ends_with_9(self):
        ran = self.run_it("verify", environment={"RT_FAILS": "1"})
        self.assertEqual((ran.returncode, ran.stdout), (9, ""))
        self.assertIn("a proof fails", ran.stderr)
        self.assertIn("not built", self.run_it("--version").stdout)

    def test_a_build_leaves_nothing_in_the_folder_for_temporary_files(self):
        self.write(f"{self.top}/stub", "#!/bin/sh\n", 0o755)
        there = {"TMPDIR": self.work}
        left = os.listdir(self.work)
        for more in ({"RT_FAILS": "1"}, {}):
            self.run_it("verify", environment={**there, **more})
            self.assertEqual(os.listdir(self.work), left)
        for number in (signal.SIGINT, signal.SIGTERM, signal.SIGHUP):
            shutil.rmtree(os.path.dirname(self.program), ignore_errors=True)
            os.remove(self.asked)
            how = {"env": {**self.environment, **there, "RT_LASTS": "60"}, "start_new_session": True, "stderr": subprocess.DEVNULL}
            with subprocess.Popen([f"{self.top}/dsaplan", "verify"], **how) as run:
                self.wait_for(lambda: "run" in self.asked_of_rt())
                os.killpg(run.pid, number)
            self.assertEqual((run.returncode, os.listdir(self.work)), (-number, left))

    def asked_of_rt(self):
        with open(self.asked, encoding="utf-8") as file:
            return file.read().splitlines()

    @unittest.skipUnless(shutil.which("git"), "there is no git")
    def test_the_commit_is_that_of_its_own_repository(self):
        above, top = os.path.dirname(self.top), self.top
        for folder, commit in ((above, "unknown"), (top, "[0-9a-f]{12}")):
            for words in (["init", "-q"], ["-c", "user.name=a", "-c", "user.email=a@b", "commit", "-qm", folder, "--allow-empty"]):
                subprocess.run(["git", "-C", folder, *words], check=True)
            self.assertRegex(self.run_it("--version").stdout, rf"\Adsaplan commit {commit}(, changed since)?\nnot built\n\Z")
        other = {"GIT_DIR": f"{above}/.git", "GIT_WORK_TREE": top, "GIT_INDEX_FILE": f"{above}/none"}
        other["GIT_OBJECT_DIRECTORY"] = f"{above}/.git/objects"
        for names in (["GIT_DIR"], ["GIT_DIR", "GIT_WORK_TREE"], ["GIT_INDEX_FILE"], ["GIT_OBJECT_DIRECTORY"]):
            ran = self.run_it("--version", environment={it: other[it] for it in names})
            self.assertEqual(ran.stdout, self.run_it("--version").stdout)
        trusted = {"GIT_CONFIG_COUNT": "1", "GIT_CONFIG_KEY_0": "safe.directory", "GIT_CONFIG_VALUE_0": "*"}
        ran = self.run_it("--version", environment={"GIT_TEST_ASSUME_DIFFERENT_OWNER": "1", **trusted})
        self.assertEqual(ran.stdout, self.run_it("--version").stdout)

    def test_a_note_of_another_build_is_none(self):
        self.write(f"{self.top}/stub", "#!/bin/sh\n", 0o755)
        self.run_it("verify")
        self.assertIn("proved with rattle-kit-0", self.run_it("--version").stdout)
        later = time.time() + 5
        os.utime(self.program, (later, later))
        self.assertIn("a toolchain that was not noted", self.run_it("--version").stdout)

    def test_a_program_that_cannot_be_removed_is_not_taken_for_what_is_built(self):
        os.makedirs(f"{self.program}/in the way")
        os.utime(self.program, (0, 0))
        ran = self.run_it("verify")
        self.assertEqual((ran.returncode, ran.stdout), (9, ""))
        self.assertEqual(self.asked_of_rt(), ["version"])

    def test_a_crate_that_takes_longer_than_a_shell_waits_ends_no_build(self):
        self.write(f"{self.top}/stub", "#!/bin/sh\n", 0o755)
        ran = self.run_it("verify", environment={"TMOUT": "1", "RT_LASTS": "2"})
        self.assertEqual(ran.stderr.splitlines()[-1], "dsaplan: 2 of 3 crates proved; proving dsaplan")

    def test_an_answer_of_its_own_that_is_not_printed_ends_with_5(self):
        for words in (["help"], ["help", "solve"], ["--help"], ["solve", "-h"], ["--version"]):
            for before in ("exec >&-;", "exec >/dev/full;"):
                ran = self.run_it(*words, before=before)
                self.assertEqual((ran.returncode, ran.stdout, ran.stderr), (5, "", ""))
            self.assertEqual(self.run_without_reader(*words).returncode, 5)

    def test_a_file_that_the_caller_opened_is_the_program_s(self):
        self.stand_in("cat <&3")
        for hints in ("0", "1"):
            ran = self.run_it("verify", before="exec 3<i;", environment={"DSAPLAN_HINTS": hints})
            self.assertEqual((ran.returncode, ran.stdout), (0, "id,lower,upper,size\nb1,0,3,4K\n"))

    def test_an_interrupt_while_a_hint_is_sought_ends_the_hint_alone(self):
        again = f"{self.work}/again"
        self.stand_in(f"echo '{MALFORMED}'; [ -e {again} ] && : >{again}s && exec sleep 60; : >{again}; exit 4")
        how = {"env": self.environment, "cwd": self.work, "start_new_session": True, "text": True}
        pipes = {"stdout": subprocess.PIPE, "stderr": subprocess.PIPE}
        with subprocess.Popen([f"{self.top}/dsaplan", "bounds", "--input", "i"], **how, **pipes) as run:
            self.wait_for(lambda: os.path.exists(f"{again}s"))
            os.killpg(run.pid, signal.SIGINT)
            said = run.communicate(timeout=10)
        self.assertEqual((run.returncode, *said), (4, f"{MALFORMED}\n", ""))

    def test_what_is_no_command_is_told_without_a_build(self):
        for words, printed, hint in [
            ([], "usage no command\n", "no command; 'dsaplan help' lists them"),
            ([""], "usage unknown command\n", "'' is no command; 'dsaplan help' lists them"),
            (["slove", "--input", "i"], "usage unknown command\n",
             "'slove' is no command; the nearest is 'solve'; 'dsaplan help' lists them"),
        ]:
            with self.subTest(words=words):
                ran = self.run_it(*words)
                self.assertEqual((ran.returncode, ran.stdout, ran.stderr), (3, printed, f"dsaplan: {hint}\n"))
                ran = self.run_it(*words, environment={"DSAPLAN_HINTS": "0"})
                self.assertEqual((ran.returncode, ran.stdout, ran.stderr), (3, printed, ""))
                for before in ("exec >&-;", "exec >/dev/full;"):
                    ran = self.run_it(*words, before=before)
                    self.assertEqual((ran.returncode, ran.stdout), (5, ""))
                self.assertEqual(self.run_without_reader(*words).returncode, 5)
        self.assertFalse(os.path.exists(self.asked), "nothing is built")

    def test_what_is_no_command_goes_to_a_program_that_is_built(self):
        self.stand_in("echo \"usage of $#\"; exit 3")
        for words in ([], ["slove"]):
            ran = self.run_it(*words)
            self.assertEqual((ran.returncode, ran.stdout), (3, f"usage of {len(words)}\n"))

    def test_words_that_are_no_text_are_the_program_s(self):
        self.write(f"{self.top}/stub", "#!/bin/sh\nexit 8\n", 0o755)
        ran = self.run_it("slove", b"\xff")
        self.assertEqual((ran.returncode, ran.stdout), (8, ""))

    @unittest.skipUnless(os.access(BUILT, os.X_OK), "the program is not built")
    def test_what_is_no_command_is_told_as_the_program_tells_it(self):
        for words in ([], [""], ["slove", "--input", "i"], ["l\u00f6se"], ["-x"], ["-n"], ["Solve"], ["solve\n"]):
            with self.subTest(words=words):
                ran, own = self.run_it(*words), subprocess.run([BUILT, *words], capture_output=True, text=True, check=False)
                self.assertEqual((ran.returncode, ran.stdout), (own.returncode, own.stdout))
        self.assertFalse(os.path.exists(self.asked), "nothing is built")

    def test_a_newer_source_is_built_again(self):
        self.stand_in("echo old")
        later = time.time() + 5
        os.utime(f"{self.top}/crates/dsaplan/src/main.rt", (later, later))
        self.write(f"{self.top}/stub", "#!/bin/sh\necho new\n", 0o755)
        self.assertEqual(self.run_it("verify").stdout, "new\n")

    def test_hints_change_neither_output_nor_status(self):
        self.stand_in(f"echo '{MALFORMED}'; exit 4")
        with_hints = self.run_it("bounds", "--input", "i")
        without = self.run_it("bounds", "--input", "i", environment={"DSAPLAN_HINTS": "0"})
        self.assertEqual((with_hints.stdout, with_hints.returncode), (without.stdout, without.returncode))
        self.assertEqual(with_hints.stdout, f"{MALFORMED}\n")
        self.assertEqual(with_hints.stderr, "dsaplan: i:2: size: '4K' is no number of 1 to 20 digits\n")
        self.assertEqual(without.stderr, "")

    def told_before(self, *words, **how):
        """What is said before the program begins with these words, which is then run all the same."""
        self.stand_in("echo begun >&2; echo right")
        self.write(f"{self.work}/i", "id,lower,upper,size\nb1,0,3,4\n")
        ran = self.run_it(*words, **how)
        self.assertEqual((ran.returncode, ran.stdout), (0, "right\n"))
        told, after = ran.stderr.split("begun\n")
        self.assertEqual(after, "")
        return [it.removeprefix("dsaplan: ") for it in told.splitlines()]

    def test_what_cannot_be_written_is_told_before_the_run(self):
        os.mkdir(f"{self.work}/g")
        for name, target in (("to_none", "none"), ("to_i", "i"), ("to_g", "g"), ("round", "round")):
            os.symlink(target, f"{self.work}/{name}")
        long = "o" * 256
        for words, told in [
            ("least --input i --output o --log l", []),
            ("least --input i --output ./g/o --log /dev/null", []),
            ("least --input i --output i --log to_i", []),
            ("least --input i --output to_none --log round", []),
            (f"least --input i --output {long[1:]} --log l", []),
            ("least --input i --output f/o --log l", ["--output: f/o lies in f, which is no folder"]),
            ("least --input i --output o --log g//i//l", ["--log: g//i//l lies in g//i, which is no folder"]),
            ("least --log i/l --output /none --input i", ["--log: i/l lies in i, which is no folder"]),
            ("least --output f/o --output g/o --log l", ["--output: f/o lies in f, which is no folder"]),
            ("least --input i --output g --log to_g", ["--output: g is a folder", "--log: to_g is a folder"]),
            (f"least --input i --output {long} --log l", [f"--output: {long} has a name that is too long"]),
            (f"least --input i --output o --log {WIDE}", [f"--log: {WIDE} has a name that is too long"]),
            ("least --input f/i --output o --log l", []),
            ("verify --capacity 4 --input i --layout f/a", []),
            ("least --output", []),
        ]:
            with self.subTest(words=words):
                self.assertEqual(self.told_before(*words.split()), told)
                self.assertEqual(self.told_before(*words.split(), environment={"DSAPLAN_HINTS": "0"}), [])

    def test_each_command_that_writes_is_warned_of(self):
        for command, (needed, optional) in self.forms().items():
            writes = [it for it in ("output", "log") if f"--{it}" in needed + optional]
            if command in ("refute", "trim", "upgrade"):
                writes.remove("log")
            with self.subTest(command=command):
                told = self.told_before(command, "--log", "f/log", "--output", "f/output")
                self.assertEqual(told, [f"--{it}: f/{it} lies in f, which is no folder" for it in writes])

    def test_a_warning_comes_before_a_build(self):
        self.write(f"{self.top}/stub", "#!/bin/sh\necho right\n", 0o755)
        ran = self.run_it("least", "--input", "i", "--output", "f/o", "--log", "l")
        self.assertEqual((ran.returncode, ran.stdout), (0, "right\n"))
        self.assertEqual(ran.stderr.splitlines()[0], "dsaplan: --output: f/o lies in f, which is no folder")

    def test_a_warning_that_nobody_reads_changes_nothing(self):
        self.stand_in("echo right")
        words = "least --input i --output f/o --log f/l".split()
        for before in ("exec 2>&-;", "exec 2>/dev/full;"):
            ran = self.run_it(*words, before=before)
            self.assertEqual((ran.returncode, ran.stdout, ran.stderr), (0, "right\n", ""))
        reader, writer = os.pipe()
        os.close(reader)
        with os.fdopen(writer, "w") as gone:
            ran = self.run_it(*words, capture_output=False, stdout=subprocess.PIPE, stderr=gone)
        self.assertEqual((ran.returncode, ran.stdout), (0, "right\n"))

    def test_want_of_leave_is_told_before_the_run(self):
        bound = ["setpriv", "--bounding-set=-dac_override,-dac_read_search"] if os.geteuid() == 0 else []
        if bound and subprocess.run([*bound, "true"], capture_output=True, check=False).returncode:
            self.skipTest("root may write everywhere")
        for name in ("g", "g/h", "full", "shut"):
            os.mkdir(f"{self.work}/{name}")
        self.write(f"{self.work}/o", "", 0o444)
        self.write(f"{self.work}/full/o", "", 0o644)
        for name, mode in (("full", 0o555), ("shut", 0o666), ("g", 0o666)):
            os.chmod(f"{self.work}/{name}", mode)
            self.addCleanup(os.chmod, f"{self.work}/{name}", 0o755)
        before = f'exec {" ".join(bound)} "$0" "$@";' if bound else ""
        for name, why in [
            ("full/o", None),
            ("o", "may not be written, for want of leave"),
            ("full/p", "may not be made: full gives no leave"),
            ("shut/o", "may not be made: shut gives no leave"),
            ("g/h/o", "lies in g/h, which may not be reached, for want of leave"),
            ("g/h/k/o", "lies in g/h/k, which may not be reached, for want of leave"),
        ]:
            with self.subTest(name=name):
                words = ["least", "--input", "i", "--output", name, "--log", "l"]
                told = [f"--output: {name} {why}"] if why else []
                self.assertEqual(self.told_before(*words, before=before), told)
                self.stand_in("echo 'unwritten --output'; exit 5")
                if why:
                    self.assertEqual(self.run_it(*words, before=before).stderr, f"dsaplan: {told[0]}\n")

    def test_a_warning_is_not_said_again_after_the_run(self):
        self.stand_in("echo 'unwritten --log'; rmdir g 2>/dev/null; exit 5")
        warned = "dsaplan: --output: f/o lies in f, which is no folder\n"
        for log, told in [
            ("f/l", [warned, "dsaplan: --log: f/l lies in f, which is no folder\n"]),
            ("/dev/full", [warned, "dsaplan: --log: /dev/full is no regular file, and took no text\n"]),
            ("g/l", [warned, "dsaplan: --log: g/l lies in g, which is no folder\n"]),
        ]:
            os.makedirs(f"{self.work}/g", exist_ok=True)
            with self.subTest(log=log):
                ran = self.run_it(*"solve --capacity 7 --input i --output f/o --log".split(), log)
                self.assertEqual((ran.returncode, ran.stdout, ran.stderr), (5, "unwritten --log\n", "".join(told)))

    def test_printing_that_failed_is_told(self):
        self.stand_in("exit 5")
        for before, why in (("exec >&-;", "is closed"), ("exec >/dev/full;", "is a device that takes no text")):
            for words in ("bounds --input i", "solve --capacity 7 --input i --output o --log l"):
                ran = self.run_it(*words.split(), before=before)
                self.assertEqual((ran.returncode, ran.stderr), (5, f"dsaplan: printing failed: standard output {why}\n"))

    def test_a_file_with_the_name_of_a_draft_is_told_before_the_run(self):
        for name in ("g", "work"):
            os.mkdir(f"{self.work}/{name}")
        os.symlink("i", f"{self.work}/to_i")
        most = "o" * 248
        for words, told in [
            ("least --input .o.part --output o --log l", [("--input", ".o.part", "--output")]),
            ("least --input ./.o.part1 --output o --log l", [("--input", "./.o.part1", "--output")]),
            ("least --input .l.part7 --output o --log l", [("--input", ".l.part7", "--log")]),
            ("least --input i --output o --log .o.part", [("--log", ".o.part", "--output")]),
            ("least --input i --output g/../.l.part --log ./l", [("--output", "g/../.l.part", "--log")]),
            ("draw --input i --layout g/.o.part --output g/o", [("--layout", "g/.o.part", "--output")]),
            ("import --trace .o.part --output o", [("--trace", ".o.part", "--output")]),
            ("trim --input .o.part2 --log .o.part --output o",
             [("--input", ".o.part2", "--output"), ("--log", ".o.part", "--output")]),
            (f"classes --input .{most}.part --output {most}", [("--input", f".{most}.part", "--output")]),
            (f"classes --input ..part3 --output {most}o", [("--input", "..part3", "--output")]),
            (f"classes --input ..part --output {most}", []),
            ("classes --input .o.part0 --output o", []),
            ("classes --input .o.part8 --output o", []),
            ("classes --input .o.part11 --output o", []),
            ("classes --input o.part --output o", []),
            ("classes --input .x.part --output *", []),
            ("classes --input g/.o.part --output o", []),
            ("classes --input .to_i.part --output to_i", []),
            ("classes --input /dev/.null.part --output /dev/null", []),
            ("trim --input .l.part --log l --output o", []),
            ("verify --capacity 4 --input .a.part --layout a", []),
        ]:
            with self.subTest(words=words):
                wanted = [f"{option}: {name} has the name of a draft of {of}, and may be taken away" for option, name, of in told]
                self.assertEqual(self.told_before(*words.split()), wanted)
                self.assertEqual(self.told_before(*words.split(), environment={"DSAPLAN_HINTS": "0"}), [])

    def test_a_misspelt_column_is_told_where_all_is_well(self):
        self.stand_in("echo 'least 4'")
        for before in ("", "\n", "\r\n\n"):
            self.write(f"{self.work}/i", f"{before}id,lower,upper,size,Alignment\nb1,0,3,4,8\n")
            ran = self.run_it("least", "--input", "i", "--output", "o", "--log", "l")
            self.assertEqual((ran.returncode, ran.stdout), (0, "least 4\n"))
            line = before.count("\n") + 1
            wanted = f"i:{line}: the column 'Alignment' is carried, and not read; 'alignment' would be"
            self.assertEqual(ran.stderr, f"dsaplan: {wanted}\n")

    def test_without_python_there_is_no_hint(self):
        self.stand_in(f"echo '{MALFORMED}'; exit 4")
        found = f"{self.work}/found"
        os.mkdir(found)
        for name in ("bash", "sh", "env", "dirname", "readlink", "find", "awk", "setpriv", "true"):
            path = shutil.which(name)
            if path:
                os.symlink(path, f"{found}/{name}")
        ran = self.run_it("bounds", "--input", "i", environment={"PATH": found})
        self.assertEqual((ran.stdout, ran.returncode, ran.stderr), (f"{MALFORMED}\n", 4, ""))

    def test_output_that_is_closed_or_full_stays_so(self):
        self.stand_in("echo right || exit 5")
        for before in ("exec >&-;", "exec >/dev/full;"):
            for hints in ("0", "1"):
                ran = self.run_it("verify", before=before, environment={"DSAPLAN_HINTS": hints})
                self.assertEqual((ran.returncode, ran.stdout), (5, ""))

    def test_standard_error_that_is_closed_or_full_changes_nothing(self):
        self.stand_in(f"echo '{MALFORMED}'; exit 4")
        for before in ("exec 2>&-;", "exec 2>/dev/full;"):
            ran = self.run_it("bounds", "--input", "i", before=before)
            self.assertEqual((ran.returncode, ran.stdout), (4, f"{MALFORMED}\n"))

    def test_standard_input_is_the_caller_s(self):
        self.stand_in("cat")
        self.assertEqual(self.run_it("verify", input="all of it").stdout, "all of it")

    def test_words_come_as_they_are(self):
        self.stand_in("printf '%s.' \"$@\"")
        self.assertEqual(self.run_it("a b", "", "*", "--input").stdout, "a b..*.--input.")

    def test_a_signal_that_ends_the_program_ends_the_launcher(self):
        for number in (signal.SIGXFSZ, signal.SIGKILL, signal.SIGTERM):
            self.stand_in(f"kill -{number.value} $$")
            for hints in ("0", "1"):
                ran = self.run_it("verify", environment={"DSAPLAN_HINTS": hints})
                self.assertEqual((ran.returncode, ran.stdout, ran.stderr), (-number.value, "", ""))

    @unittest.skipUnless(shutil.which("setpriv"), "there is no setpriv")
    def test_a_launcher_that_is_killed_takes_the_program_along(self):
        self.stand_in(f"echo $$ >{self.work}/number; exec sleep 60")
        run = subprocess.Popen([f"{self.top}/dsaplan", "verify"], env=self.environment, cwd=self.work)
        number = self.wait_for(self.number_told)
        run.kill()
        run.wait()
        self.wait_for(lambda: not os.path.exists(f"/proc/{number}") or self.is_dead(number))

    def number_told(self):
        with open(f"{self.work}/number", encoding="utf-8") as file:
            return file.read().strip()

    def is_dead(self, number):
        with open(f"/proc/{number}/stat", encoding="utf-8") as file:
            return file.read().split()[2] == "Z"

    def wait_for(self, test):
        for _ in range(200):
            try:
                found = test()
            except OSError:
                found = None
            if found:
                return found
            time.sleep(0.05)
        self.fail("it did not come")


if __name__ == "__main__":
    unittest.main()
