"""The commands and their options, as tools/help.txt has them."""

import os
import re

HELP = os.path.join(os.path.dirname(os.path.dirname(os.path.abspath(__file__))), "help.txt")
NUMBERS = ("--capacity", "--steps", "--seed", "--count", "--period")
# The options of files that are read, in the order in which they are.
READS = ("--trace", "--input", "--layout", "--log")
WRITES = ("--output", "--log")
READS_LOG = ("refute", "trim", "upgrade")


def options_of_commands():
    """The options of each command, those that may be left out among them."""
    with open(HELP, encoding="utf-8") as text:
        lines = re.findall(r"^dsaplan ([a-z]+) (--.*)$", text.read(), re.M)
    return {command: re.findall(r"--[a-z]+", options) for command, options in lines}


def needed_options(command):
    """The options that a command needs, in the order in which they are missed."""
    with open(HELP, encoding="utf-8") as text:
        options = re.search(rf"^dsaplan {command} (--.*)$", text.read(), re.M)[1]
    return re.findall(r"--[a-z]+", re.sub(r"\[.*?\]", "", options))


class Call:
    """A command with the values of its options, as far as the words give them."""

    def __init__(self, words):
        self.words = words
        self.command = words[0] if words else ""
        self.values = dict(reversed(list(zip(words[1::2], words[2::2]))))

    def reads(self):
        """The files that the command reads, by option, in order."""
        kept = [it for it in READS if it != "--log" or self.command in READS_LOG]
        return [(it, self.values[it]) for it in kept if it in self.values]

    def writes(self):
        """The files that the command writes, by option, in order."""
        kept = [it for it in WRITES if it != "--log" or self.command not in READS_LOG]
        return [(it, self.values[it]) for it in kept if it in self.values]

    def asking(self, status):
        """Words that give the same fault and write nothing, or none where there are none."""
        given = self.values
        if status == 3:
            return self.words
        if status == 4 and self.command in ("import", "unroll", "classes"):
            values = {**given, "--output": "/dev/null"}
            return [self.command, *(word for pair in values.items() for word in pair)]
        if status == 4:
            return ["bounds", "--input", given["--input"]]
        if status == 1 and self.command in ("verify", "report", "draw"):
            verb = "verify" if self.command == "verify" else "report"
            kept = ["--capacity", "--input", "--layout"]
            return [verb, *(word for it in kept if it in given for word in (it, given[it]))]
        if status == 1 and self.command in READS_LOG:
            return ["refute", "--input", given["--input"], "--log", given["--log"]]
        return None
