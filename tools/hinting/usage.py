"""Faults of words."""

from .commands import NUMBERS, needed_options, options_of_commands
from .texts import MOST_BUFFERS, WORD_LIMIT, nearest, shown, why_no_number


def word_hint(words):
    """That there is no command, and which is nearest to a word that is none."""
    if not words:
        return "no command; 'dsaplan help' lists them"
    near = nearest(words[0], options_of_commands())
    instead = f"; the nearest is {shown(near)}" if near else ""
    return f"{shown(words[0])} is no command{instead}; 'dsaplan help' lists them"


def option_hint(word, options):
    """What may be meant by a word that is no option: one with its value, or another one, by the letters after the dashes."""
    if word.partition("=")[0] in options:
        return "; an option and its value are two words"
    near = nearest(word.lstrip("-"), [it.lstrip("-") for it in options])
    return f"; the nearest is --{near}" if near else ""


def usage_hint(call, fault):
    """What is wrong with the words of a command, by the fault that the program prints."""
    words, options = call.words, options_of_commands()
    more = f"; see 'dsaplan help {call.command}'"
    if fault == "same name":
        names = [it for it in call.reads() + call.writes()]
        one, other = next((a, b) for k, a in enumerate(names) for b in names[:k] if a[1] == b[1])
        return f"{other[0]} and {one[0]} both name {shown(one[1])}"
    kind, _, place = fault.rpartition(" ")
    if kind == "missing":
        return f"{call.command} needs {' '.join(it for it in needed_options(call.command) if it == place)}{more}"
    word = words[int(place)]
    if kind == "unknown option":
        return f"{shown(word)} is no option of {call.command}{option_hint(word, options[call.command])}{more}"
    if kind == "repeated option":
        return f"{word} stands twice"
    if kind == "missing value":
        return f"{word} is the last word, and has no value"
    value = words[int(place) + 1]
    why = why_no_number(value.encode(), WORD_LIMIT) if word in NUMBERS else "is no name of a file"
    return f"{word}: {shown(value)} {why}"


def count_hint(fault):
    """A trial of too many buffers."""
    return f"--count: '{fault}' is above {MOST_BUFFERS}, the most buffers of an instance"
