"""A hint for each fault that the program prints. A stub stands for the program: it prints the line of the case and ends
with its status. Where the program is built, it must print that line itself."""

import builtins
import errno
import glob
import os
import re
import socket
import stat
import subprocess
import sys
import tempfile
import unittest
from unittest import mock

TOOLS = os.path.dirname(os.path.dirname(os.path.abspath(__file__)))
TOP = os.path.dirname(TOOLS)
BUILT = f"{TOP}/crates/dsaplan/out/dsaplan"
sys.path.insert(0, TOOLS)

from hinting import answers  # noqa: E402 (it lies beside the tests' folder)

HEAD = "id,lower,upper,size,alignment,gaps\n"
TWO = "id,lower,upper,size\nb1,0,3,4\nb2,2,9,4\n"
LOG = "dsalog 1 2 7\nover 2 0 1 : 0=0 1=0\nend 0\n"
BOUNDS = "bounds --input i"
VERIFY = "verify --capacity 8 --input i --layout a"
REFUTE = "refute --input i --log l"
IMPORT = "import --trace t --output o"
LONG = "i" * 300
# 256 bytes
WIDE = "\u00f6" * 128
SOLVE = "solve --capacity 7 --input i"
CLASSES = "classes --input i --output o"
UNROLL = "unroll --period 10 --input i --output o"


class Link(str):
    """What a symbolic link says."""


def without_leave(name):
    """Stands for open where one file may not be read, which holds of no file for root."""
    taken = builtins.open

    def refuse(file, *words, **how):
        if file == name:
            raise PermissionError(errno.EACCES, os.strerror(errno.EACCES), file)
        return taken(file, *words, **how)

    return mock.patch("builtins.open", refuse)


def row(text):
    """An instance whose second row, on line 4, is this."""
    return {"i": HEAD + "b0,0,5,1,,\n\n" + text + "\n"}


def lowest(text):
    return {"i": f"id,lower,upper,size,lowest\n{text}\n"}


def layout(text, instance=TWO):
    return {"i": instance, "a": text}


def log(text, instance=TWO):
    return {"i": instance, "l": text}


# What lies there, the words, the status, the printed line, and the hint.
CASES = [
    # words
    ({}, "", 3, "usage no command", "no command; 'dsaplan help' lists them"),
    ({}, "slove --input i", 3, "usage unknown command",
     "'slove' is no command; the nearest is 'solve'; 'dsaplan help' lists them"),
    ({}, "plan", 3, "usage unknown command", "'plan' is no command; 'dsaplan help' lists them"),
    ({}, "nope", 3, "usage unknown command", "'nope' is no command; 'dsaplan help' lists them"),
    ({}, "cora", 3, "usage unknown command", "'cora' is no command; the nearest is 'core'; 'dsaplan help' lists them"),
    ({}, "insp", 3, "usage unknown command", "'insp' is no command; the nearest is 'inspect'; 'dsaplan help' lists them"),
    ({}, "x", 3, "usage unknown command", "'x' is no command; 'dsaplan help' lists them"),
    ({}, "bounds --inptu i", 3, "usage unknown option 1",
     "'--inptu' is no option of bounds; the nearest is --input; see 'dsaplan help bounds'"),
    ({}, "pack -input i", 3, "usage unknown option 1",
     "'-input' is no option of pack; the nearest is --input; see 'dsaplan help pack'"),
    ({}, "pack --cap 4", 3, "usage unknown option 1",
     "'--cap' is no option of pack; the nearest is --capacity; see 'dsaplan help pack'"),
    ({}, "pack -o x", 3, "usage unknown option 1", "'-o' is no option of pack; see 'dsaplan help pack'"),
    ({}, "pack -lg x", 3, "usage unknown option 1",
     "'-lg' is no option of pack; the nearest is --log; see 'dsaplan help pack'"),
    ({}, "pack x", 3, "usage unknown option 1", "'x' is no option of pack; see 'dsaplan help pack'"),
    ({}, "verify --output o", 3, "usage unknown option 1", "'--output' is no option of verify; see 'dsaplan help verify'"),
    ({}, "bounds --input=mine.csv", 3, "usage unknown option 1",
     "'--input=mine.csv' is no option of bounds; an option and its value are two words; see 'dsaplan help bounds'"),
    ({}, "pack --steps=20", 3, "usage unknown option 1",
     "'--steps=20' is no option of pack; an option and its value are two words; see 'dsaplan help pack'"),
    ({}, "bounds --input i --input i", 3, "usage repeated option 3", "--input stands twice"),
    ({}, "bounds --input", 3, "usage missing value 1", "--input is the last word, and has no value"),
    ({}, "verify --capacity 4K --input i --layout a", 3, "usage bad value 1",
     "--capacity: '4K' is no number of 1 to 20 digits"),
    ({}, "verify --capacity 1152921504606846977 --input i --layout a", 3, "usage bad value 1",
     "--capacity: '1152921504606846977' is above 2^60"),
    ({}, ["bounds", "--input", ""], 3, "usage bad value 1", "--input: '' is no name of a file"),
    ({}, "least --input i --output o", 3, "usage missing --log", "least needs --log; see 'dsaplan help least'"),
    ({}, "least --input i --output o --log o", 3, "usage same name", "--output and --log both name 'o'"),
    ({}, "trial --seed 1 --count 4097 --steps 1", 3, "too many 4097",
     "--count: '4097' is above 4096, the most buffers of an instance"),
    # headers of instances
    ({"i": "\n"}, BOUNDS, 4, "malformed no header", "i: has no record; the first line is to be id,lower,upper,size"),
    ({"i": "\ufeff\ufeffid,lower,upper,size\n"}, BOUNDS, 4, "malformed marked header",
     "i:1: '\\ufeffid' begins with a second byte order mark; take it off"),
    ({"i": "\"\ufeffnote\",id,lower,upper,size\n"}, BOUNDS, 4, "malformed marked header",
     "i:1: '\\ufeffnote' begins with a byte order mark; take it off"),
    ({"i": "\n\ufeffid,lower,upper,size\n"}, BOUNDS, 4, "malformed marked header",
     "i:2: '\\ufeffid' begins with a byte order mark; take it off"),
    ({"i": "\nid,lower,upper,size,lower\n"}, BOUNDS, 4, "malformed duplicate column lower",
     "i:2: lower: the columns 2 and 5 both have this name"),
    ({"i": "id,lower,upper,size,offset\n"}, BOUNDS, 4, "malformed offset column",
     "i:1: 'offset': a file with offsets is a layout and no instance; take the column off"),
    ({"i": "id,lower,upper,sizes\n"}, BOUNDS, 4, "malformed missing column size",
     ["i:1: the column 'sizes' is carried, and not read; 'size' would be",
      "i:1: no column has the name size; 'sizes' is another name"]),
    ({"i": "id,lower,upper,bytes\n"}, BOUNDS, 4, "malformed missing column size", "i:1: no column has the name size"),
    ({"i": "id;lower;upper;size\n"}, BOUNDS, 4, "malformed missing column id",
     "i:1: no column has the name id; the first line is to be id,lower,upper,size"),
    # rows of instances
    ({"i": "id,lower,upper,size\n" + "".join(f"b{k},0,1,1\n" for k in range(4097))}, BOUNDS, 4,
     "malformed too many buffers", "i:4098: one buffer more than 4096"),
    (row("b1,0,1"), BOUNDS, 4, "malformed row 1 field count", "i:4: 3 fields, where the header has 6"),
    (row('b1,0,1,1,,"0-1'), BOUNDS, 4, "malformed row 1 bad gap",
     "i:4: gaps: '0-1\\n': '0-1\\n' is no gap as 4-6, and there is one space between two"),
    (row('"b1,0,1'), BOUNDS, 4, "malformed row 1 field count",
     "i:4: 1 field, where the header has 6 (a quote is not closed)"),
    (row(",0,1,1,,"), BOUNDS, 4, "malformed row 1 empty id",
     "i:4: id: '' is empty: an identifier has 1 to 255 bytes"),
    (row("b" * 256 + ",0,1,1,,"), BOUNDS, 4, "malformed row 1 id too long",
     f"i:4: id: '{'b' * 60}..' has more than 255 bytes"),
    (row("b0,0,1,1,,"), BOUNDS, 4, "malformed row 1 duplicate id 0", "i:4: id: 'b0' stands on line 2 too"),
    (row("b1,0,1,4K,,"), BOUNDS, 4, "malformed row 1 bad number size",
     "i:4: size: '4K' is no number of 1 to 20 digits"),
    (row("b1,0,4611686018427387904,1,,"), BOUNDS, 4, "malformed row 1 bad number upper",
     "i:4: upper: '4611686018427387904' is above 2^62 - 1"),
    (row('"b\n1",0,1,4K,,'), BOUNDS, 4, "malformed row 1 bad number size",
     "i:5: size: '4K' is no number of 1 to 20 digits"),
    (row("b1,0,9,1,,4-6  7-8"), BOUNDS, 4, "malformed row 1 bad gap",
     "i:4: gaps: '4-6  7-8': '' is no gap as 4-6, and there is one space between two"),
    (row("b1,0,9,1,,1-2 3-4611686018427387904"), BOUNDS, 4, "malformed row 1 bad gap",
     "i:4: gaps: '1-2 3-4611686018427387904': '3-4611686018427387904' has a number above 2^62 - 1"),
    (row("b1,5,5,1,,"), BOUNDS, 4, "malformed row 1 empty lifetime", "i:4: upper: '5' is not above lower, '5'"),
    (row("b1,0,1,0,,"), BOUNDS, 4, "malformed row 1 zero size", "i:4: size: '0' is no size of 1 to 2^40"),
    (row("b1,0,1,1099511627777,,"), BOUNDS, 4, "malformed row 1 too large", "i:4: size: '1099511627777' is above 2^40"),
    (row("b1,0,1,1,0,"), BOUNDS, 4, "malformed row 1 zero alignment",
     "i:4: alignment: '0' is no alignment of 1 to 2^32"),
    (row("b1,0,1,1,4294967297,"), BOUNDS, 4, "malformed row 1 alignment too large",
     "i:4: alignment: '4294967297' is above 2^32"),
    (row("b1,0,9,1,,1-2 4-4"), BOUNDS, 4, "malformed row 1 gap 1 empty",
     "i:4: gaps: '4-4' does not end after it begins"),
    (row("b1,0,9,1,,8-10"), BOUNDS, 4, "malformed row 1 gap 0 outside",
     "i:4: gaps: '8-10' is not within the lifetime 0-9"),
    (row("b1,0,199,1,," + " ".join(f"{k}-{k + 1}" for k in range(1, 130, 2))), BOUNDS, 4,
     "malformed row 1 too many gaps",
     f"i:4: gaps: '{' '.join(f'{k}-{k + 1}' for k in range(1, 130, 2))[:60]}..' has more than 64 gaps"),
    (row("b1,0,9,1,,0-9"), BOUNDS, 4, "malformed row 1 never live",
     "i:4: gaps: '0-9' leaves no moment of the lifetime"),
    (lowest("b1,0,1,4,1099511627777"), BOUNDS, 4, "malformed row 0 lowest too large",
     "i:2: lowest: '1099511627777' is above 2^40"),
    (lowest("b1,0,1,4,4K"), BOUNDS, 4, "malformed row 0 bad number lowest",
     "i:2: lowest: '4K' is no number of 1 to 20 digits"),
    ({**row("b1,0,1,4K,,"), "a": ""}, VERIFY, 4, "malformed row 1 bad number size",
     "i:4: size: '4K' is no number of 1 to 20 digits"),
    # plans by size class
    (row("b1,0,9,1,4,"), "classes --input i --output o", 4, "not plain 1",
     "i:4: alignment: '4': classes takes no alignment above 1"),
    (row("b1,0,9,1,,2-3"), "classes --input i --output o", 4, "not plain 1",
     "i:4: gaps: '2-3': classes takes no gaps"),
    (lowest("b1,0,1,4,6"), "classes --input i --output o", 4, "not plain 0",
     "i:2: lowest: '6': classes takes no lowest above 0"),
    # rows with a period
    (row("b1,10,3,1,,"), UNROLL, 4, "cycle row 1 outside", "i:4: lower: '10' is not below the period, 10"),
    (row("b1,0,11,1,,"), UNROLL, 4, "cycle row 1 outside", "i:4: upper: '11' is above the period, 10"),
    (row("b1,8,2,1,,9-11"), UNROLL, 4, "cycle row 1 gap 0 outside", "i:4: gaps: '9-11' is not within the period, 0-10"),
    (row("b1,8,2,1,,8-9" + " 0-1" * 63), UNROLL, 4, "cycle row 1 too many gaps",
     f"i:4: gaps: '{('8-9' + ' 0-1' * 63)[:60]}..' has 64 gaps, and going round the end adds one"),
    (row("b1,8,3,1,,9-1"), UNROLL, 4, "cycle row 1 gap 0 empty",
     "i:4: gaps: '9-1' does not end after it begins; a gap round the end of the period is written as two, as 9-10 0-1"),
    (row("b1,8,3,1,,8-9 9-0"), UNROLL, 4, "cycle row 1 gap 1 empty",
     "i:4: gaps: '9-0' does not end after it begins; a gap up to the end of the period is written as 9-10"),
    (row("b1,8,3,1,,9-9"), UNROLL, 4, "cycle row 1 gap 0 empty", "i:4: gaps: '9-9' does not end after it begins"),
    (row("b1,8,3,1,,11-1"), UNROLL, 4, "cycle row 1 gap 0 empty", "i:4: gaps: '11-1' does not end after it begins"),
    (row("b1,0,4K,1,,"), UNROLL, 4, "cycle row 1 bad number upper",
     "i:4: upper: '4K' is no number of 1 to 20 digits"),
    (row("b1,0,3,0,,"), UNROLL, 4, "cycle row 1 zero size", "i:4: size: '0' is no size of 1 to 2^40"),
    # layout files
    (layout("\n"), VERIFY, 1, "wrong no header", "a: has no record; the first line is to be id,offset"),
    (layout("id,offset,id\n"), VERIFY, 1, "wrong duplicate column id",
     "a:1: id: the columns 1 and 3 both have this name"),
    (layout("id,offsets\n"), VERIFY, 1, "wrong missing column offset",
     "a:1: no column has the name offset; 'offsets' is another name"),
    (layout("\ufeff\ufeffid,offset\n"), VERIFY, 1, "wrong missing column id",
     "a:1: '\\ufeffid' begins with a second byte order mark; take it off"),
    (layout("\"\ufeffid\",offset\n"), VERIFY, 1, "wrong missing column id",
     "a:1: '\\ufeffid' begins with a byte order mark; take it off"),
    (layout("\ufeff\ufeffname,offset\n"), VERIFY, 1, "wrong missing column id", "a:1: no column has the name id"),
    (layout("id,offset\nb1\n"), VERIFY, 1, "wrong row 0 field count", "a:2: 1 field, where the header has 2"),
    (layout("id,offset\nb3,0\n"), VERIFY, 1, "wrong row 0 unknown id", "a:2: id: 'b3' is no buffer of the input"),
    (layout("id,offset\nb1,0\nb1,4\n"), VERIFY, 1, "wrong row 1 duplicate id 0",
     "a:3: id: 'b1' stands on line 2 too"),
    (layout("id,offset\nb1,-4\n"), VERIFY, 1, "wrong row 0 bad number offset",
     "a:2: offset: '-4' is no number of 1 to 20 digits"),
    (layout("id,offset\nb1,1152921504606846977\n"), VERIFY, 1, "wrong row 0 bad number offset",
     "a:2: offset: '1152921504606846977' is above 2^60"),
    (layout("id,offset\nb1,0\n"), VERIFY, 1, "wrong missing id 1", "a: no row has the id 'b2'"),
    (layout("id,offset\nb0,0\nb1,3\n", row("b1,0,1,1,2,")["i"]), VERIFY, 1, "wrong unaligned 1",
     "a:3: offset: '3' is no multiple of the alignment of 'b1', 2"),
    (layout("id,offset\nb1,5\n", lowest("b1,0,1,4,6")["i"]), VERIFY, 1, "wrong too low 0",
     "a:2: offset: '5' is too low: 'b1' may not stand below 6"),
    (layout("id,offset\nb2,5\nb1,0\n"), VERIFY, 1, "wrong above 1",
     "a:2: offset: '5' is too high: 'b2' ends at 9, above 8"),
    (layout("id,offset\nb2,2\nb1,0\n"), VERIFY, 1, "wrong overlap 0 1 2",
     "a:3: offset: 'b1' at 0-4 and 'b2' at 2-6 of line 2 share bytes at moment 2"),
    (layout("id,offset\nb2,2\nb1,0\n"), "report --input i --layout a", 1, "wrong overlap 0 1 2",
     "a:3: offset: 'b1' at 0-4 and 'b2' at 2-6 of line 2 share bytes at moment 2"),
    (layout("id,offset\nb2,2\nb1,0\n"), "draw --input i --layout a --output p", 1, "wrong overlap 0 1 2",
     "a:3: offset: 'b1' at 0-4 and 'b2' at 2-6 of line 2 share bytes at moment 2"),
    # logs
    (log(""), REFUTE, 1, "refused not a log", "l: has no line; the first is to be 'dsalog 1 COUNT CAPACITY'"),
    (log("dsalog 1 2\n"), REFUTE, 1, "refused not a log",
     "l:1: 'dsalog 1 2' is no header, as 'dsalog 1 COUNT CAPACITY'"),
    (log("dsalog 1 2 7"), REFUTE, 1, "refused not a log", "l:1: 'dsalog 1 2 7' has no end of line"),
    (log("dsalog 1 2 1152921504606846977\n"), REFUTE, 1, "refused not a log",
     "l:1: 'dsalog 1 2 1152921504606846977' has a number above 2^60"),
    (log("dsalog 1 2 1152921504606846976\n"), REFUTE, 1, "refused no end", "l:1: the file ends without a line 'end K'"),
    (log("dsalog 18446744073709551616 2 7\n"), REFUTE, 1, "refused not a log",
     "l:1: 'dsalog 18446744073709551616 2 7' has a number above 2^64 - 1"),
    (log(f"dsalog 1 2 {'9' * 5000}\n"), REFUTE, 1, "refused not a log",
     f"l:1: 'dsalog 1 2 {'9' * 49}..' has a number above 2^60"),
    (log("dsalog 1 02 7\n"), REFUTE, 1, "refused not a log", "l:1: 'dsalog 1 02 7' has a number that begins with 0"),
    (log("dsalog 1  2 7\n"), REFUTE, 1, "refused not a log",
     "l:1: 'dsalog 1  2 7' is no header, as 'dsalog 1 COUNT CAPACITY'"),
    (log("dsalog 3 2 7\nend 0\n"), REFUTE, 1, "refused version 3", "l:1: 'dsalog 3 2 7' has a version that is not read"),
    (log(LOG[:-6]), REFUTE, 1, "refused no end", "l:2: the file ends without a line 'end K'"),
    (log(LOG.replace("over", "under")), REFUTE, 1, "refused bad line 0",
     "l:2: 'under 2 0 1 : 0=0 1=0' has the form of no line and of no end"),
    (log(LOG[:-1]), REFUTE, 1, "refused bad line 1", "l:3: 'end 0' has no end of line"),
    (log(LOG.replace("0=0", "0=1152921504606846977")), REFUTE, 1, "refused number too large 0",
     "l:2: 'over 2 0 1 : 0=1152921504606846977 1=0' has a number above its limit"),
    (log(LOG.replace("0=0 1=0", "1=0 0=0")), REFUTE, 1, "refused not rising 0",
     "l:2: 'over 2 0 1 : 1=0 0=0' has buffers that do not rise"),
    (log(LOG + "end 0\n"), REFUTE, 1, "refused after end", "l:4: 'end 0' comes after the end"),
    (log(LOG.replace("1 2 7", "1 3 7")), REFUTE, 1, "refused count 3 2", "l:1: 'dsalog 1 3 7' is of 3 buffers, where i has 2"),
    (log(LOG.replace("1=0", "5=0")), REFUTE, 1, "refused line 0 buffer range 5",
     "l:2: 'over 2 0 1 : 0=0 5=0': buffer 5: the claim names a buffer that the input does not have"),
    (log(LOG.replace("2 0 1", "2 0 0")), REFUTE, 1, "refused line 0 zero modulus",
     "l:2: 'over 2 0 0 : 0=0 1=0': the modulus is 0"),
    (log(LOG.replace("2 0 1", "2 3 2")), REFUTE, 1, "refused line 0 not multiple",
     "l:2: 'over 2 3 2 : 0=0 1=0': the height is no multiple of the modulus"),
    (log(LOG.replace("2 0 1", "9 0 1")), REFUTE, 1, "refused line 0 empty set",
     "l:2: 'over 9 0 1 : 0=0 1=0': no buffer of the claim is stacked at this moment from this height on"),
    (log(LOG.replace("2 7", "2 8")), REFUTE, 1, "refused line 0 not over",
     "l:2: 'over 2 0 1 : 0=0 1=0': what is stacked does not pass the capacity"),
    (log(LOG.replace("end 0", "case : 0=0 1=0 : 0>0\nend 1")), REFUTE, 1, "refused line 1 cites differ",
     "l:3: 'case : 0=0 1=0 : 0>0': the cites are not of just the buffers of the claim"),
    (log(LOG.replace("end 0", "case : 0=0 1=0 : 0>1 1>0\nend 1")), REFUTE, 1, "refused line 1 not earlier 0",
     "l:3: 'case : 0=0 1=0 : 0>1 1>0': buffer 0, 'b1': the line that is cited for it does not stand before this one"),
    (log(LOG.replace("end 0", "case : 0=0 1=0 : 0>0 1>0\nend 1")), REFUTE, 1, "refused line 1 not covered 0",
     "l:3: 'case : 0=0 1=0 : 0>0 1>0': buffer 0, 'b1': the line that is cited for it does not cover what is left where"
     " it comes first"),
    (log(LOG.replace("end 0", "case : 0=0 1=0 : 0<1 1<0\nend 1")), REFUTE, 1, "refused line 1 not below 0",
     "l:3: 'case : 0=0 1=0 : 0<1 1<0': buffer 0, 'b1': the buffer that is cited for it is not in the claim, or does not"
     " end below it"),
    (log(LOG.replace("end 0", "case : 0=0 1=0 : 0~1 1~0\nend 1")), REFUTE, 1, "refused line 1 not twin 0",
     "l:3: 'case : 0=0 1=0 : 0~1 1~0': buffer 0, 'b1': the buffer that is cited for it is not in the claim, or is no"
     " twin before it"),
    (log(LOG.replace("end 0", "end 1")), REFUTE, 1, "refused end 1", "l:3: 'end 1' names line 1, which is not there"),
    (log(LOG.replace("0=0", "0=1")), "trim --input i --log l --output o", 1, "refused end 0 bound 0",
     "l:3: 'end 0' names line 0, whose claim has a bound above the floor of buffer 0, 'b1'"),
    (log("dsalog 2 2 7\nover 2 0 1 : 0=0 1=0\nover 2 0 1 : @5\nend 0\n"), "upgrade --input i --log l --output o", 1,
     "refused bad base 1", "l:3: 'over 2 0 1 : @5' names a base that is no earlier line"),
    (log("dsalog 2 2 7\nover 2 0 1 : 0=0 1=0\nover 2 0 1 : @0 -7\nend 0\n"), REFUTE, 1, "refused bad change 1",
     "l:3: 'over 2 0 1 : @0 -7' has changes that its base does not allow"),
    # traces
    ({"t": "alloc a 4\n"}, IMPORT, 4, "trace bad line 0",
     "t:1: 'alloc a 4' is neither 'alloc ID SIZE ALIGNMENT' nor 'free ID'"),
    ({"t": "alloc a 4 1"}, IMPORT, 4, "trace bad line 0", "t:1: 'alloc a 4 1' has no end of line"),
    ({"t": "alloc a 0 1\n"}, IMPORT, 4, "trace bad size 0", "t:1: 'alloc a 0 1' has a size that is not 1 to 2^40"),
    ({"t": "alloc a 1 0\n"}, IMPORT, 4, "trace bad alignment 0",
     "t:1: 'alloc a 1 0' has an alignment that is not 1 to 2^32"),
    ({"t": "alloc a 1 1\nalloc a 1 1\n"}, IMPORT, 4, "trace still live 1 0",
     "t:2: 'alloc a 1 1' allocates what line 1 holds"),
    ({"t": "free a\n"}, IMPORT, 4, "trace not live 0", "t:1: 'free a' frees what is not live"),
    ({"t": "".join(f"alloc {k} 1 1\n" for k in range(4097))}, IMPORT, 4, "trace too many buffers 4096",
     "t:4097: 'alloc 4096 1 1' allocates one buffer more than an instance may have"),
    # files
    ({}, BOUNDS, 5, "unread --input", "--input: i is missing"),
    ({"i": None}, BOUNDS, 5, "unread --input", "--input: i is a folder"),
    ({"i": ""}, "bounds --input i/j", 5, "unread --input", "--input: i/j lies below what is no folder"),
    ({"i": Link("i")}, BOUNDS, 5, "unread --input", "--input: i is a link that leads to itself"),
    ({}, f"bounds --input {LONG}", 5, "unread --input", f"--input: {LONG} has a name that is too long"),
    ({"i": TWO}, VERIFY, 5, "unread --layout", "--layout: a is missing"),
    ({"i": TWO}, REFUTE, 5, "unread --log", "--log: l is missing"),
    ({}, IMPORT, 5, "unread --trace", "--trace: t is missing"),
    ({"i": TWO, "o": None}, "least --input i --output o --log l", 5, "unwritten --output", "--output: o is a folder"),
    ({"i": TWO}, "least --input i --output o --log f/l", 5, "unwritten --log",
     "--log: f/l lies in f, which is no folder"),
    ({"i": TWO}, "least --input i --output f/o --log f/l", 5, "unwritten --output",
     "--output: f/o lies in f, which is no folder"),
    ({"i": TWO}, f"{SOLVE} --output f/o --log f/l", 5, "unwritten --log",
     ["--output: f/o lies in f, which is no folder", "--log: f/l lies in f, which is no folder"]),
    ({"i": TWO}, f"{SOLVE.replace('7', '8')} --output f/o --log f/l", 5, "unwritten --output",
     ["--output: f/o lies in f, which is no folder", "--log: f/l lies in f, which is no folder"]),
    ({"i": TWO}, f"{SOLVE} --output f/o --log /dev/full", 5, "unwritten --log",
     ["--output: f/o lies in f, which is no folder", "--log: /dev/full is no regular file, and took no text"]),
    ({"i": TWO}, f"{SOLVE.replace('7', '8')} --output f/o --log /dev/null", 5, "unwritten --output",
     "--output: f/o lies in f, which is no folder"),
    ({"i": TWO}, f"{SOLVE.replace('solve', 'core')} --output f/o --log f/l", 5, "unwritten --output",
     ["--output: f/o lies in f, which is no folder", "--log: f/l lies in f, which is no folder"]),
    ({"i": TWO}, f"{SOLVE.replace('solve', 'pack')} --steps 9 --output f/o --log f/l", 5, "unwritten --log",
     ["--output: f/o lies in f, which is no folder", "--log: f/l lies in f, which is no folder"]),
    ({"i": TWO}, f"classes --input i --output {'o' * 256}", 5, "unwritten --output",
     f"--output: {'o' * 256} has a name that is too long"),
    ({"i": TWO}, f"classes --input i --output {WIDE}", 5, "unwritten --output",
     f"--output: {WIDE} has a name that is too long"),
    ({"i": TWO}, "classes --input i --output /dev/full", 5, "unwritten --output",
     "--output: /dev/full is no regular file, and took no text"),
    ({"i": TWO, "o": Link("f/o")}, CLASSES, 5, "unwritten --output", "--output: o lies in WORK/f, which is no folder"),
    ({"i": TWO, "o": Link("o")}, CLASSES, 5, "unwritten --output", "--output: o is a link that leads to itself"),
    ({"i": TWO, "o": Link("p"), "p": Link("o")}, CLASSES, 5, "unwritten --output",
     "--output: o is a link that leads to itself"),
    ({"i": 67108865}, BOUNDS, 7, "too long --input", "--input: i has 67108865 bytes, where 67108864 are the most"),
    ({"i": TWO, "a": 67108865}, VERIFY, 7, "too long --layout",
     "--layout: a has 67108865 bytes, where 67108864 are the most"),
    ({"i": TWO, "l": 2**40 + 1}, REFUTE, 7, "too long --log",
     "--log: l has 1099511627777 bytes, where 1099511627776 are the most"),
    ({"t": 67108865}, IMPORT, 7, "too long --trace", "--trace: t has 67108865 bytes, where 67108864 are the most"),
    # what prints nothing
    ({"i": TWO}, BOUNDS, 6, "", "memory ran out"),
    ({"i": TWO}, BOUNDS, 8, "", "the words are no UTF-8, or memory ran out while they were taken"),
]

NO_REASON = "the system refused a read or a write; the disk may be too small for the text, or standard output took none"
# A word of the program's texts that no run prints: no log that was read has such a claim.
NEVER = {"empty claim"}
# What the program would read for minutes before it says so.
SLOW = {"too long --log"}


class Hints(unittest.TestCase):
    def setUp(self):
        self.folder = tempfile.TemporaryDirectory()
        self.addCleanup(self.folder.cleanup)
        self.work = f"{self.folder.name}/work"
        os.mkdir(self.work)

    def lay(self, files):
        for name, text in files.items():
            path = f"{self.work}/{name}"
            if text is None:
                os.mkdir(path)
            elif isinstance(text, Link):
                os.symlink(text, path)
            elif isinstance(text, int):
                with open(path, "wb") as file:
                    file.truncate(text)
            else:
                with open(path, "w", encoding="utf-8", newline="") as file:
                    file.write(text)

    def stub(self, line, status):
        path = f"{self.folder.name}/stub"
        with open(path, "w", encoding="utf-8") as file:
            file.write(f"#!/bin/sh\necho \"$@\" >>{self.folder.name}/asked\nprintf '%s\\n' '{line}'\nexit {status}\n")
        os.chmod(path, 0o755)
        return path

    def hints(self, program, status, words, printed_to=subprocess.DEVNULL):
        how = {"cwd": self.work, "stdin": printed_to, "capture_output": True, "text": True, "check": False}
        ran = subprocess.run([f"{TOOLS}/hints", program, str(status), *words], **how)
        self.assertEqual(ran.stderr, "")
        return ran.stdout.splitlines()

    def asked(self):
        path = f"{self.folder.name}/asked"
        if not os.path.exists(path):
            return ""
        with open(path, encoding="utf-8") as file:
            return file.read()

    def left(self):
        return sorted(os.listdir(self.work))

    def test_each_fault_has_its_hint(self):
        for files, words, status, line, hint in CASES:
            words = words.split() if isinstance(words, str) else words
            with self.subTest(line=line, words=words):
                self.setUp()
                self.lay(files)
                before = self.left()
                hint = [hint] if isinstance(hint, str) else hint
                wanted = [f"dsaplan: {it}".replace("WORK", os.path.realpath(self.work)) for it in hint]
                self.assertEqual(self.hints(self.stub(line, status), status, words), wanted)
                self.assertEqual(self.left(), before)

    @unittest.skipUnless(os.access(BUILT, os.X_OK), "the program is not built")
    def test_the_program_prints_these_faults(self):
        for files, words, status, line, _ in CASES:
            words = words.split() if isinstance(words, str) else words
            if not line or line in SLOW:
                continue
            with self.subTest(line=line, words=words):
                self.setUp()
                self.lay(files)
                how = {"cwd": self.work, "capture_output": True, "text": True, "check": False}
                ran = subprocess.run([BUILT, *words], **how)
                self.assertEqual((ran.stdout, ran.returncode), (f"{line}\n", status))

    def test_no_fault_is_left_out(self):
        said = "\n".join(case[3] for case in CASES)
        for path in glob.glob(f"{TOP}/crates/*/specs/*Texts.antt"):
            if os.path.basename(path) not in ("FaultTexts.antt", "ReasonTexts.antt"):
                continue
            with open(path, encoding="utf-8") as file:
                for word in re.findall(r'codes "([a-z ]+)"', file.read()):
                    if word.strip() not in NEVER and word.strip() not in ("row", "gap", "line", "outside"):
                        with self.subTest(path=path, word=word):
                            self.assertRegex(said, rf"\b{word.strip()}\b")

    def test_a_file_without_leave_is_told(self):
        self.lay({"i": TWO, "a": "", "l": "", "t": ""})
        self.addCleanup(os.chdir, os.getcwd())
        os.chdir(self.work)
        for words, option, name in [
            (BOUNDS, "--input", "i"),
            (VERIFY, "--layout", "a"),
            (REFUTE, "--log", "l"),
            (IMPORT, "--trace", "t"),
        ]:
            with self.subTest(words=words), without_leave(name):
                said = list(answers.hints("none", 5, words.split()))
                self.assertEqual(said, [f"{option}: {name} may not be read, for want of leave"])

    def test_no_environment_of_python_s_hides_a_hint(self):
        self.lay({"i": "id,lower,upper,size\nb1,0,1,4\u20ac\n"})
        stub = self.stub("malformed row 0 bad number size", 4)
        for name, value, shown in (("PYTHONSAFEPATH", "1", "4\u20ac"), ("PYTHONIOENCODING", "latin-1", "4\\u20ac")):
            with self.subTest(name), mock.patch.dict(os.environ, {name: value}):
                told = [f"dsaplan: i:2: size: '{shown}' is no number of 1 to 20 digits"]
                self.assertEqual(self.hints(stub, 4, BOUNDS.split()), told)

    def test_a_socket_is_told(self):
        with socket.socket(socket.AF_UNIX) as made:
            made.bind(f"{self.work}/i")
        self.assertEqual(self.hints(self.stub("", 5), 5, BOUNDS.split()), ["dsaplan: --input: i is a socket"])

    def test_a_disk_that_was_too_small_is_no_riddle(self):
        self.lay({"i": TWO})
        self.assertEqual(
            self.hints(self.stub("", 5), 5, CLASSES.split()),
            [f"dsaplan: {NO_REASON}"],
        )

    def test_printing_that_failed_is_told(self):
        self.lay({"i": TWO, "a": "", "g": None})
        answer = self.stub("infeasible 7", 1)
        reader, gone = os.pipe()
        os.close(reader)
        self.addCleanup(os.close, gone)
        full = os.open("/dev/full", os.O_WRONLY)
        self.addCleanup(os.close, full)
        for printed_to, why in [
            (gone, "has no reader"),
            (full, "is a device that takes no text"),
        ]:
            told = [f"dsaplan: printing failed: standard output {why}"]
            for words in (BOUNDS, VERIFY, CLASSES, "trial --seed 1 --count 1 --steps 1", f"{SOLVE} --output o --log l"):
                with self.subTest(words=words, why=why):
                    self.assertEqual(self.hints(answer, 5, words.split(), printed_to), told)
            both = [*told, "dsaplan: --output: g is a folder"]
            self.assertEqual(self.hints(answer, 5, f"{SOLVE} --output g --log l".split(), printed_to), both)
            for words, hint in [
                (REFUTE, "--log: l is missing"),
                ("classes --input i --output g", "--output: g is a folder"),
                ("least --input i --output o --log g", "--log: g is a folder"),
            ]:
                with self.subTest(words=words, why=why):
                    self.assertEqual(self.hints(answer, 5, words.split(), printed_to), [f"dsaplan: {hint}"])
        self.assertEqual(self.hints(answer, 5, BOUNDS.split()), ["dsaplan: printing failed: standard output took no text"])

    def test_a_folder_without_leave_is_told(self):
        self.lay({"i": TWO, "g": None, "g/h": None})
        self.addCleanup(os.chdir, os.getcwd())
        os.chdir(self.work)
        words = "classes --input i --output g/o".split()
        for leave in (os.W_OK, os.X_OK):
            with self.subTest(leave), mock.patch("os.access", lambda name, mode, leave=leave: not mode & leave):
                self.assertEqual(list(answers.hints("none", 5, words)), ["--output: g/o may not be made: g gives no leave"])
        with mock.patch("os.path.isdir", lambda name: False), mock.patch("hinting.files.errno_of", lambda *_: errno.EACCES):
            told = ["--output: g/o lies in g, which may not be reached, for want of leave"]
            self.assertEqual(list(answers.hints("none", 5, words)), told)

    def test_what_was_said_before_the_run_is_not_said_again(self):
        self.lay({"i": TWO})
        said = "dsaplan: --output: f/o lies in f, which is no folder"
        for before, told in (("", [said]), (f"{said}\n", []), (f"{said} there\n", [said])):
            with mock.patch.dict(os.environ, {"DSAPLAN_SAID": before}):
                self.assertEqual(self.hints(self.stub("", 5), 5, "classes --input i --output f/o".split()), told)

    def test_of_a_pipe_and_a_file_that_is_too_long_the_file_is_told(self):
        os.mkfifo(f"{self.work}/i")
        self.lay({"a": 67108865})
        told = ["dsaplan: --layout: a has 67108865 bytes, where 67108864 are the most"]
        self.assertEqual(self.hints(self.stub("", 7), 7, VERIFY.split()), told)
        self.lay({"t": ""})
        os.remove(f"{self.work}/a")
        os.mkfifo(f"{self.work}/a")
        self.assertEqual(self.hints(self.stub("", 7), 7, VERIFY.split()), [])
        told = ["dsaplan: --layout: a has more bytes than 67108864"]
        self.assertEqual(self.hints(self.stub("", 7), 7, VERIFY.replace("input i", "input t").split()), told)

    def test_a_command_that_writes_is_not_made_again(self):
        self.lay(row("b1,0,1,4K,,"))
        self.hints(self.stub("malformed row 1 bad number size", 4), 4, "least --input i --output o --log l".split())
        self.assertEqual(self.asked(), "bounds --input i\n")

    def test_an_answer_that_is_no_fault_has_no_hint(self):
        self.lay({"i": TWO})
        for words in ("solve --capacity 7 --input i --output o --log l", "core --capacity 7 --input i --output o --log l"):
            self.assertEqual(self.hints(self.stub("infeasible 7", 1), 1, words.split()), [])
        self.assertEqual(self.hints(self.stub("open 7 8", 2), 2, "least --input i --output o --log l".split()), [])
        self.assertEqual(self.asked(), "")

    def test_a_pipe_is_not_read_again(self):
        os.mkfifo(f"{self.work}/i")
        self.assertTrue(stat.S_ISFIFO(os.stat(f"{self.work}/i").st_mode))
        self.assertEqual(self.hints(self.stub("malformed no header", 4), 4, BOUNDS.split()), [])
        self.assertEqual(self.hints(self.stub("", 0), 0, BOUNDS.split()), [])
        self.assertEqual(self.asked(), "")

    def test_a_column_that_may_be_misspelt_is_told(self):
        for header, near in [
            ("id,lower,upper,size,Alignment", "alignment"),
            ("id,lower,upper,size,align", "alignment"),
            ("id,lower,upper,size,alignement", "alignment"),
            ("id,lower,upper,size, gaps", "gaps"),
            ("id,lower,upper,size,gap", "gaps"),
            ("id,lower,upper,size,sizes", "size"),
            ("id,lower,upper,size,Size", "size"),
            ("id,lower,upper,size,Lowest", "lowest"),
            ("id,lower,upper,size,alignment_bytes", "alignment"),
            ("id,lower,upper,size,byte alignment", "alignment"),
        ]:
            with self.subTest(header=header):
                self.setUp()
                self.lay({"i": f"{header}\n"})
                name = header.split(",")[-1]
                wanted = f"dsaplan: i:1: the column '{name}' is carried, and not read; '{near}' would be"
                self.assertEqual(self.hints(self.stub("", 0), 0, BOUNDS.split()), [wanted])

    def test_other_columns_are_carried_without_a_word(self):
        self.lay({"i": "id,lower,upper,size,alignment,gaps,name,kind,layer,lowest,note,op,stage\n"})
        self.assertEqual(self.hints(self.stub("", 0), 0, BOUNDS.split()), [])


if __name__ == "__main__":
    unittest.main()
