"""What the tools here take of scripts and of their reports (docs/SCRIPT.md)."""
import re
from itertools import zip_longest

EXTENSIONS = {"base": 0x10, "hsm": 0x48534D, "ipi": 0x735049, "srst": 0x53525354, "susp": 0x53555350}


def numbered(script):
    """The lines that are not passed over, with their numbers from 1 on."""
    return [(n, line) for n, line in enumerate(script.split("\n"), 1) if line and not line.startswith("#")]


def told_lines(script, report):
    """Of each line of the script that is no turn: its number, and its lines of the report."""
    lines, at, found = report.splitlines(), 0, []
    for number, line in numbered(script):
        here = 2 if line.startswith("on ") and lines[at : at + 1] and lines[at].startswith("found ") else 1
        if not line.startswith("turn "):
            found.append((number, lines[at : at + here]))
        at += here
    return found


def first_difference(own_run, other_run):
    """Where the second of two reports first differs from the first in a line that is no turn: the number of the first script's line, what
    the first report says there, and what the second says. None where it differs nowhere."""
    for (number, own), (_, other) in zip(own_run, other_run):
        if own != other:
            return (number, *next(pair for pair in zip_longest(own, other, fillvalue="") if pair[0] != pair[1]))
    return None


def word(text):
    """A number in decimal, and any other word as it is."""
    if re.fullmatch(r"0x[0-9a-fA-F]{1,16}", text):
        return str(int(text, 16))
    return str(int(text)) if re.fullmatch(r"[0-9]{1,20}", text) else text


def plain(line):
    """A line in one spelling: what stands for the same line is the same."""
    words = line.split(" ")
    if words[0] == "call":
        words[2] = str(EXTENSIONS.get(words[2], words[2]))
        words += ["0"] * (7 - len(words))
    if words[0] in ("payload", "poke", "cut", "cutat", "cutlane"):
        return " ".join([*map(word, words[:-1]), words[-1].lower()])
    return " ".join(map(word, words))


def resumed(report_of, script, hart):
    """The image that a script leaves whose last line powers its board on, as its hart shows it where that line resumes it instead."""
    lines = [line for _, line in numbered(script)]
    looks = [*lines[:-1], "on resume", f"pc {hart}", f"reg {hart} 11"]
    pc, opaque = (line.split(" ")[-1] for line in report_of("\n".join(looks) + "\n").splitlines()[-2:])
    return f"image hart {hart} address {pc} opaque {opaque}"
