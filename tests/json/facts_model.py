"""What the file `facts` states about targets, by docs/format.md: a part of the model of `redo-log-json`."""
import os
import re
import stat
from typing import NamedTuple

from times_model import logs_model

MOST_BYTES = 1_073_741_824
STATEMENT = re.compile(rb"([1-9][0-9]{0,8}) (log|directory|command|truncated|more|usage) (.*)", re.DOTALL)
USAGE = re.compile(rb"([0-9]{1,15}) ([0-9]{1,15}) ([0-9]{1,15})")


class Facts(NamedTuple):
    directory: bytes | None = None
    commands: tuple = ()  # Each with its text, and whether it is whole.
    usage: tuple | None = None


def bytes_of(path):
    """The bytes of the file; none if it isn't a regular file or can't be read."""
    try:
        if not stat.S_ISREG(os.stat(path).st_mode):
            return b""
        with open(path, "rb") as file:
            return file.read()
    except OSError:
        return b""


def statements_of(data):
    """The statements of the ended lines, each with its number, its word, and the rest of the line."""
    for line in data.split(b"\n")[:-1]:
        found = STATEMENT.fullmatch(line)
        if found is None or found[2] in (b"log", b"directory") and not found[3] or found[2] == b"usage" and not USAGE.fullmatch(found[3]):
            continue
        yield found.groups()


def facts_by(target, statements):
    """The facts of a target, by the statements with its number."""
    begin = max((place for place, (word, _) in enumerate(statements) if word == b"log"), default=None)
    if begin is None or logs_model.normal_form(statements[begin][1]) != target:
        return Facts()
    directory, commands, usage = None, [], None
    for word, text in statements[begin + 1 :]:
        if word == b"directory":
            directory = text
        elif word in (b"command", b"truncated"):
            commands.append((text, word == b"command"))
        elif word == b"more" and commands:
            commands[-1] = commands[-1][0] + b"\n" + text, commands[-1][1]
        elif word == b"usage":
            usage = tuple(map(int, USAGE.fullmatch(text).groups()))
    return Facts(directory, tuple(commands), usage)


def facts_of(index, data):
    """The facts of each listed target, by the bytes of the file."""
    of_number = {listed.number: [] for listed in index}
    for number, word, text in statements_of(data if len(data) <= MOST_BYTES else b""):
        if number in of_number:
            of_number[number].append((word, text))
    return {listed.target: facts_by(listed.target, of_number[listed.number]) for listed in index}
