"""A slow, simple model of `redo-log`, written from its documents alone. Their rules are in docs/format.md, docs/viewing.md and
docs/redo-log.1.

`answer(directory, words)` returns what a run of the program must output with these arguments and this current directory.
Each section names the part of a document that it implements, and uses the terms of that document.
"""

import os
import re
from typing import NamedTuple, Optional, Union

MOST_BYTES = 1_073_741_824  # In a log, and in the index.
MOST_NAMES = 1_048_575  # Lines in the index.
LARGEST_PID = 4_294_967_295


class Refused(Exception):
    """The run ends with this status, and with this line (here without the prefix `redo-log: `) on standard error."""

    def __init__(self, status: int, line: bytes):
        super().__init__(status, line)
        self.status = status
        self.line = line


# ---- format.md, "Logs": lines ----------------------------------------------------------------------------------------


class Line(NamedTuple):
    content: bytes
    ended: bool


def lines_of(data: bytes) -> list[Line]:
    *ended, rest = data.split(b"\n")
    lines = [Line(content, True) for content in ended]
    if rest != b"":
        lines.append(Line(rest, False))
    return lines


# ---- format.md, "Records" --------------------------------------------------------------------------------------------

START = b"@@REDO:"
RECORD = re.compile(
    rb"@@REDO:"
    rb"(?P<kind>[a-z_-]+):"
    rb"(?P<pid>[0-9]{1,10}):"
    rb"(?P<time>[0-9]{1,20}(\.[0-9]{1,9})?)"
    rb"@@ "
    rb"(?P<text>.*)",
    re.DOTALL,
)
DONE_TEXT = re.compile(rb"(?P<status>-?[0-9]{1,9}) (?P<name>.+)", re.DOTALL)
KINDS_WITH_A_NAME = [b"do", b"waiting", b"locked", b"unlocked", b"unchanged"]


class Text(NamedTuple):
    line: bytes


class Mention(NamedTuple):
    pid: int
    kind: bytes
    target: bytes


class Closed(NamedTuple):
    pid: int
    status: int


class Done(NamedTuple):
    pid: int
    target: bytes
    status: int


class Note(NamedTuple):
    pid: int
    kind: bytes
    text: bytes


Entry = Union[Text, Mention, Closed, Done, Note]


def is_candidate(line: Line) -> bool:
    return line.ended and line.content.startswith(START)


def entry_of(line: Line, target: bytes) -> Optional[Entry]:
    """Returns the entry of a line in the log of the target, or None if the line is bad."""
    if not is_candidate(line):
        return Text(line.content)
    record = RECORD.fullmatch(line.content)
    if record is None or int(record["pid"]) > LARGEST_PID:
        return None
    pid, kind, text = int(record["pid"]), record["kind"], record["text"]
    if kind in KINDS_WITH_A_NAME:
        return Mention(pid, kind, name_in_log(text, target)) if text != b"" else None
    if kind == b"done":
        return done_entry_of(pid, text, target)
    return Note(pid, kind, text)


def done_entry_of(pid: int, text: bytes, target: bytes) -> Optional[Entry]:
    parts = DONE_TEXT.fullmatch(text)
    if parts is None:
        return None
    status = int(parts["status"])
    name = name_in_log(parts["name"], target)
    return Closed(pid, status) if name == target else Done(pid, name, status)


# ---- format.md, "Faults of a log" ------------------------------------------------------------------------------------


class LogFault(NamedTuple):
    cause: str  # BadRecord, AfterClose, TooLong, Read, NotClosed
    line: Optional[int]


class Log(NamedTuple):
    target: bytes
    entries: list[Entry]
    fault: Optional[LogFault]


def log_of(target: bytes, data: bytes, read_failed: bool = False, most_bytes: int = MOST_BYTES, must_close: bool = False) -> Log:
    """Returns the log of the target if these bytes could be read. After them the log ended, or a read failed."""
    within = data[:most_bytes]
    entries: list[Entry] = []
    closed = False
    for number, line in enumerate(lines_of(within), 1):
        if closed:
            return Log(target, entries, LogFault("AfterClose", number))  # Even if the line is empty.
        entry = entry_of(line, target)
        if entry is None:
            return Log(target, entries, LogFault("BadRecord", number))
        entries.append(entry)
        closed = isinstance(entry, Closed)
    if len(data) > most_bytes:
        return Log(target, entries, LogFault("TooLong", None))
    if read_failed:
        return Log(target, entries, LogFault("Read", None))
    if must_close and not closed:
        return Log(target, entries, LogFault("NotClosed", None))
    return Log(target, entries, None)


# ---- format.md, "Names" ----------------------------------------------------------------------------------------------


def is_absolute(name: bytes) -> bool:
    return name.startswith(b"/")


def directory_of(target: bytes) -> bytes:
    """Returns the target's name without its last segment: empty, or with a slash at its end. For `/` it is `/`."""
    return target[: target.rfind(b"/") + 1]


def normal_form(name: bytes, directory: bytes = b"") -> bytes:
    assert name != b"", "the empty name has no normal form"
    whole = name if is_absolute(name) else directory + name
    stays: list[bytes] = []
    for segment in whole.split(b"/"):
        if segment in (b"", b"."):
            pass
        elif segment != b"..":
            stays.append(segment)
        elif stays and stays[-1] != b"..":
            stays.pop()
        elif not is_absolute(whole):
            stays.append(b"..")
    if is_absolute(whole):
        return b"/" + b"/".join(stays)
    return b"/".join(stays) or b"."


def name_in_log(name: bytes, target: bytes) -> bytes:
    return normal_form(name, directory_of(target))


# ---- format.md, "The index" ------------------------------------------------------------------------------------------

INDEX_LINE = re.compile(rb"(?P<mark>!?)(?P<number>[1-9][0-9]{0,8}) (?P<name>.+)", re.DOTALL)


class Listed(NamedTuple):
    number: bytes
    target: bytes
    must_close: bool = False


def index_of(data: bytes) -> list[Listed]:
    index: list[Listed] = []
    numbers: set[bytes] = set()
    targets: set[bytes] = set()
    for line_number, line in enumerate(lines_of(data), 1):
        parts = INDEX_LINE.fullmatch(line.content)
        if parts is None:
            raise Refused(3, b"names: line %d: bad line" % line_number)
        listed = Listed(parts["number"], normal_form(parts["name"]), parts["mark"] == b"!")
        if listed.number in numbers:
            raise Refused(3, b"names: line %d: number listed twice" % line_number)
        if listed.target in targets:
            raise Refused(3, b"names: line %d: name listed twice" % line_number)
        if line_number > MOST_NAMES:
            raise Refused(3, b"names: too many names")
        index.append(listed)
        numbers.add(listed.number)
        targets.add(listed.target)
    return index


# ---- format.md, "The directory" --------------------------------------------------------------------------------------


def path_of(current: bytes, directory: bytes, file: bytes) -> bytes:
    """Returns the directory's path, a slash, and the file's name: the empty DIR denotes the root."""
    return os.path.join(current, directory + b"/" + file)


def read_index(current: bytes, directory: bytes) -> list[Listed]:
    try:
        with open(path_of(current, directory, b"names"), "rb") as file:
            data = file.read()
    except OSError:
        raise Refused(5, b"names: cannot be read")
    if len(data) > MOST_BYTES:
        raise Refused(5, b"names: cannot be read")
    return index_of(data)


def read_log(current: bytes, directory: bytes, listed: Listed) -> Log:
    try:
        with open(path_of(current, directory, b"log." + listed.number), "rb") as file:
            data = file.read()
    except FileNotFoundError:
        return log_of(listed.target, b"", must_close=listed.must_close)  # Also for a dangling link.
    except OSError:
        return log_of(listed.target, b"", read_failed=True)
    return log_of(listed.target, data, must_close=listed.must_close)


# ---- redo-log.1, "The command line" ----------------------------------------------------------------------------------


class CommandLine:
    def __init__(self):
        self.targets: list[bytes] = []
        self.given: dict[str, bytes] = {}  # The options by their long names, with their values.
        self.help = False

    @property
    def recursive(self) -> bool:
        return "recursive" in self.given

    @property
    def unchanged(self) -> bool:
        return "unchanged" in self.given

    @property
    def details(self) -> bool:
        return "no-details" not in self.given

    @property
    def debug_locks(self) -> bool:
        return "debug-locks" in self.given

    @property
    def debug_pids(self) -> bool:
        return "debug-pids" in self.given

    @property
    def directory(self) -> bytes:
        return self.given.get("dir", b".")

    def give(self, option: str, value: bytes):
        if option in self.given:
            raise bad_command_line()
        self.given[option] = value


LETTERS = {b"r": "recursive", b"u": "unchanged"}
FLAGS = ["recursive", "unchanged", "no-details", "debug-locks", "debug-pids"]
GREATEST_NUMBER = {"senders": 64, "capacity": 65_536}  # Neither of these changes the result.
WITH_A_VALUE = ["dir", *GREATEST_NUMBER]


def bad_command_line() -> Refused:
    return Refused(2, b"bad command line")


def command_line(words: list[bytes]) -> CommandLine:
    if not all(is_text(word) for word in words):
        raise bad_command_line()
    asked = CommandLine()
    left = list(words)
    while left and not asked.help:
        word = left.pop(0)
        if word == b"--":
            asked.targets += left
            left = []
        elif word.startswith(b"--"):
            long_option(word[2:], left, asked)
        elif word.startswith(b"-") and word != b"-":
            letters(word[1:], asked)
        else:
            asked.targets.append(word)
    if not asked.targets and not asked.help:
        raise bad_command_line()
    return asked


def is_text(word: bytes) -> bool:
    try:
        word.decode("utf-8", "strict")
        return True
    except UnicodeDecodeError:
        return False


def letters(word: bytes, asked: CommandLine):
    for letter in (word[at : at + 1] for at in range(len(word))):
        if letter == b"h":
            asked.help = True
            return
        if letter not in LETTERS:
            raise bad_command_line()
        asked.give(LETTERS[letter], b"")


def long_option(word: bytes, left: list[bytes], asked: CommandLine):
    name, equals, value = word.partition(b"=")
    option = name.decode()
    if option == "help" and not equals:
        asked.help = True
    elif option in FLAGS and not equals:
        asked.give(option, b"")
    elif option in WITH_A_VALUE:
        asked.give(option, checked(option, value if equals else value_word(left)))
    else:
        raise bad_command_line()


def value_word(left: list[bytes]) -> bytes:
    if not left or (left[0].startswith(b"-") and left[0] != b"-"):
        raise bad_command_line()
    return left.pop(0)


def checked(option: str, value: bytes) -> bytes:
    if option in GREATEST_NUMBER:
        if re.fullmatch(rb"\+?[0-9]+", value) is None or not 1 <= int(value) <= GREATEST_NUMBER[option]:
            raise bad_command_line()
    return value


# ---- viewing.md, "How logs are shown" --------------------------------------------------------------------------------

LOCK_MESSAGES = {
    b"do": b"",
    b"waiting": b" (WAITING)",
    b"locked": b" (locked...)",
    b"unlocked": b" (...unlocked!)",
    b"unchanged": b" (unchanged)",
}


class Showing:
    def __init__(self, asked: CommandLine, logs: list[Log]):
        self.asked = asked
        self.log_of_target = {log.target: log for log in logs}
        self.named: set[bytes] = set()
        self.opened: set[bytes] = set()
        self.text = b""

    def show_all(self, targets: list[bytes]) -> bytes:
        for target in targets:
            if target not in self.opened:
                self.redo_line(0, None, target)
                self.open_log(target, 1)
        return self.text

    def redo_line(self, depth: int, pid: Optional[int], text: bytes):
        """Writes the redo line of a record with this pid, or of a requested target."""
        if self.asked.debug_pids:
            self.text += (b"-" if pid is None else b"%d" % pid).ljust(6) + b" "
        self.text += b"redo" + b"  " + b"  " * depth + text + b"\n"

    def open_log(self, target: bytes, depth: int):
        """Opens the log of the target, with its entries at this depth."""
        self.named.add(target)
        self.opened.add(target)
        for entry in self.log_of_target[target].entries:
            self.show_entry(entry, depth)

    def show_entry(self, entry: Entry, depth: int):
        if isinstance(entry, Text):
            self.show_text(entry)
        elif isinstance(entry, Mention):
            self.show_mention(entry, depth)
        elif isinstance(entry, Done):
            self.show_done(entry, depth)
        elif isinstance(entry, Note):
            self.show_note(entry, depth)
        else:
            assert isinstance(entry, Closed)

    def show_text(self, entry: Text):
        if self.asked.details:
            self.text += entry.line + b"\n"

    def show_mention(self, entry: Mention, depth: int):
        if entry.kind == b"unchanged" and not self.asked.unchanged:
            return
        if self.asked.debug_locks:
            self.redo_line(depth, entry.pid, entry.target + LOCK_MESSAGES[entry.kind])
        elif entry.target not in self.named:
            self.redo_line(depth, entry.pid, entry.target)
        self.named.add(entry.target)
        if self.asked.recursive and entry.target in self.log_of_target and entry.target not in self.opened:
            self.open_log(entry.target, depth + 1)

    def show_done(self, entry: Done, depth: int):
        if entry.status != 0:
            self.redo_line(depth, entry.pid, entry.target + b" (exit %d)" % entry.status)  # It doesn't name the target.

    def show_note(self, entry: Note, depth: int):
        if entry.kind == b"check":
            self.redo_line(depth, entry.pid, b"(" + entry.text + b")")
        else:
            self.text += b"redo: " + entry.text + b"\n"


# ---- redo-log.1, "EXIT STATUS" and "DIAGNOSTICS" ---------------------------------------------------------------------


def targets_asked_for(asked: CommandLine, index: list[Listed]) -> list[bytes]:
    known = [listed.target for listed in index]
    targets = []
    for word in asked.targets:
        if word == b"" or normal_form(word) not in known:
            raise Refused(24, word + b": not known")
        targets.append(normal_form(word))
    return targets


def refuse_faults(logs: list[Log]):
    for log in logs:
        if log.fault is None:
            continue
        cause, line = log.fault
        if cause == "BadRecord":
            raise Refused(4, log.target + b": line %d: bad record" % line)
        if cause == "AfterClose":
            raise Refused(4, log.target + b": line %d: after the closing record" % line)
        if cause == "TooLong":
            raise Refused(4, log.target + b": too long")
        if cause == "Read":
            raise Refused(5, log.target + b": cannot be read")
        if cause == "NotClosed":
            raise Refused(4, log.target + b": not closed")
        raise AssertionError(cause)


def answer(directory: str, words: list[bytes]) -> tuple[int, Optional[bytes], bytes]:
    """Returns the status, standard output (None for the help text, which isn't specified) and standard error."""
    current = os.fsencode(directory)
    try:
        asked = command_line(words)
        if asked.help:
            return 0, None, b""
        index = read_index(current, asked.directory)
        targets = targets_asked_for(asked, index)
        logs = [read_log(current, asked.directory, listed) for listed in index]
        refuse_faults(logs)
        return 0, Showing(asked, logs).show_all(targets), b""
    except Refused as refused:
        return refused.status, b"", b"redo-log: " + refused.line + b"\n"
