"""Checks model.py with the example tables of format.md and viewing.md. Each row is here as in the document."""

import os
import tempfile

import model
from model import Closed, Done, Line, LogFault, Mention, Note, Refused, Text

checks = 0
failures = 0


def check(what, got, expected):
    global checks, failures
    checks += 1
    if got != expected:
        failures += 1
        print(f"differs: {what!r}\n  got      {got!r}\n  expected {expected!r}")


# ---- format.md, "Logs" -----------------------------------------------------------------------------------------------

for data, expected in [
    (b"", []),
    (b"hello\n", [Line(b"hello", True)]),
    (b"x", [Line(b"x", False)]),
    (b"\n\na \t\n b", [Line(b"", True), Line(b"", True), Line(b"a \t", True), Line(b" b", False)]),
]:
    check(data, model.lines_of(data), expected)

# ---- format.md, "Records", in the log of `all` -----------------------------------------------------------------------

ENTRIES = [
    (b"hello", Text(b"hello")),
    (b"", Text(b"")),
    (b"x @@REDO:do:7:1@@ a", Text(b"x @@REDO:do:7:1@@ a")),
    (b"@@REDO", Text(b"@@REDO")),
    (b"@@REDO:do:7:1.0000@@ a", Mention(7, b"do", b"a")),
    (b"@@REDO:do:007:1@@ ./a b", Mention(7, b"do", b"a b")),
    (b"@@REDO:do:0:1@@ a", Mention(0, b"do", b"a")),
    (b"@@REDO:do:4294967295:1@@ a", Mention(4294967295, b"do", b"a")),
    (b"@@REDO:waiting:7:1@@ d/x", Mention(7, b"waiting", b"d/x")),
    (b"@@REDO:locked:7:1@@ x", Mention(7, b"locked", b"x")),
    (b"@@REDO:unlocked:7:1@@ x", Mention(7, b"unlocked", b"x")),
    (b"@@REDO:unchanged:7:1@@ x", Mention(7, b"unchanged", b"x")),
    (b"@@REDO:done:7:1@@ 2 b", Done(7, b"b", 2)),
    (b"@@REDO:done:7:1@@ -11 b", Done(7, b"b", -11)),
    (b"@@REDO:done:0000001230:1@@ 1 b", Done(1230, b"b", 1)),
    (b"@@REDO:done:7:1@@ 0 ./all", Closed(7, 0)),
    (b"@@REDO:x-y_z:4294967295:1.123456789@@ ", Note(4294967295, b"x-y_z", b"")),
    (b"@@REDO:check:7:12345678901234567890@@ b", Note(7, b"check", b"b")),
    (b"@@REDO:", None),
    (b"@@REDO:do:7", None),
    (b"@@REDO::7:1@@ a", None),
    (b"@@REDO:Do:7:1@@ a", None),
    (b"@@REDO:do:4294967296:1@@ a", None),
    (b"@@REDO:do:00000000007:1@@ a", None),
    (b"@@REDO:do:7:1.@@ a", None),
    (b"@@REDO:do:7:1.1234567890@@ a", None),
    (b"@@REDO:do:7:1@@a", None),
    (b"@@REDO:do:7:1@@ ", None),
    (b"@@REDO:done:7:1@@ 0", None),
    (b"@@REDO:done:7:1@@ 0 ", None),
    (b"@@REDO:done:7:1@@ - b", None),
    (b"@@REDO:done:7:1@@ 1234567890 b", None),
]
for line, expected in ENTRIES:
    check(line, model.entry_of(Line(line, True), b"all"), expected)
check("unended", model.entry_of(Line(b"@@REDO:do:7:1.0000@@ a", False), b"all"), Text(b"@@REDO:do:7:1.0000@@ a"))

# ---- format.md, "Faults of a log", the log of `a` --------------------------------------------------------------------

MANY = model.MOST_BYTES
for data, most_bytes, expected in [
    (b"ok\n@@REDO:do:7\n", MANY, LogFault("BadRecord", 2)),
    (b"@@REDO:done:7:1.0000@@ 0 a\n", 27, None),
    (b"@@REDO:done:7:1.0000@@ 0 a\nz", 28, LogFault("AfterClose", 2)),
    (b"@@REDO:done:7:1.0000@@ 0 a\nz", 27, LogFault("TooLong", None)),
    (b"@@REDO:done:7:1.0000@@ 0 a\nz", 26, LogFault("TooLong", None)),
    (b"abc\n", 4, None),
    (b"abc\nd", 4, LogFault("TooLong", None)),
    (b"@@REDO:\nmore", 8, LogFault("BadRecord", 1)),
    (b"@@REDO:\nmore", 7, LogFault("TooLong", None)),
]:
    check((data, most_bytes), model.log_of(b"a", data, False, most_bytes).fault, expected)
for data, read_failed, expected in [
    (b"@@REDO:done:7:1.0000@@ 0 a\n", False, None),
    (b"x\n", False, LogFault("NotClosed", None)),
    (b"", False, LogFault("NotClosed", None)),
    (b"@@REDO:done:7:1.0000@@ 0 a", False, LogFault("NotClosed", None)),
    (b"@@REDO:done:7:1.0000@@ 0 b\n", False, LogFault("NotClosed", None)),
    (b"@@REDO:done:7:1.0000@@ 0 a\nz", False, LogFault("AfterClose", 2)),
    (b"@@REDO:done:7:1.0000@@ 0 a\n", True, LogFault("Read", None)),
]:
    check((data, read_failed), model.log_of(b"a", data, read_failed, must_close=True).fault, expected)
# Rules in the text before the tables.
check("too long, then a failed read", model.log_of(b"a", b"abc\nd", True, 4).fault, LogFault("TooLong", None))
check("a bad line, then a failed read", model.log_of(b"a", b"@@REDO:\n", True).fault, LogFault("BadRecord", 1))
check("a line, then a failed read", model.log_of(b"a", b"@@REDO:", True).fault, LogFault("Read", None))

# ---- format.md, "Names" ----------------------------------------------------------------------------------------------

for name, expected in [
    (b"a//b/./c", b"a/b/c"),
    (b"a/", b"a"),
    (b"a/..", b"."),
    (b"./", b"."),
    (b"../../x", b"../../x"),
    (b"x/../../y", b"../y"),
    (b"/", b"/"),
    (b"/..//a/", b"/a"),
]:
    check(name, model.normal_form(name), expected)
for target, name, expected in [
    (b"all", b"a.o", b"a.o"),
    (b"d/a", b"../e//x", b"e/x"),
    (b"d/a", b"b", b"d/b"),
    (b"d/e/a", b"../../../x", b"../x"),
    (b"d/a", b"/z", b"/z"),
    (b"/a", b"../x", b"/x"),
    (b"/p/a", b"b/../c", b"/p/c"),
    (b"../a", b"b", b"../b"),
    (b".", b"b", b"b"),
    (b"..", b"b", b"b"),
]:
    check((target, name), model.name_in_log(name, target), expected)

# ---- format.md, "The index" ------------------------------------------------------------------------------------------


def index_or_line(data):
    try:
        return [tuple(listed) for listed in model.index_of(data)]
    except Refused as refused:
        assert refused.status == 3
        return refused.line


for data, expected in [
    (b"", []),
    (b"1 all\n", [(b"1", b"all", False)]),
    (b"7 d/./a\n999999999 b", [(b"7", b"d/a", False), (b"999999999", b"b", False)]),
    (b"1  a\n", [(b"1", b" a", False)]),
    (b"!1 a\n2 b\n", [(b"1", b"a", True), (b"2", b"b", False)]),
    (b"1 !a\n", [(b"1", b"!a", False)]),
    (b"!\n", b"names: line 1: bad line"),
    (b"! 1 a\n", b"names: line 1: bad line"),
    (b"!!1 a\n", b"names: line 1: bad line"),
    (b"!1 a\n1 b\n", b"names: line 2: number listed twice"),
    (b"1 a\n2 ./a\n", b"names: line 2: name listed twice"),
    (b"1 a\n1 b\n", b"names: line 2: number listed twice"),
    (b"1 a\n1 a\n", b"names: line 2: number listed twice"),
    (b"1 a\nx\n1 b\n", b"names: line 2: bad line"),
    (b"01 a\n", b"names: line 1: bad line"),
    (b"0 a\n", b"names: line 1: bad line"),
    (b"1234567890 a\n", b"names: line 1: bad line"),
    (b"1\n", b"names: line 1: bad line"),
    (b"1 \n", b"names: line 1: bad line"),
    (b"\n", b"names: line 1: bad line"),
]:
    check(data, index_or_line(data), expected)

model.MOST_NAMES = 3  # Only for these rows; the document says 1,048,575.
full = b"1 n1\n2 n2\n3 n3\n"
check("a full index", len(index_or_line(full)), 3)
check("one too many", index_or_line(full + b"4 n4"), b"names: too many names")
check("one too many, and bad", index_or_line(full + b"x"), b"names: line 4: bad line")
check("one too many, number listed", index_or_line(full + b"1 n4"), b"names: line 4: number listed twice")
check("one too many, name listed", index_or_line(full + b"4 n1"), b"names: line 4: name listed twice")
model.MOST_NAMES = 1_048_575

# ---- viewing.md, whole runs ------------------------------------------------------------------------------------------


def written(kind, text, pid=b"7"):
    return b"@@REDO:%s:%s:1@@ %s" % (kind, pid, text)


def run(logs, words):
    """Runs the model. Logs are a list of (target, lines). A line that is a tuple of kind, text and pid is a record; without a pid,
    the pid is 7. None instead of lines is a log that can't be read."""
    with tempfile.TemporaryDirectory() as directory:
        with open(os.path.join(directory, "names"), "wb") as file:
            for number, (target, _) in enumerate(logs, 1):
                file.write(b"%d %s\n" % (number, target))
        for number, (_, lines) in enumerate(logs, 1):
            path = os.path.join(directory, f"log.{number}")
            if lines is None:
                os.mkdir(path)
                continue
            with open(path, "wb") as file:
                for line in lines:
                    file.write((written(*line) if isinstance(line, tuple) else line) + b"\n")
        return model.answer(directory, [b"--dir", b"."] + words)


def shows(logs, words, text):
    check((logs, words), run(logs, words), (0, text, b""))


def refuses(logs, words, status, line):
    check((logs, words), run(logs, words), (status, b"", line + b"\n"))


A_B = [(b"a", [(b"do", b"b")]), (b"b", [b"B"])]
shows(A_B, [b"a", b"b", b"a"], b"redo  a\nredo    b\nredo  b\nB\n")
shows(A_B, [b"-r", b"a", b"b", b"a"], b"redo  a\nredo    b\nB\n")
shows([(b"a", [(b"do", b"b")]), (b"b", [(b"do", b"a"), b"t"])], [b"-r", b"a"], b"redo  a\nredo    b\nt\n")
ITSELF = [(b"a", [(b"do", b"a"), b"t"])]
shows(ITSELF, [b"-r", b"a"], b"redo  a\nt\n")
shows(ITSELF, [b"-r", b"--debug-locks", b"a"], b"redo  a\nredo    a\nt\n")
shows([(b"d/a", [(b"do", b"../e//x")]), (b"e/x", [b"q"])], [b"-r", b"d/./a"], b"redo  d/a\nredo    e/x\nq\n")
LOCKS = [(b"all", [(b"locked", b"x"), (b"unlocked", b"x"), (b"do", b"x")])]
shows(LOCKS, [b"all"], b"redo  all\nredo    x\n")
shows(LOCKS, [b"--debug-locks", b"all"], b"redo  all\nredo    x (locked...)\nredo    x (...unlocked!)\nredo    x\n")
shows(
    [(b"all", [(b"do", b"a"), (b"waiting", b"x"), b"end"]), (b"a", [(b"do", b"x")]), (b"x", [b"X"])],
    [b"-r", b"--debug-locks", b"all"],
    b"redo  all\nredo    a\nredo      x\nX\nredo    x (WAITING)\nend\n",
)
shows(
    [(b"all", [(b"done", b"0 b"), (b"done", b"-11 c"), (b"done", b"7 d")])],
    [b"all"],
    b"redo  all\nredo    c (exit -11)\nredo    d (exit 7)\n",
)
shows(
    [(b"all", [(b"resumed", b"x"), (b"warning", b"disk is slow"), (b"check", b"")])],
    [b"--no-details", b"all"],
    b"redo  all\nredo: x\nredo: disk is slow\nredo    ()\n",
)
UNCHANGED = [(b"a", [(b"unchanged", b"b"), (b"check", b"b"), b"t"]), (b"b", [b"B"])]
shows(UNCHANGED, [b"-r", b"--no-details", b"a"], b"redo  a\nredo    (b)\n")
shows(UNCHANGED, [b"-r", b"--no-details", b"-u", b"a"], b"redo  a\nredo    b\nredo    (b)\n")
shows(UNCHANGED, [b"-r", b"-u", b"a"], b"redo  a\nredo    b\nB\nredo    (b)\nt\n")
shows(UNCHANGED, [b"-r", b"-u", b"--debug-locks", b"a"], b"redo  a\nredo    b (unchanged)\nB\nredo    (b)\nt\n")

PIDS = [(b"all", [(b"do", b"a", b"007"), (b"check", b"a", b"4294967295"), (b"warning", b"w", b"12"), b"t"])]
shows(PIDS, [b"--debug-pids", b"all"], b"-      redo  all\n7      redo    a\n4294967295 redo    (a)\nredo: w\nt\n")
OTHERS = [
    (b"all", [(b"waiting", b"x", b"123456"), (b"do", b"x", b"1234567"), (b"done", b"-2 x", b"0"), (b"done", b"0 all", b"9")]),
    (b"x", [(b"do", b"b", b"0000000042")]),
]
shows(
    OTHERS,
    [b"-r", b"--debug-pids", b"all", b"x"],
    b"-      redo  all\n123456 redo    x\n42     redo      b\n0      redo    x (exit -2)\n",
)
shows(
    OTHERS,
    [b"--debug-locks", b"--debug-pids", b"all", b"x"],
    b"-      redo  all\n123456 redo    x (WAITING)\n1234567 redo    x\n0      redo    x (exit -2)\n"
    b"-      redo  x\n42     redo    b\n",
)

BAD = [(b"all", [b"@@REDO:"])]
refuses(BAD, [b"all", b"nope"], 24, b"redo-log: nope: not known")
refuses(BAD, [b""], 24, b"redo-log: : not known")
refuses([(b"a", None), (b"b", [b"@@REDO:"])], [b"a"], 5, b"redo-log: a: cannot be read")
refuses([(b"a", [b"t"]), (b"b", [b"@@REDO:"])], [b"a"], 4, b"redo-log: b: line 1: bad record")

# ---- redo-log.1, "EXIT STATUS" and "DIAGNOSTICS" ---------------------------------------------------------------------

refuses(A_B, [], 2, b"redo-log: bad command line")
refuses(A_B, [b"--nope", b"a"], 2, b"redo-log: bad command line")
refuses(A_B, [b"--debug-pids", b"a", b"--debug-pids"], 2, b"redo-log: bad command line")
refuses(A_B, [b"\xff"], 2, b"redo-log: bad command line")
refuses([(b"a", []), (b"./a", [])], [b"a"], 3, b"redo-log: names: line 2: name listed twice")
refuses([(b"a", [(b"done", b"0 a"), b""])], [b"./a"], 4, b"redo-log: a: line 2: after the closing record")
with tempfile.TemporaryDirectory() as empty:
    check("no names", model.answer(empty, [b"a"]), (5, b"", b"redo-log: names: cannot be read\n"))
    check("help", model.answer(empty, [b"--help"]), (0, None, b""))
    check("help", model.answer(empty, [b"-h"]), (0, None, b""))

print(f"selftest: {checks} checks, {failures} differ")
raise SystemExit(failures != 0)
