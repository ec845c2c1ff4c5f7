"""Small captures, and when their targets began and ended: worked out by hand, from the rules of docs/page.md alone."""
import tempfile

import json_model
import json_reading
from command import run, write

# What it shows, the targets with their logs, and the times of each target.
TIMES = [
    (
        "a build, with the output of its recipes",
        [
            (b"all", b"@@REDO:do:7:1700000000.0001@@ all\n@@REDO:do:7:1700000000.5@@ d/a\nmake: text\n"
             b"@@REDO:unchanged:7:1700000000.6@@ d/x\n@@REDO:done:7:1700000003.0199@@ 0 d/a\n@@REDO:do:7:1700000003.25@@ b\n"
             b"@@REDO:done:7:1700000005@@ 2 b\n@@REDO:done:7:1700000005.123456789@@ 1 all\n"),
            (b"d/a", b"a.c:1: warning\n@@REDO:do:8:1700000001@@ ../b\n@@REDO:do:8:1700000001.75@@ x\n@@REDO:done:8:1700000002.9@@ 0 a\n"),
            (b"b", b"b.c:1: error\n"),
            (b"d/x", b""),
        ],
        [(1700000000000, 1700000005123), (1700000000500, 1700000002900), (1700000001000, 1700000005000), (1700000001750, None)],
    ),
    (
        "without a closing record, the last record of another log counts",
        [
            (b"a", b"text\n"),
            (b"b", b"@@REDO:done:7:1700000030@@ 0 a\n@@REDO:done:7:1700000020@@ 0 a\n"),
            (b"c", b"@@REDO:done:7:1700000025@@ 0 a\n@@REDO:done:7:1700000040@@ 0 x\n"),
        ],
        [(None, 1700000030000), (None, None), (None, None)],
    ),
    (
        "its own log decides: the other one is of an earlier build",
        [
            (b"all", b"@@REDO:do:7:1700000001@@ a\n@@REDO:done:7:1700000002@@ 0 a\n@@REDO:do:7:1700000003@@ b\n@@REDO:done:7:1700000004@@ 0 b\n"),
            (b"a", b"@@REDO:do:8:1700000008@@ a\ntext\n@@REDO:done:8:1700000009@@ 2 a\n"),
            (b"b", b"@@REDO:do:8:1700000009.5@@ b\ntext\n"),
        ],
        [(None, None), (1700000008000, 1700000009000), (1700000009500, None)],
    ),
    (
        "the clock was set: the beginning is after the end",
        [(b"a", b"@@REDO:do:7:1700000002.001@@ a\n@@REDO:done:7:1700000002@@ 0 a\n")],
        [(None, 1700000002000)],
    ),
    (
        "times from 2001 to 2286 count",
        [
            (b"a", b"@@REDO:do:7:999999999.999@@ a\n@@REDO:done:7:10000000000@@ 0 a\n"),
            (b"b", b"@@REDO:do:7:1000000000@@ b\n@@REDO:done:7:9999999999.999@@ 0 b\n"),
            (b"c", b"@@REDO:do:7:18446744075409551616@@ c\n@@REDO:do:7:00000000001700000000@@ c\n"),
        ],
        [(None, None), (1000000000000, 9999999999999), (1700000000000, None)],
    ),
    (
        "an unended record doesn't count",
        [
            (b"a", b"@@REDO:do:7:1700000005@@ b\n@@REDO:do:7:1700000001@@ b"),
            (b"b", b"\n\n@@REDO:done:7:1700000006@@ -3 b\n"),
        ],
        [(None, None), (1700000005000, 1700000006000)],
    ),
]  # fmt: skip


def files_of(logs):
    """The files of a capture with these targets and logs."""
    names = b"".join(b"%d %s\n" % (number, target) for number, (target, _) in enumerate(logs, 1))
    return {"names": names, **{f"log.{number}": data for number, (_, data) in enumerate(logs, 1)}}


def words_for(logs):
    """The words that request these targets."""
    return [b"--", *(target for target, _ in logs)]


def told_times(out):
    """When each target began and ended, as its object says."""
    return {one["target"]: (one["start_ms"], one["end_ms"]) for one in json_reading.read(out)}


def times_of(logs, times):
    """The times by the targets."""
    return dict(zip((target for target, _ in logs), times))


def expect_times(checks, program):
    for what, logs, times in TIMES:
        with tempfile.TemporaryDirectory() as folder:
            write(folder, files_of(logs))
            words, wanted = words_for(logs), times_of(logs, times)
            results = ("the model", json_model.expected(folder, words)), ("the program", run(program, folder, words))
            for who, (status, out, message) in results:
                checks.expect(f"{who}: times: {what}", (status, told_times(out), message), (0, wanted, b""))
