"""What is new and gone since a baseline, in logs of compilers and in small builds, and which targets newly fail or are fixed.

Another program, in Python, said what is new in the logs of compilers. The rest was worked out by hand from the rules of docs/json.md.
"""
import os
import re
import tempfile

import json_model
import json_reading
from command import run, write

# ---- logs of compilers and linkers -----------------------------------------------------------------------------------

I, J, K = b"for (int i = 0; i < n; i++)", b"for (int j = 0; j < n; j += 2)", b"for (int k = 0; k < n; k += 3)"
BOLD, MAGENTA = b"\x1b[01m\x1b[K%s\x1b[m\x1b[K", b"\x1b[01;35m\x1b[K%s\x1b[m\x1b[K"
OF_GCC = b"warning: comparison of integer expressions of different signedness: 'int' and 'unsigned int' [-Wsign-compare]"
OF_CLANG = b"warning: comparison of integers of different signs: 'int' and 'unsigned int' [-Wsign-compare]"


def gcc(*loops, indent=4):
    """What GCC 12 prints about loops, each with its row."""
    lines = [b"a.c: In function 'count':"]
    for row, loop in loops:
        column = indent + 19
        lines += [b"a.c:%d:%d: " % (row, column) + OF_GCC, b"    %d | " % row + b" " * indent + loop, b"      |" + b" " * column + b"^"]
    return lines


def coloured(line):
    """A line of `gcc` as a terminal shows it."""
    line = re.sub(rb"^a\.c:[0-9:]*", lambda found: BOLD % found[0], line)
    line = line.replace(b"warning: ", MAGENTA % b"warning: ").replace(b"-Wsign-compare", MAGENTA % b"-Wsign-compare")
    line = re.sub(rb"'([a-z ]+)'", lambda found: b"'" + BOLD % found[1] + b"'", line)
    return re.sub(rb"<|\^", lambda found: MAGENTA % found[0], line)


def clang(*loops, numbered=True):
    """What Clang prints about loops, each with its row. Clang 17 and newer number source lines, and Clang 14 doesn't."""
    lines = []
    for row, loop in loops:
        below = [b"    %d |     " % row + loop, b"      |" + b" " * 21 + b"~ ^ ~"] if numbered else [b"    " + loop, b" " * 20 + b"~ ^ ~"]
        lines += [b"a.c:%d:23: " % row + OF_CLANG, *below]
    return [*lines, b"%d warnings generated." % len(loops)]


# Two loops have the same warning. Then the loops moved down and to the right, or another loop before them has this warning, too.
GCC_BEFORE = gcc((3, I), (5, J))
GCC_MOVED = gcc((6, I), (8, J), indent=8)
GCC_MORE = gcc((3, K), (5, I), (7, J))
GCC_MORE_COLOURS = [coloured(line) for line in GCC_MORE]
CLANG_BEFORE, CLANG_MORE = clang((3, I), (5, J)), clang((3, K), (5, I), (7, J))
CLANG_14_BEFORE, CLANG_14_MORE = clang((3, I), (5, J), numbered=False), clang((3, K), (5, I), (7, J), numbered=False)
# The names of temporary files differ in each build.
LD_BEFORE = [
    b"/usr/bin/ld: /tmp/ccVGBeAi.o: warning: relocation in read-only section `.text'",
    b"collect2: error: ld returned 1 exit status",
]
LD_MORE = [
    b"/usr/bin/ld: /tmp/cc4Xb9Zq.o: warning: relocation in read-only section `.text'",
    b"/usr/bin/ld: /tmp/cc4Xb9Zr.o: warning: relocation in read-only section `.text'",
]
# The source line changed.
REPLACED_BEFORE, REPLACED = [b"a.c:1:1: error: m", b"    1 | int x"], [b"a.c:1:1: error: m", b"    1 | int y"]
LAST_LINE = [b"a.c:1:1: error: m"]

# What it shows, and a log before and now. For each diagnostic now, `N` if it is new; for each one before, `G` if it is gone; otherwise `-`.
CHANGES = [
    ("GCC, moved", GCC_BEFORE, GCC_MOVED, "--", "--"),
    ("GCC, one more", GCC_BEFORE, GCC_MORE, "N--", "--"),
    ("GCC, one more, in colours", GCC_BEFORE, GCC_MORE_COLOURS, "N--", "--"),
    ("GCC, one less", GCC_MORE, GCC_BEFORE, "--", "G--"),
    ("Clang, one more", CLANG_BEFORE, CLANG_MORE, "N--", "--"),
    ("Clang 14, one more", CLANG_14_BEFORE, CLANG_14_MORE, "--N", "--"),
    ("ld, one more, and one less", LD_BEFORE, LD_MORE, "-N", "-G"),
    ("another source line", REPLACED_BEFORE, REPLACED, "-", "-"),
    ("a source line", LAST_LINE, REPLACED, "-", "-"),
    ("nothing", [], [], "", ""),
    ("nothing before", [], GCC_BEFORE, "NN", ""),
    ("nothing now", GCC_BEFORE, [], "", "GG"),
]
# A log, and its diagnostics: line, severity, key, and source line.
FOUND = [
    (GCC_MORE_COLOURS, [
        (1, b"warning", b"a.c: " + OF_GCC, K),
        (4, b"warning", b"a.c: " + OF_GCC, I),
        (7, b"warning", b"a.c: " + OF_GCC, J),
    ]),
    (CLANG_14_BEFORE, [(0, b"warning", b"a.c: " + OF_CLANG, b""), (3, b"warning", b"a.c: " + OF_CLANG, b"")]),
    (LD_MORE, [
        (0, b"warning", b"/usr/bin/ld: warning: relocation in read-only section `.text'", b""),
        (1, b"warning", b"/usr/bin/ld: warning: relocation in read-only section `.text'", b""),
    ]),
    (REPLACED, [(0, b"error", b"a.c: error: m", b"int y")]),
    (LAST_LINE, [(0, b"error", b"a.c: error: m", b"")]),
    ([], []),
]  # fmt: skip


def text_of(lines):
    return b"".join(line + b"\n" for line in lines)


def write_capture(folder, logs):
    """Writes a capture with these logs by their targets."""
    os.mkdir(folder)
    names = b"".join(b"%d %s\n" % (number, target) for number, target in enumerate(logs, 1))
    write(folder, {"names": names, **{f"log.{number}": data for number, data in enumerate(logs.values(), 1)}})


def compared(program, before, now):
    """The status, the objects by their targets, and the message, of the model and of the program. All targets are requested."""
    words = [b"--dir=now", b"--baseline=before", b"--", *now]
    with tempfile.TemporaryDirectory() as folder:
        write_capture(os.path.join(folder, "before"), before)
        write_capture(os.path.join(folder, "now"), now)
        for who, (status, out, message) in (("model", json_model.expected(folder, words)), ("program", run(program, folder, words))):
            yield f"the {who}: baselines", (status, {one["target"]: one for one in json_reading.read(out)}, message)


def flags_of(one, letter="N"):
    return "".join(letter if found["new"] else "-" for found in one["diagnostics"])


def expect_log_changes(checks, program):
    """JSON has a flag for each diagnostic now, and counts those that are gone. If builds are exchanged, it has a flag for each of these."""
    before, now = ({b"t%d" % place: text_of(row[side]) for place, row in enumerate(CHANGES)} for side in (1, 2))
    for who, (status, found, message) in compared(program, before, now):
        checks.expect(f"{who}: logs", (status, message), (0, b""))
        for target, (what, _, _, new, gone) in zip(now, CHANGES):
            checks.expect(f"{who}: {what}", (flags_of(found[target]), found[target]["baseline"]["gone"]), (new, gone.count("G")))
    for who, (_, found, _) in compared(program, now, before):
        for target, (what, _, _, new, gone) in zip(now, CHANGES):
            exchanged = flags_of(found[target], "G"), found[target]["baseline"]["gone"]
            checks.expect(f"{who}: {what}, exchanged", exchanged, (gone, new.count("N")))


def source_cases(wanted):
    """Logs before, and the flags of a log with these diagnostics now that follows one with their key and another source line. If all were
    there before, only that one is new. If one was there, only this one is known, or the first one with its source line."""
    kinds = [(key, source) for *_, key, source in wanted]
    texts = [text_of([key, b"    1 | " + source] if source else [key]) for key, source in kinds]
    yield b"all", b"".join(texts), "N" + "-" * len(kinds)
    for place, kind in enumerate(kinds):
        known = kinds.index(kind)
        yield b"%d" % place, texts[place], "N" + "".join("-" if at == known else "N" for at in range(len(kinds)))


def expect_found(checks, program):
    """JSON has the lines, severities and keys of diagnostics. It has no source lines, but these decide what is new."""
    before, now, flags = {}, {}, {}
    for place, (lines, wanted) in enumerate(FOUND):
        now[b"t%d" % place] = text_of(lines)
        for name, earlier, new in source_cases(wanted) if wanted else ():
            target = b"t%d.%s" % (place, name)
            before[target], now[target] = earlier, text_of([wanted[0][2], b"    1 | another", *lines])
            flags[target] = new
    for who, (_, found, _) in compared(program, before, now):
        for place, (_, wanted) in enumerate(FOUND):
            told = [(one["line"], one["severity"], one["key"]) for one in found[b"t%d" % place]["diagnostics"]]
            checks.expect(f"{who}: the diagnostics of log {place}", told, [row[:3] for row in wanted])
        for target, wanted in flags.items():
            checks.expect(f"{who}: the source lines of {target}", flags_of(found[target]), wanted)


# ---- small builds ----------------------------------------------------------------------------------------------------

BEFORE = {b"a": b"error: x\nerror: y\n", b"b": b"error: y\n@@REDO:done:7:1@@ 1 b\n", b"d": b"error: x\n"}
# What it shows, a build before and now, and for each log now: whether the earlier build has one, `N` for each diagnostic that is new,
# `-` for each other one, and how many are gone.
BUILDS = [
    (
        "logs are found by their targets, and logs of other targets don't count",
        BEFORE,
        {
            b"c": b"error: x\n",
            b"b": b"b\n@@REDO:do:7:1@@ a\nerror: y\nerror: y\nerror: x\n@@REDO:done:7:1@@ 1 b\n",
            b"a": b"@@REDO:do:7:1@@ d\nerror: y\n",
        },
        [(False, "N", 0), (True, "-NN", 0), (True, "-", 1)],
    ),
    ("the same build", BEFORE, BEFORE, [(True, "--", 0), (True, "-", 0), (True, "-", 0)]),
    ("an empty build before", {}, BEFORE, [(False, "NN", 0), (False, "N", 0), (False, "N", 0)]),
    (
        "the source line follows a record, and then no line has a word of a diagnostic",
        {b"a": b"a.c:1:1: warning: m\n    1 | int x;\n"},
        {b"a": b"a.c:1:1: warning: m\n    1 | int z;\na.c:2:1: warning: m\n@@REDO:do:7:1@@ b\n    2 | int x;\nend\n"},
        [(True, "N-", 0)],
    ),
    (
        "lines without diagnostics are skipped, and the word in `xwarning:` doesn't count",
        {b"a": b"ok\n@@REDO:do:7:1@@ b\nxwarning:\n@@REDO:do:7:1@@ b\nerror: x\nerror: z\n"},
        {b"a": b"@@REDO:do:7:1@@ b\nok\nok\n@@REDO:do:7:1@@ b\nok\nerror: y\nerror: x"},
        [(True, "N-", 1)],
    ),
    ("only one build has the log", {b"old": b"error: a\nerror: b\n"}, {b"new": b"error: a\nerror: b\n"}, [(False, "NN", 0)]),
]


def expect_build_changes(checks, program):
    for what, before, now, wanted in BUILDS:
        for who, (status, found, message) in compared(program, before, now):
            told = {target: (one["baseline"]["built"], flags_of(one), one["baseline"]["gone"]) for target, one in found.items()}
            checks.expect(f"{who}: {what}", (status, told, message), (0, dict(zip(now, wanted)), b""))


def expect_positions(checks, program):
    """The position of a diagnostic counts text lines."""
    log = b"ok\n@@REDO:do:7:1@@ b\nok\n@@REDO:do:7:1@@ b\nerror: x\n@@REDO:do:7:1@@ b\nok\nerror: y\n"
    for who, (_, found, _) in compared(program, {}, {b"a": log}):
        checks.expect(f"{who}: positions", [one["line"] for one in found[b"a"]["diagnostics"]], [2, 4])


# ---- targets that newly fail or are fixed ----------------------------------------------------------------------------

# The status, and whether a target below failed; None if there is no log.
FAILED, DEPENDENT, SUCCEEDED, UNKNOWN, UNBUILT = (2, False), (2, True), (0, False), (None, False), None
# How a target ended before and now, and whether it newly fails, and is fixed.
ENDS = [
    (SUCCEEDED, FAILED, True, False), (UNKNOWN, FAILED, True, False), (UNBUILT, FAILED, True, False), (FAILED, FAILED, False, False),
    (DEPENDENT, FAILED, False, False), (SUCCEEDED, DEPENDENT, False, False), (SUCCEEDED, UNKNOWN, False, False),
    (FAILED, SUCCEEDED, False, True), (DEPENDENT, SUCCEEDED, False, False), (FAILED, UNKNOWN, False, False),
    (SUCCEEDED, SUCCEEDED, False, False),
]  # fmt: skip


def logs_of_end(target, end):
    """The logs of a target that ended so, and of the one below it."""
    if end is None:
        return {}
    status, fails_below = end
    below = target + b".below"
    mention = b"@@REDO:do:7:1@@ %s\n" % below if fails_below else b""
    done = b"@@REDO:done:7:1@@ %d %s\n" % (status, target) if status is not None else b""
    return {target: mention + done, **({below: b"@@REDO:done:7:1@@ 1 %s\n" % below} if fails_below else {})}


def expect_ends(checks, program):
    before, now = {}, {}
    for place, (earlier, end, _, _) in enumerate(ENDS):
        before.update(logs_of_end(b"t%d" % place, earlier))
        now.update(logs_of_end(b"t%d" % place, end))
    for who, (status, found, message) in compared(program, before, now):
        checks.expect(f"{who}: ends", (status, message), (0, b""))
        for place, (earlier, end, newly_fails, fixed) in enumerate(ENDS):
            told = found[b"t%d" % place]["baseline"]
            checks.expect(f"{who}: {end} after {earlier}", (told["newly_fails"], told["fixed"]), (newly_fails, fixed))


# ---- many diagnostics ------------------------------------------------------------------------------------------------


def expect_many(checks, program):
    """Of 100,007 diagnostics with one key, and seven source lines in turn, the last seven are new."""
    lines = [b"a.c:1:1: warning: m\n    1 | int x%d;\n" % (place % 7) for place in range(100_007)]
    with tempfile.TemporaryDirectory() as folder:
        write_capture(os.path.join(folder, "before"), {b"a": b"".join(lines[:100_000])})
        write_capture(os.path.join(folder, "now"), {b"a": b"".join(lines)})
        status, out, message = run(program, folder, ["--dir", "now", "--baseline", "before", "a"])
    found = re.findall(rb'"nth":[0-9]+,"new":([a-z]+)', out), re.findall(rb'"gone":([0-9]+)', out)
    wanted = [b"false"] * 100_000 + [b"true"] * 7, [b"0"]
    checks.expect("many diagnostics with one key", (status, found == wanted, message), (0, True, b""))


def expect_changes(checks, program):
    for expect in (expect_log_changes, expect_found, expect_build_changes, expect_positions, expect_ends, expect_many):
        expect(checks, program)
