"""Pages of the built program: cut logs, groups, numbers with units, parts of a page, and failed writes. The values were worked out by hand."""
import os
import re
import subprocess
import tempfile
from concurrent.futures import ThreadPoolExecutor

from small_captures import MOST_SECONDS, all_of, contents, files_of_logs, made_page, part, record, run, write_files
from text_examples import LINES, LOGS

# ---- long logs -------------------------------------------------------------------------------------------------------

NOTE = b"Lines are left out here. The command at the end of this page shows all of them."


def shown(html):
    """What a tree shows, in order: `redo NAME` for a log, lines without the dots at their ends, notes, and None for what is left out."""
    out = []
    for name, block, note in re.findall(rb'<bdi>(.*?)</bdi>|<pre>\n(.*?)</pre>|<li class="note">(.*?)</li>', html, re.S):
        out += [b"redo " + name] * bool(name) + [line.rstrip(b".") for line in block.splitlines()]
        out += [None if note == NOTE else note] * bool(note)
    return out


def long_line(word, size):
    """A line with this many bytes."""
    return word + b"." * (size - len(word) - 1) + b"\n"


WORDS = [b"one", b"two", b"three", b"four", b"five"]
FIVE = b"".join(word + b"\n" for word in WORDS)


def five(*sizes):
    """A log of five lines with these sizes."""
    return b"".join(map(long_line, WORDS, sizes))


# With a limit of one byte, each log shows at most 4,096: a head of 1,024, and a tail of 3,072.
CUT = [
    ("the head ends and the tail begins with a line", five(500, 524, 700, 700, 3072), [b"one", b"two", None, b"five"]),
    ("they end and begin in a line", five(500, 525, 700, 700, 3071), [b"one", None, b"five"]),
    ("one line is left out", five(500, 524, 700, 1072, 2000), [b"one", b"two", None, b"four", b"five"]),
    ("no line ends in the head", five(1025, 700, 700, 700, 3072), [None, b"five"]),
    ("no line begins in the tail", five(500, 524, 700, 700, 3073), [b"one", b"two", None]),
    ("the tail begins where the head ends", five(500, 524, 1000, 1000, 1072), WORDS),
    ("the tail begins before the head ends", five(500, 524, 1000, 1000, 1071), WORDS),
    ("the head has all lines", five(200, 200, 200, 200, 224), WORDS),
    ("a short log beside long ones", FIVE, WORDS),
]


def expect_cut_logs(checks, program, expected_page):
    logs = {b"%d" % place: log for place, (_, log, _) in enumerate(CUT, 1)}
    logs = {b"all": all_of(logs), **logs}
    page = made_page(checks, program, expected_page, "cut logs", logs, [b"--max-bytes=1"])
    for place, (what, _, wanted) in enumerate(CUT, 1):
        checks.expect(f"a cut log: {what}", shown(contents(page, place)), wanted)
    for most in (0, 2**64 - 1):
        page = made_page(checks, program, expected_page, f"at most {most} bytes", logs, [b"--max-bytes=%d" % most])
        found = [shown(contents(page, place)) for place in range(1, len(CUT) + 1)]
        checks.expect(f"at most {most} bytes: no log is cut", found, [WORDS] * len(CUT))


def nested(sizes, short=False):
    """A log `a` with a log `b` in it. The lines of `a` have these sizes, and so have those of `b`, unless they are short."""
    a = [long_line(b"a " + word, size) for word, size in zip(WORDS, sizes[0])]
    b = [b"b " + word + b"\n" if short else long_line(b"b " + word, size) for word, size in zip(WORDS, sizes[1])]
    return {b"a": a[0] + record(b"do", b"b") + b"".join(a[1:]), b"b": b[0] + b[1] + record(b"check", b"n") + b[2] + b[3]}


# What is cut, the logs, the requested targets, and what the tree shows.
NESTED = [
    ("each log has its own head and tail, and records are always shown",
     nested([(1024, 700, 700, 3072), (1025, 700, 1072, 2000)]), [b"a"],
     [b"redo a", b"a one", b"redo b", None, b"(n)", b"b three", b"b four", None, b"a four"]),
    ("the log in it is whole", nested([(1025, 700, 700, 3072), (0, 0, 0, 0)], short=True), [b"a"],
     [b"redo a", None, b"redo b", b"b one", b"b two", b"(n)", b"b three", b"b four", b"a four"]),
    ("another order, and last lines without a line feed",
     {b"a": long_line(b"a one", 1025) + long_line(b"a two", 700) + long_line(b"a", 3072)[:-1],
      b"b": long_line(b"b one", 1024) + long_line(b"b two", 700) + long_line(b"b", 3073)[:-1]}, [b"b", b"a"],
     [b"redo b", b"b one", None, b"redo a", None, b"a"]),
]  # fmt: skip


def expect_cut_logs_in_others(checks, program, expected_page):
    for what, logs, targets, wanted in NESTED:
        page = made_page(checks, program, expected_page, what, logs, [b"--max-bytes=1", b"--", *targets])
        checks.expect(f"cut logs: {what}", shown(part(page, b'<ul class="tree">', b"</section>")), wanted)


# ---- groups ----------------------------------------------------------------------------------------------------------

QUIET = [b"a", b"b", b"c", b"d", b"e"]
FAILED = record(b"done", b"2 f")


def quiet(names):
    return b"".join(record(b"do", name) + record(b"done", b"0 " + name) for name in names)


# What `all` has after the mention of `f`, which fails, and the sizes of its groups.
ROWS = [
    ("five in a row", FAILED + quiet(QUIET), [5]),
    ("the record of the failure after them", quiet(QUIET) + FAILED, [5]),
    ("the record of the failure among them", quiet(QUIET[:3]) + FAILED + quiet(QUIET[3:]), []),
    ("four in a row", FAILED + quiet(QUIET[:4]), []),
    ("a line among them", quiet(QUIET[:3]) + b"x\n" + quiet(QUIET[3:]) + FAILED, []),
]


def expect_groups(checks, program, expected_page):
    for what, log, wanted in ROWS:
        logs = {b"all": record(b"do", b"f") + log, b"f": b"", **{name: b"" for name in QUIET}}
        page = made_page(checks, program, expected_page, f"groups: {what}", logs)
        checks.expect(f"groups: {what}", [int(size) for size in re.findall(rb"<summary>([0-9]+) targets that printed nothing", page)], wanted)


# ---- numbers with units ----------------------------------------------------------------------------------------------


def ran(target, begin, end):
    return record(b"do", target, begin) + record(b"done", b"0 " + target, end)


def tile(page, term):
    return part(page, b"<dt>" + term + b"</dt><dd>", b"</dd>")


def expect_units(checks, program, expected_page):
    text = b"x" * 46_098 + b"\n"
    page = made_page(checks, program, expected_page, "a long build", {b"all": text + ran(b"all", b"1795829211", b"1795832936")})
    found = part(page, b'<p class="meta">', b"</p>"), tile(page, b"Logs"), tile(page, b"Took")
    wanted = "Sat, 28 Nov 2026 01:26:51 GMT \u00b7 took 1 h 02 min".encode(), b"46.0 kB", b"1 h 02 min"
    checks.expect("a date, a size and a duration", found, wanted)
    times = {b"a": (b"1600000000", b"1600000002"), b"b": (b"1600000000", b"1600000002"), b"c": (b"1600000001", b"1600000002")}
    logs = {b"all": b"".join(ran(target, *both) for target, both in times.items()), **{target: b"" for target in times}}
    page = made_page(checks, program, expected_page, "five seconds in two", logs)
    checks.expect("a quotient", tile(page, b"At once"), b"2.5, at most 3")
    page = made_page(checks, program, expected_page, "a tenth of a second", {b"all": ran(b"all", b"1600000000", b"1600000000.1")})
    ticks = [b"0", *(b"0.%02d s" % number for number in range(1, 11))]
    checks.expect("the ticks of an axis", re.findall(rb">([^<]*)</text>", part(page, b'<g class="axis"', b"</g>")), ticks)


# ---- parts of a page -------------------------------------------------------------------------------------------------

# In this order, with other parts between them.
PARTS = [
    b'<!doctype html><html lang="en"><head>',
    "<title>\u2717 a &lt; b&lt;/title&gt; \u00b7 1 of 1 target failed</title>".encode() + b"<style>:root{color-scheme:light dark;",
    b'}}\n</style></head><body class="bad">',
    b"</span> 1 of 1 target failed</h1>",
    b'<article id="f0"><h3><bdi>&lt;a.o&gt;</bdi>',
    b'<a href="#t0">its place in the tree</a></p><pre>\n\n<span class="r">a&amp;b\n</span></pre></article>',
    b'<details open id="t0"><summary><bdi>&lt;a.o&gt;</bdi>',
    b"</summary><ul>",
    b"</details>",
    b"</body></html>\n",
]


def expect_parts(checks, program, expected_page):
    logs = {b"<a.o>": b"\n\x1b[31ma&b\n" + record(b"done", b"1 <a.o>")}
    rest = made_page(checks, program, expected_page, "parts", logs, [b"--title=a < b</title>", b"--", b"<a.o>"])
    checks.expect("the page begins with its first part", rest.startswith(PARTS[0]), True)
    for wanted in PARTS:
        checks.expect(f"the page has {wanted} after the part before", wanted in rest, True)
        rest = rest.partition(wanted)[2]
    checks.expect("the page ends with its last part", rest, b"")


# ---- failed writes ---------------------------------------------------------------------------------------------------


# The number of bytes that the program writes at once.
BUFFER = 65_536
TITLE = b"TITLE"


def written_within(program, folder, most, title):
    """Writes a page to a file of at most so many bytes. The write that exceeds them fails, because the signal for this is ignored."""
    with tempfile.TemporaryFile() as out:
        words = ["prlimit", f"--fsize={most}", program, b"--title=" + title]
        files = {"stdin": subprocess.DEVNULL, "stdout": out, "stderr": subprocess.PIPE}
        done = subprocess.run(words, cwd=folder, **files, timeout=MOST_SECONDS, restore_signals=False)
        out.seek(0)
        return done.returncode, out.read(), done.stderr


def expect_failed_writes(checks, program):
    """If a write fails, the bytes before it are written, and nothing else. The first write ends in texts of all kinds. A title, which is in
    the page twice, moves them, so it ends at another place in each run."""
    texts = b"".join(text + b"\n" for text, _ in LOGS) + b"".join(lines for _, lines, _, _ in LINES)

    def page_after(size):
        write_files(folder, files_of_logs({b"all": b"x" * size + b"\n" + texts + record(b"done", b"1 all")}))
        status, page, message = run(program, folder, [b"--title=" + TITLE])
        checks.expect("a page without a limit: the status and the message", (status, message), (0, b""))
        return page, page.index(b"x" * size + b"\n") + size + 1 - 2 * len(TITLE)

    def written(number):
        title = b"t" * (19 * number)
        most = number * len(page) // 100
        return most, page.replace(TITLE, title), written_within(program, folder, most, title)

    with tempfile.TemporaryDirectory() as folder:
        page, begin = page_after(45_000)
        page, begin = page_after(45_000 + BUFFER - begin - 100 * 38)
        end = begin + page[begin:].index(b"</pre>")
        checks.expect("the texts, between which the first write ends", (begin + 100 * 38, end > BUFFER), (BUFFER, True))
        with ThreadPoolExecutor(os.cpu_count()) as pool:
            for most, wanted, found in pool.map(written, range(100)):
                what = f"{most} bytes of a page"
                checks.expect(f"{what}: the status and the message", (found[0], found[2]), (6, b"redo-log-html: cannot write\n"))
                checks.expect(what, (len(found[1]), found[1] == wanted[:most]), (most, True))
        checks.expect("a page that fits", written_within(program, folder, len(page), TITLE), (0, page, b""))


def expect_pages(checks, program, expected_page):
    expect_cut_logs(checks, program, expected_page)
    expect_cut_logs_in_others(checks, program, expected_page)
    expect_groups(checks, program, expected_page)
    expect_units(checks, program, expected_page)
    expect_parts(checks, program, expected_page)
    expect_failed_writes(checks, program)
