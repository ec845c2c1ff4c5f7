"""Charts and meters of pages whose HTML was worked out by hand, and writes that fail within a chart."""
import os
import resource
import subprocess
import tempfile

from small_captures import files_of_logs, write_files
from worked_examples import made_page, part, record
from worked_pages import UNTIMED, model_of, page_of_logs, ran, time

CHART = (b'<div class="scroll" tabindex="0" role="region" aria-labelledby="h-timeline">', b'</div><p class="quiet">A bar')


def start(lanes, height):
    label = b"A bar for each target, from its start to its end, in %d lanes" % lanes
    return b'<svg role="img" aria-label="%s" width="100%%" height="%d" font-size="11">' % (label, height)


def ten_seconds(bottom):
    """The axis of ten seconds, whose lines end here."""
    lines = []
    for second in range(11):
        anchor = b"" if second == 0 else b' text-anchor="end"' if second == 10 else b' text-anchor="middle"'
        lines.append(b'<line x1="%d.00%%" x2="%d.00%%" y1="15" y2="%d"></line>' % (10 * second, 10 * second, bottom))
        lines.append(b'<text x="%d.00%%" y="11"%s>%s</text>' % (10 * second, anchor, b"%d s" % second if second else b"0"))
    return b'<g class="axis" stroke="#8886" fill="currentColor" stroke-width=".5">' + b"".join(lines) + b"</g>"


# ---- a small build ---------------------------------------------------------------------------------------------------

# A unit is a millisecond. `t1` and `t2` are narrow, and in one bar. A log that nobody mentions says when `all` ran. More targets without
# length may follow `t2`.
def small(more=()):
    log = ran(b"out/a.o", 0, 4000) + ran(b"out/b.o", 2000, 9500, -1) + ran(b"t1", 5000, 5010)
    log += ran(b"t2", 5012, 5020) + b"".join(ran(name, 5020, 5020) for name in more)
    log += record(b"do", UNTIMED, b"m") + record(b"done", time(10_000), b"2 m")
    names = (b"out/a.o", b"out/b.o", b"t1", b"t2", *more, b"m")
    return {b"all": log, **{name: b"" for name in names}, b"x": record(b"do", time(0), b"all") + record(b"done", time(10_000), b"0 all")}


def small_html(narrow, last):
    """The chart, with so many targets in the bar from `t1` on, and `m` at this place."""
    return b"".join([
        start(2, 102), ten_seconds(98),
        b'<g class="w" fill="#8886"><a href="#t0" tabindex="-1"><svg x="0.00%" y="20" width="100.00%" height="12">',
        b'<title>all, 10.0 s, unfinished</title><rect width="100%" height="12"></rect>',
        b'<text x="4" y="9" fill="currentColor">all</text></svg></a></g>',
        b'<g class="k" fill="#3a6ea5"><a href="#t1" tabindex="-1"><svg x="0.00%" y="40" width="40.00%" height="16">',
        b'<title>out/a.o, 4.00 s</title><rect width="100%" height="16"></rect><text x="4" y="12" fill="#fff">a.o</text></svg></a>',
        b'<a href="#t3" tabindex="-1"><rect x="50.00%" y="40" width="0.20%" height="16">',
        b"<title>%d targets in 0.02 s, from t1</title></rect></a>" % narrow,
        b'<a href="#t2" tabindex="-1"><svg x="20.00%" y="58" width="75.00%" height="16"><title>out/b.o, 7.50 s, exit -1</title>',
        b'<rect width="100%" height="16" class="f" fill="#c62828"></rect><text x="4" y="12" fill="#fff">b.o</text></svg></a></g>',
        b'<g class="e" fill="#8a6d3b"><a href="#t%d" tabindex="-1"><rect x="100.00%%" y="82" width="0.30%%" height="12" ' % last,
        b'class="f" fill="#c62828"><title>m, exit 2</title></rect></a></g></svg>'])


def expect_small(checks, program):
    """One mark of six is too many for a timeline, so the model draws it. With four more targets, a page has a timeline."""
    logs = small()
    checks.expect("the model's chart", model_of(logs).chart(), small_html(2, 5))
    checks.expect("a page without this chart", page_of_logs(program, logs), made_page(logs))
    logs = small((b"n1", b"n2", b"n3", b"n4"))
    page = page_of_logs(program, logs)
    checks.expect("a chart", part(page, *CHART), small_html(6, 9))
    expect_failed_writes(checks, program, logs, page)


# ---- texts in a chart ------------------------------------------------------------------------------------------------

# `all` ran `lib`, which failed, and that one ran the others. Names have tags, references, control characters, and a byte that isn't UTF-8.
NAMES = [b"n0", b"n1", b"n2", b"out/<a>&\"b'.o", b"</title>\xff", b"a<b>&", b"\x1b[1md", b"e"]
TEXTS = {
    b"all": record(b"do", time(0), b"all") + ran(b"lib", 5, 10_000, 2) + record(b"done", time(10_000), b"0 all"),
    b"lib": b"".join([
        *(ran(name, 5, 5) for name in NAMES[:3]), ran(NAMES[3], 1234, 1264), ran(NAMES[4], 1264, 2364, 1), ran(NAMES[5], 2000, 2350, 1),
        ran(NAMES[6], 2350, 2750), record(b"do", UNTIMED, b"e"), record(b"done", time(9999), b"0 e")]),
    **{name: b"" for name in NAMES},
}
TEXTS_HTML = b"".join([
    start(2, 116), ten_seconds(112),
    b'<g class="w" fill="#8886"><a href="#t0" tabindex="-1"><svg x="0.00%" y="20" width="100.00%" height="12"><title>all, 10.0 s</title>',
    b'<rect width="100%" height="12"></rect><text x="4" y="9" fill="currentColor">all</text></svg></a>',
    b'<a href="#t1" tabindex="-1"><svg x="0.05%" y="34" width="99.95%" height="12"><title>lib, 9.99 s, exit 2</title>',
    b'<rect width="100%" height="12" class="f" fill="#c62828"></rect><text x="4" y="9" fill="#fff">lib</text></svg></a></g>',
    b'<g class="k" fill="#3a6ea5"><a href="#t2" tabindex="-1"><rect x="0.05%" y="54" width="0.10%" height="16">',
    b"<title>3 targets in 0.00 s, from n0</title></rect></a>",
    b'<a href="#t5" tabindex="-1"><rect x="12.34%" y="54" width="0.30%" height="16">',
    b"<title>out/&lt;a&gt;&amp;\"b'.o, 0.03 s</title></rect></a>",
    b'<a href="#t6" tabindex="-1"><svg x="12.64%" y="54" width="11.00%" height="16"><title>&lt;/title&gt;\\xff, 1.10 s, exit 1</title>',
    b'<rect width="100%" height="16" class="f" fill="#c62828"></rect><text x="4" y="12" fill="#fff">title&gt;\\xff</text></svg></a>',
    b'<a href="#t7" tabindex="-1"><svg x="20.00%" y="72" width="3.50%" height="16"><title>a&lt;b&gt;&amp;, 0.35 s, exit 1</title>',
    b'<rect width="100%" height="16" class="f" fill="#c62828"></rect><text x="4" y="12" fill="#fff">a&lt;b&gt;&amp;</text></svg></a>',
    b'<a href="#t8" tabindex="-1"><svg x="23.50%" y="72" width="4.00%" height="16"><title>^[[1md, 0.40 s</title>',
    b'<rect width="100%" height="16"></rect><text x="4" y="12" fill="#fff">^[[1md</text></svg></a></g>',
    b'<g class="e" fill="#8a6d3b"><a href="#t9" tabindex="-1"><rect x="99.99%" y="96" width="0.10%" height="12">',
    b"<title>e</title></rect></a></g></svg>"])


def expect_texts(checks, program):
    checks.expect("texts in a chart", part(page_of_logs(program, TEXTS), *CHART), TEXTS_HTML)


# ---- meters ----------------------------------------------------------------------------------------------------------

# How long recipes took, and the widths of their meters.
METERS = [(10_000, b"100.00%"), (6320, b"63.20%"), (5, b"0.05%"), (0, b"0.00%")]


def expect_meters(checks, program):
    names = [b"t%d" % place for place in range(len(METERS))]
    log = b"".join(ran(name, 0, took) for name, (took, _) in zip(names, METERS))
    page = page_of_logs(program, {b"all": log, **{name: b"" for name in names}})
    cells = [b"<td" + cell.partition(b"</td>")[0] for cell in part(page, b"<h3>Longest</h3>", b"</table>").split(b'<td class="m"')[1:]]
    meters = [b'<td><svg width="100%%" height="10" aria-hidden="true"><rect width="%s" height="10" fill="#3a6ea5"></rect></svg>' % width
              for _, width in METERS]
    checks.expect("meters", cells, meters)


# ---- writes that fail ------------------------------------------------------------------------------------------------

ROOMS = 13  # How many prefixes of a chart are tried.


def expect_failed_writes(checks, program, logs, page):
    """A file has room for the page up to some byte of its chart. This prefix was written, and then the run ended with the message."""
    begin, length = page.index(CHART[0]) + len(CHART[0]), len(part(page, *CHART))
    with tempfile.TemporaryDirectory() as folder:
        write_files(folder, files_of_logs(logs))
        for number in range(ROOMS):
            room = begin + length * number // (ROOMS - 1)
            status, message, written = run_with_room(program, folder, room)
            checks.expect(f"room for {room} bytes", (status, message), (6, b"redo-log-html: cannot write\n"))
            checks.expect(f"what was written into {room} bytes", written, page[:room])


def run_with_room(program, folder, room):
    """Runs the program with a file that has room for so many bytes as standard output."""
    most = resource.getrlimit(resource.RLIMIT_FSIZE)
    with open(os.path.join(folder, "page"), "w+b") as out:
        resource.setrlimit(resource.RLIMIT_FSIZE, (room, most[1]))
        try:
            devices = {"stdin": subprocess.DEVNULL, "stdout": out, "stderr": subprocess.PIPE}
            found = subprocess.run([program], cwd=folder, restore_signals=False, **devices)  # So SIGXFSZ stays ignored.
        finally:
            resource.setrlimit(resource.RLIMIT_FSIZE, most)
        out.seek(0)
        return found.returncode, found.stderr, out.read()


def expect_charts(checks, program):
    expect_small(checks, program)
    expect_texts(checks, program)
    expect_meters(checks, program)
