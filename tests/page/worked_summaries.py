"""Summaries of pages that were worked out by hand: times, sizes, tables of ten targets, and what recipes used.

The page of the built program must show the values, and the model of a page must compute those that this page leaves out.
"""
import re

from chart_model import Span, Window, most_at_once
from times_model import duration
from worked_examples import made_page, part, record
from worked_pages import FIRST, UNTIMED, model_of, page_of_files, page_of_logs, ran, time
from worked_timelines import BAR, units_of

NO_TIMELINE = b"There is no timeline: the logs of %d of %d targets do not say when they began, or when they ended."


def tiles_on(page):
    return dict(re.findall(rb"<div><dt>(.*?)</dt><dd>(.*?)</dd></div>", page))


def table_on(page, heading):
    """The rows of a table: place, text, and the width of the meter in hundredths of a percent."""
    table = part(page, b"<h3>" + heading + b"</h3>", b"</table>") or b""
    rows = re.findall(rb'<a href="#t([0-9]+)">.*?<td class="n">(.*?)</td>.*?<rect width="([0-9.]+)%"', table)
    return [(int(place), text, units_of(width)) for place, text, width in rows]


def rows_of(ranks, text):
    """The rows for values with their places."""
    return [(place, text(value), value * 10_000 // ranks[0][0]) for value, place in ranks]


def bars_on(page, group):
    """The bars of a group: place, x and width in units, and whether the target failed."""
    found = part(page, b'<g class="' + group + b'"', b"</g>")
    return [(int(place), units_of(x), units_of(width), b"#c62828" in before + after)
            for place, x, _, width, before, _, after in BAR.findall(found)]


def number_text(number):
    return b"%d" % number


class Modelled:
    """What the model computes for the logs of `all` and other targets, in milliseconds after the first time."""

    def __init__(self, logs, factor):
        self.page = model_of(logs)
        timing = self.page.timing
        self.is_timed, timing.timed = timing.timed, True  # So that the tables are written.
        self.window = Window((timing.window.began - FIRST) // factor, timing.window.width // factor)
        self.took, self.sum, self.most = timing.took // factor, timing.total // factor, most_at_once(timing.recipes)
        self.callers, self.recipes, self.marks = (
            [Span((span.began - FIRST) // factor, span.place, (span.ended - FIRST) // factor, span.failed) for span in spans]
            for spans in (timing.parents, timing.recipes, timing.marks))


# ---- a small build ---------------------------------------------------------------------------------------------------

# `all` ran two others at the same time, and one of these failed. Only the end of `c` is known, and no time of `d`. Nobody mentions `e`,
# which says that `c` is done. Logs are not listed in the order of the tree.
SMALL = {
    b"a": b"x" * 19 + b"\n" + ran(b"a", 1020, 1070),
    b"c": b"warning: 12345678\n" + b"warning:1234567\n" + record(b"do", UNTIMED, b"d"),
    b"b": b"warning:\n" * 4 + ran(b"b", 1050, 1090, 2),
    b"all": record(b"do", time(1010), b"all") + record(b"do", time(1020), b"a") + record(b"do", time(1050), b"b") + record(b"do", UNTIMED, b"c")
    + b"x" * 9 + b"\n" + record(b"done", time(1100), b"1 all"),
    b"e": record(b"do", time(1), b"e") + record(b"done", time(1095), b"0 c") + record(b"done", time(9999), b"0 e"),
    **{b"f%d" % number: b"" for number in range(4)},
    b"d": b"x" * 49 + b"\n",
}
# Six more recipes without length, in `all`: then one mark of ten spans and marks is no more than a tenth.
MORE = [b"g%d" % number for number in range(6)]
TIMED_SMALL = {**SMALL, b"all": SMALL[b"all"].replace(b"x" * 9, b"".join(ran(name, 1100, 1100) for name in MORE) + b"x" * 9),
               **{name: b"" for name in MORE}}


def expect_small(checks, program):
    page = page_of_logs(program, SMALL)
    wanted = {b"Targets": b"5", b"Failed": b"1, and 1 dependent", b"Lines with warning:": b"6", b"Logs": b"150 bytes", b"Took": b"0.09 s"}
    checks.expect("a small build: tiles", tiles_on(page), wanted)
    checks.expect("a small build: tables", re.findall(rb"<h3>([A-Z].*?)</h3>", page), [b"Most warnings"])
    checks.expect("a small build: most warnings", table_on(page, b"Most warnings"), rows_of([(4, 2), (2, 3)], number_text))
    checks.expect("a small build: no timeline", (page.count(NO_TIMELINE % (1, 4)), page.count(b'id="timeline"')), (1, 0))
    checks.expect("a small build: the model", page, made_page(SMALL))
    model = Modelled(SMALL, 1)
    checks.expect("a small build: window", (model.window, model.took, model.is_timed), (Window(1010, 90), 90, False))
    checks.expect("a small build: callers", model.callers, [Span(1010, 0, 1100, True)])
    checks.expect("a small build: recipes", model.recipes, [Span(1020, 1, 1070, False), Span(1050, 2, 1090, True)])
    checks.expect("a small build: marks", model.marks, [Span(1095, 3, 1095, False)])
    checks.expect("a small build: sum and number at once", (model.sum, model.most), (90, 2))
    checks.expect("a small build: longest", table_on(model.page.longest(), b"Longest"), rows_of([(50, 1), (40, 2)], duration))
    checks.expect("a small build: alone", table_on(model.page.longest_alone(), b"Longest alone"), rows_of([(30, 1), (20, 2)], duration))


def expect_timed_small(checks, program):
    page = page_of_logs(program, TIMED_SMALL)
    times = [tiles_on(page).get(term) for term in (b"Took", b"Sum of times", b"At once", b"Logs", b"Lines with warning:")]
    checks.expect("a small build with times: tiles", times, [b"0.09 s", b"0.09 s", b"1.0, at most 2", b"150 bytes", b"6"])
    rows = rows_of([(50, 1), (40, 2), *((0, place) for place in range(5, 11))], duration)
    checks.expect("a small build with times: longest", table_on(page, b"Longest"), rows)
    checks.expect("a small build with times: alone", table_on(page, b"Longest alone"), rows_of([(30, 1), (20, 2)], duration))
    # A unit is 0.009 ms. The bar of `b` is in another lane, and the six others are one bar.
    checks.expect("a small build with times: callers", bars_on(page, b"w"), [(0, 0, 10_000, True)])
    recipes = [(1, 1111, 5555, False), (5, 10_000, 10, False), (2, 4444, 4444, True)]
    checks.expect("a small build with times: recipes", bars_on(page, b"k"), recipes)
    checks.expect("a small build with times: marks", bars_on(page, b"e"), [(3, 9444, 10, False)])


# ---- a target that another one needs ---------------------------------------------------------------------------------

# `q` ran `x`, and later `s` did. `p` needs it, and is mentioned first, so the log of `p` contains the log of `x`. `r` found that it was
# unchanged.
NEEDED = {
    b"all": record(b"do", time(1000), b"all") + ran(b"p", 1040, 1060) + ran(b"q", 1010, 1030) + ran(b"r", 1005, 1035)
    + ran(b"s", 1040, 1080) + record(b"done", time(1100), b"0 all"),
    b"p": record(b"do", time(1040), b"p") + ran(b"x", 1012, 1028) + record(b"done", time(1060), b"0 p"),
    b"q": record(b"do", time(1010), b"q") + ran(b"x", 1012, 1028) + record(b"done", time(1030), b"0 q"),
    b"r": record(b"do", time(1005), b"r") + record(b"unchanged", time(1030), b"x") + record(b"done", time(1035), b"0 r"),
    b"s": record(b"do", time(1040), b"s") + ran(b"x", 1042, 1078) + record(b"done", time(1080), b"0 s"),
    b"x": ran(b"x", 1012, 1028),
}


def expect_needed(checks, program):
    page = page_of_logs(program, NEEDED)
    times = [tiles_on(page).get(term) for term in (b"Took", b"Sum of times", b"At once")]
    checks.expect("a target that another one needs: tiles", times, [b"0.10 s", b"0.06 s", b"0.6, at most 2"])
    checks.expect("a target that another one needs: longest", table_on(page, b"Longest"), rows_of([(30, 4), (20, 1), (16, 2)], duration))
    checks.expect("a target that another one needs: callers", bars_on(page, b"w"),
                  [(0, 0, 10_000, False), (3, 1000, 2000, False), (5, 4000, 4000, False)])
    checks.expect("a target that another one needs: the model", page, made_page(NEEDED))


# ---- a larger build --------------------------------------------------------------------------------------------------

# `all` has an end, and no beginning. It made 30 others one after another: the one at place i took 100 + i hundredths of a second.
LARGER_SPANS = [(1000 * place, 1001 * place + 100) for place in range(1, 31)]


def larger(lines, more=b""):
    """Logs with these lines at each place. A unit of the spans is a hundredth of a second."""
    begun = b"".join(record(b"do", time(10 * began), b"t%d" % place) for place, (began, _) in enumerate(LARGER_SPANS, 1))
    logs = {b"all": begun + lines(0) + more + record(b"done", time(990_000), b"0 all")}
    for place, (_, ended) in enumerate(LARGER_SPANS, 1):
        logs[b"t%d" % place] = lines(place) + record(b"done", time(10 * ended), b"0 t%d" % place)
    return logs


LONGEST = [(100 + place, place) for place in range(30, 20, -1)]


def expect_larger(checks, program):
    logs = larger(lambda place: b"warning:\n" * (place % 3) or b"\n")
    page = page_of_logs(program, logs)
    # Eleven logs have one byte, ten have nine, and ten have eighteen.
    wanted = {b"Targets": b"31", b"Failed": b"0", b"Lines with warning:": b"30", b"Logs": b"281 bytes", b"Took": b"16 min 20 s",
              b"Sum of times": b"34.6 s", b"At once": b"0.0, at most 1"}
    checks.expect("a larger build: tiles", tiles_on(page), wanted)
    checks.expect("a larger build: tables", re.findall(rb"<h3>(.*?)</h3>", page), [b"Longest", b"Most warnings"])
    checks.expect("a larger build: longest", table_on(page, b"Longest"), rows_of(LONGEST, lambda value: duration(10 * value)))
    warned = rows_of([(2, place) for place in range(2, 30, 3)], number_text)
    checks.expect("a larger build: most warnings", table_on(page, b"Most warnings"), warned)
    checks.expect("a larger build: callers and marks", (bars_on(page, b"w"), bars_on(page, b"e")), ([], []))
    checks.expect("a larger build: the model", page, made_page(logs))
    model = Modelled(logs, 10)
    checks.expect("a larger build: window", (model.window, model.took, model.is_timed), (Window(1000, 98_000), 98_000, True))
    spans = [Span(began, place, ended, False) for place, (began, ended) in enumerate(LARGER_SPANS, 1)]
    checks.expect("a larger build: spans", (model.callers, model.recipes, model.marks), ([], spans, []))
    checks.expect("a larger build: sum and number at once", (model.sum, model.most), (3465, 1))


def expect_larger_alone(checks, program):
    """Another recipe, without length, begins while the last one runs. So two run at once, and the page says who was alone."""
    page = page_of_logs(program, {**larger(lambda place: b"\n", ran(b"x", 300_500, 300_500)), b"x": b""})
    checks.expect("a larger build: alone", table_on(page, b"Longest alone"), rows_of(LONGEST, lambda value: duration(10 * value)))
    checks.expect("a larger build: sizes", (tiles_on(page)[b"Logs"], tiles_on(page)[b"At once"]), (b"31 bytes", b"0.0, at most 2"))


# ---- what recipes used, and how long they took -----------------------------------------------------------------------

# Nothing is known of the third of five recipes, nor of the last one. The fourth one has no memory. `all` ran all of them.
USAGE_NAMES = b"9 all\n7 a\n5 b\n3 c\n2 d\n1 e\n"
USAGE_LOG = b"".join(record(b"do", time(10), name) + record(b"done", time(20), b"0 " + name) for name in (b"a", b"b", b"c", b"d", b"e"))
USAGE_LOG = record(b"do", time(10), b"all") + USAGE_LOG + record(b"done", time(20), b"0 all")
USAGE_FILE = b"9 log all\n9 usage %d %d 9000\n7 log a\n7 usage %d %d 2000\n5 log b\n3 log c\n3 usage %d %d 0\n2 log d\n2 usage %d %d 3000\n"
USAGES = (100, 50, 30, 5, 7, 1, 4, 0)


def expect_usage(checks, program):
    files = {"names": USAGE_NAMES, "log.9": USAGE_LOG}
    for factor, wanted in ((1, b"0.04 s"), (10, b"0.47 s")):
        page = page_of_files(program, {**files, "facts": USAGE_FILE % tuple(factor * ms for ms in USAGES)})
        checks.expect(f"usage: processor time, {factor}", tiles_on(page).get(b"Processor time"), wanted)
        memory = [(4, b"3.0 MB", 10_000), (1, b"2.0 MB", 6666)]
        checks.expect(f"usage: most memory, {factor}", table_on(page, b"Most memory"), memory)
    page = page_of_files(program, files)
    checks.expect("usage without facts", (tiles_on(page).get(b"Processor time"), b"Most memory" in page), (None, False))


def expect_durations(checks, program):
    """The second target has an end only, and the third one no time."""
    others = record(b"do", UNTIMED, b"a") + record(b"done", time(7), b"0 a") + record(b"do", UNTIMED, b"b")
    log = record(b"do", time(1000), b"all") + others + record(b"done", time(5500), b"0 all")
    page = page_of_files(program, {"names": b"1 all\n2 a\n3 b\n", "log.1": log})
    headings = re.findall(rb'<(?:details open|li) id="t[0-9]">(?:<summary>)?(.*?)</(?:summary|li)>', page)
    dot = "\u00b7".encode()
    wanted = [b"<bdi>all</bdi> <small>%s 4.50 s</small> <small>%s 2 below</small>" % (dot, dot), b"<bdi>a</bdi>",
              b'<bdi>b</bdi> <strong class="o">unfinished</strong>']
    checks.expect("durations", headings, wanted)


# ---- all -------------------------------------------------------------------------------------------------------------


def expect_summaries(checks, program):
    expect_small(checks, program)
    expect_timed_small(checks, program)
    expect_needed(checks, program)
    expect_larger(checks, program)
    expect_larger_alone(checks, program)
    expect_usage(checks, program)
    expect_durations(checks, program)
