"""Timelines of pages that were worked out by hand: the bars of spans, the most that ran at once, and how long each ran alone.

Each span is a target of a capture directory. The page of the built program must show the values of the tables, and the model of a page
must compute them. Times are in seconds, so that a page shows them in full. A target whose end is before its beginning has no span on a
page, and no time of a build is outside of its window: only the model computes such cases, and rows in crates/redo_timeline/proofs.
"""
import os
import re
from concurrent.futures import ThreadPoolExecutor

import chart_model
from chart_model import Bar, Span, Window
from times_model import duration
from worked_examples import part, record
from worked_pages import UNTIMED, page_of_files, ran

LANES = 96  # The most lanes of recipes on a page.


def files_of(spans, window=None):
    """A capture of spans, by the places of their targets in the tree. `all` ran them during the window, if one is given."""
    last = max(spans, default=0)
    log = b"".join(record(b"do", UNTIMED, b"t%d" % place) for place in range(1, last + 1))
    log += b"".join(ran(b"t%d" % place, 1000 * began, 1000 * ended, failed) for place, (began, ended, failed) in spans.items())
    if window:
        log += ran(b"all", 1000 * window.began, 1000 * (window.began + window.width))
    return {"names": b"1 all\n" + b"".join(b"%d t%d\n" % (place + 1, place) for place in range(1, last + 1)), "log.1": log}


# ---- bars ------------------------------------------------------------------------------------------------------------

WHOLE = Window(0, 10_000)
# A window, the most lanes, and spans: when they began and ended, their places, and whether they failed. Then their bars and the number of
# lanes. Of a bar: lane, x, width, place and number of spans, when it began and ended, and whether it failed.
TIMELINES = [
    ("no span", WHOLE, 4, [], [], 0),
    ("one span", WHOLE, 4, [(5, 8, 3, 0)], [(0, 5, 10, 3, 1, 5, 8, 0)], 1),
    ("they overlap", WHOLE, 4, [(0, 100, 0, 0), (50, 150, 1, 0)], [(0, 0, 100, 0, 1, 0, 100, 0), (1, 50, 100, 1, 1, 50, 150, 0)], 2),
    ("they touch", WHOLE, 4, [(0, 100, 0, 0), (100, 200, 1, 0)], [(0, 0, 100, 0, 1, 0, 100, 0), (0, 100, 100, 1, 1, 100, 200, 0)], 1),
    ("not in order", WHOLE, 4, [(100, 200, 0, 0), (0, 100, 1, 0)], [(0, 0, 100, 1, 1, 0, 100, 0), (0, 100, 100, 0, 1, 100, 200, 0)], 1),
    ("equal ones", WHOLE, 4, [(0, 100, 1, 0), (0, 100, 0, 0)], [(0, 0, 100, 0, 1, 0, 100, 0), (1, 0, 100, 1, 1, 0, 100, 0)], 2),
    ("the third one takes the lane of the first one", WHOLE, 4, [(0, 100, 0, 0), (50, 300, 1, 0), (100, 200, 2, 0), (150, 400, 3, 0)],
     [(0, 0, 100, 0, 1, 0, 100, 0), (0, 100, 100, 2, 1, 100, 200, 0), (1, 50, 250, 1, 1, 50, 300, 0), (2, 150, 250, 3, 1, 150, 400, 0)], 3),
    ("two lanes are allowed", WHOLE, 2, [(0, 100, 0, 0), (10, 100, 1, 0), (20, 100, 2, 0), (30, 35, 3, 0)],
     [(0, 0, 100, 0, 1, 0, 100, 0), (1, 10, 90, 1, 1, 10, 100, 0), (1, 20, 80, 2, 1, 20, 100, 0), (1, 30, 10, 3, 1, 30, 35, 0)], 2),
    ("none is allowed, so one is", WHOLE, 0, [(0, 100, 0, 0), (10, 100, 1, 0)],
     [(0, 0, 100, 0, 1, 0, 100, 0), (0, 10, 90, 1, 1, 10, 100, 0)], 1),
    ("narrow ones that are 9 units apart", WHOLE, 4, [(0, 10, 0, 0), (19, 25, 1, 0)], [(0, 0, 25, 0, 2, 0, 25, 0)], 1),
    ("10 units", WHOLE, 4, [(0, 10, 0, 0), (20, 25, 1, 0)], [(0, 0, 10, 0, 1, 0, 10, 0), (0, 20, 10, 1, 1, 20, 25, 0)], 1),
    ("49 units wide", WHOLE, 4, [(0, 19, 0, 0), (25, 40, 1, 0), (45, 49, 2, 0)], [(0, 0, 49, 0, 3, 0, 49, 0)], 1),
    ("50 units wide", WHOLE, 4, [(0, 19, 0, 0), (25, 40, 1, 0), (45, 50, 2, 0)],
     [(0, 0, 40, 0, 2, 0, 40, 0), (0, 45, 10, 2, 1, 45, 50, 0)], 1),
    ("19 units are narrow", WHOLE, 4, [(0, 19, 0, 0), (20, 39, 1, 0)], [(0, 0, 39, 0, 2, 0, 39, 0)], 1),
    ("20 units aren't", WHOLE, 4, [(0, 20, 0, 0), (20, 39, 1, 0)], [(0, 0, 20, 0, 1, 0, 20, 0), (0, 20, 19, 1, 1, 20, 39, 0)], 1),
    ("a narrow one that failed", WHOLE, 4, [(0, 10, 0, 0), (12, 14, 1, 1), (15, 20, 2, 0)],
     [(0, 0, 10, 0, 1, 0, 10, 0), (0, 12, 30, 1, 1, 12, 14, 1), (0, 15, 10, 2, 1, 15, 20, 0)], 1),
    ("no length", WHOLE, 4, [(5, 5, 1, 0), (5, 5, 0, 0)], [(0, 5, 10, 0, 2, 5, 5, 0)], 1),
    ("it ended before it began", WHOLE, 4, [(10, 5, 0, 0)], [(0, 10, 10, 0, 1, 10, 5, 0)], 1),
    ("a unit is two seconds", Window(1000, 20_000), 2, [(5000, 5020, 0, 0), (5010, 9010, 1, 1), (5024, 5030, 2, 0), (1000, 5000, 3, 0)],
     [(0, 0, 2000, 3, 1, 1000, 5000, 0), (0, 2000, 15, 0, 2, 5000, 5030, 0), (1, 2005, 2000, 1, 1, 5010, 9010, 1)], 2),
    ("times outside of the window", Window(1000, 2000), 4, [(0, 5000, 0, 0)], [(0, 0, 10_000, 0, 1, 0, 5000, 0)], 1),
    # Each span begins when the one before ends, and the last one has the first place.
    ("300 spans", WHOLE, 4, [(9970 - 30 * place, 10_000 - 30 * place, place, 0) for place in range(300)],
     [(0, 1000 + 30 * row, 30, 299 - row, 1, 1000 + 30 * row, 1030 + 30 * row, 0) for row in range(300)], 1),
]
BAR = re.compile(rb'<a href="#t([0-9]+)" tabindex="-1"><(?:rect|svg) x="([0-9.]+)%" y="([0-9]+)" width="([0-9.]+)%" height="[0-9]+"(.*?)'
                 rb"<title>(.*?)</title>(.*?)</a>")
# Cases whose spans no page has.
NOT_ON_PAGES = ["no span", "it ended before it began", "times outside of the window"]


def bars_on(page):
    """The bars of recipes: place, x and width in units, y, whether it failed, and tooltip."""
    group = part(page, b'<g class="k" fill="#3a6ea5">', b"</g>")
    return [(int(place), units_of(x), units_of(width), int(y), b"#c62828" in before + after, title)
            for place, x, y, width, before, title, after in BAR.findall(group)]


def units_of(percent):
    return int(percent.replace(b".", b""))


def drawn(bar, before):
    """What a page shows of a bar, if so many others are in lanes of their own before it. The bar of `all` is above them."""
    lane, x, width, place, count, began, ended, failed = bar
    target, took = b"t%d" % (before + 1 + place), duration(1000 * (ended - began))
    title = b"%d targets in %s, from %s" % (count, took, target) if count > 1 else target + b", " + took + b", exit 1" * failed
    return before + 1 + place, x, width, 40 + (before + lane) * (8 if before else 18), bool(failed), title


def lanes_before(most):
    """How many lanes others must take, so that a page has no more left than are allowed. No case needs more than four."""
    return LANES - max(most, 1) if most < 4 else 0


def timeline_page(program, case):
    what, window, most, spans, bars, lanes = case
    before = lanes_before(most)
    others = {place: (window.began, window.began + window.width, 0) for place in range(1, before + 1)}
    given = {before + 1 + place: (began, ended, failed) for began, ended, place, failed in spans}
    return page_of_files(program, files_of({**others, **given}, window))


def expect_timeline(checks, case, page):
    what, window, most, spans, bars, lanes = case
    before = lanes_before(most)
    checks.expect(f"bars of {what}", bars_on(page)[before:], [drawn(bar, before) for bar in bars])
    checks.expect(f"lanes of {what}", re.findall(rb" in ([0-9]+) lanes?\"", page), [b"%d" % (before + lanes)])


# ---- at once, and alone ----------------------------------------------------------------------------------------------

# Spans, and the greatest number of them that run at one time.
AT_ONCE = [
    ([], 0), ([(5, 9)], 1), ([(0, 10), (10, 20)], 1), ([(9, 20), (0, 10)], 2), ([(5, 5), (5, 5)], 1), ([(0, 10), (5, 5)], 2),
    ([(5, 6), (3, 7), (0, 10), (7, 9)], 3), ([(10, 5), (4, 11)], 2),
]
# Spans, and how long each runs alone.
ALONE = [
    ([], []), ([(5, 9)], [4]),
    # They touch, have a gap, and overlap.
    ([(0, 10), (10, 20)], [10, 10]), ([(10, 14), (0, 3)], [4, 3]), ([(9, 20), (0, 10)], [10, 9]),
    # One runs while another one does, and one is equal to another one.
    ([(0, 10), (3, 5)], [8, 0]), ([(2, 7), (2, 7)], [0, 0]),
    # No length, and an end before the beginning.
    ([(5, 5), (0, 10)], [0, 10]), ([(9, 4), (0, 10)], [0, 10]),
    # Three at once, and two that follow each other while another one runs.
    ([(0, 10), (2, 6), (4, 8)], [4, 0, 0]), ([(0, 10), (2, 5), (5, 8), (9, 13)], [3, 0, 0, 3]),
]
END = 40  # All times of the random spans are before this one.
PAIR = (5000, 5001)  # When two others run at once, so that a page has the table.
MANY = 100_000


def random_spans():
    """Sets of random spans, with how long each runs alone: each second is looked at."""
    state, found = 1, []

    def random_time():
        nonlocal state
        state = (state * 6364136223846793005 + 1442695040888963407) % 2**64
        return state // 2**33 % END

    for count in range(60):
        spans = [(random_time(), random_time()) for _ in range(count % 12)]
        running = [[at for at, (began, ended) in enumerate(spans) if began <= second < ended] for second in range(END)]
        found.append((spans, [running.count([at]) for at in range(len(spans))]))
    return found


def of_model(spans):
    return [Span(began, place, ended, False) for place, (began, ended) in enumerate(spans)]


def possible(spans):
    """The spans that a page can have, by their places."""
    return {place: (began, ended, 0) for place, (began, ended) in enumerate(spans, 1) if began <= ended}


def in_turn(cases):
    """The cases one after another in time, in as few captures as have tables with rows for all of them."""
    captures, spans, wanted = [], [], []
    for case_spans, case_wanted in cases:
        if sum(seconds > 0 for seconds in wanted + case_wanted) > 10:
            captures.append((spans, wanted))
            spans, wanted = [], []
        after = max((max(span) for span in spans), default=0)
        spans, wanted = spans + [(after + began, after + ended) for began, ended in case_spans], wanted + case_wanted
    return [*captures, (spans, wanted)]


def alone_page(program, spans):
    pair = {len(spans) + number: (*PAIR, 0) for number in (1, 2)}
    return page_of_files(program, files_of({**possible(spans), **pair}))


def alone_on(page):
    """The rows of the table of the recipes that ran longest alone."""
    table = part(page, b"<h3>Longest alone</h3>", b"</table>") or b""
    return [(int(place), text) for place, text in re.findall(rb'<a href="#t([0-9]+)">.*?<td class="n">(.*?)</td>', table)]


def first_rows(times):
    """The rows for these times in milliseconds, by place: of the ten longest ones."""
    rows = sorted((-ms, place) for place, ms in enumerate(times, 1) if ms)
    return [(place, duration(-ms)) for ms, place in rows[:10]]


def many_spans(count):
    """Spans in milliseconds, which overlap for 10 ms and have the last one first, and how long each runs alone."""
    return [(3_000_000 - 20 * place, 3_000_030 - 20 * place) for place in range(count)], [20, *[10] * (count - 2), 20]


def expect_many(checks, program):
    spans, wanted = many_spans(MANY)
    checks.expect("the model's times alone of many", list(chart_model.times_alone(of_model(spans)).values()), wanted)
    names = b"1 all\n" + b"".join(b"%d %d\n" % (place + 1, place) for place in range(1, MANY + 1))
    page = page_of_files(program, {"names": names, "log.1": b"".join(ran(b"%d" % place, *span) for place, span in enumerate(spans, 1))})
    checks.expect("times alone of many", alone_on(page), first_rows(wanted))
    checks.expect("many at once", part(page, b", at most ", b"<"), b"2")


# ---- all -------------------------------------------------------------------------------------------------------------


def expect_model(checks, alone):
    for what, window, most, spans, bars, lanes in TIMELINES:
        rows = [Span(began, place, ended, bool(failed)) for began, ended, place, failed in spans]
        checks.expect(f"the model's timeline of {what}", chart_model.layout(window, most, rows), ([Bar(*bar) for bar in bars], lanes))
    for spans, wanted in AT_ONCE:
        checks.expect(f"the model's number at once of {spans}", chart_model.most_at_once(of_model(spans)), wanted)
    for spans, wanted in alone:
        checks.expect(f"the model's times alone of {spans}", list(chart_model.times_alone(of_model(spans)).values()), wanted)


def expect_timelines(checks, program):
    alone = ALONE + random_spans()
    captures = in_turn(alone)
    on_pages = [case for case in TIMELINES if case[0] not in NOT_ON_PAGES]
    at_once = [case for case in AT_ONCE if case[0] and len(possible(case[0])) == len(case[0])]
    expect_model(checks, alone)
    expect_many(checks, program)
    with ThreadPoolExecutor(os.cpu_count()) as pool:
        timelines = [pool.submit(timeline_page, program, case) for case in on_pages]
        most = [pool.submit(page_of_files, program, files_of(possible(spans))) for spans, _ in at_once]
        tables = [pool.submit(alone_page, program, spans) for spans, _ in captures]
    for case, page in zip(on_pages, timelines):
        expect_timeline(checks, case, page.result())
    checks.expect("300 spans at once", part(timelines[-1].result(), b", at most ", b"<"), b"1")
    for (spans, wanted), page in zip(at_once, most):
        checks.expect(f"the number at once of {spans}", part(page.result(), b", at most ", b"<"), b"%d" % wanted)
    for (spans, wanted), page in zip(captures, tables):
        checks.expect(f"times alone of {spans}", alone_on(page.result()), first_rows([1000 * seconds for seconds in wanted]))
