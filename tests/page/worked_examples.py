"""Checks the model of a page with examples that were worked out by hand, from the rules alone."""
import re
from typing import NamedTuple

import news_model
import page_model
from chart_model import Bar, Span, Window, axis, lanes_of, layout, meter_html, most_at_once, percent, step_of, times_alone, units
from page_model import level_of, page_of
from times_model import date, duration, logs_model, size, tenths, tick, time_value, times_of

checks = 0
failures = 0


def check(what, found, wanted):
    global checks, failures
    checks += 1
    if found != wanted:
        failures += 1
        print(f"{what!r}\n  found     {found!r}\n  expected  {wanted!r}")


# ---- texts -----------------------------------------------------------------------------------------------------------

for ms, wanted in [
    (0, b"0.00 s"), (1, b"0.00 s"), (9, b"0.00 s"), (10, b"0.01 s"), (999, b"0.99 s"), (1000, b"1.00 s"), (1234, b"1.23 s"), (1239, b"1.23 s"),
    (9999, b"9.99 s"), (10_000, b"10.0 s"), (12_345, b"12.3 s"), (59_999, b"59.9 s"), (60_000, b"1 min 00 s"), (125_000, b"2 min 05 s"),
    (125_999, b"2 min 05 s"), (3_599_999, b"59 min 59 s"), (3_600_000, b"1 h 00 min"), (3_725_000, b"1 h 02 min"),
    (86_400_000, b"24 h 00 min"), (604_800_000 + 59_999, b"168 h 00 min"), (2**44 - 1, b"4886718 h 20 min"),
]:
    check(("duration", ms), duration(ms), wanted)

for count, wanted in [
    (0, b"0 bytes"), (1, b"1 byte"), (2, b"2 bytes"), (999, b"999 bytes"), (1000, b"1.0 kB"), (1099, b"1.0 kB"), (1100, b"1.1 kB"),
    (46_099, b"46.0 kB"), (46_100, b"46.1 kB"), (999_999, b"999.9 kB"), (1_000_000, b"1.0 MB"), (64_000_000, b"64.0 MB"),
    (999_999_999, b"999.9 MB"), (10**9, b"1.0 GB"), (1_073_741_824, b"1.0 GB"), (123_456_789_012, b"123.4 GB"),
    (2**64 - 1, b"18446744073.7 GB"),
]:
    check(("size", count), size(count), wanted)

for a, b, wanted in [(0, 1, b"0.0"), (7000, 2000, b"3.5"), (2999, 1000, b"2.9"), (1, 3, b"0.3"), (1000, 1, b"1000.0"),
                     (2**64 - 1, 1, b"1844674407370955161.5"), (2**63, 2, b"922337203685477580.7")]:
    check(("tenths", a, b), tenths(a, b), wanted)

for seconds, wanted in [
    (0, b"Thu, 01 Jan 1970 00:00:00 GMT"), (1_000_000_000, b"Sun, 09 Sep 2001 01:46:40 GMT"), (951_782_400, b"Tue, 29 Feb 2000 00:00:00 GMT"),
    (1_795_829_211, b"Sat, 28 Nov 2026 01:26:51 GMT"), (4_107_542_399, b"Sun, 28 Feb 2100 23:59:59 GMT"),
    (4_107_542_400, b"Mon, 01 Mar 2100 00:00:00 GMT"), (9_999_999_999, b"Sat, 20 Nov 2286 17:46:39 GMT"),
    (253_402_300_799, b"Fri, 31 Dec 9999 23:59:59 GMT"), (253_402_300_800, None), (2**64, None),
]:
    check(("date", seconds), date(seconds), wanted)

for ms, step, wanted in [
    (0, 1, b"0"), (0, 86_400_000, b"0"), (1, 1, b"0.001 s"), (5, 5, b"0.005 s"), (20, 10, b"0.02 s"), (20, 20, b"0.02 s"), (150, 50, b"0.15 s"),
    (100, 100, b"0.1 s"), (500, 500, b"0.5 s"), (1500, 500, b"1.5 s"), (1000, 1000, b"1 s"), (45_000, 15_000, b"45 s"), (60_000, 15_000, b"1:00"),
    (90_000, 30_000, b"1:30"), (65_000, 5000, b"1:05"), (3_540_000, 60_000, b"59:00"), (3_600_000, 600_000, b"1:00 h"),
    (4_500_000, 900_000, b"1:15 h"), (86_400_000, 43_200_000, b"24:00 h"), (864_000_000, 86_400_000, b"240:00 h"),
]:
    check(("tick", ms, step), tick(ms, step), wanted)

# ---- times of logs ---------------------------------------------------------------------------------------------------

for time, wanted in [
    (b"1600000000", 1_600_000_000_000), (b"1600000000.5", 1_600_000_000_500), (b"1600000000.06", 1_600_000_000_060),
    (b"1600000000.123456789", 1_600_000_000_123), (b"1600000000.9999", 1_600_000_000_999), (b"0001600000000.1", 1_600_000_000_100),
    (b"999999999.999", None), (b"1000000000", 1_000_000_000_000), (b"9999999999.999", 9_999_999_999_999), (b"10000000000", None), (b"1", None),
    (b"99999999999999999999.9", None),
]:
    check(("time", time), time_value(time), wanted)


def record(kind, seconds, text):
    return b"@@REDO:%s:7:%s@@ %s\n" % (kind, seconds if isinstance(seconds, bytes) else b"%d" % (1_600_000_000 + seconds), text)


def after(*ms):
    return tuple(None if time is None else 1_600_000_000_000 + time for time in ms)


for what, logs, wanted in [
    ("no record", {b"all": b"x\n"}, {b"all": (None, None)}),
    ("a log of its own", {b"a": record(b"do", 1, b"a") + record(b"done", 3, b"0 a")}, {b"a": after(1000, 3000)}),
    ("the first beginning and the end in its own log",
     {b"all": record(b"do", 5, b"d/a") + record(b"done", 90, b"1 d/a"), b"d/a": record(b"do", 4, b"../d/a") + record(b"do", 6, b"a") + record(b"done", 8, b"1 a"),
      b"z": record(b"done", 99, b"0 d/a")}, {b"all": (None, None), b"d/a": after(4000, 8000), b"z": (None, None)}),
    ("the last end in other logs", {b"all": record(b"done", 3, b"0 a") + record(b"done", 5, b"0 a") + record(b"done", 4, b"0 a"), b"a": b""},
     {b"all": (None, None), b"a": after(None, 5000)}),
    ("the clock was set back", {b"a": record(b"do", 9, b"a") + record(b"done", 3, b"0 a")}, {b"a": after(None, 3000)}),
    ("a beginning in another log, before one in its own log", {b"all": record(b"do", 2, b"a"), b"a": record(b"do", 9, b"a") + record(b"done", 3, b"0 a")},
     {b"all": (None, None), b"a": after(None, 3000)}),
    ("a failed build after an earlier one", {b"all": record(b"do", 2, b"a") + record(b"done", 3, b"0 a"), b"a": record(b"do", 8, b"a") + record(b"done", 9, b"2 a")},
     {b"all": (None, None), b"a": after(8000, 9000)}),
    ("a killed build after an earlier one", {b"all": record(b"do", 2, b"a") + record(b"done", 3, b"0 a"), b"a": record(b"do", 8, b"a") + b"x\n"},
     {b"all": (None, None), b"a": after(8000, None)}),
    ("the end in another log, if its own log is silent", {b"all": record(b"do", 2, b"a") + record(b"done", 3, b"0 a"), b"a": b"x\n"},
     {b"all": (None, None), b"a": after(2000, 3000)}),
    ("no length", {b"a": record(b"do", 3, b"a") + record(b"done", 3, b"0 a")}, {b"a": after(3000, 3000)}),
    ("no end", {b"a": record(b"do", 3, b"a") + b"x\n"}, {b"a": after(3000, None)}),
    ("other kinds", {b"a": b"".join(record(kind, 3, b"a") for kind in (b"waiting", b"locked", b"unlocked", b"unchanged", b"check", b"dos"))},
     {b"a": (None, None)}),
    ("text, and an unended line", {b"a": b" " + record(b"do", 3, b"a") + record(b"done", 4, b"0 a")[:-1]}, {b"a": (None, None)}),
    ("an end in its own log that doesn't count", {b"all": record(b"done", 5, b"0 a"), b"a": record(b"done", b"1", b"0 a")},
     {b"all": (None, None), b"a": after(None, 5000)}),
    ("targets that are not listed", {b"a": record(b"do", 3, b"b") + record(b"done", 4, b"0 b")}, {b"a": (None, None)}),
]:
    check(what, {target: (known.began, known.ended) for target, known in times_of(list(logs.items())).items()}, wanted)

# ---- layout ----------------------------------------------------------------------------------------------------------

WHOLE = Window(1000, 10_000)  # A unit is a millisecond.

for time, window, wanted in [(0, WHOLE, 0), (1000, WHOLE, 0), (1001, WHOLE, 1), (11_000, WHOLE, 10_000), (99_000, WHOLE, 10_000),
                             (2, Window(1, 3), 3333), (3, Window(1, 3), 6666), (4, Window(1, 3), 10_000), (5, Window(5, 1), 0)]:
    check(("units", time, window), units(window, time), wanted)


def spans(*rows):
    return [Span(*row, False) for row in rows]


def places(lanes):
    return [[span.place for span in lane] for lane in lanes]


for what, rows, most, wanted in [
    ("none", [], 4, []),
    ("one after another", [(0, 1, 5), (5, 2, 9)], 4, [[1, 2]]),
    ("at once", [(0, 1, 5), (4, 2, 9)], 4, [[1], [2]]),
    ("the lowest free lane", [(0, 1, 9), (0, 2, 3), (1, 3, 3), (4, 4, 5), (9, 5, 9)], 9, [[1, 5], [2, 4], [3]]),
    ("in order of their beginnings, then of places", [(5, 1, 6), (0, 3, 6), (0, 2, 6)], 9, [[2], [3], [1]]),
    ("equal times take one lane", [(3, 1, 3), (3, 2, 3)], 9, [[1, 2]]),
    ("the last lane allowed", [(0, 1, 9), (0, 2, 9), (0, 3, 2), (2, 4, 3), (9, 5, 9)], 2, [[1, 5], [2, 3, 4]]),
    ("one lane", [(0, 1, 9), (0, 2, 9)], 1, [[1, 2]]),
    ("no lane", [(0, 1, 9), (0, 2, 9)], 0, [[1, 2]]),
]:
    check(what, places(lanes_of(spans(*rows), most)), wanted)

for what, rows, wanted in [
    ("none", [], 0), ("one without length", [(3, 1, 3)], 1), ("two without length", [(3, 1, 3), (3, 2, 3)], 1),
    ("one in another", [(0, 1, 9), (3, 2, 3)], 2), ("one after another", [(0, 1, 3), (3, 2, 5)], 1), ("three", [(0, 1, 4), (1, 2, 4), (3, 3, 9), (4, 4, 9)], 3),
]:
    check(("at once", what), most_at_once(spans(*rows)), wanted)

for what, rows, wanted in [
    ("none", [], {}), ("one without length", [(3, 1, 3)], {1: 0}), ("one", [(3, 1, 5)], {1: 2}), ("two equal ones", [(3, 1, 5), (3, 2, 5)], {1: 0, 2: 0}),
    ("one in another", [(0, 1, 9), (3, 2, 4)], {1: 8, 2: 0}), ("one after another", [(0, 1, 3), (3, 2, 5)], {1: 3, 2: 2}),
    ("they overlap", [(0, 1, 4), (1, 2, 6), (9, 3, 9)], {1: 1, 2: 2, 3: 0}), ("a gap", [(0, 1, 1), (5, 2, 7)], {1: 1, 2: 2}),
]:
    check(("alone", what), times_alone(spans(*rows)), wanted)

for what, rows, wanted in [
    ("a wide one", spans((1000, 1, 2000)), [Bar(0, 0, 1000, 1, 1, 1000, 2000, False)]),
    ("a narrow one", spans((1000, 1, 1001)), [Bar(0, 0, 10, 1, 1, 1000, 1001, False)]),
    ("one that failed", [Span(1000, 1, 1001, True)], [Bar(0, 0, 30, 1, 1, 1000, 1001, True)]),
    ("two narrow ones", spans((1000, 1, 1019), (1028, 2, 1047)), [Bar(0, 0, 47, 1, 2, 1000, 1047, False)]),
    ("too far apart", spans((1000, 1, 1019), (1029, 2, 1030)), [Bar(0, 0, 19, 1, 1, 1000, 1019, False), Bar(0, 29, 10, 2, 1, 1029, 1030, False)]),
    ("the second isn't narrow", spans((1000, 1, 1010), (1010, 2, 1030)), [Bar(0, 0, 10, 1, 1, 1000, 1010, False), Bar(0, 10, 20, 2, 1, 1010, 1030, False)]),
    ("the first isn't narrow", spans((1000, 1, 1020), (1020, 2, 1021)), [Bar(0, 0, 20, 1, 1, 1000, 1020, False), Bar(0, 20, 10, 2, 1, 1020, 1021, False)]),
    ("49 wide", spans((1000, 1, 1019), (1019, 2, 1038), (1038, 3, 1049)), [Bar(0, 0, 49, 1, 3, 1000, 1049, False)]),
    ("50 wide", spans((1000, 1, 1019), (1019, 2, 1038), (1038, 3, 1050)), [Bar(0, 0, 38, 1, 2, 1000, 1038, False), Bar(0, 38, 12, 3, 1, 1038, 1050, False)]),
    ("one that failed stays alone", [Span(1000, 1, 1001, False), Span(1001, 2, 1002, True), Span(1002, 3, 1003, False)],
     [Bar(0, 0, 10, 1, 1, 1000, 1001, False), Bar(0, 1, 30, 2, 1, 1001, 1002, True), Bar(0, 2, 10, 3, 1, 1002, 1003, False)]),
]:
    check(("bars", what), layout(WHOLE, 9, rows), (wanted, 1))
check("bars in one lane, over each other", layout(WHOLE, 1, spans((1000, 1, 1019), (1001, 2, 1003), (1004, 3, 1004), (5000, 4, 9000), (6000, 5, 7000))),
      ([Bar(0, 0, 19, 1, 3, 1000, 1019, False), Bar(0, 4000, 4000, 4, 1, 5000, 9000, False), Bar(0, 5000, 1000, 5, 1, 6000, 7000, False)], 1))
check("two lanes", layout(WHOLE, 9, spans((1000, 1, 3000), (2000, 2, 4000), (3000, 3, 3001))),
      ([Bar(0, 0, 2000, 1, 1, 1000, 3000, False), Bar(0, 2000, 10, 3, 1, 3000, 3001, False), Bar(1, 1000, 2000, 2, 1, 2000, 4000, False)], 2))

# ---- charts ----------------------------------------------------------------------------------------------------------

for hundredths, wanted in [(0, b"0.00%"), (7, b"0.07%"), (30, b"0.30%"), (1234, b"12.34%"), (10_000, b"100.00%"), (10_030, b"100.30%")]:
    check(("percent", hundredths), percent(hundredths), wanted)
check("a meter", meter_html(1234), b'<svg width="100%" height="10" aria-hidden="true"><rect width="12.34%" height="10" fill="#3a6ea5"></rect></svg>')

for width, wanted in [(1, 1), (10, 1), (11, 2), (20, 2), (21, 5), (10_000, 1000), (10_001, 2000), (100_000, 10_000), (100_001, 15_000),
                      (9_000_000, 900_000), (36_000_000, 3_600_000), (864_000_000, 86_400_000), (864_000_001, 864_000_001)]:
    check(("step", width), step_of(width), wanted)


def line(x, bottom):
    return b'<line x1="%s" x2="%s" y1="15" y2="%d"></line>' % (x, x, bottom)


check("an axis of 1 ms", axis(1, 60), line(b"0.00%", 56) + b'<text x="0.00%" y="11">0</text>' + line(b"100.00%", 56)
      + b'<text x="100.00%" y="11" text-anchor="end">0.001 s</text>')
check("an axis of 2.5 s", axis(2500, 64).count(b"<line"), 6)  # steps of 500 ms
check("its ticks", re.findall(rb">([^<]+)</text>", axis(2500, 64)), [b"0", b"0.5 s", b"1.0 s", b"1.5 s", b"2.0 s", b"2.5 s"])
check("ticks between", axis(3, 64)[len(line(b"0.00%", 60)) + len(b'<text x="0.00%" y="11">0</text>'):],
      line(b"33.33%", 60) + b'<text x="33.33%" y="11" text-anchor="middle">0.001 s</text>'
      + line(b"66.66%", 60) + b'<text x="66.66%" y="11" text-anchor="middle">0.002 s</text>'
      + line(b"100.00%", 60) + b'<text x="100.00%" y="11" text-anchor="end">0.003 s</text>')
check("an axis of weeks", axis(864_000_001, 64).count(b"<line"), 2)
check("a tick that ends at the edge", axis(8200, 64).count(b'"end"'), 1)  # The last tick is at 8000 of 8200 ms, 97.56 %.
check("a tick that doesn't", axis(8300, 64).count(b'"end"'), 0)  # 96.38 %

# ---- long logs -------------------------------------------------------------------------------------------------------

for sizes, budget, wanted in [
    ([], 1, None), ([5000, 9000], 0, None), ([5000, 9000], 14_000, None), ([5000, 9000], 13_999, 8999), ([5000, 9000], 10_001, 5001),
    ([5000, 9000], 10_000, 5000), ([5000, 9000], 9999, 4999), ([5000, 9000], 8192, 4096), ([5000, 9000], 1, 4096), ([100, 20_000], 10_000, 9900),
    ([10_000] * 3, 29_999, 9999), ([20_000_000, 1], 16_000_000, 15_999_999),
]:
    check(("level", sizes, budget), level_of(sizes, budget), wanted)


def made_page(logs, requested=(b"all",), **other):
    read = [logs_model.log_of(target, data) for target, data in logs.items()]
    assert all(log.fault is None for log in read)
    return page_of(read, list(requested), times=times_of(list(logs.items())), **other)


def part(page, begin, end):
    """The text between the first `begin` and the first `end` after it."""
    found = page.partition(begin)[2]
    return found.partition(end)[0] if end in found else None


def tile(term, value):
    return b"<div><dt>" + term + b"</dt><dd>" + value + b"</dd></div>"


NOTE = b'<li class="note">Lines are left out here. The command at the end of this page shows all of them.</li>'


def told(page):
    """The numbers that are the text lines of a tree, in order, and None for each note that lines are left out."""
    tree = part(page, b'<ul class="tree">', b"</section>")
    return [int(number) if number else None for number in re.findall(rb"^0*([0-9]+)$|" + NOTE, tree, re.M)]


def numbered(first, last, length=99):
    return b"".join(b"%0*d\n" % (length, number) for number in range(first, last + 1))


# 100 lines of 100 bytes, with 4,096 bytes shown: lines 1 to 10 end within the first 1,024, and the last 3,072 have 30 lines.
LONG = {b"all": record(b"do", 1, b"a") + numbered(1, 100) + record(b"done", 2, b"0 all"), b"a": b""}
page = made_page(LONG, max_bytes=5, directory=b"my dir")
check("a long log", part(page, b"<ul class=\"tree\">", b"</section>"),
      b'<li><details open id="t0"><summary><bdi>all</bdi> <small>\xc2\xb7 100 lines</small> <small>\xc2\xb7 1 below</small></summary><ul><li id="t1"><bdi>a</bdi> '
      b"<strong class=\"o\">unfinished</strong></li><li><pre>\n" + numbered(1, 10) + b"</pre></li>" + NOTE + b"<li><pre>\n" + numbered(71, 100)
      + b"</pre></li></ul></details></li></ul>")
check("its size", tile(b"Logs", b"10.0 kB") in page, True)
check("the command at the end", part(page, b"As one text: <code>", b"</code>"), b"redo-log -r --dir='my dir' all")
for budget in (0, 10_000, 10_001, 16_000_000):
    check(("a long log, whole", budget), told(made_page(LONG, max_bytes=budget)), [*range(1, 101)])
check("a long log, by default", made_page(LONG), made_page(LONG, max_bytes=0))
# A limit of one byte less than 10,000: the level is 9,999. The first 2,499 bytes have 24 lines, and the last 7,500 have 75.
check("one line is left out", told(made_page(LONG, max_bytes=9_999)), [*range(1, 25), None, *range(26, 101)])
# The level is 4,100: the first 1,025 bytes have 10 lines, and the last 3,075 have 30. It is 4,133, and the last 3,100 have 31.
for budget, wanted in [(4100, [*range(1, 11), None, *range(71, 101)]), (4133, [*range(1, 11), None, *range(70, 101)])]:
    check(("another level", budget), told(made_page(LONG, max_bytes=budget)), wanted)
# Ten lines of 1,024 bytes: the first one ends with the first 1,024 bytes, and the eighth one begins with the last 3,072.
for what, first, wanted in [("at the limits", 1023, [1, None, 8, 9, 10]), ("a byte more", 1024, [None, 8, 9, 10]), ("a byte less", 1022, [1, None, 8, 9, 10])]:
    check(what, told(made_page({b"all": numbered(1, 1, first) + numbered(2, 10, 1023)}, max_bytes=4096)), wanted)
# Nine lines of 1,024 bytes and another one: if that one has at most 1,024, the eighth begins within the last 3,072.
for last, wanted in [(1022, [1, None, 8, 9, 10]), (1023, [1, None, 8, 9, 10]), (1024, [1, None, 9, 10])]:
    check(("the tail", last), told(made_page({b"all": numbered(1, 9, 1023) + numbered(10, 10, last)}, max_bytes=4096)), wanted)
check("one long line", part(made_page({b"all": b"x" * 9000}, max_bytes=8999), b"</summary><ul>", b"</ul>"), NOTE)
# Of lines of 1,024, 5,000 and 1,024 bytes, the second one neither ends within the first 1,024 nor begins within the last 3,072.
check("a long line between", told(made_page({b"all": numbered(1, 1, 1023) + numbered(2, 2, 4999) + numbered(3, 3, 1023)}, max_bytes=4096)), [1, None, 3])
check("a long line at the end", told(made_page({b"all": numbered(1, 1, 1023) + numbered(2, 2, 4999)}, max_bytes=4096)), [1, None])
check("a long line at the start", told(made_page({b"all": numbered(1, 1, 4999) + numbered(2, 3, 99)}, max_bytes=4096)), [None, 2, 3])

# Other entries are shown at their places, and end no head. The note is where the first line is left out.
BETWEEN = {b"all": numbered(1, 10) + record(b"check", 1, b"x") + numbered(11, 40) + record(b"hint", 1, b"y") + numbered(41, 100)}
check("records between lines", part(made_page(BETWEEN, max_bytes=1), b"</summary><ul>", b"</ul>"),
      b"<li><pre>\n" + numbered(1, 10) + b'</pre></li><li class="note">(x)</li>' + NOTE + b'<li class="note">redo: y</li><li><pre>\n' + numbered(71, 100)
      + b"</pre></li>")
# Each of two logs of 100 lines has its own head and its own tail. The shorter one between them is whole.
NESTED = {b"all": numbered(1, 50) + record(b"do", 1, b"a") + numbered(51, 100), b"a": numbered(101, 150) + record(b"do", 1, b"b") + numbered(151, 200),
          b"b": numbered(201, 240)}
wanted = [*range(1, 11), None, *range(101, 111), None, *range(201, 241), *range(171, 201), *range(71, 101)]
check("logs in long ones", told(made_page(NESTED, max_bytes=1)), wanted)
# The budget has 12,196 bytes: 4,000 of the shortest log, and 4,098 of each of the other two.
check("a common level", (level_of([10_000, 10_000, 4000], 12_196), told(made_page(NESTED, max_bytes=12_196))), (4098, wanted))
# A line of 4,096 bytes is a log that isn't cut. A longer one neither ends in the head nor begins in the tail.
for length, wanted in [(4095, [201]), (4096, [None])]:
    check(("beside a long log", length), told(made_page({b"all": record(b"do", 1, b"a") + numbered(1, 100), b"a": numbered(201, 201, length)}, max_bytes=1)),
          [*wanted, *range(1, 11), None, *range(71, 101)])
# A colour ends with its block. In the whole log it goes on.
RED = {b"all": b"\x1b[31m" + numbered(1, 100)}
check("colours", [made_page(RED, max_bytes=budget).count(b'<span class="r">') for budget in (0, 1)], [100, 10])
check("no colour after lines that are left out", part(made_page(RED, max_bytes=1), NOTE, b"</ul>"), b"<li><pre>\n" + numbered(71, 100) + b"</pre></li>")
# Lines that are left out still are between the groups of silent logs.
ROW = [b"s%d" % number for number in range(10)]
GROUPS = {b"all": numbered(1, 15) + b"".join(record(b"do", 1, name) for name in ROW[:5]) + numbered(16, 20) + b"".join(record(b"do", 1, name) for name in ROW[5:])
          + numbered(21, 100), **{name: b"" for name in ROW}}
check("groups between lines that are left out", re.findall(rb'<li class="note">|<summary>[0-9]+ targets', made_page(GROUPS, max_bytes=1)),
      [b'<li class="note">', b"<summary>5 targets", b"<summary>5 targets"])
# The sixty-first log is not nested.
DEEP = {b"all": record(b"do", 1, b"d1"), **{b"d%d" % depth: record(b"do", 1, b"d%d" % (depth + 1)) for depth in range(1, 60)}, b"d60": numbered(1, 100)}
check("a log that is not nested", part(made_page(DEEP, max_bytes=1), b"<small>\xc2\xb7 level 60</small></li>", b"</ul>"),
      b"<li><pre>\n" + numbered(1, 10) + b"</pre></li>" + NOTE + b"<li><pre>\n" + numbered(71, 100) + b'</pre></li><li class="note">end of <bdi>d60</bdi></li>')
# An output of 300 lines is in an article, and not cut. One of 301 lines is in the tree, and the excerpt in its article has the last 60.
for count, wanted in [(300, []), (301, [*range(1, 11), None, *range(272, 302)])]:
    failed = made_page({b"all": record(b"do", 1, b"a"), b"a": numbered(1, count) + record(b"done", 2, b"1 a")}, max_bytes=1)
    article = [int(number) for number in re.findall(rb"^0*([0-9]+)$", part(failed, b"<article", b"</article>"), re.M)]
    check(("an output in an article", count), (told(failed), article), (wanted, [*range(1, 301)] if count == 300 else [*range(1, 11), *range(242, 302)]))
# The others are in the log. The tree shows fewer of them, because the log is cut.
check("what an excerpt leaves out", part(failed, b'<p class="cut">', b"</p>"), b'231 more lines: <a href="#t1">in its log</a>')

# Lines that report errors are emphasized in articles, with their line feeds and in the colour of the line before. In the tree they aren't.
ERRORS = made_page({b"all": b"cannot\n" + record(b"do", 1, b"a"), b"a": b"\x1b[31mone\nan error\n\x1b[mterror\nFAIL <1>\n" + record(b"done", 2, b"1 a")})
check("errors in an output", part(ERRORS, b"<article", b"</article>").partition(b"<pre>")[2],
      b'\n<span class="r">one\n</span><em><span class="r">an error\n</span></em>terror\n<em>FAIL &lt;1&gt;\n</em></pre>')
# A link reports none.
LINKED = made_page({b"all": record(b"do", 1, b"a"), b"a": b"\x1b]8;;http://error\x07x\x1b]8;;\x1b\\error\n\x1b]8;;error:\x07y\n" + record(b"done", 2, b"1 a")})
check("links in an output", part(LINKED, b"<article", b"</article>").partition(b"<pre>")[2], b"\n<em>xerror\n</em>y\n</pre>")
# A colour ends a word. Other sequences are text, and so is a link that doesn't end.
COLOURED = made_page({b"all": record(b"do", 1, b"a"),
                      b"a": b"no\x1b[Kerror\nerr\x1b[Kor\n\x1b[1Aerror\n\x1berror\n\x1b]8;;error\n" + record(b"done", 2, b"1 a")})
check("sequences in an output", part(COLOURED, b"<article", b"</article>").partition(b"<pre>")[2],
      b"\n<em>noerror\n</em>error\n<i>^[</i>[1Aerror\n<em><i>^[</i>error\n</em><em><i>^[</i>]8;;error\n</em></pre>")
check("an error in the tree", part(ERRORS, b'<ul class="tree">', b"</pre>").partition(b"<pre>")[2], b"\ncannot\n")
# So are they in excerpts, each of them, even if the word isn't shown.
ERRORS = made_page({b"all": record(b"do", 1, b"a"), b"a": b"error\nnote\n" + b"." * 1000 + b" error\n" + numbered(4, 301) + record(b"done", 2, b"1 a")})
check("errors in an excerpt", part(ERRORS, b"<article", b"</article>").partition(b"<pre>")[2].partition(numbered(4, 10))[0],
      b"\n<em>error\n</em>note\n<em>" + b"." * 1000 + b" ...\n</em>")

# ---- what failed -----------------------------------------------------------------------------------------------------


def listed(page):
    """The targets in the list of articles, those that have articles, and those of the list of others, by their places."""
    failed = part(page, b'<section id="failed"', b"</section>")
    return tuple([int(place) for place in re.findall(pattern, text)] for pattern, text in [
        (rb'href="#f([0-9]+)"', part(failed, b'<ol class="list">', b"</ol>")), (rb'<article id="f([0-9]+)"', failed),
        (rb'href="#t([0-9]+)"', part(failed, b" more that failed</summary>", b"</details>") or b"")])


# Targets a to g failed at these seconds. At 0 and later, times count. The failure of g counts, but h, which it ran, failed before it.
ENDS = {b"a": 6, b"b": 4, b"c": b"1", b"d": 2, b"e": 4, b"f": b"1", b"g": 7}
FAILED = {b"all": b"".join(record(b"do", 1, name) for name in ENDS), **{name: record(b"done", end, b"1 " + name) for name, end in ENDS.items()}}
FAILED[b"g"] = record(b"do", 2, b"h") + FAILED[b"g"]
FAILED[b"h"] = record(b"done", 5, b"2 h")
# d, b and e, h, a, and then c and f, whose ends are unknown.
check("failures in order", listed(made_page(FAILED)), ([4, 2, 5, 8, 1, 3, 6],) * 2 + ([],))
# The end counts, and not when a target began.
check("the beginning doesn't count", listed(made_page({
    b"all": record(b"do", 1, b"a") + record(b"do", 2, b"b"), b"a": record(b"done", 9, b"1 a"), b"b": record(b"done", 8, b"1 b")}))[1], [2, 1])
# Only the log around them says when these ended, in hundredths of a second.
check("ends in another log", listed(made_page({
    b"all": record(b"done", b"1600000003.02", b"1 a") + record(b"done", b"1600000003.01", b"1 b") + record(b"do", 1, b"a") + record(b"do", 1, b"b"),
    b"a": b"", b"b": b""}))[1], [2, 1])
# The tenth one by its end is the last one with an article.
TWELVE_FAILED = {b"all": b"".join(record(b"do", 0, b"t%d" % place) for place in range(1, 13)),
                 **{b"t%d" % place: record(b"done", 20 - place, b"1 t%d" % place) for place in range(1, 13)}}
check("ten failures have articles", listed(made_page(TWELVE_FAILED)), ([*range(12, 2, -1)],) * 2 + ([2, 1],))

# ---- what is new -----------------------------------------------------------------------------------------------------

for what, before, now, wanted in [
    ("nothing before", [], [b"a.c:1: warning: x", b"b"], [0]), ("nothing now", [b"error: x"], [b"x"], []),
    ("moved", [b"a.c:1: warning: x"], [b"cc", b"a.c:7:3: warning: x"], []), ("another file", [b"a.c:1: warning: x"], [b"b.c:1: warning: x"], [0]),
    ("one more with the same key", [b"a.c:1: error: x"], [b"a.c:1: error: x", b"a.c:2: error: x"], [1]),
    ("before one with the same source line", [b"a.c:1: error: x", b"    1 | int x;"],
     [b"a.c:1: error: x", b"    1 | int y;", b"a.c:2: error: x", b"    2 | int x;"], [0]),
    ("changed source lines", [b"a.c:1: error: x", b" 1 | p"], [b"a.c:1: error: x", b" 1 | q"], []),
    ("colours", [b"a.c:1: error: x"], [b"\x1b[1ma.c:5:\x1b[m \x1b[31merror: \x1b[mx"], []), ("no word", [], [b"a.c:1: xerror: y", b"warning:x"], []),
    ("temporary files", [b"/tmp/ccAbCdEf.o: error: y"], [b"/tmp/ccGhIjKl.o: error: y"], []),
]:
    check(("new", what), news_model.new_in(news_model.found_in(before), news_model.found_in(now)), wanted)


def compared_page(logs, earlier, **other):
    read = [[logs_model.log_of(target, data) for target, data in build.items()] for build in (logs, earlier)]
    return made_page(logs, news=news_model.news_of(read[0], [b"all"], read[1]), **other)


# Before, `b` failed, and `e` was built. Now `all` fails because of `d`, and `a` has another warning after its known one.
BEFORE = {b"a": b"a.c:1: warning: x\n", b"b": b"error: y\nerror: y\n" + record(b"done", 1, b"1 b"), b"e": b"error: z\n", b"all": b""}
NOW = {b"all": record(b"do", 1, b"a") + record(b"do", 1, b"b") + record(b"do", 1, b"d") + record(b"done", 9, b"2 all"),
       b"a": b"cc a.c\na.c:5: warning: x\na.c:9: warning: <w>\n" + record(b"done", 2, b"0 a"), b"b": b"error: y\n" + record(b"done", 2, b"0 b"),
       b"d": b"d.c:1: error: v\n" + record(b"done", 2, b"1 d")}
compared = compared_page(NOW, BEFORE, max_bytes=1)
check("what is new", part(compared, b'New since the baseline</h2>', b"</section>"),
      b'<p class="quiet">New warnings and errors: 2. Gone: 1. Targets that newly fail: 1. Fixed: 1.</p><ol class="list">'
      b'<li><a href="#t1"><bdi>a</bdi></a> <code>a.c:9: warning: &lt;w&gt;</code></li>'
      b'<li><a href="#t3"><bdi>d</bdi></a> <strong class="x">exit 1</strong> <code>d.c:1: error: v</code></li></ol>'
      b'<details class="more"><summary>1 newly failing</summary><ol class="list"><li><a href="#t3"><bdi>d</bdi></a> <strong class="x">exit 1</strong></li></ol></details>'
      b'<details class="more"><summary>1 fixed</summary><ol class="list"><li><a href="#t2"><bdi>b</bdi></a></li></ol></details>')
check("the sections of a comparison", re.findall(rb'<section id="(.*?)"', compared), [b"failed", b"new", b"summary", b"timeline", b"tree"])
check("the links to them", re.findall(rb'<li><a href="#([a-z]+)"', compared), [b"failed", b"new", b"summary", b"timeline", b"tree"])
LINK = b'<li><a href="#new">New since the baseline</a></li>'
SECTION = b'<section id="new"' + (part(compared, b'<section id="new"', b"</section>") or b"") + b"</section>"
check("all else", compared.replace(LINK, b"").replace(SECTION, b""), made_page(NOW, max_bytes=1))
check("the same build", part(compared_page(NOW, NOW), b'New since the baseline</h2><p class="quiet">', b"</section>"),
      b"No warning or error is new, and no target newly fails. New warnings and errors: 0. Gone: 0. Targets that newly fail: 0. Fixed: 0.</p>")
lines = b"".join(b"a.c:%d: warning: %d\n" % (line, line) for line in range(201))
many = part(compared_page({b"all": lines}, {b"all": b""}), b'<section id="new"', b"</section>")
check("201 lines", (many.count(b"<li>"), many.count(b"errors: 201."), many.rpartition(b"</ol>")[2]), (200, 1, b'<p class="quiet">and 1 more, in the logs</p>'))
check("200 lines", part(compared_page({b"all": lines[: lines.rindex(b"a.c:")]}, {b"all": b""}), b'<section id="new"', b"</section>").count(b"more, in"), 0)

# ---- recipes ---------------------------------------------------------------------------------------------------------


class Recipe(NamedTuple):
    directory: bytes | None
    commands: tuple
    usage: tuple | None = None


CUT = b'<p class="cut">The rest of this command is left out.</p>'
SCRIPT = b"a" * 159 + "\u00e4".encode() + b"b" * 839
for what, recipe, wanted in [
    ("nothing", Recipe(None, ()), b""),
    ("a directory", Recipe(b"/a<b\xff", ()), b'<p class="meta">Directory: <bdi>/a&lt;b<i>\\xff</i></bdi></p>'),
    ("commands of several lines, and in part", Recipe(b".", ((b"if x; then\n\ty\nfi", True), (b"\x1b[31m&", False))),
     b'<p class="meta">Directory: <bdi>.</bdi></p><pre>\nif x; then\n\ty\nfi</pre><pre>\n<i>^[</i>[31m&amp;</pre>' + CUT),
    ("an empty command", Recipe(None, ((b"", True), (b"\n", True))), b"<pre>\n</pre><pre>\n\n</pre>"),
    ("1,000 bytes", Recipe(None, ((SCRIPT, True),)), b"<pre>\n" + SCRIPT + b"</pre>"),
    ("1,001 bytes", Recipe(None, ((SCRIPT + b"c", False),)), b'<details class="more"><summary><code>' + b"a" * 159 + b"</code> ...</summary><pre>\n" + SCRIPT + b"c</pre>"
     + CUT + b"</details>"),
    ("40,001 bytes", Recipe(None, ((b"d" * 40_001, True), (b"e" * 40_000, True))),
     b'<details class="more"><summary><code>' + b"d" * 160 + b"</code> ...</summary><pre>\n" + b"d" * 40_000 + b"</pre>" + CUT + b"</details>"
     b'<details class="more"><summary><code>' + b"e" * 160 + b"</code> ...</summary><pre>\n" + b"e" * 40_000 + b"</pre></details>"),
    ("ten commands", Recipe(None, tuple((b"%d" % number, True) for number in range(10))), b"".join(b"<pre>\n%d</pre>" % number for number in range(10))),
    ("twelve commands", Recipe(None, tuple((b"%d" % number, True) for number in range(12))),
     b'<p class="cut">2 more before these</p>' + b"".join(b"<pre>\n%d</pre>" % number for number in range(2, 12))),
]:
    logs = {b"all": record(b"do", 1, b"a") + record(b"do", 1, b"b"), b"a": b"x\n" + record(b"done", 2, b"1 a"), b"b": record(b"done", 3, b"0 b")}
    failed = part(made_page(logs, recipes={b"a": recipe, b"b": Recipe(b"another", ())}), b"<article", b"</article>")
    check(("a recipe", what), part(failed + b"END", b"its place in the tree</a></p>", b"END"), wanted + b"<pre>\nx\n</pre>")

# ---- pages -----------------------------------------------------------------------------------------------------------


def bare(page):
    """The parts between the header and the tree that depend on times, and the nav."""
    return part(page, b"</h1>", b"</header>"), part(page, b"<dl>", b"</section>"), part(page, b'<section id="timeline"', b"</section>"), part(page, b"<nav", b"</nav>")


header, summary, timeline, nav = bare(made_page({b"all": b"warning: x\n"}))
check("no times: header", header, b'<p><bdi>all</bdi> <strong class="o">unfinished</strong></p>')
check("no times: summary", summary, tile(b"Targets", b"1") + tile(b"Failed", b"0") + tile(b"Lines with warning:", b"1") + tile(b"Logs", b"11 bytes")
      + b'</dl><div class="cols"><div><h3>Most warnings</h3><table><tbody><tr><th scope="row"><a href="#t0"><bdi>all</bdi></a> <strong class="o">unfinished</strong></th>'
      b'<td class="n">1</td><td class="m">' + meter_html(10_000) + b'</td></tr></tbody></table></div></div>'
      b'<p class="quiet">There is no timeline: the logs do not say when the targets ran.</p>')
check("no times: timeline", (timeline, b"#timeline" in nav), (None, False))

header, summary, timeline, nav = bare(made_page({b"all": record(b"done", 3, b"0 all")}))
check("one time: header", header, '<p><bdi>all</bdi></p><p class="meta">Sun, 13 Sep 2020 12:26:43 GMT \u00b7 took 0.00 s</p>'.encode())
check("one time: summary", (part(summary, b"<dt>Took</dt>", b"</div>"), summary.rpartition(b"<p")[2], timeline),
      (b"<dd>0.00 s</dd>", b' class="quiet">There is no timeline: the logs do not say when the targets ran.</p>', None))
header, summary, timeline, nav = bare(made_page({b"all": record(b"do", 3, b"all") + record(b"done", 3, b"0 all")}))
check("no length: summary", (part(summary, b"<dt>Took</dt>", b"</div>"), part(summary, b"At once</dt>", b"</div>"), part(summary, b"<rect", b">")),
      (b"<dd>0.00 s</dd>", b"<dd>0.0, at most 1</dd>", b' width="0.00%" height="10" fill="#3a6ea5"'))
check("no length: bar", part(timeline, b'<g class="k" fill="#3a6ea5">', b"</g>"),
      b'<a href="#t0" tabindex="-1"><rect x="0.00%" y="26" width="0.10%" height="16"><title>all, 0.00 s</title></rect></a>')

# A run of make: all ended at 9 s, d/x ran from 1 s to 9 s and ran sub/y from 2 s to 5 s and sub/z, which failed, from 2.5 s to 8.5 s.
MAKE = {
    b"all": record(b"do", 1, b"d/x") + record(b"done", 9, b"2 d/x") + record(b"done", 9, b"2 all"),
    b"d/x": record(b"do", 1, b"x") + record(b"do", 2, b"../sub/y") + record(b"do", b"1600000002.5", b"../sub/z") + record(b"done", 9, b"2 x"),
    b"sub/y": record(b"do", 2, b"y") + b"1\n" + record(b"done", 5, b"0 y"),
    b"sub/z": record(b"do", b"1600000002.5", b"z") + b"error\n" + record(b"done", b"1600000008.5", b"1 z"),
}
page = made_page(MAKE)
header, summary, timeline, nav = bare(page)
check("make: header", header, '<p><bdi>all</bdi> <strong class="x">exit 2</strong></p><p class="meta">Sun, 13 Sep 2020 12:26:41 GMT \u00b7 took 8.00 s</p>'.encode())
check("make: nav", [part(item, b"#", b"\"") for item in nav.split(b"<li>")[1:]], [b"failed", b"summary", b"timeline", b"tree"])
check("make: tiles", summary.partition(b"</dl>")[0], b"".join(tile(*pair) for pair in [
    (b"Targets", b"4"), (b"Failed", b"1, and 2 dependent"), (b"Lines with warning:", b"0"), (b"Logs", b"8 bytes"), (b"Took", b"8.00 s"),
    (b"Sum of times", b"9.00 s"), (b"At once", b"1.1, at most 2")]))


def row(place, name, status, value, hundredths):
    badge = b' <strong class="x">exit %d</strong>' % status if status else b""
    return (b'<tr><th scope="row"><a href="#t%d"><bdi>%s</bdi></a>%s</th><td class="n">%s</td><td class="m">' % (place, name, badge, value)
            + meter_html(hundredths) + b"</td></tr>")


# From 2 s to 2.5 s only y ran, and from 5 s to 8.5 s only z.
LONGEST = (b'<div class="cols"><div><h3>Longest</h3><table><tbody>' + row(3, b"sub/z", 1, b"6.00 s", 10_000) + row(2, b"sub/y", 0, b"3.00 s", 5000)
           + b"</tbody></table></div><div><h3>Longest alone</h3><table><tbody>" + row(3, b"sub/z", 1, b"3.50 s", 10_000)
           + row(2, b"sub/y", 0, b"0.50 s", 1428) + b"</tbody></table></div>")
check("make: tables", summary.partition(b"</dl>")[2], LONGEST + b"</div>")

# d/x ran the other two, so its usage has theirs in it: 60.5 s of 61.5 s, and the most memory.
USED = {b"d/x": Recipe(None, (), (61_000, 500, 90_000)), b"sub/y": Recipe(None, (), (20_100, 400, 1000)), b"sub/z": Recipe(b".", (), (39_500, 500, 60_000))}
summary = bare(made_page(MAKE, recipes=USED))[1]
check("processor time", summary.partition(b"</dl>")[0].partition(tile(b"At once", b"1.1, at most 2"))[2], tile(b"Processor time", b"1 min 00 s"))
check("memory", summary.partition(b"</dl>")[2],
      LONGEST + b"<div><h3>Most memory</h3><table><tbody>" + row(3, b"sub/z", 1, b"61.4 MB", 10_000) + row(2, b"sub/y", 0, b"1.0 MB", 166)
      + b"</tbody></table></div></div>")

# A recipe without memory, and one whose usage is unknown. Without times nothing counts, because nobody knows which targets ran others.
USED = {b"sub/y": Recipe(None, (), (0, 0, 0)), b"sub/z": Recipe(b".", ())}
summary = bare(made_page(MAKE, recipes=USED))[1]
check("no memory", (part(summary, b"<dt>Processor time</dt>", b"</div>"), b"Most memory" in summary), (b"<dd>0.00 s</dd>", False))
summary = bare(made_page(MAKE, recipes={b"sub/z": Recipe(b".", ())}))[1]
check("no usage", (b"Processor time" in summary, b"Most memory" in summary), (False, False))
summary = bare(made_page({b"all": b"x\n"}, recipes={b"all": Recipe(None, (), (1, 2, 3))}))[1]
check("usage without times", (b"Processor time" in summary, b"Most memory" in summary), (False, False))

# One after the other, each recipe is alone as long as it runs.
TWO = {b"all": record(b"do", 0, b"a") + record(b"do", 3, b"b"), b"a": record(b"done", 3, b"0 a"), b"b": record(b"done", 4, b"0 b")}
check("one after the other", re.findall(rb"<h3>(.*?)</h3>", made_page(TWO)), [b"Longest"])

# Of twelve recipes, the last one took longest and has most warnings. The others are equal, so nine of them follow in their order.
TWELVE = {b"all": b"".join(record(b"do", 0, b"t%d" % place) for place in range(1, 13)),
          **{b"t%d" % place: b"warning:\n" * (1 + (place == 12)) + record(b"done", 2 + 2 * (place == 12), b"0 t%d" % place) for place in range(1, 13)}}
summary = bare(made_page(TWELVE))[1]
check("tables of ten", summary.partition(b"</dl>")[2],
      b'<div class="cols"><div><h3>Longest</h3><table><tbody>' + row(12, b"t12", 0, b"4.00 s", 10_000)
      + b"".join(row(place, b"t%d" % place, 0, b"2.00 s", 5000) for place in range(1, 10))
      + b"</tbody></table></div><div><h3>Longest alone</h3><table><tbody>" + row(12, b"t12", 0, b"2.00 s", 10_000)
      + b"</tbody></table></div><div><h3>Most warnings</h3><table><tbody>" + row(12, b"t12", 0, b"2", 10_000)
      + b"".join(row(place, b"t%d" % place, 0, b"1", 5000) for place in range(1, 10)) + b"</tbody></table></div></div>")


def labelled(place, x, y, width, height, title, fill, label, failed=False):
    of_failed = b' class="f" fill="#c62828"' if failed else b""
    return (b'<a href="#t%d" tabindex="-1"><svg x="%s" y="%d" width="%s" height="%d"><title>%s</title><rect width="100%%" height="%d"%s></rect>'
            b'<text x="4" y="%d" fill="%s">%s</text></svg></a>' % (place, x, y, width, height, title, height, of_failed, {12: 9, 16: 12}[height], fill, label))


# One lane of parents at 20, two of recipes from 40 on, marks at 6 + 40 + 2 * 18 = 82: the height is 88.
check("make: timeline", timeline, b' aria-labelledby="h-timeline"><h2 id="h-timeline">Timeline</h2>'
      b'<div class="scroll" tabindex="0" role="region" aria-labelledby="h-timeline">'
      b'<svg role="img" aria-label="A bar for each target, from its start to its end, in 2 lanes" width="100%" height="88" font-size="11">'
      b'<g class="axis" stroke="#8886" fill="currentColor" stroke-width=".5">' + axis(8000, 88) + b'</g><g class="w" fill="#8886">'
      + labelled(1, b"0.00%", 20, b"100.00%", 12, b"d/x, 8.00 s, exit 2", b"#fff", b"x", True) + b'</g><g class="k" fill="#3a6ea5">'
      + labelled(2, b"12.50%", 40, b"37.50%", 16, b"sub/y, 3.00 s", b"#fff", b"y")
      + labelled(3, b"18.75%", 58, b"75.00%", 16, b"sub/z, 6.00 s, exit 1", b"#fff", b"z", True)
      + b'</g><g class="e" fill="#8a6d3b"></g></svg></div><p class="quiet">A bar leads to its log. Pale bars are recipes that ran others. '
      b"They don't count in the sum of times.</p>")
check("make: an article", part(page, b'<p class="meta">6.00 s', b"</p>"), ' \u00b7 <bdi>all</bdi> \u203a <bdi>d/x</bdi> \u203a <a href="#t3">its place in the tree</a>'.encode())
check("make: facts", part(page, b"<bdi>sub/y</bdi> <small>\xc2\xb7 3.00", b"</summary>"), b" s</small> <small>\xc2\xb7 1 line</small>")

# Of eleven targets, one has no beginning: 1 of 11 is more than a tenth. Of ten others and this one, 1 of 10 isn't.
for count, wanted in ((8, False), (9, True)):
    logs = {b"all": b"".join(record(b"do", 1, b"t%d" % place) for place in range(count)) + record(b"done", 3, b"0 m") + record(b"do", b"1", b"m"), b"m": b"",
            **{b"t%d" % place: record(b"done", 2, b"0 t%d" % place) for place in range(count)}}
    header, summary, timeline, nav = bare(made_page(logs))
    words = b"1 of %d targets do not say when they began, or when they ended." % (count + 1)
    check(("marks", count), (timeline is not None, b"#timeline" in nav), (wanted, wanted))
    if wanted:
        check("a mark", part(timeline, b"</h2>", b"<div"), b'<p class="quiet">The logs of ' + words + b" These are marks in the last row.</p>")
        # Nine lanes of recipes from 26 on, marks at 6 + 26 + 9 * 18 = 194.
        check("its bar", part(timeline, b'<g class="e" fill="#8a6d3b">', b"</g>"),
              b'<a href="#t10" tabindex="-1"><rect x="100.00%" y="194" width="0.10%" height="12"><title>m</title></rect></a>')
        check("its chart", part(timeline, b'width="100%" height="', b'"'), b"214")
    else:
        check("no timeline", summary.rpartition(b'<p class="quiet">')[2], b"There is no timeline: the logs of " + words + b"</p>")

# Requested targets without a beginning are no marks, others are, and so is a requested one without an end.
for what, logs, requested, wanted in [
    ("the end of a requested one", {b"all": record(b"done", 3, b"0 all")}, [b"all"], (0, True)),
    ("the end of another", {b"all": record(b"do", b"1", b"a"), b"a": record(b"done", 3, b"0 a")}, [b"all"], (1, True)),
    ("the end of two requested ones", {b"all": b"", b"a": record(b"done", 3, b"0 a")}, [b"all", b"a"], (0, True)),
    ("the beginning of a requested one", {b"all": record(b"do", 3, b"all")}, [b"all"], (1, True)),
    ("no time", {b"all": b""}, [b"all"], (0, False)),
]:
    build = page_model.Build([logs_model.log_of(target, data) for target, data in logs.items()], requested, False, False, times_of(list(logs.items())))
    timing = page_model.Timing(build.order)
    check(what, (len(timing.marks), timing.window is not None), wanted)

# Who ran others: a target that began at 1 and ended at 5, and has a record of another one at a time after 1.
for what, records, wanted in [
    ("no other one", b"", False), ("a beginning", record(b"do", 2, b"c"), True), ("an end", record(b"done", 2, b"1 c"), True),
    ("a prerequisite", record(b"do", 0, b"c") + record(b"done", 1, b"0 c"), False), ("from begin to end", record(b"do", 1, b"c") + record(b"done", 5, b"0 c"), True),
    ("after the end", record(b"do", 6, b"c") + record(b"done", 7, b"0 c"), False), ("before and after", record(b"do", 0, b"c") + record(b"done", 7, b"0 c"), False),
    ("waits", record(b"waiting", 3, b"c"), True), ("another one has the lock", record(b"locked", 3, b"c") + record(b"unlocked", 9, b"c"), True),
    ("the lock is free", record(b"unlocked", 3, b"c"), True), ("unchanged", record(b"unchanged", 3, b"c"), False), ("a note", record(b"check", 3, b"c"), False),
    ("itself", record(b"waiting", 3, b"./p"), False), ("no time", record(b"do", b"1", b"c"), False), ("text", b" " + record(b"do", 2, b"c"), False),
]:
    logs = {b"p": record(b"do", 1, b"p") + records + record(b"done", 5, b"0 p"), b"c": record(b"do", 2, b"c") + record(b"done", 3, b"0 c")}
    build = page_model.Build([logs_model.log_of(target, data) for target, data in logs.items()], [b"p"], False, False, times_of(list(logs.items())))
    check(("ran others", what), build.order[0].ran_others, wanted)

# Titles of bars, and labels.
many = {b"all": b"".join(record(b"do", b"1600000000.%03d" % (2 * place), b"a/%d" % place) + record(b"done", b"1600000000.%03d" % (2 * place + 2), b"0 a/%d" % place)
                         for place in range(3)) + record(b"do", 0, b"b") + record(b"done", 3, b"0 b"), **{b"a/%d" % place: b"" for place in range(3)}, b"b": b""}
timeline = bare(made_page(many))[2]
# The three of 2 ms take less than 0.5 % of 3 s, so they are one bar. It is 6 ms long: 20 hundredths of a percent. Then b is in the second lane.
check("a bar of three", part(timeline, b'<g class="k" fill="#3a6ea5">', b"</g>"),
      b'<a href="#t1" tabindex="-1"><rect x="0.00%" y="26" width="0.20%" height="16"><title>3 targets in 0.00 s, from a/0</title></rect></a>'
      + labelled(4, b"0.00%", 44, b"100.00%", 16, b"b, 3.00 s", b"#fff", b"b"))

for name, wanted in [(b"/", None), (b"a/b.o", b"b.o"), (b"..", b".."), (b"<&>", b"&lt;&amp;&gt;"), (b"a\x1bb", b"a^[b")]:
    timeline = bare(made_page({name: record(b"do", 1, b"/../" if name == b"/" else name.rpartition(b"/")[2] if b"/" in name else name)
                               + record(b"done", 2, b"0 " + (b"/" if name == b"/" else name.rpartition(b"/")[2] if b"/" in name else name))}, [name]))[2]
    check(("label", name), part(timeline, b'fill="#fff">', b"</text>"), wanted)


def main():
    print(f"the model of a page: {checks} checks, {failures} differ")
    return failures


if __name__ == "__main__":
    raise SystemExit(main() > 0)
