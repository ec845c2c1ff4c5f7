"""Where the bars of a timeline are, and the HTML of charts and meters: a part of the model of a page."""
from typing import NamedTuple, Optional

from text_model import passage
from times_model import tick

# ---- the layout ------------------------------------------------------------------------------------------------------


class Span(NamedTuple):
    """From when a target began to when it ended. Spans are ordered by these fields."""

    began: int
    place: int
    ended: int
    failed: bool


class Window(NamedTuple):
    """The time that a timeline shows, in milliseconds."""

    began: int
    width: int


class Bar(NamedTuple):
    """The bar of one span, or of several in a lane that are too narrow to be drawn apart. x and width are in units."""

    lane: int
    x: int
    width: int
    place: int
    count: int
    began: int
    ended: int
    failed: bool


def units(window, time):
    """Where a time is drawn, in hundredths of a percent of the width. A time outside of the window is drawn at its edge."""
    return min(max(0, time - window.began), window.width) * 10_000 // window.width


def lanes_of(spans, most):
    """The spans in each lane. In order, each span takes the lowest free lane; if none is free, a new one, or the last one allowed."""
    lanes = []
    for span in sorted(spans):
        free = [lane for lane in lanes if max(other.ended for other in lane) <= span.began]
        if free:
            free[0].append(span)
        elif len(lanes) < max(most, 1):
            lanes.append([span])
        else:
            lanes[-1].append(span)
    return lanes


def is_narrow(window, span):
    return not span.failed and units(window, span.ended) - units(window, span.began) < 20


def joins(window, bar, span):
    """Whether a span joins the bar before it, which has these spans."""
    bar_ended = units(window, max(other.ended for other in bar))
    return (all(is_narrow(window, other) for other in [*bar, span])
            and units(window, span.began) - bar_ended < 10
            and max(bar_ended, units(window, span.ended)) - units(window, bar[0].began) < 50)


def bar_of(window, lane, spans):
    began, ended, failed = spans[0].began, max(span.ended for span in spans), any(span.failed for span in spans)
    x = units(window, began)
    return Bar(lane, x, max(units(window, ended) - x, 30 if failed else 10), spans[0].place, len(spans), began, ended, failed)


def layout(window, most_lanes, spans):
    """Returns the bars, lane by lane, and the number of lanes."""
    bars, lanes = [], lanes_of(spans, most_lanes)
    for number, lane in enumerate(lanes):
        drawn = []
        for span in lane:
            if drawn and joins(window, drawn[-1], span):
                drawn[-1].append(span)
            else:
                drawn.append([span])
        bars += [bar_of(window, number, bar) for bar in drawn]
    return bars, len(lanes)


def most_at_once(spans):
    """The greatest number of spans that run when one of them begins. A span counts itself, even if it has no length."""
    def running(span):
        return sum(other is span or other.began <= span.began < other.ended for other in spans)
    return max(map(running, spans), default=0)


def times_alone(spans):
    """How long each span runs while no other one does, by its place."""
    changes = [(span.began, True, span.place) for span in spans if span.began < span.ended]
    changes += [(span.ended, False, span.place) for span in spans if span.began < span.ended]
    alone, running, last = {span.place: 0 for span in spans}, set(), None
    for time, begins, place in sorted(changes):
        if len(running) == 1:
            alone[next(iter(running))] += time - last
        last = time
        (running.add if begins else running.remove)(place)
    return alone


# ---- the axis --------------------------------------------------------------------------------------------------------

STEPS = [1, 2, 5, 10, 20, 50, 100, 200, 500, 1000, 2000, 5000, 10_000, 15_000, 30_000, 60_000, 120_000, 300_000, 600_000, 900_000,
         1_800_000, 3_600_000, 7_200_000, 14_400_000, 43_200_000, 86_400_000]


def step_of(width):
    return next((step for step in STEPS if width <= 10 * step), width)


def axis(width, height):
    """The HTML of the lines and ticks of a chart of this height over so many milliseconds."""
    out, step = [], step_of(width)
    for number in range(width // step + 1):
        x = number * step * 10_000 // width
        anchor = b"" if number == 0 else b' text-anchor="end"' if x > 9700 else b' text-anchor="middle"'
        out.append(b'<line x1="%s" x2="%s" y1="15" y2="%d"></line>' % (percent(x), percent(x), height - 4))
        out.append(b'<text x="%s" y="11"%s>%s</text>' % (percent(x), anchor, words(tick(number * step, step))))
    return b"".join(out)


# ---- HTML ------------------------------------------------------------------------------------------------------------


def percent(hundredths):
    return b"%d.%02d%%" % (hundredths // 100, hundredths % 100)


def words(raw):
    """Text in a chart has no marks."""
    return passage(raw, marks=False)[0]


class DrawnBar(NamedTuple):
    """A bar as it is drawn: vertical positions and heights are in pixels."""

    bar: Bar
    y: int
    height: int
    title: bytes
    label: Optional[bytes]


GROUPS = {
    "axis": b'<g class="axis" stroke="#8886" fill="currentColor" stroke-width=".5">',
    "parents": b'<g class="w" fill="#8886">',
    "recipes": b'<g class="k" fill="#3a6ea5">',
    "untimed": b'<g class="e" fill="#8a6d3b">',
}


def bar_html(kind, drawn):
    bar = drawn.bar
    failed = b' class="f" fill="#c62828"' if bar.failed else b""
    where = b'x="%s" y="%d" width="%s" height="%d"' % (percent(bar.x), drawn.y, percent(bar.width), drawn.height)
    title = b"<title>" + words(drawn.title) + b"</title>"
    if drawn.label is None:
        shape = b"<rect " + where + failed + b">" + title + b"</rect>"
    else:
        fill = b"currentColor" if kind == "parents" and not bar.failed else b"#fff"
        shape = b"".join([b"<svg ", where, b">", title, b'<rect width="100%%" height="%d"%s></rect>' % (drawn.height, failed),
                          b'<text x="4" y="%d" fill="%s">' % (drawn.height // 4 * 3, fill), words(drawn.label), b"</text></svg>"])
    return b'<a href="#t%d" tabindex="-1">' % bar.place + shape + b"</a>"


def chart_html(width, height, lanes, bars):
    """A chart over so many milliseconds. `bars` has the drawn bars of the parents, of the recipes, and of the untimed targets."""
    label = b"A bar for each target, from its start to its end, in %d lane%s" % (lanes, b"" if lanes == 1 else b"s")
    out = [b'<svg role="img" aria-label="%s" width="100%%" height="%d" font-size="11">' % (label, height)]
    out += [GROUPS["axis"], axis(width, height), b"</g>"]
    for kind in ("parents", "recipes", "untimed"):
        out += [GROUPS[kind], *(bar_html(kind, drawn) for drawn in bars[kind]), b"</g>"]
    return b"".join([*out, b"</svg>"])


def meter_html(hundredths):
    return (b'<svg width="100%%" height="10" aria-hidden="true"><rect width="%s" height="10" fill="#3a6ea5"></rect></svg>'
            % percent(hundredths))
