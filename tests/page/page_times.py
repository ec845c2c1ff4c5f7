"""What a page says of times, compared with times that were measured in another way while the build ran."""
import email.utils
import html.parser
import re
from typing import NamedTuple

SLACK = .15  # seconds


class Measured(NamedTuple):
    """When a recipe began and ended, in seconds since 1970."""

    began: float
    ended: float

    @property
    def took(self):
        return self.ended - self.began


class Page(html.parser.HTMLParser):
    """What a page says of times: the tiles of the summary, the rows of the first table, the bars of each group, and the header's date."""

    def __init__(self, page):
        super().__init__()
        self.open, self.tiles, self.longest_rows, self.bars, self.date = [], {}, [], {"w": [], "k": [], "e": []}, None
        self.tables, self.group, self.place, self.box, self.term = 0, None, None, None, None
        self.feed(page)
        self.close()

    def handle_starttag(self, tag, attributes):
        named = dict(attributes)
        if tag != "meta":
            self.open.append((tag, named.get("class")))
        if tag == "table":
            self.tables += 1
        elif tag == "tr" and self.tables == 1:
            self.longest_rows.append(["", ""])
        elif tag == "g":
            self.group = named["class"]
        elif tag in ("rect", "svg") and "x" in named:
            self.box = [float(named[side].rstrip("%")) / 100 for side in ("x", "width")]

    def handle_endtag(self, tag):
        self.open.pop()

    def handle_data(self, data):
        at = self.open[-1] if self.open else None
        if at == ("p", "meta") and ("header", None) in self.open:
            self.date = data
        elif at == ("dt", None):
            self.term = data
        elif at == ("dd", None):
            self.tiles[self.term] = data
        elif at == ("bdi", None) and self.tables == 1 and ("th", None) in self.open:
            self.longest_rows[-1][0] = data
        elif at == ("td", "n") and self.tables == 1:
            self.longest_rows[-1][1] = data
        elif at == ("title", None) and self.group in self.bars:
            self.bars[self.group].append((data, *self.box))


def seconds_of(text):
    """The seconds of a duration, and how much may have been cut off: `1.23 s`, `12.3 s`, `2 min 05 s`."""
    if found := re.fullmatch(r"(\d+)\.(\d+) s", text):
        return float(f"{found[1]}.{found[2]}"), 10 ** -len(found[2])
    found = re.fullmatch(r"(\d+) min (\d\d) s", text)
    return int(found[1]) * 60 + int(found[2]), 1


def is_near(found, wanted, slack, cut=0.):
    return wanted * .95 - slack - cut <= found <= wanted * 1.05 + slack


def most_at_once(times):
    return max(sum(other.began <= time.began < other.ended for other in times) for time in times)


def differences(page, times, parents, jobs):
    """The times on a page of a short build, with so many jobs, that differ from the measured ones."""
    leaves = {name: time for name, time in times.items() if name not in parents}
    first, last = min(time.began for time in times.values()), max(time.ended for time in times.values())
    total = sum(time.took for time in leaves.values())
    found = []

    def expect(what, is_so, shown, wanted):
        if not is_so:
            found.append(f"{what}: found {shown}; expected {round(wanted, 3) if isinstance(wanted, float) else wanted}")

    def near(what, text, wanted, slack=SLACK):
        value, cut = seconds_of(text)
        expect(what, is_near(value, wanted, slack, cut), text, wanted)

    # The log of the run ends when make has ended.
    near("took", page.tiles["Took"], last - first, 3 * SLACK)
    near("sum of times", page.tiles["Sum of times"], total, SLACK + .02 * len(leaves))
    mean, most = re.fullmatch(r"([\d.]+), at most (\d+)", page.tiles["At once"]).groups()
    expect("mean at once", is_near(float(mean), total / (last - first), .2 + .1 * len(leaves) / 20), mean, total / (last - first))
    expect("most at once", int(most) == most_at_once(leaves.values()) == jobs, most, f"{most_at_once(leaves.values())}, and {jobs} jobs")
    text = page.date.partition(" \u00b7 ")[0]
    began = email.utils.parsedate_to_datetime(text).timestamp()
    expect("the date", began - SLACK <= first <= began + 1 + SLACK, text, first)

    for name, text in page.longest_rows:
        near(f"the row of {name}", text, times[name].took)
    least = min(seconds_of(text)[0] for _, text in page.longest_rows)
    named = {name for name, _ in page.longest_rows}
    expect("the number of rows", len(named) == min(10, len(leaves)), len(named), min(10, len(leaves)))
    expect("rows of targets that ran others", named <= set(leaves), sorted(named - set(leaves)), [])
    for name in sorted(set(leaves) - named):
        expect(f"the least row, without {name}", times[name].took <= least * 1.05 + SLACK, least, times[name].took)

    width = seconds_of(page.tiles["Took"])[0]
    bars = {}
    for group in ("w", "k"):
        for title, x, span in page.bars[group]:
            name, _, text = title.partition(", ")
            bars[name] = group
            if re.match(r"\d+ targets in ", title):
                expect("a bar in a short build", False, title, "a bar of one target")
                continue
            near(f"the bar of {name}", text, times[name].took, 3 * SLACK if name in parents else SLACK)
            began, ended = times[name].began - first, times[name].ended - first
            expect(f"the begin of the bar of {name}", abs(x * width - began) < 2 * SLACK + .01 * width, x * width, began)
            expect(f"the end of the bar of {name}", abs((x + span) * width - ended) < 3 * SLACK + .01 * width, (x + span) * width, ended)
    groups = {name: "w" if name in parents else "k" for name in times}
    expect("the groups of bars", bars == groups, bars, groups)
    expect("marks", page.bars["e"] == [], page.bars["e"], [])
    return found
