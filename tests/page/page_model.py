"""A slow, simple model of the page that `redo-log-html` writes. It reads captures with the model of `redo-log`.

`page_of(logs, requested, title, directory, unchanged, debug_locks, times, max_bytes, recipes, news)` returns the bytes of the page. `read(page)` in
reading.py returns what a browser reads of it.
"""

import os
import re
from typing import NamedTuple

from chart_model import DrawnBar, Span, Window, chart_html, layout, meter_html, most_at_once, times_alone
from text_model import bdi, cut_to, lines_html, name_html, passage
from times_model import MOST, WIDEST, Times, date, duration, size, tenths
from model import Closed, Done, Mention, Note, Text  # found by times_model

# ---- the shown logs ---------------------------------------------------------------------------------------------------


class Shown:
    """A target whose log is shown, or the whole page: `items` has the logs in it, and everything else that is visible."""

    def __init__(self, target, parent, place):
        self.target, self.parent, self.place = target, parent, place
        self.items, self.status, self.lines = [], None, []
        self.how, self.began, self.ended, self.ran_others = None, None, None, False

    @property
    def children(self):
        return [item for item in self.items if isinstance(item, Shown)]

    @property
    def failed(self):
        return bool(self.status)

    @property
    def others(self):
        return any(not isinstance(item, Shown) for item in self.items)

    @property
    def warnings(self):
        return sum(b"warning:" in line for line in self.lines)

    @property
    def size(self):
        return sum(len(line) + 1 for line in self.lines)

    @property
    def has_times(self):
        return self.began is not None and self.ended is not None

    @property
    def span(self):
        return Span(self.began, self.place, self.ended, self.failed)

    @property
    def mark(self):
        """A span without length, if only one of the times is known. The log of a run by make may say only when the run ended."""
        if (self.began is None) == (self.ended is None) or self.parent.target is None and self.began is None:
            return None
        time = self.ended if self.began is None else self.began
        return Span(time, self.place, time, self.failed)

    def under(self):
        for child in self.children:
            yield child
            yield from child.under()

    @property
    def silent(self):
        return not self.failed and not self.others and all(child.silent for child in self.children)


class Build:
    """What is shown of the requested targets, each log where its target is mentioned first."""

    def __init__(self, logs, requested, unchanged, debug_locks, times):
        self.logs, self.unchanged, self.debug_locks = {log.target: log for log in logs}, unchanged, debug_locks
        self.named, self.targets, self.done = set(), {}, {}
        self.top = Shown(None, None, None)
        for target in requested:
            if target not in self.targets:
                self.open(target, self.top)
        for shown in self.order:
            closed = [entry.status for entry in self.logs[shown.target].entries if isinstance(entry, Closed)]
            shown.status = closed[0] if closed else self.done.get(shown.target)
            shown.began, shown.ended, shown.ran_others = times.get(shown.target, Times())
        without_cause = [shown for shown in self.order if shown.failed and not any(under.failed for under in shown.under())]
        ended = sorted((shown for shown in without_cause if shown.ended is not None), key=lambda shown: (shown.ended, shown.place))
        self.first = ended + [shown for shown in without_cause if shown.ended is None]

    @property
    def order(self):
        return list(self.targets.values())

    def open(self, target, parent, how=None):
        shown = self.targets[target] = Shown(target, parent, len(self.targets))
        shown.how = how
        parent.items.append(shown)
        self.named.add(target)
        for entry in self.logs[target].entries:
            if isinstance(entry, Text):
                shown.lines.append(entry.line)
                shown.items.append(entry)
            elif isinstance(entry, Mention):
                self.mention(entry, shown)
            elif isinstance(entry, Done):
                self.done.setdefault(entry.target, entry.status)
                if entry.status:
                    shown.items.append(entry)
            elif isinstance(entry, Note):
                shown.items.append(entry)

    def mention(self, entry, shown):
        if entry.kind == b"unchanged" and not self.unchanged:
            return
        opens = entry.target in self.logs and entry.target not in self.targets
        visible = self.debug_locks or entry.target not in self.named
        self.named.add(entry.target)
        if opens:
            self.open(entry.target, shown, entry.kind)
        elif visible:
            shown.items.append(entry)


# ---- targets ---------------------------------------------------------------------------------------------------------


def many(number, one, more):
    return b"%d%s" % (number, one if number == 1 else more)


def exit_badge(status):
    return b' <strong class="x">exit %d</strong>' % status


def badge(status):
    return b' <strong class="o">unfinished</strong>' if status is None else exit_badge(status) if status else b""


def small(html):
    return b" <small>\xc2\xb7 " + html + b"</small>"


def facts(shown):
    below = list(shown.under())
    warned = sum(target.warnings for target in below)
    out = badge(shown.status)
    if shown.has_times:
        out += small(duration(shown.ended - shown.began))
    if shown.lines:
        out += small(many(len(shown.lines), b" line", b" lines"))
    if shown.warnings:
        out += small(b"<em>" + many(shown.warnings, b" warning", b" warnings") + b"</em>")
    if below:
        out += small(b"%d below" % len(below))
    if warned:
        out += small(b"<em>" + many(warned, b" warning below", b" warnings below") + b"</em>")
    return out


HOW = {b"do": b"made"}
LEAST_LEVEL = 4096
LEFT_OUT = b"Lines are left out here. The command at the end of this page shows all of them."


class LeftOut(NamedTuple):
    """In place of a text line that is not shown. The first one of a log is a note, and nothing is written for the others."""

    is_first: bool


def level_of(sizes, budget):
    """How many bytes of a log are shown at most, or None if all are."""
    if budget == 0 or sum(sizes) <= budget:
        return None
    fits, most = 0, budget  # The largest level that fits is between these.
    while fits < most:
        middle = (fits + most + 1) // 2
        if sum(min(size, middle) for size in sizes) <= budget:
            fits = middle
        else:
            most = middle - 1
    return max(fits, LEAST_LEVEL)


class Timing:
    """The times of the shown targets."""

    def __init__(self, order):
        known = [time for shown in order for time in (shown.began, shown.ended) if time is not None]
        self.took = min(max(known) - min(known), WIDEST) if known else None
        self.window = Window(min(known), max(self.took, 1)) if known else None
        self.parents = [shown.span for shown in order if shown.ran_others]
        self.recipes = [shown.span for shown in order if shown.has_times and not shown.ran_others]
        self.marks = [shown.mark for shown in order if shown.mark]
        self.spans = len(self.parents) + len(self.recipes)
        self.timed = self.spans > 0 and len(self.marks) * 10 <= self.spans + len(self.marks)
        self.total = min(MOST, sum(min(span.ended - span.began, WIDEST) for span in self.recipes))


class Page:
    def __init__(self, build, title, directory, requested, max_bytes, recipes, news):
        self.build, self.title, self.directory, self.requested, self.recipes = build, title, directory, requested, recipes
        self.news = news
        self.out = []
        self.articles = build.first[:10]
        self.level = level_of([shown.size for shown in build.order], max_bytes)
        self.timing = Timing(build.order)

    def put(self, *html):
        self.out += html

    def how(self, kind):
        return small(HOW.get(kind, kind)) if self.build.debug_locks and kind else b""

    def link(self, target):
        """A name that leads to its place in the tree, if it is there."""
        shown = self.build.targets.get(target)
        return b'<a href="#t%d">%s</a>' % (shown.place, bdi(target)) if shown else bdi(target)

    def is_short(self, shown):
        return 0 < len(shown.lines) <= 300 and shown.size <= 40000

    def is_moved(self, shown):
        return shown in self.articles and self.is_short(shown)

    def is_cut(self, shown):
        return self.level is not None and shown.size > self.level and not self.is_moved(shown)

    def items_of(self, shown):
        """The items of a log. If it is cut, they have its first and its last text lines, and a marker for the others."""
        if not self.is_cut(shown):
            return shown.items
        head = self.level // 4
        tail = shown.size - (self.level - head)
        items, begin, all_shown = [], 0, True
        for item in shown.items:
            if isinstance(item, Text):
                end = begin + len(item.line) + 1
                if end > head and begin < tail:
                    item = LeftOut(all_shown)
                    all_shown = False
                begin = end
            items.append(item)
        return items

    # ---- the tree ----

    def tree(self):
        self.put(b'<section id="tree" aria-labelledby="h-tree"><h2 id="h-tree">All logs</h2><p class="quiet">',
                 b"Each log is shown where its target is first mentioned. Logs of targets that failed are open.", b'</p><ul class="tree">')
        self.contents(self.build.top, True, 0)
        self.put(b"</ul></section>")

    def contents(self, around, expanded, depth):
        """Writes what a log contains. A row of five silent logs or more is a group; lines in a row are blocks. The record of a failure that
        isn't shown splits a row, but not lines."""
        items, splits = [], set()
        for item in self.items_of(around):
            if self.is_seen(item, around):
                items.append(item)
            else:
                splits.add(len(items))
        at = 0
        while at < len(items):
            item = items[at]
            if isinstance(item, Text):
                end = at
                while end < len(items) and isinstance(items[end], Text):
                    end += 1
                if not self.is_moved(around):
                    self.blocks([text.line for text in items[at:end]])
                at = end
            elif isinstance(item, Shown) and item.silent and not (around.target is not None and around.silent):
                end = at + 1
                while end < len(items) and isinstance(items[end], Shown) and items[end].silent and end not in splits:
                    end += 1
                if end - at >= 5:
                    self.put(b'<li><details class="s"><summary>%d targets that printed nothing</summary><ul>' % (end - at))
                for log in items[at:end]:
                    self.log(log, around, expanded, depth)
                if end - at >= 5:
                    self.put(b"</ul></details></li>")
                at = end
            else:
                self.log(item, around, expanded, depth) if isinstance(item, Shown) else self.item(item)
                at += 1

    def is_seen(self, item, around):
        if isinstance(item, Done):
            shown = self.build.targets.get(item.target)
            return shown is None or shown.parent is not around
        return True

    def blocks(self, lines):
        blocks, size = [], 0
        for line in lines:
            if not blocks or len(blocks[-1]) == 500 or size + len(line) + 1 > 65536:
                blocks.append([])
                size = 0
            blocks[-1].append(line)
            size += len(line) + 1
        self.put(b"<li>", *[b"<pre>\n" + lines_html(block) + b"</pre>" for block in blocks], b"</li>")

    def item(self, item):
        if isinstance(item, LeftOut):
            self.put(b'<li class="note">' + LEFT_OUT + b"</li>" if item.is_first else b"")
        elif isinstance(item, Mention):
            self.put(b"<li>", self.link(item.target) if item.target in self.build.targets else bdi(item.target), self.how(item.kind), b"</li>")
        elif isinstance(item, Done):
            self.put(b'<li class="note">needs ', self.link(item.target), exit_badge(item.status), b"</li>")
        elif item.kind == b"check":
            self.put(b'<li class="note">(', name_html(item.text), b")</li>")
        else:
            self.put(b'<li class="note">redo: ', name_html(item.text), b"</li>")

    def log(self, shown, around, expanded, depth):
        heading = bdi(shown.target) + self.how(shown.how) + facts(shown)
        only = around.target is None or len(around.items) == 1
        is_open = shown.failed or any(under.failed for under in shown.under()) or expanded and only
        note = b""
        if self.is_moved(shown):
            note = b'<li class="note"><a href="#f%d">What it printed is shown above</a></li>' % shown.place
        if not shown.items:
            self.put(b'<li id="t%d">' % shown.place, heading, b"</li>")
        elif depth >= 60:
            self.put(b'<li id="t%d">' % shown.place, heading, small(b"level %d" % depth), b"</li>", note)
            self.contents(shown, is_open, depth + 1)
            self.put(b'<li class="note">end of ', bdi(shown.target), b"</li>")
        else:
            self.put(b'<li><details open id="t%d"><summary>' % shown.place if is_open else b'<li><details id="t%d"><summary>' % shown.place,
                     heading, b"</summary><ul>", note)
            self.contents(shown, is_open, depth + 1)
            self.put(b"</ul></details></li>")

    # ---- what failed ----

    def failed(self):
        build = self.build
        if not build.first:
            return
        self.put(b'<section id="failed" aria-labelledby="h-failed"><h2 id="h-failed">What failed</h2>')
        if len(self.articles) > 1:
            self.put(b'<ol class="list">')
            for shown in self.articles:
                self.row(shown, b"f", True)
            self.put(b"</ol>")
        for shown in self.articles:
            self.article(shown)
        above = [shown for shown in build.order if shown.failed and shown not in build.first]
        open_ended = [shown for shown in build.order if shown.status is None and not shown.children and shown.parent is not build.top]
        self.more(build.first[10:], b" more that failed", b' start="11"', True)
        self.more(above, b" failed because of these", b"", False)
        self.more(open_ended, b" unfinished", b"", False)
        self.put(b"</section>")

    def row(self, shown, to, with_cause):
        self.put(self.item_with(shown, to, cause_of(shown.lines) if with_cause else None))

    def item_with(self, shown, to, line):
        code = b" <code>" + passage(cut_to(160, line), colours=True)[0] + b"</code>" if line is not None else b""
        return b"".join([b'<li><a href="#%s%d">' % (to, shown.place), bdi(shown.target), b"</a>", badge(shown.status), code, b"</li>"])

    def more(self, targets, words, start, with_cause):
        if not targets:
            return
        self.put(b'<details class="more"><summary>%d%s</summary><ol class="list"%s>' % (len(targets), words, start))
        for shown in targets[:200]:
            self.row(shown, b"t", with_cause)
        self.put(b"</ol>")
        if len(targets) > 200:
            self.put(b'<p class="quiet">and %d more, in the tree</p>' % (len(targets) - 200))
        self.put(b"</details>")

    def article(self, shown):
        path, around = [], shown.parent
        while around.target is not None:
            path.insert(0, around.target)
            around = around.parent
        links = b"".join(bdi(target) + b" \xe2\x80\xba " for target in path[-4:])
        took = duration(shown.ended - shown.began) + b" \xc2\xb7 " if shown.has_times else b""
        self.put(b'<article id="f%d"><h3>' % shown.place, bdi(shown.target), badge(shown.status), b'</h3><p class="meta">', took,
                 b"\xe2\x80\xa6 \xe2\x80\xba " if len(path) > 4 else b"", links, b'<a href="#t%d">its place in the tree</a></p>' % shown.place)
        if shown.target in self.recipes:
            self.recipe(self.recipes[shown.target])
        if not shown.lines:
            below = b" No target below it failed: make or redo reported the cause on the terminal." if shown.children else b""
            self.put(b'<p class="quiet">It printed nothing that was captured.', below, b"</p>")
        elif self.is_short(shown):
            self.put(b"<pre>\n", lines_html(shown.lines, emphasized), b"</pre>")
        else:
            self.excerpt(shown)
        self.put(b"</article>")

    def recipe(self, recipe):
        """The directory of a recipe, and its last ten commands. Long ones are collapsed."""
        if recipe.directory is not None:
            self.put(b'<p class="meta">Directory: ', bdi(recipe.directory), b"</p>")
        if len(recipe.commands) > 10:
            self.put(b'<p class="cut">%d more before these</p>' % (len(recipe.commands) - 10))
        for text, is_whole in recipe.commands[-10:]:
            block = b"<pre>\n" + name_html(cut_to(40_000, text)) + b"</pre>"
            if not is_whole or len(text) > 40_000:
                block += b'<p class="cut">The rest of this command is left out.</p>'
            if len(text) > 1000:
                block = b'<details class="more"><summary><code>' + name_html(cut_to(160, text)) + b"</code> ...</summary>" + block + b"</details>"
            self.put(block)

    def excerpt(self, shown):
        lines, count = shown.lines, len(shown.lines)
        error = next((at for at, line in enumerate(lines) if is_error(line)), count)
        kept = sorted({at for at in (*range(10), *range(max(error - 5, 0), error + 25), *range(count - 60, count)) if 0 <= at < count})
        last = None
        for at in kept:
            if last is None or last + 1 < at:
                if last is not None:
                    left = at - last - 1
                    self.put(b'</pre><p class="cut">', many(left, b" more line: ", b" more lines: "), b'<a href="#t%d">in its log</a></p>' % shown.place)
                self.put(b"<pre>\n")
            text = passage(cut_to(1000, lines[at]), colours=True)[0] + (b"\n" if len(lines[at]) <= 1000 else b" ...\n")
            self.put(emphasized(lines[at], text))
            last = at
        self.put(b"</pre>")

    # ---- what is new ----

    def new(self):
        news = self.news
        if news is None:
            return
        self.put(b'<section id="new" aria-labelledby="h-new"><h2 id="h-new">New since the baseline</h2><p class="quiet">')
        if not news.lines and not news.failing:
            self.put(b"No warning or error is new, and no target newly fails. ")
        self.put(b"New warnings and errors: %d. Gone: %d. Targets that newly fail: %d. Fixed: %d.</p>"
                 % (len(news.lines), news.gone, len(news.failing), len(news.fixed)))
        if news.lines:
            self.put(b'<ol class="list">')
            for shown, position in news.lines[:200]:
                self.put(self.item_with(shown, b"t", shown.lines[position]))
            self.put(b"</ol>")
        if len(news.lines) > 200:
            self.put(b'<p class="quiet">and %d more, in the logs</p>' % (len(news.lines) - 200))
        self.more(news.failing, b" newly failing", b"", False)
        self.more(news.fixed, b" fixed", b"", False)
        self.put(b"</section>")

    # ---- summary ----

    def summary(self):
        self.put(b'<section id="summary" aria-labelledby="h-summary"><h2 id="h-summary">Summary</h2><dl>')
        for term, value in self.tiles():
            self.put(b"<div><dt>", term, b"</dt><dd>", value, b"</dd></div>")
        self.put(b"</dl>")
        tables = self.longest() + self.longest_alone() + self.most_memory() + self.most_warnings()
        if tables:
            self.put(b'<div class="cols">', tables, b"</div>")
        timing = self.timing
        if not timing.timed and timing.spans == 0 and not timing.marks:
            self.put(b'<p class="quiet">There is no timeline: the logs do not say when the targets ran.</p>')
        elif not timing.timed:
            self.put(b'<p class="quiet">There is no timeline: the', self.untimed(), b"</p>")
        self.put(b"</section>")

    def untimed(self):
        marks = len(self.timing.marks)
        return b" logs of %d of %d targets do not say when they began, or when they ended." % (marks, self.timing.spans + marks)

    def tiles(self):
        order, first, timing = self.build.order, self.build.first, self.timing
        above = sum(shown.failed for shown in order) - len(first)
        yield b"Targets", b"%d" % len(order)
        yield b"Failed", b"%d" % len(first) + (b", and %d dependent" % above if above else b"")
        yield b"Lines with warning:", b"%d" % min(MOST, sum(shown.warnings for shown in order))
        yield b"Logs", size(min(MOST, sum(shown.size for shown in order)))
        if timing.window:
            yield b"Took", duration(timing.took)
        if timing.timed:
            yield b"Sum of times", duration(timing.total)
            yield b"At once", b"%s, at most %d" % (tenths(timing.total, timing.window.width), most_at_once(timing.recipes))
        usages = self.usages().values()
        if usages:
            yield b"Processor time", duration(min(MOST, sum(user_ms + system_ms for user_ms, system_ms, _ in usages)))

    def usages(self):
        """What the recipes used that ran no others, as far as it is known."""
        shown_recipes = [self.build.order[span.place] for span in self.timing.recipes]
        usages = {shown: self.recipes[shown.target].usage for shown in shown_recipes if shown.target in self.recipes}
        return {shown: usage for shown, usage in usages.items() if usage is not None}

    def longest(self):
        """The table of the recipes that took longest. Those that ran others are not among them."""
        if not self.timing.timed:
            return b""
        times = {self.build.order[span.place]: min(span.ended - span.began, WIDEST) for span in self.timing.recipes}
        return self.table(b"Longest", times, duration)

    def longest_alone(self):
        """The table of the recipes that were longest the only ones that ran, if others ran at the same time at all."""
        if not self.timing.timed or most_at_once(self.timing.recipes) < 2:
            return b""
        times = times_alone(self.timing.recipes)
        alone = {self.build.order[place]: min(ms, WIDEST) for place, ms in times.items() if ms}
        return self.table(b"Longest alone", alone, duration)

    def most_memory(self):
        """The table of the recipes with the most memory, in kilobytes of 1,024 bytes."""
        memory = {shown: peak_kb for shown, (_, _, peak_kb) in self.usages().items() if peak_kb}
        return self.table(b"Most memory", memory, lambda kilobytes: size(min(MOST, 1024 * kilobytes)))

    def most_warnings(self):
        warnings = {shown: shown.warnings for shown in self.build.order if shown.warnings}
        return self.table(b"Most warnings", warnings, lambda number: b"%d" % number)

    def table(self, heading, values, text):
        """A table of the ten targets with the largest values; of equal ones, the first is first. It is empty if there is no target."""
        rows = sorted(values, key=lambda shown: (-values[shown], shown.place))[:10]
        if not rows:
            return b""
        out = [b"<div><h3>", heading, b"</h3><table><tbody>"]
        for shown in rows:
            filled = min(MOST, values[shown] * 10_000) // max(1, values[rows[0]])
            out += [b'<tr><th scope="row"><a href="#t%d">' % shown.place, bdi(shown.target), b"</a>", badge(shown.status), b"</th>",
                    b'<td class="n">', text(values[shown]), b'</td><td class="m">', meter_html(filled), b"</td></tr>"]
        return b"".join([*out, b"</tbody></table></div>"])

    # ---- timeline ----

    def timeline(self):
        timing = self.timing
        if not timing.timed:
            return
        self.put(b'<section id="timeline" aria-labelledby="h-timeline"><h2 id="h-timeline">Timeline</h2>')
        if timing.marks:
            self.put(b'<p class="quiet">The', self.untimed(), b" These are marks in the last row.</p>")
        self.put(b'<div class="scroll" tabindex="0" role="region" aria-labelledby="h-timeline">', self.chart(),
                 b'</div><p class="quiet">A bar leads to its log.')
        if timing.parents:
            self.put(b" Pale bars are recipes that ran others. They don't count in the sum of times.")
        self.put(b"</p></section>")

    def chart(self):
        timing = self.timing
        parents, parent_lanes = layout(timing.window, 24, timing.parents)
        recipes, recipe_lanes = layout(timing.window, 96, timing.recipes)
        marks, mark_lanes = layout(timing.window, 1, timing.marks)
        lane_height = 18 if recipe_lanes <= 16 else 12 if recipe_lanes <= 40 else 8
        parents_y = 20
        recipes_y = 26 + 14 * parent_lanes
        marks_y = 6 + recipes_y + lane_height * recipe_lanes
        drawn = {
            "parents": [self.drawn(bar, parents_y, 14, True) for bar in parents],
            "recipes": [self.drawn(bar, recipes_y, lane_height, True) for bar in recipes],
            "untimed": [self.drawn(bar, marks_y, 14, False) for bar in marks],
        }
        return chart_html(timing.window.width, 6 + marks_y + 14 * mark_lanes, recipe_lanes, drawn)

    def drawn(self, bar, y, lane_height, has_length):
        shown = self.build.order[bar.place]
        name, took = shown.target, duration(bar.ended - bar.began)
        if bar.count > 1:
            title = b"%d targets" % bar.count + (b" in " + took if has_length else b"") + b", from " + name
        else:
            title = name + (b", " + took if has_length else b"")
            if shown.status is None:
                title += b", unfinished"
            elif shown.status != 0:
                title += b", exit %d" % shown.status
        last = name.rpartition(b"/")[2]
        label = last if bar.width >= 350 and lane_height > 12 and last else None
        return DrawnBar(bar, y + bar.lane * lane_height, lane_height - 2, title, label)

    # ---- the frame ----

    def whole(self):
        build = self.build
        targets, failures = len(build.order), len(build.first)
        if failures:
            verdict, sign = b"bad", "\u2717"
            heading = b"%d of " % failures + many(targets, b" target failed", b" targets failed")
        elif any(shown.status is None for shown in build.top.children):
            verdict, sign = b"open", "\u2026"
            heading = b"%d of " % sum(shown.status is None for shown in build.order) + many(targets, b" target unfinished", b" targets unfinished")
        else:
            verdict, sign = b"good", "\u2713"
            heading = many(targets, b" target made, none failed", b" targets made, none failed")
        sign = sign.encode()
        title = sign + b" " + (self.title + b" \xc2\xb7 " if self.title else b"") + heading
        self.put(b'<!doctype html><html lang="en"><head><meta charset="utf-8"><meta name="viewport" content="width=device-width, initial-scale=1">',
                 b'<meta name="color-scheme" content="light dark"><meta name="referrer" content="no-referrer">',
                 b"<meta http-equiv=\"Content-Security-Policy\" content=\"default-src 'none'; style-src 'unsafe-inline'\">",
                 b"<title>", passage(title, marks=False)[0], b"</title><style>", STYLE_SHEET, b'</style></head><body class="%s">' % verdict,
                 b'<header><h1><span class="sign" aria-hidden="true">', sign, b"</span> ", heading, b"</h1>")
        if self.title:
            self.put(b"<p>", name_html(self.title), b"</p>")
        for shown in build.top.children:
            self.put(b"<p>", bdi(shown.target), badge(shown.status), b"</p>")
        self.when()
        self.put(b'</header><nav aria-label="Parts of this page"><ul>')
        if failures:
            self.put(b'<li><a href="#failed">What failed</a></li>')
        if self.news is not None:
            self.put(b'<li><a href="#new">New since the baseline</a></li>')
        self.put(b'<li><a href="#summary">Summary</a></li>')
        if self.timing.timed:
            self.put(b'<li><a href="#timeline">Timeline</a></li>')
        self.put(b'<li><a href="#tree">All logs</a></li></ul></nav><main>')
        self.failed()
        self.new()
        self.summary()
        self.timeline()
        self.tree()
        self.put(b"</main><footer><p>Made by <code>redo-log-html</code> of ", many(targets, b" log in ", b" logs in "), b"<code>",
                 name_html(self.directory), b"</code>. As one text: <code>", name_html(self.command()), b"</code></p></footer></body></html>\n")
        return b"".join(self.out)

    def when(self):
        """When the build began, and how long it took."""
        window = self.timing.window
        if window:
            began = date(window.began // 1000)
            self.put(b'<p class="meta">', began + b" \xc2\xb7 " if began else b"", b"took ", duration(self.timing.took), b"</p>")

    def command(self):
        """The command that shows the same as text. If the page highlights a character of it, words that aren't ASCII are in octal."""
        command = self.command_with(quoted)
        return self.command_with(quoted_in_ascii) if b"<i>" in name_html(command) else command

    def command_with(self, quote):
        flags = b" -u" * self.build.unchanged + b" --debug-locks" * self.build.debug_locks
        # A name with a dash at its start would be an option. A shell joins `./` to the quoted name.
        words = [(b"./" if name.startswith(b"-") else b"") + quote(name) for name in self.requested]
        return b"redo-log -r" + flags + b" --dir=" + quote(self.directory) + b"".join(b" " + word for word in words)


def quoted(word):
    return word if re.fullmatch(rb"[a-zA-Z0-9@%+,./:=_-]+", word) else b"'" + word.replace(b"'", b"'\\''") + b"'"


def quoted_in_ascii(word):
    if re.fullmatch(rb"[ -~]*", word):
        return quoted(word)
    return b"\"$(printf '" + re.sub(rb"[^a-zA-Z0-9@+,./:=_]", lambda byte: b"\\%03o" % ord(byte[0]), word, flags=re.S) + b"')\""


ERROR = re.compile(rb"(?<![A-Za-z0-9_])(?:(?i:error|undefined reference|no such file|fatal|not found|cannot)|FAIL|FAILED)(?![A-Za-z0-9_])")


# Colours, parts of lines that are erased, and links.
SEQUENCE = re.compile(rb"\x1b\[[0-9;]*[mK]|\x1b\]8;[!-:<-~]*;[!-~]*(?:\x07|\x1b\\)")


def without_sequences(line):
    """A line with a zero in place of each sequence, which ends a word."""
    return SEQUENCE.sub(b"\x00", line)


def is_error(line):
    return ERROR.search(without_sequences(line)) is not None


def emphasized(line, html):
    return b"<em>" + html + b"</em>" if is_error(line) else html


def is_blank(line):
    return not re.search(rb"[^\x00-\x20]", without_sequences(line))


def cause_of(lines):
    filled = [line for line in lines if not is_blank(line)]
    return next((line for line in lines if is_error(line)), filled[-1] if filled else None)


with open(os.path.join(os.path.dirname(os.path.abspath(__file__)), "style.css"), "rb") as file:
    STYLE_SHEET = file.read()


MAX_BYTES = 16_000_000


def page_of(logs, requested, title=b"", directory=b".", unchanged=False, debug_locks=False, times=None, max_bytes=MAX_BYTES, recipes=None, news=None):
    """`times` has when each target began and ended, as `times_of` in times_model.py returns it, and `recipes` has the facts of each target, as
    `facts_of` in facts_model.py returns them. `news` is what is new since a baseline, as `news_of` in news_model.py returns it."""
    return Page(Build(logs, requested, unchanged, debug_locks, times or {}), title, directory, requested, max_bytes, recipes or {}, news).whole()
