"""What is new in a build since an earlier one, the baseline: by the rules of docs/page.md and nothing else.

`news_of(logs, requested, earlier, unchanged, debug_locks)` compares the logs of two builds. The key of a warning or an error is the one of
tests/json.
"""

import os
import re
import shutil
import sys

sys.path.insert(0, os.path.join(os.path.dirname(os.path.abspath(__file__)), "..", "json"))
from json_model import diagnostic_of, plain  # noqa: E402
from page_model import Build  # noqa: E402

SOURCE_LINE = re.compile(rb" *[0-9]+ \|(.*)", re.DOTALL)


def found_in(lines):
    """For each warning and error of a log: the position of its line, its key, and the source line that the next line shows, or nothing."""
    found = []
    for position, line in enumerate(lines):
        diagnostic = diagnostic_of(line)
        if diagnostic is not None:
            shows = SOURCE_LINE.fullmatch(plain(lines[position + 1])) if position + 1 < len(lines) else None
            found.append((position, diagnostic[1], shows[1].strip(b" ") if shows else b""))
    return found


def new_in(before, now):
    """The positions of the lines of `now` that are new. Each one before makes one now known: the same key and source line come first, and then the
    same key."""
    left = [(key, source) for _, key, source in before]
    unknown = []
    for position, key, source in now:
        if (key, source) in left:
            left.remove((key, source))
        else:
            unknown.append((position, key))
    keys = [key for key, _ in left]
    new = []
    for position, key in unknown:
        if key in keys:
            keys.remove(key)
        else:
            new.append(position)
    return new


class News:
    def __init__(self, build, earlier):
        """Both are builds of page_model.py. `earlier` shows all targets of the baseline."""
        self.lines, self.gone, self.failing, self.fixed = [], 0, [], []
        for shown in build.order:
            before = earlier.targets.get(shown.target)
            old, now = found_in(before.lines) if before else [], found_in(shown.lines)
            self.lines += [(shown, position) for position in new_in(old, now)]
            self.gone += len(new_in(now, old))
            if is_root_failure(shown) and not (before and before.failed):
                self.failing.append(shown)
            if before and is_root_failure(before) and shown.status == 0:
                self.fixed.append(shown)


def news_of(logs, requested, earlier, unchanged=False, debug_locks=False):
    targets = [log.target for log in earlier]
    shown_before = [target for target in requested if target in targets] + targets
    return News(Build(logs, requested, unchanged, debug_locks, {}), Build(earlier, shown_before, unchanged, debug_locks, {}))


def is_root_failure(shown):
    return shown.failed and not any(under.failed for under in shown.under())


# ---- captures to compare with ----------------------------------------------------------------------------------------

LINES = [b"a.c:1: warning: x", b"a.c:2:3: warning: x", b"b.c:1: error: y [-Wz]", b"warning: x", b"error: z", b"fatal error:", b"   1 | int x;",
         b"  20 |   int x; ", b"7 |", b"\x1b[1ma.c:5:\x1b[m \x1b[31merror: \x1b[mx", b"/tmp/ccAbCdEf.o: error: y", b"a.c: In function"]


def is_text(line):
    return not line.startswith(b"@@REDO:")


def changed_log(rng, data):
    """A log with other text lines before its first record of an end, and sometimes with another status. Records stay where they are."""
    lines = data.split(b"\n")
    end = next((at for at, line in enumerate(lines) if line.startswith(b"@@REDO:done:")), len(lines) - 1)
    texts, ends = [line for line in lines[:end] if is_text(line)], lines[end:]
    front = lines[:end]
    for _ in range(rng.choice([0, 1, 1, 3, 8])):
        how = rng.random()
        places = [at for at, line in enumerate(front) if is_text(line)]
        if how < .6 or not places:
            front.insert(rng.randrange(len(front) + 1), rng.choice(LINES + texts))
        else:
            del front[rng.choice(places)]
    if rng.random() < .3:
        ends = [re.sub(rb"^(@@REDO:done:[0-9]+:[0-9.]+@@ )-?[0-9]+ ", lambda found: found[1] + b"%d " % rng.choice([0, 0, 1, 2]), line) for line in ends]
    return b"\n".join(front + ends)


def write_baseline(rng, capture, folder):
    """Writes a baseline of a capture to `folder`, with other lines and statuses and without a target, and changes the capture, too. Returns whether
    there is a baseline."""
    try:
        shutil.copytree(capture, folder, symlinks=True)
        with open(os.path.join(folder, b"names"), "rb") as file:
            names = file.read().split(b"\n")
    except OSError:  # Also for files that can't be copied.
        return False
    if rng.random() < .3 and len(names) > 2:
        del names[rng.randrange(len(names) - 1)]
        with open(os.path.join(folder, b"names"), "wb") as file:
            file.write(b"\n".join(names))
    for place in (capture, folder):
        for name in sorted(os.listdir(place)):
            path = os.path.join(place, name)
            if name.startswith(b"log.") and os.path.isfile(path) and not os.path.islink(path) and os.path.getsize(path) < 100_000 and rng.random() < .7:
                with open(path, "rb") as file:
                    data = file.read()
                with open(path, "wb") as file:
                    file.write(changed_log(rng, data))
    return True
