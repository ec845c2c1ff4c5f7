"""A slow, simple model of baselines: which diagnostics of a target are new since an earlier build, how many are gone, and what newly
fails or is fixed.

It counts, where the program goes over flags: a diagnostic is known if the earlier log has more with its key and source line than were
known by these before, or else more with its key than the others of this log know."""
import os
import re
import sys
from collections import Counter

HERE = os.path.dirname(os.path.abspath(__file__))
sys.path[:0] = [os.path.join(HERE, "..", "page"), os.path.join(HERE, "..", "differential")]
from page_model import Build  # noqa: E402
from times_model import logs_model  # noqa: E402

EXCERPT = re.compile(rb" *[0-9]+ \|(.*)", re.DOTALL)


def source_of(lines, position, plain):
    """The source line that the line after this position shows, or nothing."""
    found = EXCERPT.fullmatch(plain(lines[position + 1])) if position + 1 < len(lines) else None
    return found[1].strip(b" ") if found else b""


def unknown_of(earlier, now):
    """Which of these pairs of keys and source lines are new, by their positions: by both, then by the key alone."""
    pairs, keys = Counter(earlier), Counter(key for key, _ in earlier)
    left = []
    for position, pair in enumerate(now):
        if pairs[pair]:
            pairs[pair] -= 1
            keys[pair[0]] -= 1
        else:
            left.append(position)
    new = []
    for position in left:
        key = now[position][0]
        if keys[key]:
            keys[key] -= 1
        else:
            new.append(position)
    return new


class Baseline:
    """The logs of an earlier build, and how its targets ended, if these targets are requested of it."""

    def __init__(self, logs, requested, unchanged):
        known = [log.target for log in logs]
        build = Build(logs, [*(target for target in requested if target in known), *known], unchanged, False, {})
        self.shown = {shown.target: shown for shown in build.order}

    def changes(self, shown, kinds):
        """The flags of a target's diagnostics, and the member `baseline`. `kinds` returns the keys and source lines of some lines."""
        before, now = self.shown.get(shown.target), kinds(shown.lines)
        earlier = kinds(before.lines) if before else []
        new = unknown_of(earlier, now)
        had_failed = before is not None and before.failed
        return [position in new for position in range(len(now))], {
            "built": before is not None,
            "gone": len(unknown_of(now, earlier)),
            "newly_fails": is_root_failure(shown) and not had_failed,
            "fixed": before is not None and is_root_failure(before) and shown.status == 0,
        }


def is_root_failure(shown):
    """Whether a target failed, and none in its log did."""
    return shown.failed and not any(under.failed for under in shown.under())


def read_baseline(current, folder):
    """The logs of a baseline. Raises `Refused` for its first fault, with the directory, and the file of a log in place of its target."""
    try:
        index = logs_model.read_index(current, folder)
        for listed in index:
            log = read_regular(current, folder, listed)
            try:
                logs_model.refuse_faults([log])
            except logs_model.Refused as refused:
                raise logs_model.Refused(refused.status, b"log." + listed.number + refused.line.removeprefix(listed.target))
        return [read_regular(current, folder, listed) for listed in index]
    except logs_model.Refused as refused:
        raise logs_model.Refused(refused.status, b"baseline " + folder + b": " + refused.line)


def read_regular(current, folder, listed):
    """A log. One that isn't a regular file counts as empty."""
    if os.path.isfile(logs_model.path_of(current, folder, b"log." + listed.number)):
        return logs_model.read_log(current, folder, listed)
    return logs_model.log_of(listed.target, b"", must_close=listed.must_close)
