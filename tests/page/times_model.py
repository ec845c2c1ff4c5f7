"""When targets began and ended, by the records of their logs, and how times and sizes are written: a part of the model of a page."""
import datetime
import os
import sys
from typing import NamedTuple, Optional

sys.path.insert(0, os.path.join(os.path.dirname(os.path.abspath(__file__)), "..", "differential"))
import model as logs_model  # noqa: E402

WIDEST = 2**44 - 1  # milliseconds
MOST = 2**64 - 1

# ---- times of logs ---------------------------------------------------------------------------------------------------


def time_value(time):
    """The milliseconds since 1970 of a record's time, or None if it doesn't count."""
    seconds, _, decimals = time.partition(b".")
    if not 1_000_000_000 <= int(seconds) <= 9_999_999_999:
        return None
    return 1000 * int(seconds) + int((decimals + b"000")[:3])


class Times(NamedTuple):
    """When a target began and ended, and whether it ran others."""
    began: Optional[int] = None
    ended: Optional[int] = None
    ran_others: bool = False


def times_of(logs):
    """Returns the times of each target: None for an unknown time. `logs` has the target and the bytes of each log."""
    began_in_own_log, began_in_other_log, ended_in_own_log, ended_in_other_log, ran_others_at = {}, {}, {}, {}, {}
    for target, data in logs:
        for line in logs_model.lines_of(data[: logs_model.MOST_BYTES]):
            entry = logs_model.entry_of(line, target) if logs_model.is_candidate(line) else None
            if entry is None:
                continue
            time = time_value(logs_model.RECORD.fullmatch(line.content)["time"])
            if time is None:
                continue
            is_mention = isinstance(entry, logs_model.Mention)
            if is_mention and entry.kind != b"unchanged" and entry.target != target or isinstance(entry, logs_model.Done):
                ran_others_at.setdefault(target, []).append(time)
            if is_mention and entry.kind == b"do":
                began = began_in_own_log if entry.target == target else began_in_other_log
                began[entry.target] = min(time, began.get(entry.target, time))
            elif isinstance(entry, logs_model.Closed):
                ended_in_own_log[target] = max(time, ended_in_own_log.get(target, time))
            elif isinstance(entry, logs_model.Done):
                ended_in_other_log[entry.target] = max(time, ended_in_other_log.get(entry.target, time))
    times = {}
    for target, _ in logs:
        begin = began_in_own_log.get(target, began_in_other_log.get(target))
        # If its own log says when the target began, other logs may be of earlier builds.
        end = ended_in_own_log.get(target, None if target in began_in_own_log else ended_in_other_log.get(target))
        if begin is not None and end is not None and begin > end:  # the clock was set
            begin = None
        is_known = begin is not None and end is not None
        times[target] = Times(begin, end, is_known and any(begin < time <= end for time in ran_others_at.get(target, [])))
    return times


def read_capture(current, folder, targets):
    """Returns the index of a capture directory, the requested targets, the logs, and the times of the targets. Raises `Refused` for the first
    fault."""
    index = logs_model.read_index(current, folder)
    asked = logs_model.CommandLine()
    asked.targets = targets
    requested = logs_model.targets_asked_for(asked, index)
    logs = [logs_model.read_log(current, folder, listed) for listed in index]
    logs_model.refuse_faults(logs)
    return index, requested, logs, times_of([(listed.target, bytes_of(current, folder, listed)) for listed in index])


def bytes_of(current, folder, listed):
    try:
        with open(logs_model.path_of(current, folder, b"log." + listed.number), "rb") as file:
            return file.read()
    except FileNotFoundError:
        return b""


# ---- texts -----------------------------------------------------------------------------------------------------------


def duration(ms):
    if ms < 10_000:
        return b"%d.%02d s" % (ms // 1000, ms % 1000 // 10)
    if ms < 60_000:
        return b"%d.%d s" % (ms // 1000, ms % 1000 // 100)
    if ms < 3_600_000:
        return b"%d min %02d s" % (ms // 60_000, ms % 60_000 // 1000)
    return b"%d h %02d min" % (ms // 3_600_000, ms % 3_600_000 // 60_000)


def size(count):
    if count < 1000:
        return b"1 byte" if count == 1 else b"%d bytes" % count
    for least, unit in ((10**9, b"GB"), (10**6, b"MB"), (10**3, b"kB")):
        if count >= least:
            return b"%d.%d %s" % (count // least, count % least * 10 // least, unit)


def tenths(a, b):
    quotient = min(MOST, a * 10) // b
    return b"%d.%d" % (quotient // 10, quotient % 10)


DAYS = [b"Mon", b"Tue", b"Wed", b"Thu", b"Fri", b"Sat", b"Sun"]
MONTHS = [b"Jan", b"Feb", b"Mar", b"Apr", b"May", b"Jun", b"Jul", b"Aug", b"Sep", b"Oct", b"Nov", b"Dec"]


def date(seconds):
    """The time of day in seconds since 1970, or None from the year 10000 on."""
    try:
        when = datetime.datetime(1970, 1, 1) + datetime.timedelta(seconds=seconds)
    except OverflowError:
        return None
    return b"%s, %02d %s %04d %02d:%02d:%02d GMT" % (
        DAYS[when.weekday()], when.day, MONTHS[when.month - 1], when.year, when.hour, when.minute, when.second)


def tick(ms, step):
    """The text of a tick of an axis whose ticks are `step` apart."""
    if ms == 0:
        return b"0"
    if ms < 60_000:
        decimals = 3 if step < 10 else 2 if step < 100 else 1 if step < 1000 else 0
        fraction = b".%03d" % (ms % 1000)
        return b"%d%s s" % (ms // 1000, fraction[: decimals + 1] if decimals else b"")
    if ms < 3_600_000:
        return b"%d:%02d" % (ms // 60_000, ms % 60_000 // 1000)
    return b"%d:%02d h" % (ms // 3_600_000, ms % 3_600_000 // 60_000)
