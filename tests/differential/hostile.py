"""Capture directories by seed, more hostile than the directories of generate.py.

`case(seed, directory)` fills the empty directory and returns the arguments of a command line to be run in it. Most directories
are cases of generate.py whose files are then damaged. The others are chains, rings and webs of many logs. The result depends only
on the seed."""

import os
import random

import generate

# Mostly the maximum number of threads, and the minimum capacity of the mailbox.
SENDERS = [b"64"] * 4 + generate.SENDERS
CAPACITIES = [b"1"] * 4 + generate.CAPACITIES

LENGTHS = [0, 1, 255, 256, 4095, 4096, 4097, 65_535, 65_536, 65_537, 70_000]
ODD_BYTES = [b"\n", b"\n\n", b"\r\n", b"\x00", b"\xff", b" ", b"@", b"@@", b"@@REDO:", b":", b"/", b"..", b"../", b"0", b"-"]
KINDS = [b"do", b"waiting", b"locked", b"unlocked", b"unchanged", b"check", b"warning"]


# ---- Damage ----------------------------------------------------------------------------------------------------------


def place_in(rng, data):
    return rng.randrange(len(data) + 1)


def cut(rng, data):
    """Returns the data as a truncated write leaves it."""
    return data[: place_in(rng, data)]


def cut_at_end(rng, data):
    """Returns the data as a truncated copy leaves it: without some or all bytes of the last two lines, or empty."""
    last = len(b"\n".join(data.split(b"\n")[-3:]))
    return rng.choice([data[: len(data) - rng.randrange(last + 1)]] * 9 + [b""])


def cut_in_record(rng, data):
    starts = [at for at in range(len(data)) if data.startswith(b"@@REDO:", at)]
    return data[: rng.choice(starts) + rng.randrange(1, 45)] if starts else cut(rng, data)


def without_front(rng, data):
    return data[place_in(rng, data) :]


def without_some(rng, data):
    at = place_in(rng, data)
    return data[:at] + data[at + rng.choice([1, 1, 2, 5, 20]) :]


def changed(rng, data):
    at = place_in(rng, data)
    return data[:at] + rng.choice([rng.choice(ODD_BYTES), bytes([rng.randrange(256)])]) + data[at + 1 :]


def with_more(rng, data):
    at = place_in(rng, data)
    return data[:at] + rng.choice(ODD_BYTES) + data[at:]


def lines_in_disorder(rng, data):
    lines = data.split(b"\n")
    if rng.random() < 0.5:
        rng.shuffle(lines)
    else:
        lines.insert(rng.randrange(len(lines) + 1), rng.choice(lines))
    return b"\n".join(lines)


def two_writers(rng, data):
    """Returns the data as two writers leave it if they don't wait for each other."""
    other = data[place_in(rng, data) :]
    at = place_in(rng, data)
    return data[:at] + other + data[at:]


def long_name(rng):
    length = rng.choice(LENGTHS)
    part = rng.choice([b"n", b"a/", b"../", b"./", b"/", b"x/../", b" ", b"\xff", b"n/..//"])
    return (part * (length // len(part) + 1))[:length]


def with_long_name(rng, data):
    text = long_name(rng) + rng.choice([b"", b"", b"a", b"/a", b"/b"])
    if rng.random() < 0.2:
        return data + b"%d " % rng.randrange(1, 1000) + text + b"\n"
    kind = rng.choice([*KINDS, b"done"])
    return data + b"@@REDO:%s:%s:1@@ " % (kind, rng.choice(generate.GOOD_PIDS)) + (b"0 " if kind == b"done" else b"") + text + b"\n"


def long_log(rng, data):
    """Returns the data repeated, mostly to more bytes than one read takes."""
    return data * (rng.choice([5_000, 70_000, 140_000]) // max(len(data), 1) + 1)


DAMAGE = [cut] * 3 + [cut_in_record] * 3 + [without_front, without_some, changed, changed, with_more, with_more]
DAMAGE += [lines_in_disorder, two_writers, with_long_name, with_long_name, long_log]


def damage(rng, directory):
    """Damages some of the files below a directory."""
    files = []
    for folder, _, names in sorted(os.walk(directory)):
        files += [os.path.join(folder, name) for name in sorted(names)]
    files = [path for path in files if os.path.isfile(path)]
    for _ in range(rng.choice([1, 1, 1, 2, 3, 6]) if files else 0):
        path = rng.choice(files)
        with open(path, "rb") as file:
            data = file.read()
        with open(path, "wb") as file:
            file.write(rng.choice(DAMAGE)(rng, data))


# ---- Many logs -------------------------------------------------------------------------------------------------------


def mentioned(rng, shape, number, count):
    """Returns the numbers of the targets that a log mentions."""
    if shape == "chain":
        return [number + 1] if number + 1 < count else []
    if shape == "ring":
        return [(number + 1) % count]
    if shape == "two rings":
        return [(number + 1) % count, (number - 1) % count]
    return [rng.randrange(count) for _ in range(rng.choice([0, 1, 2, 5]))]


def many_logs(rng, directory):
    """Writes a chain, a ring or a web of logs. Returns the arguments of a command line."""
    count = rng.choice([2, 40, 100, 200])
    shape = rng.choice(["chain", "ring", "two rings", "web"])
    name = rng.choice([lambda number: b"t%d" % number, lambda number: b"../t%d" % number, lambda number: b"/d/t%d" % number])
    # Logs with the must-close flag are all closed. At most one log is damaged at its end.
    mark = rng.choice([lambda: b""] * 3 + [lambda: b"!", lambda: rng.choice([b"", b"!"])])
    marks = [mark() for _ in range(count)]
    damaged = rng.choice([None, rng.randrange(count)])
    with open(os.path.join(directory, "names"), "wb") as index:
        index.write(b"".join(b"%s%d %s\n" % (marks[number], number + 1, name(number)) for number in range(count)))
    for number in range(count):
        lines = [rng.choice(generate.TEXTS)] * rng.choice([0, 1, 3])
        for other in mentioned(rng, shape, number, count):
            # In the log of a target with a directory, a name without one is relative to this directory.
            text = name(other).split(b"/")[-1]
            lines.insert(place_in(rng, lines), b"@@REDO:%s:%s:1@@ %s" % (rng.choice(KINDS[:1] * 9 + KINDS), rng.choice(generate.GOOD_PIDS), text))
        if marks[number] or rng.random() < 0.2:
            lines.append(b"@@REDO:done:%s:1@@ %d t%d" % (rng.choice(generate.GOOD_PIDS), rng.choice([0, 1]), number))
        data = b"".join(line + b"\n" for line in lines)
        if number == damaged:
            data = cut_at_end(rng, data)
        if rng.random() < 0.95 or (marks[number] and number != damaged):
            with open(os.path.join(directory, f"log.{number + 1}"), "wb") as log:
                log.write(data)
    options = [word for option in generate.some_options(rng, SENDERS, CAPACITIES) for word in option]
    return options + [name(rng.randrange(count)) for _ in range(rng.choice([1, 1, 3]))]


def case(seed, directory):
    rng = random.Random(f"storm {seed}")
    if rng.random() < 0.1:
        words = many_logs(rng, directory)
    else:
        words = generate.case(seed, directory, SENDERS, CAPACITIES)
    if rng.random() < 0.7:
        damage(rng, directory)
    return words


# ---- Logs that grow --------------------------------------------------------------------------------------------------


def growing(seed, directory):
    """Writes two logs; one mentions the other. Returns the arguments, the path of the other log, and what to append."""
    rng = random.Random(f"growing {seed}")
    files = {"names": b"1 a\n2 b\n", "log.1": b"@@REDO:do:7:1@@ b\nend of a\n", "log.2": b"first of b\n"}
    for name, content in files.items():
        with open(os.path.join(directory, name), "wb") as file:
            file.write(content)
    lines = [generate.good_line(rng, b"b", [b"a", b"b"])[:60] for _ in range(rng.choice([5, 10, 15]))]
    if rng.random() < 0.2:
        lines.insert(place_in(rng, lines), b"@@REDO:do:7:1@@")
    words = [word for option in generate.some_options(rng, SENDERS, CAPACITIES) for word in option]
    return [*words, b"a", b"b"], os.path.join(directory, "log.2"), b"".join(line + b"\n" for line in lines)
