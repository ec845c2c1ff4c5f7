"""Capture directories with words of a command line: those whose names and lines try to be markup, and those of tests/differential."""
import os
import random
import re
import sys

sys.path.insert(0, os.path.join(os.path.dirname(os.path.abspath(__file__)), "..", "differential"))
import generate  # noqa: E402
import hostile  # noqa: E402
from times_model import logs_model  # noqa: E402

PIECES = [
    b"<script>alert(1)</script>", b"</pre>", b"</details></li></ul>", b"<!--", b"-->", b"<![CDATA[", b"&lt;", b"&#60;", b"&amp", b"&", b"<",
    b">", b'"', b"'", b"`", b"<b>", b"</style>", b"</title>", b"<textarea>", b"<plaintext>", b"<svg>", b"<?php",
    b"<a href='javascript:x'>", b" onload=x ", b"\0", b"\r", b"\r\n", b"\x07", b"\x1b", b"\x1b[31m", b"\x1b[01;31m\x1b[K", b"\x1b[m\x1b[K",
    b"\x1b[0m", b"\x1b[1m", b"\x1b[22m", b"\x1b[38;5;9m",
    b"\x1b[48;2;1;2;3m", b"\x1b[8m", b"\x1b[2J", b"\x1b[", b"\x1b[;;", b"\x1b]8;;http://x/?<a>&b\x07", b"\x1b]8;id=1;error:\x1b\\",
    b"\x1b]8;;\x1b\\", b"\x1b]8;;", b"\x1b]8;;a b\x07", b"\\", b"\x7f", b"\x80", b"\xc3", b"\xc3\xa4", b"\xe2\x80\xae", b"\xe2\x80\x8b",
    b"\xef\xbb\xbf", b"\xf0\x9f\x9a\x80", b"\xf0\x9f\x9a", b"\xed\xa0\x80", b"\xff" * 3, b"\0" * 9, b" ", b"\t", b"a", b"error: ",
    b"warning: ",
    b"undefined reference", b"x" * 70, b"\xd0\xb6" * 9, b"\\", b"]]>", b"%3C", b"href", b"\xc2\xa0", b"\xc2\x85", b"\xe2\x80\xa8",
    b"\xef\xb7\x90", b"\xef\xbf\xbe", b"\xf0\x9f\xbf\xbf", b"\xf4\x8f\xbf\xbf", b"\xf0\x9b\xb2\xa0", b"\xf0\x9d\x85\xb3",
]


def hostile_text(rng, most):
    return b"".join(rng.choice(PIECES) for _ in range(rng.randrange(most)))


def hostile_name(rng):
    name = hostile_text(rng, 5).replace(b"\n", b"").replace(b"\r\n", b"\r")
    return rng.choice([b"", b"lib/", b"-"]) + name + b"%d" % rng.randrange(100)


def moment(rng, first):
    """A time in the tenth of a second after the second `first`, or one that doesn't count."""
    return b"%d%s" % (first, rng.choice([b"", b".0", b".05", b".%03d" % rng.randrange(100)])) if rng.random() < .97 else b"1"


def max_bytes(rng):
    """An option that limits the bytes of text lines, or none."""
    return [b"--max-bytes=%d" % rng.choice([0, 1, 5000, 20_000, 16_000_000, rng.randrange(1, 60_000)])] * (rng.random() < .6)


def hostile_case(seed, directory):
    """A directory of logs that try to be markup, with failures, silent targets, long outputs and deep nesting."""
    rng = random.Random(seed)
    count = rng.choice([1, 3, 8, 30, 90])
    names = [b"all", *dict.fromkeys(hostile_name(rng) for _ in range(count))]
    chain = rng.random() < .1
    with open(os.path.join(directory, "names"), "wb") as file:
        for number, name in enumerate(names, 1):
            file.write(b"%d %s\n" % (number, name))
    timed = rng.random() < .6
    for number, name in enumerate(names, 1):
        lines = [b"@@REDO:do:7:%s@@ %s" % (moment(rng, 1_600_000_000), from_log(name, name))] * timed
        below = names[number:][:1] if chain else rng.sample(names, min(len(names), rng.choice([0, 0, 1, 3, 12])))
        for other in below:
            kind = rng.choice([b"do", b"do", b"do", b"waiting", b"locked", b"unlocked", b"unchanged"])
            lines.append(b"@@REDO:%s:7:%s@@ %s" % (kind, moment(rng, 1_600_000_000), from_log(other, name)))
            if rng.random() < .3 and (other != name or rng.random() < .1):
                when, status = moment(rng, 1_600_000_001), rng.choice([0, 0, 1, -2, 127])
                lines.append(b"@@REDO:done:7:%s@@ %d %s" % (when, status, from_log(other, name)))
        for _ in range(rng.choice([0, 0, 0, 1, 5, 40])):
            lines.insert(rng.randrange(len(lines) + 1), hostile_text(rng, 12).replace(b"\n", b" "))
        if rng.random() < .05:
            count = rng.choice([299, 300, 301, 700, 1200])
            lines += [b"line %d " % line + hostile_text(rng, 3).replace(b"\n", b" ") for line in range(count)]
        if rng.random() < .03:
            lines.append(b"y" * rng.choice([999, 1000, 1001, 40000, 65535, 65536, 1_000_000]) + b"\xd0\xb6" * 3)
        if rng.random() < .1:
            lines.append(rng.choice([b"@@REDO:check:3:5@@ <i>", b"@@REDO:note:3:5@@ &amp;"]))
        if rng.random() < .8:
            when, status = moment(rng, 1_600_000_000 + rng.randrange(3)), rng.choice([0, 0, 0, 1, 2, -1])
            lines.append(b"@@REDO:done:9:%s@@ %d %s" % (when, status, from_log(name, name)))
        data = b"".join(line + b"\n" for line in lines)
        with open(os.path.join(directory, "log.%d" % number), "wb") as file:
            file.write(data)
    words = [b"-u"] * (rng.random() < .3) + [b"--debug-locks"] * (rng.random() < .3)
    title = [b"--title=" + rng.choice([b"nightly", "<b>&amp; \u202e\t".encode(), b""])] * (rng.random() < .5)
    return [*words, *title, *max_bytes(rng)]


def from_log(name, own):
    """How the log of `own` spells a name."""
    return b"../" * own.count(b"/") + name


def random_case(seed, directory):
    """A directory of tests/differential. Half of them have times that count."""
    words, rng = generate.case(seed, directory), random.Random(seed)
    if seed % 2:
        give_times(rng, directory)
    return page_words(words, rng)


def damaged_case(seed, directory):
    """A directory of tests/differential whose files are damaged, or that has many logs."""
    return page_words(hostile.case(seed, directory), random.Random(seed))


def page_words(words, rng):
    """Words for redo-log-html, from words for redo-log; None if those are rejected or request help."""
    try:
        asked = logs_model.command_line(words)
    except logs_model.Refused:
        return None
    if asked.help:
        return None
    options = [b"-u"] * asked.unchanged + [b"--debug-locks"] * asked.debug_locks + [b"--dir=" + asked.directory] + max_bytes(rng)
    return [*options, b"--", *asked.targets]


def give_times(rng, directory):
    """Writes times that count into the records of all logs, most of them."""
    for folder, _, files in os.walk(directory):
        for path in (os.path.join(folder, file) for file in files if file.startswith("log.")):
            if os.path.isfile(path):
                with open(path, "rb") as file:
                    data = file.read()
                with open(path, "wb") as file:
                    file.write(re.sub(rb"^(@@REDO:[a-z_-]+:[0-9]{1,10}:)[0-9]{1,20}(?:\.[0-9]{1,9})?(?=@@ )",
                                      lambda found: found[1] + moment(rng, rng.randrange(1_600_000_000, 1_600_000_009)), data, flags=re.M))
