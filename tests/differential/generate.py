"""Small hostile capture directories by seed.

`case(seed, directory)` fills the empty directory and returns the arguments of a command line to be run in it. The result depends
only on the seed."""

import os
import random

# ---- Names -----------------------------------------------------------------------------------------------------------

COMMON_TARGETS = [b"a", b"b", b"c", b"d/x", b"d/y", b"../y", b"/z"]
RARE_TARGETS = [
    b"d",
    b"d/e/w",
    b"/p/q",
    b"a b",
    b" a",
    b"d/x ",
    b"0 a",
    b"../../u",
    b"../d/x",
    b".",
    b"..",
    b"/",
    b"...",
    b"..a",
    b"-r",
    b"--help",
    b"--",
    b"(b)",
    b"a\r",
    b"\t",
    b"a\x00b",
    b"\xff",
    b"b\xe9/\xc3",
    "é".encode(),
    b"@@REDO:do:1:1@@ a",
    b"long" * 60,
]
UNLISTED = [b"nope", b"d/nope", b"../../u2", b"/n", b"x y", b"\xfe\xff", b"a/b", b"A", b"a ", b"a:b", b"q\x00", b"..b", b"7"]


def some_targets(rng):
    count = rng.choice([1, 2, 3, 3, 4, 4, 5, 5, 6, 6, 7, 8, 12])
    common = COMMON_TARGETS[:]
    rare = RARE_TARGETS[:]
    rng.shuffle(common)
    rng.shuffle(rare)
    targets = []
    for _ in range(count):
        take_common = common and (rng.random() < 0.7 or not rare)
        targets.append((common if take_common else rare).pop())
    return targets


def spelled(rng, name, plain=0.5):
    """Returns the name in the same or another spelling. It stays relative or absolute."""
    if rng.random() < plain:
        return name
    absolute = name.startswith(b"/")
    parts = []
    for part in name.strip(b"/").split(b"/"):
        if rng.random() < 0.4:
            parts.append(rng.choice([b".", b"q/..", b"./.", b"..q/../.", b"x/y/../.."] + ([b""] if parts else [])))
        parts.append(part)
    if rng.random() < 0.4:
        parts.append(rng.choice([b"", b".", b"q/..", b"./"]))
    lead = rng.choice([b"/", b"/", b"//", b"/../", b"/./", b"/../../q/../"]) if absolute else b""
    return lead + b"/".join(parts)


def from_log_of(rng, own, target):
    """Returns a name for the target in the log of `own`, or None if there is none, or if this function finds none."""
    if target.startswith(b"/"):
        if not own.startswith(b"/") or rng.random() < 0.5:
            return target
        here, there = own.split(b"/")[1:-1], target.split(b"/")[1:]
        if there == [b""]:
            return b".." if here == [] else b"/".join([b".."] * len(here))
    elif own.startswith(b"/"):
        return None
    else:
        here, there = own.split(b"/")[:-1], target.split(b"/")
    while here and len(there) > 1 and here[0] == there[0]:
        here, there = here[1:], there[1:]
    if b".." in here:
        return None
    return b"/".join([b".."] * len(here) + there)


def name_for(rng, own, targets):
    """Returns a name for a record in the log of `own`: mostly the name of a listed target, otherwise any name."""
    if rng.random() < 0.82:
        target = rng.choice(targets)
        name = from_log_of(rng, own, target)
        if name is not None and name != b"":
            return spelled(rng, name)
        if rng.random() < 0.5:
            return target  # As in the index: it denotes another target if the log's own target has a directory.
    return spelled(rng, rng.choice(UNLISTED), 0.7)


# ---- Lines of a log --------------------------------------------------------------------------------------------------

GOOD_PIDS = [b"7", b"7", b"4711", b"0", b"007", b"0000000000", b"0000000007", b"4294967295", b"4294967295", b"0429496729", b"1234567890", b"12345", b"99999", b"123456", b"0000123456", b"999999", b"1000000", b"01000000"]
BAD_PIDS = [b"", b"4294967296", b"4294967300", b"9999999999", b"00000000007", b"04294967295", b"-1", b"+1", b"7a", b" 7", b"7 ", b"0x7", b"7.0", b"\xb2"]
GOOD_TIMES = [b"1", b"1.0000", b"1.5", b"0", b"00.0", b"1.123456789", b"1.000000000", b"12345678901234567890", b"99999999999999999999", b"18446744073709551616.999999999"]
BAD_TIMES = [b"", b"1.", b".5", b".", b"1.1234567890", b"123456789012345678901", b"000000000000000000001", b"-1", b"+1", b"1,5", b"1.0.0", b"1.-5", b"1 ", b"1e3", b"1:1", b"1.5s"]
BAD_KINDS = [b"", b"Do", b"DO", b"d0", b"do ", b" do", b"d.o", b"do\x00", b"d\xf6", b"do\t", b"@", b"do@@", b"do`", b"d{", b"do,"]
BAD_ENDS = [b"", b"@@", b"@ ", b" ", b"@@\t", b"@@@ ", b" @@ ", b"@@\x00", b"@@\xa0", b"@", b"@@:"]
GOOD_STATUSES = [b"0", b"0", b"0", b"1", b"2", b"7", b"-11", b"-0", b"00", b"007", b"-007", b"000000000", b"-000000000", b"127", b"999999999", b"-999999999", b"100"]
BAD_DONE_TEXTS = [b"", b" ", b"0", b"0 ", b"-", b"- b", b"-0", b" 0 b", b"+1 b", b"--1 b", b"1234567890 b", b"-1234567890 b", b"0000000000 b", b"0\tb", b"1.0 b", b"b", b"b 0", b"0x1 b", b"1- b", b"1b", b"\xb9 b"]
NAMING_KINDS = [b"do", b"do", b"do", b"waiting", b"locked", b"unlocked", b"unchanged", b"unchanged"]
NOTE_KINDS = [b"check", b"check", b"check", b"resumed", b"warning", b"x-y_z", b"-", b"_", b"checks", b"chec", b"check-", b"_check", b"don", b"dones", b"done-", b"dos", b"do-", b"-do", b"_do", b"unchange", b"unchanged_", b"lock", b"wait", b"z" * 70]
NOTE_TEXTS = [b"", b"", b"b", b"disk is slow", b" ", b"0 a", b"\xff\x00", b"a\r", b"@@REDO:do:7:1@@ a", b"(x)", b" two  spaces ", b"note" * 50]
TEXTS = [
    b"hello",
    b"t",
    b"B",
    b"end of it",
    b"",
    b"",
    b" ",
    b"a \t",
    b"x\r",
    b"\r",
    b"redo  a",
    b"redo    b",
    b"redo: x",
    b"  indented",
    b"\xff\xfe no text",
    b"nul \x00 in it",
    b"\xe2\x82",
    b"\xef\xbb\xbf@@REDO:do:7:1@@ a",
    b"line" * 75,
]
NEAR_RECORDS = [
    b"@@REDO",
    b"@@RED",
    b"@",
    b"@@",
    b" @@REDO:do:7:1@@ a",
    b"x @@REDO:do:7:1@@ a",
    b"\t@@REDO:",
    b"@@@REDO:do:7:1@@ a",
    b"@REDO:do:7:1@@ a",
    b"@@redo:do:7:1@@ a",
    b"@@REDO;do:7:1@@ a",
    b"@@REDO do:7:1@@ a",
    b"@@REDO\x00:do:7:1@@ a",
    b"\x00@@REDO:do:7:1@@ a",
    b"\r@@REDO:do:7:1@@ a",
    b"@@ REDO:do:7:1@@ a",
    b"REDO:do:7:1@@ a",
    b"@@REDO@@REDO:do:7:1@@ a",
]
CUT_OFF = [b"@@REDO:", b"@@REDO:d", b"@@REDO:do", b"@@REDO:do:", b"@@REDO:do:7", b"@@REDO:do:7:", b"@@REDO:do:7:1", b"@@REDO:do:7:1.", b"@@REDO:do:7:1@", b"@@REDO:do:7:1@@", b"@@REDO:do:7:1@@ ", b"@@REDO:done:7:1@@ 0", b"@@REDO:check:7:1@@"]
EDGE_LENGTHS = [1023, 1024, 1025, 4095, 4096, 4097, 8191, 8192, 8193, 16384, 20000]


def record(rng, kind, text, **other):
    part = {"pid": rng.choice(GOOD_PIDS), "time": rng.choice(GOOD_TIMES), "end": b"@@ "}
    part.update(other)
    return b"@@REDO:" + kind + b":" + part["pid"] + b":" + part["time"] + part["end"] + text


def status_of(rng):
    return rng.choice(GOOD_STATUSES)


def mention_line(rng, own, targets, kind=None):
    return record(rng, kind or rng.choice(NAMING_KINDS), name_for(rng, own, targets))


def done_line(rng, own, targets):
    others = [target for target in targets if target != own] or [b"nope"]
    name = b" lead" if rng.random() < 0.05 else name_for(rng, own, others)
    return record(rng, b"done", status_of(rng) + b" " + name)


def closing_line(rng, own):
    return record(rng, b"done", status_of(rng) + b" " + spelled(rng, from_log_of(rng, own, own) or own))


def good_line(rng, own, targets):
    """Returns a line for which the log isn't rejected. It doesn't close the log either, except with an unusual name."""
    return rng.choices(
        [
            lambda: rng.choice(TEXTS),
            lambda: rng.choice(NEAR_RECORDS),
            lambda: mention_line(rng, own, targets),
            lambda: done_line(rng, own, targets),
            lambda: record(rng, rng.choice(NOTE_KINDS), rng.choice(NOTE_TEXTS)),
        ],
        [24, 6, 45, 15, 10],
    )[0]()


def bad_line(rng, own, targets):
    """Returns a candidate that, in nearly all cases, isn't a record."""
    kind, name = rng.choice(NAMING_KINDS), name_for(rng, own, targets)
    return rng.choice(
        [
            lambda: rng.choice(CUT_OFF),
            lambda: record(rng, rng.choice(BAD_KINDS), name),
            lambda: record(rng, kind, name, pid=rng.choice(BAD_PIDS)),
            lambda: record(rng, rng.choice(NOTE_KINDS), b"", pid=rng.choice(BAD_PIDS)),
            lambda: record(rng, kind, name, time=rng.choice(BAD_TIMES)),
            lambda: record(rng, rng.choice(NOTE_KINDS), b"", time=rng.choice(BAD_TIMES)),
            lambda: record(rng, kind, name, end=rng.choice(BAD_ENDS)),
            lambda: record(rng, kind, b""),
            lambda: record(rng, b"done", rng.choice(BAD_DONE_TEXTS)),
            lambda: record(rng, b"done", rng.choice(BAD_DONE_TEXTS) + b"\r"),
        ]
    )()


def unended_rest(rng, own, targets):
    """Returns the bytes after the last line feed: a text, or a record that was truncated or lacks its line feed."""
    return rng.choice(
        [
            lambda: rng.choice(TEXTS),
            lambda: rng.choice(CUT_OFF),
            lambda: mention_line(rng, own, targets),
            lambda: closing_line(rng, own),
            lambda: bad_line(rng, own, targets),
            lambda: good_line(rng, own, targets),
        ]
    )()


# ---- Logs ------------------------------------------------------------------------------------------------------------


def good_lines(rng, own, targets):
    count = rng.choice([0, 1, 1, 2, 3, 3, 4, 4, 5, 6, 8, 12])
    if rng.random() < 0.02:
        count = rng.choice([65, 130, 300])  # More entries than the mailbox holds if --capacity isn't given.
    lines = [good_line(rng, own, targets) for _ in range(count)]
    if rng.random() < 0.02:
        long = bytes([rng.choice(b"xy\r@")]) * (rng.choice(EDGE_LENGTHS) - rng.choice([0, 1, 2]))
        if rng.random() < 0.4:
            long = record(rng, rng.choice([b"do", b"check", b"warning", b"unchanged"]), long)
        lines.insert(rng.randrange(len(lines) + 1), long)
    return lines


def joined(lines):
    return b"".join(line + b"\n" for line in lines)


def good_log(rng, own, targets, lines):
    if rng.random() < 0.35:
        return joined(lines + [closing_line(rng, own)])
    if rng.random() < 0.35:
        return joined(lines) + unended_rest(rng, own, targets)
    return joined(lines)


def log_with_bad_record(rng, own, targets, lines):
    place = rng.choice([0, len(lines), rng.randrange(len(lines) + 1)])
    lines = lines[:place] + [bad_line(rng, own, targets)] + lines[place:]
    return good_log(rng, own, targets, lines)


def log_after_close(rng, own, targets, lines):
    behind = rng.choice(
        [
            lambda: b"\n",
            lambda: b"\n\n",
            lambda: b"z",
            lambda: b" ",
            lambda: b"\x00",
            lambda: b"z\n",
            lambda: b"\r\n",
            lambda: closing_line(rng, own) + b"\n",
            lambda: mention_line(rng, own, targets) + b"\n",
            lambda: bad_line(rng, own, targets) + b"\n",
            lambda: rng.choice(CUT_OFF),
            lambda: joined(lines),
        ]
    )()
    return joined(lines + [closing_line(rng, own)]) + behind


DIRECTORY = object()  # A directory instead of a file.
LOOP = object()  # A symbolic link to itself, which can't be opened.


def some_logs(rng, targets):
    """Returns a log for each target, or None for a missing file. Chains and cycles are more frequent than at random."""
    shape = rng.choice(["any", "chain", "cycle", "chain", "tree"])
    logs = []
    for place, own in enumerate(targets):
        lines = good_lines(rng, own, targets)
        if shape in ("chain", "cycle"):
            nexts = targets[place + 1 :] + (targets[:1] if shape == "cycle" else [])
        elif shape == "tree":
            nexts = targets[2 * place + 1 : 2 * place + 3]
        else:
            nexts = []
        names = [name for name in [from_log_of(rng, own, target) for target in nexts] if name]
        for name in names if shape == "tree" else names[:1]:
            kind = rng.choice([b"do", b"do", b"do"] + NAMING_KINDS)
            lines.insert(rng.randrange(len(lines) // 2 + 1), record(rng, kind, spelled(rng, name)))
        logs.append(rng.choices([good_log(rng, own, targets, lines), b"", None], [92, 4, 4])[0])
    return logs


def break_log(rng, targets, logs, how):
    place = rng.randrange(len(targets))
    lines = good_lines(rng, targets[place], targets)
    if how == "read":
        logs[place] = rng.choice([DIRECTORY, DIRECTORY, LOOP])
    else:
        maker = rng.choice([log_with_bad_record, log_with_bad_record, log_after_close])
        logs[place] = maker(rng, targets[place], targets, lines)


# ---- The index -------------------------------------------------------------------------------------------------------

FIDS = [b"1", b"2", b"3", b"7", b"10", b"11", b"100", b"42", b"99999999", b"100000000", b"999999999", b"123456789", b"20", b"4"]


def good_index(rng, targets, fids):
    lines = [fid + b" " + spelled(rng, target, 0.7) for fid, target in zip(fids, targets)]
    if rng.random() < 0.2:
        lines = [rng.choice([b"", b"", b"!"]) + line for line in lines]
    return lines


def break_index(rng, lines, targets, fids):
    """Inserts one or more lines that are rejected anywhere into the index."""
    unused = [fid for fid in FIDS if fid not in fids]
    for _ in range(rng.choice([1, 1, 1, 2])):
        fid, name = rng.choice(unused), rng.choice(UNLISTED + targets)
        line = rng.choice(
            [
                lambda: rng.choice([b"", b" ", b"x", b"1", b"1 ", b"12", b"0", b"\r", b"\xff", fid, fid + b" ", fid + b"\t"]),
                lambda: rng.choice([b"0", b"01", b"007", b"1234567890", b"0123456789", b"-1", b"+1", b" 1", b"1.0", b"0x1", b"1a", b"", b"\xb9", b"1\x00"]) + b" " + name,
                lambda: fid + rng.choice([b"\t", b"", b":", b"\x00", b"\xa0"]) + name.replace(b" ", b""),
                lambda: rng.choice([b"!", b"! " + fid + b" " + name, b"!!" + fid + b" " + name, fid + b"! " + name]),
                lambda: rng.choice([b"", b"!"]) + rng.choice(fids) + b" " + name,
                lambda: rng.choice(fids) + b" " + spelled(rng, rng.choice(UNLISTED)),
                lambda: rng.choice(fids) + b" " + spelled(rng, rng.choice(UNLISTED)),
                lambda: fid + b" " + spelled(rng, rng.choice(targets), 0.3),
                lambda: fid + b" " + spelled(rng, rng.choice(targets), 0.3),
                lambda: fid + b" " + spelled(rng, rng.choice(targets), 0.3),
            ]
        )()
        lines.insert(rng.randrange(len(lines) + 1), line)


# ---- The arguments ---------------------------------------------------------------------------------------------------

BAD_NUMBERS = [b"", b"0", b"00", b"-1", b"-0", b"65537", b"100000", b"4294967297", b"18446744073709551617", b"9" * 40, b"x", b"a", b"1x", b"x1", b" 4", b"4 ", b"4\n", b"1.0", b"1,0", b"1e1", b"0x4", b"1_0", "٤".encode(), b"1-2"]
BAD_OPTIONS = [b"-x", b"--nope", b"--no", b"-R", b"--Recursive", b"--recursive ", b"--detail", b"--details", b"--debug", b"---", b"--r", b"-1", "-é".encode(), b"--dirs", b"--sender", b"-d", b"-\n"]
NOT_TEXT = [b"\xff", b"a\xe9", b"d/\xc3", b"\xed\xa0\x80", b"\xc0\x80", b"\xf4\x90\x80\x80", b"--\xff", b"\xe2\x82"]
UNKNOWN_WORDS = [b"", b"nope", b"A", b"a ", b"a/b", b"a/../nope", b"d/x/y", b"zz", b"/nope", b"../nope", b"a\n", b"n\no", b"/a", b"z", b"./ a/.", b"nope/", b"../../..", b"p/q", "ü".encode(), b"log.1", b"names", b"*", b"%s", b"1"]


def is_text(word):
    try:
        word.decode()
        return b"\x00" not in word
    except UnicodeDecodeError:
        return False


SENDERS = [b"1", b"2", b"3", b"4", b"5", b"6", b"7", b"8", b"64"]
CAPACITIES = [b"1", b"2", b"3", b"64", b"65536"]


def some_options(rng, senders, capacities):
    """Returns the options except --dir, as lists of arguments, with one of these numbers of senders and capacities."""
    options = []
    if rng.random() < 0.8:
        options.append([rng.choice([b"-r", b"--recursive"])])
    if rng.random() < 0.45:
        options.append([rng.choice([b"-u", b"--unchanged"])])
    if rng.random() < 0.2:
        options.append([b"--no-details"])
    if rng.random() < 0.35:
        options.append([b"--debug-locks"])
    if rng.random() < 0.35:
        options.append([b"--debug-pids"])
    if rng.random() < 0.9:
        options.append([b"--senders", rng.choice(senders)])
    if rng.random() < 0.9:
        options.append([b"--capacity", rng.choice(capacities)])
    return options


def some_words_for_targets(rng, targets):
    can_be_asked = [target for target in targets if is_text(target)]
    if not can_be_asked:
        return []
    asked = [can_be_asked[0]] if rng.random() < 0.75 else []
    for _ in range(rng.choice([0, 0, 1, 1, 2, 3]) if asked else rng.choice([1, 1, 2, 3, 4])):
        asked.append(rng.choice(can_be_asked))
    rng.shuffle(asked)
    return [spelled(rng, target, 0.6) for target in asked]


def break_words(rng, options, asked):
    """Changes the arguments so that they are rejected. Returns the targets, and the arguments to be placed after all others."""
    how = rng.choice(["option", "option", "number", "number", "number", "value", "no target", "not text", "twice"])
    if how == "option":
        options.insert(rng.randrange(len(options) + 1), [rng.choice(BAD_OPTIONS)])
    elif how == "number":
        option = rng.choice([b"--senders", b"--capacity"])
        options[:] = [words for words in options if words[0] != option]
        bad = BAD_NUMBERS + ([b"65", b"100", b"65536"] if option == b"--senders" else [])
        options.insert(rng.randrange(len(options) + 1), [option, rng.choice(bad)])
    elif how == "value":
        option = rng.choice([b"--dir", b"--senders", b"--capacity"])
        options[:] = [words for words in options if words[0] != option]
        return [], [option]
    elif how == "no target":
        return [], rng.choice([[], [], [b"--"]])
    elif how == "twice":
        again = rng.choice([[b"-r"], [b"--unchanged"], [b"--dir", b"."], [b"--senders", b"2"], [b"--capacity", b"1"], [b"--debug-locks"], [b"--debug-pids"]])
        options[:] = [words for words in options if words[0] not in (b"-r", b"--recursive", b"-u", b"--unchanged", *again)]
        options += [again, [again[0], *again[1:]]]
    else:
        asked.insert(rng.randrange(len(asked) + 1), rng.choice(NOT_TEXT))
    return asked, []


def other_spelling(rng, options):
    """Returns the same options, spelled differently: a value or letters in one argument, a number with a sign or with zeros."""
    spelled = []
    for option in options:
        if option[0] in (b"--senders", b"--capacity") and len(option) == 2 and option[1].isdigit() and rng.random() < 0.2:
            option = [option[0], rng.choice([b"+", b"0", b"+00"]) + option[1]]
        if len(option) == 2 and rng.random() < 0.25:
            option = [b"=".join(option)]
        spelled.append(option)
    if [b"-r"] in spelled and [b"-u"] in spelled and rng.random() < 0.5:
        spelled.remove([b"-r"])
        spelled.remove([b"-u"])
        spelled.append([rng.choice([b"-ru", b"-ur"])])
    return spelled


def words_of(rng, options, asked, behind):
    options = other_spelling(rng, options)
    rng.shuffle(options)
    words = [word for option in options for word in option]
    if asked and not behind and rng.random() < 0.1 and not any(word.startswith(b"-") for word in asked):
        return asked + words
    if asked and (rng.random() < 0.15 or any(word.startswith(b"-") for word in asked)):
        words.append(b"--")
        if rng.random() < 0.1:
            asked = asked + [rng.choice(UNKNOWN_WORDS + [b"--", b"-", b"-r"])]
    return words + asked + behind


# ---- A case ----------------------------------------------------------------------------------------------------------

FAULTS = ["words", "no index", "index", "unknown", "record", "read"]
PLANS = ["none"] * 70 + ["help"] + ["words"] * 4 + ["no index"] * 2 + ["index"] * 6 + ["unknown"] * 4 + ["record"] * 11 + ["read"] * 2


def write(path, content):
    if content is DIRECTORY:
        os.mkdir(path)
    elif content is LOOP:
        os.symlink(os.path.basename(path), path)
    elif content is not None:
        with open(path, "wb") as file:
            file.write(content)


def case(seed: int, directory: str, senders: list[bytes] = SENDERS, capacities: list[bytes] = CAPACITIES) -> list[bytes]:
    rng = random.Random(seed)
    plan = rng.choice(PLANS)
    faults = [] if plan in ("none", "help") else [plan]
    if faults or plan == "help":
        faults += [fault for fault in FAULTS if rng.random() < 0.07]

    targets = some_targets(rng)
    fids = rng.sample(FIDS, len(targets))
    logs = some_logs(rng, targets)
    if "record" in faults:
        break_log(rng, targets, logs, "record")
        if rng.random() < 0.3:
            break_log(rng, targets, logs, rng.choice(["record", "read"]))
    if "read" in faults:
        break_log(rng, targets, logs, "read")

    index = good_index(rng, targets, fids)
    asked = some_words_for_targets(rng, targets)
    if "unknown" in faults:
        if rng.random() < 0.15:
            index = []
        elif rng.random() < 0.2 and len(targets) > 1:
            index.pop(rng.randrange(len(index)))  # Its log stays, but is ignored.
        for _ in range(rng.choice([1, 1, 2])):
            asked.insert(rng.randrange(len(asked) + 1), rng.choice(UNKNOWN_WORDS))
    if "index" in faults:
        break_index(rng, index, targets, fids)
    names = joined(index)
    if names.endswith(b"\n") and rng.random() < 0.3:
        names = names[:-1]

    place = rng.choice([b".", b"cap", b"cap", b"d", b"a b", "é".encode(), b"d/deep"])
    files = {b"names": names}
    for fid, log in zip(fids, logs):
        files[b"log." + fid] = log
    if rng.random() < 0.3:  # Files that are ignored.
        files[rng.choice([b"log.5", b"log.6", b"log.0", b"log.01", b"log", b"log.", b"log.1.old", b"name", b"NAMES", b"log.1234567890"])] = rng.choice([joined([b"@@REDO:"]), b"stray", DIRECTORY])
    if "no index" in faults:
        files[b"names"] = rng.choice([None, None, DIRECTORY, LOOP])

    cwd = os.fsencode(directory)
    base = os.path.join(cwd, place)
    os.makedirs(base, exist_ok=True)
    for name, content in files.items():
        write(os.path.join(base, name), content)

    options = some_options(rng, senders, capacities)
    if place == b".":
        if rng.random() < 0.5:
            options.append([b"--dir", rng.choice([b".", b".", b"./", b"./.", b".//"])])
    else:
        if rng.random() < 0.5:  # Another capture in the current directory, which isn't the requested one.
            write(os.path.join(cwd, b"names"), rng.choice([b"1 a\n", b"bad\n", b""]))
            write(os.path.join(cwd, b"log.1"), rng.choice([b"wrong one\n", b"@@REDO:\n"]))
        options.append([b"--dir", rng.choice([place, place, place, b"./" + place, place + b"/", place + b"//", place + b"/."])])
        if "no index" in faults and rng.random() < 0.3:
            options[-1][1] = rng.choice([b"missing", place + b"/names", b"cap/missing"])

    if not asked and plan != "words":
        asked = [b"a"]
    behind = []
    if "words" in faults:
        asked, behind = break_words(rng, options, asked)
    if plan == "help":
        # Only if every interpretation gives the help text: valid arguments, and the targets after the help option.
        options = some_options(rng, senders, capacities)
        help_word = [rng.choice([b"-h", b"--help"])]
        return [word for option in options for word in option] + help_word + [w for w in asked if is_text(w) and not w.startswith(b"-")]
    return words_of(rng, options, asked, behind)
