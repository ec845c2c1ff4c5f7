"""A slow, simple model of `redo-log-json`. It reads captures with the model of `redo-log`, and opens and times logs as the model of a page.

`expected(directory, words)` returns what a run of the program must output with these words, which have options with `=` and targets after
`--`. Python's `json` writes the objects, and its decoder of UTF-8 replaces what is no character.
"""
import base64
import collections
import json
import os
import re
import sys

HERE = os.path.dirname(os.path.abspath(__file__))
sys.path[:0] = [os.path.join(HERE, "..", "page"), os.path.join(HERE, "..", "differential")]
import facts_model  # noqa: E402
from baseline_model import Baseline, read_baseline, source_of  # noqa: E402
from model import Mention  # noqa: E402
from page_model import Build  # noqa: E402
from text_model import SEQUENCE  # noqa: E402
from times_model import logs_model, read_capture  # noqa: E402

# ---- bytes -----------------------------------------------------------------------------------------------------------


def text_of(raw):
    return raw.decode("utf-8", "replace")


def exact_of(raw):
    """The bytes in Base64, or None if they are UTF-8."""
    try:
        raw.decode("utf-8", "strict")
        return None
    except UnicodeDecodeError:
        return base64.b64encode(raw).decode()


def member(name, raw):
    """The members for bytes, which may be unknown."""
    if raw is None:
        return {name: None}
    return {name: text_of(raw), **{f"{name}_base64": exact for exact in [exact_of(raw)] if exact is not None}}


def list_member(name, rows):
    """The members for a list of bytes."""
    exact = {str(position): exact_of(raw) for position, raw in enumerate(rows) if exact_of(raw) is not None}
    return {name: [text_of(raw) for raw in rows], **({f"{name}_base64": exact} if exact else {})}


# ---- diagnostics -----------------------------------------------------------------------------------------------------

WORD = re.compile(rb"(?:^|(?<= ))(warning|error|fatal error):(?= |\Z)")
PLACE = re.compile(rb"([^:]+):([0-9]{1,9}):(?:([0-9]{1,9}):)? ")
FLAG = re.compile(rb"(.*) \[([^][]+)\]", re.DOTALL)
TEMPORARY = re.compile(rb"/cc[0-9A-Za-z]{6}(?=\.)")


def plain(line):
    """A line without colours and links."""
    return SEQUENCE.sub("", line.decode("utf-8", "surrogateescape")).encode("utf-8", "surrogateescape")


def diagnostic_of(line):
    """The members of a line's diagnostic from `severity` to `key`, and the key; or None if the line has no word."""
    shown = plain(line)
    word = WORD.search(shown)
    if word is None:
        return None
    head, tail = shown[: word.start()], shown[word.start() :]
    place, text = PLACE.fullmatch(head), shown[word.end() + 1 :]
    flagged = FLAG.fullmatch(text)
    origin = head.split(b":")[0] if b":" in head else b""
    key = TEMPORARY.sub(b"/cc*", origin + b": " + tail)
    members = {
        "severity": word[1].decode(),
        **member("file", place[1] if place else None),
        "row": int(place[2]) if place else None,
        "column": int(place[3]) if place and place[3] else None,
        **member("message", flagged[1] if flagged else text),
        **member("flag", flagged[2] if flagged else None),
        **member("key", key),
    }
    return members, key


def kinds_of(lines):
    """The keys and source lines of the diagnostics of these lines."""
    return [(found[1], source_of(lines, position, plain)) for position, found in enumerate(map(diagnostic_of, lines)) if found]


def diagnostics_of(lines, flags):
    """The objects of a log's diagnostics. `flags` says of each whether it is new, or is None."""
    objects, earlier = [], collections.Counter()
    for position, line in enumerate(lines):
        found = diagnostic_of(line)
        if found is not None:
            members, key = found
            new = flags[len(objects)] if flags is not None else None
            objects.append({"line": position, **members, "nth": earlier[key], "new": new})
            earlier[key] += 1
    return objects


# ---- a build ---------------------------------------------------------------------------------------------------------


def needs_of(log):
    """The other targets that a log mentions, each once."""
    return list(dict.fromkeys(entry.target for entry in log.entries if isinstance(entry, Mention) and entry.target != log.target))


def object_of(shown, log, facts, baseline):
    """The object of a shown log."""
    flags, changes = baseline.changes(shown, kinds_of) if baseline else (None, None)
    return {
        **member("target", shown.target),
        **member("parent", shown.parent.target),
        "status": shown.status,
        "start_ms": shown.began,
        "end_ms": shown.ended,
        "cpu_ms": facts.usage[0] + facts.usage[1] if facts.usage else None,
        "peak_kb": facts.usage[2] if facts.usage else None,
        **member("directory", facts.directory),
        **list_member("commands", [text for text, is_whole in facts.commands if is_whole]),
        **list_member("needs", needs_of(log)),
        **list_member("lines", shown.lines),
        "diagnostics": diagnostics_of(shown.lines, flags),
        "baseline": changes,
    }


def json_of(index, requested, logs, times, facts, unchanged=False, every=False, earlier=None):
    """The bytes of a build. `facts` has what is known of each target, and `earlier` the logs of the baseline."""
    if every:
        requested = [*requested, *(listed.target for listed in index)]
    log_of_target = {log.target: log for log in logs}
    build = Build(logs, requested, unchanged, False, times)
    baseline = Baseline(earlier, requested, unchanged) if earlier is not None else None
    objects = [object_of(shown, log_of_target[shown.target], facts[shown.target], baseline) for shown in build.order]
    return b"".join(json.dumps(one, ensure_ascii=False, separators=(",", ":")).encode() + b"\n" for one in objects)


def arguments(words):
    """The options with their values, and the targets."""
    options, targets = words[: words.index(b"--")], words[words.index(b"--") + 1 :] or [b"all"]
    return {option.partition(b"=")[0]: option.partition(b"=")[2] for option in options}, targets


def expected(directory, words):
    """Returns the status, standard output and the first line on standard error."""
    current, (options, targets) = os.fsencode(directory), arguments(words)
    folder = options.get(b"--dir", b".")
    try:
        index, requested, logs, times = read_capture(current, folder, targets)
        earlier = read_baseline(current, options[b"--baseline"]) if b"--baseline" in options else None
    except logs_model.Refused as refused:
        return refused.status, b"", b"redo-log-json: " + refused.line + b"\n"
    facts = facts_model.facts_of(index, facts_model.bytes_of(logs_model.path_of(current, folder, b"facts")))
    return 0, json_of(index, requested, logs, times, facts, b"-u" in options, b"--every" in options, earlier), b""
