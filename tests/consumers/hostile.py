"""Captures whose names, lines, paths and times try to break what the scripts make."""
import base64
import collections
import json
import os
import posixpath
import random
import re
import subprocess
import xml.etree.ElementTree

from document import expect_members
from reading import READERS, differing_readers, in_a_line, parsed, path_of_uri, quality_faults, sarif_faults, trace_faults
from reading import workflow_commands, xmllint
from scripts import EXAMPLES, made, run_script, write_json

START = 1_600_000_000_000
ESC = "\x1b"
EACH_BYTE = [bytes([byte]) for byte in range(256) if byte != ord("\n")]
PIECES = [
    b"<script>", b"</failure>", b"]]>", b"<![CDATA[", b"<!--", b"&amp;", b"&#0;", b"&", b"<", b">", b'"', b"'", b"%", b"%25", b"%0A",
    b"%0D%0a", b"::", b":", b",", b"::error::x", b"::stop-commands::x", b"##[error]x", b"::add-mask::", b"=", b",file=x", b"\r", b"\r\r",
    b"\t", b"\0", b"\x01", b"\x08", b"\x0b", b"\x0c", b"\x1b", b"\x1b[", b"\x1b[2J", b"\x7f", b"\x80", b"\xff\xfe", b"\xc2\x85",
    b"\xc2\x9b", b"\xe2\x80\xa8", b"\xe2\x80\xae", b"\xef\xbf\xbe", b"\xef\xbf\xbf", b"\xef\xbf\xbd", b"\xed\xa0\x80", b"\xf0\x9f\x9a\x80",
    b"\xf4\x8f\xbf\xbf", b"\xf0\x9f", b"{0}", b"{", b"[a](b)", b"[", b"]", b"\\", b"\\n", b"`", b"$HOME", b"$(x)", b"null", b" ", b"  ",
    b"*", b"#", b"?", b"~", b"caf\xe9",
]  # fmt: skip
COLOURS = [b"\x1b[01;31m\x1b[K", b"\x1b[m\x1b[K", b"\x1b[0m", b"\x1b]8;;http://x/?a&b\x07", b"\x1b]8;;\x1b\\"]
Target = collections.namedtuple("Target", "name status lines begin end directory", defaults=(None, (), None, None, None))
Placed = collections.namedtuple("Placed", "target path row column severity text")


def plain(text):
    return re.sub(r"\x1b(?:\[[0-9;]*[mK]|\]8;[!-~]*;[!-~]*(?:\x07|\x1b\\))", "", text)


def visible(text):
    """As the scripts show control characters."""
    pictures = {code: 0x2400 + code for code in range(32) if chr(code) not in "\t\n\r"}
    return text.translate({**pictures, 127: 0x2421, **dict.fromkeys([*range(128, 160), 0xFFFE, 0xFFFF], 0xFFFD)})


def text_of(data):
    return data.decode("utf-8", "replace")


def name_of(name):
    """The name that the scripts show. Each name has another one."""
    text = text_of(name)
    return text if text.encode() == name else f"{text} [{base64.b64encode(name).decode()}]"


def output_of(lines):
    """What a report shows of the lines of a target."""
    lines = [text_of(line) for line in lines]
    if len(lines) > 500:
        lines = [*lines[:100], f"[{len(lines) - 500} lines are left out]", *lines[-400:]]
    return visible("\n".join(plain(line[:2000] + (" [cut]" if len(line) > 2000 else "")) for line in lines))


def record(kind, time, text):
    return b"@@REDO:%s:7:%d.%03d@@ %s" % (kind, *divmod(time, 1000), text)


def write_capture(folder, targets):
    """Writes a capture with these targets, all of them below `all`, which has failed."""
    os.mkdir(folder)
    names, facts, mentions = [b"1 all"], [], []
    for number, target in enumerate(targets, 2):
        below = b"../" * target.name.count(b"/") + target.name
        names.append(b"%d %s" % (number, target.name))
        mentions.append(record(b"do", 1, target.name))
        lines = [] if target.begin is None else [record(b"do", START + target.begin, below)]
        lines += target.lines
        if target.status is not None:
            lines.append(record(b"done", 1 if target.end is None else START + target.end, b"%d %s" % (target.status, below)))
        if target.directory is not None:
            facts += [b"%d log %s" % (number, target.name), b"%d directory %s" % (number, target.directory)]
        write(os.path.join(folder, f"log.{number}"), lines)
    for name, lines in (("names", names), ("facts", facts), ("log.1", [*mentions, record(b"done", 1, b"2 all")])):
        write(os.path.join(folder, name), lines)


def write(path, lines):
    with open(path, "wb") as file:
        file.writelines(line + b"\n" for line in lines)


def path_from(root, directory, path):
    whole = posixpath.normpath(posixpath.join(root, text_of(directory or b"."), text_of(path)))
    return whole.removeprefix(root + "/")


def hostile_targets(rng, root):
    """Targets, and the diagnostics that are injected into them."""
    targets, placed = [], []
    names = [b"n" + byte + b"e" for byte in EACH_BYTE]
    names += [b"p" + piece + b"." + rng.choice(PIECES) + b"%d" % number for number, piece in enumerate(PIECES)]
    names += [b"\xc3\xbf", b"\xff", b"\xfe", b"\xef\xbf\xbd", b"::error::", b" ", b"-", b"x" * 4096, b"all ", b"null"]
    for number, name in enumerate(names):
        lines = [EACH_BYTE[number]] if number < len(EACH_BYTE) else []
        lines += [b"".join(rng.choice([*PIECES, *COLOURS]) for _ in range(rng.randrange(9))) for _ in range(rng.randrange(4))]
        lines += [piece + b" at the start" for piece in rng.sample(PIECES, 2)]
        lines = [line for line in lines if not re.search(rb"(^| )(warning|error|fatal error):( |$)", line)]
        directory = rng.choice([None, b"sub", b"../up", b"/elsewhere/a", os.fsencode(root), b"a,b:c%d/" + rng.choice(PIECES)])
        for count in range(rng.choice([0, 0, 1, 3])):
            file = rng.choice([b"f", b"../g", b"/abs/h", b"/", b"..", b"./x//y", b"a b/" + rng.choice(PIECES).replace(b":", b";") + b".c"])
            file = re.sub(rb"^[\x1b].*|(^| )(warning|error)", b"q", file)
            row, column = rng.choice([0, 1, 7, 999_999_999]), rng.choice([None, 0, 5])
            severity = rng.choice([b"warning", b"error", b"fatal error"])
            text = b"m%d.%d " % (number, count) + b"".join(rng.choice(PIECES) for _ in range(rng.randrange(6)))
            place = file + b":%d:" % row + (b"" if column is None else b"%d:" % column)
            colour = rng.choice([b"", b"", COLOURS[0]])
            lines.append(colour + place + b" " + colour + severity + b":" + colour + b" " + text)
            where = path_from(root, directory, file)
            placed.append(Placed(name_of(name), where, row, column, severity.decode(), plain(text_of(text))))
        begin = rng.choice([None, rng.randrange(5000)])
        end = None if begin is None or rng.random() < .1 else begin + rng.choice([0, 1, 999, rng.randrange(100_000)])
        targets.append(Target(name, rng.choice([None, 0, 0, 0, 1, -11, 127, 999_999_999]), lines, begin, end, directory))
    return targets, placed


def is_timed(target):
    """Whether the capture says when a target began and ended."""
    return target.begin is not None and target.end is not None and target.status is not None


def expect_junit(checks, what, folder, targets):
    report = made(checks, what, "junit", folder)
    checks.expect(f"{what}: junit: xmllint", xmllint(report), (0, b"- validates\n"))
    suite, found = xml.etree.ElementTree.fromstring(report)[0], []
    for case in suite:
        result = next(((child.tag, child.get("message")) for child in case if child.tag != "system-err"), None)
        text = "".join(child.text or "" for child in case if child.tag != "skipped")
        found.append((case.get("name"), float(case.get("time")), result, text))
    above = any(target.status for target in targets)
    wanted = [("all", 0, ("skipped" if above else "failure", "exit 2: a target below failed" if above else "exit 2"), "")]
    for target in targets:
        result = ("skipped", "unfinished") if target.status is None else ("failure", f"exit {target.status}") if target.status else None
        time = (target.end - target.begin) / 1000 if is_timed(target) else 0
        wanted.append((visible(name_of(target.name)), time, result, output_of(target.lines)))
    for row, expected in zip(found, wanted):
        checks.expect(f"{what}: junit: {expected[0][:50]!r}", row, expected)
    checks.expect(f"{what}: junit: test cases", len(found), len(wanted))


def expect_reports(checks, what, folder, placed, readers):
    """sarif.jq, gitlab.jq and trace.jq. Returns the events, and the diagnostics with the targets that print each."""
    data = {name: made(checks, what, name, folder) for name in ("sarif", "gitlab", "trace")}
    for name, one in data.items():
        checks.expect(f"{what}: readers that differ about {name}", differing_readers(in_a_line(one), readers), [])
    sarif, gitlab = (json.loads(data[name]) for name in ("sarif", "gitlab"))
    checks.expect(f"{what}: sarif", sarif_faults(sarif), [])
    checks.expect(f"{what}: gitlab", quality_faults(gitlab), [])
    same = collections.defaultdict(set)
    for one in placed:
        same[one[1:]].add(one.target)
    results = []
    for one in sarif["runs"][0]["results"]:
        place = one["locations"][0]["physicalLocation"]
        names = [target["fullyQualifiedName"] for target in one["locations"][0]["logicalLocations"]]
        path, region = path_of_uri(place["artifactLocation"]["uri"]), place.get("region", {})
        results.append((path, region.get("startLine"), region.get("startColumn"), one["level"], one["message"]["text"], names))
    wanted = [(path, row or None, (row and column) or None, severity.removeprefix("fatal "), text, sorted(names))
              for (path, row, column, severity, text), names in same.items()]  # fmt: skip
    checks.expect(f"{what}: sarif: results", sorted(results, key=repr), sorted(wanted, key=repr))

    minor = {"warning": "minor", "error": "critical", "fatal error": "critical"}
    inside = [one for one in same if not one[0].startswith(("/", "../")) and one[0] != ".."]
    rows = [(one["location"]["path"], one["location"]["lines"]["begin"], one["severity"], one["description"]) for one in gitlab]
    wanted = [(path, max(row, 1), minor[severity], text) for path, row, _, severity, text in inside]
    checks.expect(f"{what}: gitlab: findings", sorted(rows), sorted(wanted))
    return json.loads(data["trace"]), same


def expect_github(checks, what, folder, targets, same):
    commands = workflow_commands(made(checks, what, "github", folder).decode())
    others = [one for one in commands if one is None or one[0] not in ("error", "warning")]
    checks.expect(f"{what}: github: lines that are no such commands", others, [])
    shown = lambda text: visible(text[:4000])
    found = [(one[0], one[1]["file"], one[1]["line"], one[1].get("col"), one[2]) for one in commands if "file" in one[1]]
    number = lambda value: None if value is None else str(max(value, 1))
    wanted = [(severity.removeprefix("fatal "), shown(path), number(row), number(column), shown(text))
              for path, row, column, severity, text in same]  # fmt: skip
    checks.expect(f"{what}: github: diagnostics", sorted(found, key=repr), sorted(wanted, key=repr))
    titles = {one[1]["title"] for one in commands if "file" in one[1]}
    checks.expect(f"{what}: github: titles", titles - {shown(name) for names in same.values() for name in names}, set())
    with_error = {target for one, names in same.items() if one[3] != "warning" for target in names}
    failures = [(shown(name_of(one.name)), shown(f"exit {one.status}\n{output_of(one.lines)[-3900:]}"))
                for one in targets if one.status and name_of(one.name) not in with_error]  # fmt: skip
    failures = failures if any(target.status for target in targets) else [("all", "exit 2\n")]
    checks.expect(f"{what}: github: failures", [(one[1]["title"], one[2]) for one in commands if "file" not in one[1]], failures)


def expect_trace(checks, what, trace, targets):
    checks.expect(f"{what}: trace", trace_faults(trace), [])
    timed = [target for target in targets if is_timed(target)]
    first = min((target.begin for target in timed), default=0)
    found = [(one["name"], one["ts"], one["dur"], one["args"]["status"], one["args"].get("output")) for one in trace["traceEvents"]]
    wanted = []
    for one in timed:
        output = output_of(one.lines) if one.status else None
        wanted.append((name_of(one.name), 1000 * (one.begin - first), 1000 * (one.end - one.begin), one.status, output))
    checks.expect(f"{what}: trace: events", sorted(found, key=repr), sorted(wanted, key=repr))


def expect_all(checks, what, program, folder, targets, placed, readers=tuple(READERS)):
    write_capture(os.path.join(folder, "capture"), targets)
    data = write_json(checks, what, program, folder, "capture")
    checks.expect(f"{what}: readers that differ", differing_readers(data, readers), [])
    objects = parsed(data)
    checks.expect(f"{what}: targets", [one["target"] for one in objects], ["all", *(text_of(target.name) for target in targets)])
    expect_members(checks, what, objects)
    expect_junit(checks, what, folder, targets)
    trace, same = expect_reports(checks, what, folder, placed, readers)
    expect_github(checks, what, folder, targets, same)
    expect_trace(checks, what, trace, targets)
    checks.expect(f"{what}: no commands", made(checks, what, "compile_commands", folder), b"[]\n")
    return objects


def hostile_bytes(checks, at, tool, program):
    """Each byte and much markup in names, lines, paths and messages."""
    del tool
    for seed in range(3):
        folder = os.path.realpath(at(f"bytes{seed}"))
        os.mkdir(folder)
        targets, placed = hostile_targets(random.Random(f"hostile {seed}"), folder)
        expect_all(checks, f"bytes {seed}", program, folder, targets, placed)


def nested_failures(checks, at, tool, program):
    """A target that failed is no failure of its own if one below failed, at any depth."""
    del tool
    folder = at("nested")
    os.makedirs(os.path.join(folder, "capture"))
    rows = [("all", "top", 2), ("top", "middle", 2), ("middle", "low", 0), ("low", None, 1), ("other", None, 3)]
    rows += [("open", "below", None), ("below", None, 0)]
    write(os.path.join(folder, "capture/names"), [b"%d %s" % (number, name.encode()) for number, (name, *_) in enumerate(rows, 1)])
    for number, (name, below, status) in enumerate(rows, 1):
        lines = [record(b"do", 1, other.encode()) for other in ([below] if below else []) + (["other", "open"] if name == "all" else [])]
        lines += [record(b"done", 1, b"%d %s" % (status, name.encode()))] if status is not None else []
        write(os.path.join(folder, f"capture/log.{number}"), lines)
    write_json(checks, "nested", program, folder, "capture")
    suite = xml.etree.ElementTree.fromstring(made(checks, "nested", "junit", folder))[0]
    above = "exit 2: a target below failed"
    wanted = {"all": above, "top": above, "middle": None, "low": "exit 1", "other": "exit 3", "open": "unfinished", "below": None}
    checks.expect("nested: test cases", {case.get("name"): case[0].get("message") if len(case) else None for case in suite}, wanted)
    commands = workflow_commands(made(checks, "nested", "github", folder).decode())
    found = [(more["title"], text) for _, more, text in commands]
    checks.expect("nested: annotations", found, [("low", "exit 1\n"), ("other", "exit 3\n")])


def long_lines(checks, at, tool, program):
    """Lines of 10 MB and of 1 MB, and a target with many lines."""
    del tool
    folder = os.path.realpath(at("long"))
    os.mkdir(folder)
    long, half = 1_000_000, 5_000_000
    message = b"%" * half + b"," * half
    lines = [b"x" * (2 * half), b"\x1b[m" * long, b"\r" * long, b"\0" * long, b"<" * long, b"::error::" * long]
    lines.append(b"a/" * long + b":1:2: error: too long a path")
    targets = [Target(b"%d" % number, 1, [line], 0, 5) for number, line in enumerate(lines)]
    targets.append(Target(b"message", 1, [b"f.c:1:2: error: " + message], 0, 5))
    targets.append(Target(b"many", 1, [b"line %d" % number for number in range(200_000)], 0, 5))
    targets.append(Target(b"500", 0, [b"line %d" % number for number in range(500)], 0, 5))
    targets.append(Target(b"501", 0, [b"line %d" % number for number in range(501)], 0, 5))
    placed = [Placed("message", "f.c", 1, 2, "error", message.decode())]
    expect_all(checks, "long lines", program, folder, targets, placed, ("jq", "node"))


PATHS = [b"x.c", b"../x.c", b"../../../x.c", b"a/../../b//./x.c", b"/abs/../x.c", b"/../x.c", b"/r/x.c", b"/r/b/x.c", b"/rx/x.c", b"."]
DIRECTORIES = [None, b"d", b"..", b"../u", b"../../..", b"/r/b", b"/r", b"/other/", b"/"]
# The arguments of a script, the base directory and the root.
ROOTS = [
    ([], "", ""), (["--arg", "root", "/r"], "/r", "/r/"), (["--arg", "root", "/r/"], "/r", "/r/"), (["--arg", "root", "/"], "/", "/"),
    (["--arg", "base", "/r/b"], "/r/b", "/r/b/"), (["--arg", "root", "/r", "--arg", "base", "/r/b"], "/r/b", "/r/"),
]  # fmt: skip


def roots(checks, at, tool, program):
    """Paths relative to the root, for each root, base directory and directory of a recipe."""
    del tool
    folder = at("roots")
    os.mkdir(folder)
    lines = [path + b":%d: error: e" % row for row, path in enumerate(PATHS, 1)]
    targets = [Target(b"t%d" % number, 1, lines, directory=directory) for number, directory in enumerate(DIRECTORIES)]
    write_capture(os.path.join(folder, "capture"), targets)
    write_json(checks, "roots", program, folder, "capture")
    for words, base, root in ROOTS:
        command = ["jq", "-s", *words, "-f", os.path.join(EXAMPLES, "sarif.jq"), "build.jsonl"]
        done = subprocess.run(command, cwd=folder, capture_output=True, text=True)
        checks.expect(f"{words}: status and errors", (done.returncode, done.stderr), (0, ""))
        found = set()
        for one in json.loads(done.stdout)["runs"][0]["results"]:
            place = one["locations"][0]["physicalLocation"]
            names = [target["fullyQualifiedName"] for target in one["locations"][0]["logicalLocations"]]
            found |= {(name, place["region"]["startLine"], path_of_uri(place["artifactLocation"]["uri"])) for name in names}
        wanted = set()
        for target, directory in zip(targets, DIRECTORIES):
            for row, path in enumerate(PATHS, 1):
                whole = posixpath.normpath(posixpath.join(base, text_of(directory or b""), text_of(path)))
                wanted.add((text_of(target.name), row, whole.removeprefix(root)))
        checks.expect(f"{words}: paths", sorted(found ^ wanted), [])
        command[-2] = os.path.join(EXAMPLES, "gitlab.jq")
        done = subprocess.run(command, cwd=folder, capture_output=True, text=True)
        checks.expect(f"{words}: gitlab: status and errors", (done.returncode, done.stderr), (0, ""))
        inside = {(row, path) for _, row, path in wanted if not path.startswith(("/", "../")) and path != ".."}
        found = {(one["location"]["lines"]["begin"], one["location"]["path"]) for one in json.loads(done.stdout)}
        checks.expect(f"{words}: gitlab: paths", sorted(found ^ inside), [])


def lanes(checks, at, tool, program):
    """A timeline has as many lanes as targets run at once at most."""
    del tool
    rng, folder = random.Random("lanes"), at("lanes")
    os.mkdir(folder)
    begins = rng.sample(range(1000), 100)
    targets = [Target(b"t%d" % number, 0, (), begin, begin + rng.randrange(1, 200)) for number, begin in enumerate(begins)]
    write_capture(os.path.join(folder, "capture"), targets)
    write_json(checks, "lanes", program, folder, "capture")
    trace = json.loads(made(checks, "lanes", "trace", folder))
    expect_trace(checks, "lanes", trace, targets)
    most = max(sum(other.begin <= one.begin < other.end for other in targets) for one in targets)
    checks.expect("lanes", sorted({one["tid"] for one in trace["traceEvents"]}), list(range(1, most + 1)))


def empty_builds(checks, at, tool, program):
    del tool
    folder = os.path.realpath(at("empty"))
    os.mkdir(folder)
    expect_all(checks, "empty", program, folder, [], [])


def hostile_news(checks, at, tool, program):
    """What is printed has one line for each, without control characters."""
    del tool
    folder = os.path.realpath(at("hostile news"))
    os.mkdir(folder)
    targets, placed = hostile_targets(random.Random("hostile news"), folder)
    for name, some in (("OLD", []), ("NEW", targets)):
        write_capture(os.path.join(folder, name), some)
        write_json(checks, name, program, folder, name, f"{name}.jsonl")
    _, out, err = run_script("new", folder)
    shown = lambda text: visible(text).replace("\r", "\u240d")
    place = lambda one: f"{one.path}:{one.row}" + ("" if one.column is None else f":{one.column}")
    wanted = [shown(f"{place(one)}: {one.severity}: {one.text} ({one.target})") for one in placed]
    wanted += [shown(f"{name_of(target.name)} fails (exit {target.status})") for target in targets if target.status]
    checks.expect("hostile news", (out.decode().split("\n")[:-1], err), (wanted, ""))


def exact_bytes(checks, at, tool, program):
    """Files and messages that are shown as the same text are findings of their own, also for GitLab."""
    del tool
    folder = at("exact")
    os.mkdir(folder)
    lines = [file + b".c:7:1: error: " + message for file in (b"\xfe", b"\xff") for message in (b"\xfe", b"\xff")]
    targets = [Target(b"t%d" % number, 1, [line, lines[0]]) for number, line in enumerate(lines)]
    write_capture(os.path.join(folder, "capture"), targets)
    write_json(checks, "exact bytes", program, folder, "capture")
    results = json.loads(made(checks, "exact bytes", "sarif", folder))["runs"][0]["results"]
    found = [[target["fullyQualifiedName"] for target in one["locations"][0]["logicalLocations"]] for one in results]
    checks.expect("exact bytes: the targets of each finding", sorted(found), [["t0", "t1", "t2", "t3"], ["t1"], ["t2"], ["t3"]])
    fingerprints = {one["fingerprint"] for one in json.loads(made(checks, "exact bytes", "gitlab", folder))}
    checks.expect("exact bytes: fingerprints", len(fingerprints), 4)


PARTS = (hostile_bytes, roots, lanes, nested_failures, long_lines, empty_builds, hostile_news, exact_bytes)
