"""How other tools read what the scripts of examples/ci make, by the rules of their documentation."""
import collections
import json
import os
import re
import subprocess
import urllib.parse

READERS = {
    "jq": ["jq", "-c", "-s", "."],
    "Perl": ["perl", "-MJSON::PP", "-e", "my @all; while (my $line = <STDIN>) { push @all, JSON::PP->new->utf8->decode($line) } "
             "print JSON::PP->new->utf8->encode(\\@all)"],
    "node": ["node", "-e", "const lines = require('fs').readFileSync(0, 'utf8').split('\\n'); "
             "process.stdout.write(JSON.stringify(lines.filter(line => line).map(line => JSON.parse(line))))"],
}  # fmt: skip


def parsed(data):
    """The values in lines of JSON, as Python reads them. A line ends at a line feed only."""
    return [json.loads(line) for line in data.decode().split("\n")[:-1]]


def differing_readers(data, names=tuple(READERS)):
    """Returns the readers that don't read the same values in lines of JSON as Python does."""
    expected = parsed(data)
    done = {name: subprocess.run(READERS[name], input=data, capture_output=True) for name in names}
    return [(name, one.stderr[:200]) for name, one in done.items() if one.returncode or json.loads(one.stdout) != expected]


def in_a_line(data):
    """JSON without line feeds between its tokens."""
    return json.dumps(json.loads(data)).encode() + b"\n"


def xmllint(report):
    """The status and the message of xmllint about a JUnit report. It has a limit of 10,000,000 bytes for a text."""
    schema = os.path.join(os.path.dirname(os.path.abspath(__file__)), "junit.xsd")
    done = subprocess.run(["xmllint", "--noout", "--schema", schema, "-"], input=report, capture_output=True)
    return done.returncode, done.stderr[-500:]


# ---- GitHub's workflow commands


def decoded(text, codes):
    for code, character in [*codes, ("%25", "%")]:
        text = text.replace(code, character)
    return text


def workflow_command(line):
    """The name, the properties and the message of a workflow command, as GitHub's runner reads it; None if it is no command."""
    found = re.fullmatch(r"\s*::(\S+?)(?: (.*?))?::(.*)", line, re.S)
    if not found:
        return None
    pairs = [pair.split("=", 1) for pair in (found[2] or "").split(",") if "=" in pair]
    ends = [("%0D", "\r"), ("%0A", "\n")]
    properties = {name.strip(): decoded(value, [*ends, ("%3A", ":"), ("%2C", ",")]) for name, value in pairs}
    return found[1], properties, decoded(found[3], ends)


def workflow_commands(text):
    """The commands in the lines of a text, which .NET ends at line feeds and carriage returns."""
    lines = re.split(r"\r\n|\r|\n", text)
    return [workflow_command(line) for line in lines[:-1]] + [line for line in lines[-1:] if line]


# ---- SARIF 2.1.0: the objects that are used, with their members, from its sections 3.13 to 3.51


def is_text(value):
    return isinstance(value, str) and value != ""


def is_position(value):
    return type(value) is int and value >= 1


def is_uri_reference(value):
    """By RFC 3986. The first segment of a relative path has no colon."""
    legal = re.fullmatch(r"(?:[A-Za-z0-9._~!$&'()*+,;=:@/?-]|%[0-9A-F]{2})+", value) is not None
    return legal and (value.startswith(("/", "file:///")) or ":" not in value.split("/")[0])


def list_of(check, is_set=False):
    def faults(value):
        if not isinstance(value, list):
            return ["no list"]
        again = ["equal items"] * (is_set and len({json.dumps(one, sort_keys=True) for one in value}) < len(value))
        return again + [fault for one in value for fault in check(one)]
    return faults


def whether(test):
    return lambda value: [] if test(value) else [f"wrong: {str(value)[:80]}"]


def an_object(required, optional=None):
    members = {**required, **(optional or {})}
    def faults(value):
        if not isinstance(value, dict):
            return ["no object"]
        found = [f"no {name}" for name in required if name not in value] + [f"unknown: {name}" for name in value if name not in members]
        return found + [f"{name}: {fault}" for name in value if name in members for fault in members[name](value[name])]
    return faults


TEXTS = whether(lambda value: isinstance(value, dict) and all(is_text(one) for one in value.values()))
REGION = an_object({"startLine": whether(is_position)}, {"startColumn": whether(is_position)})
PLACE = an_object({"artifactLocation": an_object({"uri": whether(is_uri_reference)})}, {"region": REGION})
LOCATION = an_object({"physicalLocation": PLACE, "logicalLocations": list_of(an_object({"fullyQualifiedName": whether(is_text)}), True)})
RESULT = an_object({"message": an_object({"text": whether(lambda value: isinstance(value, str))})}, {
    "ruleId": whether(is_text), "level": whether(lambda value: value in ("none", "note", "warning", "error")),
    "partialFingerprints": TEXTS, "locations": list_of(LOCATION)})  # fmt: skip
DRIVER = an_object({"name": whether(is_text)}, {"rules": list_of(an_object({"id": whether(is_text)}), True)})
RUN = an_object({"tool": an_object({"driver": DRIVER})}, {"results": list_of(RESULT)})
SCHEMA = {"$schema": whether(lambda value: value.startswith("https://"))}
SARIF = an_object({"version": whether(lambda value: value == "2.1.0"), "runs": list_of(RUN)}, SCHEMA)


def sarif_faults(value):
    """The rules of the standard that a report breaks. Each result has a rule of its run."""
    faults = SARIF(value)
    if not faults:
        for run in value["runs"]:
            rules = [rule["id"] for rule in run["tool"]["driver"]["rules"]]
            faults += [f"no rule {result['ruleId']}" for result in run["results"] if rules.count(result["ruleId"]) != 1]
    return faults


def path_of_uri(uri):
    return urllib.parse.unquote(uri.removeprefix("file://"))


# ---- GitLab's code quality report


def is_path_of_project(value):
    return is_text(value) and not value.startswith(("/", "./", "../"))


LINES = an_object({"begin": whether(is_position)})
FINDING = an_object({
    "description": whether(lambda value: isinstance(value, str)), "check_name": whether(is_text), "fingerprint": whether(is_text),
    "severity": whether(lambda value: value in ("info", "minor", "major", "critical", "blocker")),
    "location": an_object({"path": whether(is_path_of_project), "lines": LINES})})  # fmt: skip


def quality_faults(value):
    faults = list_of(FINDING)(value)
    counts = collections.Counter(one["fingerprint"] for one in value) if not faults else {}
    return faults + [f"a fingerprint {count} times" for count in counts.values() if count > 1]


# ---- trace events


EVENT = an_object({
    "name": whether(is_text), "cat": whether(is_text), "ph": whether(lambda value: value == "X"),
    "args": whether(lambda value: isinstance(value, dict)),
    **{name: whether(lambda value: type(value) is int and value >= 0) for name in ("ts", "dur", "pid", "tid")}},
    {"cname": whether(is_text)})  # fmt: skip
TRACE = an_object({"traceEvents": list_of(EVENT)}, {"displayTimeUnit": whether(lambda value: value in ("ms", "ns"))})


def trace_faults(value):
    """Events of a lane may not overlap."""
    faults, ends = TRACE(value), {}
    for event in sorted(value["traceEvents"], key=lambda event: (event["ts"], event["ts"] + event["dur"])) if not faults else []:
        if event["ts"] < ends.get(event["tid"], 0):
            faults.append(f"{event['name']} overlaps")
        ends[event["tid"]] = event["ts"] + event["dur"]
    return faults
