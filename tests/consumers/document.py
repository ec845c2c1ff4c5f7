"""docs/json.md: its example is what the program writes, and its tables have the members of all objects, with their types and limits."""
import base64
import json
import os
import re

from checks import contents
from reading import parsed
from scripts import EXAMPLES, SCRIPTS, write_json

DOCUMENT = "docs/json.md"
# A capture of which the program writes the example.
EXAMPLE = {
    "names": ["1 all", "2 debug/table.o"],
    "log.1": ["@@REDO:do:7:1795835033.620@@ debug/table.o", "@@REDO:done:7:1795835033.650@@ 2 all"],
    "log.2": ["@@REDO:do:9:1795835033.6204@@ table.o", "table.c: In function 'grow':", "table.c:9:33: error: expected ';' before '}' token",
              "@@REDO:done:9:1795835033.639@@ 1 table.o"],
    "facts": ["2 log debug/table.o", "2 directory /home/me/variants", "2 command cc -Wall -DDEBUG -c -o debug/table.o table.c",
              "2 usage 9 3 21480"],
}  # fmt: skip
TYPES = {"string": str, "number": int, "boolean": bool, "null": type(None), "strings": list, "object": dict, "objects": list}
NINE, THIRTEEN = 10**9 - 1, (10**12, 10**13 - 1)
LIMITS = {"status": (-NINE, NINE), "start_ms": THIRTEEN, "end_ms": THIRTEEN, "row": (0, NINE), "column": (0, NINE)}
LARGEST = 2**53


def tables():
    """The members in each table, with their types, in order."""
    for table in re.findall(r"^Member \| Type \| Value\n---.*\n((?:.+\n)+)", contents(DOCUMENT), re.M):
        rows = [line.split(" | ") for line in table.splitlines()]
        yield {name: tuple(TYPES[kind] for kind in types.split(", ")) for names, types, _ in rows for name in re.findall(r"`(\w+)`", names)}


def without_exact(members):
    return [name for name in members if not name.endswith("_base64")]


def faults_of_object(value, members):
    """Yields what an object has that its table doesn't say."""
    if without_exact(value) != list(members):
        yield f"members {list(value)}"
    for name, types in members.items():
        one = value.get(name)
        low, high = LIMITS.get(name, (0, LARGEST - 1))
        if type(one) not in types or type(one) is int and not low <= one <= high:
            yield f"{name}: {str(one)[:80]}"
        exact = value.get(f"{name}_base64", {})
        pairs = [(one, exact)] if isinstance(exact, str) else [(one[int(place)], text) for place, text in exact.items()]
        for text, encoded in pairs:
            data = base64.b64decode(encoded, validate=True)
            if data.decode("utf-8", "replace") != text or text.encode() == data:
                yield f"{name}: {text[:80]!r} and {encoded[:80]}"
        if exact and list(value).index(f"{name}_base64") != list(value).index(name) + 1:
            yield f"{name}_base64 isn't the next member"


def expect_members(checks, what, objects):
    of_logs, of_diagnostics, of_baselines = tables()
    faults = [fault for one in objects for fault in faults_of_object(one, of_logs)]
    faults += [fault for one in objects for diagnostic in one["diagnostics"] for fault in faults_of_object(diagnostic, of_diagnostics)]
    faults += [fault for one in objects if one["baseline"] for fault in faults_of_object(one["baseline"], of_baselines)]
    checks.expect(f"{what}: what {DOCUMENT} doesn't say", faults[:5], [])
    checks.expect(f"{what}: line feeds in lines", [text for one in objects for text in one["lines"] if "\n" in text], [])
    ids = [(one["target"], one.get("target_base64"), diagnostic["key"], diagnostic.get("key_base64"), diagnostic["nth"])
           for one in objects for diagnostic in one["diagnostics"]]  # fmt: skip
    checks.expect(f"{what}: equal diagnostics", len(ids) - len(set(ids)), 0)
    names = [(one["target"], one.get("target_base64")) for one in objects]
    checks.expect(f"{what}: equal targets", len(names) - len(set(names)), 0)


def example(checks, at, tool, program):
    del tool
    folder = at("example")
    os.makedirs(os.path.join(folder, "capture"))
    for name, lines in EXAMPLE.items():
        with open(os.path.join(folder, "capture", name), "w", encoding="utf-8") as file:
            file.writelines(line + "\n" for line in lines)
    lines = write_json(checks, "the example", program, folder, "capture").decode().splitlines()
    shown = re.search(r"^    \{\".*\n(?:     .*\n)+", contents(DOCUMENT), re.M)[0]
    checks.expect("the example", lines[1:], ["".join(line.strip() for line in shown.splitlines())])
    objects = [json.loads(line) for line in lines]
    expect_members(checks, "the example", objects)
    since = parsed(write_json(checks, "the example since itself", program, folder, "capture", words=["--baseline", "capture"]))
    expect_members(checks, "the example since itself", since)
    found = [(one["baseline"], [diagnostic["new"] for diagnostic in one["diagnostics"]]) for one in since]
    same = {"built": True, "gone": 0, "newly_fails": False, "fixed": False}
    checks.expect("the example since itself: what changed", found, [(same, []), (same, [False])])
    every = parsed(write_json(checks, "every target", program, folder, "capture", words=["--every", "debug/table.o"]))
    found = [(one["target"], one["parent"]) for one in every]
    checks.expect("every target: those that were not requested follow", found, [("debug/table.o", None), ("all", None)])


def listed_scripts(checks, at, tool, program):
    del at, tool, program
    listed = re.findall(r"^`(\w+)\.jq` \| ", contents(DOCUMENT), re.M)
    files = [name.removesuffix(".jq") for name in os.listdir(EXAMPLES)]
    checks.expect("the scripts that the document lists", sorted([*listed, "lib"]), sorted(files))
    checks.expect("the scripts that are tested", sorted(listed), sorted(SCRIPTS))


PARTS = (example, listed_scripts)
