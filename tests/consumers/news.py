"""Builds for new.jq and --baseline. Of random ones, a second implementation says what is new, one diagnostic after another."""
import os
import random
import re

from hostile import Target, write_capture
from reading import parsed
from scripts import run_script, write_json

COLOUR = "\x1b[01;35m"


def sources_and_keys(target):
    """The key and the source line of each diagnostic, or an empty line."""
    lines, found = target["lines"], []
    for one in target["diagnostics"]:
        after = lines[one["line"] + 1] if one["line"] + 1 < len(lines) else ""
        source = re.fullmatch(r" *[0-9]+ \|(.*)", after.replace(COLOUR, ""))
        found.append((one["key"], source[1].strip(" ") if source else ""))
    return found


def new_places(old, new):
    """Which diagnostics are new: those without an equal one, by key and source line, and then by key alone."""
    left, known = list(old), set()
    for is_equal in (lambda one, other: one == other, lambda one, other: one[0] == other[0]):
        for place, one in enumerate(new):
            match = next((other for other in left if place not in known and is_equal(one, other)), None)
            if match is not None:
                left.remove(match)
                known.add(place)
    return [place for place in range(len(new)) if place not in known]


def random_lines(rng):
    lines = []
    for number in range(rng.randrange(9)):
        lines.append(f"{rng.choice('fg')}.c:{rng.randrange(1, 99)}:{number + 1}: {rng.choice(['warning', 'error'])}: {rng.choice('uv')}")
        sources = [["  5 | "], [f" {number} | a"], [f"77 |   {rng.choice('ab')}  "], [f"8 | {COLOUR}a{COLOUR}"], ["5| a"], ["x | a"]]
        lines += rng.choice([[], *sources])
    return [line.encode() for line in lines]


def random_news(checks, at, tool, program):
    """500 targets with random diagnostics in two builds; some are only in one of them."""
    del tool
    rng, folder, builds = random.Random("news"), os.path.realpath(at("news")), []
    for name in ("OLD", "NEW"):
        numbers = [number for number in range(500) if rng.random() < .9]
        targets = [Target(b"t%d" % number, rng.choice([None, 0, 0, 1]), random_lines(rng), 0, 5) for number in numbers]
        os.makedirs(folder, exist_ok=True)
        write_capture(os.path.join(folder, name), targets)
        builds.append({row["target"]: row for row in parsed(write_json(checks, name, program, folder, name, f"{name}.jsonl"))})
    old, new = builds
    printed = {}
    for name, row in new.items():
        before = sources_and_keys(old[name]) if name in old else []
        for place in new_places(before, sources_and_keys(row)):
            printed.setdefault(row["lines"][row["diagnostics"][place]["line"]], set()).add(name)
    wanted = [f"{line} ({', '.join(sorted(names))})" for line, names in printed.items()]
    failed_before = [name for name, row in old.items() if row["status"] not in (0, None)]
    wanted += [f"{name} fails (exit {row['status']})" for name, row in new.items() if row["status"] == 1 and name not in failed_before]
    since = parsed(write_json(checks, "NEW since OLD", program, folder, "NEW", "since.jsonl", ["--baseline", "OLD"]))
    compared = {row["target"]: row for row in since}
    for name, row in new.items():
        before = sources_and_keys(old[name]) if name in old else []
        flags = [one["new"] for one in compared[name]["diagnostics"]]
        places = new_places(before, sources_and_keys(row))
        checks.expect(f"random builds: what --baseline says of {name}", [at for at, flag in enumerate(flags) if flag], places)
        gone, failed = len(new_places(sources_and_keys(row), before)), old[name]["status"] if name in old else None
        fails = row["status"] == 1 and failed in (0, None)
        told = {"built": name in old, "gone": gone, "newly_fails": fails, "fixed": failed == 1 and row["status"] == 0}
        checks.expect(f"random builds: what --baseline says changed in {name}", compared[name]["baseline"], told)
    status, out, err = run_script("new", folder)
    checks.expect("random builds: there are many", (len(wanted) > 500, any(len(names) > 1 for names in printed.values())), (True, True))
    checks.expect("random builds: what is new", (status, out.decode().splitlines(), err), (1, wanted, ""))


def shared_header(checks, at, tool, program):
    """A new warning in a header that 200 targets include is one line, with ten of them. Names of files that aren't UTF-8 stay apart."""
    del tool
    folder, line = os.path.realpath(at("header")), b"%s.h:5:1: warning: unused"
    os.makedirs(folder)
    shared = [Target(b"t%03d" % number, 0, [line % b"some", line % b"all"][number < 9 :], 0, 5) for number in range(200)]
    named = [Target(b"%d" % number, 0, [line % file], 0, 5) for number, file in enumerate((b"\xfe", b"\xff", b"\xff"))]
    for name, targets in (("OLD", []), ("NEW", [*named, *shared])):
        write_capture(os.path.join(folder, name), targets)
        write_json(checks, name, program, folder, name, f"{name}.jsonl")
    wanted = [f"\ufffd.h:5:1: warning: unused ({targets})" for targets in ("0", "1, 2")]
    wanted.append("all.h:5:1: warning: unused (t000, t001, t002, t003, t004, t005, t006, t007, t008, t009, and 190 more)")
    wanted.append("some.h:5:1: warning: unused (t009, t010, t011, t012, t013, t014, t015, t016, t017, t018, and 181 more)")
    status, out, err = run_script("new", folder)
    checks.expect("a header: what is new", (status, out.decode().splitlines(), err), (1, wanted, ""))


PARTS = (random_news, shared_header)
