"""Directories with names and numbers that are chosen to collide in a table. Usage: chosen.py PROGRAM JSON_PROGRAM

A program must show what each directory holds, and may take little more processor time than for random names and numbers. The
names and numbers of `fold` (chosen.c) collide under the default hash of a table, whose seed is fixed. A program that used it
failed the check of its time in each directory. Those of `sip` collide if the system gives no keys. A library (no_keys.c) makes
the system give none; then the results must be the same and must take longer, because these names and numbers do collide.
"""

import json
import os
import random
import resource
import string
import subprocess
import sys
import tempfile

HERE = os.path.dirname(os.path.abspath(__file__))
sys.path.insert(0, os.path.dirname(HERE))
from checks import Checks  # noqa: E402

# The number of numbers. There is one more name, which no index lists.
COUNT = 25_000
LENGTH = 102
ROUNDS = 3
MOST_SECONDS = 60  # for one run


def most(seconds):
    """Returns how long chosen names and numbers may take if random ones take `seconds`."""
    return 3 * seconds + 0.1


# ---- Names and numbers -----------------------------------------------------------------------------------------------


def at_random():
    rng = random.Random(1)
    names = ["".join(rng.choices(string.ascii_letters, k=LENGTH)).encode() for _ in range(COUNT + 1)]
    return names, [b"%d" % number for number in rng.sample(range(10**8, 10**9), COUNT)]


def built(folder, name, *words):
    path = os.path.join(folder, name)
    subprocess.run(["cc", "-O3", "-Wall", "-Wextra", *words, "-o", path, os.path.join(HERE, name + ".c")], check=True)
    return path


def chosen(folder):
    """Returns for each hash the names and the numbers that collide under it."""
    program = built(folder, "chosen")
    which = [(by, what, str(count)) for by in ("fold", "sip") for what, count in (("names", COUNT + 1), ("numbers", COUNT))]
    processes = [subprocess.Popen([program, *words], stdout=subprocess.PIPE) for words in which]
    found = {}
    for (by, what, count), process in zip(which, processes):
        lines = process.communicate()[0].splitlines()
        if process.returncode or len(set(lines)) != int(count):
            sys.exit(f"chosen {by} {what}: status {process.returncode}, {len(set(lines))} lines")
        found.setdefault(by, []).append(lines)
    return found


# ---- Directories -----------------------------------------------------------------------------------------------------
# Each function fills a directory with names and numbers. It returns the arguments of a command line, and the expected status,
# text and error message.


def write(directory, name, content):
    with open(os.path.join(directory, name), "wb") as file:
        file.write(content)


def index(names, numbers):
    return b"".join(b"%s %s\n" % pair for pair in zip(numbers, names))


def mentions(names):
    return b"".join(b"@@REDO:do:1:1@@ %s\n" % name for name in names)


def a_name_twice(directory, names, numbers):
    write(directory, "names", index(names[:COUNT], numbers) + b"1 ./" + names[0] + b"\n")
    return ["all"], (3, b"", b"redo-log: names: line %d: name listed twice\n" % (COUNT + 1))


def a_number_twice(directory, names, numbers):
    write(directory, "names", index([b"t" + number for number in numbers], numbers) + b"!" + numbers[0] + b" all\n")
    return ["all"], (3, b"", b"redo-log: names: line %d: number listed twice\n" % (COUNT + 1))


def an_unknown_target(directory, names, numbers):
    write(directory, "names", index(names[:COUNT], numbers))
    return names[COUNT - 1 :], (24, b"", b"redo-log: " + names[COUNT] + b": not known\n")


def mentions_alone(directory, names, numbers):
    """Each name is mentioned twice, and shown at its first mention."""
    write(directory, "names", b"1 all\n")
    write(directory, "log.1", mentions(names) + mentions(b"./" + name for name in reversed(names)) + b"end\n")
    return ["-r", "all"], (0, b"redo  all\n" + b"".join(b"redo    %s\n" % name for name in names) + b"end\n", b"")


def an_index_and_mentions(directory, names, numbers):
    """The first and the last target have a log."""
    write(directory, "names", index(names[:COUNT], numbers) + b"1 all\n")
    write(directory, "log.1", mentions(names[:COUNT]))
    shown = [b"redo    %s\n" % name for name in names[:COUNT]]
    for place in (0, COUNT - 1):
        line = b"the log of %d\n" % place
        write(directory, "log." + numbers[place].decode(), line)
        shown[place] += line
    return ["-r", "all"], (0, b"redo  all\n" + b"".join(shown), b"")


def json_object(target, needs=(), lines=(), diagnostics=(), directory=None):
    """An object of redo-log-json, as bytes."""
    numbers = dict.fromkeys(["status", "start_ms", "end_ms", "cpu_ms", "peak_kb"])
    lists = {"commands": [], "needs": [name.decode() for name in needs], "lines": list(lines), "diagnostics": list(diagnostics)}
    one = {"target": target.decode(), "parent": None, **numbers, "directory": directory, **lists, "baseline": None}
    return json.dumps(one, separators=(",", ":")).encode() + b"\n"


def needs_of_a_log(directory, names, numbers):
    write(directory, "names", b"1 all\n")
    write(directory, "log.1", mentions(names) + mentions(b"./" + name for name in reversed(names)))
    return [], (0, json_object(b"all", needs=names), b"")


def keys_of_diagnostics(directory, names, numbers):
    """Each key occurs twice. Names of `sip` are lines."""
    texts = [name.decode() if name.startswith(b"error: ") else f"error: {name.decode()}" for name in names]
    place = {"severity": "error", "file": None, "row": None, "column": None}
    found = [{"line": line, **place, "message": text.partition("error: ")[2], "flag": None, "key": f": {text}", "nth": line // len(texts),
              "new": None} for line, text in enumerate(texts * 2)]
    write(directory, "names", b"1 all\n")
    write(directory, "log.1", "".join(text + "\n" for text in texts * 2).encode())
    return [], (0, json_object(b"all", lines=texts * 2, diagnostics=found), b"")


def facts_of_numbers(directory, names, numbers):
    """Each number has facts, in another order than in the index."""
    targets = [b"t" + number for number in numbers]
    write(directory, "names", index(targets, numbers))
    write(directory, "facts", b"".join(b"%s log t%s\n%s directory d\n" % (number, number, number) for number in reversed(numbers)))
    return ["--every", targets[0]], (0, b"".join(json_object(target, directory="d") for target in targets), b"")


DIRECTORIES = [a_name_twice, a_number_twice, an_unknown_target, mentions_alone, an_index_and_mentions]
JSON_DIRECTORIES = [needs_of_a_log, keys_of_diagnostics, facts_of_numbers]


# ---- Runs ------------------------------------------------------------------------------------------------------------


def ran(program, directory, words, library=""):
    """Returns the status, standard output and standard error, and the processor time in seconds."""
    environment = {**os.environ, "LD_PRELOAD": library}
    before = resource.getrusage(resource.RUSAGE_CHILDREN)
    try:
        run = subprocess.run([program, "--dir", directory, *words], capture_output=True, env=environment, timeout=MOST_SECONDS)
    except subprocess.TimeoutExpired:
        return "timeout", MOST_SECONDS
    after = resource.getrusage(resource.RUSAGE_CHILDREN)
    seconds = after.ru_utime + after.ru_stime - before.ru_utime - before.ru_stime
    return (run.returncode, run.stdout, run.stderr), seconds


def compared(checks, program, library, folder, fill, sets):
    """Fills and runs a directory with the names and numbers of each set. Returns how many times as long chosen ones took as random
    ones, with keys and without."""
    name = fill.__name__.replace("_", " ")
    cases = {}
    for by, (names, numbers) in sets.items():
        directory = os.path.join(folder, f"{fill.__name__}-{by}")
        os.mkdir(directory)
        cases[by] = (directory, *fill(directory, names, numbers))
    least = dict.fromkeys(cases, MOST_SECONDS)
    for _ in range(ROUNDS):
        for by, (directory, words, wanted) in cases.items():
            answer, seconds = ran(program, directory, words)
            checks.expect(f"{name}, {by}", answer, wanted)
            least[by] = min(least[by], seconds)
    others = least["random"]
    for by in ("fold", "sip"):
        told = "little more" if least[by] <= most(others) else f"{least[by]:.2f} s"
        checks.expect(f"{name}, {by}, if random ones take {others:.2f} s", told, "little more")
    directory, words, wanted = cases["sip"]
    answer, seconds = ran(program, directory, words, library)
    checks.expect(f"{name}, without keys", answer, wanted)
    told = "more" if seconds > 2 * others else f"{seconds:.2f} s"
    checks.expect(f"{name}, without keys, if random ones take {others:.2f} s", told, "more")
    return max(least["fold"], least["sip"]) / others, seconds / others


def main(program, json_program):
    checks = Checks()
    with tempfile.TemporaryDirectory() as folder:
        library = built(folder, "no_keys", "-shared", "-fPIC")
        sets = {"random": at_random(), **chosen(folder)}
        found = [compared(checks, program, library, folder, fill, sets) for fill in DIRECTORIES]
        found += [compared(checks, json_program, library, folder, fill, sets) for fill in JSON_DIRECTORIES]
    with_keys, without = (max(times) for times in zip(*found))
    print(f"{COUNT:,} chosen ones took up to {with_keys:.1f} times as long as random ones, and {without:.0f} times without keys")
    checks.end("chosen names and numbers")


if __name__ == "__main__":
    if len(sys.argv) != 3:
        print("usage: chosen.py PROGRAM JSON_PROGRAM", file=sys.stderr)
        sys.exit(2)
    main(*map(os.path.abspath, sys.argv[1:]))
