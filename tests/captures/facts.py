"""The file `facts`: what it says about random builds, about builds that were killed or had no space left, and about captures that
somebody changed. It is read as docs/format.md specifies."""
import os
import random
import re
import resource
import shutil
import signal
import subprocess
import sys

from builds import CAPTURES, TOOL, of_a_terminal, preloaded, project, ran, shown, wait_until, without_printed, write
from checks import PROGRAM, contents, environment, install_capture

UNKNOWN = {"directory": None, "commands": [], "usage": None}


def normal(name):
    """The normal form of a name that is relative to the base directory."""
    kept = []
    for segment in name.split(b"/"):
        if segment == b".." and kept and kept[-1] != b"..":
            kept.pop()
        elif segment not in (b"", b".") and not (segment == b".." and name[:1] == b"/"):
            kept.append(segment)
    return b"/" + b"/".join(kept) if name[:1] == b"/" else b"/".join(kept) or b"."


def facts_of(data, number, target):
    """The facts of the target that has a number in the index."""
    form = re.compile(rb"%d (log|directory|command|truncated|more|usage) (.*)" % number, re.S)
    found, is_target = dict(UNKNOWN), False
    if len(data) > 1 << 30:
        return found
    for line in data.split(b"\n")[:-1]:
        stated = form.fullmatch(line)
        if not stated:
            continue
        kind, value = stated[1].decode(), stated[2]
        if kind == "log" and value:
            found, is_target = {"directory": None, "commands": [], "usage": None}, normal(value) == target
        elif not is_target:
            continue
        elif kind == "directory" and value:
            found["directory"] = value
        elif kind in ("command", "truncated"):
            found["commands"].append((kind, value))
        elif kind == "more" and found["commands"]:
            last, text = found["commands"][-1]
            found["commands"][-1] = (last, text + b"\n" + value)
        elif kind == "usage" and re.fullmatch(rb"\d{1,15} \d{1,15} \d{1,15}", value):
            found["usage"] = tuple(map(int, value.split(b" ")))
    return found


def read(folder, name, at=CAPTURES):
    """The bytes of a file of the captures; none if it is missing."""
    try:
        with open(os.path.join(folder, at, name), "rb") as file:
            return file.read()
    except FileNotFoundError:
        return b""


def numbers(folder, at=CAPTURES):
    """The numbers in the index, by name."""
    lines = [line.lstrip(b"!").split(b" ", 1) for line in read(folder, "names", at).split(b"\n")[:-1]]
    return {name: int(number) for number, name in lines}


def all_facts(folder, at=CAPTURES):
    data = read(folder, "facts", at)
    return {name: facts_of(data, number, name) for name, number in numbers(folder, at).items()}


def commands_of(folder, name, at=CAPTURES):
    return [text.decode(errors="surrogateescape") for _, text in all_facts(folder, at)[name.encode()]["commands"]]


def captured(folder, *words, options=(), more=None, before=()):
    """The status and both outputs of a captured make, as bytes, without the line about targets that did not fail."""
    done = subprocess.run([*before, TOOL, *options, "make", *words], cwd=folder, env=environment(more), capture_output=True)
    return done.returncode, done.stdout, without_printed(done.stderr.decode(errors="surrogateescape"))


def told(facts):
    """Facts as the table of docs/format.md shows them."""
    code = lambda value: f"`{value.decode()}`".replace("\n", "\\n")
    parts = [f"directory {code(facts['directory'])}"] if facts["directory"] else []
    parts += [f"{kind} {code(text)}" if text else f"{kind}, empty" for kind, text in facts["commands"]]
    parts += [f"usage {', '.join(map(str, facts['usage']))}"] if facts["usage"] else []
    return "; ".join(parts) or "none"


def examples(checks, at):
    """The table of docs/format.md."""
    rows = re.search(r"^Contents \| Facts of the target `a`, which has number 7\n---\|---\n((?:.+\n)+)", contents("docs/format.md"), re.M)[1].splitlines()
    checks.expect("facts: rows", len(rows) > 10, True)
    for row in rows:
        data, wanted = row.split(" | ")
        data = b"" if data == "none" else data.strip("`").replace("\\n", "\n").encode()
        checks.expect(f"facts: {row}", told(facts_of(data, 7, b"a")), re.sub(r": (no|other|the) .*", "", wanted))


ODD = b"""all: a d/b\\ c e f g one sub out
a: ; @/bin/false one
d/b\\ c:
\t-@echo 'x y' >&2; exit 3
\t@true
\t@echo $(HOME) | cat; \\
\t  exit 4
\t@echo never
e: ; @/bin/false 'a b' "it's" \xff*
f: ; @/bin/false '\xff\xfe' \xe2\x82
g: ; @: $@; exit 0
sub: ; @$(MAKE) -C 'd e' -s -k x
out: ; @$(MAKE) -f $(CURDIR)/other.mk -C .. -s -k y
.PHONY: sub
one: ; @$(MAKE) -f one.mk -s one
"""
BELOW = "x: z ; @false\nz: ; @exit 5\n"
ONE = ".ONESHELL:\none:\n\t@echo begin >&2\n\texit 7\n"


def recorded(checks, at):
    """The directories and the commands of recipes."""
    for options in ((), ("--commands",)):
        name = f"{len(options)}"
        folder = at(f"{name}/base")
        write(os.path.join(folder, "d e/Makefile"), BELOW)
        write(os.path.join(folder, "other.mk"), "y: ; @exit 6\n")
        write(os.path.join(folder, "one.mk"), ONE)
        with open(os.path.join(folder, "Makefile"), "wb") as file:
            file.write(ODD)
        status = captured(folder, "-k", "HOME=a  b", options=("--quiet", *options))[0]
        found, has_all = all_facts(folder), bool(options)
        base, outside = os.path.realpath(folder).encode(), os.path.dirname(os.path.realpath(folder)).encode()
        places = {b"a": base, b"d/b c": base, b"e": base, b"f": base, b"g": base, b"sub": base, b"out": base, b"one": base}
        places = {**places, b"d e/z": b"d e", outside + b"/y": outside, b"all": None}
        checks.expect(f"facts {name}: status and targets", (status, sorted(found)), (2, sorted(places)))
        checks.expect(f"facts {name}: directories", {name: facts["directory"] for name, facts in found.items()}, places)
        commands = {
            b"a": [b"/bin/false one"],
            b"d/b c": [b"echo 'x y' >&2; exit 3", *[b"true"] * has_all, b"echo a  b | cat; \\\n  exit 4"],
            b"e": [b"/bin/false 'a b' \"it's\" \xff*"],
            b"f": [b"/bin/false '\xff\xfe' '\xe2\x82'"],
            b"g": [b": g; exit 0"] * has_all,
            b"sub": [b"make -C 'd e' -s -k x"],
            b"out": [b"make -f " + base + b"/other.mk -C .. -s -k y"],
            b"one": [b"make -f one.mk -s one"],
            b"d e/z": [b"exit 5"],
            outside + b"/y": [b"exit 6"],
            b"all": [],
        }
        if has_all:
            commands[b"one"] = [b"make -f one.mk -s one", b"echo begin >&2\nexit 7"]
        else:
            commands[b"one"] = [b"echo begin >&2\nexit 7", b"make -f one.mk -s one"]
        for target, wanted in commands.items():
            checks.expect(f"facts {name}: commands of {target}", found[target]["commands"], [("command", text) for text in wanted])
        checks.expect(f"facts {name}: shown", isinstance(shown(folder, "a"), str), True)

    folder = project(at("long"), "all: ; @$(C)\n")
    for size, kind in ((100, "command"), (15988, "command"), (15989, "truncated"), (30000, "truncated")):
        captured(folder, f"C=/bin/false {'x' * size}", options=["--quiet"])
        text = b"/bin/false " + b"x" * min(size, 15989)
        checks.expect(f"facts: a word of {size} bytes", all_facts(folder)[b"all"]["commands"], [(kind, text)])
    captured(folder, f"C=/bin/false {'x' * 15988} y", options=["--quiet"])
    checks.expect("facts: words that end where the command is cut", all_facts(folder)[b"all"]["commands"], [("truncated", b"/bin/false " + b"x" * 15988)])
    text = ": " + "\\\n" * 7000 + "; exit 3"
    captured(folder, f"C={text}", options=["--quiet"])
    checks.expect("facts: many line feeds", commands_of(folder, "all"), [text])
    quotes = "'" * 59900
    words = [TOOL, "--recipe", "sh", "-c", "exit 3", quotes]
    ran(folder, [TOOL, "sh", "-c", 'CAPTURE="launched : " "$@"; true', "sh", *words])
    quoted_quotes = "'" + "'\\''" * len(quotes) + "'"
    checks.expect("facts: a line that is longer than the buffer", commands_of(folder, "launched"), [f"sh -c 'exit 3' {quoted_quotes}"])
    for more, kind in (([], "command"), (["y"], "truncated")):
        words = [TOOL, "--recipe", "/bin/false", "x" * 59988, *more]
        ran(folder, [TOOL, "sh", "-c", 'CAPTURE="launched : " "$@"; true', "sh", *words])
        checks.expect(f"facts: words of --recipe, {kind}", all_facts(folder)[b"launched"]["commands"], [(kind, b"/bin/false " + b"x" * 59988)])

    folder = project(at("refused"), "all: x y\nx: ; @./x.sh 1\ny: ; @./missing\n")
    write(os.path.join(folder, "x.sh"), "#!/no/such/interpreter\n")
    os.chmod(os.path.join(folder, "x.sh"), 0o755)
    plain = ran(folder, ["make", "-k"])
    checks.expect("facts: commands that can't be run", (plain[0], plain[2].count("No such file")), (2, 2))
    captured(folder, "-k", options=["--summary", "sum"])
    found = [all_facts(folder)[name]["commands"] for name in (b"x", b"y")]
    checks.expect("facts: the command that make has found", found, [[("command", b"./x.sh 1")], []])
    rows = [line.split() for line in open(os.path.join(folder, "sum"), encoding="utf-8")]
    checks.expect("facts: nothing was run", [(row[0], *row[3:]) for row in rows], [("127", "x", "-", "-"), ("127", "y", "-", "-")])

    folder = project(at("twice"), "all: 1 2\n1 2: ; @$(MAKE) -s -f below.mk N=$@ x\n")
    write(os.path.join(folder, "below.mk"), "x: ; @: $N; exit $N\n")
    captured(folder, "-sk")
    checks.expect("facts: a target that two makes make", commands_of(folder, "x"), [": 1; exit 1", ": 2; exit 2"])

    folder = at("line\nfeed")
    project(folder, "all: b\nb: ; @exit 3\n")
    captured(folder)
    checks.expect("facts: a directory with a line feed", (all_facts(folder)[b"b"]["directory"], commands_of(folder, "b")), (None, ["exit 3"]))


BURN = """import sys, time
memory = b"x" * int(sys.argv[2])
while time.process_time() < float(sys.argv[1]):
    pass
"""


WAITING = """import os, sys
process = os.posix_spawnp(sys.argv[1], sys.argv[1:], os.environ)
usage = os.wait4(process, 0)[2]
print((usage.ru_utime + usage.ru_stime) * 1000, usage.ru_maxrss)
"""


def reference(folder, *words, program=None):
    """What a process takes without a capture: processor time in milliseconds, and memory in kilobytes. Linux counts the memory of the
    process that starts it, too, so that is a small one."""
    command = [program] if program else [sys.executable, "burn.py", *words]
    done = subprocess.run([sys.executable, "-S", "-c", WAITING, *command], cwd=folder, stdout=subprocess.PIPE, text=True, check=True)
    milliseconds, kilobytes = map(float, done.stdout.split()[-2:])
    return milliseconds, kilobytes


def is_near(usage, milliseconds, kilobytes):
    """Whether what a recipe took is about this much."""
    return usage is not None and milliseconds / 2 <= usage[0] + usage[1] <= 2 * milliseconds + 100 and kilobytes * 0.8 <= usage[2] <= kilobytes * 1.25


def usages(checks, at):
    """Processor time and memory, compared with the same processes without a capture."""
    burn = f"{sys.executable} burn.py"
    makefile = f"""all: time memory both sub recipe
time: ; @{burn} .3 30000000
memory: ; @{burn} 0 50000000
a\\ b both:
\t@{burn} .2 50000000
\t@:; {burn} .1 30000000
sub: ; @$(MAKE) -s 'a b'
recipe: ; @true
"""
    folder = project(at("burn"), makefile)
    write(os.path.join(folder, "burn.py"), BURN)
    tool = f"CAPTURE='launched : ' {TOOL} --recipe {burn} .2 30000000"
    status = ran(folder, [TOOL, "--summary", "sum", "sh", "-c", f"make -s && {tool}"])[0]
    checks.expect("facts: what recipes took: status", status, 0)
    found = {name.decode(): facts["usage"] for name, facts in all_facts(folder).items()}
    once, large, launched = reference(folder, ".3", "30000000"), reference(folder, "0", "50000000"), reference(folder, ".2", "30000000")
    parts = reference(folder, ".2", "50000000"), reference(folder, ".1", "30000000")
    both = parts[0][0] + parts[1][0], parts[0][1]
    for name, wanted in {"time": once, "memory": large, "both": both, "a b": both, "sub": both, "launched": launched}.items():
        checks.expect(f"facts: what {name} took: {found.get(name)}, {wanted}", is_near(found.get(name), *wanted), True)
    rows = [re.fullmatch(r"(\S+) (\S+) (\S+) (.*) (\S+) (\S+)", line.rstrip("\n")) for line in open(os.path.join(folder, "sum"), encoding="utf-8")]
    wanted = {name: (f"{(usage[0] + usage[1]) / 1000:.3f}", str(usage[2])) for name, usage in found.items() if usage}
    checks.expect("facts: the summary has the same", {row[4]: (row[5], row[6]) for row in rows}, wanted)
    short = project(at("short"), "all:\n" + "\t@/bin/true\n" * 60)
    captured(short, options=["--summary", "sum"])
    alone = [reference(short, program="/bin/true")[0] for _ in range(60)]
    took = all_facts(short)[b"all"]["usage"]
    # A busy machine may slow the lines of the recipe or these processes.
    is_between = 60 * min(alone) / 3 <= took[0] + took[1] <= 3 * sum(alone) + 100
    checks.expect(f"facts: many short lines: {took}, {min(alone)} to {max(alone)} each", is_between, True)
    checks.expect("facts: of all targets but the run", sorted(wanted), ["a b", "both", "launched", "memory", "recipe", "sub", "time"])


def of_two_makes(checks, at):
    """A recipe only runs the make that makes its target. The directory is that of the other make, and no time counts twice."""
    burn = f"{sys.executable} burn.py .3 30000000"
    for name, makefile, below, wanted in (
        ("below", "all: sub/x\nsub/x: ; @$(MAKE) -s -C sub x\n", f"x: ; @{burn}; echo x.c:1: error >&2; exit 3\n", "sub"),
        ("two below", "all: sub/x\nsub/x: ; @$(MAKE) -s -C sub all\n", f"all: ; @$(MAKE) -s x\nx: ; @{burn}; echo x.c:1: error >&2; exit 3\n", "sub"),
        ("beside", "all: ; @$(MAKE) -s -C other\n", f"x: ; @{burn}; echo x.c:1: error >&2; exit 3\n", "sub"),
        ("above", "all: sub/x\nsub/x: ; @$(MAKE) -s -f inner.mk sub/x\n", "", None),
    ):
        folder = project(at(f"makes {name}"), makefile)
        for place in ("sub", "other"):
            os.mkdir(os.path.join(folder, place))
            write(os.path.join(folder, place, "burn.py"), BURN)
        write(os.path.join(folder, "burn.py"), BURN)
        write(os.path.join(folder, "sub/Makefile"), below)
        write(os.path.join(folder, "other/Makefile"), "all: ../sub/x\n../sub/x: ; @$(MAKE) -s -C ../sub x\n")
        write(os.path.join(folder, "inner.mk"), f"sub/x: ; @{burn}; echo x.c:1: error >&2; exit 3\n")
        before = resource.getrusage(resource.RUSAGE_CHILDREN)
        status, _, printed = captured(folder, "-s")
        after = resource.getrusage(resource.RUSAGE_CHILDREN)
        all_ms = 1000 * (after.ru_utime + after.ru_stime - before.ru_utime - before.ru_stime)
        found = all_facts(folder)[b"sub/x"]
        checks.expect(f"facts: makes {name}: directory", (status, found["directory"]), (2, wanted.encode() if wanted else os.path.realpath(folder).encode()))
        checks.expect(f"facts: makes {name}: {found['usage']} of {all_ms} ms", 290 <= sum(found["usage"][:2]) <= all_ms, True)
        heads = re.findall(r"^redo-log-capture: sub/x .*", printed, re.M)
        checks.expect(f"facts: makes {name}: printed once", heads, ["redo-log-capture: sub/x (exit 3)" + (f", in {wanted}" if wanted else "")])

    # The make in `later` only asks whether there is something to do.
    folder = project(at("makes later"), "all: ; @$(MAKE) -s -C sub x && $(MAKE) -s -C later\n")
    write(os.path.join(folder, "sub/Makefile"), "x: ; @echo x.c:1: warning >&2; touch x\n")
    write(os.path.join(folder, "later/Makefile"), "../sub/x: FORCE ; @$(MAKE) -s -C ../sub x\nFORCE:\n")
    checks.expect("facts: makes later: status", captured(folder, "-s")[0], 0)
    checks.expect("facts: makes later: directory", all_facts(folder)[b"sub/x"]["directory"], b"sub")
    # Here it compiles, too, after it has run another make.
    write(os.path.join(folder, "later/Makefile"), "../sub/x: FORCE ; @$(MAKE) -s -C ../sub x && echo y.c:1: warning >&2\nFORCE:\n")
    checks.expect("facts: makes and compiles: status", captured(folder, "-s")[0], 0)
    checks.expect("facts: makes and compiles: directory", all_facts(folder)[b"sub/x"]["directory"], b"later")


TEXTS = (b"exit %d", b"true; exit %d", b": \xff\x01'\t'; exit %d", b": x; \\\n  exit %d", b"  : ' y'; exit %d", b": 7 log a; exit %d")


class Builds:
    """Random builds in one directory, and what the facts of their targets are."""

    def __init__(self, seed, folder):
        self.random, self.folder, self.run = random.Random(seed), folder, 0
        self.targets = {}
        names = self.random.sample([b"a", b"b c", b"d/e", b"f.o", b"g'h", b"i\xff", b"7", b"log", b"./k", b"l/./m"], self.random.randrange(2, 9))
        for name in names:
            place = self.random.choice((None, None, b"sub", b"s u b"))
            lines = [(self.random.choice(TEXTS), self.random.choice((0, 0, 1, 3)), self.random.random() < 0.4) for _ in range(self.random.randrange(1, 5))]
            self.targets[name] = (place, lines)
        os.makedirs(folder)
        for place in (None, b"sub", b"s u b"):
            path = os.path.join(folder.encode(), place or b"")
            os.makedirs(path, exist_ok=True)
            with open(os.path.join(path, b"Makefile"), "wb") as file:
                file.writelines(self.rule(name) for name, (where, _) in self.targets.items() if where == place)
        self.expected = {}

    def rule(self, name):
        lines = [b"\t@" + b"-" * ignored + (b": $(V); " + text % status).replace(b"\n", b"\n\t") + b"\n" for text, status, ignored in self.targets[name][1]]
        return name.replace(b" ", b"\\ ") + b":\n" + b"".join(lines)

    def build(self, *options):
        """Makes some of the targets, and returns the status and the outputs of a plain build and of the captured one."""
        self.run += 1
        goals = self.random.sample(sorted(self.targets), self.random.randrange(1, len(self.targets) + 1))
        script = []
        for place in (None, b"sub", b"s u b"):
            here = [goal for goal in goals if self.targets[goal][0] == place]
            if here:
                script.append(["make", "-k", f"-j{self.random.choice((1, 3))}", f"V={self.run}", *(["-C", place] if place else []), *here])
        for goal in goals:
            place, lines = self.targets[goal]
            commands = []
            for text, status, ignored in lines:
                if status or "--commands" in options:
                    commands.append(("command", b": %d; " % self.run + (text % status)))
                if status and not ignored:
                    break
            at = os.path.realpath(self.folder).encode() if place is None else place
            self.expected[normal(os.path.join(place or b"", goal))] = (at, commands)
        words = ["sh", "-c", "; ".join(" ".join(map(quoted, make)) for make in script)]
        return [subprocess.run([*tool, *words], cwd=self.folder, env=environment(), capture_output=True) for tool in ([], [TOOL, "--quiet", *options])]

    def faults(self):
        """How the facts differ from the expected ones."""
        found = {name: facts for name, facts in all_facts(self.folder).items() if name != b"all"}
        wrong = [(name, facts) for name, facts in found.items() if (facts["directory"], facts["commands"]) != self.expected[name]]
        unknown = [name for name, facts in found.items() if facts["usage"] is None or facts["usage"][2] == 0]
        return [*wrong, *unknown, *(set(self.expected) - set(found))]

    def superseded(self):
        """The size of the file, and the size of its lines that state nothing that counts."""
        data, counted = read(self.folder, "facts"), 0
        for name, number in numbers(self.folder).items():
            lines = [line for line in data.split(b"\n")[:-1] if line.startswith(b"%d " % number)]
            starts = [place for place, line in enumerate(lines) if line.split(b" ")[1] == b"log"]
            for place, line in enumerate(lines[starts[-1] :] if starts else []):
                kind = line.split(b" ")[1]
                later = [other for other in lines[starts[-1] + place + 1 :] if other.split(b" ")[1] == kind]
                counted += 0 if kind in (b"directory", b"usage") and later else len(line) + 1
        return len(data), len(data) - counted


def quoted(word):
    text = word if isinstance(word, str) else os.fsdecode(word)
    return "'" + text.replace("'", "'\\''") + "'"


def outcome(done):
    """Status and lines of a build. Lines of recipes that run at the same time come in any order."""
    lines = [line for line in done.stderr.split(b"\n") if not line.startswith(b"redo-log-capture: ")]
    return done.returncode, sorted(done.stdout.split(b"\n")), sorted(lines)


def random_builds(checks, at):
    """Several random builds in one directory: each target has the facts of the last build that made it."""
    for seed in range(16):
        builds = Builds(seed, at(str(seed)))
        for number in range(5):
            plain, found = builds.build(*(["--commands"] if seed % 4 == 3 else []))
            checks.expect(f"facts of random builds, {seed}, {number}: outcome", outcome(found), outcome(plain))
            checks.expect(f"facts of random builds, {seed}, {number}", builds.faults(), [])
            size, superseded = builds.superseded()
            checks.expect(f"facts of random builds, {seed}, {number}: size", (size > 0, superseded <= size / 2 + 1), (True, True))


def damage(randoms, data):
    """Changes some bytes or lines."""
    for _ in range(randoms.randrange(1, 6)):
        lines = data.split(b"\n")
        place, size = randoms.randrange(len(data) + 1), randoms.randrange(40)
        junk = bytes(randoms.choice(b"0123456789 \n logmreusa\x00\xff") for _ in range(size))
        data = randoms.choice((
            data[:place], data[:place] + data[place + size :], data[:place] + junk + data[place:], data[:place] + junk + data[place + size :],
            b"\n".join(randoms.sample(lines, len(lines))), data + junk, data + data[:place], data[place:],
        ))  # fmt: skip
    return data


def damaged(checks, at):
    """Files with damage of any kind: redo-log shows the same, and the next build is as it would be, and has its facts."""
    for seed in range(40):
        builds, randoms = Builds(seed, at(str(seed))), random.Random(seed)
        builds.build()
        before = {path: read(builds.folder, path) for path in os.listdir(os.path.join(builds.folder, CAPTURES)) if path.startswith("log.")}
        text = shown_of_all(builds.folder) if seed < 8 else None
        with open(os.path.join(builds.folder, CAPTURES, "facts"), "r+b") as file:
            data = damage(randoms, file.read())
            file.seek(0)
            file.truncate()
            file.write(data)
        checks.expect(f"damaged facts, {seed}: redo-log", shown_of_all(builds.folder) if seed < 8 else None, text)
        rebuilt, builds.expected = builds.expected, {}
        plain, found = builds.build()
        checks.expect(f"damaged facts, {seed}: outcome", (outcome(found), found.stderr.count(b"redo-log-capture: cannot")), (outcome(plain), 0))
        facts = all_facts(builds.folder)
        wrong = [name for name, wanted in builds.expected.items() if (facts[name]["directory"], facts[name]["commands"]) != wanted]
        checks.expect(f"damaged facts, {seed}: what was built", wrong, [])
        same = [path for path, log in before.items() if read(builds.folder, path) != log]
        checks.expect(f"damaged facts, {seed}: other logs", len(same) <= len(builds.expected) + 1, True)


def shown_of_all(folder):
    """What redo-log shows of all logs, as bytes."""
    done = subprocess.run([PROGRAM, "--dir", os.path.join(folder, CAPTURES), "-r", *numbers(folder)], capture_output=True)
    return done.returncode, done.stdout, done.stderr


CHANGING = "all: a b\na: ; @: $N; $(NOW); exit 3\nb: a ; @: $N; exit 4\nold: ; @: $N; exit 5\n"
FIRST, SECOND = {"a": [": 1; :; exit 3"], "old": [": 1; exit 5"]}, {"a": [": 2; :; exit 3"], "old": [": 1; exit 5"]}


def victim_link(at):
    write(f"{at}.victim", "smith\n")
    os.symlink(f"{at}.victim", f"{at}/facts")


def kept_link(at):
    os.link(f"{at}/facts", f"{at}.victim")


def removing(change):
    return lambda at: (os.remove(f"{at}/facts"), change(at))


def unended(at):
    with open(f"{at}/facts", "ab") as file:
        file.write(b"3 command " + b"x" * 9000)


def largest(at):
    with open(f"{at}/facts", "r+b") as file:
        file.seek((1 << 30) - 1)
        file.write(b"\n")


def changed(checks, at):
    """Somebody replaces the file before a build or during one."""
    lost = {"a": [": 2; :; exit 3"], "old": []}
    rows = {
        "nothing": (lambda at: None, [], SECOND),
        "removed": (lambda at: os.remove(f"{at}/facts"), [], lost),
        "emptied": (lambda at: os.truncate(f"{at}/facts", 0), [], lost),
        "a directory": (removing(lambda at: os.mkdir(f"{at}/facts")), ["Is a directory"], None),
        "a FIFO": (removing(lambda at: os.mkfifo(f"{at}/facts")), [], lost),
        "a link": (removing(victim_link), [], lost),
        "a link to nothing": (removing(lambda at: os.symlink(f"{at}.none", f"{at}/facts")), [], lost),
        "a link to itself": (removing(lambda at: os.symlink("facts", f"{at}/facts")), [], lost),
        "another link": (kept_link, [], SECOND),
        "an unended line": (unended, [], SECOND),
        "without leave": (lambda at: os.chmod(f"{at}/facts", 0), [], None),
        "the largest": (largest, ["File too large"], None),
    }
    for what, (change, reasons, wanted) in rows.items():
        folder = project(at(what), CHANGING)
        place = os.path.realpath(os.path.join(folder, CAPTURES))
        captured(folder, "-k", "N=1", "NOW=:", "a", "old", options=["--quiet"])
        checks.expect(f"{what}, facts before", {name: commands_of(folder, name) for name in FIRST}, FIRST)
        change(place)
        kept = read(os.path.dirname(place), os.path.basename(place) + ".victim", ".")
        status, out, err = captured(folder, "-k", "N=2", "NOW=:", "a", options=["--quiet"], before=["timeout", "60"])
        lines = [line for line in err.splitlines() if "cannot write" in line]
        checks.expect(f"{what}: make", (status, out, lines), (2, b"", [f"redo-log-capture: cannot write {place}/facts: {reason}" for reason in reasons]))
        checks.expect(f"{what}: shown", isinstance(shown(folder, "a", "old"), str), True)
        checks.expect(f"{what}: the other file", read(os.path.dirname(place), os.path.basename(place) + ".victim", "."), kept)
        checks.expect(f"{what}: no other file", os.path.exists(f"{place}.none"), False)
        if wanted:
            checks.expect(f"{what}: facts", {name: commands_of(folder, name) for name in wanted}, wanted)
            checks.expect(f"{what}: a file of its own", (os.path.islink(f"{place}/facts"), os.stat(f"{place}/facts").st_nlink), (False, 1))
        if what == "a directory":
            os.rmdir(f"{place}/facts")
        captured(folder, "-k", "N=3", "NOW=:", "a", options=["--quiet"])
        checks.expect(f"{what}: the next one", commands_of(folder, "a"), [": 3; :; exit 3"])

    for now in ("rm {0}", "rm {0}; mkdir {0}", "rm {0}; mkfifo {0}", "rm {0}; ln -s victim {0}", ": >{0}", "sed -i s/x/y/ {0}", "cp {0} x; mv x {0}"):
        folder = project(at(now.replace("/", "")), CHANGING)
        write(os.path.join(folder, "victim"), "smith\n")
        captured(folder, "-k", "N=1", "NOW=:", "a", "old", options=["--quiet"])
        change = now.format(f"{CAPTURES}/facts")
        status, out, err = captured(folder, "-k", "N=2", f"NOW={change}", "a", "old", options=["--quiet"], before=["timeout", "60"])
        lines = [line for line in err.splitlines() if "cannot" in line]
        checks.expect(f"{now}: make", (status, out, lines, contents_of(folder, "victim")), (2, b"", [], "smith\n"))
        found = all_facts(folder) if os.path.isfile(f"{folder}/{CAPTURES}/facts") else {}
        stale = [text for name in found for _, text in found[name]["commands"] if text.startswith(b": 1")]
        checks.expect(f"{now}: no facts of the earlier log", stale, [])
        if os.path.isdir(f"{folder}/{CAPTURES}/facts"):
            os.rmdir(f"{folder}/{CAPTURES}/facts")
        captured(folder, "-k", "N=3", "NOW=:", "a", options=["--quiet"])
        checks.expect(f"{now}: the next one", commands_of(folder, "a"), [": 3; :; exit 3"])


def contents_of(folder, name):
    with open(os.path.join(folder, name), encoding="utf-8") as file:
        return file.read()


def reassigned(checks, at):
    """Numbers that the index gives to other targets; names that are removed from it and come back."""
    folder = project(at("names"), "all: x y\nx y z: ; @: $@ $N; exit 3\n")
    captured(folder, "-k", "N=1", options=["--quiet"])
    write_names = lambda text: write(os.path.join(folder, CAPTURES, "names"), text)
    checks.expect("names before", numbers(folder), {b"all": 1, b"x": 2, b"y": 3})
    write_names("1 all\n3 x\n2 y\n")
    checks.expect("two numbers swapped", [all_facts(folder)[name] for name in (b"x", b"y")], [UNKNOWN, UNKNOWN])
    captured(folder, "-k", "N=2", "x", options=["--quiet"])
    checks.expect("two numbers swapped, and one made", [commands_of(folder, name) for name in "xy"], [[": x 2; exit 3"], []])
    write_names("1 all\n")
    captured(folder, "-k", "N=3", "z", options=["--quiet"])
    checks.expect("names removed", (sorted(numbers(folder)), commands_of(folder, "z")), ([b"all", b"z"], [": z 3; exit 3"]))
    os.remove(os.path.join(folder, CAPTURES, "names"))
    captured(folder, "-k", "N=4", "y", "z", options=["--quiet"])
    checks.expect("no names", [commands_of(folder, name) for name in "yz"], [[": y 4; exit 3"], [": z 4; exit 3"]])

    folder = project(at("all"), "all: x ; @: $N; exit 3\nx: ; @: $N\n")
    captured(folder, "-k", "N=1", options=["--quiet"])
    checks.expect("a recipe makes `all`", commands_of(folder, "all"), [": 1; exit 3"])
    captured(folder, "-k", "N=2", "x", options=["--quiet"])
    checks.expect("none makes it", all_facts(folder)[b"all"], UNKNOWN)

    folder = project(at("gone"), f"all: x y\nx: ; @: $N; exit 3\ny: x ; @rm -r {CAPTURES}; exit 4\nz: ; @exit 5\n")
    captured(folder, "-k", "N=1", "x", options=["--quiet"])
    captured(folder, "-ki", "x", "y", "z", options=["--quiet"])
    checks.expect("the directory is removed during a build", {name: commands_of(folder, name.decode()) for name in numbers(folder)}, {b"all": [], b"z": ["exit 5"]})


def killed(checks, at):
    """A build that was killed has the facts of what ended, and --finish keeps them."""
    for options in ((), ("--commands",)):
        folder = project(at(f"killed{len(options)}"), "all: a b\na: ; @: $N; exit 3\nb: ; @: $N; $(WAIT)\n")
        captured(folder, "-k", "N=1", "WAIT=exit 4", options=["--quiet"])
        command = [TOOL, *options, "make", "-k", "-j2", "N=2", "WAIT=exec sleep 60"]
        build = subprocess.Popen(command, cwd=folder, env=environment(), stderr=subprocess.DEVNULL, preexec_fn=of_a_terminal)
        wait_until("a has ended", lambda: all_facts(folder)[b"a"]["usage"] and commands_of(folder, "a") == [": 2; exit 3"])
        wait_until("b has begun", lambda: b"@@REDO:do:" in read(folder, f"log.{numbers(folder)[b'b']}") and commands_of(folder, "b") != [": 1; exit 4"])
        if options:
            wait_until("b has its command", lambda: commands_of(folder, "b"))
        os.killpg(build.pid, signal.SIGKILL)
        build.wait()
        wanted = {"a": [": 2; exit 3"], "b": [": 2; exec sleep 60"] * len(options)}
        checks.expect(f"killed, {options}", {name: commands_of(folder, name) for name in wanted}, wanted)
        checks.expect(f"killed, {options}: unknown", all_facts(folder)[b"b"]["usage"], None)
        checks.expect(f"killed, {options}: finished", ran(folder, [TOOL, "--finish"]), (0, "", ""))
        checks.expect(f"killed, {options}: and then", {name: commands_of(folder, name) for name in wanted}, wanted)
        captured(folder, "-k", "N=3", "WAIT=exit 5", options=["--quiet"])
        checks.expect(f"killed, {options}: the next one", [commands_of(folder, name) for name in "ab"], [[": 3; exit 3"], [": 3; exit 5"]])


BREAKING = "all: a t c\na c: ; @echo said $N >&2; exit 3\nt:\n\t@$(MAKE) -k -s -f below.mk\n\t@echo no >&2\n"
BREAKING_BELOW = "all: b d\nb d: ; @echo said $N >&2; exit 4\n"


def at_any_time(checks, at):
    """At each change of a file, a build is killed, or no space is left. No target has facts of an earlier log."""
    library, tool = preloaded("break"), install_capture(at("dynamic"), "STATIC=")
    wanted = {name: [f"echo said 3 >&2; exit {status}"] for name, status in (("a", 3), ("b", 4), ("c", 3), ("d", 4))}

    def build(folder, version, **more):
        words = [tool, "--quiet", "make", "-sk", "-j2", f"N={version}"]
        subprocess.run(words, cwd=folder, env=environment(more), stdout=subprocess.DEVNULL, stderr=subprocess.DEVNULL, start_new_session=True)

    def broken(folder, number, **more):
        """Builds twice, the second time with a break. Returns the number of changes up to it."""
        project(folder, BREAKING)
        write(os.path.join(folder, "below.mk"), BREAKING_BELOW)
        build(folder, 1)
        build(folder, 2, LD_PRELOAD=library, BREAK_AT=str(number), BREAK_COUNT=f"{folder}.count", **more)
        return os.path.getsize(f"{folder}.count")

    count = broken(at("counted"), 1 << 30)
    checks.expect("facts, changes", count > 30, True)
    for what, more in (("killed", {}), ("full", {"BREAK_FULL": "yes"})):
        for number in range(1, count + 1):
            folder, wrong = at(f"{what}{number}"), []
            broken(folder, number, **more)
            for name, facts in all_facts(folder).items():
                log = read(folder, f"log.{numbers(folder)[name]}")
                versions = set(re.findall(rb"^said (\d)", log, re.M)) or {b"2"}
                if {version for _, text in facts["commands"] for version in re.findall(rb"said (\d)", text)} - versions:
                    wrong.append((name, log, facts))
            checks.expect(f"facts, {what} at change {number}", wrong, [])
            build(folder, 3)
            checks.expect(f"facts, {what} at change {number}: the next one", {name: commands_of(folder, name) for name in wanted}, wanted)
            shutil.rmtree(folder)


PARTS = (examples, recorded, usages, of_two_makes, random_builds, damaged, changed, reassigned, killed, at_any_time)
