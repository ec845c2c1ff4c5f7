"""Failures that make ignores: a recipe whose last line fails has succeeded if make says so. The wanted statuses are what a make without a
capture prints about the same makefile. MAKE44 names another make."""
import os
import re
import shutil
import signal
import subprocess
import time

import faults
from builds import TOOL, failed, log_of, of_a_terminal, printed_by, project, ran, said, wait_for, wait_until, wait_until_recorded, write
from checks import CAPTURES, contents, environment
from faithful import summary_of

MESSAGE = re.compile(r"^[^\n]*?: \*\*\* \[[^\n]*: (\w[\w.]*)\] (?:Error (\d+)|(\w+))", re.M)
SIGNALS = {"Killed": 128 + signal.SIGKILL, "Terminated": 128 + signal.SIGTERM}
PROBE = "probe: ; @exit 9\n"
OTHER = "other.mk"
ODD_MAKE = "a make whose name looks like a message"

# What a makefile has, the words of the command line, and the targets that have a recipe.
BUILDS = {
    "-": ("all: clean x ; @true\nclean: ; -@exit 3\nx: ; -@exit 4\n", "", "all clean x"),
    "lines that can't be started": ("all: a b c d\na: ; -@./nosuch\nb:\n\t@true\n\t-@./nosuch\nc:\n\t-@./nosuch\n\t-@./nosuch\nd:\n\t-@./nosuch\n\t@./nosuch\n", "-k", "a b c d"),
    "a command that can't be executed": ("all: a b\na: ; -@./Makefile\nb: ; @./Makefile\n", "-k", "a b"),
    "commands whose names look like messages": ("all: a b c\na: ; @'[x] y' z\nb: ; -@'[x] y' z\nc: ; @'*** [x] y' z\n", "-k", "a b c"),
    "a shell whose name looks like a message": ("SHELL = [x\nall: a b\na: ; @true\nb: ; -@true\n", "-k", "a b"),
    ODD_MAKE: ("all: a b\na: ; @exit 3\nb: ; -@exit 3\n", "-k", "a b"),
    "lines before the last one": ("all: a b c\na:\n\t-@exit 3\n\t@exit 4\nb:\n\t-@exit 3\n\t-@exit 4\nc:\n\t-@exit 3\n\t@true\n", "-k", "a b c"),
    "some fail, and some are ignored": ("all: a b c\na: ; @exit 3\nb: ; -@exit 4\nc: ; @exit 5\n", "-k", "a b c"),
    "several at a time": ("all: a b c d\na d: ; -@exit 3\nb c: ; @exit 5\n", "-kj3", "a b c d"),
    "-O": ("all: a b c d\na d: ; -@echo $@; exit 3\nb c: ; @exit 5\n", "-kj3 -O", "a b c d"),
    "-Oline": ("all: a b c d\na d: ; -@echo $@; exit 3\nb c: ; @exit 5\n", "-kj3 -Oline", "a b c d"),
    "-Orecurse": ("all: a b c d\na d: ; -@echo $@; exit 3\nb c: ; @exit 5\n", "-kj3 -Orecurse", "a b c d"),
    "-O, and a line that can't be started": ("all: a b\na: ; -@./nosuch\nb: ; @./nosuch\n", "-kj2 -O", "a b"),
    "-i": ("all: a b ; @exit 3\na: ; @exit 4\nb: ; @./nosuch\n", "-i", "all a b"),
    ".IGNORE": (".IGNORE: a\nall: a b\na b: ; @exit 3\n", "-k", "a b"),
    ".ONESHELL": (".ONESHELL:\nall: a b\na:\n\t-@exit 3\n\ttrue\nb:\n\t@exit 4\n\t-true\n", "-k", "a b"),
    ".DELETE_ON_ERROR": (".DELETE_ON_ERROR:\nall: a b\na: ; @touch $@; exit 3\nb: ; -@touch $@; exit 3\n", "-kB", "a b"),
    "signals": ("all: a b c\na: ; -@kill -9 $$$$\nb: ; @kill -9 $$$$\nc: ; -@kill $$$$\n", "-k", "a b c"),
    "-w and --trace": ("all: a b\na: ; -@exit 3\nb: ; @exit 3\n", "-kw --trace", "a b"),
    "double-colon rules": (
        "all: a b c d\na:: ; -@exit 3\na:: ; @true\nb:: ; @true\nb:: ; -@exit 4\nc:: ; @exit 5\nc:: ; -@exit 6\nd:: ; -@exit 5\nd:: ; @exit 6\n", "-k", "a b c d"
    ),
    "targets made together": ("all: a.x a.y\na.x b.x: %.x: ; -@exit 3\na.y c.y &: ; -@exit 4\n", "", "a.x a.y"),
    "a sub-make whose failure is ignored": (f"all: a b\na: ; -@$(MAKE) -f {OTHER} probe\nb: ; @$(MAKE) -f {OTHER} probe\n", "-k", "a b probe"),
    "a sub-make whose lines are ignored": (f"all: a\na: ; @$(MAKE) -f {OTHER} quiet\n", "", "a quiet"),
    "sub-makes that can't be started": ("all: a\na: ; -@$(MAKE) -f nosuch.mk\n", "", "a"),
    "a prerequisite": ("all: a ; @true\na: ; -@exit 3\n", "-j2", "all a"),
    "$(shell)": ("all: a b\na: ; -@exit $(shell echo 3; exit 5)\nb: ; @exit $(shell echo 3; exit 5)\n", "-k", "a b"),
    "$(shell) beside a line that can't be started": ("all: a b\na:\n\t@true\n\t@./nosuch\nb: ; @exit $(shell sleep .3; exit 3)\n", "-kj2", "a b"),
    "output that looks like messages": (
        "SAYS = for f in 1 2; do echo 'make: [Makefile:2: a] Error 3 (ignored)' >&$$f; done\nall: a b\na: ; @$(SAYS); exit 3\nb: ; -@$(SAYS); exit 4\n", "-k", "a b"
    ),
    "output that looks like messages, with -O": (
        "SAYS = for f in 1 2; do echo 'make: [Makefile:2: a] Error 3 (ignored)' >&$$f; done\nall: a b\na: ; @$(SAYS); exit 3\nb: ; -@$(SAYS); exit 4\n", "-kj2 -O", "a b"
    ),
    "lines of make that look like messages": (
        "all: a b c\na: ; @exit 3\nb: ; @true $(info make: [Makefile:2: a] Error 3 (ignored))\nc: ; -@exit 4 $(info make: *** [Makefile:4: c] Error 4)\n", "-k", "a b c"
    ),
}  # fmt: skip
SECOND = PROBE + "quiet: ; -@exit 4\n"
# Languages in which make prints its messages, if it has the translations.
LANGUAGES = ("", "de", "fr", "ja", "zh_CN")


def makes():
    """make, and the make that MAKE44 names if it is another one."""
    return dict.fromkeys(("make", os.environ.get("MAKE44", "make")))


def wanted_statuses(err, names):
    """The status of each target: that of its last failure that make doesn't ignore, as make's messages have it, or 0."""
    statuses = dict.fromkeys(names.split(), "0")
    for name, status, kind in MESSAGE.findall(err):
        statuses[name] = status or str(SIGNALS[kind])
    return statuses


def recorded_statuses(folder, at=CAPTURES):
    """The statuses that `done` records have, by target: of its own log, and of others."""
    own, others = {}, {}
    with open(os.path.join(folder, at, "names"), encoding="utf-8") as names:
        logs = [line.rstrip("\n").lstrip("!").split(" ", 1) for line in names]
    for number, name in logs:
        with open(os.path.join(folder, at, f"log.{number}"), encoding="utf-8") as log:
            for status, target in re.findall(r"^@@REDO:done:\d+:[\d.]+@@ (\d+) (.+)$", log.read(), re.M):
                (own if target == name else others).setdefault(target, set()).add(status)
    return own, others


def last_lines(checks, at):
    """A recipe whose last line fails has succeeded if make ignores that: in the summary, in its log, and in all other logs."""
    for number, make in enumerate(makes()):
        for what, (makefile, words, names) in BUILDS.items():
            folder = project(at(f"{number} {what}"), makefile)
            write(os.path.join(folder, OTHER), SECOND)
            program = make
            if what == ODD_MAKE:
                program = os.path.join(folder, "a: [b: c] ")
                os.symlink(shutil.which(make), program)
            status, _, err = ran(folder, [program, *words.split()])
            wanted = wanted_statuses(err, names)
            for option in ([], ["--quiet"]):
                found = ran(folder, [TOOL, "--summary", "summary", *option, program, *words.split()])[0], summary_of(folder)
                checks.expect(f"{make}: {what}, {option}", found, (status, wanted))
                own, others = recorded_statuses(folder)
                own.pop("all", None)  # it may have the status of the run
                checks.expect(f"{make}: {what}, {option}: the logs", own, {name: {wanted[name]} for name in wanted if name != "all"})
                checks.expect(f"{make}: {what}, {option}: other logs", {name for name in others if others[name] != {wanted[name]}}, set())


def silent_builds(checks, at):
    """With -s, make prints nothing about a failure that it ignores. The statuses are those of the same build without -s."""
    for number, make in enumerate(makes()):
        for what, (makefile, words, names) in BUILDS.items():
            for how, program, front in (("-s", [make, "-s"], ""), (".SILENT", [make], ".SILENT:\n")):
                folder = project(at(f"{number} {what} {how}"), makefile)
                write(os.path.join(folder, OTHER), SECOND)
                status, _, err = ran(folder, [make, *words.split()])
                if re.search(r"Error 12[67] \(ignored\)", err):
                    continue  # a command that make can't start
                write(os.path.join(folder, "Makefile"), front + makefile)
                found = ran(folder, [TOOL, "--summary", "summary", *program, *words.split()])[0], summary_of(folder)
                checks.expect(f"{make}: {what}, {how}", found, (status, wanted_statuses(err, names)))
    makefile, made = "all: a b c\na c: ; -@exit 3\nb: ; @exit 4\n", "redo-log-capture: 1 target failed: redo-log b"
    told = ran(project(at("named"), makefile), [TOOL, "make", "-sk"])[2]
    checks.expect("a silent build names what it doesn't ignore", [line for line in told.splitlines() if " failed: " in line], [made])


def languages(checks, at):
    """make translates its messages, except for the mark of a failure that counts. Without standard error, it prints none."""
    folder = project(at("languages"), "all: a b\na: ; -@exit 3\nb: ; @exit 4\n")
    for language in LANGUAGES:
        variables = {"LANG": "C.UTF-8", "LC_ALL": "C.UTF-8", "LANGUAGE": language}
        ran(folder, [TOOL, "--summary", "summary", "make", "-k"], variables)
        checks.expect(f"make's messages in the language {language}", summary_of(folder), {"a": "0", "b": "4"})
    for where in ("2>/dev/null", "2>&-", "2>&1", ">&- 2>&-"):
        for words in ("-k", "-kj2 -O"):
            ran(folder, [TOOL, "--summary", "summary", "sh", "-c", f"make {words} {where}"])
            checks.expect(f"make {words} {where}", summary_of(folder), {"a": "0", "b": "4"})


WAIT = "for i in $$(seq 2000); do [ ! -e %s ] || break; sleep 0.01; done"
# Builds in which make prints nothing about a failure, and something else looks like its message.
UNKNOWN = {
    "-s, and -include": ("-include a\nall: b\na: ; @exit 3\nb: ; @true\n", "-s", {"a": "3", "b": "0"}),
    "-s, and - in the recipe of a makefile": ("-include a\nall: b\na: ; -@exit 3\nb: ; @true\n", "-s", {"a": "3", "b": "0"}),
    "-s, and a line for a makefile that ends later": (
        f"-include a\nall: b\na: p q ; @touch a\np: ; @exit 3\nq: ; @{WAIT % 'begun'}; touch ended; exit 5\nb: ; @touch begun; {WAIT % 'ended'}\n",
        "-sj3", {"b": "0", "p": "3", "q": "5"},
    ),
    "-s, and a line that can't be started": ("all: a b\na: ; -@./nosuch\nb: ; @true\n", "-s", {"a": "127", "b": "0"}),
    "-include": ("-include a\nall: b\na: ; @exit 3\nb: ; @true $(info make: [Makefile:3: a] Error 3 (ignored))\n", "", {"a": "3", "b": "0"}),
    "-include, and -O": ("-include a\nall: b\na: ; @exit 3\nb: ; @true $(info make: [Makefile:3: a] Error 3 (ignored))\n", "-j2 -O", {"a": "3", "b": "0"}),
    "-include, -O and a line that can't be started": (
        "-include a\nall: b\na: ; @./nosuch\nb: ; @true $(info make: [Makefile:3: a] Error 127 (ignored))\n", "-j2 -O", {"a": "127", "b": "0"}
    ),
    "-include, and a message about another failure": ("-include a\nall: b\na: ; @exit 3\nb: ; -@exit 4\n", "", {"a": "3", "b": "0"}),
    "-include of a file that must be deleted": (".DELETE_ON_ERROR:\n-include a\nall: b\na: ; @touch $@; exit 3\nb: ; -@exit 4\n", "", {"a": "3", "b": "0"}),
}


def unknown_failures(checks, at):
    """A failure about which make prints nothing counts."""
    for number, make in enumerate(makes()):
        for what, (makefile, words, wanted) in UNKNOWN.items():
            folder = project(at(f"{number} {what}"), makefile)
            status = ran(folder, [TOOL, "--summary", "summary", make, *words.split()])[0]
            checks.expect(f"{make}: no message: {what}", (status, summary_of(folder)), (0, wanted))


def killed_builds(checks, at):
    """What is known when redo-log-capture is killed is in the logs after --finish. An interrupted recipe didn't succeed."""
    makefile = "all: one b last\none: ; @$(MAKE) -f other.mk a\nb: ; @exit 4\nlast: one ; -@touch begun; sleep 600\n"
    for kind, target, wanted in ((signal.SIGKILL, None, None), (signal.SIGTERM, "last", "143")):
        folder = project(at(kind.name), makefile)
        write(os.path.join(folder, OTHER), "a: ; -@exit 3\n")
        words = [TOOL, "--summary", "summary", "make", "-k"]
        build = subprocess.Popen(words, cwd=folder, env=environment(), stdout=subprocess.DEVNULL, stderr=subprocess.PIPE, text=True, preexec_fn=of_a_terminal)
        wait_for(os.path.join(folder, "begun"))
        wait_until_recorded(build, "the last recipe has begun", lambda folder=folder: "@@REDO:do" in log_of(folder, "last"))
        os.killpg(build.pid, kind)
        told = build.communicate()[1]
        if kind == signal.SIGKILL:
            checks.expect("a killed build is finished", ran(folder, [TOOL, "--finish"]), (0, "", ""))
        own, others = recorded_statuses(folder)
        checks.expect(f"{kind.name}: the logs", [own.get(name) for name in ("a", "one", "b")], [{"0"}, {"0"}, {"4"}])
        checks.expect(f"{kind.name}: other logs", [others.get(name) for name in ("a", "one", "b")], [{"0"}, {"0"}, {"4"}])
        checks.expect(f"{kind.name}: the recipe that ran", own.get("last"), wanted and {wanted})
        if target:
            checks.expect(f"{kind.name}: its name", f"interrupted by SIGTERM; running: {target} (" in told, True)


def printed_texts(checks, at):
    """The block of a failure that is ignored has all that was printed, and the last lines name the target only if it prints more."""
    first = "all:\n\t@echo first >&2\n\t-@exit 3\n"
    text = said("all", 3, "exit 3", "first\n") + "make: [Makefile:3: all] Error 3 (ignored)\n"
    checks.expect("what a recipe printed before its last line", ran(project(at("last"), first), [TOOL, "make"]), (0, "", text))
    text += f"redo-log-capture: {printed_by('all')[0]}\n"
    folder = project(at("later"), first + "\t@echo second >&2\n")
    checks.expect("what a recipe printed after a line that failed", ran(folder, [TOOL, "make"]), (0, "", text))
    # `b` fails in a sub-make that doesn't succeed, and its make ignores that.
    makefile = "all: ; @$(MAKE) sub || exit 3\nsub: b c\nb: ; -@exit 4\nc: ; @echo c >&2; exit 5\n"
    told = ran(project(at("cause"), makefile), [TOOL, "make"])[2]
    checks.expect("the last line of another recipe", told.splitlines()[-2:], failed("c").splitlines())
    # A sub-make is killed, and the make that runs it ignores that.
    makefile = "all: a b\na: ; -@$(MAKE) --no-print-directory c\nb: ; @exit 5\nc: ; @echo c >&2; kill $$PPID; exec sleep 60\n"
    told = ran(project(at("killed"), makefile), [TOOL, "make", "-k"])[2]
    checks.expect("a sub-make that is killed", told.splitlines()[-3:], failed("b", is_empty=True).splitlines())


class Messages(faults.Liar):
    """Makes that send messages, and wait until redo-log-capture has read them."""

    def start(self, make, number, names, process):
        """Begins a recipe and its line."""
        there, end = os.pipe()
        self.send(make[1], faults.recipe(number, names))
        self.send(make[0], faults.line(number, time=int(time.time() * 1000)), there)
        self.answer(make[0])
        self.send(make[1], faults.started(process))
        os.close(there)
        os.close(end)

    def begin_line(self, names, process):
        make = self.make()
        self.start(make, 1, names, process)
        return make

    def end_line(self, make, process, status):
        self.send(make[0], faults.gone(process, status << 8, asks=1))
        self.answer(make[0])

    def ignore(self, make):
        self.send(make[1], faults.ignored())
        self.end_line(make, 9999, 0)  # which is no line


def messages(checks, at):
    """A make ignores the failure of the child that ended last. The status changes only if no line has begun or ended since."""
    build = Messages(at("status"), TOOL)
    one, other = (build.begin_line(b"x\0", process) for process in (71, 72))
    build.end_line(one, 71, 3)
    build.end_line(other, 72, 5)
    build.ignore(one)
    child = build.begin_line(b"y\0", 73)
    build.end_line(child, 73, 3)
    build.end_line(child, 99, 4)
    build.ignore(child)
    again = build.begin_line(b"z\0", 74)
    build.end_line(again, 74, 3)
    build.ignore(again)
    build.ignore(again)
    # `u` mentions `d` before the second double-colon rule of `d` fails.
    names = []
    for name in ("kept", "ignored"):
        top = build.begin_line(name.encode() + b"\0", 80)
        sub = build.make(parent=(top[2], 1))
        build.start(sub, 1, f"{name}.d\0".encode(), 81)
        build.end_line(sub, 81, 0)
        build.start(sub, 2, f"{name}.u\0{name}.d".encode(), 82)
        build.start(sub, 3, f"{name}.d\0".encode(), 83)
        build.end_line(sub, 83, 4)
        if name == "ignored":
            build.ignore(sub)
        build.end_line(sub, 82, 0)
        build.end_line(top, 80, 0)
    build.end()
    statuses = summary_of(build.folder)
    checks.expect("messages: statuses", [statuses.get(name) for name in ("x", "y", "z", "kept.d", "ignored.d")], ["5", "3", "0", "4", "0"])
    for name in ("kept", "ignored"):
        names.append(re.findall(r"^@@REDO:do:.*@@ \w+\.(\w)$", log_of(build.folder, name), re.M))
    checks.expect("messages: what the log of a recipe that runs a sub-make mentions", names, [["d", "u"], ["u"]])

    # The captures are removed before the message arrives, and another make has begun the target again.
    build = Messages(at("removed"), TOOL)
    one = build.begin_line(b"x\0", 71)
    build.end_line(one, 71, 3)
    shutil.rmtree(os.path.join(build.folder, CAPTURES))
    other = build.begin_line(b"x\0", 72)
    build.end_line(other, 72, 5)
    build.ignore(one)
    build.begin_line(b"y\0", 73)
    journal = os.path.join(build.folder, CAPTURES, ".capture/run")
    wait_until("all is written, up to y", lambda: contents(journal).count("\nstart ") == 2)
    build.server.kill()
    build.end()
    checks.expect("messages: captures that were removed", ran(build.folder, [TOOL, "--finish"]), (0, "", ""))
    checks.expect("messages: captures that were removed: statuses", recorded_statuses(build.folder), ({"x": {"5"}}, {"x": {"5"}}))


# Makefiles in which `$(shell)` runs makes where `probe` fails, and which then fail, and the targets that are named.
SHELL_FUNCTIONS = {
    "a recipe": ("all: ; @echo $(shell $(MAKE) -sf other.mk probe); exit 3\n", ["all"]),
    "a recipe, and a recipe there": ("all: ; @echo $(shell $(MAKE) -sf other.mk mid); exit 3\n", ["all"]),
    "a make that a recipe runs": ("all: ; @$(MAKE) -sf below.mk\n", ["x"]),
    "a recipe after it": ("all: a b\na: ; @echo $(shell $(MAKE) -sf other.mk probe); true\nb: ; @$(MAKE) -sf other.mk probe\n", ["probe"]),
    "a command of --recipe": (f"all: ; @echo $(shell CAPTURE='probe : ' {TOOL} --recipe sh -c 'exit 9'); exit 3\n", ["all"]),
    "a makefile": ("X := $(shell $(MAKE) -sf other.mk probe)\nall: ; @exit 3\n", ["all"]),
    "a sub-make that can't go on": ("all: ; @$(MAKE) -sf error.mk\n", ["all"]),
    "a makefile that is read twice": ("include made.mk\nX := $(shell $(MAKE) -sf other.mk probe)\nall: ; @exit 3\nmade.mk: ; @touch $@\n", ["all"]),
    "a makefile that is read twice, and what fails then": ("include made.mk\nall: ; @$(MAKE) -sf other.mk probe\nmade.mk: ; @touch $@\n", ["probe"]),
}
BELOW = "X = $(shell $(MAKE) -sf other.mk probe)\nx: ; @echo $(X); exit 3\n"


def shell_functions(checks, at):
    """The last lines name nothing that failed in makes of $(shell). The logs have its status."""
    for number, make in enumerate(makes()):
        for what, (makefile, names) in SHELL_FUNCTIONS.items():
            folder = project(at(f"{number} {what}"), makefile)
            write(os.path.join(folder, OTHER), PROBE + "mid: ; @$(MAKE) -sf other.mk probe\n")
            write(os.path.join(folder, "below.mk"), BELOW)
            write(os.path.join(folder, "error.mk"), "X := $(shell $(MAKE) -sf other.mk probe)\n$(error no)\n")
            status, _, told = ran(folder, [TOOL, "--summary", "summary", make, "-s"])
            found = re.search(r"^redo-log-capture: \d+ targets? failed: redo-log (.*)$", told, re.M)
            checks.expect(f"{make}: $(shell): {what}", (status, found and found[1].split()), (2, names))
            checks.expect(f"{make}: $(shell): {what}: blocks", [name for name in names if f"redo-log-capture: {name} (exit" not in told], [])
            checks.expect(f"{make}: $(shell): {what}: its status", summary_of(folder).get("probe"), "9")
            checks.expect(f"{make}: $(shell): {what}: a recipe that failed only because its sub-make did", "redo-log-capture: mid (exit" in told, False)
        folder = project(at(f"{number} colons"), "X = $(shell $(MAKE) -skf other.mk d)\nall: ; @echo $(X); true\n")
        write(os.path.join(folder, OTHER), "d:: ; @exit 4\nd:: ; @true\n")
        status = ran(folder, [TOOL, "--summary", "summary", make, "-s"])[0]
        checks.expect(f"{make}: $(shell): double-colon rules", (status, summary_of(folder)), (0, {"all": "0", "d": "4"}))


PARTS = (last_lines, silent_builds, languages, unknown_failures, killed_builds, printed_texts, messages, shell_functions)
