#!/usr/bin/env -S python3 -B
"""Random builds, each by plain make and by a captured make. Usage: random_builds.py SEED..

For each seed, a makefile with sub-makes, failures, redirections and other features is written twice, at the same path. The builds
must have the same status, files and output. Every printed line is unique (`[TARGET ~NUMBER]`), so that a lost, doubled or invented
line is found, and a line in the log of another target. The statuses of the summary are compared with what make itself says. With
seeds as arguments (also FIRST-END), each build stays in a directory of /tmp, with what it printed. RANDOM_MAKE names another make.
"""
import itertools
import multiprocessing
import os
import random
import re
import resource
import shlex
import shutil
import signal
import subprocess
import sys
import tempfile
import time
from collections import Counter

sys.path.insert(0, os.path.dirname(os.path.dirname(os.path.abspath(__file__))))
from builds import PREFIX, TOOL  # noqa: E402
from checks import CAPTURES, PROGRAM, environment, install_capture  # noqa: E402

MOST_SECONDS = 300  # for one build
FIXED = 300
DAILY = 300
# The seeds, of each 100,000, whose builds may be captured with --colour; and how many of them are tried, fixed ones and daily ones.
COLOURED = range(50000, 100000)
FIXED_COLOURED = DAILY_COLOURED = 60
# The end of text that has no line feed. Such text and what another process prints next are one line, or two.
UNENDED = "<unended>"
# make writes the text of $(info) and the line feed after it in two parts, so another process may print between them.
INFO = "<info>"
# What a script puts before each line of some makes.
BEFORE_LINE = r"\[[^\[\]~]+ ~\d+\]"
SIGNALS = ("KILL", "TERM", "SEGV", "ABRT", "PIPE", "HUP", "USR1")
STATUSES = (1, 2, 3, 77, 126, 127, 130, 255)

# ---- Makefiles at random ---------------------------------------------------------------------------------------------


class Line:
    """A line of a recipe. `kind` is "missing" if make or a shell can't start its command, "make" if it runs a sub-make."""

    def __init__(self, text, kind=""):
        self.text, self.kind = text, kind


class Make:
    """A makefile and the make that reads it. `parent` is the target whose recipe runs this make."""

    def __init__(self, directory, file, parent):
        self.directory, self.file, self.parent = directory, file, parent
        self.depth = 0 if parent is None else parent.make.depth + 1
        # Whether its output leads to a pipe, and whether it may be in the logs of other targets, or in none.
        self.is_piped = self.is_elsewhere = False
        # Whether it tolerates all failures, and whether it says nothing about failures that it tolerates.
        self.ignores = self.is_silent = False
        self.is_out_lost = self.is_err_lost = False  # whether standard output, and standard error, lead to /dev/null
        self.is_redirected = False  # standard error, so that nothing about its recipes is printed
        if parent:
            above = parent.make
            self.is_piped, self.is_elsewhere = above.is_piped, above.is_elsewhere
            self.ignores, self.is_silent = above.ignores, above.is_silent
            self.is_out_lost, self.is_err_lost = above.is_out_lost, above.is_err_lost
            self.is_redirected = above.is_redirected
        self.is_one_shell = self.has_shell = self.has_shared = False
        self.head, self.rules = [], []
        self.line = None  # of the parent's recipe

    def name(self, local):
        return self.directory + local

    @property
    def owner(self):
        """The target to whose log this make's own output belongs."""
        return self.parent.name if self.parent else "-"


class Rule:
    """A rule with a recipe. `locals` are the targets that it makes, each with a recipe of its own unless `is_group`."""

    def __init__(self, make, names, separator=":"):
        self.make, self.locals, self.separator = make, names, separator
        self.pattern, self.needs, self.order_only, self.lines, self.settings = None, [], [], [], []
        self.is_inline = self.is_group = False

    @property
    def name(self):
        return self.make.name(self.locals[0])


class Build:
    """A build: files, a command, and options of redo-log-capture. The result of a plain build must not depend on time. Where recipes run in
    parallel, a failure therefore stops the build only with `is_determined` unset; then less is compared."""

    def __init__(self, seed):
        self.rng = random.Random(seed)
        self.count, self.late, self.files, self.makes, self.rules_by_place = 0, 0, {}, [], {}
        self.executables = set()
        self.shared = set()  # targets that two makes make
        self.patterns = set()  # targets that a pattern rule makes
        self.repeated = set()  # tokens that are printed several times
        rng = self.rng
        self.jobs = rng.choice((1, 1, 2, 3, 4, 8))
        self.keeps_going, self.ignores = rng.random() < 0.55, rng.random() < 0.12
        self.is_determined = self.keeps_going or self.ignores or self.jobs == 1
        self.may_fail = self.is_determined or rng.random() < 0.25
        self.is_determined |= not self.may_fail
        self.is_silent, self.has_second = rng.random() < 0.12, rng.random() < 0.2
        self.sync = rng.choice(("", "", "", "", "", "-O", "-Oline", "-Otarget", "-Orecurse", "-Onone"))
        self.is_synced = self.sync not in ("", "-Onone")
        # Shells and cat write their messages in parts, so there are messages only if nobody else prints at that time.
        self.is_alone = self.jobs == 1 and not self.has_second and not self.keeps_going and rng.random() < 0.5
        self.says_all = self.is_synced or self.is_alone
        top = self.add_make("", rng.choice(("Makefile", "Makefile", "makefile", "GNUmakefile")), None)
        seconds = []
        if self.has_second:
            seconds.append(self.add_make("", "second.mk", None, has_shared=rng.random() < 0.6))
            top.has_shared = seconds[0].has_shared
        if top.has_shared:
            self.add_shared(top, seconds[0])
        self.command = self.script(top, seconds)
        self.options = self.choose_options()
        if seed % 100000 in COLOURED:
            self.options += rng.choice(("", "--colour=always", "--colour=always", "--color=always")).split()
        for make in self.makes:
            self.files[make.directory + make.file] = self.text_of(make)

    # -- words --

    def token(self, owner):
        self.count += 1
        return f"[{owner} ~{self.count}]"

    def repeated_token(self, owner):
        """A token that may be printed several times, such as what make itself expands."""
        token = self.token(owner)
        self.repeated.add(token)
        return token

    def file(self, make, kind, content, is_executable=False):
        self.count += 1
        name = f"{kind}{self.count}"
        self.files[make.directory + name] = content
        if is_executable:
            self.executables.add(make.directory + name)
        return name

    def log_name(self, make):
        self.count += 1
        return f"out{self.count}.txt"

    # -- lines of recipes --

    def saying(self, make, owner, to=None):
        """A command that prints one or two lines."""
        rng, token = self.rng, lambda: self.token(owner)
        to = rng.choice((" >&2", " >&2", " >&2", "")) if to is None else to
        kind = rng.random()
        if kind < 0.4:
            return f"echo '{token()}'{to}"
        if kind < 0.5:
            return f"echo '{token()}'; echo '{token()}' >&2"
        if kind < 0.58:
            return f"printf '%s\\n' '{token()}' '  {token()}'{to}"
        # sed or cat would join such text with any line that follows.
        if kind < 0.68 and not make.is_piped:
            return f"printf '%s<unended%s' '{token()}' '>'{to}"
        if kind < 0.78:
            record = rng.choice(("@@REDO:done:1:1@@ 0 {0}", "@@REDO:{0}", "@@REDO:note:1:1@@ {0}", "@@REDO:do:1:1.5@@ {0}", "@@REDO:done:7:1@@ 3 {1}"))
            return f"echo '{record.format(token(), owner.rsplit('/', 1)[-1])}'{to}"
        if "$" not in owner and kind < 0.88:
            # Long text that goes through a pipe may be written in parts, between which others write.
            # Another make may print a message within a line of more than 65,536 bytes, in a block or without a capture.
            size = rng.choice((300, 3000, 70000) if self.is_alone else (50, 300) if make.is_piped or self.is_synced else (300, 3000))
            return f"cat {self.file(make, 'long', token() + ' ' + 'x' * size + rng.choice((chr(10), chr(10) if make.is_piped else UNENDED)))}{to}"
        if "$" not in owner:
            script = self.file(make, "script", rng.choice(("#!/bin/sh\n", "")) + f"echo '{token()}'{to}\n", is_executable=True)
            return rng.choice((f"./{script}", f"./{script} 'a' b", f"./{script}; :"))
        return f"echo '{token()}' x  'y z'{to}"

    def plain_line(self, make, owner):
        rng = self.rng
        kind = rng.random()
        if kind < 0.75:
            text = self.saying(make, owner)
        elif kind < 0.80:
            text = rng.choice(("true", "cat", "# nothing", "sleep 0.01", f"$(info {self.repeated_token(make.owner)}{INFO})true"))
        elif kind < 0.84:
            text = f"$(warning {self.repeated_token(make.owner)})" + self.saying(make, owner)
        elif kind < 0.88:
            text = f"true $(shell echo '{self.repeated_token(make.owner)}' >&2)"
        elif kind < 0.92:
            self.count += 1
            text = f"echo '{self.token(owner)}' \\\n\t  'and {self.count}'  >&2"
        elif "$" in owner or self.says_all:
            text = f"(echo '{self.token(owner)}'; echo '{self.token(owner)}') | cat >&2"
        else:
            # A process that is left behind. The script of the build waits until it has printed.
            self.late += 1
            up, to = "../" * make.directory.count("/"), rng.choice((" >/dev/null", ""))
            wait = rng.choice(("", "sleep 0.02; ", "sleep 0.1; "))
            text = f"echo >{up}begun{self.late}; {{ {wait}echo '{self.token(owner)} late' >&2; echo >{up}late{self.late}; }}{to} & echo '{self.token(owner)}' >&2"
        return Line(self.prefixed(text))

    def prefixed(self, text, others=("-", "+", "@-", "+@")):
        rng = self.rng
        return rng.choice(("@",) * 6 + ("",) + (others if rng.random() < 0.3 else ("@",))) + text

    def failing_line(self, make, owner):
        rng, unsaid = self.rng, "" if self.says_all else " 2>/dev/null"
        kind = rng.random()
        if kind < 0.5:
            return Line(self.prefixed(f"{self.saying(make, owner, ' >&2')}; exit {rng.choice(STATUSES)}"))
        if kind < 0.6:
            # cat would write its message in parts, between which another process may print.
            fails = self.file(make, "fails", "echo 'fails: no such file' >&2; exit 1\n")
            return Line(self.prefixed(rng.choice(("false", "exit 3", "test a = b", f"sh {fails}{unsaid}"))))
        if kind < 0.85:
            plain = self.file(make, "plain", "echo no\n")
            words = (f"nosuchcommand 'a'{unsaid}; exit 127", f": && nosuchcommand{unsaid}")
            if self.says_all or not make.has_shell:
                words += ("nosuchcommand x", "nosuchcommand", f"./{plain}", f"./{plain} a b", "nosuch/dir/command") * 2
            return Line(self.prefixed(rng.choice(words)), "missing")
        return Line(self.prefixed(f"{self.saying(make, owner, ' >&2')}; kill -{rng.choice(SIGNALS)} $$$$"))

    def make_line(self, rule):
        """A line that runs a sub-make."""
        rng, parent = self.rng, rule.make
        number = len(self.makes)
        is_here = rng.random() < 0.3
        directory = parent.directory if is_here else f"{parent.directory}d{number}/"
        # The lines of the sub-make's targets depend on where its output goes.
        sub = Make(directory, f"m{number}.mk", rule)
        owner, kind, log = rule.name, rng.random(), self.log_name(parent)
        to = ""
        if kind > 0.6:
            prefix = self.repeated_token(owner)
            # Whether the output is piped, whether it may be in the logs of other targets, and where standard output and error lead.
            out, err, is_lost, file = parent.is_out_lost, parent.is_err_lost, True, False
            ways = {
                f" 2>{log}": (False, False, out, file), f" >{log} 2>&1": (False, False, file, file), " >/dev/null": (False, False, is_lost, err),
                " 2>/dev/null": (False, False, out, is_lost), " >/dev/null 2>&1": (False, False, is_lost, is_lost), " >&2": (False, True, err, err),
                " 2>&1": (False, True, out, out), f" 2>&1 | cat >{log}": (True, False, file, file),
                f" 2>&1 | sed 's|^|{prefix} |'": (True, False, out, out), f" 2>&1 | sed 's|^|{prefix} |' >&2": (True, False, err, err),
            }  # fmt: skip
            to = rng.choice(list(ways))
            is_piped, is_elsewhere, sub.is_out_lost, sub.is_err_lost = ways[to]
            sub.is_piped, sub.is_elsewhere = parent.is_piped or is_piped, parent.is_elsewhere or is_elsewhere
        flags = rng.choice(("", "", "", "-s", "-k", "--no-print-directory", "-w"))
        if self.keeps_going and rng.random() < 0.15:
            flags += rng.choice((" -j2", " -j3", " -i"))
        sub.is_silent |= "-s" in flags
        sub.is_redirected |= "2>" in to
        sub.ignores |= "-i" in flags
        goal = rng.choice(("", "all"))
        if is_here:
            text = f"$(MAKE) {flags} -f {sub.file} {goal}{to}"
        else:
            local = f"d{number}"
            text = rng.choice((f"$(MAKE) {flags} -C {local} -f {sub.file} {goal}{to}", f"cd {local} && $(MAKE) {flags} -f {sub.file} {goal}{to}"))
            # In one shell, the lines after it run in the same directory.
            if text.startswith("cd") and (log in to or parent.is_one_shell):
                text = f"(cd {local} && $(MAKE) {flags} -f {sub.file} {goal}){to}"
        more = rng.choice(("",) * 5 + (" || true", " || exit 3", f"; echo '{self.token(owner)} after' >&2", f" && {self.saying(parent, owner)}"))
        text = f"({text}){more}" if text.startswith("cd") and more.startswith(" &&") else text + more
        self.add_make(directory, sub.file, rule, made=sub)
        sub.line = Line(self.prefixed(text), "make")
        return sub.line

    def recipe(self, rule, fails, has_make):
        rng, make = self.rng, rule.make
        owner = rule.name if not rule.pattern else "$(D)$@"
        lines = [self.plain_line(make, owner) for _ in range(rng.choice((1, 1, 2, 2, 3, 4)))]
        if has_make:
            lines.insert(rng.randrange(len(lines) + 1), self.make_line(rule))
        if fails:
            for _ in range(rng.choice((1, 1, 1, 2))):
                lines.insert(rng.choice((0, len(lines), rng.randrange(len(lines) + 1))), self.failing_line(make, owner))
        if make.is_one_shell and "@" not in re.match("[-+@]*", lines[0].text)[0]:
            # What a block shows of the command is then no line that make prints, too.
            lines[0].text = "@" + lines[0].text
        rule.lines = lines
        rule.is_inline = len(lines) == 1 and rng.random() < 0.4 and "\n" not in lines[0].text

    # -- makefiles --

    def add_make(self, directory, file, parent, made=None, has_shared=False):
        rng = self.rng
        make = made or Make(directory, file, parent)
        make.has_shared = has_shared
        self.makes.append(make)
        make.is_one_shell = rng.random() < 0.12
        make.head = [f"D := {directory}"]
        for chance, text in (
            (0.08, f"$(warning {self.repeated_token(make.owner)} read)"), (0.08, f"X := $(shell echo '{self.repeated_token(make.owner)} read' >&2)"),
            (0.06, ".SILENT:"), (0.05, ".IGNORE:"), (0.08, ".NOTPARALLEL:"), (0.08, ".DELETE_ON_ERROR:"), (0.05, ".SECONDEXPANSION:"),
            (0.05, ".EXPORT_ALL_VARIABLES:"), (0.04, ".POSIX:"), (0.06, "SHELL = /bin/bash"), (0.05, ".SHELLFLAGS = -ec"),
            (0.04, "MAKEFLAGS += --no-print-directory"), (0.05, ".SUFFIXES:"), (0.04, f"$(info {self.repeated_token(make.owner)}{INFO})"),
        ):  # fmt: skip
            if rng.random() < chance:
                make.head.append(text)
        if self.may_fail and self.jobs == 1 and parent and rng.random() < 0.05:
            make.head.append(f"$(error {self.repeated_token(make.owner)})")
        if make.is_one_shell:
            make.head.append(".ONESHELL:")
        make.has_shell = make.is_one_shell or any(word in " ".join(make.head) for word in ("SHELL", ".POSIX"))
        make.is_silent |= ".SILENT:" in make.head or self.is_silent
        make.ignores |= ".IGNORE:" in make.head or self.ignores
        self.fill(make)
        if rng.random() < 0.1:
            self.count += 1
            rule = Rule(make, [f"gen{self.count}.mk"])
            rule.lines = [self.plain_line(make, rule.name), Line("@echo 'GENERATED = yes' >$@")]
            if make.is_one_shell:
                rule.lines = rule.lines[1:]
            make.rules.append(rule)
            make.head.append(f"include {rule.locals[0]}")
        return make

    def fill(self, make):
        rng = self.rng
        count = rng.choice((3, 4, 5, 6, 8)) if make.depth == 0 else rng.choice((1, 2, 3, 4))
        number, needs, doubles = len(self.makes), [], []
        everything = Rule(make, ["all"])
        for i in range(count):
            local = f"t{number}.{i}"
            kind = rng.random()
            if kind < 0.12:
                rules = [Rule(make, [local], "::") for _ in range(rng.choice((2, 2, 3)))]
                doubles.append(local)
            elif kind < 0.2:
                rules = [Rule(make, [local, local + "b"], "&:")]
                rules[0].is_group = True
            elif kind < 0.3:
                rules = [Rule(make, [f"{stem}.p{number}{i}" for stem in ("u", "v")])]
                rules[0].pattern = f"%.p{number}{i}"
                self.patterns.update(rules[0].locals)
            elif kind < 0.4:
                rules = [Rule(make, [local + " x"])]
            else:
                rules = [Rule(make, [local])]
            for place, rule in enumerate(rules):
                has_make = not rule.pattern and place == 0 and make.depth < 2 and rng.random() < (0.3 if make.depth == 0 else 0.15) and len(self.makes) < 7
                fails = self.may_fail and rng.random() < 0.3
                if not fails and rng.random() < 0.1 and not rule.pattern and rule.separator == ":":
                    self.file_target(rule)
                else:
                    self.recipe(rule, fails, has_make)
                # make may start a target that needs a double-colon target once the first of its recipes has ended.
                earlier = [name for name in needs if not name.endswith("b") and name not in doubles]
                for name in rng.sample(earlier, min(len(earlier), rng.choice((0, 0, 1, 2)))):
                    rng.choice((rule.needs, rule.needs, rule.order_only)).append(name)
                if self.may_fail and (self.keeps_going or self.jobs == 1) and rng.random() < 0.03:
                    rule.needs.append(f"nothere{i}")
                may_have_shell = self.says_all or not any(line.kind == "missing" for line in rule.lines)
                if not rule.pattern and rng.random() < 0.08 and rule.separator == ":" and may_have_shell:
                    rule.settings.append(rng.choice(("SHELL = /bin/bash", "SHELL = /bin/dash", ".SHELLFLAGS = -ec", "private V = 1", "export E = 2")))
            make.rules += rules
            needs += rules[0].locals
        everything.needs = rng.sample(needs, len(needs)) if not any(rule.is_group for rule in make.rules) else needs
        if rng.random() < 0.4 and not (doubles and self.may_fail):
            self.recipe(everything, self.may_fail and rng.random() < 0.1, False)
        make.rules.insert(0, everything)

    def file_target(self, rule):
        """A target that is a file, and is made in two steps."""
        owner = rule.name
        rule.lines = [Line(f"@echo '{self.token(owner)}' >&2; echo half >'$@'"), Line(f"@echo whole >>'$@'; echo '{self.token(owner)}'")]

    def add_shared(self, *makes):
        """A target that two makes in one directory make."""
        rule = Rule(makes[0], ["shared"])
        rule.lines = [Line(f"@echo '{self.token('shared')}' >&2; sleep 0.0{self.rng.randrange(5)}"), Line(f"@echo '{self.token('shared')}' >&2")]
        self.shared.update(("shared", "all"))
        for make in makes:
            make.rules[0].needs.insert(0, "shared")
            make.rules.append(rule)

    def text_of(self, make):
        """The text of a makefile. Also notes in which line each line of a recipe is, as make counts them."""
        lines = list(make.head)
        lines.append("all:")
        if self.rng.random() < 0.7:
            rules = [rule for rule in make.rules if not rule.pattern and rule.separator == ":" and not any("$@" in line.text for line in rule.lines)]
            phony = [written(name) for rule in rules for name in rule.locals]
            lines.append(".PHONY: " + " ".join(dict.fromkeys(phony)))
        for rule in make.rules:
            goals = rule.pattern or " ".join(map(written, rule.locals))
            lines += [f"{written(rule.locals[0])}: {setting}" for setting in rule.settings]
            line = f"{goals}{rule.separator} " + " ".join(map(written, rule.needs))
            if rule.order_only:
                line += " | " + " ".join(map(written, rule.order_only))
            if not rule.lines:
                lines.append(line)
                continue
            texts = [text for each in rule.lines for text in each.text.split("\n")]
            if rule.is_inline:
                lines.append(f"{line} ; {rule.lines[0].text}")
                first = len(lines)
            else:
                lines.append(line)
                first = sum(text.count("\n") + 1 for text in lines) + 1
                lines += ["\t" + texts[0]] + [text if text.startswith("\t") else "\t" + text for text in texts[1:]]
            self.rules_by_place.setdefault((make.file, rule.locals[0]), []).append((rule, first))
            for other in rule.locals[1:]:
                self.rules_by_place.setdefault((make.file, other), []).append((rule, first))
        return "\n".join(lines) + "\n"

    # -- the command --

    def script(self, top, seconds):
        rng = self.rng
        flags = [word for word in ("-k" * self.keeps_going, "-i" * self.ignores, f"-j{self.jobs}" if self.jobs > 1 or rng.random() < 0.2 else "", self.sync) if word]
        flags += ["-s"] * self.is_silent + ["-w"] * (rng.random() < 0.1) + ["-r"] * (rng.random() < 0.2)
        make = os.environ.get("RANDOM_MAKE", "make")
        if not seconds and not self.late and rng.random() < 0.8:
            return [make, *flags]
        words = " ".join([make, *flags])
        if seconds:
            text = f"{words} & first=$!\n{words} -f second.mk & second=$!\nwait $first; a=$?; wait $second; status=$((a | $?))\n"
        else:
            text = f"{words}; status=$?\n"
        # A recipe that leaves a process behind may not have run, after a failure.
        text += "".join(f"[ ! -e begun{n} ] || until [ -s late{n} ]; do sleep 0.01; done\n" for n in range(1, self.late + 1))
        self.files["build.sh"] = text + "exit $status\n"
        return ["sh", "build.sh"]

    def choose_options(self):
        rng = self.rng
        options = rng.choice(((), (), ("--quiet",), ("--live",), ("--both",), ("--both", "--quiet"), ("--both", "--live")))
        # If the plain build may print something else, nothing distinguishes the text of a block from other text.
        return list(options) if self.is_determined else ["--quiet"] + ["--both"] * ("--both" in options)


def written(name):
    return name.replace(" ", "\\ ")


# ---- What a build has done -------------------------------------------------------------------------------------------


def lines_of(data):
    text = data.decode("utf-8", "surrogateescape")
    # A shell writes its name and what it says in two parts. Another process may write to the same file between them.
    text = text.replace("/bin/sh: 1: ", "")
    # What another process printed before the late line feed of $(info) is a line of its own, with the same token before it.
    late_line_feeds, found = 0, True
    while found:
        text, found = re.subn(f"(?m)^((?:{BEFORE_LINE} )*)(.*?{INFO})(?!\n)", r"\1\2\n\1", text)
        late_line_feeds += found
    lines = re.sub(f"{UNENDED}\n?", UNENDED + "\n", text).splitlines()
    empty = [line for line in lines if re.fullmatch(f"({BEFORE_LINE} )*", line)]
    for line in empty[:late_line_feeds]:
        lines.remove(line)
    return lines


def determined(build, lines):
    """Leaves out what depends on the time at which recipes end: whether jobs run when make stops, and the lines of recipes of one
    pattern rule, which share a counter. With -O, make announces a directory again for each recipe whose output it collected, and
    standard error of a captured recipe is none of this."""
    found = Counter()
    for line in lines:
        word = WORD.search(line)
        if word and word[3] in build.patterns:
            line = line.replace(f":{word[2]}: {word[3]}]", f": {word[3]}]")
        is_directory = re.search(r"make(\[\d+\])?: (Entering|Leaving) directory '", line)
        found[line] += not (line.endswith("*** Waiting for unfinished jobs....") or (build.is_synced and is_directory))
    return +found


class Outcome:
    """A build in a fresh directory: its status, output and files."""

    def __init__(self, build, folder, side, words):
        self.place = os.path.join(folder, "build")
        os.makedirs(self.place)
        for name, content in build.files.items():
            path = os.path.join(self.place, name)
            os.makedirs(os.path.dirname(path), exist_ok=True)
            with open(path, "w", encoding="utf-8") as file:
                file.write(content)
            if name in build.executables:
                os.chmod(path, 0o755)
        paths = [os.path.join(folder, f"{side}.{kind}") for kind in ("out", "err")]
        with open(paths[0], "ab") as out, open(paths[1], "ab") as err:
            files = {"stdin": subprocess.DEVNULL, "stdout": out, "stderr": err}
            process = subprocess.Popen(words, cwd=self.place, env=environment(), preexec_fn=prepared, **files)
            try:
                self.status = process.wait(MOST_SECONDS)
            except subprocess.TimeoutExpired:
                os.killpg(process.pid, signal.SIGKILL)
                process.wait()
                self.status = f"not ended after {MOST_SECONDS} s"
        self.out, self.err = (lines_of(read(path)) for path in paths)
        self.files = {}
        for parent, _, names in os.walk(self.place):
            if CAPTURES not in os.path.relpath(parent, self.place).split("/"):
                for name in names:
                    path = os.path.join(parent, name)
                    self.files[os.path.relpath(path, self.place)] = Counter(lines_of(read(path)))
        os.rename(self.place, os.path.join(folder, side))
        self.place = os.path.join(folder, side)


def prepared():
    """Signals that this process ignores would be ignored by the build, too. No build writes a core file."""
    os.setsid()
    resource.setrlimit(resource.RLIMIT_CORE, (0, 0))
    for name in ("HUP", "INT", "QUIT", "TERM", "PIPE", *SIGNALS):
        if name != "KILL":
            signal.signal(getattr(signal, "SIG" + name), signal.SIG_DFL)


def read(path):
    with open(path, "rb") as file:
        return file.read()


# ---- What make says --------------------------------------------------------------------------------------------------

WORD = re.compile(r"make(?:\[\d+\])?: (?:\*\*\* )?\[([^:\]]+):(\d+): (.+?)\] (Error (\d+)|[A-Z].*?)( \(core dumped\))?( \(ignored\))?$")
NUMBERS = {signal.strsignal(kind): 128 + kind for kind in signal.valid_signals()}


class Word:
    """make's line about a failed line of a recipe: the target, the status, which line, and whether the failure is ignored."""

    def __init__(self, build, found):
        file, number, local, text, status, _, ignored = found
        self.rules = build.rules_by_place.get((file, local), [])
        self.number, self.is_ignored = int(number), bool(ignored)
        self.status = int(status) if status else NUMBERS.get(text, -1)
        self.name, self.line, self.make = None, None, None
        for rule, first in self.rules:
            count = 1 if rule.make.is_one_shell else len(rule.lines)
            if first <= self.number < first + count:
                self.name, self.make = rule.make.name(rule.locals[0] if rule.is_group else local), rule.make
                # In one shell, the failed command isn't known. Recipes of one pattern rule share a counter of lines.
                is_known = not rule.make.is_one_shell and not rule.pattern
                self.line = rule.lines[self.number - first] if is_known else Line("", "any")


def words_in(build, lines):
    return [Word(build, found.groups()) for line in lines if (found := WORD.search(line))]


def possible_statuses(build, words):
    """The statuses that the summary may have for each target that make's messages name."""
    statuses = {}
    for name in {word.name for word in words}:
        own = [word for word in words if word.name == name]
        failed = {word.status for word in own if not word.is_ignored}
        # The last recipe that failed decides, but only recipes of the last make that ran one count.
        statuses[name] = failed | ({0} if not failed or build.maker_count[name] > 1 else set())
    return statuses


# ---- The comparison --------------------------------------------------------------------------------------------------

TOKEN = re.compile(r"\[([^\[\]~]+) ~\d+\]")
HEADER = re.compile(r"redo-log-capture: (.*?)(?: \(exit (\d+)\))?(?:, in .*)?$")
TROUBLE = re.compile(r"cannot|memory|removed|too many|not captured|no recipe was captured|bad line|in use|interrupted|was ended by|longer than")


def as_printed(line):
    """A text line of a log or a block as a recipe printed it. A space precedes a line that looks like a record."""
    return line[1:] if line.startswith(" @@REDO:") else line


def read_logs(place):
    """The text lines of each log, by the name of the target."""
    with open(os.path.join(place, "names"), encoding="utf-8") as names:
        numbers = dict(line.rstrip("\n").lstrip("!").split(" ", 1)[::-1] for line in names)
    logs = {}
    for name, number in numbers.items():
        path = os.path.join(place, "log." + number)
        data = read(path) if os.path.exists(path) else b""
        text = b"".join(line for line in data.splitlines(keepends=True) if not line.startswith(b"@@REDO:"))
        logs[name] = [as_printed(line) for line in lines_of(text)]
    return logs


class Printed:
    """What a captured build printed on standard error: messages of redo-log-capture, and all other lines."""

    def __init__(self, build, err, known):
        self.others, self.headers, self.messages = [], [], []
        following = following_lines(build)
        rest, last = 0, None  # how many lines of a command may still follow, and the last line, if it was one of a command
        for line in err:
            if line.startswith("redo-log-capture: "):
                found = HEADER.match(line)
                name, status = found.groups()
                rest, last = 0, None
                if status is not None:
                    self.headers.append((name, int(status)))
                    rest = 12
                elif name not in build.names:
                    self.messages.append(line.removeprefix("redo-log-capture: "))
            elif rest and (last is None or line in following.get(last, ()) or not self.is_output(line, known)):
                rest, last = rest - 1, line
            else:
                rest = 0
                self.others.append(as_printed(line))

    @staticmethod
    def is_output(line, known):
        """Whether a line below a command is printed by a recipe or by make."""
        return line in known or TOKEN.match(as_text(line)) or re.match(r"make(\[\d+\])?: ", line)


def following_lines(build):
    """What may follow a line of a command. A shell gets a line that ends with a backslash together with the next one, and with .ONESHELL
    it gets all lines."""
    following = {}
    for make in build.makes:
        for rule in make.rules:
            texts = [line.text for line in rule.lines]
            for text, local in itertools.product(["\n".join(texts)] if make.is_one_shell else texts, rule.locals):
                text = re.sub(r"\$\((info|warning|shell) .*?\)", "", text).replace("$(D)$@", make.name(local))
                text = text.replace("$(MAKE)", os.environ.get("RANDOM_MAKE", "make")).replace("$$", "$")
                lines = [re.sub(r"^[-+@\t]*", "", part) for part in text.split("\n")]
                for line, after in zip(lines, lines[1:]):
                    following.setdefault(line, set()).add(after)
    return following


def is_untold(rule):
    """Whether a line of the recipe may fail and nobody sees that make says so."""
    is_tolerated = rule.make.ignores or any("-" in re.match("[-+@]*", line.text)[0] for line in rule.lines)
    return rule.make.is_err_lost or (rule.make.is_silent and is_tolerated)


def is_unknown(rule):
    """Whether a line of the recipe may fail and nobody can know whether make ignores that."""
    return is_untold(rule) and (rule.make.is_err_lost or any(line.kind == "missing" for line in rule.lines))


def compared(seed, folder, tool=TOOL, program=PROGRAM):
    """Runs both builds and returns the differences, and what else is wrong."""
    build = Build(seed)
    build.names = {rule.make.name(local) for rules in build.rules_by_place.values() for rule, _ in rules for local in rule.locals}
    build.recipe_count, makers = Counter(), set()
    for make in build.makes:
        for rule in make.rules:
            for local in rule.locals[:1] if rule.is_group else rule.locals:
                build.recipe_count[make.name(local)] += bool(rule.lines)
                makers.update({(make, make.name(local))} if rule.lines else ())
    build.maker_count = Counter(name for _, name in makers)
    build.untold, build.unknown = (
        {make.name(local) for make in build.makes for rule in make.rules for local in rule.locals if holds(rule)} for holds in (is_untold, is_unknown)
    )
    plain = Outcome(build, folder, "plain", build.command)
    summary = os.path.join(folder, "summary")
    captured = Outcome(build, folder, "captured", [tool, *build.options, "--summary", summary, *build.command])
    return list(differences(build, plain, captured, summary, program))


def differences(build, plain, captured, summary, program):
    if captured.status != plain.status:
        yield f"status {captured.status}, not {plain.status}"
    place = os.path.join(captured.place, CAPTURES)
    if not os.path.exists(os.path.join(place, "names")):
        if any(TOKEN.search(line) and "[- ~" not in line for line in plain.err):
            yield "nothing was captured"
        return
    logs = read_logs(place)
    in_logs = Counter(line for lines in logs.values() for line in lines)
    printed = Printed(build, captured.err, set(plain.err) | set(plain.out) if build.is_determined else set(in_logs))
    yield from output_differences(build, plain, captured, printed, in_logs)
    yield from misplaced(build, logs)
    said = [*in_logs.elements(), *captured.out, *printed.others, *(line for lines in captured.files.values() for line in lines)]
    words = words_in(build, said)
    if build.is_determined:
        words = words_in(build, [*plain.err, *plain.out, *(line for lines in plain.files.values() for line in lines)])
    if any(word.name is None for word in words):
        yield f"a word of make about no target: {[(word.number, word.status) for word in words if word.name is None]}"
    words = [word for word in words if word.name]
    yield from status_differences(build, plain, logs, words, summary)
    yield from message_differences(build, captured, printed, words)
    yield from view_differences(build, place, program, in_logs, summary)


def makes_by_target(build):
    """The makes that make each target. Makes in one directory may make targets of the same name."""
    makes = {}
    for make in build.makes:
        for name in {make.name(local) for rule in make.rules for local in rule.locals}:
            makes.setdefault(name, []).append(make)
    return makes


def output_differences(build, plain, captured, printed, in_logs):
    """Each line is in a log or on the output that it was for, exactly once; and in a block, if one is printed."""
    if not build.is_determined:
        everything = in_logs + Counter(captured.out) + Counter(printed.others)
        for name, lines in captured.files.items():
            everything += lines if name not in build.files else Counter()
        often = Counter()
        for line, count in everything.items():
            token = TOKEN.match(as_text(line))
            if token and token[0] not in build.repeated and token[1] not in build.shared:
                often[line] += count
        twice = [line for line, count in often.items() if count > 1]
        if twice:
            yield f"more than once: {twice}"
        return
    if captured.files != plain.files:
        for name in sorted(set(captured.files) | set(plain.files)):
            sides = [side.files.get(name) for side in (captured, plain)]
            if None in sides or determined(build, sides[0].elements()) != determined(build, sides[1].elements()):
                yield f"file {name}: {difference(captured.files.get(name), plain.files.get(name))}"
    out, err = determined(build, plain.out), determined(build, plain.err)
    found_out, found_err = determined(build, captured.out), determined(build, printed.others)
    if "--both" not in build.options and found_out != out:
        yield f"standard output: {difference(found_out, out)}"
    in_logs = determined(build, in_logs.elements())
    wanted = err + out if "--both" in build.options else err
    if in_logs - wanted:
        yield f"in logs, and not printed by the plain build: {difference(in_logs, wanted)}"
    direct = wanted - in_logs
    found = found_err + (found_out if "--both" in build.options else Counter())
    if direct - found:
        yield f"lost: {list((direct - found).elements())[:5]}"
    blocks = found - direct
    makes = makes_by_target(build)
    if blocks - in_logs:
        yield f"printed and in no log, or too often: {list((blocks - in_logs).elements())[:5]}"
    if "--quiet" in build.options and blocks:
        yield f"printed in spite of --quiet: {list(blocks.elements())[:5]}"
    if "--live" in build.options:
        missing = [line for line in in_logs - blocks if (found := TOKEN.match(line)) and not line.endswith("late")]
        missing = [line for line in missing if not any(make.is_redirected for make in makes[TOKEN.match(line)[1]])]
        if missing:
            yield f"not printed in spite of --live: {missing[:5]}"
    for line in direct:
        owner = TOKEN.match(as_text(line))
        if owner and owner[1] != "-" and not any(make.is_elsewhere for make in makes[owner[1]]):
            yield f"in no log: {line}"


def as_text(line):
    """A line without what precedes the token in lines that look like records, and spaces."""
    return re.sub(r"^(@@REDO:\w*(:\d+:[\d.]+@@ \d? ?)?|  )(?=\[)", "", line)


def difference(found, wanted):
    if found is None or wanted is None:
        return "missing" if found is None else "not in the plain build"
    return f"too many {list((found - wanted).elements())[:5]}, missing {list((wanted - found).elements())[:5]}"


def misplaced(build, logs):
    """Each line of a recipe is in the log of its target, or of a recipe that runs its make if that gets its output."""
    makes = makes_by_target(build)
    for name, lines in logs.items():
        for line in lines:
            found = TOKEN.match(as_text(line))
            if not found or found[1] == name:
                continue
            above = set()
            for make in makes.get(found[1], ()):
                while make.parent and (make.is_elsewhere or make.is_piped):
                    above.add(make.parent.name)
                    make = make.parent.make
            if name not in above:
                yield f"in the log of {name}: {line}"


def read_summary(path):
    with open(path, encoding="utf-8") as rows:
        return {found[2]: found[1] for row in rows if (found := re.match(r"(\S+) [\d.]+ \d+ (.*?)(?: [\d.-]+ [\d-]+)?$", row))}


def status_differences(build, plain, logs, words, summary):
    statuses, possible = read_summary(summary), possible_statuses(build, words)
    unknown = set(statuses) - build.names
    if unknown:
        yield f"unknown targets in the summary: {unknown}"
    for name, status in statuses.items():
        if name in build.unknown:
            continue
        wanted = possible.get(name, {0})
        if status not in map(str, wanted):
            yield f"summary: {name} {status}, not {wanted}"
    if set(logs) - {"all"} != set(statuses) - {"all"}:
        yield f"targets of logs and of the summary: {set(logs) ^ set(statuses)}"
    if build.is_determined:
        ran = {found[1] for line in [*plain.err, *plain.out] if (found := TOKEN.match(as_text(line)))} - {"-"}
        missing = (ran | {word.name for word in words}) - set(statuses)
        if missing:
            yield f"not in the summary: {missing}"


def causes(build, words):
    """The targets that failed by themselves and whose failure no recipe tolerated; and those whose failure a recipe tolerated."""
    words = [word for word in words if not word.is_ignored]
    decisive = {}  # the lines by which a target may have failed
    for word in words:
        lines = decisive.setdefault(word.name, set())
        if build.recipe_count[word.name] == 1:
            lines.clear()
        lines.add(word.line)
    untolerated, failed = set(), set()
    for word in words:
        make, is_tolerated, is_sure = word.make, False, True
        while make.parent:
            lines = decisive.get(make.parent.name, set())
            is_tolerated |= make.line not in lines and not any(line.kind == "any" for line in lines) if lines else make.parent.name not in build.untold
            is_sure &= lines == {make.line} and build.recipe_count[make.parent.name] == 1
            make = make.parent.make
        if not is_tolerated:
            untolerated.add(word.name)
        if is_sure and not is_tolerated and word.line.kind not in ("make", "any"):
            failed.add(word.name)
    return failed, untolerated


def message_differences(build, captured, printed, words):
    for message in printed.messages:
        if TROUBLE.search(message):
            yield f"message: {message}"
    # If two makes make a target, the make that ended it last sets its status.
    shared = {name for name, count in build.recipe_count.items() if count > 1}
    failed = {"no recipe failed;": {word.name for word in words if not word.is_ignored}, "only failures that": causes(build, words)[0] - shared}
    for start, names in failed.items():
        if names and any(message.startswith(start) for message in printed.messages):
            yield f"{start} but {names}"
    said = Counter((word.name, word.status) for word in words)
    blocks = Counter(printed.headers)
    unknown = [one for one in (blocks - said).elements() if one[0] not in build.untold]
    if unknown:
        yield f"blocks for failures that make doesn't know: {unknown}"
    if "--quiet" in build.options:
        if blocks:
            yield f"blocks in spite of --quiet: {list(blocks)}"
    else:
        needed = Counter((word.name, word.status) for word in words if word.line.kind == "" and not word.make.is_redirected)
        if needed - blocks:
            yield f"no block for {list((needed - blocks).elements())}"
    if captured.status == 0:
        return
    named = {name for message in printed.messages if "failed" in message for name in named_by(message)}
    failed, untolerated = causes(build, words)
    is_cut = any(re.search(r"\d+ more|\d+ of them", message) for message in printed.messages if "failed" in message)
    if failed - named - shared and not is_cut:
        yield f"not named as failed: {failed - named - shared}; named: {named}"
    if named - untolerated - shared - build.unknown:
        yield f"named as failed: {named - untolerated - shared - build.unknown}"


def named_by(message):
    """The names in a command that a message shows, such as `redo-log --dir DIR -- a b`, unless it shows all logs."""
    found = re.search(r"redo-log( .*?)(?:; (?:its|their) logs? .*)?$", message)
    try:
        words = shlex.split(found[1]) if found else []
    except ValueError:
        return []
    if words[:1] == ["--dir"]:
        words = words[2:]
    return [] if words[:1] == ["-r"] else [word for word in words if word != "--"]


def view_differences(build, place, program, in_logs, summary):
    """redo-log accepts the captures, and shows each line of each log once, and which targets failed."""
    done = subprocess.run([program, "--dir", place, "-r", "all"], capture_output=True)
    if done.returncode != 0:
        yield f"redo-log: status {done.returncode}, {done.stderr.decode()}"
        return
    text, failed = Counter(), set()
    for line in lines_of(done.stdout):
        found = re.match(r"redo  +(.*?)(?: \(exit (\d+)\))?$", line)
        if not found:
            text[as_printed(line)] += 1
        elif found[2]:
            failed.add((found[1], found[2]))
    if text != in_logs:
        yield f"redo-log shows other text than the logs have: {difference(text, in_logs)}"
    wanted = {(name, status) for name, status in read_summary(summary).items() if status != "0"}
    # The log of the run has the command's status. Other logs may mention a target before the last of its recipes has ended.
    left_out = {"all", *(name for name, count in build.recipe_count.items() if count > 1)}
    if {one for one in failed ^ wanted if one[0] not in left_out}:
        yield f"redo-log shows as failed {failed}, the summary {wanted}"


# ---- Many builds -----------------------------------------------------------------------------------------------------


def one(task):
    seed, folder, keeps = task
    place = os.path.join(folder, str(seed))
    try:
        os.makedirs(place)
        return seed, compared(seed, place)
    except Exception as error:  # pylint: disable=broad-except
        return seed, [repr(error)]
    finally:
        if not keeps:
            shutil.rmtree(place, ignore_errors=True)


def results(seeds, folder, keeps=False):
    with multiprocessing.Pool(os.cpu_count()) as pool:
        yield from pool.imap_unordered(one, ((seed, folder, keeps) for seed in seeds))


def random_builds(checks, at):
    first = int(time.time()) // 86400 * 100000
    seeds = [*range(FIXED), *range(first, first + DAILY)]
    for base, count in ((0, FIXED_COLOURED), (first, DAILY_COLOURED)):
        seeds += range(base + COLOURED.start, base + COLOURED.start + count)
    for seed, found in results(seeds, at("builds")):
        checks.expect(f"a random build; repeat it with tests/captures/random_builds.py {seed}", found, [])


PARTS = (random_builds,)


def main():
    install_capture(PREFIX)
    folder = tempfile.mkdtemp(prefix="random-builds.")
    failed = 0
    seeds = [seed for word in sys.argv[1:] for seed in (range(*map(int, word.split("-"))) if "-" in word else [int(word)])]
    for seed, found in results(seeds, os.path.realpath(folder), keeps=True):
        failed += bool(found)
        for text in found:
            print(f"{seed}: {text}")
    shutil.rmtree(PREFIX)
    print(f"{len(seeds)} builds, {failed} differ; they are in {folder}")
    sys.exit(failed > 0)


if __name__ == "__main__":
    main()
