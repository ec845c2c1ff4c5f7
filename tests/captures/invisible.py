"""A build can't notice that it is captured: builds that do unusual things. Each runs twice in one directory, without and with redo-log-capture, and
the outcomes must be the same."""
import functools
import os
import re
import shutil
import signal
import subprocess
import sys
from concurrent.futures import ThreadPoolExecutor
from typing import NamedTuple

from builds import PREFIX, TOOL, ran, shown
from checks import CAPTURES, environment


class Case(NamedTuple):
    """A makefile and other files, which are executable if they begin with `#!`. The bash script `setup` prepares the directory, and `run` runs the
    build; in both, $C is redo-log-capture or empty. The test compares the status and, through the filters `out` and `err`, both outputs. Without a
    capture the status must be `status`, unless that is None."""

    makefile: str | None
    run: str = "$C make"
    status: int | None = 0
    out: str = "cat"
    err: str = "cat"
    files: dict = {}
    setup: str = ":"
    # What the case needs: commands, or names of PERMITTED.
    needs: str = ""
    # What redo-log shows afterwards.
    logs: str | None = None
    # Whether a line says that something isn't captured.
    is_uncaptured: bool = False


UNSEEN = "true"  # a filter that leaves nothing
THROUGH_A_PIPE = "{{ {} 2>&1 >&3 | cat >&2; exit ${{PIPESTATUS[0]}}; }} 3>&1"  # standard error of a command
OF_MAKE_ITSELF = "grep '^make.*: \\*\\*\\*'"

PERMITTED = {
    "mounting": "unshare -m true",
    "process-namespaces": "unshare -fp --mount-proc true",
    "tracing": "strace -o /dev/null true",
    "other-users": "setpriv --reuid=65534 --clear-groups true",
    "user-namespaces": "setpriv --reuid=64321 --clear-groups unshare -r true",
}

# Commands that the builds of the table run. They wait at most a minute; a file records a wait that failed.
AWAIT = """#!/bin/sh
# await FILE..: waits until the files exist; a name after ! waits until the file is gone
is_so() { case $1 in !*) [ ! -e "${1#!}" ] ;; *) [ -e "$1" ] ;; esac; }
for file; do
  count=0
  until is_so "$file"; do
    count=$((count + 1))
    if [ $count -gt 6000 ]; then echo "$PWD/$file" >>"$0.vain"; exit 1; fi
    sleep 0.01
  done
done
"""
HOLD = """#!/bin/sh
# hold: one process that makes a file `begun` and waits for `go`
: >begun
exec await go
"""
SEND = f"""#!{sys.executable} -SE
# send SIGNAL front|group|make COMMAND..: starts the command in a new session. When the file `begun` exists, sends the signal to the command's process, to
# its group, or to the make that it is or has started. Makes the file `go` when the command has ended, or when the file that GONE names is gone. Waits
# for all processes that were started, and prints how the command ended.
import ctypes, os, signal, subprocess, sys, time

SUBREAPER = 36
ctypes.CDLL(None).prctl(SUBREAPER, 1)
kind, whom, command = getattr(signal, "SIG" + sys.argv[1]), sys.argv[2], sys.argv[3:]
front = os.fork()
if front == 0:
    os.setsid()
    for each in (signal.SIGHUP, signal.SIGINT, signal.SIGQUIT, signal.SIGTERM, signal.SIGUSR1, signal.SIGPIPE):
        signal.signal(each, signal.SIG_DFL)
    os.dup2(os.open("/dev/null", os.O_RDONLY), 0)
    os.execvp(command[0], command)
ended = {{}}

def children_are_left():
    try:
        while process := os.waitpid(-1, os.WNOHANG):
            if process[0] == 0:
                return True
            ended[process[0]] = os.waitstatus_to_exitcode(process[1])
    except ChildProcessError:
        return False

def wait(what, holds):
    for _ in range(6000):
        if holds():
            return
        time.sleep(0.01)
    with open(sys.argv[0] + ".vain", "a") as file:
        file.write(f"{{os.getcwd()}}: {{what}} of {{sys.argv}}\\n")

def has_ended():
    return not children_are_left() or front in ended

wait("the begin", lambda: has_ended() or os.path.exists("begun"))
process = front
if whom == "make":
    of_front = subprocess.run(["ps", "-o", "pid=,comm=", "--ppid", str(front)], stdout=subprocess.PIPE, text=True).stdout.split()
    process = int(of_front[of_front.index("make") - 1]) if "make" in of_front else front
if whom == "group":
    os.killpg(front, kind)
else:
    os.kill(process, kind)
gone = os.environ.get("GONE")
wait("its effect", lambda: has_ended() or (gone and not os.path.exists(gone)))
open("go", "w").close()
wait("the end", lambda: not children_are_left())
print("ended with", ended.get(front))
"""
COMMANDS = os.path.join(PREFIX, "tests")


@functools.cache
def write_commands():
    for name, text in (("await", AWAIT), ("hold", HOLD), ("send", SEND)):
        write(os.path.join(COMMANDS, name), text)


def write(path, text):
    os.makedirs(os.path.dirname(path), exist_ok=True)
    with open(path, "wb") as file:
        file.write(text.encode("utf-8", "surrogateescape"))
    if text.startswith("#!"):
        os.chmod(path, 0o755)


@functools.cache
def is_missing(need):
    return subprocess.run(PERMITTED[need], shell=True, capture_output=True).returncode != 0 if need in PERMITTED else shutil.which(need) is None


def without_own(text):
    """Standard error without the lines of redo-log-capture, and without the commands below those that report a failure."""
    return re.sub(rb"^redo-log-capture: (?:.* \(exit \d+\)(?:, in .*)?\n.*|.*)\n", b"", text, flags=re.M)


def filtered(text, words):
    """The lines that a filter keeps."""
    if words != "cat":
        text = subprocess.run(["bash", "-c", words], input=text, env=environment(), stdout=subprocess.PIPE).stdout
    return text.decode("utf-8", "backslashreplace").splitlines()


class Outcome(NamedTuple):
    status: int | str
    out: bytes
    err: bytes
    logs: str | tuple | None

    def seen(self, out="cat", err="cat"):
        """What these filters keep of it."""
        return self.status, filtered(self.out, out), filtered(without_own(self.err), err)


def outcome(case, place, front, make):
    """The outcome of one of the two runs. The directory is restored afterwards."""
    work = os.path.join(place, "work")
    os.makedirs(work)
    if case.makefile is not None:
        write(os.path.join(work, "Makefile"), case.makefile)
    for name, text in case.files.items():
        write(os.path.join(work, name), text)
    surroundings = environment({"PATH": f"{COMMANDS}:{os.environ['PATH']}"})
    subprocess.run(["bash", "-c", case.setup], cwd=work, env=surroundings, check=True, capture_output=True)
    variables = f"C='{front}' TOOL='{TOOL}' PREFIX='{PREFIX}' M='{make}' MAKE44='{os.environ.get('MAKE44', 'make')}'\n"
    paths = [os.path.join(place, name) for name in ("out", "err")]
    with open(paths[0], "wb") as out, open(paths[1], "wb") as err:
        command = ["bash", "-c", variables + case.run]
        build = subprocess.Popen(command, cwd=work, env=surroundings, stdin=subprocess.DEVNULL, stdout=out, stderr=err, start_new_session=True)
        try:
            status = build.wait(timeout=100)
        except subprocess.TimeoutExpired:
            status = "it doesn't end"
        try:
            os.killpg(build.pid, signal.SIGKILL)
        except ProcessLookupError:
            pass
        build.wait()
    texts = []
    for path in paths:
        with open(path, "rb") as file:
            texts.append(file.read())
    logs = shown(work, "all") if case.logs is not None and front else None
    shutil.rmtree(place, ignore_errors=True)
    return Outcome(status, *texts, logs)


def pairs(cases, at, make):
    """The outcomes of each case, without and with a capture, by its name."""
    write_commands()
    kept = {}
    for name, case in cases.items():
        missing = [need for need in case.needs.split() if is_missing(need)]
        if missing:
            print(f"captures: left out, for want of {', '.join(missing)}: {name}")
        else:
            kept[name] = case

    def pair(name):
        place = at(re.sub(r"\W+", "-", name))
        return [outcome(kept[name], place, front, make) for front in ("", f"{TOOL} --live")]

    with ThreadPoolExecutor(4) as pool:
        return dict(zip(kept, pool.map(pair, kept)))


def nothing_in_vain(checks):
    vain = ""
    for name in ("await", "send"):
        path = os.path.join(COMMANDS, f"{name}.vain")
        if os.path.exists(path):
            with open(path, encoding="utf-8") as file:
                vain += file.read()
            os.remove(path)
    checks.expect("what was waited for in vain", vain, "")


def same(checks, at, cases, make="make"):
    """Expects the same outcome with and without a capture. Returns the outcomes with a capture."""
    outcomes = pairs(cases, at, make)
    for name, (plain, captured) in outcomes.items():
        case, what = cases[name], name if make == "make" else f"{name}, {make}"
        if case.status is not None:
            checks.expect(f"{what}: the status", plain.status, case.status)
            told = bool(re.search(rb"^redo-log-capture: .*(?:captured|was removed)|recipes are not captured", captured.err, re.M))
            checks.expect(f"{what}: is something told that isn't captured", told, case.is_uncaptured)
        checks.expect(what, captured.seen(case.out, case.err), plain.seen(case.out, case.err))
        if case.logs is not None:
            checks.expect(f"{what}: the logs", captured.logs, case.logs.replace("{make}", os.path.basename(make)))
    nothing_in_vain(checks)
    return {name: captured for name, (_, captured) in outcomes.items()}


INTERMEDIATE = """all: f.c
%.b: %.a ; @echo mid >$@
%.c: %.b
	@echo half >$@; trap 'await !$@; exit 1' TERM HUP INT; hold; echo whole >$@
f.a: ; touch f.a
"""
HALF = """x:
	@echo half >x; hold; echo whole >x
y: x
	@touch y
"""
THREE = "all: a b c\na b c:\n\t@hold; touch $@\nb: a\nc: b\n"
AGAIN = "for i in 1 2 3 4; do rm -f *.b *.c begun go; send {} group $C make; ls *.b *.c; done | sort | uniq -c"
OF_YES = """all:
	@yes | head -1; yes | head -1 >/dev/null; (yes 2>/dev/null; echo $$? >&2) | head -1
	@bash -c "yes | head -1; echo \\$${PIPESTATUS[0]}"
"""
SIGNALS = {
    **{
        f"{kind} to the group, while an intermediate file is there": Case(INTERMEDIATE, AGAIN.format(kind), err="grep -v -x -e Terminated -e Hangup | sort")
        for kind in ("TERM", "HUP")
    },
    **{f"{kind} to the first process alone": Case(HALF, f"ulimit -c 0; GONE=x send {kind} front $C make y; ls") for kind in ("INT", "QUIT")},
    "KILL to the first process alone": Case(THREE, "send KILL front $C make; ls"),
    "USR1 to the first process alone, by which make tells more": Case(THREE, "GONE=none send USR1 front $C make >/dev/null; ls"),
    "make is killed": Case("z:\n\t@hold; echo late >&2; touch end\n", "send KILL make $C make; ls", err="grep -v late", needs="ps"),
    "all is killed: temporary files": Case("x:\n\t@hold\n", "export TMPDIR=$PWD/tmp; send KILL group $C make; ls tmp", setup="mkdir tmp"),
    "a recipe kills its group": Case("all: ; @(kill -9 0) & sleep 60; echo never\n", "setsid -w $C make; echo $?", err="grep -v Killed"),
    "a recipe sends TERM to its group": Case("all:\n\t@trap '' TERM; touch $@; kill -TERM 0; await !$@; echo after\n", "setsid -w $C make; echo $?"),
    "a recipe interrupts make": Case("all:\n\t@touch $@; kill -INT $$PPID; await !$@\n", "$C make; echo $?"),
    "a pipe without a reader": Case(OF_YES),
    "signals that are ignored": Case("all: ; @trap | wc -l; grep -E 'Sig(Ign|Blk|Cgt)' /proc/self/status\n", "trap '' INT QUIT HUP; $C make"),
}


def signals(checks, at):
    """Signals from outside and from recipes: which processes end, and what remains."""
    captured = same(checks, at, SIGNALS)
    if "make is killed" in captured:
        told = captured["make is killed"].err
        checks.expect("make is killed: it is told", (b"make was ended by SIGKILL" in told, b"was removed" in told), (True, False))


WRAPPER = """#!/bin/bash
# takes only -c LINE, as a shell wrapper for a container does
[ "$1" = -c ] || { echo usage: -c LINE >&2; exit 64; }
exec /bin/bash "$@"
"""
ENV_BASH = """SHELL := /usr/bin/env bash
.SHELLFLAGS := -euo pipefail -c
.ONESHELL:
all:
	x=1
	@-echo $$x
	false | true
	echo went on
"""
PYTHON = """all: a b
a: SHELL = python3
a: .SHELLFLAGS = -c
a: ; @print(1)
b: ; @echo 2; false
"""
BY_WORDS = """all: ; @echo a; false; echo b
	@$(MAKE) b
b: ; @false; echo c
"""
FLAGS_BY_WORDS = """$C make .SHELLFLAGS=-ec; echo $?
$C make SHELL=/bin/bash .SHELLFLAGS='-e -u -c'; echo $?
$C make -e .SHELLFLAGS=-c"""
FLAGS_OF_TARGETS = """all: a b c
a: .SHELLFLAGS = -ec
a c: ; @false; echo a
b: ; @false; echo b
%c: .SHELLFLAGS = -ec
"""
ONE_SHELL_BASH = """SHELL = bash
.SHELLFLAGS = -euo pipefail -c
.ONESHELL:
all:
	@x=1
	echo $$x $$0
	false | true
	echo went on
"""
ONE_SHELL_MARKS = """.ONESHELL:
all:
	@-x=1
	@+echo $$x
	-false
	echo "a
	 b"
"""
SHELLS = {
    "a function that bash exported": Case("all:\n\t@./s\n", "hello() { echo hello; }; export -f hello; $C make", files={"s": "#!/bin/bash\nhello\n"}),
    "a file that the shell reads as it starts": Case(
        "SHELL=/bin/bash\nall:\n\t@echo hi\n", "BASH_ENV=$PWD/rc $C make; wc -l <started", files={"rc": "echo started >>started\n"}
    ),
    "a shell behind flock": Case("SHELL = flock lock sh\nall:\n\t@echo hi; true\n", needs="flock"),
    "a shell behind nice": Case("SHELL = nice -n 3 bash\nall:\n\t@nice; true\n"),
    "a shell behind env -i": Case("SHELL = env -i sh\nall:\n\t@echo hi; true\n"),
    "flags that a recipe sets": Case("all:\n\t@$(eval .SHELLFLAGS = -ec)echo a; false; echo b\n\t@false; echo c\n", status=2),
    "one shell, found by env": Case(ENV_BASH, status=2, err=OF_MAKE_ITSELF),
    "bash -o pipefail": Case("SHELL = /bin/bash -o pipefail\nall: ; false | true\n", status=2),
    "the shell of one target": Case("all: a b\na: SHELL = /bin/bash\na: ; @echo $${BASH_VERSION:+bash}\nb: ; @echo $${BASH_VERSION:-none}\n"),
    "Python is the shell of one target": Case(PYTHON, status=2, needs="python3"),
    "flags on the command line": Case(BY_WORDS, FLAGS_BY_WORDS, err="sort"),
    "a shell that is a script": Case("SHELL = $(CURDIR)/bin/bash\nall: ; @echo hi; true\n", files={"bin/bash": WRAPPER}),
    "flags of single targets": Case(FLAGS_OF_TARGETS, "$C make -k", status=2),
    "one shell: bash": Case(ONE_SHELL_BASH, status=2, err=OF_MAKE_ITSELF),
    "one shell: marks of lines": Case(ONE_SHELL_MARKS),
    "a shell that is looked for each time": Case(
        "SHELL = $(shell which bash)\nall: ; @echo $${BASH_VERSION:+bash}\n", "$C $MAKE44", status=None, needs="which"
    ),
    "SHELL is exported": Case(
        "export SHELL := /bin/bash\nall: ; @echo $$SHELL $(SHELL); $(MAKE) -s x\nx: ; @echo $$SHELL $(SHELL)\n", "SHELL=/bin/zsh $C make"
    ),
    "SHELL of the environment": Case("all: ; @echo $$SHELL $(SHELL)\n\t@printenv SHELL\n", "SHELL=/bin/zsh $C make; SHELL=/bin/zsh $C make -e"),
}


def shells(checks, at):
    same(checks, at, SHELLS)


LISTED = "all: ; @env | sort | grep -v -e ^CAPTURE_RUN= -e ^MAKEFILES=\n"
FILES = "all: ; @ls -l /proc/self/fd | sed 's/.* \\([0-9]* ->\\)/\\1/; s/[0-9]*\\]//; s,/proc/[0-9]*,,' | grep -v '^2 ->'\n"
TOOLS = "export PATH := $(CURDIR)/tools:$(PATH)\nall:\n\t@mytool\n\t@mytool x; mytool\n"
BIG = "all: ; @echo 1; true\nexport BIG1 := $(shell head -c 120000 /dev/zero | tr '\\0' x)\n" + "".join(f"export BIG{n} := $(BIG1)\n" for n in range(2, 17))
ENVIRONMENT = {
    "a variable whose name is no identifier": Case("export a.b = 1\nall:\n\t@printenv a.b\n"),
    "a variable CAPTURE, in a makefile": Case("all:\n\t@echo capture is $(CAPTURE)\n", "CAPTURE=eth0 $C make"),
    "a variable CAPTURE, in a script": Case("all:\n\t@./s\n", "CAPTURE=eth0 $C make", files={"s": "#!/bin/sh\necho capture is $CAPTURE\n"}),
    "a variable CAPTURE, and -e": Case("all: ; @echo $$CAPTURE; true\n", "CAPTURE=eth0 $C make -e"),
    "other variables of this kind": Case("all: ; @echo $$CAPTURE_DIR $$CAPTURE_SHOW; true\n", "CAPTURE_DIR=/x CAPTURE_SHOW=1 $C make"),
    "PATH of a makefile": Case(TOOLS, files={"tools/mytool": "#!/bin/sh\necho mytool\n"}),
    "PATH leads nowhere": Case("all:\n\t@echo $$PATH; /bin/echo 1\n\t@/bin/echo 2\n", "make=$(which make); PATH=/nowhere $C $make", needs="which"),
    "all is exported": Case("export\nX = 1\nall: ; @printenv GPATH | wc -c; printenv X; $(MAKE) -s b\nb: ; @echo b $(X)\n"),
    "nothing is exported": Case("unexport\nall: ; @echo hi; $(MAKE) -s b\nb: ; @echo b; true\n"),
    "a make below without an environment": Case("all: ; @env -i PATH=$$PATH $(MAKE) -s b\nb: ; @echo b; true\n"),
    "variables of 2 MB": Case(BIG),
    "a line without a shell that is long": Case("N := $(shell seq 30000)\nall: ; @/bin/true $(N)\n"),
    "a line with a shell that is long": Case("N := $(shell seq 23000)\nall: ; @: ; /bin/true $(N)\n"),
    "a line with a shell that is too long": Case("N := $(shell seq 24000)\nall: ; @: ; /bin/true $(N)\n", status=2),
    "the variables of a recipe": Case(LISTED),
    **{
        f"the variables of a recipe, {shell}": Case(f"SHELL = {shutil.which(shell.split()[0])} {' '.join(shell.split()[1:])}\n{LISTED}", needs=shell.split()[0])
        for shell in ("bash", "zsh", "mksh", "busybox sh")
    },
    "files that are open": Case(FILES, "$C make -j3"),
    "files beside the standard ones": Case("all:\n\t@cat <&3\n\t@echo more >&4\n", "$C make 3<three 4>four; cat four", files={"three": "three\n"}),
    "standard input is a pipe": Case("all: ; @./q\n", "echo given | $C make", files={"q": "#!/bin/bash\n[ -p /dev/stdin ] && echo pipe; cat\n"}),
    "standard input of two lines": Case("all: ; @cat\n\t@cat\n", "printf 'a\\nb\\n' | $C make"),
    "standard input with -j2": Case("all: a b\na b: ; @cat; echo $@ $$?\n", "printf 'a\\nb\\n' | $C make -j2", out="sort"),
    "the name of the process that started the recipe": Case("all: ; @ps -o comm= -p $$PPID; true\n", needs="ps"),
}


def environments(checks, at):
    same(checks, at, ENVIRONMENT)


WITH_GPATH = """all: g.x; @echo made from $<
g.x: ; @echo x >g.x; echo making $@
VPATH=g
src:
g.x: src
"""
REMADE = """N := $(shell seq 30)
all: x; @echo $(Y)
x: $(N) ; @echo x $(words $^)
-include inc.mk
inc.mk: $(N); @echo inc $(words $^); echo Y=1 >inc.mk
$(N): ; @touch $@
"""
LIST = """M := $(firstword $(MAKEFILE_LIST)) $(lastword $(MAKEFILE_LIST)) $(words $(MAKEFILE_LIST))
include i.mk
all: ## builds
	@echo $(M) $(MAKEFILE_LIST); grep -hE "## " $(MAKEFILE_LIST) | head -1
"""
SUFFIXES = """.SUFFIXES:
.SUFFIXES: .in .out
.in.out: ; @echo $< to $@; cp $< $@
all: x.out ; @:
.DEFAULT: ; @echo default $@
"""
ODD_LINES = """all:
	@echo "a\\
	b" 'c\\
	d' $$HOME `echo x`; : "$$(printf %s y)"
	@printf "%s\\\\n" "a\\\\b"
"""
MAKEFILES = {
    "GPATH of the environment": Case(WITH_GPATH, "GPATH=g $C make; find . -name g.x | sort", files={"g/g.x": "old\n"}),
    "a recipe that is a backslash, and -q": Case("six: ; \\\n $(.XY)\n\t$(.XY)\n", "$C make -q six", is_uncaptured=True),
    "MAKEFILES of a makefile": Case(
        "MAKEFILES = sub/Makefile\nall: ; @$(MAKE) -C sub\n", status=2, files={"sub/Makefile": "all: ; @echo sub says >&2; false\n"}
    ),
    "MAKEFILES of the environment": Case("all: ; @echo $(X) $(words $(MAKEFILE_LIST))\n", "MAKEFILES=pre.mk $C make", files={"pre.mk": "X = from pre\n"}),
    "no makefile": Case(None, status=2, is_uncaptured=True),
    "a makefile on standard input": Case(None, "printf 'all: ; @echo in; true\\n' | $C make -f -"),
    "a makefile that is remade, and -B": Case("all: x\nx: ; @echo x\n-include inc.mk\ninc.mk: ; @echo inc; echo Y=1 >inc.mk\n", "$C make -B; $C make -B"),
    "a makefile that is remade of many files": Case(REMADE, "$C make -j3", out="tail -3"),
    "the list of makefiles": Case(LIST, files={"i.mk": "X := $(lastword $(MAKEFILE_LIST))\n"}),
    "rules that are built in": Case(
        None, "$C make a; echo $?; $C make nope; echo $?; $C make -r a.o", status=2, files={"a.c": "int main(){return 0;}\n", "b.l": ""}, needs="cc",
        is_uncaptured=True,
    ),  # fmt: skip
    "rules by suffixes": Case(SUFFIXES, "$C make all other", files={"x.in": ""}),
    "a prefix of recipes": Case(".RECIPEPREFIX = >\nall:\n>@echo hi;\\\n> true\n"),
    "lines that go on, and quotes": Case(ODD_LINES),
    "a second expansion": Case(".SECONDEXPANSION:\nall: x y\nx_needs = p q\nx y: $$($$@_needs) ; @echo $@ of $^\np q: ; @echo $@\n"),
    "MAKEFLAGS of a makefile": Case("MAKEFLAGS += -k -j3 --no-print-directory -s\nall: a b c\na c: ; echo $@\nb: ; false\n", status=2, out="sort", err="sort"),
    "MAKEFLAGS of the environment": Case("all: a b c\na c: ; echo $@\nb: ; false\n", 'MAKEFLAGS="-k -s V=1" $C make', status=2),
}


def makefiles(checks, at):
    same(checks, at, MAKEFILES)


DUMP = "$(foreach v,$(sort $(.VARIABLES)),$(if $(filter file,$(origin $v)),$(info $v = $($v))))"
STRICT = "SHELL = /bin/bash\n.SHELLFLAGS = -euo pipefail -c\n"
IDIOM = """all: printvars build
printvars:
	@$(foreach V,$(sort $(.VARIABLES)),$(if $(filter-out environment% default automatic,$(origin $V)),$(info $V=$($V) ($(value $V)))))
build: printvars
	@echo built
"""
STATE = """$(info $(.DEFAULT_GOAL) $(MAKECMDGOALS) $(MAKE_RESTARTS) $(MAKELEVEL) $(MAKEFLAGS) $(MFLAGS) $(origin GPATH) $(flavor GPATH))
first: ; @echo $(.DEFAULT_GOAL) $(.FEATURES) $(CURDIR)
"""
UNDEFINED = "X := $(shell echo 1)\nY = $(shell echo 2)\nall: ; @echo $(X) $(Y) $(Z)\n"
# The origin of these two differs: see BY_DESIGN.
OTHER_ORIGINS = "grep -v -e '^MAKEFILES *=' -e '^\\.LOADED *='"
VARIABLES = {
    "variables of the file, as it is read": Case(f"{DUMP}\n{STRICT}all: ; @false | true; echo went on\n", status=2, out=OTHER_ORIGINS),
    "variables of the file, in a recipe": Case(f"{STRICT}all: ; {DUMP}@false | true; echo went on\n", status=2, out=OTHER_ORIGINS),
    "variables of the file, and a plain shell": Case(f"{DUMP}\nall: ; @echo built\n", out=OTHER_ORIGINS),
    "variables that are none of make's own": Case(IDIOM, out=OTHER_ORIGINS),
    "variables that a capture might have": Case("capture-list := a b\ncapture-count = 3\ncapture-make = no\nall: ; @echo $(capture-list) $(capture-count)\n"),
    "what make tells of itself": Case(STATE),
    "undefined variables": Case(UNDEFINED, "$C $MAKE44 --warn-undefined-variables"),
    "3,000 variables": Case("".join(f"V{n} := {n}\n" for n in range(3000)) + "all: ; @echo $(words $(.VARIABLES)) >/dev/null; echo ok\n"),
}


def variables_printed(checks, at):
    same(checks, at, VARIABLES)


CLEANING = "N = $(shell seq 30)\nall: clean $(N) last\nclean: ; @rm -rf {}\nlast: $(N) ; @echo linked $(words $^)\n$(N): clean ; @true\n"
LINKING = "N = $(shell seq 30)\nall: $(N)\n\t@echo linked $(words $^)\n$(N): ; @true\n"
DIRECTORY = "0" * 150
DEEP = f"""SHELL = /bin/bash
all:
	@+for i in $$(seq 30); do mkdir {DIRECTORY} && cd -P ./{DIRECTORY} || exit; done 2>/dev/null; \\
	printf "all: ; @echo deep; true\\n" >Makefile; $(MAKE) -s -f Makefile
"""
AS = "setpriv --reuid={} --clear-groups".format
OWN_USER = 10000 + os.getpid() % 50000  # who runs nothing else
BY = "x: ; @echo by $$(id -u); true\n"
OTHER_USER = f"all: ; @{AS(65534)} $(MAKE) x\n{BY}"
FULL_TMPDIR = """unshare -m sh -c "mount -t tmpfs -o size=8k,nr_inodes=20 none t; export TMPDIR=$PWD/t; $C sh -c 'cat /dev/zero >t/fill; make'" """
READ_ONLY = """$C unshare -m sh -c "mount --bind . .; mount -o remount,bind,ro $PWD; cd $PWD; make" """
ORPHANS = "all: ; @(await go; touch late) & (touch early) & await early; echo begun\n"
LIMITS = {
    "a namespace of processes": Case("all: ; @echo hi\n", "$C unshare -fp --mount-proc make", needs="process-namespaces"),
    "a namespace of processes, in a recipe": Case("all: ; @unshare -fp --mount-proc $(MAKE) x\nx: ; @echo hi\n", needs="process-namespaces"),
    "a namespace of users": Case(
        "all: ; @echo hi >&2; id -u\n", f"{AS(64321)} $C unshare -r make", setup="chmod 777 .", needs="user-namespaces", is_uncaptured=True
    ),
    "a namespace of users, in a recipe": Case(
        "all: ; @unshare -r $(MAKE) -s x\nx: ; @echo hi >&2; id -u\n", f"{AS(64321)} $C make", setup="chmod 777 .", needs="user-namespaces",
        logs="redo  all\nhi\n",
    ),  # fmt: skip
    "the first process, and orphans": Case(
        ORPHANS, "unshare -fp --mount-proc --kill-child $C make; touch go; ls late early", status=2, needs="process-namespaces"
    ),
    "no /proc": Case("all: ; @echo hi; true\n", 'unshare -m sh -c "umount -l /proc; exec $C make"', needs="mounting"),
    "no /proc in a recipe": Case('all: ; @unshare -m sh -c "umount -l /proc; $(MAKE) x"\nx: ; @echo hi; true\n', needs="mounting"),
    "no locks": Case("all: ; @echo hi; true\n", "strace -f -o /dev/null -e trace=flock -e inject=flock:error=ENOLCK $C make", needs="tracing"),
    "a recipe cleans TMPDIR": Case(CLEANING.format("$$TMPDIR/*"), "TMPDIR=$PWD/tmp $C make", setup="mkdir tmp"),
    "a recipe removes TMPDIR": Case(CLEANING.format("$$TMPDIR"), "TMPDIR=$PWD/tmp $C make", setup="mkdir tmp"),
    "TMPDIR is full": Case(LINKING, FULL_TMPDIR, setup="mkdir t", needs="mounting"),
    "the directory is read-only for make": Case("all: ; @echo hi >f; cat f; true\n", READ_ONLY, needs="mounting"),
    "another user runs a make in a recipe": Case(OTHER_USER, setup="chmod 755 .", needs="other-users"),
    "another user runs make": Case(BY, f"umask 022; $C {AS(65534)} make", setup="chmod 755 .", needs="other-users"),
    "another user may not read what is installed": Case(
        OTHER_USER, "${C:+private/bin/redo-log-capture --live} make", setup=f"cp -a {PREFIX}/. private; chmod 700 private; chmod 755 .", needs="other-users"
    ),
    "the directory loses its permissions": Case(
        "all: ; @chmod a-w .; echo 1\n\t@echo 2\n\t@chmod u+w .\n", f"{AS(65534)} $C make", setup="chown 65534 .", needs="other-users"
    ),
    "no permissions for new files": Case(
        "all: a b\na b: ; @echo $@ >$@; true\n", f'{AS(64321)} bash -c "umask 777; $C make; ls -l a b | cut -c1-10"', setup="chmod 777 .", needs="other-users",
        is_uncaptured=True,
    ),  # fmt: skip
    "no permissions for other users": Case(
        f"all: a b\na b: ; @{AS(64321)} $(MAKE) -s x\nx: ; @echo x; true\n", "umask 077; $C make", setup="chmod 777 .; chmod 644 Makefile", needs="other-users"
    ),
    "no file may have a size": Case("all:\n\t@echo hi\n\t@true\n", "(ulimit -f 0; $C sh -c 'make; echo $?') 2>&1 | cat", out="grep -v '^redo-log-capture: '"),
    "limits": Case("all: ; @bash -c 'ulimit -a'; ulimit -Ha\n", "ulimit -n 100; ulimit -c 5; ulimit -s 5000; $C make"),
    "three processes at most": Case("all: ; @echo 1; true\n", f'{AS(OWN_USER)} bash -c "ulimit -u 3; exec $C make"', setup="chmod 777 .", needs="other-users"),
    "20 MB of memory": Case("all: ; @echo 1; true\n", "ulimit -v 20000; $C make"),
    "a directory that is removed": Case("all:\n\t@cd d && rmdir ../d && $(MAKE) -f $(CURDIR)/Makefile x\nx: ; @echo here; true\n", err="sort", setup="mkdir d"),
    "a directory whose path is too long": Case(DEEP),
    "installed below a quote": Case(
        "all: ; @echo hi; echo ho >&2\n", "${C:+it\\'s/bin/redo-log-capture --live} make", setup=f"""cp -a {PREFIX}/. "it's" """, logs="redo  all\nho\n"
    ),
}


def limits(checks, at):
    same(checks, at, LIMITS)


ODD = "sp ace|dol$lar|quo'te|dq\"x|ha#sh|til~de|br(ac)k|am&p|ünï".split("|")
ODD_WORDS = " ".join(re.sub(r"([ #])", r"\\\1", name).replace("$", "$$") for name in ODD)
NAMES = {
    "members of an archive": Case(
        ".PHONY: all\nall: l.a(x.o) l.a(y.o)\nl.a(%.o): %.o ; @echo ar $% >&2; ar cr l.a $%\n%.o: ; @touch $@\n", needs="ar",
        logs="redo  all\nredo    l.a(x.o)\nredo      x.o\nar x.o\nredo    l.a(y.o)\nredo      y.o\nar y.o\n",
    ),  # fmt: skip
    "odd names": Case(
        f"all: {ODD_WORDS}\n{ODD_WORDS}:\n\t@echo failed >&2; false\n", "$C make -k", status=2,
        logs="redo  all\n" + "".join(f"redo    {name}\nfailed\nredo    {name} (exit 1)\n" for name in sorted(ODD, key=str.encode)),
    ),  # fmt: skip
    "a name that is no UTF-8": Case("all: gr\udcfcn\ngr\udcfcn: ; @echo said >&2; touch $@; false\n", "$C make; ls"),
    "a name with a tab": Case('T := $(shell printf "a\\tb")\nall: ; @echo "$(T)"\n'),
    "commands that can't be run": Case("all:\n\t-./noexec\n\t-./dir\n\t-./nope\n", files={"noexec": "x\n"}, setup="mkdir dir"),
}


def names(checks, at):
    same(checks, at, NAMES)


COMMITTED = "git init -q .; git add Makefile; git -c user.name=a -c user.email=b commit -qm x"
SYMLINKED = {"real/Makefile": "all: ; @echo $$PWD $(CURDIR) $$(pwd) $$(pwd -P); true\n"}
MATCHED = "D := $(wildcard */.)\nall: $(D)\n$(D): ; @$(MAKE) -s -C $@\n.PHONY: $(D)\n"
LOOP = "all: ; @for d in */; do $(MAKE) -s -C $$d || exit; done\n"
IN_DIRECTORY = "all: ; @echo $(notdir $(CURDIR))\n"
TWO = {"a/Makefile": IN_DIRECTORY, "b/Makefile": IN_DIRECTORY}
PROGRAM = "all: capture\ncapture: capture.c ; @cc -o $@ capture.c\n"
# Each wait of redo-log-capture for events is delayed, so that it handles a recipe's start while the recipe removes the capture directory.
SLOWLY = "strace -f -qq -o /dev/null -e trace=epoll_wait -e inject=epoll_wait:delay_enter=30000 $C make"
IN_STEPS = f"rm -rf {CAPTURES}/.capture {CAPTURES}/* {CAPTURES}/.g*; sleep 0.3; [ ! -d {CAPTURES} ] || rmdir {CAPTURES}"
AFTERWARDS = "\t@echo removed >&2\na b: ; @echo $@ >&2\n"


def removal(makefile):
    return Case(makefile + AFTERWARDS, f"{SLOWLY} && {SLOWLY}", needs="tracing", is_uncaptured=True)


FILES_AROUND = {
    "$(wildcard */.)": Case(MATCHED, "$C make; $C make; ls", files=TWO),
    "a loop over directories": Case(LOOP, "$C make; $C make; ls", files=TWO),
    "a target named capture": Case("all: a capture\na: ; @echo a; true\ncapture: ; @echo making $@; true\n", "$C make; $C make; ls"),
    "a program named capture": Case(PROGRAM, "$C make && ./capture; ls", files={"capture.c": "int main(){return 5;}\n"}, status=0, needs="cc"),
    "a directory named capture, made by a recipe": Case("all: ; @mkdir capture; echo x >capture/x; ls *\n"),
    "a source directory named capture": Case("all: ; @cp capture/x.c made; ls *\n", files={"capture/x.c": "int x;\n"}),
    "a recipe removes all": Case(
        "all: clean\n\t@echo all\nclean: ; @find . -mindepth 1 -not -name Makefile -delete; ls -A\n", setup="mkdir build", is_uncaptured=True
    ),
    "the first recipe removes all in steps": removal(f"all: c a\nc: ; @{IN_STEPS}\n"),
    "a recipe with prerequisites removes all in steps": removal(f"all: c b\nc: a Makefile ; @{IN_STEPS}\n"),
    "a later line removes all in steps": removal(f"all: c a\nc: ; @echo c >&2\n\t@{IN_STEPS}\n"),
    "the recipe of all removes all in steps": removal(f"all: a b\n\t@{IN_STEPS}\n"),
    "a sub-make removes all in steps": removal(f"all: c a\nc: ; @true; $(MAKE) -s below\nbelow: ; @{IN_STEPS}\n"),
    "git status": Case("all: ; @git status --short\n", setup=COMMITTED, needs="git"),
    "git describe, and other files": Case(
        "all: ; @git describe --always --dirty | grep -c dirty; git ls-files -o --exclude-standard\n", setup=COMMITTED, needs="git"
    ),
    "git clean": Case(
        "all: c\n\t@echo all >&2\nc: ; @git clean -fdxq; ls -A | grep -v git\n", "$C make && $C make", setup=COMMITTED, needs="git", is_uncaptured=True
    ),
    "a target that needs its directory": Case("all: x\nx: . ; @echo making x; touch x\n", "$C make; sleep 0.02; $C make; $C make"),
    "a directory by a link": Case(None, "cd link; $C make; cd ..; $C make -C link", files=SYMLINKED, setup="ln -s real link"),
    "a make below in a directory outside": Case(
        "all: ; @echo top; cd ../outside && $(MAKE) -s -f $(CURDIR)/Makefile x\nx: ; @echo x in $(CURDIR); true\n", setup="mkdir ../outside"
    ),
    "another user opens standard error": Case(
        f"all: ; @echo x | {AS(65534)} tee /dev/stderr\n", THROUGH_A_PIPE.format("$C make"), status=2, needs="other-users"
    ),
}


def files(checks, at):
    same(checks, at, FILES_AROUND)


LATER = "all:\n\t@(await go; make later >later.out 2>&1; touch end) >/dev/null 2>&1 &\nlater:\n\t@echo later\n"
TERMINAL = "all: ; @[ -t 1 ] && echo tty; [ -t 0 ] && echo tty0; [ -t 2 ] && [ '$(TWO)' ] && echo tty2; true\n"
TWO_AT_ONCE = "$C make N=1 & await begun1; touch go2; $C make N=2; status=$?; touch go1; wait; exit $status"
BY_NINJA = {"build.ninja": "rule m\n command = make x\nbuild x: m\n"}
OTHERS = {
    "a make that is run when the build has ended": Case(LATER, "$C make; status=$?; touch go; await end; cat later.out; exit $status"),
    "ninja": Case("x: ; @echo made; touch x\n", "$C ninja", files=BY_NINJA, needs="ninja"),
    "fakeroot": Case(
        "all: ; @touch f; chown 1:1 f; stat -c %u f\n\t@stat -c %u f\n", "fakeroot $C make; $C fakeroot make", setup="chmod 777 .", needs="fakeroot"
    ),
    "bear": Case("a.o: a.c ; cc -c a.c\n", "bear -- $C make; grep -c directory compile_commands.json", files={"a.c": "int f(){return 0;}\n"}, needs="bear cc"),
    "script, within": Case(TERMINAL, "$C script -qec 'make TWO=yes' /dev/null", needs="script"),
    "script, around": Case(TERMINAL, 'script -qec "$C make" /dev/null', needs="script"),
    "a shell that asks": Case(
        "all: ; @bash --norc -i\n", 'script -qec "$C make" /dev/null <in', status=2, out="grep -c himBHs", files={"in": "echo $-; exit 4\n"}, needs="script"
    ),
    "a capture within": Case("all: ; @$(TOOL) --quiet --dir in $(MAKE) x\nx: ; @echo x; true\n", "$C make TOOL=$TOOL"),
    "a capture within, to the same directory": Case("all: ; @$(TOOL) --quiet $(MAKE) x\nx: ; @echo x; true\n", "$C make TOOL=$TOOL"),
    "two at once": Case("all: ; @touch begun$N; await go$N; echo hi $N\n", TWO_AT_ONCE, is_uncaptured=True),
    "makes of a script, at once": Case("a: ; @await end; echo a\nb: ; @echo b; touch end\n", '$C sh -c "make a & make b; wait"'),
    "a line that says nothing": Case("all: ; @true\n", "$C make && echo $?"),
}


def other_commands(checks, at):
    same(checks, at, OTHERS)


KINDS = ("none", "line", "target", "recurse")
SYNC = "all: a b s\na b: ; @echo $@ 1; echo $@ 2\ns: ; @$(MAKE) -s c\nc: ; @echo c\n"
SLOW_READER = """import os, sys, time
reading, writing = os.pipe()
os.set_blocking(writing, False)
if os.fork() == 0:
    os.close(reading)
    os.dup2(writing, 2)
    os.execvp(sys.argv[1], sys.argv[1:])
os.close(writing)
time.sleep(0.3)
while os.read(reading, 65536):
    pass
print(os.waitstatus_to_exitcode(os.wait()[1]))
"""
MANY = "N = $(shell seq 300)\nall: $(N); @cat $(N) | wc -l\n$(N): ; @echo $@ >$@; echo said $@ >&2\n"
MANY_LOGS = "redo  all\n" + "".join(f"redo    {n}\nsaid {n}\n" for n in range(1, 301))
# The file `end` exists only when it is complete.
DAEMON = "all: ; @(trap '' HUP; await go; echo late >&2; echo $$? >new; mv new end) & echo begun\n"
# ps may find that the shell still runs, and doesn't wait for ps yet. Then it looks again.
SESSION = "all: ; @setsid sh -c 'echo in >&2; echo out'; until ps -o stat= -p $$$$ | tr -d '+s ' | grep -v '^[RD]'; do :; done\n"
TEXTS = {
    **{f"-O{kind}": Case(SYNC, f"$C make -j1 -O{kind}") for kind in KINDS},
    "-w --trace": Case("all: a\n\t@echo all; true\na: ; @echo a\n", "$C make -w --trace"),
    "-n": Case("all: a\n\techo all; true\na: ; echo a\n", "$C make -n", is_uncaptured=True),
    "standard error is full": Case("all: a b\na b: ; @echo $@ >&2; true\n", "$C make 2>/dev/full"),
    "standard error doesn't block": Case("all: ; @seq 20000 >&2; false\n", "python3 -SE slow.py $C make", files={"slow.py": SLOW_READER}, needs="python3"),
    "50 recipes at once": Case(MANY, "$C make -j50", err="sort", logs=MANY_LOGS),
    "a session of its own": Case(SESSION, needs="ps"),
    "standard error is closed": Case("all: ; @exec 2>&-; echo a; ls /nope; echo b\n"),
    "a process that is left behind": Case(DAEMON, "$C make; status=$?; touch go; await end; cat end; exit $status", err="grep -v late"),
}


def texts(checks, at):
    same(checks, at, TEXTS)


SHELL_STATUS = "X := $(shell echo >&2 told; exit 3)\nall: ; @echo $(.SHELLSTATUS) $(shell kill -9 $$$$) $(.SHELLSTATUS)\n"
FIFO_JOBS = """import os, re
place = re.search(r"fifo:(\\S+)", os.environ["MAKEFLAGS"])
if not place:
    print("no fifo")
    raise SystemExit
file = os.open(place[1], os.O_RDWR | os.O_NONBLOCK)
count = 0
try:
    while True:
        os.read(file, 1)
        count += 1
except BlockingIOError:
    print(count, "tokens")
os.write(file, b"+" * count)
"""
PIPE_JOBS = """import os, re
ends = re.search(r"auth=(\\d+),(\\d+)", os.environ["MAKEFLAGS"])
if not ends:
    print("no pipe")
    raise SystemExit
reading, writing = map(int, ends.groups())
os.set_blocking(reading, False)
count = 0
try:
    while True:
        os.read(reading, 1)
        count += 1
except BlockingIOError:
    print(count, "tokens")
os.set_blocking(reading, True)
os.write(writing, b"+" * count)
"""
LINKED = """p: a.o b.o ; {}@gcc -O2 -flto=jobserver a.o b.o -o p && ./p && echo linked
%.o: %.c ; @gcc -O2 -flto -c $<
"""
LINKED_FILES = {"a.c": "int f(int);int main(){return f(0);}\n", "b.c": "int f(int x){return x;}\n"}
GROUPED = "all: a b c\na b &: s ; @echo making $@ of $<; touch a b\nc:: s ; @echo c1\nc:: s ; @echo c2\ns: ; @touch s\n"
CHAIN = ".NOTINTERMEDIATE:\nall: f.c\n%.b: %.a ; @cp $< $@\n%.c: %.b ; @cp $< $@\nf.a: ; @touch f.a\n"
# With the newest make available.
OF_MAKE = {
    ".POSIX, and a status that is ignored": Case(".POSIX:\nall:\n\t-@false; echo cleaned up\n", "$C $MAKE44"),
    "an order that is shuffled": Case("all: a b c d\na b c d: ; @echo $@\n", "$C $MAKE44 --shuffle=reverse", status=None),
    ".WAIT": Case("all: a .WAIT b | .WAIT c\na b c: ; @echo $@; true\n", "$C $MAKE44 -j3", status=None, out="sort"),
    "$(shell) is exported": Case("export X = $(shell echo X says $$Y)\nexport Y = $(shell echo y)\nall: ; @echo $$X\n", "$C $MAKE44"),
    "the status of $(shell)": Case(SHELL_STATUS, "$C $MAKE44"),
    "the status of $(shell), of this make": Case(SHELL_STATUS),
    ".NOTINTERMEDIATE": Case(CHAIN, "$C $MAKE44; ls f.*"),
    "tokens of a fifo": Case("all: ; +@python3 -SE jobs.py\n", "$C $MAKE44 -j4", files={"jobs.py": FIFO_JOBS}, needs="python3"),
    "tokens of a pipe": Case("all: ; +@python3 -SE jobs.py\n", "$C make -j4", files={"jobs.py": PIPE_JOBS}, needs="python3"),
    "gcc takes tokens": Case(LINKED.format("+"), "$C make -j3", files=LINKED_FILES, needs="gcc"),
    "gcc is given no tokens": Case(LINKED.format(""), "$C make -j3", files=LINKED_FILES, needs="gcc"),
    "targets in groups, and double colons": Case(GROUPED, "$C make -j3", out="sort"),
}


def of_make(checks, at):
    same(checks, at, OF_MAKE)
    make, folder = os.environ.get("MAKE44", "make"), at("both")
    write(os.path.join(folder, "Makefile"), "all: ; @echo out $(shell echo in)\n")
    checks.expect("$(shell) in a recipe, with --both", (ran(folder, [TOOL, "--both", make]), shown(folder, "all")), ((0, "", ""), "redo  all\nout in\n"))


SEVERAL = "all:\n\t@echo 1 >&2\n\t-@echo 2 >&2; false\n\t+@echo 3 >&2\n\t@echo 4\n"
FUNCTIONS = """export E = $(shell echo e; echo shell says >&2)
X := $(shell echo x)
all:
	@echo $(X) $(shell echo y; echo inner >&2) $$E; echo r >&2
"""
SAID = """all: a b s
	@echo all out; echo all err >&2
a b: ; @echo $@ out; echo $@ err >&2
s: ; @$(MAKE) -s c; echo s err >&2
c: ; @echo c out; echo c err >&2; test -z "$(X)"
"""
FAILED_LOGS = """redo  all
redo    a
a err
redo    b
b err
redo    s
redo      c
c err
redo      c (exit 1)
{make}[1]: *** [Makefile:5: c] Error 1
s err
all err
"""
SAID_LOGS = "redo  all\nredo    a\na err\nredo    b\nb err\nredo    s\nredo      c\nc err\ns err\nall err\n"
INCLUDED = """all: ; @echo $(Y) all; echo a >&2
-include inc.mk
inc.mk: src ; @echo making >&2; echo Y=1 >inc.mk
src: ; @echo src >&2; touch src
"""
READ_BEFORE = "all: ; @echo $(X) [$(MAKEFILES)] [$(MAKEFILE_LIST)] [$(.LOADED)]; echo e >&2\n"
MATCHES = "all: x.q\n%: %.in ; @cp $< $@; echo any $@\n%: ; @echo match $@; touch $(notdir $@)\n"
ALL_VARIABLES = "all: ; @echo e >&2\n$(foreach v,$(sort $(.VARIABLES)),$(info $v=$(value $v)|$(origin $v)|$(flavor $v)))\n"
BACKGROUND = """all: a b
a: ; @(await go; echo late >&2; touch end) & echo now >&2
b: a ; @touch go; await end
"""
DOUBLE = "all: x\nx:: a ; @echo 1 >&2\nx:: b ; @echo 2 >&2; false\na b: ; @echo $@ >&2\n"
BELOW = "all: ; @$(MAKE) -C d; $(MAKE) -C d e 2>log; $(MAKE) -C d g 2>&1 | cat\n"
BELOW_FILES = {"d/Makefile": "x: ; @echo x >&2\ne: ; @echo to log >&2\ng: ; @echo to cat >&2\n"}
BELOW_LOGS = "redo  all\nredo    d/e\nredo    d/g\nredo    d/x\nx\n"
JOBS = "all:\n\t@echo $(MAKEFLAGS); ls -l /proc/self/fd | wc -l\n\t+@$(MAKE) -s x\nx: ; @echo $(MAKEFLAGS)\n"
WITHOUT_NUMBER = "sed 's/GMfifo[0-9]*/GMfifo/'"
MANY_NEEDS = "N := $(shell seq 1000000 1400000)\nall: $(N); @echo $(words $^) >&2\n$(N): ;\n"
AT_ONCE = "N := $(shell seq 200)\nall: $(N)\n$(N): ; @sleep 0.2; echo said $@ >&2\n"
AT_ONCE_LOGS = "redo  all\n" + "".join(f"redo    {n}\nsaid {n}\n" for n in sorted(map(str, range(1, 201))))
# With each make available: $M.
FEATURES = {
    "400,000 needs": Case(MANY_NEEDS, "$C $M", logs="redo  all\n400001\n"),
    "several lines": Case(SEVERAL, "$C $M", logs="redo  all\n1\n2\n3\n"),
    "$(shell), also in a variable that is exported": Case(FUNCTIONS, "$C $M", err="sort", logs="redo  all\nr\n"),
    "one shell for all lines": Case(".ONESHELL:\nall:\n\t@x=1\n\techo $$x >&2\n", "$C $M", logs="redo  all\n1\n"),
    **{f"-O{kind}, all of it": Case(SAID, f"$C $M -O{kind}", err="sort", logs=SAID_LOGS) for kind in KINDS},
    **{f"-O{kind}, and one fails": Case(SAID, f"$C $M -j2 -O{kind} X=1", out="sort", err="sort", logs=FAILED_LOGS) for kind in KINDS},
    "a makefile that is remade": Case(INCLUDED, "$C $M", logs="redo  all\nredo    inc.mk\nredo      src\nsrc\nmaking\na\n"),
    "-n, -q and -t": Case("all: a ; touch all\na: ; touch a\n", "$C $M -n; $C $M -q; echo $?; $C $M -t; ls", is_uncaptured=True),
    "a makefile of MAKEFILES": Case(READ_BEFORE, "MAKEFILES=pre.mk $C $M", files={"pre.mk": "X=pre\n"}, logs="redo  all\ne\n"),
    "rules that match anything": Case(MATCHES, "$C $M; ls", files={"x.q.in": ""}, logs="redo  all\nredo    x.q\n"),
    "a rule that matches anything, double-colon": Case("all: x\n%:: ; @echo match $@\n", "$C $M; ls", logs="redo  all\nredo    x\n"),
    "all variables": Case(ALL_VARIABLES, "$C $M", out="grep -v -e '^MAKEFILES=' -e '^\\.LOADED='", logs="redo  all\ne\n"),
    "a variable that is undefined": Case(UNDEFINED, "$C $M --warn-undefined-variables"),
    "a process in the background": Case(BACKGROUND, "$C $M", err="grep -v late", logs="redo  all\nredo    b\nredo      a\nnow\nlate\n"),
    "standard error is opened anew": Case(
        "all: ; @echo one >/dev/stderr; echo two >/dev/stderr; echo three >>/dev/fd/2\n", THROUGH_A_PIPE.format("$C $M"), logs="redo  all\none\ntwo\nthree\n"
    ),
    "a group of targets": Case("all: p\np q &: ; @echo pq >&2; touch p q\n", "$C $M; ls p", logs="redo  all\nredo    p\npq\n"),
    "rules with double colons": Case(DOUBLE, "$C $M -k", status=2, logs="redo  all\nredo    b\nb\nredo    x\nredo      a\na\n1\n2\nredo    x (exit 1)\n"),
    "makes below": Case(BELOW, "$C $M; cat log", files=BELOW_FILES, logs=BELOW_LOGS),
    "tokens for makes below": Case(JOBS, "$C $M -j3", out=WITHOUT_NUMBER),
    "a script without an interpreter": Case(
        "all: ; @./s a\n", "$C $M", files={"s": "echo from script $1; echo err >&2\n"}, setup="chmod +x s", logs="redo  all\nerr\n"
    ),
    "a recipe kills make": Case(
        "all: ; @echo before >&2; kill -9 $$PPID; await go; echo after >&2; touch end\n", "$C $M; status=$?; touch go; await end; exit $status", status=137,
        err=UNSEEN, logs="redo  all\nbefore\n",
    ),  # fmt: skip
    "200 recipes at once": Case(AT_ONCE, "$C $M -j200", err="sort", logs=AT_ONCE_LOGS),
}


def features(checks, at, make="make"):
    same(checks, at, FEATURES, make)


def can_be_led(make):
    """Whether this make can load objects and is dynamically linked."""
    done = subprocess.run([make, "-f", "-"], input="all: ; @echo $(filter load,$(.FEATURES))\n", env=environment(), capture_output=True, text=True)
    with open(make, "rb") as file:
        return "load" in done.stdout and b"/ld-" in file.read(4096)


NOT_CAPTURED = re.compile(rb"^\S+/capture\.def:\d+: recipes are not captured: .*\n", re.M)


def uncaptured(checks, at, make):
    """For a make that can't load the hook there is one warning, and nothing else differs."""
    outcomes = pairs({name: case._replace(logs=None) for name, case in FEATURES.items()}, at, make)
    for name, (plain, captured) in outcomes.items():
        case, what = FEATURES[name], f"{name}, {make}"
        told = len(NOT_CAPTURED.findall(captured.err))
        captured = captured._replace(err=NOT_CAPTURED.sub(b"", captured.err))
        checks.expect(what, captured.seen(case.out, case.err), plain.seen(case.out, case.err))
        checks.expect(f"{what}: how often it is told", told, case.run.count("$C"))
    nothing_in_vain(checks)


def features_of_others(checks, at):
    """Tries the features with other makes, listed in the variable MAKES and separated by colons."""
    for make in filter(None, os.environ.get("MAKES", "").split(":")):
        part = features if can_be_led(make) else uncaptured
        part(checks, lambda name: at(os.path.join(os.path.basename(make), name)), make)


BELOW_IT = "the capture directory is below that of the build"
BY_VARIABLES = "makes learn of the capture by MAKEFILES and CAPTURE_RUN"
FOUND = "all: ; @find . -newer stamp -type f | sort; find . -mindepth 1 -newer stamp -type d\n"
# What differs, and why. After the filters of the case nothing differs.
BY_DESIGN = {
    "find": (BELOW_IT, Case(FOUND, out=f"grep -v '^\\./{CAPTURES}'", setup="touch -d '1 hour ago' stamp")),
    "tar of the directory itself": (
        BELOW_IT, Case("dist: ; @tar cf - . | tar tf - | sort\n", out=f"grep -v '^\\./{CAPTURES}/'", err=f"grep -v '{CAPTURES}'")
    ),
    "the names of variables": (BY_VARIABLES, Case("all: ; @env | cut -d= -f1 | sort\n", out="grep -v -x -e MAKEFILES -e CAPTURE_RUN")),
    "the origins of variables": (
        BY_VARIABLES,
        Case("$(foreach v,MAKEFILES MAKEFLAGS MAKEFILE_LIST CURDIR,$(info $v $(origin $v)))\nall: ; @:\n", out="grep -v ^MAKEFILES"),
    ),
}
CONFIGURE = """#!/bin/sh
MAKEFILES="$MAKEFILES Makefile"
for m in $MAKEFILES; do [ -e $m.in ] || { echo cannot find $m.in >&2; exit 1; }; sed s/@X@/1/ $m.in >$m; done
"""


def by_design(checks, at):
    outcomes = pairs({name: case for name, (_, case) in BY_DESIGN.items()}, at, "make")
    for name, (plain, captured) in outcomes.items():
        why, case = BY_DESIGN[name]
        checks.expect(f"{name}: it differs, as {why}", captured.seen() == plain.seen(), False)
        checks.expect(f"{name}: nothing else differs", captured.seen(case.out, case.err), plain.seen(case.out, case.err))

    for words, status in (("./configure && make", 1), ("env -u MAKEFILES ./configure && make", 0)):
        folder = at(f"configure{status}")
        write(os.path.join(folder, "configure"), CONFIGURE)
        write(os.path.join(folder, "Makefile.in"), "all: ; @echo X is @X@\n")
        captured = ran(folder, [TOOL, "sh", "-c", words])
        if status == 0:
            checks.expect("a script that uses a variable MAKEFILES, without that of the environment", captured, (0, "X is 1\n", ""))
        else:
            found = re.fullmatch(r"cannot find \S+/capture\.def\.in\nredo-log-capture: no recipe was captured\n", captured[2])
            checks.expect("a script that uses a variable MAKEFILES", (captured[:2], bool(found)), ((1, ""), True))


PARTS = (
    signals, shells, environments, makefiles, variables_printed, limits, names, files, other_commands, texts, of_make, features, features_of_others, by_design,
)  # fmt: skip
