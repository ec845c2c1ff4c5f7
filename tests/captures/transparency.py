"""A build can't notice that it is captured: the same builds with and without redo-log-capture."""
import os
import re
import resource
import signal
import subprocess
import sys

from builds import MOST_SECONDS, TOOL, lines_of_others, log_of, make, of_a_terminal, project, ran, said, shown, text_of, wait_for, wait_until, wait_until_recorded, without_printed, write
from checks import CAPTURES, TOP, contents, environment

OPENED = {
    "sh": "echo x >/dev/stderr",
    "a number": "echo x >/proc/self/fd/2",
    "tee": "echo x | tee /dev/stderr >/dev/null",
    "python3": """python3 -c 'open("/dev/stderr", "w").write("x\\n")'""",
}


def opened_anew(checks, at):
    """Standard error that a recipe opens again, by its path, isn't truncated."""
    for name, way in OPENED.items():
        for options in ((), ("--both",)):
            folder = project(at(f"{name}{len(options)}"), f"all: need\n\t@echo before >&2\n\t@echo too >&2; {way}; echo behind >&2\nneed: ; @echo need >&2\n")
            checks.expect(f"opened by {name}: make", make(folder, options=options), (0, "", ""))
            checks.expect(f"opened by {name}", shown(folder, "all"), "redo  all\nredo    need\nneed\nbefore\ntoo\nx\nbehind\n")
    folder = project(at("out"), "all: ; @echo before; echo x >/dev/stdout; echo y >/proc/self/fd/1; echo behind >&2\n")
    checks.expect("both, opened: make", make(folder, options=["--both"]), (0, "", ""))
    checks.expect("both, opened", shown(folder, "all"), "redo  all\nbefore\nx\ny\nbehind\n")


# A program that writes half of its output and is killed. make starts it itself, or a shell does, or it is the shell.
GENERATOR = "#!/bin/sh\necho half >$1\nkill -$2 $$\n"
STARTED = {"directly": "./gen x {}", "with quotes": "./gen 'x' {} \\\n\tmore", "by a shell": "cd . && ./gen x {}", "as the shell": "@echo half >x; kill -{} $$$$"}
KINDS = ("SEGV", "KILL", "TERM", "ABRT", "PIPE")


def without_core():
    resource.setrlimit(resource.RLIMIT_CORE, (0, 0))


def outcome(folder, command):
    """The statuses, lines of standard error except messages of the capture, and files of two builds."""
    answers = []
    for _ in range(2):
        done = subprocess.run(command, cwd=folder, env=environment(), capture_output=True, text=True, preexec_fn=without_core)
        lines = sorted(lines_of_others(done.stderr))
        answers.append((done.returncode, lines, sorted(set(os.listdir(folder)) - {CAPTURES})))
    return answers


def killed_by_signals(checks, at):
    """make sees the signal that ends its child. It removes the incomplete file, and the next make fails again."""
    for kind in KINDS:
        for name, line in STARTED.items():
            for words in ([], ["-k", "-j3"], ["-i"]):
                folders = []
                for side in ("without", "with"):
                    folder = project(at(f"{kind}{name}{len(words)}{side}"), f"all: x y\n\t@cat x\nx:\n\t{line.format(kind)}\ny: ; @sleep 0.01\n")
                    write(os.path.join(folder, "gen"), GENERATOR)
                    os.chmod(os.path.join(folder, "gen"), 0o755)
                    folders.append(folder)
                plain = outcome(folders[0], ["make", *words])
                checks.expect(f"killed by {kind}, {name}, {words}", outcome(folders[1], [TOOL, "make", *words]), plain)
    folder = project(at("status"), "all: ; ./gen x SEGV\n")
    write(os.path.join(folder, "gen"), GENERATOR)
    os.chmod(os.path.join(folder, "gen"), 0o755)
    outcome(folder, [TOOL, "make"])
    checks.expect("the status in the log", log_of(folder, "all").endswith(" 139 all\n"), True)


# Notes the signals that it gets, up to TERM.
RECORDER = """import signal
kinds = {signal.SIGUSR1, signal.SIGUSR2, signal.SIGTERM}
signal.pthread_sigmask(signal.SIG_BLOCK, kinds)
with open("got", "w", buffering=1) as got:
    kind = None
    while kind != signal.SIGTERM:
        kind = signal.Signals(signal.sigwait(kinds))
        print(kind.name, file=got)
"""


def late_witness(checks, at):
    """The process that says whether the group got a signal, too, is stopped and replies too late. Its reply isn't taken for the next one."""
    folder = project(at("late"), "")
    write(os.path.join(folder, "recorder.py"), RECORDER)
    command = [TOOL, sys.executable, "-SE", "recorder.py"]
    build = subprocess.Popen(command, cwd=folder, env=environment(), stderr=subprocess.DEVNULL, preexec_fn=of_a_terminal)
    find = ["pgrep", "-P", str(build.pid), "-x", "capture-group"]
    wait_for(os.path.join(folder, "got"))
    wait_until("the witness runs", lambda: subprocess.run(find, stdout=subprocess.DEVNULL).returncode == 0)
    witness = int(subprocess.run(find, stdout=subprocess.PIPE, check=True).stdout)
    os.kill(witness, signal.SIGSTOP)
    wait_until("the witness is stopped", lambda: contents(f"/proc/{witness}/stat").rsplit(")", 1)[1].split()[0] == "T")
    os.kill(witness, signal.SIGUSR1)
    os.kill(build.pid, signal.SIGUSR1)
    wait_until("the first signal is forwarded", lambda: contents(os.path.join(folder, "got")) == "SIGUSR1\n")
    os.kill(witness, signal.SIGCONT)
    for kind in (signal.SIGUSR2, signal.SIGTERM):
        os.kill(build.pid, kind)
    checks.expect("a late witness: status", build.wait(timeout=MOST_SECONDS), 0)
    checks.expect("a late witness: signals", contents(os.path.join(folder, "got")).split(), ["SIGUSR1", "SIGUSR2", "SIGTERM"])


def as_make_starts_them(checks, at):
    """Lines that make starts without a shell have the same arguments."""
    lines = [
        "a b  c", "a'b c'd", "''", "a '' b", "\\a\\ b", "a\\\\b", "'a\\b'", "a=b c=d", "a\\=b", "'x=y'", "a \\\n\tb", "a\\\n\tb", "'a\\\n\tb'",
        "a 'it'\\''s'", "x '~' '*' '$$' '\"' '#'", "-n", "a \\\n", "\\'", "a\\", "é ü", "%", "@x +y -z", "a,b:c/d.e",
    ]  # fmt: skip
    makefile = "all:\n" + "".join(f"\t@./words {line}\n" for line in lines) + "\t@'./words' 1\n\t@./wor''ds 2\n\t@A=1 ./words 3\n"
    told = []
    for side in ([], [TOOL, "--quiet"]):
        folder = project(at(f"words{len(side)}"), makefile)
        write(os.path.join(folder, "words"), "#!/bin/sh\nprintf '<%s>' \"$@\"\necho\n")
        os.chmod(os.path.join(folder, "words"), 0o755)
        told.append(ran(folder, [*side, "make"]))
    checks.expect("words of lines without a shell", told[1], told[0])
    checks.expect("words of lines without a shell: all of them", told[0][1].count("\n") >= len(lines), True)


def many_needs(checks, at):
    """A target with 20,000 prerequisites of 70 bytes each, under a stack of 4 MiB; and targets whose prerequisites are slightly too many
    for an environment variable."""
    names = [f"{number:070}" for number in range(20000)]
    makefile = f"NAMES = {' '.join(names)}\nall: $(NAMES)\n\t@echo linked $(words $^) >&2\n\t@echo $(words $+) again >&2\n$(filter-out %0007,$(NAMES)): ;\n"
    folder = project(at("many"), makefile + "%0007: ; @echo $@ >&2\n")
    command = ["sh", "-c", 'ulimit -s 4096; exec "$@"', "limit", TOOL, "make", "-j4"]
    status, out, told = ran(folder, command)
    checks.expect("20,000 needs: make", (status, out, without_printed(told)), (0, "", ""))
    made = [name for name in names if name.endswith("0007")]
    text = "redo  all\n" + "".join(f"redo    {name}\n{name}\n" for name in made) + "linked 20000\n20000 again\n"
    checks.expect("20,000 needs", shown(folder, "all"), text)
    for count in (23, 24, 25, 26):
        names = " ".join(f"n{number}" for number in range(count))
        folder = project(at(f"some{count}"), f"all: {names} | last\n\t@echo all >&2\n\t@exit 0\n{names} last: ; @echo $@ >&2\n")
        text = "redo  all\n" + "".join(f"redo    {name}\n{name}\n" for name in [*names.split(), "last"]) + "all\n"
        checks.expect(f"{count} needs", (make(folder, "-j3"), shown(folder, "all")), ((0, "", ""), text))


def closing(*numbers):
    return lambda: [os.close(number) for number in numbers]


def opening():
    reading, writing = os.pipe()
    os.dup2(reading, 7)
    os.dup2(writing, 9)


def limiting():
    for kind, soft, hard in ((resource.RLIMIT_FSIZE, 10**7, 10**8), (resource.RLIMIT_NOFILE, 64, 512), (resource.RLIMIT_STACK, 4 << 20, 8 << 20)):
        resource.setrlimit(kind, (soft, hard))
    os.umask(0o077)
    os.nice(3)


HEEDED = (signal.SIGINT, signal.SIGHUP, signal.SIGTERM, signal.SIGQUIT, signal.SIGUSR1, signal.SIGPIPE, signal.SIGXFSZ)
SURROUNDINGS = {
    "as it is": lambda: None,
    "signals ignored": lambda: [signal.signal(kind, signal.SIG_IGN) for kind in HEEDED],
    "signals heeded": lambda: [signal.signal(kind, signal.SIG_DFL) for kind in HEEDED],
    "signals blocked": lambda: signal.pthread_sigmask(signal.SIG_BLOCK, {signal.SIGCHLD, *HEEDED}),
    "the end of children ignored": lambda: signal.signal(signal.SIGCHLD, signal.SIG_IGN),
    "no standard input": closing(0),
    "no standard error": closing(2),
    "no standard file": closing(0, 1, 2),
    "files open": opening,
    "limits": limiting,
}
PROBING = """
all: a sub
a:
	@python3 -SE probe.py told directly 'a b' \\c
	@: ; python3 -SE probe.py told "by $$0 $$# $$-"
	-+@python3 -SE probe.py told marked
	@./unmarked told "by no kernel"
sub: a
	@$(MAKE) -C d -f ../Makefile inner
inner:
	@python3 -SE ../probe.py ../told inner
	@: ; python3 -SE ../probe.py ../told "inner by $$0"
"""


def probed(folder, command, before):
    """What the recipes of a build report about themselves, and its status. The build must end within a minute."""
    project(folder, PROBING)
    os.makedirs(os.path.join(folder, "d"))
    os.symlink(os.path.join(TOP, "tests/captures/probe.py"), os.path.join(folder, "probe.py"))
    # A script that the kernel can't start, so that a shell must.
    write(os.path.join(folder, "unmarked"), 'python3 -SE probe.py "$@"\n')
    os.chmod(os.path.join(folder, "unmarked"), 0o755)
    words = environment({"SESSION": str(os.getsid(0)), "GROUP": str(os.getpgrp()), "PWD": folder})
    done = subprocess.run(command, cwd=folder, env=words, stdin=subprocess.DEVNULL, stdout=subprocess.DEVNULL, stderr=subprocess.DEVNULL, preexec_fn=before, timeout=60)
    # make gives its temporary files random names.
    with open(os.path.join(folder, "told"), encoding="utf-8") as told:
        return done.returncode, [re.sub(r"/tmp/(#|GM?)\w+", "/tmp/..", line.replace(folder, "FOLDER")) for line in told]


def surroundings(checks, at):
    """A probe finds the same files, signals, limits, permissions, variables, group and session."""
    for name, before in SURROUNDINGS.items():
        for words in [["-j3"]] if name != "as it is" else [[], ["-j3", "-O"], ["-k", "SHELL=/bin/bash"], ["-j3"]]:
            sides = [probed(at(f"{name}{len(words)}{len(side)}{words[1:]}"), [*side, "make", *words], before) for side in ([], [TOOL])]
            different = [(line, other) for line, other in zip(sides[0][1], sides[1][1]) if line != other]
            what = f"a recipe's surroundings, {name}, {words}"
            checks.expect(what, (sides[1][0], len(sides[1][1]), different[:3]), (sides[0][0], len(sides[0][1]), []))
            checks.expect(f"{what}: all recipes", sum(line.startswith("('words'") for line in sides[0][1]), 6)


FLAGS = (
    ".SHELLFLAGS := -ec", ".SHELLFLAGS := -c 'eval \"$$0\"'", ".SHELLFLAGS = -c 'x=\\#1; eval \"$$0\"'", ".SHELLFLAGS = -$(if $(filter b,$@),e)c",
    "define .SHELLFLAGS\n-e\n-c\nendef", "export .SHELLFLAGS = -ec", "FLAGS = -u\n.SHELLFLAGS = $(FLAGS) -c\nFLAGS = -e", ".POSIX:", "",
)  # fmt: skip


def flags_of_the_shell(checks, at):
    """The shell has the flags that a makefile sets, expanded as often as by make."""
    for number, line in enumerate(FLAGS):
        makefile = f"{line}\nall: a b\na: ; @echo said $$- >&2; echo \"a $$-\"\nb: ; @echo \"b $$-\"; false; true\n"
        status, out, said = ran(project(at(f"plain{number}"), makefile), ["make", "-s"])
        folder = project(at(f"captured{number}"), makefile)
        checks.expect(f"flags, {line}: make", make(folder, "-s", options=["--quiet"])[:2], (status, out))
        checks.expect(f"flags, {line}: the log", text_of(folder, "a").splitlines()[:1], said.splitlines()[:1])


def makes_anything(checks, at):
    """A match-anything rule doesn't remake the file that a capture makes make read, and make reports nothing about its definitions."""
    makefile = "%: force ; @echo making $@ >&2\nforce: ;\nMakefile: ;\n"
    for words in ([], ["--warn-undefined-variables"], ["-R", "-r"]):
        plain = ran(project(at(f"without{words}"), makefile), ["make", *words, "x", "y"])
        folder = project(at(f"with{words}"), makefile)
        checks.expect(f"a rule that makes anything, {words}", make(folder, *words, "x", "y", options=["--live"]), (0, "", "redo-log-capture: x\nmaking x\nredo-log-capture: y\nmaking y\n"))
        checks.expect(f"the same without a capture, {words}", plain, (0, "", "making x\nmaking y\n"))


def behind_the_build(checks, at):
    """Once the build has ended, no process holds the descriptors of the capture, and nothing waits for background processes."""
    folder = project(at("held"), "all: ; @echo said >&2; sleep 60 >/dev/null & echo $$! >pid\n")
    done = subprocess.run([TOOL, "make", "-j2"], cwd=folder, env=environment(), stdin=subprocess.DEVNULL, capture_output=True, text=True, timeout=30)
    checks.expect("a process that is left behind holds nothing", (done.returncode, done.stdout, without_printed(done.stderr)), (0, "", ""))
    with open(os.path.join(folder, "pid"), encoding="utf-8") as number:
        os.kill(int(number.read()), signal.SIGKILL)

    count = 40
    names = " ".join(map(str, range(count)))
    makefile = f"all: {names}\n\t@until [ $$(grep -l late {CAPTURES}/log.* | wc -l) = {count} ]; do sleep 0.01; done\n"
    folder = project(at("many"), makefile + f"{names}: ; @echo first $@ >&2; {{ sleep 0.$$(($@ % 7)); echo late $@ >&2; }} >/dev/null &\n")
    checks.expect("many are left behind: make", make(folder, "-j8"), (0, "", ""))
    said = [text_of(folder, str(number)).splitlines() for number in range(count)]
    checks.expect("many are left behind", said, [[f"first {number}", f"late {number}"] for number in range(count)])

    folder = project(at("goes-on"), "all: ; @{ until [ -e go ]; do sleep 0.01; done; for n in 1 2 3; do echo $$n >&2 || exit; done; touch lived; } >/dev/null & echo all >&2\n")
    checks.expect("one goes on: make", make(folder), (0, "", ""))
    write(os.path.join(folder, "go"), "")
    wait_for(os.path.join(folder, "lived"))
    checks.expect("what it says behind the build comes into no log", shown(folder, "all"), "redo  all\nall\n")


def in_mid_line(checks, at):
    """An unended line is shown, and no record is written into the middle of it."""
    makefile = f"all: ; @printf 'is it there? ' >&2; until grep -qs 'is it there' {CAPTURES}/log.*; do sleep 0.01; done; $(MAKE) -s sub; echo yes >&2\n"
    folder = project(at("record"), makefile + "sub: ; @echo sub >&2; touch begun; until [ -e go ]; do sleep 0.01; done\n")
    build = subprocess.Popen([TOOL, "make"], cwd=folder, env=environment())
    wait_for(os.path.join(folder, "begun"))
    wait_until_recorded(build, "sub has spoken", lambda: text_of(folder, "sub") == "sub\n")
    checks.expect("a line that goes on, and a record", shown(folder, "all"), "redo  all\nis it there? \nredo    sub\nsub\n")
    write(os.path.join(folder, "go"), "")
    checks.expect("when it has ended", (build.wait(), shown(folder, "all")), (0, "redo  all\nredo    sub\nsub\nis it there? yes\n"))

    folder = project(at("question"), "all: ; @printf 'go on? ' >&2; read answer; echo $$answer >&2\n")
    build = subprocess.Popen([TOOL, "make"], cwd=folder, env=environment(), stdin=subprocess.PIPE)
    wait_until("the question is there", lambda: shown(folder, "all") == "redo  all\ngo on? \n")
    build.communicate(b"yes\n", timeout=30)
    checks.expect("a question and its answer", (build.returncode, shown(folder, "all")), (0, "redo  all\ngo on? yes\n"))


def much_is_said(checks, at):
    """Megabytes from several recipes at the same time, a line of 20 MB, and an unended line."""
    line = "import sys; n = sys.argv[1]; [sys.stderr.write(f'{n} {i:060}\\n') for i in range(50000)]"
    write(os.path.join(at("large"), "say.py"), line)
    long = "head -c 20000000 /dev/zero | tr '\\0' x >&2"
    folder = project(at("large"), f"all: 0 1 2 3 long\n0 1 2 3: ; @{sys.executable} say.py $@\nlong: ; @{long}\n")
    checks.expect("much is said: make", make(folder, "-j5", options=["--quiet"]), (0, "", ""))
    for number in range(4):
        text = "".join(f"{number} {i:060}\n" for i in range(50000))
        checks.expect(f"much is said by {number}", text_of(folder, str(number)) == text, True)
    checks.expect("a line of 20 MB", text_of(folder, "long") == "x" * 20000000 + "\n", True)


# A makefile in which `below` prints one line on standard error and one on standard output, and what must be in a file afterwards.
ELSEWHERE = {
    "a file": ("$(MAKE) -s below 2>found", "said\n"),
    "a file that is added to": ("echo more >found; $(MAKE) -s below 2>>found", "more\nsaid\n"),
    "both to a file": ("$(MAKE) -s below >found 2>&1", "said\nout\n"),
    "a pipe": ("$(MAKE) -s below 2>&1 | sed 's/^/read: /' >found", "read: said\nread: out\n"),
    "a shell": ("(exec 2>found; $(MAKE) -s below)", "said\n"),
    "nowhere": ("$(MAKE) -s below 2>/dev/null >found", "out\n"),
    "a pipe of a make below": ("$(MAKE) -s through 2>&1 | sed 's/^/read: /' >found", "read: said\nread: out\n"),
    "a pipe, of one that fails": ("$(MAKE) -s fails 2>/dev/null || echo $$? >found", "2\n"),
    "a word": ("x=$$($(MAKE) -s below 2>/dev/null); echo got $$x >found", "got out\n"),
    "a word of both": ("x=$$($(MAKE) -s below 2>&1); echo got $$x >found", "got said out\n"),
    "a function": (": $(shell $(MAKE) -s below 2>&1 >/dev/null | sed 's/^/read: /' >found)", "read: said\n"),
}


def sent_elsewhere(checks, at):
    """The output of sub-makes goes where a recipe redirects it, in order. Output that isn't redirected goes into the logs."""
    for name, (recipe, found) in ELSEWHERE.items():
        makefile = f"all: ; @echo begun >&2; {recipe}; echo ended >&2\nbelow: ; @echo said >&2; echo out\nthrough: ; @$(MAKE) -s below\nfails: ; @echo said >&2; exit 3\n"
        plain = project(at(f"{name}, plain"), makefile)
        status, out, _ = ran(plain, ["make"])
        with open(os.path.join(plain, "found"), encoding="utf-8") as file:
            checks.expect(f"sent to {name}, without a capture", (status, file.read()), (0, found))
        for options in ((), ("--both",), ("--live",)):
            folder = project(at(f"{name}{options}"), makefile)
            told = "redo-log-capture: all\nbegun\nended\n" if "--live" in options else ""
            checks.expect(f"sent to {name}, {options}: make", make(folder, options=options), (0, "" if "--both" in options else out, told))
            with open(os.path.join(folder, "found"), encoding="utf-8") as file:
                checks.expect(f"sent to {name}, {options}", file.read(), found)
            checks.expect(f"sent to {name}, {options}: the log", text_of(folder, "all"), "begun\nended\n")

    folder = project(at("script"), "all: ; @echo said >&2; echo out\n")
    write(os.path.join(folder, "build"), "make -s 2>&1 | tee found\necho behind >&2\n")
    checks.expect("a script that sends it elsewhere", ran(folder, [TOOL, "--quiet", "sh", "build"]), (0, "said\nout\n", "behind\n"))
    checks.expect("it is not captured then", shown(folder, "all"), "redo  all\n")


def removed(checks, at):
    """A recipe may remove the capture directory. Recipes that run later are captured."""
    makefile = f"all: clean x\n\t@echo all >&2\nclean: first\n\t@echo cleaned >&2; rm -rf {CAPTURES}\nfirst x: ; @echo $@ >&2\n"
    folder = project(at("clean"), makefile)
    told = f"redo-log-capture: {folder}/{CAPTURES} was removed; its captures are lost\n"

    def made(*words):
        """What the recipe printed before is lost, or printed, as it was read before or after."""
        status, out, err = make(folder, *words)
        return status, out, err.replace("cleaned\n", "")

    checks.expect("the captures are removed: make", made(), (0, "", told))
    checks.expect("what runs later", shown(folder, "all"), "redo  all\nredo    x\nx\nall\n")
    checks.expect("the last recipe removes them", made("clean"), (0, "", told + "redo-log-capture: no recipe was captured\n"))
    folder = project(at("fails"), f"all: ; @rm -rf {CAPTURES}; kill -9 $$$$\n")
    told = told.replace("clean/", "fails/") + "make: *** [Makefile:1: all] Killed\nredo-log-capture: no recipe was captured\n"
    status, out, err = make(folder)
    checks.expect("and fails", (status, out, err.removeprefix(said("all", 137, f"rm -rf {CAPTURES}; kill -9 $$"))), (2, "", told))


def no_leftovers(checks, at):
    """A build leaves nothing in TMPDIR and needs nothing in it."""
    folder, temporary = project(at("project"), "all: ; @echo said >&2; exit $(E)\nwaits: ; @touch begun; exec sleep 60\n"), at("temporary")
    os.mkdir(temporary)
    more = {"TMPDIR": temporary}
    for words, status in ((["make", "E=0"], 0), (["make", "E=1"], 2), (["nope"], 127), (["--dir", "Makefile", "make"], 1), (["make", "-n"], 0)):
        done = ran(folder, [TOOL, *words], more)
        checks.expect(f"nothing is left of {words}", (done[0], os.listdir(temporary)), (status, []))
    for kind in (signal.SIGINT, signal.SIGKILL):
        build = subprocess.Popen([TOOL, "make", "waits"], cwd=folder, env=environment(more), stderr=subprocess.DEVNULL, preexec_fn=of_a_terminal)
        wait_for(os.path.join(folder, "begun"))
        os.remove(os.path.join(folder, "begun"))
        os.killpg(build.pid, kind)
        # If make sees the end of its recipe before its own signal, it exits with 2, as without a capture.
        checks.expect(f"nothing is left of a build that gets {kind.name}", (build.wait(timeout=30) in (-kind, 2), os.listdir(temporary)), (True, []))
    for place in ("nowhere", at("with space"), "", at("x" * 120)):
        told = said("all", 1, "echo said >&2; exit 1", "said\n")
        checks.expect(f"TMPDIR={place}", ran(folder, [TOOL, "make", "E=1"], {"TMPDIR": place})[2].startswith(told), True)


PARTS = (opened_anew, killed_by_signals, late_witness, as_make_starts_them, many_needs, surroundings, flags_of_the_shell, makes_anything, behind_the_build, in_mid_line, much_is_said, sent_elsewhere, removed, no_leftovers)
