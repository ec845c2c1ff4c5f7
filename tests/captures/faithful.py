"""What a capture says about recipes is true: which one failed, what ended the build, what a recipe printed. And the capture keeps nothing
that others wait for."""
import array
import contextlib
import fcntl
import os
import re
import shutil
import signal
import socket
import subprocess
import termios
import time

from builds import TOOL, log_of, make, of_a_terminal, project, ran, shown, text_of, wait_for, wait_until, wait_until_recorded, write
from checks import environment, install_capture


def summary_of(folder):
    """Returns the status of each target, as the summary has it."""
    with open(os.path.join(folder, "summary"), encoding="utf-8") as rows:
        return {words[3]: words[0] for words in (row.split(" ") for row in rows.read().splitlines())}


def errors_of(err):
    """Returns the status of each target whose error make reports."""
    return dict(re.findall(r"^make(?:\[\d+\])?: \*\*\* \[[^\]]*?(\w+)\] Error (\d+)", err, re.M))


def missing_commands(checks, at):
    """make itself finds no such command, before it starts a process. The right target has failed."""
    sleeping = "until [ -e $@.go ]; do sleep 0.01; done"
    cases = {
        "the second line of a recipe, beside another one": "all: a b\na:\n\t@touch b.go; sleep 0.3\n\tnosuchcommand x\nb:\n\t@" + sleeping + "; sleep 0.6; echo b >&2\n",
        "the first line, beside another one": "all: b a\nb:\n\t@sleep 0.3; echo b >&2\na: ; nosuchcommand x\n",
        "after a line that is ignored": "all: b a\nb:\n\t@sleep 0.3; echo b >&2\na:\n\t-nosuchcommand x\n\t-nosuchcommand y\n\t@echo a >&2\n\tnosuchcommand z\n",
        "in several recipes": "all: a b c d\na: ; nosuchcommand x\nb: ; @true\n\tnosuchcommand y\nc: ; @true\nd: ; nosuchcommand z\n",
        "a file that can't be run": "all: a b\na:\n\t@touch b.go; sleep 0.2\n\t./plain x\nb:\n\t@" + sleeping + "; sleep 0.4\n",
    }
    for what, makefile in cases.items():
        folder = project(at(what.replace(" ", "-")), makefile)
        write(os.path.join(folder, "plain"), "")
        status, _, err = ran(folder, [TOOL, "--summary", "summary", "make", "-k", "-j2"])
        wanted = errors_of(ran(folder, ["make", "-k", "-j2"])[2])
        failed = {name: status for name, status in summary_of(folder).items() if status != "0"}
        checks.expect(f"missing command, {what}", (status, failed, errors_of(err)), (2, wanted, wanted))
        text = str(shown(folder, "all"))
        checks.expect(f"missing command, {what}: shown", sorted(re.findall(r"(\w+) \(exit 127\)", text)), sorted(wanted))


def second_make_of_all(checks, at):
    """Another make in the directory of the run makes `all`, while the first one starts targets that the log of `all` mentions."""
    many = "N := $(shell seq 150)\n"
    script = "make -j4 -f b.mk & sleep 0.03; make -f a.mk all; wait"
    for number in range(8):
        folder = project(at(f"script{number}"), "")
        write(os.path.join(folder, "a.mk"), "all: p; @echo all >&2\np: ; @true\n")
        write(os.path.join(folder, "b.mk"), f"{many}x: $(N)\n$(N): ; @true\n")
        status = ran(folder, [TOOL, "--quiet", "sh", "-c", script])[0]
        text = str(shown(folder, "all"))
        checks.expect("another make of `all`", (status, text.splitlines()[-1], "REDO" in text, len(re.findall(r"^redo +\d+$", text, re.M))), (0, "all", False, 150))
        folder = project(at(f"below{number}"), f"{many}x: sub $(N)\nsub: ; @$(MAKE) -s -f a.mk all\n$(N): ; @true\n")
        write(os.path.join(folder, "a.mk"), "all: ; @echo all >&2\n")
        status = ran(folder, [TOOL, "--quiet", "make", "-s", "-j4"])[0]
        text = str(shown(folder, "all"))
        checks.expect("a sub-make of `all`", (status, "REDO" in text, text.count("\nall\n"), len(re.findall(r"^redo +\d+$", text, re.M))), (0, False, 1, 150))


def ignored_signals(checks, at):
    """A signal that the build ignores doesn't interrupt it: a later failure is printed, and its target is named."""
    makefile = "all: a\na:\n\t@touch begun; until [ -e go ]; do sleep 0.01; done\n\t@echo real error of a >&2; exit 3\n"

    def ignore(kinds):
        of_a_terminal()
        for kind in kinds:
            signal.signal(kind, signal.SIG_IGN)

    def signalled(name, command, kinds, kind, whole_group):
        folder = project(at(name), makefile)
        write(os.path.join(folder, "trapping.sh"), "trap : HUP\nmake -k\nexit 5\n")
        build = subprocess.Popen([TOOL, *command], cwd=folder, env=environment(), stdout=subprocess.DEVNULL, stderr=subprocess.PIPE, text=True, preexec_fn=lambda: ignore(kinds))
        wait_for(os.path.join(folder, "begun"))
        (os.killpg if whole_group else os.kill)(build.pid, kind)
        if name == "trapped":  # the shell runs its trap when make has ended
            time.sleep(0.2)
        write(os.path.join(folder, "go"), "")
        err = build.communicate(timeout=60)[1]
        return build.returncode, "real error of a" in err, "interrupted" in err, "a (exit 3)" in err, str(shown(folder, "all"))

    text = "redo  all\nredo    a\nreal error of a\nredo    a (exit 3)\n"
    for name, kinds, kind in (("nohup", (signal.SIGHUP,), signal.SIGHUP), ("background", (signal.SIGINT, signal.SIGQUIT), signal.SIGINT)):
        for whole_group in (False, True):
            found = signalled(f"{name}{whole_group}", ["make", "-k"], kinds, kind, whole_group)
            checks.expect(f"{name}, {'to the group' if whole_group else 'to redo-log-capture'}", found, (2, True, False, True, text))
    checks.expect("trapped by a script", signalled("trapped", ["sh", "trapping.sh"], (), signal.SIGHUP, False), (5, True, False, True, text))
    # make ends itself by the signal: this is an interruption, although redo-log-capture did not get the signal.
    folder = project(at("make"), "all: a\na: ; @kill -TERM $$PPID; sleep 60\n")
    status, _, err = ran(folder, [TOOL, "make"])
    checks.expect("make is told to end by its own recipe", (status, "a (exit" in err, "make was ended by SIGTERM" in err), (-signal.SIGTERM, False, True))


def inherited_descriptors(checks, at):
    """Somebody waits until nobody has a descriptor. The process that goes on reading what a daemon prints doesn't have it."""
    makefile = "x: ; @(until [ -e go ]; do sleep 0.01; done; echo late >&2; touch ended) 3>&- >/dev/null </dev/null &\n"
    folder = project(at("pipe"), makefile)
    ends, inherited = os.pipe()
    command = ["sh", "-c", f'exec "$@" 3<&{inherited} {inherited}<&-', "sh", TOOL, "make", "-s"]
    build = subprocess.Popen(command, cwd=folder, env=environment(), pass_fds=[inherited], stderr=subprocess.DEVNULL)
    os.close(inherited)
    status = build.wait(timeout=60)
    os.set_blocking(ends, True)
    checks.expect("the descriptor is closed when the build has ended", (status, os.read(ends, 1), os.path.exists(os.path.join(folder, "ended"))), (0, b"", False))
    write(os.path.join(folder, "go"), "")
    wait_for(os.path.join(folder, "ended"))
    os.close(ends)
    inner = "x: ; @(until [ -e go ]; do sleep 0.01; done; touch ended) >/dev/null </dev/null & echo x\n"
    folder = project(at("jobs"), "all: ; +@$(TOOL) make -f inner.mk\n")
    write(os.path.join(folder, "inner.mk"), inner)
    done = subprocess.run(["make", "-s", "-j2", f"TOOL={TOOL}"], cwd=folder, env=environment(), capture_output=True, text=True, timeout=60)
    checks.expect("an outer make doesn't wait for a daemon", (done.returncode, done.stdout, os.path.exists(os.path.join(folder, "ended"))), (0, "x\n", False))
    write(os.path.join(folder, "go"), "")
    wait_for(os.path.join(folder, "ended"))


def launched_commands(checks, at):
    """--recipe runs a command as it does outside of a build, with the statuses of a shell, and records them. A shell runs a script without
    `#!`. Why a command can't be run is in the log."""
    folder = project(at("launched"), "")
    for name, text in (("script", "echo ran $* >&2; exit 5\n"), ("plain", "")):
        write(os.path.join(folder, name), text)
    os.chmod(os.path.join(folder, "script"), 0o755)
    for command in ("./script a b", "./plain", "./missing", "missing", "sh -c 'kill -9 $$'", "grep SigIgn /proc/self/status"):
        words = ["sh", "-c", f"CAPTURE='x : ' env --ignore-signal=CHLD \"$0\" --recipe {command}; exit $?", TOOL]
        (status, out, err), of_shell = ran(folder, words), ran(folder, ["sh", "-c", f"{command}; exit $?"])[0]
        found = ran(folder, [TOOL, "--quiet", "--summary", "summary", *words])[:2]
        text = re.sub("^.*Killed.*\n", "", err, flags=re.M)  # some shells print that
        recorded = (summary_of(folder)["x"], log_of(folder, "x").splitlines()[-1].split()[1], text_of(folder, "x"))
        checks.expect(f"launched: {command}", (of_shell, found, recorded), (status, (status, out), (str(status), str(status), text)))


# Lines that recipes print, and their text.
RECORDS = (
    ("@@REDO:done:1:1@@ 0 x", " @@REDO:done:1:1@@ 0 x"), ("@@REDO:", " @@REDO:"), ("@@REDO:do:7:1@@ y", " @@REDO:do:7:1@@ y"), ("a @@REDO:x", "a @@REDO:x"),
    (" @@REDO:x", " @@REDO:x"), ("@@RED", "@@RED"), ("@@", "@@"), ("@@@REDO:", "@@@REDO:"), ("@@redo:done:1:1@@ 0 x", "@@redo:done:1:1@@ 0 x"),
)  # fmt: skip


def lines_like_records(checks, at):
    """Each line that a recipe prints is text."""
    printed, text = ("\n".join(row[column] for row in RECORDS) + "\n" for column in (0, 1))
    folder = project(at("whole"), "x: ; @cat lines >&2\n")
    write(os.path.join(folder, "lines"), printed)
    checks.expect("lines like records: make", make(folder)[0], 0)
    checks.expect("lines like records", shown(folder, "x"), f"redo  x\n{text}")
    # In parts: each is written to the log before the next one arrives; without a line feed; by two lines of a recipe.
    parts = "x:\n\t@for part in @ @RE DO:done:1:1@@ ' 0 x\\n'; do printf \"$$part\" >&2; {}; done\n\t@printf @@REDO: >&2\n\t@printf '@@REDO:do:1:1@@ y' >&2\n"
    folder = project(at("parts"), parts.format("sleep 0.4"))
    checks.expect("a line like a record in parts: make", make(folder)[0], 0)
    checks.expect("a line like a record in parts", re.sub(" ", "", str(shown(folder, "x"))), "redox\n@@REDO:done:1:1@@0x\n@@REDO:\n@@REDO:do:1:1@@y\n")
    folder = project(at("launcher"), "")
    script = "CAPTURE='x : ' \"$0\" --recipe sh -c 'echo @@REDO:done:1:1@@ 0 x >&2'"
    checks.expect("by the launcher: the run", ran(folder, [TOOL, "--quiet", "sh", "-c", script, TOOL])[0], 0)
    checks.expect("by the launcher", shown(folder, "x"), "redo  x\n @@REDO:done:1:1@@ 0 x\n")
    folder = project(at("block"), "x: ; @echo @@REDO:done:1:1@@ 0 x >&2; echo more >&2; exit 3\n")
    status, _, err = make(folder)
    checks.expect("in the block of a failed recipe", (status, "\n @@REDO:done:1:1@@ 0 x\nmore\nmake: ***" in err), (2, True))


def long_logs(checks, at):
    """A log ends before it has more bytes than redo-log reads. The rest goes to standard error. The limit is lower in this program."""
    tool = install_capture(at("small"), "CFLAGS=-O2 -DMAX_TEXT=100000")
    folder = project(at("long"), "all: x y\nx: ; @seq -f 'line %05g of a long log' 1 6000 >&2; exit $(E)\ny: ; @echo y >&2\n")
    for code in (0, 3):
        status, _, err = ran(folder, [tool, "--quiet", "make", "-s", "-k", f"E={code}"])
        lines = text_of(folder, "x").splitlines()
        cut = [number for number, line in enumerate(lines) if not line.startswith("line ")]
        checks.expect(f"a long log, status {code}: its end", (len(cut), cut[-1] == len(lines) - 1, lines[-1].startswith("redo-log-capture: the log ends here")), (1, True, True))
        rest = [line for line in err.splitlines() if line.startswith("line ")]
        wanted = [f"line {number:05} of a long log" for number in range(1, 6001)]
        checks.expect(f"a long log, status {code}: no line is lost", (status, lines[:-1] + rest == wanted), (2 if code else 0, True))
        checks.expect(f"a long log, status {code}: redo-log", str(shown(folder, "all")).startswith("redo  all\nredo    x\nline 00001"), True)


def double_colons(checks, at):
    """A recipe of a double-colon rule that failed still has failed when the next one succeeds. A make that makes a target again counts."""
    folder = project(at("failed"), "all: x\nx:: ; @echo one >&2; exit 4\nx:: ; @echo two >&2\n")
    status, _, err = ran(folder, [TOOL, "--summary", "summary", "make", "-k"])
    checks.expect("the first of two fails", (status, summary_of(folder), "no recipe failed" in err), (2, {"x": "4"}, False))
    checks.expect("the first of two fails: shown", shown(folder, "all"), "redo  all\nredo    x\none\ntwo\nredo    x (exit 4)\n")
    folder = project(at("retried"), "x: ; @test -e there\n")
    status = ran(folder, [TOOL, "--summary", "summary", "sh", "-c", "make x || { touch there; make x; }"])[0]
    checks.expect("another make succeeds", (status, summary_of(folder)), (0, {"x": "0"}))
    # A recipe of `x` runs a sub-make that makes `x`. What failed there counts if this recipe fails, and what failed before does in any case.
    for name, above, below, words, wanted in (
        ("fails there, and that is ignored", "x:: ; @$(MAKE) -s -i -f below.mk x\n", "x:: ; @false\nx:: ; @true\n", [], (0, "0")),
        ("fails there", "x:: ; @$(MAKE) -s -k -f below.mk x\n", "x:: ; @exit 4\nx:: ; @true\n", [], (2, "2")),
        ("failed before", "x:: ; @exit 4\nx:: ; @$(MAKE) -s -f below.mk x\n", "x:: ; @true\nx:: ; @true\n", ["-k"], (2, "4")),
        ("failed before, and it has two lines", "x:: ; @exit 4\nx::\n\t@$(MAKE) -s -f below.mk x\n\t@true\n", "x:: ; @true\n", ["-k"], (2, "4")),
        ("failed in a line before", "x::\n\t-@exit 4\n\t@true\nx:: ; @$(MAKE) -s -f below.mk x\n", "x:: ; @true\n", ["-k"], (0, "0")),
    ):
        folder = project(at(name), above)
        write(os.path.join(folder, "below.mk"), below)
        status = ran(folder, [TOOL, "--summary", "summary", "make", "-s", *words])[0]
        found = (status, summary_of(folder)["x"], log_of(folder, "x").splitlines()[-1].split()[1])
        checks.expect(f"a make that makes its own target: a recipe {name}", found, (*wanted, wanted[1]))
    # The makes of `one` and `two` make `x` at the same time. Nothing fails in the one that ends last.
    wait = "until [ -e {} ]; do sleep 0.01; done"
    folder = project(at("beside"), "all: one two\none two: ; @$(MAKE) -s -f $@.mk x\n")
    write(os.path.join(folder, "one.mk"), f"x:: ; @touch first; {wait.format('failed')}\nx:: ; @touch second\n")
    write(os.path.join(folder, "two.mk"), f"x:: ; @{wait.format('first')}; exit 4\nx:: ; @touch failed; {wait.format('second')}\n")
    status = ran(folder, [TOOL, "--summary", "summary", "make", "-skj2"])[0]
    statuses = [re.findall(r"^@@REDO:done:.*@@ (\d+) x$", log_of(folder, name), re.M) for name in ("one", "two")]
    checks.expect("two makes of a target at the same time", (status, statuses), (2, [["0"], ["4"]]))


def unended_lines(checks, at):
    """A process that a line left behind writes each line in two parts, at the moments when other lines end."""
    recipe = "all:\n\t@sh bg >/dev/null & until [ -e begun ]; do sleep 0.01; done\n" + "\t@sleep 0.002\n" * 30 + "\t@touch stop; until [ -e ended ]; do sleep 0.01; done\n"
    folder = project(at("parts"), recipe)
    write(os.path.join(folder, "bg"), "touch begun\nwhile [ ! -e stop ]; do printf aaaa >&2; printf 'bbbb\\n' >&2; done\ntouch ended\n")
    checks.expect("unended lines: make", make(folder)[0], 0)
    lines = text_of(folder, "all").splitlines()
    checks.expect("unended lines", ({line for line in lines if line != "aaaabbbb"}, len(lines) > 30), (set(), True))
    folder = project(at("failed"), "x: ; @printf 'unended' >&2; exit 3\n")
    checks.expect("an unended line of a recipe that failed", "\nunended\nmake: ***" in make(folder)[2], True)


def closed_outputs(checks, at):
    """An output that was closed stays closed."""
    makefile = "all: a b\na:\n\t@echo out a\n\t@echo err a >&2 && echo ok >ok\nb: ; @ls /proc/self/fd | wc -l >fds\n"
    for closing in ("2>&-", ">&-", "<&-", ">&- 2>&-", "<&- >&- 2>&-"):
        found = []
        for side, front in (("plain", []), ("captured", [TOOL])):
            folder = project(at(closing.translate({ord(byte): str(place) for place, byte in enumerate("<>&- ")}) + side), makefile)
            done = subprocess.run(["sh", "-c", f'"$@" {closing}', "sh", *front, "make", "-k"], cwd=folder, env=environment(), stdout=subprocess.PIPE, stderr=subprocess.DEVNULL)
            with open(os.path.join(folder, "fds"), encoding="utf-8") as count:
                found.append((done.returncode, os.path.exists(os.path.join(folder, "ok")), count.read(), done.stdout))
        checks.expect(f"closed by {closing}", found[1], found[0])


def first_process(checks, at):
    """redo-log-capture is the first process of a container. Orphans become its children, and it reaps them."""
    if subprocess.run(["unshare", "-fp", "--mount-proc", "true"], capture_output=True).returncode != 0:
        print("captures: first_process is left out: no process may have its own namespace")
        return
    recipe = "all: ; @for i in 1 2 3 4 5 6 7 8; do sh -c 'sleep 0.01 & exit'; done; until [ $$(ps -e -o stat= | grep -c Z) = 0 ]; do sleep 0.05; done; echo none is left\n"
    folder = project(at("orphans"), recipe)
    done = subprocess.run(["timeout", "60", "unshare", "-fp", "--mount-proc", "--kill-child", TOOL, "make"], cwd=folder, env=environment(), capture_output=True, text=True)
    checks.expect("orphans are reaped", (done.returncode, done.stdout), (0, "none is left\n"))


def names_with_spaces_finished(checks, at):
    """--finish restores names that begin with spaces."""
    folder = project(at("killed"), "")
    script = "CAPTURE='  x : ' \"$0\" --recipe sh -c 'echo said >&2'; touch begun; exec sleep 60"
    build = subprocess.Popen([TOOL, "sh", "-c", script, TOOL], cwd=folder, env=environment(), stderr=subprocess.DEVNULL, preexec_fn=of_a_terminal)
    wait_for(os.path.join(folder, "begun"))
    wait_until_recorded(build, "the log", lambda: shown(folder, "./  x") == "redo    x\nsaid\n")
    os.killpg(build.pid, signal.SIGKILL)
    build.wait()
    checks.expect("a name with spaces before it: finished", ran(folder, [TOOL, "--must-close", "--finish"]), (0, "", ""))
    checks.expect("a name with spaces before it", ("@@REDO:done" in log_of(folder, "  x"), shown(folder, "./  x")), (True, "redo    x\nsaid\n"))


def unread_output(checks, at):
    """Nobody reads standard error, whose pipe is full, when a signal arrives. Once somebody reads, the build ends as without a capture."""
    for front in ([], [TOOL], [TOOL, "--live"]):
        folder = project(at(f"unread{len(front)}"), "all: a b\na: ; @seq 30000 >&2; exit 1\nb: ; @touch begun; exec sleep 60\n")
        there, end = os.pipe()
        build = subprocess.Popen([*front, "make", "-k", "-j2"], cwd=folder, env=environment(), stdout=subprocess.DEVNULL, stderr=end, preexec_fn=of_a_terminal)
        os.close(end)
        wait_for(os.path.join(folder, "begun"))
        # Some process waits for the reader: without a capture, it is a recipe.
        wait_until("the pipe is full", lambda: len(os.read(there, 1)) == 1 and full(there))
        build.terminate()
        time.sleep(0.5)  # the signal has an effect before somebody reads, or has none
        while os.read(there, 65536):
            pass
        os.close(there)
        checks.expect(f"nobody reads: {front[:1]} {front[1:]}", build.wait(timeout=60), -signal.SIGTERM)


def full(pipe):
    """Whether a pipe contains all that it can, but for one page."""
    count = array.array("i", [0])
    fcntl.ioctl(pipe, termios.FIONREAD, count)
    return count[0] > 60000


def flood(name, told, hold):
    """As another user, connects to a socket many times, reports how often that worked, and waits."""
    os.setgroups([])
    os.setuid(65534)
    held = []
    for _ in range(900):
        with contextlib.suppress(OSError):
            one = socket.socket(socket.AF_UNIX, socket.SOCK_SEQPACKET)
            one.settimeout(1)
            one.connect("\0" + name)
            held.append(one)
    os.write(told, b"%d\n" % len(held))
    os.read(hold, 1)


def crowded_socket(checks, at):
    """Another user connects more often than redo-log-capture may have files open. Each make still finds it."""
    if os.geteuid() != 0:
        print("captures: crowded_socket is left out: only root can become another user")
        return
    wait = "until [ -e go ]; do sleep 0.01; done"
    folder = project(at("crowded"), f"all:\n\t@echo $$CAPTURE_RUN >new; mv new run; {wait}\n\t@echo said >&2; $(MAKE) -s below\nbelow: ; @echo below >&2\n")
    command = ["sh", "-c", 'ulimit -n 200 && exec "$0" "$@"', TOOL, "make", "-s"]
    build = subprocess.Popen(command, cwd=folder, env=environment(), stderr=subprocess.PIPE, text=True)
    wait_for(os.path.join(folder, "run"))
    with open(os.path.join(folder, "run"), encoding="utf-8") as run:
        name = run.read().split(":")[0]
    (ready, told), (hold, release) = os.pipe(), os.pipe()
    process = os.fork()
    if process == 0:
        try:
            flood(name, told, hold)
        finally:
            os._exit(0)
    os.close(told)
    connected = int(os.read(ready, 100) or b"0")
    write(os.path.join(folder, "go"), "")
    err = build.communicate(timeout=60)[1]
    os.write(release, b"x")
    os.waitpid(process, 0)
    for descriptor in (ready, hold, release):
        os.close(descriptor)
    checks.expect("crowded socket", (connected > 200, build.returncode, "not captured" in err), (True, 0, False))
    checks.expect("crowded socket: shown", shown(folder, "all"), "redo  all\nredo    below\nbelow\nsaid\n")


def stale_variables(checks, at):
    """A shell that was started in a build has the variables of that build when the build has ended."""
    folder = project(at("stale"), "all: ; @echo said >&2\nenv: ; @printenv CAPTURE_RUN >run; printenv MAKEFILES >makefiles\n")
    checks.expect("a build: make", make(folder, "env")[0], 0)
    with open(os.path.join(folder, "run"), encoding="utf-8") as run, open(os.path.join(folder, "makefiles"), encoding="utf-8") as makefiles:
        stale = {"CAPTURE_RUN": run.read().strip(), "MAKEFILES": makefiles.read().strip()}
    checks.expect("a build after it: make", make(folder, "all", more=stale), (0, "", ""))
    checks.expect("a build after it", shown(folder, "all"), "redo  all\nsaid\n")
    plain = ran(folder, ["make", "all"], stale)
    checks.expect("make itself isn't captured", plain, (0, "", "said\n"))
    folder, other = project(at("other"), "all: ; @echo $(X); $(MAKE) -s sub\nsub: ; @echo $(X)\n"), stale["MAKEFILES"] + ".mk"
    write(other, "X = other\n")
    checks.expect("another makefile whose path begins as that of the capture", make(folder, more={"MAKEFILES": other}), (0, "other\nother\n", ""))
    os.remove(other)


def last_argument(checks, at):
    """bash sets the variable _ for the command that it runs, and other shells pass it on."""
    folder = project(at("argument"), "all: ; @echo $$_\n")
    for shell, front in (("bash", ""), ("dash", "_=x "), ("bash", "_=x ")):
        if shutil.which(shell):
            found = [ran(folder, [shell, "-c", f"{front}{tool}make -s; true"]) for tool in ("", f"{TOOL} ")]
            checks.expect(f"the variable _, {shell}, {front}", found[1][:2], found[0][:2])


PARTS = (
    crowded_socket, stale_variables, last_argument, missing_commands, launched_commands, second_make_of_all, ignored_signals, inherited_descriptors, lines_like_records, long_logs, double_colons, unended_lines, closed_outputs,
    first_process, names_with_spaces_finished, unread_output,
)  # fmt: skip
