"""A build goes on as without a capture if system calls of make or redo-log-capture fail, if memory or descriptors run out, and if a
process pretends to be a make. No line is lost: each line that recipes print is in a log or on standard error."""
import array
import contextlib
import fcntl
import glob
import itertools
import os
import random
import re
import select
import shutil
import signal
import socket
import struct
import subprocess
import tempfile
import threading
import time
from collections import Counter
from concurrent.futures import ThreadPoolExecutor
from pathlib import Path

from builds import TOOL, preloaded, project, ran, shown, text_of, wait_for, wait_until, write
from checks import CAPTURES, environment, install_capture

# A build that takes longer than this, in seconds, hangs. On an idle machine these builds take less than one second.
MOST = 60
# A part that has thousands of runs ends after this number of failed runs.
ENOUGH = 5
# If something may fail at its n-th time, the first times are all tried, and then one in this number.
ALL_OF, ONE_OF = 60, 7

# A build that prints each line once in each make. Some of its recipes fail with the status E.
BUILD = r"""
TOLD := $(shell echo function said >&2)
all: x y sub lines $(if $(filter-out 0,$E),nothing)
	@echo all said >&2; echo all >all
x y: ; @echo $@ said >&2; echo $@ printed; echo $@ >$@; [ $@ = x ] || exit $E
sub: ; @echo sub begins >&2; $(TRACED) $(MAKE) -s -k below beside >sub; code=$$?; echo sub ends >&2; exit $$code
below beside: ; @echo $@ said >&2; echo $@ printed; echo $@ >$@; [ $@ = beside ] || exit $E
lines:
	@for n in 1 2 3; do echo $@ said $$n >&2; done; for n in $(PIECES); do printf "$$n" >&2; done
	touch $@
	@echo $@ said more >&2
nothing: ; no-such-command $@
earlier: ; @echo earlier said >&2
PIECES = 'lines said' ' 4\n'
"""
# Without a capture, other recipes may print between two parts of a line.
WITH_JOBS = ("-j2", "PIECES='lines said 4\\n'")
# What is added to the command, and the status with which recipes fail.
WAYS = (((), 3), (("--both",), 3), ((), 0), (("--quiet",), 3), (("--live",), 3), (("--live", "--both"), 0), (("--colour=always",), 3))


def sampled(numbers, way=0):
    """Some of these numbers: all of the first ones, fewer of the others."""
    numbers = [number for number in numbers if number <= ALL_OF or number % ONE_OF == 0]
    return numbers[way % 6 :: 6] if way else numbers


def ended(folder, command, more=None, inherited=()):
    """The status, standard output and standard error of a command. If it hangs, it is killed with its process group."""
    begun, words = time.monotonic(), ["timeout", "-s", "KILL", str(MOST), *command]
    with tempfile.TemporaryFile() as out, tempfile.TemporaryFile() as err:
        done = subprocess.run(words, cwd=folder, env=environment(more), stdin=subprocess.DEVNULL, stdout=out, stderr=err, pass_fds=inherited)
        status = done.returncode if time.monotonic() - begun < MOST else "hangs"
        texts = [os.pread(file.fileno(), os.fstat(file.fileno()).st_size, 0).decode(errors="replace") for file in (out, err)]
    return status, *texts


def files_of(folder):
    """The lines of all files that a build made, except the captures and what a test put there."""
    found = {}
    for name in sorted(set(os.listdir(folder)) - {"Makefile", CAPTURES, "trace", "summary", "go", "stay", "fifo"}):
        with open(os.path.join(folder, name), "rb") as file:
            found[name] = sorted(file.readlines())
    return found


def built(folder, command, more=None):
    """The outcome of a build: its status, both outputs, and the files that it made."""
    return (*ended(folder, command, more), files_of(folder))


def plain_builds(at):
    """The outcome of the build without a capture, by the status with which its recipes fail."""
    return {status: built(project(at(f"plain{status}"), BUILD), ["make", "-k", f"E={status}"]) for status in (0, 3)}


def captured_before(at):
    """Yields directories for the build that have captures of an earlier build of another target."""
    earlier = project(at("earlier"), BUILD)
    ended(earlier, [TOOL, "make", "earlier"])

    def folder(name):
        shutil.copytree(os.path.join(earlier, CAPTURES), os.path.join(at(name), CAPTURES))
        return project(at(name), BUILD)

    return folder


def texts_of(folder):
    """The lines of all logs that aren't records, or that have a record after other bytes."""
    lines, at = Counter(), os.path.join(folder, CAPTURES)
    for name in os.listdir(at) if os.path.isdir(at) else ():
        if name.startswith("log."):
            with open(os.path.join(at, name), encoding="utf-8", errors="replace", newline="\n") as log:
                lines.update(line for line in log.read().split("\n") if line and not re.match(r"@@REDO:((?!\S@@REDO:).)*$", line))
    return Counter({line: count for line, count in lines.items() if "/capture.def:" not in line})


def lines_of(text):
    return Counter(line for line in text.split("\n") if line)


def without_heads(text):
    """Standard error without the messages about a capture, and without the two lines above the output of a failed recipe."""
    text = re.sub(r"^redo-log-capture: \S+ \(exit \d+\)(, in .*)?\n.*\n", "", text, flags=re.M)
    return lines_of(re.sub(r"^(redo-log-capture: |.*/capture\.def:).*\n", "", text, flags=re.M))


def faults_of(plain, captured, folder, options=(), may_be_1=False, may_lose=False):
    """The difference between a captured build and a plain one, from their outcomes."""
    status, out, err, files = plain
    found_status, found_out, found_err, found_files = captured
    found, logs = [], texts_of(folder)
    logs.pop("earlier said", None)
    if found_status != status and not (may_be_1 and (status, found_status) == (0, 1)):
        found.append(f"status {found_status}, not {status}")
    if found_files != files:
        found.append(f"files {found_files}, not {files}")
    if "--both" not in options and lines_of(found_out) != lines_of(out):
        found.append(f"standard output {found_out!r}, not {out!r}")
    wanted, printed = lines_of(err), without_heads(found_err)
    if "--both" in options:
        wanted, printed = wanted + lines_of(out), printed + lines_of(found_out)
    if wanted - printed - logs and not may_lose:
        found.append(f"lost {sorted(wanted - printed - logs)}")
    if logs - wanted or printed - wanted:
        found.append(f"logs have {sorted(logs - wanted)}, and the outputs {sorted(printed - wanted)}, which nothing printed")
    if os.path.exists(os.path.join(folder, CAPTURES, "names")) and not isinstance(shown(folder, "all"), str):
        found.append(f"redo-log refuses the captures: {shown(folder, 'all')}")
    return [*found, *found_err.splitlines()[-3:]] if found else []


def without_earlier(folder):
    """A sentence if the captures of an earlier build are no longer shown."""
    return [] if shown(folder, "earlier") == "redo  earlier\nearlier said\n" else ["earlier captures are lost"]


def all_right(checks, what, run, items):
    """Performs runs in parallel. Each yields a name and what went wrong, or None to be skipped. Returns the number of runs."""
    results, wrong = [], []

    def one(item):
        if len(wrong) < ENOUGH:
            name, found = run(item)
            results.append(found)
            if found:
                wrong.append((name, found))

    with ThreadPoolExecutor(os.cpu_count()) as pool:
        list(pool.map(one, items))
    checks.passed += results.count([])
    for name, found in wrong:
        checks.expect(f"{what}, {name}", "; ".join(found), "")
    return len(results) - results.count(None)


def has_strace(what):
    if shutil.which("strace") and subprocess.run(["strace", "-o", "/dev/null", "true"], stderr=subprocess.DEVNULL).returncode == 0:
        return True
    print(f"captures: {what} is left out: no strace, or no process may be traced")
    return False


# Each wait of the server for events is delayed, so that it handles the start of a line when the line has already changed the captures.
LATE = ["strace", "-f", "-qq", "-o", "/dev/null", "-e", "trace=epoll_wait", "-e", "inject=epoll_wait:delay_enter=300000", TOOL, "--quiet", "make"]
REMOVED = f"rm -rf {CAPTURES}; sleep 1.5"
REMOVED_IN_STEPS = f"rm -rf {CAPTURES}/.capture {CAPTURES}/* {CAPTURES}/.g*; sleep 1.5; rmdir {CAPTURES}"
# For each line that changes the captures: what the second build prints, and the text of its log afterwards.
LATE_LINES = {
    "removed": (REMOVED, "x 2\n", ""),
    "moved": (f"mkdir saved; mv {CAPTURES}/log.* saved; sleep 1.5", "", "x 2\n"),
    "logs removed": (f"rm {CAPTURES}/log.*; sleep 1.5", "", "x 2\n"),
}


def logs_in(folder, place):
    """The logs of a directory, except the one of `all`, which each build begins."""
    return {path.name: path.read_bytes() for path in Path(folder, place).glob("log.[2-9]")}


def late_server(checks, at):
    """No file of an earlier build is emptied if a line has moved or removed it, and the line's text is in the log or printed."""
    if not has_strace("late_server"):
        return
    for what, (change, printed, kept) in LATE_LINES.items():
        folder = project(at(what), f"all: x y\ny: ; @echo y >&2\nx: ; @[ $(N) = 1 ] || {{ {change}; }}; echo x $(N) >&2\n")
        ran(folder, [TOOL, "--quiet", "make", "N=1"])
        subprocess.run(["cp", "-al", CAPTURES, "linked"], cwd=folder, check=True)
        before = logs_in(folder, "linked")
        status, _, err = ran(folder, [*LATE, "N=2"])
        gone = f"redo-log-capture: {os.path.realpath(folder)}/{CAPTURES} was removed; its captures are lost\n"
        checks.expect(f"{what}, late: make", (status, err.replace(gone, "")), (0, printed))
        checks.expect(f"{what}, late: the log", text_of(folder, "x"), kept)
        checks.expect(f"{what}, late: linked files", logs_in(folder, "linked"), before)
        checks.expect(f"{what}, late: moved files", logs_in(folder, "saved"), before if what == "moved" else {})
    folder = project(at("few"), f"all: x\nx: ; @echo x >&2\n\t@{REMOVED_IN_STEPS}\n")
    few = ["sh", "-c", 'ulimit -n 1000; exec "$@"', "sh"]  # so few that no log stays open between two lines
    checks.expect("removed by a later line, late", ran(folder, [*few, *LATE])[0], 0)


# The system calls of the hook, and the errors that each may report. make and the dynamic loader make some of these calls too.
HOOK_CALLS = {
    "socket": ("EMFILE",), "connect": ("ECONNREFUSED", "EAGAIN", "EINTR"), "getsockopt": ("ENOPROTOOPT",), "socketpair": ("EMFILE",),
    "sendmsg": ("EPIPE", "ENOBUFS", "EINTR", "ETOOMANYREFS"), "recvfrom": ("ECONNRESET", "EINTR"), "fcntl": ("EMFILE",),
    "pipe2": ("EMFILE",), "getcwd": ("ENOENT",), "mmap": ("ENOMEM",), "mprotect": ("ENOMEM", "EACCES"), "fstat": ("EIO",),
    "clock_gettime": ("EINVAL",), "openat": ("ENOSPC", "EMFILE", "EINTR"), "ioctl": ("EIO", "EINTR"),
}  # fmt: skip
# System calls that only the hook makes in a build.
OWN_CALLS = {"socket": 2, "connect": 2, "getsockopt": 2, "socketpair": 2, "sendmsg": 40, "recvfrom": 15}


def calls_of_hook(trace):
    """The system calls of the hook in a trace with addresses, each with the number of calls of this name up to it, and the line."""
    start = end = 0
    descriptor, counts = None, Counter()
    for address, call, rest in re.findall(r"^\[(\w+)\] (\w+)\((.*)", trace, re.M):
        counts[call] += 1
        if call in ("open", "openat") and '/capture.so"' in rest:
            descriptor = rest.rsplit(" ", 1)[1]
        mapped = re.match(rf"NULL, (\d+), \w+, [\w|]+, {descriptor}, 0\) = (0x\w+)$", rest) if call == "mmap" and not start else None
        if mapped:
            start, end = int(mapped[2], 16), int(mapped[2], 16) + int(mapped[1])
        if start <= int(address, 16) < end:
            yield call, counts[call], rest


def failing_hook(checks, at):
    """Each system call of the hook fails, in the first make and in a sub-make; calls that only the hook makes fail in all processes of
    a build with two jobs."""
    if not has_strace("failing_hook"):
        return
    plain = plain_builds(at)

    def traced(name, where, way, words):
        options, status = WAYS[way]
        folder = project(at(name), BUILD)
        command, tracer = ["make", "-k", f"E={status}"], ["strace", "-qq", "-i", "-o", "trace", *words]
        if where == "all":
            command = [*tracer, "-f", *command, *WITH_JOBS]
        else:
            command = [*tracer, *command] if where == "first" else [*command, f"TRACED={' '.join(tracer)}"]
        outcome = built(folder, [TOOL, *options, *command])
        with open(os.path.join(folder, "trace"), encoding="utf-8") as trace:
            return folder, outcome, trace.read()

    def run(item):
        name = " ".join(map(str, item))
        where, way, call, error, number = item
        seen = call if where == "all" else f"?open,openat,mmap,{call}"
        folder, outcome, trace = traced(name, where, way, ["-e", f"trace={seen}", "-e", f"inject={call}:error={error}:when={number}"])
        # If the numbers differ from one run to the next, the call may be one of make itself.
        if "(INJECTED)" not in (trace if where == "all" else "".join(rest for _, _, rest in calls_of_hook(trace))):
            return name, None
        found = faults_of(plain[WAYS[way][1]], outcome, folder, WAYS[way][0])
        if not found:
            shutil.rmtree(folder)
        return name, found

    items, met = [], set()
    for where in ("first", "below"):
        for way in range(len(WAYS)):
            calls = list(calls_of_hook(traced(f"{where}{way}", where, way, [])[2]))
            met |= {call for call, _, _ in calls}
            for call, errors in HOOK_CALLS.items():
                numbers = sampled([number for name, number, _ in calls if name == call], way)
                items += [(where, way, call, error, number) for error in errors for number in numbers]
    for call, count in OWN_CALLS.items():
        items += [("all", number % len(WAYS), call, error, number) for error in HOOK_CALLS[call] for number in range(1, count + 1)]
    # If the import slots of make are never read-only, the hook doesn't call mprotect.
    checks.expect("failing_hook: calls of the hook that did not come", sorted(set(HOOK_CALLS) - met - {"mprotect"}), [])
    count = all_right(checks, "failing_hook", run, items)
    checks.expect("failing_hook: most of the calls came", count > len(items) / 2 or checks.failed > 0, True)


# The system calls of redo-log-capture, and errors that the kernel reports for them. Closing a file and reading a pipe don't fail.
SERVER_CALLS = {
    "accept4": ("EMFILE", "ECONNABORTED", "EINTR"), "recvmsg": ("ECONNRESET", "EINTR", "ENOMEM"), "sendto": ("EPIPE", "EAGAIN"),
    "epoll_ctl": ("ENOMEM", "ENOSPC"), "epoll_wait": ("EINTR",), "openat": ("EMFILE", "EACCES", "ENOSPC"), "write": ("ENOSPC", "EINTR"),
    "ftruncate": ("EIO",), "pwrite64": ("ENOSPC",), "pread64": ("EIO",), "renameat": ("EROFS",), "mkdir": ("ENOSPC",), "unlinkat": ("EACCES",),
    "flock": ("ENOLCK",), "newfstatat": ("EIO",), "ioctl": ("EINVAL",), "read": ("EINTR",), "clone": ("EAGAIN",), "pipe2": ("EMFILE",),
    "getdents64": ("EIO",), "socket": ("EMFILE",), "bind": ("EADDRINUSE",), "listen": ("EADDRINUSE",), "signalfd4": ("EMFILE",),
    "epoll_create1": ("EMFILE",), "getrandom": ("ENOSYS",), "poll": ("EINTR",),
}  # fmt: skip
# System calls that may fail from some time on, until the end. If messages can't be received any more, pipes that are on their way to
# redo-log-capture are closed, so that recipes can't write to them.
LASTING = ("sendto", "epoll_ctl", "openat", "ftruncate", "pread64", "renameat", "mkdir", "unlinkat", "newfstatat", "getdents64")
STARTS = ("clone", "clone3", "fork", "vfork")


def is_refused(outcome):
    """Whether the command was not started, and a line says why."""
    status, out, err, files = outcome
    return status in (1, 126, 127) and out == "" and not files and re.fullmatch(r".+\n?", err)


def failing_server(checks, at):
    """Each system call of redo-log-capture fails. It may exit if the command hasn't been started yet."""
    if not has_strace("failing_server"):
        return
    plain, captured = plain_builds(at), captured_before(at)

    def traced(name, way, words):
        options, status = WAYS[way]
        folder = captured(name)
        outcome = built(folder, ["strace", "-qq", "-o", "trace", *words, TOOL, "--summary", "summary", *options, "make", "-k", f"E={status}"])
        with open(os.path.join(folder, "trace"), encoding="utf-8") as trace:
            return folder, outcome, re.findall(r"^(\w+)\((.*)", trace.read(), re.M)

    def run(item):
        name = " ".join(map(str, item))
        way, call, error, number = item
        folder, outcome, calls = traced(name, way, ["-e", f"trace=?{',?'.join(STARTS)},{call}", "-e", f"inject={call}:error={error}:when={number}"])
        failed = next((place for place, (_, rest) in enumerate(calls) if rest.endswith("(INJECTED)")), None)
        if failed is None:
            return name, None
        started = next((place for place, (call, rest) in enumerate(calls) if call in STARTS and " = -1 " not in rest), len(calls))
        found = without_earlier(folder)
        if failed > started or not is_refused(outcome):
            options, status = WAYS[way]
            found += faults_of(plain[status], outcome, folder, options, may_be_1=True, may_lose=call == "write" and calls[failed][1].startswith("2, "))
        if not found:
            shutil.rmtree(folder)
        return name, found

    items = []
    for way in range(len(WAYS)):
        counts = Counter(call for call, _ in traced(f"counted{way}", way, [])[2])
        for call, errors in SERVER_CALLS.items():
            if call == "ioctl" and "--colour=always" in WAYS[way][0]:
                continue  # whether a descriptor is a terminal can always be found out
            items += [(way, call, error, number) for error in errors for number in sampled(range(1, counts[call] + 1), way)]
            if call in LASTING:
                items += [(way, call, errors[0], f"{number}+") for number in range(1 + way, counts[call] + 1, 2 * len(WAYS))]
    all_right(checks, "failing_server", run, items)


def refused_memory(checks, at):
    """Each allocation of redo-log-capture fails, alone and with all later ones."""
    tool, library = install_capture(at("dynamic"), "STATIC="), preloaded("memory")
    plain, captured = plain_builds(at), captured_before(at)

    def run(item):
        name = " ".join(map(str, item))
        way, number, what = item
        options, status = WAYS[way]
        folder = captured(name)
        more = {"LD_PRELOAD": library, "REFUSE_AT": str(number), "REFUSE_TOLD": f"{folder}/trace", **({"REFUSE_ALL": "yes"} if what == "all" else {})}
        outcome = built(folder, [tool, "--summary", "summary", *options, "make", "-k", f"E={status}"], more)
        if not os.path.exists(os.path.join(folder, "trace")):
            return name, None
        found = without_earlier(folder)
        if not is_refused(outcome):
            found += faults_of(plain[status], outcome, folder, options, may_be_1=True)
        if not found:
            shutil.rmtree(folder)
        return name, found

    first, count, failed = 1, 1, checks.failed
    while count and checks.failed == failed:
        numbers = sampled(range(first, first + 64))
        count = all_right(checks, "refused_memory", run, [((number + len(what)) % len(WAYS), number, what) for number in numbers for what in ("one", "all")])
        first += 64
    checks.expect("refused_memory: requests", count > 0 or first > 200, True)
    little_memory(checks, at, tool)


# A line of 3 MB, which is held in memory until it ends.
LONG = "all: long ; @echo all said >&2\nlong: ; @head -c 3000000 /dev/zero | tr '\\0' x >&2; echo ' is said' >&2; echo printed\n"


def little_memory(checks, at, tool):
    """A memory limit slightly above what the build itself needs. All of its output is printed somewhere."""

    def limited(name, limit, command):
        folder = project(at(name), LONG)
        outcome = built(folder, ["sh", "-c", f'ulimit -v {limit}; exec "$@"', "limited", *command, "make", "-s"])
        printed = "\n".join([*texts_of(folder), outcome[2]])
        return outcome[:2], sum(map(len, re.findall("x{50,}", printed))), printed.count("all said"), outcome[2][-200:]

    least = next((limit for limit in range(2000, 20000, 250) if limited(f"least{limit}", limit, [])[:3] == ((0, "printed\n"), 3000000, 1)), None)
    checks.expect("refused_memory: a build that takes little", least is not None, True)

    def run(item):
        more, program = item
        outcome, size, said, err = limited(" ".join(map(str, (more, program == tool))), least + more, [program])
        right = outcome in ((0, "printed\n"), (1, "printed\n")) and (size, said) == (3000000, 1)
        is_never_begun = outcome in ((1, ""), (126, ""), (127, "")) and size == said == 0
        return f"{more} kB more", [] if right or is_never_begun else [str((outcome, size, said)), err]

    all_right(checks, "refused_memory, a limit", run, [(more, program) for more in (1000, 1500, 2000, 3000, 4000, 6000, 9000) for program in (TOOL, tool)])


# Recipes that all run at the same time: each waits until all have begun. Every tenth runs a sub-make with another such recipe.
# The test that runs the build holds the pipe `go` open.
AT_ONCE = r"""
N := $(shell seq $(COUNT))
all: $(N:%=t%)
	@echo all said >&2
t%0: ; @echo $@ begins >&2; $(MAKE) -s s$@; code=$$?; echo $@ ends >&2; exit $$code
t% s%: ; @for n in 1 2 3; do echo $@ said $$n >&2; done; echo $@ printed; $(LEAVE); echo >>begun; $(WAIT); echo $@ said more >&2; $(FAIL)
WAIT = [ `wc -l <begun` -lt $(COUNT) ] || for n in $(N); do echo; done >go; read x <go
FAIL = [ $(@:%7=) ] || exit $E
LEAVE = :
"""
# A make that runs another, and so on.
DEEP = "all: ; @echo $D begins >&2; [ $D = 1 ] || $(MAKE) -s --no-print-directory D=$$(($D - 1)); echo $D ends >&2\n"


def with_pipes(folder, names, run):
    """Calls a function with the descriptors of these named pipes of a directory, which exist and are open meanwhile."""
    for name in names:
        os.mkfifo(os.path.join(folder, name))
    held = [os.open(os.path.join(folder, name), os.O_RDWR) for name in names]
    try:
        return run(*held)
    finally:
        for descriptor in held:
            os.close(descriptor)


def few_descriptors(checks, at):
    """At most 32 or 64 open files, or a few more or less, with a build that runs 50 recipes at the same time, or nested sub-makes."""

    def run(item):
        name = " ".join(map(str, item))
        limit, makefile, *words = item

        def limited(name, command):
            folder = project(at(name), makefile)
            shell = f'ulimit -S -n {limit}; ulimit -H -n {limit}; exec "$@"'
            return folder, with_pipes(folder, ["go"], lambda _: built(folder, ["sh", "-c", shell, "limited", *command, "make", "-s", *words]))

        name = " ".join(map(str, (limit, *words)))
        plain = limited(f"{name} plain", [])[1]
        folder, outcome = limited(name, [TOOL])
        found = faults_of(plain, outcome, folder)
        told = [line for line in outcome[2].splitlines() if "open files" in line]
        return name, [*found, *told] if found or len(told) > 1 else []

    items = [(limit, DEEP, "D=30") for limit in (32, *range(60, 67))]
    items += [(limit, AT_ONCE, "-j60", "COUNT=50", *words) for limit in (32, 33, 34, 64, 65, 66) for words in (("E=0",), ("-k", "E=3"))]
    all_right(checks, "few_descriptors", run, items)


def still_there(pipe):
    """Waits until all processes that inherited the other end of a pipe have ended, and closes it. Kills the processes that are still
    running, and returns their number. If the machine stops with all its processes, the stop counts as one second."""
    if any(select.select([pipe], [], [], 1)[0] for _ in range(MOST // 4)):
        os.close(pipe)
        return 0
    name, left = os.readlink(f"/proc/self/fd/{pipe}"), set()
    for descriptor in glob.glob("/proc/[0-9]*/fd/*"):
        process = int(descriptor.split("/")[2])
        with contextlib.suppress(OSError):
            if process != os.getpid() and os.readlink(descriptor) == name:
                left.add(process)
    # Once the process that reads what others print is killed, they end by themselves, so all are found before.
    for process in left:
        with contextlib.suppress(OSError):
            os.kill(process, signal.SIGKILL)
    os.close(pipe)
    return len(left)


def many_processes(checks, at):
    """300 recipes at the same time, each with a background process; and recipes that start hundreds of processes."""
    forks = "all: f1 f2 f3 f4\nf%: ; @n=0; while [ $$n -lt 700 ]; do (exit 0) & n=$$((n + 1)); done; wait; echo $@ said >&2\n"
    folder = project(at("forks"), forks)
    status, out, _ = ended(folder, [TOOL, "make", "-s", "-j4"])
    checks.expect("many_processes: thousands", (status, out, texts_of(folder)), (0, "", Counter(f"f{n} said" for n in range(1, 5))))

    folder = project(at("left"), AT_ONCE)
    there, ends = os.pipe()
    leave = "{ read x <stay; echo late >&2; } >/dev/null & :"

    def run(_, stay):
        outcome = ended(folder, [TOOL, "make", "-s", "-j400", "COUNT=300", "E=0", f"LEAVE={leave}"], inherited=[ends])
        os.close(ends)
        os.set_blocking(there, False)
        # There is no end of file yet, because the background processes have the pipe too.
        with contextlib.suppress(BlockingIOError):
            checks.expect("many_processes: what was left behind goes on", os.read(there, 1), None)
        os.write(stay, b"\n" * 300)
        checks.expect("many_processes: processes that do not end", still_there(there), 0)
        return outcome

    status, out, err = with_pipes(folder, ["go", "stay"], run)
    wanted = Counter({"all said": 1})
    for n in range(1, 301):
        name = f"t{n}" if n % 10 else f"st{n}"
        wanted += Counter([*(f"{name} said {k}" for k in (1, 2, 3, "more")), *([] if n % 10 else [f"t{n} begins", f"t{n} ends"])])
    found = texts_of(folder)
    checks.expect("many_processes: 300 at once", (status, len(out.splitlines()), found - wanted, wanted - found), (0, 300, Counter(), Counter()))
    checks.expect("many_processes: 300 at once, standard error", without_heads(err), Counter())


def never_silent(checks, at):
    """Background processes that print as fast as they can don't delay the end. Each log may have 256 KiB."""
    folder = project(at("loud"), "N := $(shell seq 100)\nall: $(N:%=t%)\nt%: ; @yes >&2 &\n")
    there, ends = os.pipe()
    limited = ["sh", "-c", 'ulimit -f 512; exec "$@"', "limited", TOOL, "--quiet", "make", "-s", "-j100"]
    status = ended(folder, limited, inherited=(ends,))[0]
    os.close(ends)
    checks.expect("never_silent", (status in (0, 1), still_there(there) >= 100), (True, True))


def ends_while_nobody_reads(checks, at):
    """The command ends while redo-log-capture waits for a reader of a message that it prints between two events."""
    folder = project(at("unread"), "all: x\nx: ; @true\n")
    ended(folder, [TOOL, "make", "-s"])
    os.remove(os.path.join(folder, CAPTURES, "log.2"))
    os.mkdir(os.path.join(folder, CAPTURES, "log.2"))
    os.mkfifo(os.path.join(folder, "go"))
    go, (there, end) = os.open(os.path.join(folder, "go"), os.O_RDWR), os.pipe()
    size = fcntl.fcntl(end, fcntl.F_SETPIPE_SZ, 4096)
    os.write(end, b"-" * size)
    command = [TOOL, "--quiet", "sh", "-c", "make -s; touch made; read x <go"]
    with subprocess.Popen(command, cwd=folder, env=environment(), stderr=end) as build:
        os.close(end)
        wait_for(os.path.join(folder, "made"))
        time.sleep(0.3)  # until the message is about to be printed; if that takes longer, this tests less
        os.write(go, b"\n")
        wait_until("the shell has ended", lambda: not any("(sh)" in stat for stat in stats_of_children(build.pid)))
        printed = b"".join(iter(lambda: os.read(there, 65536) if select.select([there], [], [], MOST)[0] else b"", b""))
        with contextlib.suppress(subprocess.TimeoutExpired):
            build.wait(timeout=MOST / 4)
        build.kill()
    os.close(go)
    os.close(there)
    checks.expect("ends_while_nobody_reads", (build.returncode, b"log.2: Is a directory\n" in printed), (0, True))


def stats_of_children(process):
    """The states of the children of a process."""
    with open(f"/proc/{process}/task/{process}/children", encoding="utf-8") as children:
        for child in children.read().split():
            with contextlib.suppress(OSError), open(f"/proc/{child}/stat", encoding="utf-8") as stat:
                yield stat.read()


def at_once_killed(checks, at):
    """A recipe prints a line and then kills its make. The line is in its log."""
    first = "all: ; @echo said >&2; kill -9 $$PPID\n"
    below = "all: ; @echo begins >&2; $(MAKE) -s below; echo ends >&2\nbelow: ; @echo said >&2; kill -9 $$PPID\n"

    def run(item):
        makefile, words, number = item
        folder = project(at(f"{len(makefile)}{words}{number}"), makefile)
        status = ended(folder, [TOOL, *words, "make"])[0]
        found = texts_of(folder)
        # make and the shell may print that the sub-make was killed.
        right = (found["said"], status) == (1, -9) if makefile == first else (found["begins"], found["said"], found["ends"], status) == (1, 1, 1, 0)
        if right:
            shutil.rmtree(folder)
        return f"{item}", [] if right else [f"status {status}", str(found)]

    items = [(makefile, words, number) for makefile in (first, below) for words in ((), ("--live",)) for number in range(50)]
    all_right(checks, "at_once_killed", run, items)


def killed_between_messages(checks, at):
    """make is killed instead of sending a message. Each recipe that has begun has a log, and all that have ended have what they printed."""
    if not has_strace("killed_between_messages"):
        return
    targets = [f"t{number}" for number in range(4)]
    makefile = f"all: {' '.join(targets)}\n{' '.join(targets)}: ; @echo $@ >>ran; echo $@ said >&2\n"

    def run(number):
        folder = project(at(str(number)), makefile)
        kill = ["strace", "-qq", "-o", "trace", "-e", "trace=sendmsg", "-e", f"inject=sendmsg:signal=SIGKILL:when={number}"]
        status = ended(folder, [TOOL, *kill, "make"])[0]
        ran = [name.decode().strip() for name in files_of(folder).get("ran", ())]
        index = os.path.join(folder, CAPTURES, "names")
        listed = Path(index).read_text(encoding="utf-8").split()[1::2] if os.path.exists(index) else []
        texts = texts_of(folder)
        right = set(ran) <= set(listed) and all(texts[f"{name} said"] == 1 for name in ran[:-1]) and max(texts.values(), default=1) == 1
        if right:
            shutil.rmtree(folder, ignore_errors=True)  # a recipe may outlive its make and still write to `ran`
        killed.append(status == -9)
        return f"{number}", [] if right else [f"status {status}, ran {ran}, listed {listed}", str(texts)]

    killed = []
    all_right(checks, "killed_between_messages", run, range(1, 14))
    checks.expect("killed_between_messages: make was killed", killed.count(True) > 9, True)


# Messages as in capture/protocol.h.
ORDINARY = 1700000000000


def hello(token, directory=b"/\0", parent=(0, 0), process=4242, is_redirected=0, is_in_shell_function=0):
    return struct.pack("@4sIIiII32s", b"H", *parent, process, is_redirected, is_in_shell_function, token) + directory


def names(part):
    return struct.pack("@4s", b"N") + part


def recipe(number, part=b""):
    return struct.pack("@4sI", b"R", number) + part


def line(number, command=b"/bin/sh\0-c\0true\0", time=ORDINARY, asks=1, names=b"", size=None):
    return struct.pack("@4sIqII", b"L", number, time, asks, len(names) if size is None else size) + names + command


def started(process):
    return struct.pack("@4si", b"S", process)


def failed(time=ORDINARY, names=b"", size=None):
    return struct.pack("@4sIq", b"F", len(names) if size is None else size, time) + names


def gone(process, status=0, time=ORDINARY, asks=0, stopping=0, usage=(1, 1, 1)):
    return struct.pack("@4sIiiIIqqqq", b"E", asks, process, status, stopping, 0, time, *usage)


def ignored():
    return struct.pack("@4s", b"I")


def went_on():
    return struct.pack("@4s", b"W")


class Liar:
    """A captured command that waits and then runs an honest make, and functions that send redo-log-capture messages as its makes would."""

    MANY = " ".join(f"d{n}" for n in range(60))
    HONEST = f"all: h1 h2\n\t@echo all said >&2\nh1 h2: ; @echo $@ said >&2\nduring: {MANY}\n{MANY}: ; @for n in 1 2 3; do echo $@ said $$n >&2; done\n"
    COMMAND = "echo $CAPTURE_RUN >new; mv new variable; {} read line <go; make -s all"

    def __init__(self, folder, tool, before=""):
        self.folder, self.open, self.kept = project(folder, self.HONEST), [], []
        os.mkfifo(os.path.join(folder, "go"))
        self.go = os.open(os.path.join(folder, "go"), os.O_RDWR)
        with open(os.path.join(folder, "told"), "wb") as told:
            command = [tool, "--summary", "summary", "sh", "-c", self.COMMAND.format(before)]
            self.ends, inherited = os.pipe()
            settings = {"stdin": subprocess.DEVNULL, "stdout": told, "stderr": told, "pass_fds": [inherited], "start_new_session": True}
            self.server = subprocess.Popen(command, cwd=folder, env=environment({"ASAN_OPTIONS": "detect_leaks=0"}), **settings)
            os.close(inherited)
        wait_for(os.path.join(folder, "variable"))
        with open(os.path.join(folder, "variable"), encoding="utf-8") as variable:
            self.address, token = variable.read().split(":")[:2]
        self.token = token.encode()
        self.first_descriptors = self.descriptors()

    def hold(self, held):
        self.open.append(held)
        return held

    def connect(self):
        connection = self.hold(socket.socket(socket.AF_UNIX, socket.SOCK_SEQPACKET))
        connection.settimeout(MOST / 2)
        connection.connect("\0" + self.address)
        return connection

    def pair(self):
        ends = socket.socketpair(socket.AF_UNIX, socket.SOCK_SEQPACKET)
        for end in ends:
            self.hold(end).settimeout(MOST / 2)
        return ends

    def make(self, **more):
        """The two sockets of a new make, and its number, which is 0 if it was rejected."""
        connection, (notes, other) = self.connect(), self.pair()
        self.send(connection, hello(self.token, **{"directory": self.folder.encode() + b"\0", **more}), other.fileno())
        other.close()
        welcome = self.answer(connection, 20)
        return connection, notes, struct.unpack("@I", welcome[:4])[0] if len(welcome) == 20 else 0

    def begin(self, name, text=b"", process=77, command=b"/bin/sh\0-c\0true\0", time=ORDINARY, **more):
        """A make with one recipe. A line of it is running and has printed something."""
        connection, notes, _ = self.make(**more)
        for start in range(0, len(name), 50000):
            self.send(notes, names(name[start : start + 50000]))
        self.send(notes, recipe(1))
        there, end = os.pipe()
        self.send(connection, line(1, command, time), there)
        os.close(there)
        self.answer(connection)
        self.send(notes, started(process))
        with contextlib.suppress(BrokenPipeError):
            os.write(end, text)
        os.close(end)
        return connection, notes

    def send(self, connection, message, *descriptors):
        with contextlib.suppress(BrokenPipeError, ConnectionError):
            rights = [(socket.SOL_SOCKET, socket.SCM_RIGHTS, array.array("i", descriptors))] if descriptors else []
            return connection.sendmsg([message], rights, socket.MSG_NOSIGNAL)
        return None

    def answer(self, connection, size=8):
        """The reply to a message, empty if the connection was closed. Raises an error if there is no reply."""
        with contextlib.suppress(ConnectionError):
            return connection.recv(size)
        return b""

    def memory(self):
        """The peak memory of redo-log-capture, in kB."""
        with open(f"/proc/{self.server.pid}/status", encoding="utf-8") as state:
            return max(map(int, re.findall(r"^VmHWM:\s+(\d+)", state.read(), re.M)), default=0)

    def descriptors(self):
        """The number of descriptors of redo-log-capture, without those of logs, which stay open."""
        count, at = 0, f"/proc/{self.server.pid}/fd"
        for name in os.listdir(at):
            with contextlib.suppress(FileNotFoundError):
                count += not re.search(r"/log\.\d+( \(deleted\))?$", os.readlink(f"{at}/{name}"))
        return count

    def used(self):
        with open(f"/proc/{self.server.pid}/stat", encoding="utf-8") as state:
            return state.read().rsplit(")", 1)[1].split()[11:13]

    def becomes_idle(self):
        """Waits until redo-log-capture is blocked."""
        for _ in range(20 * MOST):
            used = self.used()
            time.sleep(0.05)
            if used == self.used():
                return
        raise TimeoutError("it goes on though it has nothing to do")

    def close(self):
        for held in self.open:
            held.close()
        self.open = []

    def end(self):
        """Lets the honest make run, and returns the status of redo-log-capture, its messages, and the number of remaining processes."""
        os.write(self.go, b"\n")
        try:
            status = self.server.wait(timeout=MOST)
        except subprocess.TimeoutExpired:
            status = "hangs"
            self.server.kill()
            self.server.wait()
        self.close()
        for held in self.kept:
            held.close()
        os.close(self.go)
        left = still_there(self.ends)
        with open(os.path.join(self.folder, "told"), encoding="utf-8", errors="replace") as told:
            return status, told.read(), left


def each_kind(token):
    messages = [hello(token, b"/tmp\0"), names(b"x\0y"), recipe(1, b"x\0y z"), line(1), started(5), failed(), gone(5, 256, asks=1), ignored(), went_on()]
    return [*messages, line(1, names=b"x\0y z"), failed(names=b"x\0y z")]


def cut(liar):
    """Messages of every kind, cut at each byte."""
    for message in each_kind(liar.token):
        for size in range(len(message)):
            for socket_number in (0, 1):
                make = liar.make()
                liar.send(make[1], recipe(1, b"x\0y z"))
                liar.send(make[socket_number], message[:size])
                liar.close()
            connection = liar.connect()
            liar.send(connection, message[:size], connection.fileno())


def longer(liar):
    """Messages of every kind with extra bytes after them, some or too many."""
    for message in each_kind(liar.token):
        for more in (1, 4096, 66000, 200000):
            for socket_number in (0, 1):
                with contextlib.suppress(OSError):
                    liar.send(liar.make()[socket_number], message + b"\0" * more)
                liar.close()


def wrong_token(liar):
    """A process without the token isn't a make of the build."""
    for token in (b"\0" * 32, liar.token[:-1] + b"x", liar.token[::-1]):
        connection, (_, other) = liar.connect(), liar.pair()
        liar.send(connection, hello(token), other.fileno())
        if liar.answer(connection, 16):
            raise ValueError("a wrong token is taken")


def wrong_order(liar):
    """All pairs of messages over all pairs of sockets, even before the make has introduced itself."""
    kinds = each_kind(liar.token)
    for first, second in itertools.product(kinds, kinds):
        connection = liar.connect()
        liar.send(connection, first)
        liar.send(connection, second)
        for sockets in itertools.product((0, 1), (0, 1)):
            make = liar.make()
            for socket_number, message in zip(sockets, (first, second)):
                liar.send(make[socket_number], message)
        liar.close()


def two_lines(liar):
    """A line is announced although the previous one has not begun."""
    for number in (1, 2):
        connection, notes, _ = liar.make()
        for n in range(1, number + 1):
            liar.send(notes, recipe(n, b"x%d\0" % n))
        for n in (1, number, 1, number):
            liar.send(connection, line(n))
            liar.answer(connection)


NUMBERS = (0, 1, 2, 3, 2**16, 2**31 - 1, 2**31, 2**32 - 1)
SIGNED = (0, 1, -1, -5, 2**31 - 1, -(2**31))
TIMES = (0, -1, 2**63 - 1, -(2**63))


def numbers_of_recipes(liar):
    for number in NUMBERS:
        connection, notes, _ = liar.make()
        liar.send(notes, recipe(number, b"x\0"))
        liar.send(connection, line(number))
        liar.answer(connection)
        liar.send(notes, started(5))
        liar.send(notes, recipe(number + 1 & 2**32 - 1, b"y\0"))
        liar.send(notes, failed())


def sizes_of_names(liar):
    """Names that come with a line, or with a failure to start one, and are longer than the message, or follow names that came alone."""
    for size in (*NUMBERS, 5, 23, 24, 25, 60000, 66000):
        for earlier in ((), (recipe(1, b"x\0"),), (names(b"x\0y"),), (recipe(1, b"x\0"), names(b"y\0"))):
            for asks in (0, 1):
                connection, notes, _ = liar.make()
                for message in earlier:
                    liar.send(notes, message)
                liar.send(connection if asks else notes, line(1, asks=asks, names=b"n\0x", size=size))
                if asks:
                    liar.answer(connection)
                liar.send(notes, started(5))
                liar.send(notes, failed(names=b"f\0x", size=size))
                liar.close()


def numbers_of_parents(liar):
    for parent in itertools.product(NUMBERS, NUMBERS):
        connection, _ = liar.begin(b"x%d.%d\0" % parent, parent=parent)
        liar.send(connection, gone(77, asks=1))
        liar.answer(connection)
        liar.close()


def numbers_of_processes(liar):
    for process, other in itertools.product(SIGNED, SIGNED):
        connection, notes = liar.begin(b"p%d.%d\0" % (process, other), b"said\n", process=process)
        liar.send(connection, gone(other, 256, asks=1))
        liar.answer(connection)
        liar.send(notes, gone(process))
        liar.send(notes, gone(process))
        _, notes, _ = liar.make(process=process)
        liar.send(notes, recipe(1, b"f%d\0" % process))
        liar.send(notes, failed())
        liar.close()


def times_and_states(liar):
    for first, last in itertools.product(TIMES, TIMES):
        connection, notes = liar.begin(b"t%d.%d\0" % (first, last), b"said\n", time=first)
        liar.send(notes, gone(77, 0, last))
        connection, notes, _ = liar.make()
        liar.send(notes, recipe(1, b"f%d.%d\0" % (first, last)))
        liar.send(notes, failed(first))
        liar.send(notes, failed(last))
    for state in (*SIGNED, 127, 128, 255, 256, 0xFFFF):
        connection, _ = liar.begin(b"s%d\0" % state, b"said\n")
        liar.send(connection, gone(77, state, asks=1))
        liar.answer(connection)
    liar.close()


ODD_NAMES = (
    b"", b"\0", b"x", b"x\0y\0z\0", b" \0", b"a\nb\0", b"\n\0", b"..\0", b"../../../../../../..\0", b"/\0", b"/etc/passwd\0", b"//x/./../y\0", b"a\rb\x01\xff\0",
    b"@@REDO:done:1:1.000@@ 0 x\0", b"x" * 1000000 + b"\0", b"/" * 100000 + b"\0", b"../" * 30000 + b"\0", b"x/" * 30000 + b"\0",
    b" " * 20000 + b"y\0", b"a " * 20000 + b"y\0",
)  # fmt: skip
ODD_DIRECTORIES = (b"\0", b"a/b\0", b"/a\nb\0", b"/a\n3 h1\0", b"/" * 4000 + b"\0", b"/x" * 30000 + b"\0", b"/..\0", b"/a\0b\0", b"/no end", b"/a " * 4000 + b"\0")


def odd_names(liar):
    for name in ODD_NAMES:
        connection, notes = liar.begin(name, b"said\n")
        liar.send(connection, gone(77, 256, asks=1))
        liar.answer(connection)
        liar.send(notes, recipe(2, b"top\0" + name.replace(b"\0", b" ")[:50000]))
        liar.send(connection, line(2))
        liar.answer(connection)
    for directory in ODD_DIRECTORIES:
        connection, notes = liar.begin(b"y\0", b"said\n", directory=directory)
        liar.send(connection, gone(77, 256, asks=1))
        liar.answer(connection)


def odd_descriptors(liar):
    """Descriptors that can't be polled, that can't be read, that aren't pipes, and that never end."""
    fifo, listening, (there, end), terminal, poller = os.path.join(liar.folder, "fifo"), socket.socket(), os.pipe(), os.openpty(), select.epoll()
    os.mkfifo(fifo)
    listening.listen()
    sockets = [socket.socketpair(socket.AF_UNIX, kind) for kind in (socket.SOCK_STREAM, socket.SOCK_DGRAM, socket.SOCK_SEQPACKET)]
    files = {path: os.open(path, flags) for path, flags in (
        ("/", os.O_RDONLY), ("/dev", os.O_PATH), ("/dev/null", os.O_RDWR), ("/dev/zero", os.O_RDONLY), ("/proc/self/mounts", os.O_RDONLY), (fifo, os.O_RDWR),
    )}  # fmt: skip
    passed = [end, terminal[0], poller.fileno(), listening.fileno(), *(ends[0].fileno() for ends in sockets), *files.values()]
    for place, descriptor in enumerate(passed):
        connection = liar.connect()
        liar.send(connection, hello(liar.token), descriptor)
        liar.answer(connection, 8)
        connection, notes, _ = liar.make()
        liar.send(notes, names(b"odd%d\0" % place), descriptor)
        liar.send(notes, recipe(1))
        liar.send(connection, line(1), descriptor)
        liar.answer(connection)
        liar.send(notes, started(5), descriptor)
        liar.send(connection, gone(5, 256, asks=1), descriptor)
        liar.answer(connection)
    for descriptor in (there, end, *terminal, *files.values()):
        os.close(descriptor)
    for held in (poller, listening, *itertools.chain(*sockets)):
        held.close()


def many_descriptors(liar):
    """Several descriptors in one message."""
    for count in (2, 3, 10, 253):
        for _ in range(20):
            connection, (_, other) = liar.connect(), liar.pair()
            liar.send(connection, hello(liar.token), *[other.fileno()] * count)
            liar.answer(connection, 8)
            liar.send(connection, gone(1, asks=1), *[other.fileno()] * count)
            liar.answer(connection)
            liar.close()


def kept_descriptors(liar):
    """The process that passes the descriptors keeps them, so that redo-log-capture never sees them closed."""
    connection, (notes, other) = liar.connect(), liar.pair()
    liar.kept += [os.fdopen(os.dup(other.fileno()), "rb", 0)]
    liar.send(connection, hello(liar.token), other.fileno())
    liar.answer(connection, 8)
    liar.close()
    connection, notes, _ = liar.make()
    liar.send(notes, recipe(1, b"x\0"))
    there, end = os.pipe()
    liar.kept.append(os.fdopen(there, "rb", 0))
    liar.send(connection, line(1), there)
    liar.answer(connection)
    liar.send(notes, started(5))
    os.close(end)
    liar.send(connection, gone(5, asks=1))
    liar.answer(connection)
    liar.make()


def parents_that_start_late(liar):
    """Sub-makes of a recipe report before its make reports that the recipe has begun, which takes long."""
    connection, notes, number = liar.make()
    liar.send(notes, recipe(1, b"parent\0"))
    liar.send(connection, line(1))
    liar.answer(connection)
    for child in range(31):
        below, _ = liar.begin(b"child%d\0" % child, b"said\n", parent=(number, 1))
        liar.send(below, gone(77, asks=1))
        liar.answer(below)
    liar.send(notes, started(5))
    liar.send(connection, gone(5, 256, asks=1))
    liar.answer(connection)


def parents_in_a_circle(liar):
    """Makes that each claim that a recipe of the next one runs it."""
    for count in (1, 2, 3):
        first = liar.make()[2] + 1
        makes = [liar.make(parent=(first + (n + 1) % count, 1)) for n in range(count)]
        for n, (connection, notes, number) in enumerate(makes):
            liar.send(notes, recipe(1, b"circle%d.%d\0circle%d.%d other" % (count, n, count, (n + 1) % count)))
            liar.send(connection, line(1))
            liar.answer(connection)
        for process in range(100):
            for _, notes, _ in makes:
                liar.send(notes, started(process))
        for connection, _, _ in makes:
            liar.send(connection, gone(0, asks=1))
            liar.answer(connection)


def never_listens(liar):
    """Replies that nobody reads."""
    connection = liar.make()[0]
    for _ in range(2000):
        if liar.send(connection, gone(1, asks=1)) is None:
            return


def many_connections(liar):
    for _ in range(150):
        liar.connect()


def no_line_feed(liar):
    """A recipe prints 100 MB in one line."""
    connection, notes, _ = liar.make()
    liar.send(notes, recipe(1, b"x\0"))
    there, end = os.pipe()
    liar.send(connection, line(1), there)
    os.close(there)
    liar.answer(connection)
    liar.send(notes, started(5))
    os.set_blocking(end, False)
    for _ in range(2000):
        if not select.select([], [end], [], MOST / 2)[1]:
            raise TimeoutError("a pipe is not read")
        os.write(end, b"x" * 50000)
    os.close(end)


def too_many_names(liar):
    """A recipe whose names take more memory than allowed."""
    notes = liar.make()[1]
    for _ in range(6000):
        if liar.send(notes, names(b"x" * 59000)) is None:
            return
    raise ValueError("names of any size are taken")


def almost_right(chance, token, latest):
    """A random message of a make that has announced some recipes. The message is often valid. Its names differ by more than a byte from
    those of honest targets."""
    some = [b"lie%d\0" % n for n in range(20)] + [b"", b"\0", b"a b c\0x y\0", b"../r\0", b"x\ny\0"]
    number, time = chance.choice((latest, latest, latest, 1, *NUMBERS)), chance.choice((ORDINARY, ORDINARY, *TIMES))
    process = chance.choice((5, 5, 5, 5, 6, 7, *SIGNED))
    kinds = (
        (1, lambda: hello(token, chance.choice((b"/\0", b"x", b"")), process=process)), (2, lambda: names(chance.choice(some))),
        (5, lambda: recipe(chance.choice((latest + 1,) * 9 + NUMBERS), chance.choice(some))), (9, lambda: started(process)), (3, lambda: failed(time)),
        (5, lambda: line(latest + 1, time=time, asks=chance.choice((0, 0, 1)), names=chance.choice(some))),
        (2, lambda: failed(time, chance.choice(some))), (4, ignored), (2, went_on),
        (9, lambda: line(number, chance.choice((b"", b"sh", b"sh\0-c\0x\0", b"\0" * 100)), time, chance.choice((0, 0, 0, 1, 7)))),
        (9, lambda: gone(process, chance.choice((0, 0, 1, 9, 256, -1)), time, chance.choice((0, 1, 7)), chance.choice((0, 1, 2, 3)), (chance.choice(TIMES),) * 3)),
    )  # fmt: skip
    message = chance.choices([made for _, made in kinds], [weight for weight, _ in kinds])[0]()
    if chance.random() < 0.1:
        place = chance.randrange(len(message))
        message = chance.choice((message[:place], message + message[place:], message[:place] + bytes([chance.randrange(256)]) + message[place + 1 :]))
    return message


def at_random(liar):
    """Random messages of several makes."""
    chance, makes = random.Random(7), {}
    for _ in range(4000):
        place = chance.randrange(8)
        if place not in makes:
            makes[place] = [*liar.make()[:2], 0]
        connection, notes, latest = makes[place]
        there, end = os.pipe()
        passed = chance.choice(((), (there,), (there,), (there,), (there, there), (end,), (connection.fileno(),)))
        message = almost_right(chance, liar.token, latest)
        asks = {b"E": message[4:8], b"L": message[16:20]}.get(message[:1], bytes(4)) != bytes(4)
        is_note = message[:1] != b"H" and not asks
        is_sent = liar.send(connection if is_note == (chance.random() < 0.02) else notes, message, *(passed if message[:1] == b"L" else ()))
        makes[place][2] += message[:1] == b"R" or (message[:1] in b"LF" and len(message) > 8 and message[20:24] not in (b"", bytes(4)))
        os.close(there)
        with contextlib.suppress(BrokenPipeError):
            os.write(end, b"said at random\n" * chance.choice((0, 1, 1000)))
        os.close(end)
        connection.setblocking(False)
        with contextlib.suppress(BlockingIOError):
            is_sent = is_sent and liar.answer(connection, 64)
        connection.settimeout(MOST / 2)
        if not is_sent or chance.random() < 0.01:
            connection.close()
            notes.close()
            del makes[place]


LIES = (
    cut, longer, wrong_token, wrong_order, two_lines, numbers_of_recipes, sizes_of_names, numbers_of_parents, numbers_of_processes,
    times_and_states, odd_names, odd_descriptors, many_descriptors, kept_descriptors, parents_that_start_late, parents_in_a_circle,
    never_listens, many_connections, no_line_feed, too_many_names, at_random,
)  # fmt: skip


def lying_make(checks, at):
    """A process that pretends to be a make sends what no make sends. redo-log-capture goes on, and the output of an honest make is in its logs."""
    sanitized = install_capture(at("sanitized"), "STATIC=", "CFLAGS=-O1 -fsanitize=address,undefined -fno-sanitize-recover=all -static-libasan -static-libubsan")

    def run(item):
        lie, is_sanitized = item
        name, found = f"{lie.__name__}{', sanitized' if is_sanitized else ''}", []
        # The build with address checks copies all bytes for each part that arrives.
        if lie == too_many_names and (is_sanitized or "ASAN_OPTIONS" in os.environ):
            return name, None
        is_beside, begun = lie == at_random, time.monotonic()
        liar = Liar(at(name), sanitized if is_sanitized else TOOL, "until [ -e enough ]; do make -s -j3 during || exit 1; echo >>rounds; done;" if is_beside else "")
        try:
            lie(liar)
            if liar.make()[2] == 0:
                raise ValueError("no make is taken any more")
            if time.monotonic() - begun > MOST:
                raise TimeoutError("it hangs")
            write(os.path.join(liar.folder, "enough"), "")
            if not is_beside:
                liar.becomes_idle()
            memory = liar.memory()
            if not is_sanitized and memory > (350000 if lie in (too_many_names, no_line_feed) else 100000):
                found.append(f"it has {memory} kB of memory")
            liar.close()
            if not is_beside:
                wait_until("descriptors are closed", lambda: liar.descriptors() <= liar.first_descriptors + 40)
        except (OSError, ValueError, TimeoutError) as error:
            found.append(f"{type(error).__name__}: {error}")
        status, told, left = liar.end()
        if status != 0 or "Sanitizer" in told or "runtime error" in told:
            found += [f"status {status}", *[line for line in told.splitlines() if "SUMMARY" in line or "runtime error" in line][:2], told[-200:]]
        if left:
            found.append(f"{left} processes are left")
        rounds = len(files_of(liar.folder).get("rounds", ()))
        honest = {"h1": ["h1 said"], "h2": ["h2 said"], **{f"d{n}": [f"d{n} said {k}" for k in (1, 2, 3)] * rounds for n in range(60) if is_beside}}
        wanted = "".join("".join(f"{line}\n" for line in [f"redo  {target}", *lines]) for target, lines in honest.items())
        if shown(liar.folder, *honest) != wanted:
            found.append(f"honest logs: {shown(liar.folder, *honest)}"[:300])
        odd = [line for line in texts_of(liar.folder) if not re.fullmatch(r"(\w+ )?said( \d)?|said at random|x+", line)]
        if odd:
            found.append(f"logs have {odd}, which nothing printed"[:300])
        if not found:
            shutil.rmtree(liar.folder)
        return name, found

    all_right(checks, "lying_make", run, [(lie, is_sanitized) for lie in LIES for is_sanitized in (False, True)])


def late_start(checks, at):
    """A make reports that a line has started after the sub-make of the line has connected. What fails in the sub-make failed in that line."""
    liar = Liar(at("late_start"), TOOL, "trap 'exit 3' EXIT;")
    make, notes, number = liar.make()
    liar.send(make, line(1, names=b"outer\0"))
    liar.answer(make)
    for message in (started(77), gone(77), line(1, asks=0)):
        liar.send(notes, message)
    start = threading.Timer(0.2, liar.send, (notes, started(78)))
    start.start()
    sub_make, sub_notes, _ = liar.make(parent=(number, 1))
    liar.send(sub_notes, failed(names=b"inner\0"))
    sub_make.close(), sub_notes.close()
    start.join()
    liar.send(make, gone(78, 2 << 8, asks=1))
    liar.answer(make)
    liar.close()
    told = liar.end()[1]
    checks.expect("late_start", re.findall(r"^redo-log-capture: \d+ targets? failed: (.*)", told, re.M), ["redo-log inner"])


PARTS = (
    failing_hook, failing_server, late_server, lying_make, late_start, many_processes, never_silent, few_descriptors, refused_memory, at_once_killed,
    killed_between_messages, ends_while_nobody_reads,
)  # fmt: skip
