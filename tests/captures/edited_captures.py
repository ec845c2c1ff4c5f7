"""Capture directories that somebody changed by hand, between two builds or during one. The build runs as without a capture, and
the captures are right, or one line names their fault."""
import fcntl
import os
import re
import shutil
import signal
import subprocess

from builds import TOOL, lines_of_others, make, of_a_terminal, preloaded, project, ran, shown, text_of, wait_for, wait_until_recorded, without_printed, write
from checks import CAPTURES, environment, install_capture

MARKING = ("--must-close",)
MAKEFILE = """all: x y d/w ; @echo all $(N) >&2
x: ; @echo x $(N) >&2; touch x
y: z a\\ b ; @echo y $(N) >&2; echo made
z a\\ b: ; @echo $@ $(N) >&2
d/w: ; @$(MAKE) -s -f below.mk sub; echo w $(N) >&2
"""
BELOW = "sub: ; @echo sub $(N) >&2\n"
# What the first build leaves behind. Only the first build makes x.
LEFT = "1 all\n2 x\n3 z\n4 a b\n5 y\n6 d/w\n7 sub\n"
NEW = "1 all\n2 z\n3 a b\n4 y\n5 d/w\n6 sub\n"
FIRST = "redo    x\nx 1\n"
TEXT = "redo  all\n{}redo    y\nredo      z\nz 2\nredo      a b\na b 2\ny 2\nredo    d/w\nredo      sub\nsub 2\nw 2\nall 2\n"


def read(path):
    with open(path, encoding="utf-8") as file:
        return file.read()


def names_are(text):
    """A list with other names and the same must-close flags."""

    def change(at):
        marked = set(re.findall(r"^!(\d+) ", read(f"{at}/names"), re.M))
        os.remove(f"{at}/names")
        write(f"{at}/names", re.sub(r"^(\d+)(?= )", lambda line: f"!{line[1]}" if line[1] in marked else line[1], text, flags=re.M))

    return change


def without(*names):
    return "".join(line for line in LEFT.splitlines(keepends=True) if line.split(" ", 1)[1].strip() not in names)


def removing(*paths):
    def change(at):
        for path in paths:
            (shutil.rmtree if os.path.isdir(f"{at}/{path}") else os.remove)(f"{at}/{path}")

    return change


def emptying(path):
    return lambda at: os.truncate(f"{at}/{path}", 0)


def writing(path, text):
    return lambda at: write(f"{at}/{path}", text)


def adding(path, text):
    return lambda at: write(f"{at}/{path}", read(f"{at}/{path}") + text)


def folder_for(path):
    return lambda at: (removing(path)(at), os.mkdir(f"{at}/{path}"))


def pipe_for(path):
    return lambda at: (removing(path)(at), os.mkfifo(f"{at}/{path}"))


def both(*changes):
    return lambda at: [change(at) for change in changes]


def removing_what_is_kept(at):
    for name in os.listdir(f"{at}/.capture"):
        removing(f".capture/{name}")(at)


def left_out(number, more=""):
    return f"FOLDER/{CAPTURES}/names: line {number}: bad line, left out{more}"


# The log of x is then what z printed first, and begins with z.
SWAPPED = TEXT.format("redo    x\nredo      z\nz 2\nz 1\n").replace("redo    y\nredo      z\nz 2\n", "redo    y\n")
# A change, the message, the names after it, the text of x, and whether x, which the second build doesn't make, still has its
# must-close flag.
CHANGES = {
    "nothing": (lambda at: None, [], LEFT, FIRST, True),
    "a line removed": (names_are(without("y")), [], without("y") + "8 y\n", FIRST, True),
    "a line removed that is made no more": (names_are(without("x")), [], without("x"), "", None),
    "a line removed of a make below": (names_are(without("sub")), [], without("sub") + "8 sub\n", FIRST, True),
    "a line removed of a recipe with a make": (names_are(without("d/w")), [], without("d/w") + "8 d/w\n", FIRST, True),
    "a line removed with a space": (names_are(without("a b")), [], without("a b") + "8 a b\n", FIRST, True),
    "the line of the run removed": (names_are(without("all")), [], LEFT, FIRST, True),
    "the last lines removed": (names_are(without("d/w", "sub")), [], without("d/w", "sub") + "8 d/w\n9 sub\n", FIRST, True),
    "one line left": (names_are("2 x\n"), [], "1 all\n2 x\n8 z\n9 a b\n10 y\n11 d/w\n12 sub\n", FIRST, True),
    "a log removed": (removing("log.5"), [], LEFT, FIRST, True),
    "the log of the run removed": (removing("log.1"), [], LEFT, FIRST, True),
    "names emptied": (names_are(""), [], NEW, "", None),
    "names removed": (removing("names"), [], NEW, "", None),
    "another order": (names_are("".join(LEFT.splitlines(keepends=True)[::-1])), [], "".join(LEFT.splitlines(keepends=True)[::-1]), FIRST, True),
    "two numbers swapped": (names_are(LEFT.replace("2 x\n3 z", "3 x\n2 z")), [], LEFT.replace("2 x\n3 z", "3 x\n2 z"), SWAPPED, False),
    "another name": (names_are(LEFT.replace(" y", " other")), [], LEFT.replace(" y", " other") + "8 y\n", FIRST, True),
    "another name of what is made no more": (names_are(LEFT.replace(" x", " other")), [], LEFT.replace(" x", " other"), "", False),
    "another name of the run": (names_are(LEFT.replace(" all", " other")), [], LEFT, FIRST, True),
    "the name of the run for another": (names_are(LEFT.replace(" all", " other").replace(" x", " all")), [], without("x"), "", None),
    "another spelling": (names_are(LEFT.replace(" z", " ./d/..//z")), [], LEFT, FIRST, True),
    "another number": (names_are(LEFT.replace("5 y", "77 y")), [], LEFT.replace("5 y", "77 y"), FIRST, True),
    "a large number": (names_are(LEFT.replace("5 y", "999999999 y")), [left_out(5)], without("y") + "8 y\n", FIRST, True),
    "the largest number": (names_are(without("sub").replace("5 y", "1048575 y")), [], without("sub").replace("5 y", "1048575 y") + "8 sub\n", FIRST, True),
    "too large a number": (names_are(LEFT.replace("5 y", "4294967298 y")), [left_out(5)], without("y") + "8 y\n", FIRST, True),
    "the number 0": (names_are(LEFT.replace("5 y", "0 y")), [left_out(5)], without("y") + "8 y\n", FIRST, True),
    "a number twice": (names_are(LEFT + "2 other\n"), [left_out(8)], LEFT, FIRST, True),
    "a name twice": (names_are(LEFT + "40 ./y\n"), [left_out(8)], LEFT, FIRST, True),
    "no line feed at the end": (names_are(LEFT.rstrip()), [], LEFT, FIRST, True),
    "half a line": (names_are(LEFT.removesuffix("sub\n")), [left_out(7)], without("sub") + "8 sub\n", FIRST, True),
    "an empty line": (names_are("\n" + LEFT), [left_out(1)], LEFT, FIRST, True),
    "other lines": (names_are("smith\njones\n1\n"), [left_out(1, ", and 2 more")], NEW, "", None),
    "a line of zeros": (adding("names", "\0\0\0"), [left_out(8)], LEFT, FIRST, True),
    "a NUL": (names_are(LEFT.replace("5 y", "5 y\0y")), [left_out(5)], without("y") + "8 y\n", FIRST, True),
    "no book": (removing(".capture/run"), [], LEFT, FIRST, False),
    "an empty book": (emptying(".capture/run"), [], LEFT, FIRST, False),
    "another book": (writing(".capture/run", "smith\njones\n"), [], LEFT, FIRST, False),
    "the last line removed": (names_are(without("sub")), [], without("sub") + "8 sub\n", FIRST, True),
    "the last line and its log removed": (both(names_are(without("sub")), removing("log.7")), [], LEFT, FIRST, True),
    "no lock": (removing(".capture/lock"), [], LEFT, FIRST, True),
    "no list of closed logs": (removing(".capture/closed"), [], LEFT, FIRST, False),
    "an empty list of closed logs": (emptying(".capture/closed"), [], LEFT, FIRST, False),
    "another list of closed logs": (writing(".capture/closed", "x\n-5 x\n3 x\n2 x\n2\n888888888 y\n"), [], LEFT, FIRST, True),
    "nothing kept": (removing_what_is_kept, [], LEFT, FIRST, False),
    "nothing kept of it": (removing(".capture"), [], LEFT, FIRST, False),
    "only logs are left": (removing(".capture", ".gitignore", "facts", "names"), [], NEW, "", None),
    "only logs and an empty index are left": (both(removing(".capture", ".gitignore", "facts"), emptying("names")), [], NEW, "", None),
    "two of them": (both(names_are(without("y", "sub")), removing(".capture/lock")), [], without("y", "sub") + "8 y\n9 sub\n", FIRST, True),
}


def built(folder, command, *words, more=None):
    """The status and output of a build, its other lines in any order, and the messages of redo-log-capture."""
    status, out, told = ran(folder, [*command, *(() if "make" in command else ("make", "-s")), *words], more)
    told = without_printed(told)
    lines = [line.replace(folder, "FOLDER") for line in told.splitlines()]
    own = "redo-log-capture: "
    others = [line.replace(folder, "FOLDER") for line in lines_of_others(told)]
    return (status, out, sorted(others)), [line.removeprefix(own) for line in lines if line.startswith(own)]


def placed(folder):
    write(os.path.join(folder, "below.mk"), BELOW)
    return project(folder, MAKEFILE)


def marked(names, is_closed):
    """A log under another name has no must-close flag."""
    is_open = (" other\n",) if is_closed else (" other\n", " x\n")
    return "".join(line if line.endswith(is_open) else "!" + line for line in names.splitlines(keepends=True))


def between_builds(checks, at):
    """A build over captures that were changed, and another build after it."""
    plain = placed(at("plain"))
    ran(plain, ["make", "-s", "N=1"])
    for what, (change, told, names, first, is_closed) in CHANGES.items():
        for options in (MARKING, ()) if what.startswith("a line") else (MARKING,):
            folder, name = placed(at(f"{what}{len(options)}")), f"{what}, {options}"
            checks.expect(f"{name}: before", (make(folder, "-s", "N=1", options=options)[::2], read(f"{folder}/{CAPTURES}/names").replace("!", "")), ((0, ""), LEFT))
            change(f"{folder}/{CAPTURES}")
            wanted = built(plain, [], "N=2")[0]
            silent = (wanted[0], wanted[1], [])
            checks.expect(f"{name}: make", built(folder, [TOOL, *options], "N=2"), (silent, told))
            checks.expect(f"{name}: names", read(f"{folder}/{CAPTURES}/names"), marked(names, is_closed) if options else names)
            text = first if first.startswith("redo  all") else TEXT.format(first)
            checks.expect(f"{name}: shown", shown(folder, "-u", "all"), text)
            checks.expect(f"{name}: the next one", built(folder, [TOOL, *options], "N=3"), (silent, []))
            checks.expect(f"{name}: shown then", shown(folder, "-u", "all"), text.replace("2\n", "3\n"))
            checks.expect(f"{name}: files", sorted(set(os.listdir(folder)) - {CAPTURES}), sorted(os.listdir(plain)))

    folder = placed(at("gone"))
    make(folder, "-s", "N=1", options=MARKING)
    os.remove(f"{folder}/{CAPTURES}/log.2")
    checks.expect("a log removed that is made no more: make", built(folder, [TOOL], "N=2")[1], [])
    checks.expect("a log removed that is made no more", shown(folder, "-u", "all"), TEXT.format("redo    x\n"))
    checks.expect("it is missed where logs are marked", (ran(folder, [TOOL, *MARKING, "--finish"]), shown(folder, "all")), ((0, "", ""), (4, "redo-log: x: not closed\n")))
    names_are(without("x"))(f"{folder}/{CAPTURES}")
    checks.expect("but not without its line", shown(folder, "-u", "all"), TEXT.format("redo    x\n"))


def refused(checks, at):
    """A directory that can't be written is rejected before anything is started, and stays unchanged."""
    foreign = f"{CAPTURES} is not a capture directory, and not empty; name another one with --dir"
    rows = {
        **{
            f"a file {name}": (both(removing(".capture"), writing(name, "")), foreign)
            for name in ("x", "log", "log.", "log.1x", "log.01", "log.1048576", "d/log.1")
        },
        "other names": (both(removing(".capture"), writing("names", "smith\njones\n")), foreign),
        "another program's log": (both(removing(".capture", ".gitignore", "facts", "names"), writing("log.1", "started\n")), foreign),
        "a file in its place": (both(removing(".capture"), writing(".capture", "")), f"cannot write {CAPTURES}/.capture: Not a directory"),
        "names a folder": (folder_for("names"), f"{CAPTURES}/names is not a regular file"),
        "names a pipe": (pipe_for("names"), f"{CAPTURES}/names is not a regular file"),
        "names a link to itself": (lambda at: (removing("names")(at), os.symlink("names", f"{at}/names")), f"{CAPTURES}/names is a symbolic link"),
        "the book a pipe": (pipe_for(".capture/run"), f"{CAPTURES}/.capture/run is not a regular file"),
        **{f"a folder for {name}": (folder_for(f".capture/{name}"), f"{CAPTURES}/.capture/{name} is not a regular file") for name in ("lock", "run", "closed")},
    }
    for what, (change, told) in rows.items():
        folder = placed(at(what))
        make(folder, "-s", "N=1")
        change(f"{folder}/{CAPTURES}")
        before = sorted(os.walk(folder))
        checks.expect(f"{what}: make", built(folder, ["timeout", "30", TOOL], "N=2"), ((1, "", []), [told]))
        checks.expect(f"{what}: what is there", sorted(os.walk(folder)), before)


def locked_without_number(checks, at):
    """Another process has just locked the directory, and hasn't written its number yet. An earlier process may have left its own."""
    folder = placed(at("locked"))
    make(folder, "-s", "N=1")
    write(f"{folder}/{CAPTURES}/.capture/run", "running 1\n")
    before = sorted((name, read(f"{folder}/{CAPTURES}/{name}")) for name in os.listdir(f"{folder}/{CAPTURES}") if name != ".capture")
    earlier = subprocess.Popen(["true"])
    earlier.wait()
    for what, number, named in (("without a number", "", ""), ("an earlier number", f"{earlier.pid}\n", ""), ("a number", f"{os.getpid()}\n", f", process {os.getpid()}")):
        with open(f"{folder}/{CAPTURES}/.capture/lock", "w", encoding="utf-8") as lock:
            fcntl.flock(lock, fcntl.LOCK_EX)
            lock.write(number)
            lock.flush()
            told = f"{CAPTURES} is in use by another build{named}"
            checks.expect(f"locked, {what}: finished", ran(folder, [TOOL, "--finish"]), (1, "", f"redo-log-capture: {told}\n"))
            (status, out, _), reports = built(folder, [TOOL], "N=2")
            checks.expect(f"locked, {what}: make", (status, out, reports), (0, "made\n", [f"{told}: this build is not captured"]))
    checks.expect("locked, without a number: the journal", read(f"{folder}/{CAPTURES}/.capture/run"), "running 1\n")
    after = sorted((name, read(f"{folder}/{CAPTURES}/{name}")) for name in os.listdir(f"{folder}/{CAPTURES}") if name != ".capture")
    checks.expect("locked, without a number: the captures", after, before)


# The recipes that change something wait until their logs have what they have printed: make doesn't wait for redo-log-capture.
MIDDLE = f"""WAIT = $(if $(filter-out :,$(NOW)),until grep -qsx $@ {CAPTURES}/log.*; do sleep 0.01; done,:)
all: a b t c ; @echo all >&2
a: ; @echo a >&2
b: a ; @echo b >&2; $(WAIT); $(NOW); echo b again >&2
t: b ; @echo t >&2; $(MAKE) -s -f below.mk s1 s2; echo t again >&2
c: t ; @echo c >&2
"""
MIDDLE_BELOW = f"WAIT = $(if $(filter-out :,$(THEN)),until grep -qsx $@ {CAPTURES}/log.*; do sleep 0.01; done,:)\ns1: ; @echo s1 >&2; $(WAIT); $(THEN); echo s1 again >&2\ns2: s1 ; @echo s2 >&2\n"
WHOLE = "redo  all\nredo    a\na\nredo    b\nb\nb again\nredo    t\nredo      s2\nredo        s1\ns1\ns1 again\ns2\nt\nt again\nredo    c\nc\nall\n"
GONE = f"FOLDER/{CAPTURES} was removed; its captures are lost"
LOG_GONE = f"FOLDER/{CAPTURES}/log.{{}} was removed; its captures are lost".format
LATE = "redo  all\nredo    t\nredo      s2\nredo        s1\ns1\ns1 again\ns2\nt\nt again\nredo    c\nc\nall\n"
LATER = "redo  all\nredo    c\nc\nredo    s2\ns2\nall\n"
NO_WORDS = (
    WHOLE.replace("a\na\n", "a\n").replace("b\nb\nb again\n", "b\n"),
    "redo  all\nredo    a\nredo    b\nredo    t\nredo      s2\nredo        s1\ns2\nredo    c\nc\nall\n",
)
SEVERAL_GONE = f"FOLDER/{CAPTURES}/log.2 and {{}} more were removed; their captures are lost"
# What a recipe does; the messages, and the text if it is complete, if the recipe belongs to the first make, and if it belongs to a
# sub-make. Messages of the sub-make go into the log of the recipe that started it.
MEANWHILE = {
    "nothing": (":", [], WHOLE, [], WHOLE),
    "a line removed": (f"sed -i '/ a$/d' {CAPTURES}/names", [], WHOLE, [], WHOLE),
    "its own line removed": (f"sed -i '/ b$/d; / s1$/d' {CAPTURES}/names", [], WHOLE, [], WHOLE),
    "the line of the run removed": (f"sed -i '/ all$/d' {CAPTURES}/names", [], WHOLE, [], WHOLE),
    "names removed": (f"rm {CAPTURES}/names", [], WHOLE, [], WHOLE),
    "names emptied": (f": >{CAPTURES}/names", [], WHOLE, [], WHOLE),
    "another name": (f"sed -i 's/ b$/ other/' {CAPTURES}/names", [], WHOLE, [], WHOLE),
    "an unended line": (f"printf '77 x' >>{CAPTURES}/names", [], WHOLE, [], WHOLE),
    "a bad line": (f"echo bad >>{CAPTURES}/names", [left_out(4)], WHOLE, [left_out(6)], WHOLE),
    "a number twice": (f"echo '2 other' >>{CAPTURES}/names", [left_out(4)], WHOLE, [left_out(6)], WHOLE),
    "no list of closed logs": (f"rm {CAPTURES}/.capture/closed", [], WHOLE, [], WHOLE),
    "a log removed": (f"rm {CAPTURES}/log.2", [LOG_GONE(2)], WHOLE.replace("a\na\n", "a\n"), [LOG_GONE(2)], WHOLE.replace("a\na\n", "a\n")),
    "its own log removed": (f"rm {CAPTURES}/log.3", [LOG_GONE(3)], WHOLE.replace("b\nb\nb again\n", "b\n"), [LOG_GONE(3)], WHOLE.replace("b\nb\nb again\n", "b\n")),
    "all logs removed": (f"rm {CAPTURES}/log.*", [SEVERAL_GONE.format(1)], NO_WORDS[0], [SEVERAL_GONE.format(3)], NO_WORDS[1]),
    "the log of the run removed": (f"rm {CAPTURES}/log.1", [], WHOLE, [], WHOLE),
    "the log of the run emptied": (f": >{CAPTURES}/log.1", [], WHOLE, [], WHOLE),
    "no journal": (f"rm {CAPTURES}/.capture/run", [], WHOLE, [], WHOLE),
    "an empty journal": (f": >{CAPTURES}/.capture/run", [], WHOLE, [], WHOLE),
    "another journal": (f"echo smith >{CAPTURES}/.capture/run", [], WHOLE, [], WHOLE),
    "nothing kept of it": (f"rm -r {CAPTURES}/.capture", [GONE], LATE, [GONE], LATER),
    "the directory removed": (f"rm -r {CAPTURES}", [GONE], LATE, [GONE], LATER),
}


def killed(folder):
    """A build that is killed after x was made, while the recipe of y runs."""
    project(folder, "all: x y\nx: ; @echo x >&2\ny: ; @echo y >&2; touch begun; exec sleep 60\n")
    build = subprocess.Popen([TOOL, "make", "-s"], cwd=folder, env=environment(), stderr=subprocess.DEVNULL, preexec_fn=of_a_terminal)
    wait_for(os.path.join(folder, "begun"))
    wait_until_recorded(build, "y has spoken", lambda: text_of(folder, "y") == "y\n")
    os.killpg(build.pid, signal.SIGKILL)
    build.wait()
    return folder


def in_the_middle(checks, at):
    """A build during which the captures are changed, and another build after it."""
    for what, (command, *rows) in MEANWHILE.items():
        for number, variable in enumerate(("NOW", "THEN")):
            folder, name = project(at(f"{what}{variable}"), MIDDLE), f"{what}, {variable}"
            write(os.path.join(folder, "below.mk"), MIDDLE_BELOW)
            told, text = rows[2 * number : 2 * number + 2]
            words = {"NOW": ":", "THEN": ":", variable: command.replace("$", "$$")}
            given = [f"{key}={value}" for key, value in words.items()]
            (status, out, lines), reports = built(folder, [TOOL, *MARKING], *given)
            # Recipes that ran when the captures were removed print to the terminal from then on.
            left = {"b", "b again"} if variable == "NOW" else {"s1", "s1 again", "t", "t again"}
            checks.expect(f"{name}: make", (status, out, set(lines) <= (left if told == [GONE] else set()), reports), (0, "", True, told))
            found = str(shown(folder, "all"))
            if "log removed" in what or "logs removed" in what:  # later output is in a new log if it arrives when the line has ended
                found, text = (re.sub(r"^(b|s1|t) again\n", "", lines, flags=re.M) for lines in (found, text))
            checks.expect(f"{name}: shown", found if text else found.startswith("redo  all\n"), text or True)
            checks.expect(f"{name}: the next one", built(folder, [TOOL, *MARKING], "NOW=:", "THEN=:"), ((0, "", []), []))
            checks.expect(f"{name}: shown then", shown(folder, "all"), WHOLE)

    folder = project(at("fails"), f"all: ; @echo all >&2; echo bad >>{CAPTURES}/names; exit 3\n")
    told = ["all (exit 3)", left_out(2), "1 target failed: redo-log all", "show all logs: redo-log -r all"]
    checks.expect("one that fails", built(folder, [TOOL])[1], told)

    folder = killed(at("killed"))
    write(f"{folder}/{CAPTURES}/names", "1 all\n")
    checks.expect("a build that was killed, finished", (ran(folder, [TOOL, "--finish"]), read(f"{folder}/{CAPTURES}/names")), ((0, "", ""), "1 all\n2 x\n3 y\n"))
    checks.expect("it is shown", shown(folder, "all"), "redo  all\nredo    x\nx\nredo    y\ny\n")


# Lines after which a log would have records that are none, or be read beyond its ends; or `names` would be damaged.
DAMAGE = (
    "start 2 77 -5\nmention 2 0 1", "start 2 77 9223372036854775807\nmention 2 0 1", "line 2 -5 0",
    "mention 2 -1 5", "mention 2 5 5", "mention 2 1 9223372036854775807", "mention 2 9223372036854775806 9223372036854775807",
    "ended 2 -5 5 0", "ended 2 5 5 -5", "ended 2 5 5 256", "did 2 0 5 -5", "did 2 0 5 256", "target 0 5 0 z", "target 1048576 5 0 z",
    "target 4294967297 5 0 z", "target 1 5 0 z", "target 2 5 0 z", "target 5 5 0 all", "target 4 5 0 ", "start 4294967298x", "x" * 100000,
)  # fmt: skip


def damaged_journals(checks, at):
    """A build that was killed is finished as if damaged lines of its journal weren't there."""
    original = killed(at("killed"))

    def finished(what, damage):
        folder = at(what)
        shutil.copytree(original, folder)
        adding(".capture/run", damage)(f"{folder}/{CAPTURES}")
        told = ran(folder, [TOOL, "--finish", *MARKING])
        logs = [read(f"{folder}/{CAPTURES}/log.{number}") for number in (1, 2, 3)]
        logs[0] = re.sub(r"^(@@REDO:\w+):\d+:", r"\1:", logs[0], flags=re.M)  # the processes of --finish
        return told, read(f"{folder}/{CAPTURES}/names"), sorted(os.listdir(f"{folder}/{CAPTURES}")), logs

    wanted = finished("intact", "")
    checks.expect("an intact journal", wanted[:2], ((0, "", ""), "1 all\n!2 x\n3 y\n"))
    for number, lines in enumerate(DAMAGE):
        checks.expect(f"a damaged journal: {lines[:60]!r}", finished(str(number), f"{lines}\n"), wanted)
    # The records that the log of x gets are at its start, and not within its first record.
    logs = finished("within", "start 2 77 10\nmade 3 2 5\n")[-1]
    checks.expect("the records at a log's start end within a line", logs[1], "@@REDO:do:77:0.005@@ y\n" + wanted[-1][1])


def other_numbers(checks, at):
    """While a build runs, targets get numbers in `names` that are higher than those of all logs, and `facts` has lines of these."""
    original = killed(at("killed"))
    for names in ("1 all\n1048575 x\n3 y\n", "1048575 all\n2 x\n3 y\n"):
        folder = at(names.replace("\n", ","))
        shutil.copytree(original, folder)
        write(f"{folder}/{CAPTURES}/names", names)
        adding("facts", "1048575 log x\n1048575 log all\n1048575 directory /\n")(f"{folder}/{CAPTURES}")
        told = ran(folder, [TOOL, "--finish"]), sorted(read(f"{folder}/{CAPTURES}/names").splitlines())
        checks.expect(f"other numbers: {names!r}", told, ((0, "", ""), ["1 all", "2 x", "3 y"]))


def many_needs(checks, at):
    """A recipe with many prerequisites, whose first line removes the directory."""
    names = " ".join(f"n{number}" for number in range(40))
    for change in (f"rm -r {CAPTURES}", f"rm -r {CAPTURES}/.capture"):
        folder = project(at(change.replace("/", "")), f"all: {names}\n\t@echo one >&2; {change}\n\t@echo two >&2\n{names}: ; @echo $@ >&2\n")
        (status, out, lines), told = built(folder, [TOOL, *MARKING])
        checks.expect(f"{change}, by one of many needs: make", (status, out, set(lines) <= {"one"}, told), (0, "", True, [GONE]))
        checks.expect(f"{change}, by one of many needs", shown(folder, "all"), "redo  all\ntwo\n")


def folders_for_logs(checks, at):
    """A recipe whose log can't be written, because a directory has its name, runs as without a capture."""
    plain, folder = placed(at("plain")), placed(at("before"))
    ran(plain, ["make", "-s", "N=1"])
    make(folder, "-s", "N=1", options=MARKING)
    folder_for("log.5")(f"{folder}/{CAPTURES}")
    status, out, _ = built(plain, [], "N=2")[0]
    told = [f"cannot write FOLDER/{CAPTURES}/log.5: Is a directory"]
    checks.expect("a folder for a log: make", built(folder, [TOOL, *MARKING], "N=2"), ((status, out, ["y 2"]), told))
    checks.expect("it is told", shown(folder, "all"), (5, "redo-log: y: cannot be read\n"))
    os.rmdir(f"{folder}/{CAPTURES}/log.5")
    checks.expect("once it is gone: make", built(folder, [TOOL, *MARKING], "N=3"), ((status, out, []), []))
    checks.expect("once it is gone", shown(folder, "all"), TEXT.format("").replace("2\n", "3\n"))
    pipe_for("log.5")(f"{folder}/{CAPTURES}")
    checks.expect("a pipe for a log: make", built(folder, ["timeout", "30", TOOL, *MARKING], "N=4"), ((status, out, []), []))
    checks.expect("a pipe for a log", shown(folder, "all"), TEXT.format("").replace("2\n", "4\n"))
    folder_for("log.1")(f"{folder}/{CAPTURES}")
    (_, out, lines), told = built(folder, [TOOL, *MARKING], "N=5")
    checks.expect("a folder for the log of the run", (out, lines, set(told)), ("made\n", ["all 5"], {f"cannot write FOLDER/{CAPTURES}/log.1: Is a directory"}))

    folder = project(at("middle"), MIDDLE)
    write(os.path.join(folder, "below.mk"), MIDDLE_BELOW)
    answer = built(folder, [TOOL, *MARKING], f"NOW=rm {CAPTURES}/log.2 && mkdir {CAPTURES}/log.2", "THEN=:")
    checks.expect("in the middle: make", answer, ((0, "", []), [LOG_GONE(2)]))
    checks.expect("in the middle", shown(folder, "all"), (5, "redo-log: a: cannot be read\n"))
    log = f"{CAPTURES}/log.2"
    recipe = f"echo x >&2; until grep -q x {log}; do sleep 0.01; done; rm {log}; mkdir {log}; $(MORE) exit 3"
    folder = project(at("fails"), f"all: x\nx: ; @{recipe}\n")
    told = ["x (exit 3)", LOG_GONE(2), "1 target failed: redo-log x", "show all logs: redo-log -r all"]
    checks.expect("of one that fails", built(folder, [TOOL])[1], told)
    shutil.rmtree(f"{folder}/{CAPTURES}")
    checks.expect("of one that fails, and says more", built(folder, [TOOL], "MORE=echo more >&2;")[1], told)


REMOVING = """all: a t b\\ c d
	@echo all >&2
a: ; @echo out; echo a >&2; touch made
	@echo a again >&2
t: a ; @echo t >&2; $(MAKE) -s -f below.mk s1 s2; echo t again >&2
b\\ c: a ; @echo b c >&2
d: ; -@echo d >&2; kill -9 $$$$
.PHONY: all a t d
"""
REMOVING_BELOW = "s1: ; @echo s1 >&2\ns2: s1 ; @echo s2 >&2; echo out below\n"


def removed_at_any_time(checks, at):
    """Another process removes the directory before each change that the capture makes there."""
    library, tool, places = preloaded("break"), install_capture(at("dynamic"), "STATIC="), []
    for name in ("plain", "new", "again"):
        places.append(project(at(name), REMOVING))
        write(os.path.join(places[-1], "below.mk"), REMOVING_BELOW)
    plain, shows = built(places[0], [])[0], ["d (exit 137)"]
    for folder in places[1:]:
        number, count = 0, 1
        while number < count:
            number += 1
            shutil.rmtree(f"{folder}/{CAPTURES}", ignore_errors=True)
            if folder.endswith("again"):
                built(folder, [TOOL, *MARKING])
            more = {"LD_PRELOAD": library, "BREAK_AT": str(number), "BREAK_COUNT": f"{folder}.{number}", "BREAK_REMOVE": f"{folder}/{CAPTURES}"}
            (status, out, lines), told = built(folder, [tool, *MARKING], more=more)
            count = os.path.getsize(f"{folder}.{number}")
            what = f"removed in front of change {number}"
            checks.expect(f"{what}: make", (status, out, [line for line in lines if line not in plain[2]]), (*plain[:2], []))
            # Before the first change nothing was captured.
            checks.expect(f"{what}: told", GONE in told or number == 1, number <= count or number == 1)
            checks.expect(f"{what}: the next one", built(folder, [TOOL, *MARKING]), ((*plain[:2], [plain[2][4]]), shows))
        checks.expect("changes in all", count > 30, True)


def removed_by_later_lines(checks, at):
    """The second line of each recipe removes the directory. No file appears there meanwhile: then rm would fail."""
    names = " ".join(f"n{number}" for number in range(100))
    folder = project(at("later"), f"all: {names}\n{names}:\n\t@echo $@ >&2\n\t@rm -r {CAPTURES}\n")
    (status, out, lines), told = built(folder, [TOOL, *MARKING, "make", "-s"])
    checks.expect("removed by later lines", (status, out, lines, GONE in told), (0, "", [], True))


BESIDE = f"""NUMBERS = $(shell seq 40)
all: $(NUMBERS) clean below
$(NUMBERS): ; @echo $@; echo $@ >&2; sleep 0.00$$(($@ % 5))
	@echo $@ >&2
clean: 15 ; @rm -rf {CAPTURES} 2>/dev/null; true
below: ; @$(MAKE) -s -f below.mk a b c d e f
"""


def removed_beside_others(checks, at):
    """A recipe removes the directory while others begin, print and end."""
    below = "a b c d e f: ; @echo $@; echo $@ >&2; sleep 0.003\n"
    plain = project(at("plain"), BESIDE)
    write(os.path.join(plain, "below.mk"), below)
    status, out, lines = built(plain, ["make", "-s", "-j4"])[0]
    for number in range(10):
        folder = project(at(str(number)), BESIDE)
        write(os.path.join(folder, "below.mk"), below)
        if number % 2:
            make(folder, "-s", "-j4", "1", "2", "15")
        answer, told = built(folder, [TOOL, *MARKING, "make", "-s", "-j4"])
        checks.expect(f"removed beside others, {number}", (answer[0], sorted(answer[1]), set(answer[2]) <= set(lines), GONE in told), (status, sorted(out), True, True))
        text = str(shown(folder, "-u", "all"))
        checks.expect(f"removed beside others, {number}: shown", text.startswith("redo  all\n"), True)
        blocks = re.findall(r"^redo +(\w+)\n((?:(?!redo  ).*\n)*)", text, re.M)
        wrong = [block for block in blocks if block[0] != "below" and not re.fullmatch(rf"({block[0]}\n)*(redo-log-capture: .*\n)*", block[1])]
        checks.expect(f"removed beside others, {number}: each word below its target", wrong, [])


KEPT = tuple(f".capture/{name}" for name in ("lock", "run", "closed", "new"))
PRECIOUS = "1 all\n2 precious\n"


def linked(path, victim, kind):
    """Puts a link to a file elsewhere in the place of a file of the captures; a second name of that file if `kind` is hard."""

    def change(at):
        if kind == "hard":
            if not os.path.exists(f"{at}/{path}"):
                write(f"{at}/{path}", PRECIOUS)
            os.link(f"{at}/{path}", victim)
            return
        if os.path.lexists(f"{at}/{path}"):
            removing(path)(at)
        os.symlink(victim, f"{at}/{path}")
        if kind == "to a file":
            write(victim, PRECIOUS)
        if kind == "to a directory":
            for name in KEPT:
                write(f"{victim}/{os.path.basename(name)}", PRECIOUS)

    return change


def bytes_below(path):
    """The contents of a file, or of the files in a directory; None if it doesn't exist."""
    if os.path.isdir(path):
        return {name: read(os.path.join(path, name)) for name in sorted(os.listdir(path))}
    return read(path) if os.path.exists(path) else None


LINKS = [(path, kind) for path in ("names", *KEPT) for kind in ("to a file", "to nothing")] + [(".capture", "to a directory"), (".capture", "to nothing")]


def links_before(checks, at):
    """Links to files elsewhere, before a build. Nothing elsewhere is read or written. Logs are replaced; other links are rejected."""
    plain = placed(at("plain"))
    ran(plain, ["make", "-s", "N=1"])
    wanted = built(plain, [], "N=2")[0]
    for path, kind in LINKS + [(path, kind) for path in ("log.1", "log.5") for kind in ("to a file", "to nothing", "hard")] + [(path, "hard") for path in ("names", *KEPT)]:
        what = f"{path} a link {kind}"
        folder, victim = placed(at(what)), at(what) + ".victim"
        make(folder, "-s", "N=1", options=MARKING)
        linked(path, victim, kind)(f"{folder}/{CAPTURES}")
        before = bytes_below(victim)
        answer = built(folder, [TOOL, *MARKING], "N=2")
        if (path, kind) in LINKS:
            checks.expect(f"{what}: make", answer, ((1, "", []), [f"{CAPTURES}/{path} is a symbolic link"]))
        else:
            checks.expect(f"{what}: make", answer, ((*wanted[:2], []), []))
            checks.expect(f"{what}: shown", shown(folder, "-u", "all"), TEXT.format(FIRST))
        checks.expect(f"{what}: what is elsewhere", bytes_below(victim), before)

    folder = placed(at("the directory"))
    os.mkdir(at("elsewhere"))
    os.symlink(at("elsewhere"), f"{folder}/{CAPTURES}")
    checks.expect("the directory a link: make", make(folder, "-s", "N=1")[::2], (0, ""))
    checks.expect("the directory a link", str(shown(at("elsewhere"), "all", at=".")).startswith("redo  all\n"), True)
    shutil.rmtree(at("elsewhere"))
    told = f"cannot write {CAPTURES}: No such file or directory"
    checks.expect("the directory a link to nothing", built(folder, [TOOL], "N=2"), ((1, "", []), [told]))


def cannot_write(path):
    return f"cannot write FOLDER/{CAPTURES}/{path}: it is a symbolic link"


LATE_LINES = ["a", "all", "b", "b again", "c", "s1", "s1 again", "s2", "t", "t again"]
# What a recipe does, with V for the name of a file elsewhere; the messages, or two alternatives; the text, unless names can't
# be read; and which lines may be on the terminal. PUT puts a link in the place of a file in one step.
PUT = "ln -s V link; mv -T link {}/"
LINKED_MEANWHILE = {
    "names": (PUT + "names", {cannot_write("names")}, None, []),
    "names, by another name": ("ln {}/names V", set(), WHOLE, []),
    "a log": ("until grep -qs a {}/log.2; do sleep 0.01; done; " + PUT + "log.2", {LOG_GONE(2)}, WHOLE.replace("a\na\n", "a\nprecious\n"), []),
    "its own log": (
        PUT + "log.3", (LOG_GONE(3), cannot_write("log.3")),
        WHOLE.replace("b\nb\nb again\n", "b\nprecious\n"), ["b again"]
    ),
    "the lock": (PUT + ".capture/lock", {GONE, cannot_write(".capture/lock")}, None, LATE_LINES),
    "the journal": (PUT + ".capture/run", set(), WHOLE, []),
    "the list of closed logs": (PUT + ".capture/closed", set(), WHOLE, []),
    "the new file": (PUT + ".capture/new", set(), WHOLE, []),
    "the state directory": ("mv {}/.capture kept; ln -s V.d {}/.capture", set(), WHOLE, []),
    "another state directory": ("mv {}/.capture old; ln -s V.d {}/.capture; rm -r old", {GONE, cannot_write(".capture")}, None, LATE_LINES),
}


def links_meanwhile(checks, at):
    """Links to files elsewhere, which a recipe puts in the place of files of the captures. Nothing elsewhere is written."""
    for what, (command, told, text, late) in LINKED_MEANWHILE.items():
        folder = project(at(what), MIDDLE)
        # After some of the commands, no later recipe has a log.
        write(os.path.join(folder, "below.mk"), MIDDLE_BELOW.replace("$(WAIT); ", ""))
        victim = at("victim of " + what.replace(" ", "-"))
        if "another name" not in what:
            write(victim, "precious\n")
        for name in KEPT:
            write(f"{victim}.d/{os.path.basename(name)}", "precious\n")
        command = command.replace("{}", CAPTURES).replace("V", f"'{victim}'")
        (status, out, lines), reports = built(folder, [TOOL, *MARKING], f"NOW={command}", "THEN=:")
        is_told = set(reports) == told if isinstance(told, set) else len(reports) == 1 and reports[0] in told
        checks.expect(f"{what} linked: make", (status, out, set(lines) <= set(late), is_told or reports), (0, "", True, True))
        checks.expect(f"{what} linked: the file elsewhere", read(victim) == "precious\n" or ("another name" in what and " c\n" not in read(victim)), True)
        checks.expect(f"{what} linked: the directory elsewhere", bytes_below(f"{victim}.d"), {os.path.basename(name): "precious\n" for name in KEPT})
        if text:
            checks.expect(f"{what} linked: shown", shown(folder, "all"), text)


def links_at_the_end(checks, at):
    """Links to files elsewhere, where the logs of a build that was killed are finished. Nothing elsewhere is read or written."""
    original = killed(at("killed"))
    rows = LINKS + [(path, kind) for path in ("log.1", "log.2") for kind in ("to a file", "to nothing", "hard")] + [(path, "hard") for path in ("names", *KEPT)]
    for path, kind in rows:
        what = f"{path} a link {kind}, finished"
        folder, victim = at(what), at(what) + ".victim"
        shutil.copytree(original, folder)
        linked(path, victim, kind)(f"{folder}/{CAPTURES}")
        before = bytes_below(victim)
        status, out, told = ran(folder, [TOOL, "--finish", *MARKING])
        checks.expect(f"{what}: what is elsewhere", bytes_below(victim), before)
        if (path, kind) in LINKS:
            checks.expect(what, (status, out, told), (1, "", f"redo-log-capture: {CAPTURES}/{path} is a symbolic link\n"))
        elif kind == "hard":
            checks.expect(what, (status, out, told, shown(folder, "all")), (0, "", "", "redo  all\nredo    x\nx\nredo    y\ny\n"))
        else:
            gone = f"redo-log-capture: {folder}/{CAPTURES}/log.2 was removed; its captures are lost\n"
            checks.expect(what, (status, out, told), (0, "", gone if path == "log.2" else ""))


MOVING = "all: a b ; @exit $(S)\na: ; @echo a >&2; $(NOW)\nb: a ; @echo b >&2\n"
MOVED = "redo  all\nredo    a\na\nredo    b\nb\n"


def moved(checks, at):
    """A directory that is renamed while a build runs goes on receiving its logs, even if another one gets its name."""
    ways = {
        "the directory of the build": (f"mv '{{0}}' '{{0}}.to'", ".to", CAPTURES),
        "the directory of the build, and a new one": ("mv '{0}' '{0}.to'; mkdir '{0}'", ".to", CAPTURES),
        "the capture directory": (f"mv {CAPTURES} kept", "", "kept"),
        "the capture directory, and a new one": (f"mv {CAPTURES} kept; mkdir {CAPTURES}", "", "kept"),
    }
    for what, (command, suffix, kept) in ways.items():
        for status in (0, 3):
            folder = project(at(f"{what}{status}"), MOVING)
            (ended, out, lines), told = built(folder, [TOOL, *MARKING], f"NOW={command.format(folder)}", f"S={status}")
            words = "redo-log" if kept == CAPTURES else f"redo-log --dir 'FOLDER/{kept}'"
            empty = "its log is empty; --both also captures standard output"
            reports = ["all (exit 3)", f"1 target failed: {words} all", empty, f"show all logs: {words.replace('redo-log', 'redo-log -r', 1)} all"]
            checks.expect(f"{what} renamed: make, {status}", (ended, out, told), (2 if status else 0, "", reports if status else []))
            checks.expect(f"{what} renamed, {status}", str(shown(folder + suffix, "all", at=kept)).startswith(MOVED), True)
            if "new one" in what:
                checks.expect(f"{what}, {status}: what is in the new one", os.listdir(folder if suffix else f"{folder}/{CAPTURES}"), [])


PARTS = (
    between_builds, refused, locked_without_number, in_the_middle, damaged_journals, other_numbers, many_needs, folders_for_logs,
    removed_at_any_time, removed_by_later_lines, removed_beside_others, links_before, links_meanwhile, links_at_the_end, moved,
)  # fmt: skip
