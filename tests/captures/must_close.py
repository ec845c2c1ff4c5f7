"""Builds that are captured with --must-close: at any time, `names` has the must-close flag for closed logs only, and redo-log rejects
a copy in which the end of one is missing."""
import contextlib
import os
import re
import shutil
import signal
import subprocess
import time

from builds import TOOL, log_of, make, of_a_terminal, preloaded, project, ran, shown, text_of, wait_for, wait_until_recorded, write
from checks import CAPTURES, environment, install_capture

MARKING = ("--must-close",)


def read(path):
    with open(path, encoding="utf-8") as file:
        return file.read()


def names_of(folder, at=CAPTURES):
    return read(os.path.join(folder, at, "names"))


def copy_what_is_there(path, to):
    with contextlib.suppress(FileNotFoundError):
        shutil.copy(path, to)


def copied(folder, to):
    """Copies the captures to the directory `to`, `names` first."""
    place, there = (os.path.join(at, CAPTURES) for at in (folder, to))
    os.makedirs(there)
    shutil.copy(os.path.join(place, "names"), there)
    shutil.copytree(place, there, dirs_exist_ok=True, ignore=lambda *_: ["names"], copy_function=copy_what_is_there)
    return to


def open_and_marked(folder):
    """Names that have the must-close flag although their logs don't end with their closing records."""
    found = []
    for line in names_of(folder).splitlines():
        number, name = line.split(" ", 1)
        log = os.path.join(folder, CAPTURES, "log." + number.lstrip("!"))
        text = read(log) if os.path.exists(log) else ""
        own = name if name.startswith("/") else os.path.basename(name)
        record = rf"(.*\n)?@@REDO:done:\d+:\d+\.\d{{3}}@@ \d+ {re.escape(own)}\n"
        if number.startswith("!") and not re.fullmatch(record, text, re.S):
            found.append(name)
    return found


def marks(checks, at):
    makefile = "all: x y\nx: ; @echo x >&2\ny: z ; @echo y >&2; exit $(Y)\nz: ; @echo z >&2\n"
    text = "redo  all\nredo    x\nx\nredo    y\nredo      z\nz\ny\n"
    folder = project(at("plain"), makefile)
    checks.expect("without the option: make", make(folder, "Y=0"), (0, "", ""))
    checks.expect("without the option", (names_of(folder), shown(folder, "all")), ("1 all\n2 x\n3 z\n4 y\n", text))
    folder = project(at("marked"), makefile)
    build = subprocess.Popen([TOOL, *MARKING, "make", "Y=0"], cwd=folder, env=environment())
    checks.expect("with it: make", build.wait(), 0)
    checks.expect("with it", (names_of(folder), shown(folder, "all")), ("!1 all\n!2 x\n!3 z\n!4 y\n", text))
    checks.expect("the run's own log", re.sub(r":\d+\.\d+@@", ":T@@", log_of(folder, "all")).endswith(f"@@ 0 y\n@@REDO:done:{build.pid}:T@@ 0 all\n"), True)
    checks.expect("each log is closed once", [log_of(folder, name).count("@@REDO:done:") for name in ("x", "z")], [1, 1])
    checks.expect("a run that makes nothing: make", make(folder, "-n", "Y=0")[0], 0)
    checks.expect("a run that makes nothing", (names_of(folder), shown(folder, "all")), ("!1 all\n!2 x\n!3 z\n!4 y\n", text))
    checks.expect("finished again", (ran(folder, [TOOL, "--finish"]), names_of(folder)), ((0, "", ""), "!1 all\n!2 x\n!3 z\n!4 y\n"))

    folder = project(at("fails"), makefile.replace("all: x y", "all: x y w\nw: ; @echo w >&2"))
    checks.expect("one that fails: make", make(folder, "-s", "Y=3", options=MARKING)[0], 2)
    checks.expect("one that fails", names_of(folder), "!1 all\n!2 x\n!3 z\n!4 y\n")
    checks.expect("one that fails: its text", shown(folder, "all"), text + "redo    y (exit 3)\n")
    checks.expect("one that fails: its log", re.sub(r"\d+:\d+\.\d+@@", "@@", log_of(folder, "y")), "@@REDO:do:@@ y\n@@REDO:do:@@ z\n@@REDO:done:@@ 0 z\ny\n@@REDO:done:@@ 3 y\n")
    checks.expect("one that fails: the run's own log", re.search(r":\d+\.\d+@@ 2 all\n\Z", log_of(folder, "all")) is not None, True)
    checks.expect("goes on: make", make(folder, "-k", "Y=3", options=MARKING)[0], 2)
    checks.expect("goes on", names_of(folder), "!1 all\n!2 x\n!3 z\n!4 y\n!5 w\n")

    folder = project(at("statuses"), "x: ; @echo x >&2\n")
    for command, status in (("exit 7", 7), ("kill -9 $$", 137), ("exit 0", 0)):
        found = ran(folder, [TOOL, *MARKING, "sh", "-c", f"make -s; {command}"])[0]
        checks.expect(f"a status, {command}: make", found, status if status < 128 else 128 - status)
        closed = re.fullmatch(r"@@REDO:do:[\d:.]+@@ all\n@@REDO:do:[\d:.]+@@ x\n@@REDO:done:[\d:.]+@@ 0 x\n@@REDO:done:[\d:.]+@@ (\d+) all\n", log_of(folder, "all"))
        checks.expect(f"a status, {command}", (closed and closed[1], names_of(folder), shown(folder, "all")), (str(status), "!1 all\n!2 x\n", "redo  all\nredo    x\nx\n"))

    folder = project(at("own"), "all: x ; @echo all >&2; exit $(A)\nx: ; @echo x >&2\n")
    for status in (0, 3):
        checks.expect(f"a recipe `all`, {status}: make", make(folder, f"A={status}", options=MARKING)[0], 2 if status else 0)
        log = re.sub(r"\d+:\d+\.\d+@@", "@@", log_of(folder, "all"))
        checks.expect(f"a recipe `all`, {status}", (names_of(folder), log), ("!1 all\n!2 x\n", f"@@REDO:do:@@ all\n@@REDO:do:@@ x\n@@REDO:done:@@ 0 x\nall\n@@REDO:done:@@ {status} all\n"))
    checks.expect("a run of another target: make", make(folder, "x", options=MARKING)[0], 0)
    log = re.sub(r"\d+:\d+\.\d+@@", "@@", log_of(folder, "all"))
    checks.expect("a run of another target", (names_of(folder), log), ("!1 all\n!2 x\n", "@@REDO:do:@@ all\n@@REDO:do:@@ x\n@@REDO:done:@@ 0 x\n@@REDO:done:@@ 0 all\n"))

    folder = project(at("below"), "top: lib ; @echo top >&2\n.PHONY: lib\nlib: ; @$(MAKE) -s -C lib a; echo lib >&2\n")
    write(os.path.join(folder, "lib/Makefile"), "a: ; @echo a >&2; exit 3\n")
    checks.expect("makes below: make", make(folder, "-s", options=("--dir", "o t", *MARKING))[0], 0)
    checks.expect("makes below", names_of(folder, "o t"), "!1 all\n!2 lib\n!3 lib/a\n!4 top\n")
    text = "redo  all\nredo    top\nredo      lib\nredo        lib/a\na\nredo        lib/a (exit 3)\nmake[1]: *** [Makefile:1: a] Error 3\nlib\ntop\n"
    checks.expect("makes below: their text", shown(folder, "all", at="o t"), text)

    folder = project(at("odd"), "all: ; @$(TAKE)\n")
    script = 'for n in "!x" "!2 y" "a b" "/o/p"; do CAPTURE="$n : " "$0" --recipe true; done'
    listed = "1 all\n2 !x\n3 !2 y\n4 a b\n5 /o/p\n"
    checks.expect("odd names: the run", ran(folder, [TOOL, *MARKING, "sh", "-c", script, TOOL]), (0, "", ""))
    checks.expect("odd names", (names_of(folder), open_and_marked(folder)), (re.sub("^", "!", listed, flags=re.M).removesuffix("!"), []))
    checks.expect("odd names: again", (ran(folder, [TOOL, "sh", "-c", script, TOOL])[0], names_of(folder)), (0, listed))


# Each target is made if its file doesn't exist.
STEPWISE = "all: x y\nx y v: ; @echo $@ $(N) >&2; touch $@\n"
ALL_OF_THEM = "!1 all\n!2 x\n!3 y\n"


def without_marks(names):
    return names.replace("!", "")


def runs(checks, at):
    """Consecutive runs that remake one target, with and without the option: logs of earlier runs have the flag too."""
    for options in ((True, True), (True, False), (False, True), (False, False), (True, False, True), (False, False, True), (True, True, True)):
        folder = project(at("".join("m" if is_marking else "p" for is_marking in options)), STEPWISE)
        what = f"runs with the option: {options}"
        for number, is_marking in enumerate(options):
            if number > 0:
                os.remove(os.path.join(folder, "x"))
            checks.expect(f"{what}: make {number}", make(folder, f"N={number}", options=MARKING if is_marking else ())[0], 0)
            checks.expect(f"{what}: after {number}", names_of(folder), ALL_OF_THEM if is_marking else without_marks(ALL_OF_THEM))
            checks.expect(f"{what}: open after {number}", open_and_marked(folder), [])
        checks.expect(f"{what}: the text", shown(folder, "-u", "all", "y"), f"redo  all\nredo    x\nx {len(options) - 1}\nredo  y\ny 0\n")
        checks.expect(f"{what}: marked later", (ran(folder, [TOOL, "--finish", *MARKING]), names_of(folder)), ((0, "", ""), ALL_OF_THEM))

    folder = project(at("list"), STEPWISE)
    make(folder, "N=0")
    checks.expect("the list of closed logs", read(os.path.join(folder, CAPTURES, ".capture/closed")), "1 all\n2 x\n3 y\n")
    os.remove(os.path.join(folder, CAPTURES, ".capture/closed"))
    checks.expect("captures of an older version", (ran(folder, [TOOL, "--finish", *MARKING]), names_of(folder)), ((0, "", ""), "1 all\n2 x\n3 y\n"))
    os.remove(os.path.join(folder, "x"))
    checks.expect("a run over them", (make(folder, "N=1", options=MARKING), names_of(folder)), ((0, "", ""), "!1 all\n!2 x\n3 y\n"))

    folder = project(at("lost"), STEPWISE)
    make(folder, "N=0")
    cut_end(os.path.join(folder, CAPTURES, "log.3"))
    checks.expect("an end that is lost, without marks", shown(folder, "y"), "redo  y\ny 0\n")
    os.remove(os.path.join(folder, "x"))
    checks.expect("an end that was lost before the run", (make(folder, "N=1", options=MARKING), names_of(folder)), ((0, "", ""), ALL_OF_THEM))
    checks.expect("it is told", shown(folder, "all"), (4, "redo-log: y: not closed\n"))
    os.remove(os.path.join(folder, "y"))
    checks.expect("once it is made anew", (make(folder, "N=2", options=MARKING), names_of(folder), shown(folder, "all")), ((0, "", ""), ALL_OF_THEM, "redo  all\nredo    y\ny 2\n"))

    folder = project(at("forgotten"), STEPWISE)
    make(folder, "N=0", options=MARKING)
    os.remove(os.path.join(folder, CAPTURES, "names"))
    checks.expect("where the list of names is gone", (make(folder, "v", "N=1", options=MARKING), names_of(folder)), ((0, "", ""), "!1 all\n!2 v\n"))
    checks.expect("the list of closed logs goes with it", read(os.path.join(folder, CAPTURES, ".capture/closed")), "1 all\n2 v\n")

    folder = project(at("removed"), f"all: x clean y\nx y: ; @echo $@ >&2\nclean: ; @rm -rf {CAPTURES}\n")
    make(folder, "x", options=MARKING)
    told = f"redo-log-capture: {folder}/{CAPTURES} was removed; its captures are lost\n"
    checks.expect("a recipe that removes the captures", (make(folder, options=MARKING), names_of(folder)), ((0, "", told), "!1 all\n!2 y\n"))


def killed(checks, at):
    """A build that was killed, over a build with flags: x, y and z were made; then x was made again, and y had begun again."""
    makefile = "all: x y z\nx y z: ; @echo $@ $(N) >&2; touch $@\nv: x ; @echo v >&2\n"
    folder = project(at("folder"), makefile)
    checks.expect("before: make", (make(folder, "N=0", options=MARKING), names_of(folder)), ((0, "", ""), "!1 all\n!2 x\n!3 y\n!4 z\n"))
    write(os.path.join(folder, "Makefile"), makefile.replace("x y z:", "x z:") + "y:\n\t@echo y begins >&2\n\t@touch begun; until [ -e go ]; do sleep 0.01; done\n")
    os.remove(os.path.join(folder, "x"))
    os.remove(os.path.join(folder, "y"))
    build = subprocess.Popen([TOOL, *MARKING, "make", "N=1"], cwd=folder, env=environment(), preexec_fn=of_a_terminal)
    wait_for(os.path.join(folder, "begun"))
    wait_until_recorded(build, "y has spoken", lambda: text_of(folder, "y") == "y begins\n")
    middle = copied(folder, at("middle"))
    checks.expect("in its middle", (names_of(middle), shown(middle, "all")), ("1 all\n2 x\n3 y\n4 z\n", "redo  all\nredo    x\nx 1\nredo    y\ny begins\n"))
    os.killpg(build.pid, signal.SIGKILL)
    build.wait()
    checks.expect("it is killed", (names_of(folder), shown(folder, "all")), ("1 all\n2 x\n3 y\n4 z\n", "redo  all\nredo    x\nx 1\nredo    y\ny begins\n"))
    text = "redo  all\nredo    x\nx 1\nredo    y\ny begins\n"
    for options, names in (((), "1 all\n2 x\n3 y\n4 z\n"), (MARKING, "1 all\n!2 x\n3 y\n!4 z\n")):
        place = copied(folder, at(f"finished{len(options)}"))
        checks.expect(f"finished, {options}", (ran(place, [TOOL, *options, "--finish"]), names_of(place)), ((0, "", ""), names))
        checks.expect(f"finished, {options}: its text", (shown(place, "all"), open_and_marked(place)), (text, []))
    os.remove(os.path.join(folder, "z"))
    for name, is_finished, names in (("unfinished", False, "!1 all\n2 x\n3 y\n!4 z\n"), ("finished", True, "!1 all\n!2 x\n3 y\n!4 z\n")):
        place = copied(folder, at(name))
        write(os.path.join(place, "Makefile"), makefile)
        if is_finished:
            checks.expect("finished before the next run", ran(place, [TOOL, "--finish"]), (0, "", ""))
        checks.expect(f"the next run, {name}", (make(place, "z", "N=2", options=MARKING), names_of(place)), ((0, "", ""), names))
        checks.expect(f"the next run, {name}: its text", (shown(place, "all"), open_and_marked(place)), ("redo  all\nredo    z\nz 2\n", []))


def moments(checks, at):
    """Copies made during and after builds over captures with flags: none has the flag for an open log, and all are shown."""
    names = " ".join(f"t{number}" for number in range(24))
    makefile = f"all: {names} ; @echo all >&2\n{names}: u ; @echo $@ >&2; sleep 0.0$$(($$$$ % 7)); exit $(E)\nu: ; @echo u >&2\n"
    folder = project(at("folder"), makefile)
    checks.expect("moments: make", make(folder, "-sj4", "E=0", options=MARKING), (0, "", ""))
    all_marked, count, unmarked = names_of(folder), 0, 0
    checks.expect("moments: the first build", all_marked.count("!"), 26)
    for words in (["E=0"], ["-k", "E=1"], ["t3", "t4", "E=0"]) * 20:
        if unmarked > 40:
            break
        build = subprocess.Popen([TOOL, *MARKING, "--quiet", "make", "-sj4", *words], cwd=folder, env=environment(), stderr=subprocess.DEVNULL)
        has_ended = False
        while not has_ended:
            has_ended = build.poll() is not None
            # A copy is valid if no build began while it was made; `names` is copied first.
            if not has_ended and "!" in names_of(folder):
                continue
            place = copied(folder, at(str(count)))
            count += 1
            unmarked += "!" not in names_of(place)
            checks.expect(f"moment {count}", open_and_marked(place), [])
            checks.expect(f"moment {count}: all or none is marked", names_of(place) in (all_marked, without_marks(all_marked)), True)
            if count % 3 == 0:
                checks.expect(f"moment {count}: it is shown", str(shown(place, "all")).startswith("redo  all\n"), True)
            time.sleep(0.001)
        checks.expect("moments: when it has ended", names_of(folder), all_marked)
    checks.expect("moments: many of them in the middle", unmarked > 40, True)


class Breaking:
    """Builds that remake x over captures in which all logs have the flag, by a command that can be killed."""

    def __init__(self, checks, at):
        self.checks, self.at = checks, at
        self.library, self.tool = preloaded("break"), install_capture(at("dynamic"), "STATIC=")
        self.original = project(at("original"), "all: x v\nx y: ; @echo $@ $(N) >&2; touch $@\nv: x ; @$(MAKE) -s w; echo v >&2\nw: ; @echo w >&2\n")
        first = make(self.original, "-s", "N=0", "x", "y", "v", options=MARKING)
        checks.expect("to break off: before", (first, names_of(self.original)), ((0, "", ""), "!1 all\n!2 x\n!3 y\n!4 v\n!5 w\n"))
        os.remove(os.path.join(self.original, "x"))

    def placed(self, name):
        write(os.path.join(copied(self.original, self.at(name)), "Makefile"), read(os.path.join(self.original, "Makefile")))
        return self.at(name)

    def run(self, place, command, number, *ways):
        """The status of a command that is killed at this change, unless the ways differ, and whether it reached it."""
        count = f"{place}.count"
        more = {"LD_PRELOAD": self.library, "BREAK_AT": str(number), "BREAK_COUNT": count, **{way: "yes" for way in ways}}
        build = subprocess.Popen([self.tool, *MARKING, *command], cwd=place, env=environment(more), stderr=subprocess.DEVNULL, preexec_fn=of_a_terminal)
        return build.wait(timeout=60), os.path.getsize(count) >= number

    def expect_right(self, what, place):
        self.checks.expect(f"{what}: open and marked", open_and_marked(place), [])
        self.checks.expect(f"{what}: it is shown", str(shown(place, "all")).startswith("redo  all\n"), True)


def broken_off(checks, at):
    """A build that is killed before each change of a file, or has no space left from then on; and the results of --finish and of the
    next run."""
    breaking = Breaking(checks, at)
    for is_full, statuses in ((False, (-signal.SIGKILL,)), (True, (1, 2))):
        number, is_broken = 0, True
        while is_broken:
            number += 1
            what, place = f"{'no room' if is_full else 'killed'} from change {number} on", breaking.placed(f"{is_full}{number}")
            status, is_broken = breaking.run(place, ["make", "-s", "N=1"], number, *(["BREAK_FULL"] if is_full else []))
            breaking.expect_right(what, place)
            checks.expect(f"{what}: its status", status in (statuses if is_broken else (0,)), True)
            for options, lines in (((), ("!3 y", "3 y")), (MARKING, ("!3 y",))):
                finished = copied(place, f"{place}-{len(options)}")
                checks.expect(f"{what}: finished, {options}", ran(finished, [TOOL, "--finish", *options]), (0, "", ""))
                breaking.expect_right(f"{what}: finished, {options}", finished)
                checks.expect(f"{what}: finished, {options}: y stays closed", names_of(finished).splitlines()[2] in lines, True)
            checks.expect(f"{what}: the next run", make(place, "-s", "w", options=MARKING), (0, "", ""))
            breaking.expect_right(f"{what}: the next run", place)
            checks.expect(f"{what}: the next run: y stays closed", names_of(place).splitlines()[2], "!3 y")
        checks.expect(f"changes in all, {is_full}", number > 20, True)


def finish_broken_off(checks, at):
    """After a killed build, --finish is killed before each change in turn. A second --finish completes the captures."""
    breaking = Breaking(checks, at)
    number, is_broken = 0, True
    while is_broken:
        number += 1
        what, place = f"a finish that is killed from change {number} on", breaking.placed(str(number))
        recipe = "all: x v w\nx: ; @echo x $(N) >&2; touch x\nv: x ; @echo v >&2\nw: v ; @rm -f none; kill -9 `cat .redo-log/.capture/lock`\n"
        write(os.path.join(place, "Makefile"), recipe)
        build = subprocess.run([TOOL, *MARKING, "make", "-s", "N=1"], cwd=place, env=environment(), stderr=subprocess.DEVNULL)
        checks.expect(f"{what}: make", build.returncode, -signal.SIGKILL)
        status, is_broken = breaking.run(place, ["--finish"], number)
        breaking.expect_right(what, place)
        checks.expect(f"{what}: its status", status, -signal.SIGKILL if is_broken else 0)
        checks.expect(f"{what}: again", ran(place, [TOOL, "--finish", *MARKING]), (0, "", ""))
        breaking.expect_right(f"{what}: again", place)
    # Before a line with `rm` make waits until all that came before is recorded, but not until the line has begun.
    whole = ["1 all\n!2 x\n!3 y\n!4 v\n" + last for last in ("5 w\n", "!5 w\n")]
    checks.expect("a finish that is whole", (number > 8, names_of(place) in whole), (True, True))


def torn(checks, at):
    """No space is left for the second half of one write. The build goes on, begins the log of v again, and is killed."""
    breaking = Breaking(checks, at)
    number, is_torn = 0, True
    while is_torn:
        number += 1
        what, place = f"change {number} is torn", breaking.placed(str(number))
        write(os.path.join(place, "Makefile"), "all: x v w\nx: ; @echo x $(N) >&2; touch x\nv: x ; @echo v >&2\nw: v ; @rm -f none; kill -9 0\n")
        status, is_torn = breaking.run(place, ["make", "-s", "N=1"], number, "BREAK_FULL", "BREAK_TORN")
        checks.expect(f"{what}: make", status, -signal.SIGKILL)
        checks.expect(f"{what}: finished", ran(place, [TOOL, "--finish", *MARKING]), (0, "", ""))
        breaking.expect_right(what, place)
    checks.expect("writes in all", number > 8, True)


def cut_end(log):
    """Removes the last line."""
    with open(log, "rb+") as file:
        lines = file.read().splitlines(keepends=True)
        file.truncate(sum(map(len, lines[:-1])))


def cut_byte(log):
    os.truncate(log, os.path.getsize(log) - 1)


def emptied(log):
    os.truncate(log, 0)


def cut_copies(checks, at):
    """redo-log rejects copies in which the end of a log is missing, with its name. Without the option it shows what remains."""
    makefile = "all: x d/y\nx: z ; @echo x >&2\nd/y: z ; @echo y >&2; exit 3\nz: ; @printf 'z\\nz' >&2\n"
    text = "redo  all\nredo    d/y\nredo      z\nz\nz\ny\nredo    d/y (exit 3)\nredo    x\nx\n"
    without = {"x": text.replace("redo    x\nx\n", "redo    x\n"), "z": text.replace("z\nz\n", "")}
    for options in (MARKING, ()):
        folder = project(at(f"folder{len(options)}"), makefile)
        checks.expect(f"to cut, {options}: make", make(folder, "-sk", options=options)[0], 2)
        checks.expect(f"to cut, {options}", shown(copied(folder, at(f"whole{len(options)}")), "all"), text)
        for number, name in ((1, "all"), (2, "z"), (3, "x"), (4, "d/y")):
            for way in (cut_end, cut_byte, os.remove, emptied):
                place = copied(folder, at(f"{len(options)}{number}{way.__name__}"))
                way(os.path.join(place, CAPTURES, f"log.{number}"))
                what, found = f"{name}, {way.__name__}, {options}", shown(place, "all")
                if options:
                    checks.expect(what, found, (4, f"redo-log: {name}: not closed\n"))
                    checks.expect(f"{what}, another one", shown(place, "x"), (4, f"redo-log: {name}: not closed\n"))
                elif way in (os.remove, emptied) and name in without:
                    checks.expect(what, found, without[name])
                elif way is cut_end:
                    checks.expect(what, found, text)
                else:
                    checks.expect(what, str(found).startswith("redo  all\n"), True)
    folder = project(at("several"), makefile)
    make(folder, "-sk", options=MARKING)
    for number in (4, 2, 3):
        emptied(os.path.join(folder, CAPTURES, f"log.{number}"))
    checks.expect("the first of several is told", shown(folder, "all"), (4, "redo-log: z: not closed\n"))
    write(os.path.join(folder, CAPTURES, "names"), without_marks(names_of(folder)))
    checks.expect("without marks, by hand", shown(folder, "all"), "redo  all\nredo    d/y\nredo    d/y (exit 3)\nredo    x\n")


def many_marks(checks, at):
    """A list of 20,000 names: one of them is made again."""
    count = 20000
    folder = project(at("many"), "all: x\nx: ; @echo x >&2\n")
    make(folder)
    listed = "1 all\n2 x\n" + "".join(f"{number} t{number}\n" for number in range(3, count))
    write(os.path.join(folder, CAPTURES, "names"), listed)
    closed = [line for line in listed.splitlines(keepends=True) if not line.startswith("777 ")]
    write(os.path.join(folder, CAPTURES, ".capture/closed"), "".join(closed))
    checks.expect("many marks: make", make(folder, options=MARKING), (0, "", ""))
    marked = "".join(("" if line.startswith("777 ") else "!") + line for line in listed.splitlines(keepends=True))
    checks.expect("many marks", names_of(folder) == marked, True)
    checks.expect("and none", (make(folder), names_of(folder) == listed), ((0, "", ""), True))


PARTS = (marks, runs, killed, moments, broken_off, finish_broken_off, torn, cut_copies, many_marks)
