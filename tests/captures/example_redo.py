"""What examples/redo makes and what redo-log shows of it. These are parts of tests/captures/run; each is a function that takes the
checks and a function for its directories."""
import json
import os
import random
import re
import shutil
import signal
import subprocess
import sys
import time

from checks import PROGRAM, TOP, contents, environment

EXAMPLE = os.path.join(TOP, "examples/redo")
# The directory of this interpreter comes first: a directory before it may have a script that looks for an interpreter.
PATH = os.pathsep.join([EXAMPLE, os.path.dirname(sys.executable), os.environ["PATH"]])


def write(path, text):
    os.makedirs(os.path.dirname(path), exist_ok=True)
    with open(path, "w", encoding="utf-8") as file:
        file.write(text)


def project(folder, **files):
    """A directory with these files. In names `__` means a slash, and a final `_do` means `.do`."""
    os.makedirs(folder)
    for name, text in files.items():
        write(os.path.join(folder, re.sub("_do$", ".do", name).replace("__", "/")), text)
    return folder


def settings(more=None):
    kept = {name: value for name, value in environment(more).items() if name != "REDO_RUN"}
    return {**kept, "PATH": PATH}


def redo(folder, *words, command="redo", more=None):
    """The status, standard output and standard error of a redo."""
    done = subprocess.run([command, *words], cwd=folder, env=settings(more), capture_output=True, text=True, timeout=120)
    return done.returncode, done.stdout, done.stderr


def started(folder, *words, **more):
    return subprocess.Popen(["redo", *words], cwd=folder, env=settings(), stderr=subprocess.PIPE, text=True, **more)


def shown(folder, *words):
    """The text that redo-log prints, or its status and error message."""
    done = subprocess.run([PROGRAM, "--dir", os.path.join(folder, ".redo"), *words], capture_output=True)
    return done.stdout.decode() if done.returncode == 0 else (done.returncode, done.stderr.decode())


def text_of(folder, name):
    with open(os.path.join(folder, name), encoding="utf-8") as file:
        return file.read()


def listed(folder):
    """The targets in `names`: whether each has the must-close flag, and its number."""
    path = os.path.join(folder, ".redo/names")
    lines = text_of(folder, ".redo/names").splitlines() if os.path.exists(path) else []
    words = [line.lstrip("!").split(" ", 1) for line in lines]
    return {name: (line.startswith("!"), number) for line, (number, name) in zip(lines, words)}


def log_of(folder, name):
    return text_of(folder, f".redo/log.{listed(folder)[name][1]}")


def marked_open(folder):
    """The targets that have the must-close flag although their logs don't end with their closing records."""
    found = []
    for name, (is_marked, number) in listed(folder).items():
        path = os.path.join(folder, f".redo/log.{number}")
        *_, last = ["", *text_of(folder, path).splitlines(keepends=True)] if os.path.exists(path) else [""]
        if is_marked and not re.fullmatch(rf"@@REDO:done:\d+:\d+\.\d{{4}}@@ -?\d+ {re.escape(os.path.basename(name))}\n", last):
            found.append(name)
    return found


def unmarked(folder):
    return [name for name, (is_marked, _) in listed(folder).items() if not is_marked]


def touch(path):
    """Sets the time of a file to a new value."""
    os.utime(path, ns=(0, os.stat(path).st_mtime_ns + 1_000_000))


def kinds_of(folder, name):
    """The records of a log, without what differs from run to run, and its lines. Its first record, the start of its own target, is left
    out."""
    text = re.sub(r"^@@REDO:([a-z]+):\d+:\d+\.\d{4}@@ ", r"\1 ", log_of(folder, name), flags=re.M)
    start = f"do {os.path.basename(name)}\n"
    return text[len(start):] if text.startswith(start) else f"no record of its start: {text}"


def wait_until(what, holds):
    if not becomes(holds, 3000):
        raise TimeoutError(what)


def becomes(holds, most):
    """Looks every 10 ms whether this holds, at most so many times. Returns whether it did."""
    for _ in range(most):
        if holds():
            return True
        time.sleep(0.01)
    return False


def files_of(folder):
    return sorted(name for name in os.listdir(folder) if name != ".redo")


def failed(*targets, why=""):
    """What redo prints about failed targets, with the reason for the first if it isn't the fault of its script."""
    lines = [f"redo: {target} failed with status {status}\n" for target, status in targets]
    return (f"redo: {targets[0][0]}: {why}\n" if why else "") + "".join(lines)


def promises(checks, at):
    said = 'echo "$(basename "$PWD") $0 $1 $2 $(case $3 in "$1".*.tmp) echo ok ;; *) echo "$3" ;; esac)" >&2\n'
    names = ["x.a.b", "d/x.a.b", "d/e/x.a.b", "d/e/y.b", "d/e/z"]
    folder = project(
        at("scripts"), all_do=f"redo-ifchange {' '.join(names)}\n", default_do=said, d__default_do=said, x__y=""
    )
    for script in ("x.a.b.do", "d/default.a.b.do", "default.a.b.do", "d/default.b.do"):
        write(os.path.join(folder, script), said)
    checks.expect("scripts: redo", redo(folder), (0, "", ""))
    text = """redo  all
redo    x.a.b
scripts x.a.b.do x.a.b x.a.b ok
redo    d/x.a.b
d default.a.b.do x.a.b x ok
redo    d/e/x.a.b
d default.a.b.do e/x.a.b e/x ok
redo    d/e/y.b
d default.b.do e/y.b e/y ok
redo    d/e/z
d default.do e/z e/z ok
"""
    checks.expect("which script, where it runs, and its words", shown(folder, "-r", "all"), text)

    folder = project(
        at("output"),
        said_do="echo said\n",
        given_do="echo given >$3\n",
        empty_do=": >$3\n",
        none_do="echo none >&2\n",
        both_do="echo said; echo given >$3\n",
        fails_do="echo half; echo half >$3; exit 3\n",
        stops_do="false\necho whole\n",
        itself_do="echo x >$1\n",
        killed_do="echo half; kill -9 $$\n",
        python_do="#!/usr/bin/env -S python3 -B\nimport sys\nprint(sys.argv[1:3])\n",
        nothing_do="#!/no/such/program\n",
    )
    before = files_of(folder)
    checks.expect("what is made", redo(folder, "said", "given", "empty", "none", "python"), (0, "", ""))
    made = {name: text_of(folder, name) for name in files_of(folder) if name not in before}
    wanted = {"said": "said\n", "given": "given\n", "empty": "", "python": "['python', 'python']\n"}
    checks.expect("the target is what was written", made, wanted)
    for name, status, why in (
        ("both", 1, "the script wrote to $3 and to standard output: one of them is the target"),
        ("fails", 3, ""),
        ("stops", 1, ""),
        ("itself", 1, "the script wrote to $1, which is removed: it has to write to $3, or to standard output"),
        ("killed", -9, ""),
    ):
        checks.expect(f"{name}: redo", redo(folder, name), (1, "", failed((name, status), why=why)))
        checks.expect(f"{name}: why", shown(folder, name), f"redo  {name}\n" + (f"redo: {why}\n" if why else ""))
        checks.expect(f"{name}: nothing is left", sorted([*before, *wanted]), files_of(folder))
    checks.expect("no such program: redo", redo(folder, "nothing"), (1, "", failed(("nothing", 127))))
    checks.expect("no such program", "/no/such/program" in shown(folder, "nothing"), True)

    write(os.path.join(folder, "said.do"), "echo half; exit 1\n")
    checks.expect("a script that fails now", redo(folder, "said")[0], 1)
    checks.expect("leaves the target as it was", text_of(folder, "said"), "said\n")
    write(os.path.join(folder, "said.do"), ":\n")
    write(os.path.join(folder, "given.do"), "rm $1; echo anew\n")
    checks.expect("a script that removes the target first", (redo(folder, "given"), text_of(folder, "given")), ((0, "", ""), "anew\n"))
    checks.expect("a script that makes no file now", redo(folder, "said")[0], 0)
    checks.expect("removes the target", os.path.exists(os.path.join(folder, "said")), False)

    folder = project(at("names"), all_do="redo-ifchange 'a b' -- -x ./new/folder/t ../out/y $PWD/z\n", default_do='echo "<$1>" >&2; echo >$3\n')
    write(os.path.join(at("out"), "y.do"), "redo-ifchange ../names/z\necho y >&2\n")
    checks.expect("names: redo", redo(folder, "-j4"), (0, "", ""))
    text = f"redo  all\nredo    a b\n<a b>\nredo    -x\n<-x>\nredo    new/folder/t\n<new/folder/t>\nredo    {at('out')}/y\n"
    text += f"redo      {folder}/z\ny\nredo    z\n<z>\n"
    checks.expect("names with spaces, in new folders, and outside", shown(folder, "-r", "all"), text)
    checks.expect("a target in a folder that was not there", text_of(folder, "new/folder/t"), "\n")
    checks.expect("below the base", redo(os.path.join(folder, "new"), "folder/t"), (0, "", ""))
    checks.expect("has no captures of its own", os.path.exists(os.path.join(folder, "new/.redo")), False)


def anew(checks, at):
    folder = project(
        at("anew"),
        all_do="redo-ifchange mid.x other\necho all >&2\n",
        mid__x="",
        default_x_do="redo-ifchange low\necho mid >&2; cat low\n".replace("low", "low in"),
        other_do="echo other >&2; echo other\n",
        low_do="redo-ifchange phony\necho low >&2; echo low\n",
        phony_do="redo-ifchange leaf\necho phony >&2\n",
        leaf="",
        **{"in": ""},
    )
    shutil.rmtree(os.path.join(folder, "mid"))
    os.rename(os.path.join(folder, "default_x.do"), os.path.join(folder, "default.x.do"))
    whole = "redo  all\nredo    mid.x\nredo      low\nredo        phony\nphony\nlow\nmid\nredo    other\nother\nall\n"
    checks.expect("anew: redo", (redo(folder), shown(folder, "-r", "all")), ((0, "", ""), whole))

    def again(what, text, *words):
        """What redo-ifchange makes, and the text below the targets that it does not make."""
        marks = {name: log_of(folder, name) for name in ("all", "mid.x", "low", "phony", "other")}
        checks.expect(f"{what}: redo-ifchange", redo(folder, *words, "all", command="redo-ifchange"), (0, "", ""))
        checks.expect(what, [name for name, log in marks.items() if log_of(folder, name) != log], text.split())
        checks.expect(f"{what}: the whole", shown(folder, "-ru", "all"), whole)

    again("nothing has changed", "")
    write(os.path.join(folder, "in"), "1\n")
    again("a source", "all mid.x")
    write(os.path.join(folder, "leaf"), "1\n")
    again("a source far below, by a target without a file", "all mid.x low phony")
    os.remove(os.path.join(folder, "other"))
    again("a target that is missing", "all other")
    touch(os.path.join(folder, "other.do"))
    again("a script", "all other")
    write(os.path.join(folder, "mid.x.do"), text_of(folder, "default.x.do"))
    again("a script that goes before", "all mid.x")
    os.remove(os.path.join(folder, "mid.x.do"))
    again("and is gone", "all mid.x")
    checks.expect("all is made anew where it is asked of redo", (redo(folder), shown(folder, "-r", "all")), ((0, "", ""), "redo  all\nall\n"))
    checks.expect("-u shows the rest", shown(folder, "-ru", "all"), whole)

    write(os.path.join(folder, "other"), "by hand\n")
    checks.expect("a target written by hand", (redo(folder), text_of(folder, "other")), ((0, "", ""), "by hand\n"))
    checks.expect("is a source", kinds_of(folder, "all"), "unchanged mid.x\nall\ndone 0 all\n")
    os.remove(os.path.join(folder, "other"))
    checks.expect("and removed again", (redo(folder)[0], text_of(folder, "other")), (0, "other\n"))
    write(os.path.join(folder, "all.do"), "redo-ifchange mid.x other default.x.do in\n")
    checks.expect("sources are not mentioned", (redo(folder), kinds_of(folder, "all")), ((0, "", ""), "unchanged mid.x\nunchanged other\ndone 0 all\n"))
    checks.expect("a source that is asked for", redo(folder, "in"), (0, "", ""))

    os.remove(os.path.join(folder, "leaf"))
    status, _, said = redo(folder)
    ways = (("phony", 1), ("low", 1), ("mid.x", 1), ("all", 1))
    checks.expect("a source that is gone: redo", (status, said), (1, failed(*ways, why="no rule to make leaf")))
    text = "redo  all\nredo    mid.x\nredo      low\nredo        phony\nredo: no rule to make leaf\n"
    text += "redo        phony (exit 1)\nredo      low (exit 1)\nredo    mid.x (exit 1)\n"
    checks.expect("a source that is gone", shown(folder, "-r", "all"), text)


def refusals(checks, at):
    folder = project(at("refused"), all_do="redo-ifchange ''\n", line_do="redo-ifchange 'a\nb'\n", own_do="redo-ifchange ./own\n",
                     a_do="redo-ifchange b\n", b_do="redo-ifchange c\n", c_do="redo-ifchange a\n")  # fmt: skip
    for words, told in ((["-jx"], "argument -j: invalid"), (["-q"], "unrecognized arguments: -q")):
        status, out, said = redo(folder, *words)
        checks.expect(f"{words}", (status, out, told in said), (2, "", True))
    checks.expect("help", redo(folder, "-h")[::2], (0, ""))
    checks.expect("nothing is written", os.path.exists(os.path.join(folder, ".redo")), False)
    checks.expect("no rule", redo(folder, "nope"), (1, "", "redo: no rule to make nope\n"))
    checks.expect("an empty name", redo(folder, ""), (1, "", "redo: '' can't be the name of a target\n"))
    for name, said in (("all", "''"), ("line", "'a\\nb'")):
        why = f"{said} can't be the name of a target"
        checks.expect(f"a bad name, {name}: redo", redo(folder, name), (1, "", failed((name, 1), why=why)))
        checks.expect(f"a bad name, {name}", shown(folder, name), f"redo  {name}\nredo: {why}\n")
    why = "a cycle: own needs own, which waits for own"
    checks.expect("its own need: redo", redo(folder, "own"), (1, "", failed(("own", 1), why=why)))
    checks.expect("its own need", shown(folder, "-r", "own"), f"redo  own\nredo: {why}\n")
    why = "a cycle: c needs a, which waits for c"
    checks.expect("a cycle: redo", redo(folder, "a"), (1, "", failed(("c", 1), ("b", 1), ("a", 1), why=why)))
    text = "redo  a\nredo    b\nredo      c\nredo: a cycle: c needs a, which waits for c\nredo      c (exit 1)\nredo    b (exit 1)\n"
    checks.expect("a cycle", shown(folder, "-r", "a"), text)
    wait = "touch at.$1; until [ -e at.x ] && [ -e at.y ]; do sleep 0.01; done\n"
    folder = project(at("wide"), all_do="redo-ifchange x y\n", x_do=wait + "redo-ifchange y\n", y_do=wait + "redo-ifchange x\n")
    status, _, said = redo(folder, "-j2")
    ways = [f"redo: {one}: a cycle: {one} needs {other}, which waits for {one}\n" for one, other in ("xy", "yx")]
    checks.expect("a cycle of two that run: redo", (status, [way in said for way in ways].count(True)), (1, 1))
    ends = sorted(line for line in said.splitlines(keepends=True) if line not in ways)
    checks.expect("a cycle of two that run", ends, sorted(failed(("x", 1), ("y", 1), ("all", 1)).splitlines(keepends=True)))

    # The background process waits until the log of its script is closed.
    late = "until grep -qs '^@@REDO:done:' .redo/log.*; do sleep 0.01; done; redo-ifchange x || { echo $? >new; mv new status; }"
    folder = project(at("late"), all_do=f"({late}) 2>said &\n", x_do="echo x\n", y_do="until [ -e status ]; do sleep 0.01; done\n")
    checks.expect("asked when the script has ended: redo", redo(folder, "-j2", "all", "y"), (0, "", ""))
    said = "redo: the script that this belongs to has ended, or its redo has\n"
    checks.expect("asked when the script has ended", (text_of(folder, "said"), text_of(folder, "status")), (said, "1\n"))
    folder = project(at("foreign"), all_do="")
    write(os.path.join(folder, ".redo/data"), "")
    checks.expect("a .redo that is something else", redo(folder), (1, "", f"redo: {folder}/.redo is there already, and this redo did not make it\n"))
    folder = project(at("damaged"), all_do="")
    checks.expect("a list of names: redo", redo(folder), (0, "", ""))
    write(os.path.join(folder, ".redo/names"), "7 all\n")
    checks.expect("a list of names with other numbers", (redo(folder, "all", "new"), text_of(folder, ".redo/names")), ((1, "", "redo: no rule to make new\n"), "!8 all\n"))
    write(os.path.join(folder, "new.do"), "")
    checks.expect("goes on with the next number", (redo(folder, "new"), text_of(folder, ".redo/names")), ((0, "", ""), "!8 all\n!9 new\n"))
    folder = project(at("nested"), all_do="env -u REDO_RUN redo x 2>said || true\n", x_do="")
    checks.expect("a redo below that knows of none: redo", redo(folder), (0, "", ""))
    checks.expect("a redo below that knows of none", text_of(folder, "said"), f"redo: another redo makes targets of {folder}\n")


def logs(checks, at):
    # The second part of a line is printed when the log has the first one.
    until = "until grep -qsx {} .redo/log.*; do sleep 0.01; done\n".format
    parts = f"printf '@@REDO:do:7:1@@ x\\n@@RE' >&2; {until('@@RE')}printf 'DO:bad\\n@@REDO:\\n@@' >&2\n"
    folder = project(
        at("lines"),
        all_do=f"echo $$ >process; printf one >&2; redo-ifchange a b\n{parts}redo-ifchange a\nprintf two >&2",
        a_do="echo opened >/dev/stderr; echo piped | tee /dev/stderr >/dev/null; exec 2>/dev/stderr; echo last >/proc/self/fd/2\n",
        b_do="echo b\n",
    )
    began = time.time() - 0.001
    checks.expect("lines: redo", redo(folder, "-j1"), (0, "", ""))
    wanted = "one\ndo a\ndone 0 a\ndo b\ndone 0 b\n @@REDO:do:7:1@@ x\n@@RE DO:bad\n @@REDO:\n@@\ndo a\ndone 0 a\ntwo\ndone 0 all\n"
    checks.expect("records begin lines, and lines of a script are none", kinds_of(folder, "all"), wanted)
    checks.expect("a script that opens standard error", kinds_of(folder, "a"), "opened\npiped\nlast\ndone 0 a\n")
    records = re.findall(r"^@@REDO:\w+:(\d+):(\d+\.\d+)@@", log_of(folder, "all"), re.M)
    checks.expect("records are of the script's process", {pid for pid, _ in records}, {text_of(folder, "process").strip()})
    times = [float(when) for _, when in records]
    checks.expect("and of their time", (sorted(times), 0 <= times[0] - began, times[-1] <= time.time()), (times, True, True))

    loop = "trap 'echo pipe >broken' PIPE; echo begun >&2; until [ -e go ]; do echo more >&2; sleep 0.01; done; echo end >&2"
    behind = f"({loop}; echo ended >new; mv new ended) &\n{until('more')}"
    folder = project(at("left"), all_do="redo-ifchange a\nredo-ifchange b\n", a_do=behind,
                     b_do="sleep 0.2; touch go; until [ -e ended ]; do sleep 0.01; done\n")  # fmt: skip
    checks.expect("a process that is left behind: redo", redo(folder), (0, "", ""))
    checks.expect("a process that is left behind", bool(re.fullmatch(r"begun\n(more\n)+done 0 a\n", kinds_of(folder, "a"))), True)
    checks.expect("it could say what it had to", (os.path.exists(os.path.join(folder, "broken")), text_of(folder, "ended")), (False, "ended\n"))

    names = " ".join(f"n{number}" for number in range(8))
    folder = project(at("much"), all_do=f"redo-ifchange {names}\n", default_do="yes \"$1 says much\" | head -n 100000 >&2; echo\n")
    checks.expect("much from several at once: redo", redo(folder, "-j8"), (0, "", ""))
    text = "redo  all\n" + "".join(f"redo    {name}\n" + f"{name} says much\n" * 100000 for name in names.split())
    checks.expect("much from several at once", shown(folder, "-r", "all") == text, True)


# Unless the file `serial` exists, each script waits until another one has begun, at most half a minute.
COUNTED = """echo + >>{0}/count
n=0
until [ -e {0}/serial ] || [ "$(grep -c + {0}/count)" -ge 2 ] || [ $n -ge 3000 ]; do n=$((n + 1)); sleep 0.01; done
sleep 0.04
echo - >>{0}/count
"""


def most_at_once(folder):
    """The maximum number of counting scripts that ran at the same time, and the number that ran."""
    now, most, signs = 0, 0, text_of(folder, "count").split()
    for sign in signs:
        now += 1 if sign == "+" else -1
        most = max(most, now)
    os.remove(os.path.join(folder, "count"))
    return most, len(signs) // 2


def jobs(checks, at):
    groups = " ".join(f"group{number}" for number in range(2))
    folder = project(at("jobs"), all_do=f"redo-ifchange {groups}\n", Makefile="all: ; +@redo\nalone: ; @redo\n")
    write(os.path.join(folder, "default.do"), "redo-ifchange $1.1.leaf $1.2.leaf $1.3.leaf &\nredo-ifchange $1.4.leaf; wait\n")
    write(os.path.join(folder, "default.leaf.do"), COUNTED.format(folder))

    def expect_jobs(most):
        """Whether one or several may run at the same time."""
        if most == 1:
            write(os.path.join(folder, "serial"), "")
        elif os.path.exists(os.path.join(folder, "serial")):
            os.remove(os.path.join(folder, "serial"))

    for words, most in (([], 1), (["-j3"], 3), (["-j64"], 8)):
        expect_jobs(most)
        checks.expect(f"jobs {words}: redo", redo(folder, *words), (0, "", ""))
        found = most_at_once(folder)
        checks.expect(f"jobs {words}", (found[0] <= most, found[0] > 1, found[1]), (True, most > 1, 8))
        touch(os.path.join(folder, "default.leaf.do"))

    def below_make(what, most, command=("make", "-s", "-j3", "all"), **more):
        expect_jobs(most)
        done = subprocess.run(command, cwd=folder, env=settings(more.pop("flags", None)), capture_output=True, text=True, **more)
        checks.expect(f"{what}: make", (done.returncode, done.stderr), (0, ""))
        found = most_at_once(folder)
        checks.expect(what, (found[0] <= most, found[0] > 1, found[1]), (True, most > 1, 8))
        touch(os.path.join(folder, "default.leaf.do"))

    below_make("below make", 3)
    below_make("below a make of one job", 1, ("make", "-s", "all"))
    below_make("not below make's jobs", 1, ("make", "-s", "-j3", "alone"))
    reading, writing = os.pipe()
    os.write(writing, b"+++")
    for option in ("--jobserver-auth", "--jobserver-fds"):
        flags = {"MAKEFLAGS": f" -j {option}={reading},{writing}"}
        below_make(f"jobs by {option}", 4, ("redo",), flags=flags, pass_fds=(reading, writing))
    os.mkfifo(at("fifo"))
    fifo = os.open(at("fifo"), os.O_RDWR)
    os.write(fifo, b"++")
    below_make("jobs by a fifo", 3, ("redo",), flags={"MAKEFLAGS": f"k -j4 --jobserver-auth=fifo:{at('fifo')}"})
    checks.expect("tokens are given back", [os.read(reading, 9), os.read(fifo, 9)], [b"+++", b"++"])
    below_make("no such descriptors", 1, ("redo",), flags={"MAKEFLAGS": " -j --jobserver-auth=97,98"})
    for end in (reading, writing, fifo):
        os.close(end)

    folder = project(at("deep"), t40_do="echo 40 >&2\n")
    write(os.path.join(folder, "default.do"), "redo-ifchange t$((${1#t} + 1))\necho ${1#t} >&2\n")
    checks.expect("a chain of 40: redo", redo(folder, "-j4", "t0"), (0, "", ""))
    lines = [f"redo  {'  ' * number}t{number}\n" for number in range(41)] + [f"{number}\n" for number in range(40, -1, -1)]
    checks.expect("a chain of 40", shown(folder, "-r", "t0"), "".join(lines))


def is_running(process):
    try:
        with open(f"/proc/{process}/stat", encoding="utf-8") as file:
            return file.read().rpartition(")")[2].split()[0] != "Z"
    except (FileNotFoundError, ProcessLookupError):  # it may end between opening and reading
        return False


def of_a_terminal():
    os.setsid()
    signal.signal(signal.SIGINT, signal.SIG_DFL)


def signals(checks, at):
    sleeping = "sh -c 'echo $$ >$0.new; mv $0.new $0.process; exec sleep 60' $1"
    script = f"echo half >$3; echo half; echo $1 begun >&2; {sleeping}; echo no >&2\n"
    for what, number, end in (
        ("by the terminal", signal.SIGINT, os.killpg),
        ("the first redo alone", signal.SIGINT, os.kill),
        ("asked to end", signal.SIGTERM, os.kill),
    ):
        folder = project(at(what), all_do="echo $$ >all.process; redo-ifchange x y\n", x_do=script, y_do="redo-ifchange z\n", z_do=script)
        build = started(folder, "-j4", preexec_fn=of_a_terminal)
        wait_until(what, lambda: all(os.path.exists(os.path.join(folder, f"{name}.process")) for name in "xz"))
        end(build.pid, number)
        checks.expect(f"{what}: redo", build.wait(timeout=50), -number)
        # A process that has got the signal may end a little later than redo. Without it, it would run for a minute.
        processes = [text_of(folder, f"{name}.process").strip() for name in ("all", "x", "z")]
        checks.expect(f"{what}: all have ended", becomes(lambda: not any(map(is_running, processes)), 1000), True)
        checks.expect(f"{what}: what is left", [name for name in files_of(folder) if not name.endswith((".do", ".process"))], [])
        text = re.sub(r"redo *[a-z]+ \(exit -\d+\)\n|redo: .*\n", "", shown(folder, "-r", "all"))
        checks.expect(f"{what}: its captures", text, "redo  all\nredo    x\nx begun\nredo    y\nredo      z\nz begun\n")
        checks.expect(f"{what}: a log is closed", kinds_of(folder, "x"), f"x begun\ndone -{int(number)} x\n")
        checks.expect(f"{what}: and all are marked", (unmarked(folder), marked_open(folder)), ([], []))
        told = re.compile(r"redo: (\w+ failed with status -\d+|.* the build is being stopped)\n")
        checks.expect(f"{what}: what else is told", [line for line in build.stderr if not told.fullmatch(line)], [])
        build.stderr.close()


def below(process):
    """The descendants of a process."""
    parents = {}
    for number in filter(str.isdigit, os.listdir("/proc")):
        try:
            with open(f"/proc/{number}/stat", encoding="utf-8", errors="replace") as file:
                parents[int(number)] = int(file.read().rpartition(")")[2].split()[1])
        except OSError:
            continue
    found = [process]
    for above in found:
        found += [child for child, parent in parents.items() if parent == above]
    return found[1:]


def killed(checks, at):
    """Builds in which one process is killed, the first redo or another, and which are then repeated."""
    rng = random.Random(43)
    names = [f"t{number}" for number in range(12)]
    folder = project(at("killed"), all_do=f"redo-ifchange {' '.join(names)}\n", shared_do="sleep 0.1; echo shared >&2; echo shared\n")
    write(os.path.join(folder, "default.do"), "echo $1 begun >&2; redo-ifchange shared; echo half; sleep 0.05; echo $1 ended >&2; echo whole\n")
    text = "redo  all\n" + "".join(f"redo    {name}\n{name} begun\n{name} ended\n" for name in names)
    text = text.replace("t0 begun\n", "t0 begun\nredo      shared\nshared\n")
    sources = files_of(folder)
    for turn in range(6):
        for name in ["shared", *names]:
            if os.path.exists(os.path.join(folder, name)):
                os.remove(os.path.join(folder, name))
        build = started(folder, "-j4")
        time.sleep(0.1 + rng.random() * 0.7)
        others = below(build.pid)
        victim = build.pid if turn % 2 == 0 or not others else rng.choice(others)
        try:
            os.kill(victim, signal.SIGKILL)
        except ProcessLookupError:
            victim = "none, it was over"
        build.wait()
        build.stderr.close()
        checks.expect(f"killed, {turn}: its marks", marked_open(folder), [])
        if "all" in listed(folder):
            checks.expect(f"killed, {turn}: its captures", isinstance(shown(folder, "-r", "all"), str), True)
        left = [process for process in others if turn % 2 == 0 and is_running(process)]
        checks.expect(f"killed, {turn}: again", redo(folder, "-j4", "all"), (0, "", ""))
        made = {name: text_of(folder, name) for name in files_of(folder) if name not in sources}
        checks.expect(f"killed, {turn}: what is made", made, {"shared": "shared\n", **dict.fromkeys(names, "half\nwhole\n")})
        checks.expect(f"killed, {turn}: what still runs", list(filter(is_running, left)), [])
        checks.expect(f"killed, {turn}: the text", shown(folder, "-ru", "all"), text)
        checks.expect(f"killed, {turn}: all is marked", (unmarked(folder), marked_open(folder)), ([], []))


def at_once(checks, at):
    wait = "touch begun; until [ -e go ]; do sleep 0.01; done; echo made >&2; echo made\n"
    folder = project(at("once"), all_do="redo-ifchange x\n", x_do=wait)
    first = started(folder)
    wait_until("begun", lambda: os.path.exists(os.path.join(folder, "begun")))
    checks.expect("two at once: the second", redo(folder, "all"), (1, "", f"redo: another redo makes targets of {folder}\n"))
    write(os.path.join(folder, "go"), "")
    checks.expect("two at once: the first", (first.communicate(timeout=60)[1], first.wait()), ("", 0))
    checks.expect("two at once: made once", shown(folder, "-r", "all"), "redo  all\nredo    x\nmade\n")


def copied(folder, to):
    """A copy of its captures, `names` first, while they are written."""
    shutil.rmtree(to, ignore_errors=True)
    os.makedirs(os.path.join(to, ".redo"))
    shutil.copy(os.path.join(folder, ".redo/names"), os.path.join(to, ".redo/names"))
    for _, number in listed(to).values():
        shutil.copy(os.path.join(folder, f".redo/log.{number}"), os.path.join(to, ".redo"))
    return to


def moments(checks, at):
    """Captures at 200 random moments of builds, each over the one before. redo-log accepts each of them and each copy, and no log that
    is open has the must-close flag."""
    names = [f"d{number % 5}/t{number}" for number in range(25)]
    folder = project(at("moments"), all_do=f"redo-ifchange {' '.join(names)}\necho all >&2\n", shared_do="sleep 0.1; echo shared >&2\n")
    say = "for word in 1 2 3 4 5; do printf \"$1 $word\" >&2; redo-ifchange ../shared; echo >&2; sleep 0.0$word; done\n"
    write(os.path.join(folder, "default.do"), "")
    for number in range(5):
        write(os.path.join(folder, f"d{number}/default.do"), say)
    rng, refused, views, at_fault, halves = random.Random(7), [], 0, [], 0
    while views < 200:
        build = started(folder, "-j6")
        while build.poll() is None and views < 200:
            time.sleep(rng.random() * 0.02)
            if "all" in listed(folder):
                at_fault += marked_open(folder)
                halves += 0 < len(unmarked(folder)) < 20
                text = shown(copied(folder, at("copy")) if views % 2 else folder, "-r", "--debug-locks", "all")
                views += 1
                if not isinstance(text, str) or "\0" in text:
                    refused.append(text)
        checks.expect("moments: a build", (build.communicate()[1], build.returncode), ("", 0))
        for number in range(5):
            touch(os.path.join(folder, f"d{number}/default.do"))
    checks.expect("captures at 200 moments", refused, [])
    checks.expect("and their marks", (at_fault, halves > 20), ([], True))
    lines = "".join(f"redo    {name}\n" + "".join(f"{os.path.basename(name)} {word}\n" for word in range(1, 6)) + "\n" * 0 for name in names)
    text = f"redo  all\n{lines}all\n".replace("t0 1\n", "t0 1\nredo      shared\nshared\n", 1)
    checks.expect("the whole in the end", re.sub("\n\n+", "\n", shown(folder, "-r", "-u", "all")), text)


def marks(checks, at):
    folder = project(at("marks"), all_do="redo-ifchange a b c\n", a_do="echo a >&2\n", b_do="redo-ifchange d ../marks/!e; exit 3\n",
                     c_do="", d_do="echo d >&2\n", **{"!e_do": "printf e >&2\n"})  # fmt: skip
    checks.expect("marks: redo", redo(folder)[0], 1)
    checks.expect("all that have ended are marked", (sorted(listed(folder)), unmarked(folder)), (["!e", "a", "all", "b", "c", "d"], []))
    checks.expect("and are closed", (marked_open(folder), isinstance(shown(folder, "-r", "all"), str)), ([], True))
    for name in listed(folder):
        path = os.path.join(folder, f".redo/log.{listed(folder)[name][1]}")
        whole = text_of(folder, path)
        begin = whole.rindex("@@REDO:")
        for count in sorted({0, begin, begin + 7, len(whole) - 1}):
            write(path, whole[:count])
            checks.expect(f"{name}, of which {count} bytes are left", shown(folder, "a"), (4, f"redo-log: {name}: not closed\n"))
        os.remove(path)
        checks.expect(f"{name}, of which none is left", shown(folder, "a"), (4, f"redo-log: {name}: not closed\n"))
        write(path, whole)

    write(os.path.join(folder, "b.do"), "redo-ifchange d; touch begun; until [ -e go ]; do sleep 0.01; done\n")
    touch(os.path.join(folder, "d.do"))
    build = started(folder)
    wait_until("begun", lambda: os.path.exists(os.path.join(folder, "begun")))
    checks.expect("what is being made is not marked", (unmarked(folder), marked_open(folder)), (["all", "b", "d"], []))
    checks.expect("and needs no end", shown(folder, "-r", "all"), "redo  all\nredo    b\nredo      d\nd\n")
    write(os.path.join(folder, f".redo/log.{listed(folder)['c'][1]}"), "")
    write(os.path.join(folder, "go"), "")
    checks.expect("the second build", (build.communicate(timeout=60)[1], build.wait()), ("", 0))
    checks.expect("has marked the others", unmarked(folder), [])
    checks.expect("a log that was damaged, of a target that was not made", shown(folder, "-r", "all"), (4, "redo-log: c: not closed\n"))
    checks.expect("and is made now", (redo(folder, "c"), shown(folder, "c")), ((0, "", ""), "redo  c\n"))

    folder = project(at("full"), all_do="redo-ifchange x y\n", x_do="yes x | head -c 200000 >&2\n", y_do="echo y >&2\n")
    subprocess.run(["sh", "-c", "trap '' XFSZ; ulimit -f 16; exec redo"], cwd=folder, env=settings(), capture_output=True)
    checks.expect("a log that could not be written to its end", (unmarked(folder), marked_open(folder)), (["x"], []))
    checks.expect("and could be", (redo(folder), unmarked(folder)), ((0, "", ""), []))
    marks_of_the_killed(checks, at)


def marks_of_the_killed(checks, at):
    """A build in which redo is killed when one of two has ended, and builds at random moments, each over the one before."""
    folder = project(at("one"), all_do="redo-ifchange a b\n", a_do="until [ -e begun ]; do sleep 0.01; done; echo a >&2\n",
                     b_do="touch begun; until [ -e go ]; do sleep 0.01; done; echo b >&2\n")  # fmt: skip
    build = started(folder, "-j2")
    wait_until("a has ended", lambda: "all" in listed(folder) and "done" in log_of(folder, "all"))
    build.kill()
    build.communicate()
    checks.expect("a target that had ended when redo was killed", (unmarked(folder), kinds_of(folder, "a")), (["all", "a", "b"], "a\ndone 0 a\n"))
    write(os.path.join(folder, "go"), "")
    number = listed(folder)["a"][1]
    checks.expect("is not made again", (redo(folder, "all", command="redo-ifchange"), listed(folder)["a"]), ((0, "", ""), (True, number)))
    checks.expect("and all are marked", (unmarked(folder), marked_open(folder)), ([], []))

    rng, names = random.Random(44), [f"t{number}" for number in range(20)]
    folder = project(at("ends"), all_do=f"redo-ifchange {' '.join(names)}\n", default_do="echo $1 >&2; sleep 0.05\n")
    text = "redo  all\n" + "".join(f"redo    {name}\n{name}\n" for name in names)
    checks.expect("killed at a moment: a first build", redo(folder, "-j4"), (0, "", ""))
    at_fault, refused, halves = [], [], 0
    for turn in range(30):
        touch(os.path.join(folder, "default.do"))
        before, count = listed(folder), rng.randrange(len(names))
        build = started(folder, "-j4")
        wait_until("begun", lambda: len([name for name, line in listed(folder).items() if line[1] != before[name][1]]) > count)
        time.sleep(rng.random() * 0.05)
        build.kill()
        build.communicate()
        at_fault += marked_open(folder)
        halves += 0 < len(unmarked(folder)) < len(names)
        if not isinstance(shown(folder, "-r", "all"), str):
            refused.append(shown(folder, "-r", "all"))
        if turn % 5 == 4:
            checks.expect(f"killed at a moment, {turn}: again", redo(folder, "-j4", "all", command="redo-ifchange"), (0, "", ""))
            checks.expect(f"killed at a moment, {turn}: all is marked", (unmarked(folder), marked_open(folder)), ([], []))
            checks.expect(f"killed at a moment, {turn}: the text", shown(folder, "-ru", "all"), text)
    checks.expect("killed at 30 moments: marks and captures", (at_fault, refused, halves > 20), ([], [], True))


def chain(checks, at):
    """10,000 targets, each a prerequisite of the one before, as redo writes them after they were made."""
    folder = project(at("chain"), default_do="echo $1 >&2\n", leaf="")

    def stamp(name):
        found = os.stat(os.path.join(folder, name))
        return f"{found.st_mtime_ns} {found.st_size} {found.st_ino}"

    need, known = "leaf", stamp("leaf")
    for number in range(10_000, 0, -1):
        name = f".redo/known.{number}"
        write(os.path.join(folder, name), json.dumps([None, {"default.do": stamp("default.do"), need: known}]))
        need, known = f"t{number}", stamp(name)
    write(os.path.join(folder, ".redo/names"), "".join(f"{number} t{number}\n" for number in range(1, 10_001)))
    checks.expect("a long chain: redo", redo(folder, "t1", command="redo-ifchange"), (0, "", ""))
    checks.expect("is unchanged", (listed(folder)["t1"], listed(folder)["t10000"]), ((True, "1"), (True, "10000")))
    touch(os.path.join(folder, "leaf"))
    checks.expect("a long chain of which the end has changed: redo", redo(folder, "t1", command="redo-ifchange"), (0, "", ""))
    checks.expect("is made anew", (listed(folder)["t1"], kinds_of(folder, "t1")[:3]), ((True, "10001"), "t1\n"))


def no_space(checks, at):
    """A file system of 64 KiB, or if it can't be mounted, files that can't grow past 8 KiB."""
    folder = at("full")
    os.mkdir(folder)
    scripts = "echo 'redo-ifchange x y' >all.do; echo 'yes x | head -c 200000 >&2; echo x' >x.do; echo 'echo y >&2; yes y | head -c 200000' >y.do"
    run = f"cd {folder}; {scripts}; redo; echo $?; {PROGRAM} -r --dir .redo all; echo $?; ls"
    command = ["sh", "-c", f"trap '' XFSZ; ulimit -f 16; {run}"]
    if subprocess.run(["unshare", "-rm", "true"], stderr=subprocess.DEVNULL).returncode == 0:
        command = ["unshare", "-rm", "sh", "-c", f"mount -t tmpfs -o size=64k none {folder} && {run}"]
    done = subprocess.run(command, env=settings(), capture_output=True, text=True, timeout=60)
    statuses = re.findall(r"^\d+$", done.stdout, re.M)
    checks.expect("a full device: redo, and redo-log", (statuses, "x failed with status 1" in done.stderr), (["1", "0"], True))
    checks.expect("a full device: what is left", done.stdout.splitlines()[-3:], ["all.do", "x.do", "y.do"])
    folder = project(at("begun"), all_do="echo x\n")
    done = subprocess.run(["sh", "-c", "trap '' XFSZ; ulimit -f 0; exec redo"], cwd=folder, env=settings(), capture_output=True, text=True)
    checks.expect("no space from the beginning", (done.returncode, files_of(folder)), (1, ["all.do"]))
    checks.expect("no space from the beginning: what is told", done.stderr, "redo: [Errno 27] File too large\n")
    checks.expect("and then there is", (redo(folder), text_of(folder, "all")), ((0, "", ""), "x\n"))


OBJECT = """redo-ifchange $2.c config.h
cc -Wall -fdiagnostics-plain-output -MD -MF $3.d -MT x -c -o $3 $2.c || status=$?
set -- "$3.d" ${status:-0}
[ $2 = 0 ] || { rm -f "$1"; exit $2; }
needs=$(sed 's/^x://; s/\\\\$//' "$1")
rm "$1"
redo-ifchange $needs
"""


def c_project(folder, count):
    """C files that include generated headers; every third one has a warning. The compiler finds their prerequisites."""
    names = [f"f{number:02}" for number in range(count)]
    folder = project(folder, all_do="redo-ifchange program\n", config_h_do='sleep 0.2; echo "config: guessed" >&2; echo "#define LIMIT 3"\n')
    write(os.path.join(folder, "default.o.do"), OBJECT)
    os.rename(os.path.join(folder, "config_h.do"), os.path.join(folder, "config.h.do"))
    objects = " ".join(f"{name}.o" for name in names)
    write(os.path.join(folder, "program.do"), f"redo-ifchange {objects} main.o\ncc -o $3 {objects} main.o\n")
    write(os.path.join(folder, "main.c"), "int f00(int);\nint main(void) { return f00(0); }\n")
    for number, name in enumerate(names):
        write(os.path.join(folder, f"h{number % 4}.h"), f"#define H{number % 4} {number % 4}\n")
        unused = "int unused; " if number % 3 == 0 else ""
        code = f'#include "config.h"\n#include "h{number % 4}.h"\nint {name}(int n) {{ {unused}return n + H{number % 4} + LIMIT; }}\n'
        write(os.path.join(folder, f"{name}.c"), code)
    return folder, names


def message(folder, name):
    """What the compiler prints for a file."""
    command = ["cc", "-Wall", "-fdiagnostics-plain-output", "-c", "-o", "/dev/null", f"{name}.c"]
    return subprocess.run(command, cwd=folder, env=settings(), capture_output=True, text=True).stderr


def same_text(checks, at):
    for count in (1, 4, 16):
        folder, names = c_project(at(f"c{count}"), 8)
        jobs = f"-j{count}"
        checks.expect(f"C, {jobs}: redo", redo(folder, jobs), (0, "", ""))
        warnings = {name: message(folder, name) for name in names[::3]}
        checks.expect("C: the compiler warns", all("unused" in warning for warning in warnings.values()), True)
        inside = "redo        config.h\nconfig: guessed\n"
        objects = [f"redo      {name}.o\n" + (inside if name == "f00" else "") + warnings.get(name, "") for name in names]
        text = "redo  all\nredo    program\n" + "".join(objects) + "redo      main.o\n"
        checks.expect(f"C, {jobs}", shown(folder, "-r", "all"), text)
        checks.expect(f"C, {jobs}: again", (redo(folder, jobs), shown(folder, "-r", "all")), ((0, "", ""), "redo  all\n"))
        checks.expect(f"C, {jobs}: all that is there", shown(folder, "-r", "-u", "all"), text)

        touch(os.path.join(folder, "h2.h"))
        text = "redo  all\nredo    program\nredo      f02.o\nredo      f06.o\n" + warnings["f06"]
        checks.expect(f"C, {jobs}: a header is touched", (redo(folder, jobs), shown(folder, "-r", "all")), ((0, "", ""), text))

        for name in ("f01", "f07"):
            write(os.path.join(folder, f"{name}.c"), text_of(folder, f"{name}.c") + "}\n")
        status, _, said = redo(folder, jobs)
        lines = failed(("f01.o", 1), ("f07.o", 1), ("program", 1), ("all", 1))
        checks.expect(f"C, {jobs}: two are broken: redo", (status, sorted(said.splitlines())), (1, sorted(lines.splitlines())))
        text = "redo  all\nredo    program\nredo      f01.o\n" + message(folder, "f01") + "redo      f07.o\n" + message(folder, "f07")
        text += "redo      f01.o (exit 1)\nredo      f07.o (exit 1)\nredo    program (exit 1)\n"
        checks.expect(f"C, {jobs}: two are broken", shown(folder, "-r", "all"), text)
    a_book(checks, at)


def a_book(checks, at):
    """Chapters of text, each with a list of all chapters that is made once."""
    chapters = [f"chapters/{number}" for number in range(1, 7)]
    for count in (1, 4, 16):
        folder = project(at(f"book{count}"), all_do="redo-ifchange book.txt\n")
        write(os.path.join(folder, "book.txt.do"), f"redo-ifchange {' '.join(f'{name}.page' for name in chapters)}\ncat {' '.join(f'{name}.page' for name in chapters)}\n")
        write(os.path.join(folder, "default.page.do"), 'redo-ifchange "$2.txt" contents\ngrep -n TODO "$2.txt" >&2 || true\ncat contents "$2.txt"\n')
        write(os.path.join(folder, "contents.do"), "for file in chapters/*.txt; do redo-ifchange $file; head -n 1 $file; done\necho contents >&2\n")
        for number, name in enumerate(chapters, 1):
            write(os.path.join(folder, f"{name}.txt"), f"Chapter {number}\n" + ("TODO\n" if number % 2 else "text\n"))
        checks.expect(f"a book, -j{count}: redo", redo(folder, f"-j{count}"), (0, "", ""))
        pages = [f"redo      {name}.page\n" + ("2:TODO\n" if number % 2 else "") for number, name in enumerate(chapters, 1)]
        pages[0] = "redo      chapters/1.page\nredo        contents\ncontents\n2:TODO\n"
        checks.expect(f"a book, -j{count}", shown(folder, "-r", "all"), "redo  all\nredo    book.txt\n" + "".join(pages))
        checks.expect(f"a book, -j{count}: it is whole", text_of(folder, "book.txt").count("Chapter"), 42)
        locks = shown(folder, "-r", "--debug-locks", "all")
        checks.expect(f"a book, -j{count}: locks", "contents (WAITING)" in locks, count > 1)


def ranked(text):
    """A text whose pids are replaced by their rank of first occurrence."""
    pids = list(dict.fromkeys(re.findall(r"^(\d+) +redo", text, re.M)))
    return re.sub(r"^(\d+) +redo", lambda found: f"{pids.index(found[1])} redo", text, flags=re.M)


def readme(checks, at):
    """The example of README.md with the output of each command. Its pids are from another run."""
    block = "".join(re.findall(r"^    (.*\n)", contents("examples/redo/README.md"), re.M))
    runs = re.findall(r"^\$ (.*)\n((?:(?!\$ ).*\n)*)", block, re.M)
    folder = project(at("readme"))
    for words, output in runs:
        command, *rest = words.split()
        if command == "cat":
            write(os.path.join(folder, rest[0]), output)
        elif command == "redo":
            checks.expect(f"README.md: {words}", redo(folder, *rest), (0, output, ""))
        else:
            found = shown(folder, *[word for word in rest if word not in ("--dir", ".redo")])
            checks.expect(f"README.md: {words}", ranked(found), ranked(output))
    checks.expect("README.md: commands", [words.split()[0] for words, _ in runs], ["cat"] * 5 + ["redo"] + ["redo-log"] * 3)


PARTS = (readme, same_text, promises, anew, refusals, logs, jobs, signals, killed, marks, at_once, moments, chain, no_space)
