"""--html FILE and --json FILE: when the build has ended, a program writes each file. A stand-in for it notes its arguments."""
import contextlib
import itertools
import json
import os
import shutil
import signal
import subprocess
from typing import NamedTuple

from builds import MOST_SECONDS, PREFIX, TOOL, make, of_a_terminal, preloaded, project, ran, wait_for, write
from checks import CAPTURES, HTML_PROGRAM, JSON_PROGRAM, environment, install_capture

# Copies the file READ to the output file.
STAND_IN = """#!/bin/sh
printf '%s\\n' "$@" >"${0##*/}.notes"
for word; do
  case $word in --output=*) cat "$READ" >"${word#*=}" ;; esac
done
echo "${0##*/}"
exit "${STATUS:-0}"
"""
# Notes that it has begun, and waits if WAIT says so.
WAITING = """#!/bin/sh
for word; do
  case $word in --output=*) echo written >"${word#*=}" ;; esac
done
touch "${0##*/}.begun"
$WAIT
"""


class Export(NamedTuple):
    option: str
    kind: str
    program: str
    file: str


EXPORTS = (
    Export("--html", "page", "redo-log-html", "page.html"),
    Export("--json", "JSON", "redo-log-json", "build.jsonl"),
)
# The order of the options doesn't matter: the page is written first.
BOTH = [word for export in reversed(EXPORTS) for word in (export.option, export.file)]


def programs(folder, text=STAND_IN):
    """Writes a script for each program, and returns their directory."""
    for export in EXPORTS:
        path = os.path.join(folder, export.program)
        write(path, text)
        os.chmod(path, 0o755)
    return folder


def path_with(folder):
    return folder + ":" + os.environ["PATH"]


def path_without(program):
    return ":".join(place for place in os.environ["PATH"].split(":") if not os.path.exists(os.path.join(place, program)))


def contents(folder, name):
    with open(os.path.join(folder, name), encoding="utf-8") as file:
        return file.read()


def unwritten(export, cause):
    return f"redo-log-capture: cannot write the {export.kind} {export.file}: {cause}\n"


def of_each(part):
    """A part of the tests that is run for each option."""

    def run(checks, at):
        for export in EXPORTS:
            part(checks, lambda name, export=export: at(os.path.join(export.program, name)), export)

    run.__module__, run.__name__ = part.__module__, part.__name__
    return run


@of_each
def arguments(checks, at, export):
    """The program runs once the logs are closed, for any status of the build, which stays."""
    option, program, file = export.option, export.program, export.file
    folder = project(at("some"), "all: a b\na: ; @echo a >&2; exit $(A)\nb: ; @echo b >&2\n")
    more = {"PATH": path_with(programs(at("programs"))), "READ": "it's/log.2"}
    for status, make_status in ((0, 0), (3, 2)):
        what = f"{option}, a recipe with status {status}"
        told = ran(folder, [TOOL, "--quiet", "--dir", "it's", option, file, "make", "-ks", f"A={status}"], more)
        checks.expect(f"{what}: make", (told[0], told[1]), (make_status, f"{program}\n"))
        notes = f"--dir=it's\n--output={file}\n"
        checks.expect(f"{what}: the arguments", contents(folder, f"{program}.notes"), notes)
        log = contents(folder, file).splitlines()
        checks.expect(f"{what}: the log is closed", (log[1], log[2].endswith(f"@@ {status} a")), ("a", True))
    more["READ"] = "Makefile"
    told = ran(folder, [TOOL, "--quiet", f"{option}=../{file}", "make", "-s", "b"], more)
    checks.expect(f"{option}: another spelling", told, (0, f"{program}\n", ""))
    checks.expect(f"{option}: another directory", contents(at("."), file), contents(folder, "Makefile"))

    more["STATUS"] = "6"
    for build_status, command in ((1, ["make", "-s", "b"]), (7, ["sh", "-c", "make -s b; exit 7"])):
        status, _, err = ran(folder, [TOOL, "--quiet", option, file, *command], more)
        told = status, err.endswith(unwritten(export, f"{program} exited with status 6"))
        checks.expect(f"{option}, a program that fails: {command}", told, (build_status, True))
    more["PATH"] = programs(at("gone"), f"#!{at('none')}\n") + ":" + more["PATH"]
    told = make(folder, "-s", "b", options=[option, file], more=more)
    checks.expect(f"{option}, a program that can't be run", told, (1, "", unwritten(export, f"{program}: No such file or directory")))


def together(checks, at):
    """Each program runs with both options, also if the other one fails."""
    folder = project(at("some"), "all: ; @echo x >&2\n")
    more = {"PATH": path_with(programs(at("programs"))), "READ": "Makefile"}
    names = "".join(f"{export.program}\n" for export in EXPORTS)
    checks.expect("both", ran(folder, [TOOL, "--quiet", *BOTH, "make"], more), (0, names, ""))
    for export in EXPORTS:
        notes = f"--dir={CAPTURES}\n--output={export.file}\n"
        checks.expect(f"both: the arguments of {export.program}", contents(folder, f"{export.program}.notes"), notes)
        checks.expect(f"both: {export.file}", contents(folder, export.file), contents(folder, "Makefile"))
    os.mkdir(os.path.join(folder, "sub"))
    words = [TOOL, "--quiet", "--html", "x", "--json", "sub/x", "--summary", "./y", "make"]
    checks.expect("both: one name in two directories", ran(folder, words, more), (0, names, ""))
    both = "".join(unwritten(export, f"{export.program} exited with status 6") for export in EXPORTS)
    told = ran(folder, [TOOL, "--quiet", *BOTH, "make"], {**more, "STATUS": "6"})
    checks.expect("both fail", told, (1, names, both))
    for export in EXPORTS:
        write(os.path.join(at("programs"), export.program), "#!/bin/sh\nexit 5\n")
        told = ran(folder, [TOOL, "--quiet", *BOTH, "make"], more)
        others = names.replace(f"{export.program}\n", "")
        checks.expect(f"{export.program} fails", told, (1, others, unwritten(export, f"{export.program} exited with status 5")))
        programs(at("programs"))


@of_each
def descriptors(checks, at, export):
    """What a descriptor's file has stays: the program's standard output follows."""
    folder = project(at("some"), "all: ; @echo x >&2\n")
    more = {"PATH": path_with(programs(at("programs"))), "READ": "Makefile"}
    for name, shift in (("/dev/stdout", ">>file"), ("/dev/fd/1", ">>file"), ("/dev/fd/7", "7>>file"), ("/dev/stderr", "2>>file")):
        write(os.path.join(folder, "file"), "old\n")
        script = f"{TOOL} --quiet --summary /dev/null {export.option} {name} make -s {shift}"
        told = ran(folder, ["bash", "-c", script], more)
        checks.expect(f"{export.option} {name}", (told, contents(folder, "file")), ((0, "", ""), f"old\n{export.program}\n"))
        checks.expect(f"{export.option} {name}: the arguments", contents(folder, f"{export.program}.notes"), f"--dir={CAPTURES}\n")
    told = ran(folder, ["bash", "-c", f"{TOOL} --quiet {export.option} /dev/fd/7 make -s 7>&-"], more)
    checks.expect(f"{export.option}: a closed descriptor", told, (1, "", "redo-log-capture: cannot write /dev/fd/7: Bad file descriptor\n"))
    # One file may have the page, the JSON and what the build printed.
    script = f"{TOOL} --quiet --json /dev/stderr --html /dev/stdout --summary /dev/fd/7 make -s >file 2>&1 7>&1"
    checks.expect("one file", ran(folder, ["bash", "-c", script], more)[0], 0)
    lines = contents(folder, "file").splitlines()
    checks.expect("one file has all", (lines[0].split()[0::3][:2], lines[1:]), (["0", "all"], [export.program for export in EXPORTS]))


@of_each
def nothing_captured(checks, at, export):
    option, file = export.option, export.file
    folder = project(at("none"), "all: ; @echo x >&2; touch all\n")
    more = {"PATH": path_with(programs(at("programs"))), "READ": "Makefile"}
    text = f"redo-log-capture: no recipe was captured: {file} is not written\n"
    none = "redo-log-capture: no recipe was captured\n"
    checks.expect(f"{option}: no recipe", ran(folder, [TOOL, option, file, "true"], more), (0, "", none + text))
    checks.expect(f"{option}: a build", make(folder, options=[option, file], more=more)[0], 0)
    write(os.path.join(folder, file), "an earlier one\n")
    out = "make: 'all' is up to date.\n"
    checks.expect(f"{option}: a build with nothing to do", make(folder, options=[option, file], more=more), (0, out, text))
    checks.expect(f"{option}: an earlier file stays then", contents(folder, file), "an earlier one\n")
    os.remove(os.path.join(folder, file))
    make(folder, options=[option, file], more=more)
    checks.expect(f"{option}: no file then", os.path.exists(os.path.join(folder, file)), False)


@of_each
def refused(checks, at, export):
    """Nothing starts if the file can't be written."""
    option, program = export.option, export.program
    folder = project(at("refused"), "all: ; @echo x >&2; touch made\n")
    more = {"PATH": path_with(programs(at("programs")))}
    os.mkdir(os.path.join(folder, "sub"))
    os.symlink("sub", os.path.join(folder, "link"))
    os.symlink("kept", os.path.join(folder, "file"))
    write(os.path.join(folder, "kept"), "mine\n")
    for words, status, text in (
        ([option], 2, f"{option}: no file given"),
        ([f"{option}=", "make"], 2, f"{option}: no file given"),
        ([option, "x", "--finish"], 2, f"--finish: writes no {export.kind}"),
        ([option, "none/x", "make"], 1, "cannot write none/x: No such file or directory"),
        ([option, "sub", "make"], 1, "cannot write sub: Is a directory"),
        (["--summary", "sub", "make"], 1, "cannot write sub: Is a directory"),
        ([option, "x", "--summary", "x", "make"], 2, f"{option}: --summary writes this file, too: x"),
        (["--json", "x", "--html", "x", "make"], 2, "--json: --html writes this file, too: x"),
        ([option, "./x", "--summary", "x", "make"], 2, f"{option}: --summary writes this file, too: ./x"),
        ([option, "x", "--summary", f"{folder}/sub//../x", "make"], 2, f"{option}: --summary writes this file, too: x"),
        (["--json", "link/x", "--html", "sub/x", "make"], 2, "--json: --html writes this file, too: link/x"),
        (["--json", "kept", "--html", "file", "make"], 2, "--json: --html writes this file, too: kept"),
        ([option, "file", "--summary", "kept", "make"], 2, f"{option}: --summary writes this file, too: file"),
    ):
        checks.expect(f"refused: {words}", ran(folder, [TOOL, *words], more), (status, "", f"redo-log-capture: {text}\n"))
    os.makedirs(os.path.join(at("other"), program))
    for path in (path_without(program), at("other") + ":" + path_without(program)):
        told = ran(folder, [TOOL, option, "x", "make"], {"PATH": path})
        checks.expect(f"no {program}", told, (1, "", f"redo-log-capture: {option} needs {program}, which isn't found\n"))
    checks.expect("nothing was made", sorted(os.listdir(folder)), ["Makefile", "file", "kept", "link", "sub"])
    told = subprocess.run(["bash", "-c", f"{TOOL} --quiet --summary /dev/stdout {option} kept make >>kept"], cwd=folder, env=environment(more), capture_output=True, text=True)
    wanted = (2, f"redo-log-capture: {option}: --summary writes this file, too: kept\n", "mine\n")
    checks.expect("refused: the file of standard output", (told.returncode, told.stderr, contents(folder, "kept")), wanted)


# The first and the last codes of each length, and what isn't well-formed: a part of a sequence, overlong forms, surrogates, large codes.
UTF8 = b"\x01\x7f\xc2\x80\xdf\xbf\xe0\xa0\x80\xed\x9f\xbf\xee\x80\x80\xef\xbf\xbf\xf0\x90\x80\x80\xf4\x8f\xbf\xbf"
NOT_UTF8 = (b"\xfc", b"\x80", b"\xbf", b"\xc3", b"\xc3x", b"\xe2\x82", b"\xf0\x90\x80", b"\xc0\xaf", b"\xc1\xbf", b"\xe0\x9f\xbf")
NOT_UTF8 += (b"\xed\xa0\x80", b"\xed\xbf\xbf", b"\xf0\x8f\xbf\xbf", b"\xf4\x90\x80\x80", b"\xf5\x80\x80\x80", b"\xf8\x88\x80\x80\x80")
NOT_UTF8 += (b"\xfe", b"\xff")


@of_each
def other_encodings(checks, at, export):
    """Nothing starts if an argument of the program wouldn't be UTF-8, which it would reject when the build has ended."""
    option = export.option.encode()
    folder = project(at("encodings"), "all: ; @echo x >&2\n")
    more = {"PATH": path_with(programs(at("programs"))), "READ": "Makefile"}

    def told(*words):
        done = subprocess.run([TOOL, "--quiet", *words, "make"], cwd=folder, env=environment(more), capture_output=True)
        return done.returncode, done.stdout, done.stderr

    for name in NOT_UTF8:
        name = b"a" + name
        wanted = (2, b"", b"redo-log-capture: %s: not UTF-8: %s\n" % (option, name))
        checks.expect(f"{option}: the file {name}", told(option, name), wanted)
        wanted = (2, b"", b"redo-log-capture: %s: --dir is not UTF-8: %s\n" % (option, name))
        checks.expect(f"{option}: the directory {name}", told(option, b"x", b"--dir", name), wanted)
    checks.expect(f"{option}: nothing was made", os.listdir(folder), ["Makefile"])
    checks.expect(f"{option}: UTF-8", told(option, UTF8, b"--dir", b"d" + UTF8), (0, f"{export.program}\n".encode(), b""))
    files = {b"Makefile", b"d" + UTF8, UTF8, f"{export.program}.notes".encode()}
    checks.expect(f"{option}: files", set(os.listdir(os.fsencode(folder))), files)


@of_each
def beside(checks, at, export):
    """The program beside redo-log-capture comes before those in PATH."""
    shutil.copytree(PREFIX, at("prefix"))
    programs(at("prefix/bin"), "#!/bin/sh\necho beside >written\n")
    folder = project(at("build"), "all: ; @echo x >&2\n")
    more = {"PATH": path_with(programs(at("programs")))}
    told = ran(folder, [at("prefix/bin/redo-log-capture"), "--quiet", export.option, "x", "make"], more)
    checks.expect(f"{export.program} beside", (told, contents(folder, "written")), ((0, "", ""), "beside\n"))


@of_each
def in_path(checks, at, export):
    """The program is found in PATH, where an empty part is the current directory. A directory of its name isn't taken for it."""
    shutil.copytree(PREFIX, at("prefix"))
    os.mkdir(at(f"prefix/bin/{export.program}"))
    os.makedirs(os.path.join(at("other"), export.program))
    folder = programs(project(at("build"), "all: ; @echo x >&2\n"))
    usual = path_without(export.program)
    for path in (f":{usual}", f"{usual}:", f"{at('other')}::{usual}"):
        told = ran(folder, [at("prefix/bin/redo-log-capture"), "--quiet", export.option, "x", "make"], {"PATH": path, "READ": "Makefile"})
        checks.expect(f"{export.program} in PATH={path}", told, (0, f"{export.program}\n", ""))


@contextlib.contextmanager
def started(folder, words, more, preexec=of_a_terminal):
    """Starts a build whose recipe waits if WAIT says so. Unless it has ended then, kills its group."""
    command = [TOOL, *words, "make", "-s", f"WAIT={more.pop('MAKE_WAIT', '')}"]
    build = subprocess.Popen(command, cwd=folder, env=environment(more), stderr=subprocess.PIPE, text=True, preexec_fn=preexec)
    try:
        yield build
    finally:
        if build.returncode is None:
            os.killpg(build.pid, signal.SIGKILL)
            build.communicate()


@of_each
def signals(checks, at, export):
    """A file is written after an interrupted build too. A further signal ends the program, and so the run."""
    option, program, file = export.option, export.program, export.file
    folder = project(at("build"), "all: ; @echo x >&2; touch begun; $(WAIT)\n")
    path = path_with(programs(at("programs"), WAITING))
    with started(folder, [option, file], {"PATH": path, "MAKE_WAIT": "exec sleep 1000"}) as build:
        wait_for(os.path.join(folder, "begun"))
        os.killpg(build.pid, signal.SIGINT)
        told = "interrupted by SIGINT; running: all" in build.communicate(timeout=MOST_SECONDS)[1]
    checks.expect(f"{option}, interrupted", (build.returncode, told, contents(folder, file)), (-signal.SIGINT, True, "written\n"))
    for kind in (signal.SIGINT, signal.SIGTERM, signal.SIGHUP):
        os.remove(os.path.join(folder, f"{program}.begun"))
        with started(folder, [option, file], {"PATH": path, "WAIT": "exec sleep 1000"}) as build:
            wait_for(os.path.join(folder, f"{program}.begun"))
            os.kill(build.pid, kind)
            told = build.communicate(timeout=MOST_SECONDS)[1].splitlines(keepends=True)[-1]
        wanted = unwritten(export, f"{program} was ended by {kind.name}")
        checks.expect(f"{option}, {kind.name} while the file is written", (build.returncode, told), (1, wanted))


def with_hangup_ignored():
    of_a_terminal()
    signal.signal(signal.SIGHUP, signal.SIG_IGN)


def given_up(checks, at):
    """A signal while the page is written also gives up the JSON, even if the page is completed; one that is ignored doesn't."""
    page, data = EXPORTS
    goes_on = "trap '' TERM; touch begun; until [ -e go ] || [ $((loops += 1)) -gt 100000 ]; do sleep 0.01; done"
    interrupted = "".join(unwritten(*row) for row in ((page, "redo-log-html was ended by SIGINT"), (data, "interrupted by SIGINT")))
    for name, kind, wait, preexec, wanted in (
        ("the group", signal.SIGINT, "touch begun; exec sleep 1000", of_a_terminal, (1, interrupted, [])),
        ("completed", signal.SIGTERM, goes_on, of_a_terminal, (1, unwritten(data, "interrupted by SIGTERM"), ["page.html"])),
        ("ignored", signal.SIGHUP, goes_on, with_hangup_ignored, (0, "", ["build.jsonl", "page.html"])),
    ):
        folder = project(at(name), "all: ; @echo x >&2\n")
        place = programs(at(f"programs, {name}"), WAITING)
        write(os.path.join(place, page.program), f"#!/bin/sh\n{wait}\n" + WAITING)
        with started(folder, ["--quiet", *BOTH], {"PATH": path_with(place)}, preexec) as build:
            wait_for(os.path.join(folder, "begun"))
            (os.killpg if name == "the group" else os.kill)(build.pid, kind)
            write(os.path.join(folder, "go"), "")
            told = build.communicate(timeout=MOST_SECONDS)[1]
        written = [file for file in sorted(os.listdir(folder)) if file in (page.file, data.file)]
        checks.expect(f"{kind.name} while the page is written: {name}", (build.returncode, told, written), wanted)


def out_of_memory(checks, at):
    """No program runs if memory ran out during the build. Each allocation is the first one that fails, in a build of its own."""
    tool, library = install_capture(at("dynamic"), "STATIC="), preloaded("memory")
    path = path_with(programs(at("programs")))
    last = "".join(unwritten(export, "out of memory") for export in EXPORTS)
    outcomes = set()
    for number in itertools.count(1):
        folder = project(at(f"allocation {number}"), "all: ; @echo x >&2\n")
        more = {"PATH": path, "LD_PRELOAD": library, "REFUSE_AT": str(number), "REFUSE_TOLD": "refused", "REFUSE_ALL": "yes"}
        status, out, err = ran(folder, [tool, "--quiet", *BOTH, "make"], more)
        if not os.path.exists(os.path.join(folder, "refused")):
            break
        if "out of memory: " in err:
            outcomes.add((status, out, "".join(err.splitlines(keepends=True)[-2:])))
    checks.expect("out of memory", outcomes, {(1, "", last)})


def real_files(checks, at):
    """The files that the programs write. If a log is damaged, both files stay."""
    folder = project(at("real"), "all: a b\na: ; @echo 'a <b>' >&2; exit $(A)\nb: ; @echo b >&2; touch b\n")
    place = at("programs")
    for export, program in zip(EXPORTS, (HTML_PROGRAM, JSON_PROGRAM)):
        write(os.path.join(place, export.program), f'#!/bin/sh\nexec {program} "$@"\n')
        os.chmod(os.path.join(place, export.program), 0o755)
    command, more = [TOOL, *BOTH, "make", "-ks"], {"PATH": path_with(place)}

    def objects():
        lines = map(json.loads, contents(folder, "build.jsonl").splitlines())
        return [(one["target"], one["parent"], one["lines"]) for one in lines]

    status, page = ran(folder, [*command, "A=3"], more)[0], contents(folder, "page.html")
    checks.expect("the page", (status, "1 of 3 targets failed</h1>" in page, "a &lt;b&gt;" in page), (2, True, True))
    checks.expect("the JSON", objects(), [("all", None, []), ("a", "all", ["a <b>"]), ("b", "all", ["b"])])
    status, page = ran(folder, [*command, "A=3"], more)[0], contents(folder, "page.html")
    checks.expect("the page of another build", (status, "1 of 2 targets failed</h1>" in page), (2, True))
    checks.expect("the JSON of another build", objects(), [("all", None, []), ("a", "all", ["a <b>"])])
    left = sorted(name for name in os.listdir(folder) if name.startswith(("page", "build")))
    checks.expect("nothing else is left", left, ["build.jsonl", "page.html"])

    names = [line.split(" ", 1) for line in contents(folder, f"{CAPTURES}/names").splitlines()]
    write(os.path.join(folder, CAPTURES, "log." + dict((name, number) for number, name in names)["b"]), "@@REDO:\n")
    files = [contents(folder, export.file) for export in EXPORTS]
    told = "".join(f"{export.program}: b: line 1: bad record\n" for export in EXPORTS)
    status, _, err = ran(folder, [*command, "A=0"], more)
    lines = [unwritten(export, f"{export.program} exited with status 4") for export in EXPORTS]
    checks.expect("a damaged log", (status, [line in err for line in (*told.splitlines(), *lines)]), (1, [True] * 4))
    checks.expect("the files of the build before", [contents(folder, export.file) for export in EXPORTS], files)


PARTS = (arguments, together, descriptors, nothing_captured, refused, other_encodings, beside, in_path, signals, given_up, real_files)
# Memory is refused by a preloaded library.
WITHOUT_SANITIZERS = (out_of_memory,)
