"""Builds by make and gcc, into whose sources warnings and errors are injected. The sources say what must be found where."""
import collections
import json
import os
import re
import shlex
import shutil
import subprocess
import sys
import xml.etree.ElementTree

from checks import CAPTURES, environment
from document import expect_members
from reading import differing_readers, in_a_line, parsed, path_of_uri, quality_faults, sarif_faults, trace_faults
from reading import workflow_commands, xmllint
from scripts import made, run_script, write_json

OUTSIDE = "../outside/outside.c"
# What gcc must find is in comments: `//! SEVERITY: TEXT`, at the character after `«`. A column is 1 plus the characters before it.
INJECTED = re.compile(r" *//([!+]) (warning|error): (.*)$", re.M)
UNUSED = "unused variable ‘{0}’ [-Wunused-variable]".format
MAKEFILE = """CFLAGS = -Wall -Iinclude
COLOURED = -fdiagnostics-color=always -fdiagnostics-urls=always
all: main.o coloured.o absolute.o broken.o link tool lib
%.o: %.c include/shared.h
	$(CC) $(CFLAGS) '-DNAME="a b"' -c -o $@ $<
coloured.o: CFLAGS += $(COLOURED)
absolute.o: absolute.c ; $(CC) $(CFLAGS) -c $(CURDIR)/absolute.c $(OUTSIDE)/outside.c
link: main.o ; $(CC) -o $@ main.o missing.o
tool: ; @echo 'tool: cannot open 100% of ::files::' >&2; echo '::warning file=x::no command' >&2; exit 3
lib: ; @$(MAKE) -C lib
.PHONY: lib
"""
LIBRARY = """all: a.o deep/b.o
%.o: %.c ; gcc -Wall -I../include -c $< -o $@
"""
SOURCES = {
    "include/shared.h": """static int «in_header»(void) { return 1; }  //! warning: ‘in_header’ defined but not used [-Wunused-function]
""",
    "main.c": f"""#include "shared.h"
int main(void) {{
  const char *name = NAME;
  int «before» = 1;  //! warning: {UNUSED("before")}
  return name[0] == 'x';
}}
""",
    "coloured.c": f"""int coloured(void) {{ int «seen» = 2; return 0; }}  //! warning: {UNUSED("seen")}
""",
    "absolute.c": """#«warning» in an absolute path: 100%, [a] {b}  //! warning: #warning in an absolute path: 100%, [a] {b} [-Wcpp]
int absolute;
""",
    "broken.c": f"""#«error» no type `Table`, see a::b, 50% done  //! error: #error no type `Table`, see a::b, 50% done
int broken(void) {{ int «kept»; return 0; }}  //! warning: {UNUSED("kept")}
""",
    "lib/a.c": f"""#include <shared.h>
int a(void) {{ int «x»; return 0; }}  //! warning: {UNUSED("x")}
int b(void) {{ int «x»; return 1; }}  //! warning: {UNUSED("x")}
""",
    "lib/deep/b.c": """#include <shared.h>
#«error» below  //! error: #error below
""",
    OUTSIDE: """#«warning» outside  //! warning: #warning outside [-Wcpp]
""",
}
# The targets that print what is in a source.
PRINT = {
    "include/shared.h": ["main.o", "lib/a.o", "lib/deep/b.o"], "lib/a.c": ["lib/a.o"], "lib/deep/b.c": ["lib/deep/b.o"],
    "main.c": ["main.o"], "coloured.c": ["coloured.o"], "absolute.c": ["absolute.o"], "broken.c": ["broken.o"], OUTSIDE: ["absolute.o"],
}  # fmt: skip
# The second version: each source begins with three more lines. `//+` marks what is new since the first one.
SECOND = {
    "include/shared.h": SOURCES["include/shared.h"]
    + """static int «added»(void) { return 2; }  //+ warning: ‘added’ defined but not used [-Wunused-function]
""",
    "main.c": SOURCES["main.c"].replace("int main", f"""int f(void) {{
  int «before» = 3;  //+ warning: {UNUSED('before')}
  return 0;
}}
int main"""),
    "coloured.c": "#«error» now  //+ error: #error now\n" + SOURCES["coloured.c"],
    "broken.c": "int broken;\n",
    "lib/a.c": SOURCES["lib/a.c"].replace("int b", f"""int c(void) {{ int «x»; return 2; }}  //+ warning: {UNUSED('x')}
int b"""),
    "lib/fresh.c": f"int fresh(void) {{ int «y»; return 0; }}  //+ warning: {UNUSED('y')}\n",
}
Found = collections.namedtuple("Found", "path row column severity text is_new")
FAILED = {"broken.o": 1, "link": 1, "tool": 3, "lib/deep/b.o": 1}
STATUSES = {**FAILED, "all": 2, "lib": 2, "main.o": 0, "coloured.o": 0, "absolute.o": 0, "lib/a.o": 0}
# Records the arguments and the directory of each gcc, then runs it.
RECORDER = f"""#!{sys.executable} -IS
import json, os, sys
with open(os.environ["RECORDED"], "a", buffering=1) as file:
    file.write(json.dumps([os.getcwd(), ["gcc", *sys.argv[1:]]]) + "\\n")
os.execv({shutil.which("gcc")!r}, [{shutil.which("gcc")!r}, *sys.argv[1:]])
"""


def write(path, text, mode=0o644):
    os.makedirs(os.path.dirname(path), exist_ok=True)
    with open(path, "w", encoding="utf-8") as file:
        file.write(text)
    os.chmod(path, mode)


def write_sources(folder, sources, first_lines=""):
    """Writes sources without their marks. Returns what must be found."""
    found = []
    for path, text in sources.items():
        plain = []
        for row, line in enumerate((first_lines + text).splitlines(), 1):
            if mark := INJECTED.search(line):
                code = line[: mark.start()]
                found.append(Found(path, row, code.index("«") + 1, mark[2], mark[3], mark[1] == "+"))
                line = code.replace("«", "").replace("»", "")
            plain.append(line + "\n")
        write(os.path.join(folder, path), "".join(plain))
    return found


class Project:
    """A directory with sources, and a compiler that records how it was called."""

    def __init__(self, at, tool):
        top = os.path.realpath(at("."))
        self.folder, self.outside, self.tool = os.path.join(top, "project"), os.path.join(top, "outside"), tool
        self.recorded = os.path.join(self.folder, "recorded")
        write(os.path.join(self.folder, "bin/gcc"), RECORDER, 0o755)
        write(os.path.join(self.folder, "Makefile"), MAKEFILE)
        write(os.path.join(self.folder, "lib/Makefile"), LIBRARY)
        self.environment = environment({"RECORDED": self.recorded, "PATH": os.path.join(self.folder, "bin") + ":" + os.environ["PATH"]})

    def build(self, *goals):
        write(self.recorded, "")
        words = ["--quiet", "--commands", "make", "-k", "-B", "-j4", "CC=gcc", f"OUTSIDE={self.outside}", *goals]
        return subprocess.run([self.tool, *words], cwd=self.folder, env=self.environment, capture_output=True).returncode

    def recorded_calls(self):
        with open(self.recorded, encoding="utf-8") as file:
            return [json.loads(line) for line in file]

    def log(self, target):
        """The bytes of a target's log."""
        with open(os.path.join(self.folder, CAPTURES, "names"), encoding="utf-8") as names:
            numbers = dict(reversed(line.rstrip("\n").split(" ", 1)) for line in names)
        with open(os.path.join(self.folder, CAPTURES, f"log.{numbers[target]}"), "rb") as log:
            return log.read()

    def text(self, target):
        """The text in the log of a target without colours and links, which has no other sequences."""
        text = re.sub(r"^@@REDO:.*\n", "", self.log(target).decode(), flags=re.M)
        return re.sub(r"\x1b(\[[0-9;]*[mK]|\].*?(\x07|\x1b\\))", "", text).removesuffix("\n")

    def times(self, target):
        """The milliseconds at which a target began and ended: the first `do` record of any log, and the end of its own."""
        found = {"do": [], "done": []}
        for name in STATUSES:
            for kind, time, other in re.findall(r"^@@REDO:(do|done):\d+:(\d+\.\d{3})\d*@@ (?:-?\d+ )?(.*)$", self.log(name).decode(), re.M):
                if os.path.normpath(os.path.join(os.path.dirname(name), other)) == target and (kind == "do" or name == target):
                    found[kind].append(int(time.replace(".", "")))
        return {kind: min(times) for kind, times in found.items()}


def expect_diagnostics(checks, data, found):
    """The diagnostics of all targets are what was injected."""
    objects = {row["target"]: row for row in parsed(data)}
    wanted = sorted((target, one.row, one.column, one.severity, one.text) for one in found for target in PRINT[one.path])
    placed = sorted((target, one["row"], one["column"], one["severity"], one["message"] + (f" [{one['flag']}]" if one["flag"] else ""))
                    for target, row in objects.items() for one in row["diagnostics"] if one["file"])
    checks.expect("a build: placed diagnostics", placed, wanted)
    checks.expect("a build: statuses", {target: row["status"] for target, row in objects.items()}, STATUSES)


def expect_reports(checks, project, found):
    """Each report has what was injected, once for all targets that print it."""
    folder = project.folder
    outside = os.path.join(project.outside, "outside.c")
    place = lambda path: outside if path == OUTSIDE else path
    wanted = sorted((place(one.path), one.row, one.column, one.severity, one.text, tuple(sorted(PRINT[one.path]))) for one in found)

    sarif = json.loads(made(checks, "a build", "sarif", folder))
    checks.expect("a build: sarif", sarif_faults(sarif), [])
    results = []
    for one in sarif["runs"][0]["results"]:
        place = one["locations"][0]["physicalLocation"]
        targets = tuple(target["fullyQualifiedName"] for target in one["locations"][0]["logicalLocations"])
        results.append((path_of_uri(place["artifactLocation"]["uri"]), place["region"]["startLine"], place["region"]["startColumn"],
                        one["level"], one["message"]["text"], targets))  # fmt: skip
    checks.expect("a build: sarif: results", sorted(results), wanted)

    gitlab = json.loads(made(checks, "a build", "gitlab", folder))
    checks.expect("a build: gitlab", quality_faults(gitlab), [])
    severities = {"minor": "warning", "critical": "error"}
    places = [(one["location"]["path"], one["location"]["lines"]["begin"], severities[one["severity"]], one["description"])
              for one in gitlab]  # fmt: skip
    inside = [(path, row, severity, text) for path, row, _, severity, text, _ in wanted if path != outside]
    checks.expect("a build: gitlab: findings", sorted(places), inside)

    github = workflow_commands(made(checks, "a build", "github", folder).decode())
    placed = sorted((more["file"], int(more["line"]), int(more["col"]), name, text) for name, more, text in github if "file" in more)
    checks.expect("a build: github: diagnostics", placed, [row[:5] for row in wanted])
    others = {more["title"]: (name, text) for name, more, text in github if "file" not in more}
    failed = {target: ("error", f"exit {STATUSES[target]}\n{project.text(target)}") for target in ("link", "tool")}
    checks.expect("a build: github: failures", others, failed)
    checks.expect("a build: github: errors are before warnings", [name for name, _, _ in github], sorted(name for name, _, _ in github))


def expect_junit(checks, project):
    report = made(checks, "a build", "junit", project.folder)
    checks.expect("a build: junit: xmllint", xmllint(report), (0, b"- validates\n"))
    suite = xml.etree.ElementTree.fromstring(report)[0]
    kinds, texts = {}, {}
    for case in suite:
        kinds[case.get("name")] = {child.tag: child.get("message") for child in case if child.tag != "system-err"}
        texts[case.get("name")] = "".join(child.text or "" for child in case if child.tag != "skipped")
    failures = {target: {"failure": f"exit {status}"} for target, status in FAILED.items()}
    above = {target: {"skipped": "exit 2: a target below failed"} for target in ("all", "lib")}
    checks.expect("a build: junit: kinds", kinds, {**{target: {} for target in STATUSES}, **failures, **above})
    checks.expect("a build: junit: texts", texts, {target: project.text(target) for target in STATUSES})
    checks.expect("a build: junit: counts", [suite.get(name) for name in ("tests", "failures", "skipped", "errors")], ["10", "4", "2", "0"])
    times = {case.get("name"): round(1000 * float(case.get("time"))) for case in suite}
    own = {target: project.times(target) for target in STATUSES}
    checks.expect("a build: junit: times", times, {target: time["done"] - time["do"] for target, time in own.items()})


def expect_trace(checks, project):
    trace = json.loads(made(checks, "a build", "trace", project.folder))
    checks.expect("a build: trace", trace_faults(trace), [])
    times = {target: project.times(target) for target in STATUSES}
    first = min(time["do"] for time in times.values())
    rows = {one["name"]: (one["ts"], one["dur"], one["args"]["status"], one["cat"]) for one in trace["traceEvents"]}
    checks.expect("a build: trace: events", rows, {
        target: (1000 * (time["do"] - first), 1000 * (time["done"] - time["do"]), status, "failed" if status else "recipe")
        for target, time in times.items() for status in [STATUSES[target]]})  # fmt: skip


def expect_commands(checks, project):
    """compile_commands.json has each call of gcc, as gcc itself got it. The entries make the same objects. cppcheck reads it."""
    made_commands = made(checks, "a build", "compile_commands", project.folder)
    entries = json.loads(made_commands)
    calls = [(directory, arguments) for directory, arguments in project.recorded_calls() if "-c" in arguments]
    wanted = sorted((directory, arguments, word) for directory, arguments in calls for word in arguments if word.endswith(".c"))
    checks.expect("a build: compile_commands", sorted((one["directory"], one["arguments"], one["file"]) for one in entries), wanted)
    outputs = {os.path.join(directory, arguments[arguments.index("-o") + 1]) for directory, arguments in calls if "-o" in arguments}
    checks.expect("a build: outputs", {os.path.join(one["directory"], one["output"]) for one in entries if "output" in one}, outputs)
    for one in entries:
        path = os.path.join(one["directory"], one.get("output", ""))
        if os.path.isfile(path):
            with open(path, "rb") as file:
                before = file.read()
            os.remove(path)
            done = subprocess.run(one["arguments"], cwd=one["directory"], env=project.environment, capture_output=True)
            with open(path, "rb") as file:
                checks.expect(f"a build: {path} again", (done.returncode, file.read() == before), (0, True))


def cppcheck(checks, at, tool, program):
    """cppcheck finds a fault in a file of a sub-make that only the options of its command let it see."""
    folder = os.path.realpath(at("cppcheck"))
    write(os.path.join(folder, "Makefile"), "all: ; @$(MAKE) -C 'sub dir'\n")
    write(os.path.join(folder, "sub dir/Makefile"), "all: x.o\nx.o: ; gcc -I../include -DFAULTY=1 -c -o x.o x.c\n")
    write(os.path.join(folder, "include/size.h"), "#define SIZE 4\n")
    lines = ['#include "size.h"', "#ifdef FAULTY", "int f(void) { int a[SIZE]; a[0] = 1; return a[0]", "  + a[4]; }", "#endif"]
    write(os.path.join(folder, "sub dir/x.c"), "\n".join(lines) + "\n")
    words = [tool, "--quiet", "--commands", "make"]
    subprocess.run(words, cwd=folder, env=environment(), stdout=subprocess.DEVNULL, stderr=subprocess.DEVNULL)
    write_json(checks, "cppcheck", program, folder, CAPTURES)
    with open(os.path.join(folder, "compile_commands.json"), "wb") as file:
        file.write(made(checks, "cppcheck", "compile_commands", folder))
    done = subprocess.run(["cppcheck", "--quiet", "--project=compile_commands.json", "--template={file}:{line}:{id}"], cwd=folder,
                          env=environment(), capture_output=True, text=True)
    reports = re.findall(r"^(.*):(\d+):arrayIndexOutOfBounds$", done.stderr, re.M)
    row = 1 + next(number for number, line in enumerate(lines) if "a[4]" in line)
    found = {(os.path.relpath(os.path.join(folder, path), folder), int(row)) for path, row in reports}
    checks.expect("cppcheck", (done.returncode, found), (0, {("sub dir/x.c", row)}))


def cmake(checks, at, tool, program):
    """Of a build by CMake's makefiles, the file is the one that CMake itself writes, except options about dependencies."""
    folder = os.path.realpath(at("cmake"))
    write(os.path.join(folder, "CMakeLists.txt"), """cmake_minimum_required(VERSION 3.21)
project(example C CXX)
add_compile_options(-Wall "-DTEXT=\\"a b\\"" "-DCALL(x)=x")
add_subdirectory("sub dir")
add_executable(example main.c "other file.cc")
target_include_directories(example PRIVATE "in clude")
target_link_libraries(example sub)
""")
    write(os.path.join(folder, "sub dir/CMakeLists.txt"), "add_library(sub STATIC sub.c)\n")
    write(os.path.join(folder, "sub dir/sub.c"), "int sub(void) { return 0; }\n")
    write(os.path.join(folder, "main.c"), "int sub(void);\nint main(void) { return sub(); }\n")
    write(os.path.join(folder, "other file.cc"), "int x;\n")
    generating = ["cmake", "-S", ".", "-B", "build", "-G", "Unix Makefiles", "-DCMAKE_EXPORT_COMPILE_COMMANDS=ON"]
    for words in (generating, [tool, "--quiet", "--commands", "make", "-C", "build"]):
        done = subprocess.run(words, cwd=folder, env=environment(), capture_output=True, text=True)
        checks.expect(f"cmake: {os.path.basename(words[0])}", (done.returncode, done.stderr), (0, ""))
    with open(os.path.join(folder, "build/compile_commands.json"), encoding="utf-8") as file:
        wanted = [(one["directory"], shlex.split(one["command"]), one["file"]) for one in json.load(file)]
    write_json(checks, "cmake", program, folder, CAPTURES)
    found = []
    for one in json.loads(made(checks, "cmake", "compile_commands", folder)):
        words = one["arguments"]
        rest = [word for last, word in zip([""] + words, words) if word not in ("-MD", "-MT", "-MF") and last not in ("-MT", "-MF")]
        found.append((one["directory"], rest, one["file"]))
    checks.expect("cmake: compile_commands", sorted(found), sorted(wanted))


def expect_new(checks, project, program):
    """Of two builds, exactly what was injected between them is new. Of the same build twice, nothing is."""
    folder = project.folder
    shutil.copy(os.path.join(folder, "build.jsonl"), os.path.join(folder, "OLD.jsonl"))
    project.build()
    write_json(checks, "the same sources", program, folder, CAPTURES, "NEW.jsonl")
    checks.expect("the same sources twice: nothing is new", run_script("new", folder), (0, b"", ""))

    found = write_sources(folder, {**SOURCES, **SECOND}, "// moved\n" * 3)
    write(os.path.join(folder, "lib/Makefile"), LIBRARY.replace("all: a.o", "all: fresh.o a.o"))
    project.build()
    write_json(checks, "changed sources", program, folder, CAPTURES, "NEW.jsonl")
    printing = {**PRINT, "lib/fresh.c": ["lib/fresh.o"]}
    lines = [f"{one.path}:{one.row}:{one.column}: {one.severity}: {one.text} ({', '.join(sorted(printing[one.path]))})"
             for one in found if one.is_new]  # fmt: skip
    lines.append("coloured.o fails (exit 1)")
    status, out, err = run_script("new", folder)
    checks.expect("changed sources: what is new", (status, sorted(out.decode().splitlines()), err), (1, sorted(lines), ""))


def real_builds(checks, at, tool, program):
    project = Project(at, tool)
    found = write_sources(project.folder, SOURCES)
    checks.expect("a build: make", project.build(), 2)
    data = write_json(checks, "a build", program, project.folder, CAPTURES)
    checks.expect("a build: readers that differ", differing_readers(data), [])
    expect_members(checks, "a build", parsed(data))
    expect_diagnostics(checks, data, found)
    expect_reports(checks, project, found)
    expect_junit(checks, project)
    expect_trace(checks, project)
    expect_commands(checks, project)
    for name in ("sarif", "gitlab", "trace", "compile_commands"):
        report = in_a_line(made(checks, "a build", name, project.folder))
        checks.expect(f"a build: readers that differ about {name}", differing_readers(report), [])
    expect_new(checks, project, program)
    return data


PARTS = (real_builds, cppcheck, cmake)
