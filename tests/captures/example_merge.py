"""examples/merge: several captures as one, which redo-log and redo-log-html show as they show each of them, with a prefix."""
import html
import os
import re
import shutil
import subprocess

from builds import make, project, ran, shown, write
from checks import CAPTURES, HTML_PROGRAM, TOP, contents, environment

MERGE = os.path.join(TOP, "examples/merge/merge")
JOBS = {
    "linux": "all: main.o ; @true\nmain.o: ; @echo 'main.c:4: unused' >&2\n",
    "arm": "all: main.o ; @true\nmain.o: {0} ; @echo 'main.c:7: undeclared' >&2; exit 1\n{0}: ; @echo generated >&2\n",
}
# Targets in directories, sub-makes, odd names, a failure, and logs that mention names above their directory.
MIXED = """all: d/a e s lib/x it's b\\ c t
	@echo linked >&2
d/a: e ; @echo a >&2
e: ; @echo e >&2
s: ; @$(MAKE) -s -C sub
lib/x: d/a | e ; @echo x >&2
it's b\\ c: ; @echo "$@" >&2
t: ; @echo t >&2; exit $(T)
"""


def prefixed(text, name, status):
    """What `redo-log -r` shows of `NAME/all` below another log, if this is what it shows of `all`."""
    lines = [re.sub(r"^redo  ( *)(.*)", rf"redo    \1{name}/\2", line) for line in text.splitlines()]
    return "".join(line + "\n" for line in lines) + (f"redo    {name}/all (exit {status})\n" if status else "")


def text_of_page(page):
    return html.unescape(re.sub(r"<[^>]*>", "", page))


def merged_builds(checks, at):
    """Merged captures have the text of each capture, deeper and with a prefix."""
    texts, words, place = [], [], at("merged")
    for number, (name, words_of_make, status) in enumerate((("one", ["-j2", "T=0"], 0), ("it's two", ["-k", "T=3"], 2), ("x=y", ["t", "T=0"], 0), (".dot", ["-j4", "T=0"], 0))):
        folder = project(at(f"job{number}"), MIXED)
        write(os.path.join(folder, "sub/Makefile"), "all: ../up inner\n../up inner: ; @echo $@ >&2\n")
        checks.expect(f"{name}: make", make(folder, *words_of_make, options=["--must-close", "--quiet", "--commands"] if number != 2 else ["--quiet"])[0], status)
        text = shown(folder, "all")
        texts.append(prefixed(text, name, status))
        words.append(f"{name}={os.path.join(folder, CAPTURES)}")
    checks.expect("a name with an equals sign", ran(at("."), [MERGE, at("wrong"), words[2]])[0::2], (1, f"merge: {words[2][2:]}: no file names\n"))
    words[2] = "xy" + words[2][3:]
    texts[2] = texts[2].replace("x=y/", "xy/")
    checks.expect("merge", ran(at("."), [MERGE, place, *words]), (0, "", ""))
    checks.expect("the text of merged captures", shown(at("."), "all", at=place), "redo  all\n" + "".join(texts))
    checks.expect("one of them", shown(at("."), "one/all", at=place), shown(at("job0"), "all").replace("redo  all", "redo  one/all").replace("    ", "    one/").replace("one/  ", "  one/"))
    done = subprocess.run([HTML_PROGRAM, "--dir", place, "--max-bytes", "0"], env=environment(), capture_output=True)
    page = text_of_page(done.stdout.decode())
    checks.expect("the page", (done.returncode, [name for name in ("one/lib/x", "it's two/t", "xy/t", ".dot/sub/inner") if name not in page]), (0, []))
    # A truncated copy is rejected, because the flags were kept.
    with open(os.path.join(place, "names"), encoding="utf-8") as names:
        number = next(re.match(r"!(\d+) one/e$", line)[1] for line in names if line.endswith(" one/e\n"))
    with open(os.path.join(place, f"log.{number}"), "r+b") as log:
        log.truncate(os.path.getsize(log.name) - 1)
    checks.expect("a log that is truncated", shown(at("."), "all", at=place), (4, "redo-log: one/e: not closed\n"))
    facts = [line.split(" ", 1) for name in ("facts",) for line in contents(os.path.join(place, name)).splitlines()]
    numbers = dict(line.rstrip("\n").lstrip("!").split(" ", 1) for line in contents(os.path.join(place, "names")).splitlines())
    checks.expect("the facts name their targets", {numbers[number] for number, fact in facts if fact.startswith("log ")}, {fact[4:] for _, fact in facts if fact.startswith("log ")})
    checks.expect("the facts have commands", ["command echo x >&2"] * 3, [fact for number, fact in facts if numbers[number].endswith("lib/x") and fact.startswith("command ")])


def merge_in_readme(checks, at):
    """What examples/merge/README.md shows."""
    readme, outside = contents("examples/merge/README.md"), at("outside")
    for number, (name, makefile) in enumerate(JOBS.items(), 1):
        folder = project(at(f"job{number}"), makefile.format(os.path.join(outside, "version.h")))
        make(folder, "-s", options=["--dir", "capture", "--quiet"])
    build, view = re.findall(r"^    \$ (.*)\n((?:    [^$].*\n)*)", readme, re.M)
    expected = [re.sub("^    ", "", text, flags=re.M).replace("/opt/sdk", outside) for _, text in (build, view)]
    os.symlink(os.path.join(TOP, "examples"), os.path.join(at("."), "examples"))
    checks.expect("the example: merge", ran(at("."), build[0].split()), (0, "", expected[0]))
    checks.expect("the example: redo-log", (view[0], shown(at("."), "all", at="merged")), ("redo-log -r --dir merged all", expected[1]))


def refused_captures(checks, at):
    folder, good = project(at("good"), "all: ; @true\n"), os.path.join(at("good"), CAPTURES)
    checks.expect("a capture: make", make(folder)[0], 0)
    for name, lines in (("bad", "1 all\n01 x\n"), ("without", "2 x\n"), ("short", "1 all\n7\n")):
        write(os.path.join(at(name), "names"), lines)
    rows = (
        (["a=" + good], "usage: merge OUT NAME=DIR.."), ([at("out")], "usage: merge OUT NAME=DIR.."),
        ([at("out"), f"={good}"], f"={good}: NAME must be the name of a directory, and another one for each capture"),
        ([at("out"), f"..={good}"], f"..={good}: NAME must be the name of a directory, and another one for each capture"),
        ([at("out"), f"a/b={good}"], f"a/b={good}: NAME must be the name of a directory, and another one for each capture"),
        ([at("out"), f"a={good}", f"a={good}"], f"a={good}: NAME must be the name of a directory, and another one for each capture"),
        ([at("out"), "a=nowhere"], "a=nowhere: no file names".replace("a=", "", 1)), ([at("out"), "a"], "no file names"),
        ([at("out"), f"a={at('bad')}"], f"{at('bad')}/names: line 2: bad line"), ([at("out"), f"a={at('short')}"], f"{at('short')}/names: line 2: bad line"),
        ([at("out"), f"a={at('without')}"], f"{at('without')}: no target all"),
    )  # fmt: skip
    for words, message in rows:
        status, out, err = ran(at("good"), [MERGE, *words])
        checks.expect(f"refused: {message}", (status, out, err.endswith(message + "\n")), (1, "", True))
        checks.expect(f"refused: {message}: nothing can be read", os.path.exists(os.path.join(at("out"), "names")), False)
        shutil.rmtree(at("out"), ignore_errors=True)
    os.mkdir(at("there"))
    checks.expect("a directory that exists", (ran(at("good"), [MERGE, at("there"), f"a={good}"])[0], os.listdir(at("there"))), (1, []))


PARTS = (merged_builds, merge_in_readme, refused_captures)
