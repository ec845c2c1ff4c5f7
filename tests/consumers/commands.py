"""compile_commands.jq reads shell scripts. The shell itself says what it should find: its compilers record their arguments."""
import json
import os
import re
import subprocess
import sys

from checks import environment
from real_builds import write
from scripts import made, write_json

# Scripts in which each compiler runs, in a directory `w` with `a.c`, `b c.c`, `d.cc`, `sub` and `sub/deep`.
ALL_RUN = [
    "gcc -c a.c", "gcc -Wall -DX=\"a b\" -c 'b c.c' -o b\\ c.o", "cd sub && gcc -I../inc -c ../a.c -o a.o", "cd sub; cd ..; gcc -c a.c",
    "(cd sub && gcc -c ../a.c); gcc -c a.c", "cd sub && cd deep && gcc -c ../../a.c", "cd sub/./deep/.. && gcc -c ../a.c",
    "cd 'sub' && cd \"$PWD/deep\"; cd /; true", "if gcc -c a.c; then echo ok; fi",
    "if test -d sub; then gcc -c a.c -o 1.o && gcc -c 'b c.c' -o 2.o; fi", "echo gcc -c no.c; gcc -c a.c",
    "printf '%s\\n' \"gcc -c no.c\" >/dev/null && cc -c a.c >out 2>&1", "X=1 Y='2 3' gcc -DZ=\\'1\\' -c a.c 2>/dev/null",
    "ccache gcc -c a.c", "./libtool --mode=compile gcc -c a.c -o a.lo", "arm-none-eabi-gcc-12 -c a.c; x86_64-linux-gnu-g++ -c d.cc",
    "\"gcc\" -c \"a.c\"; 'gcc' -c 'a.c'", "cd sub && gcc -c `test -f 'a.c' || echo '../'`a.c -o a.o",
    "gcc -c `test -f 'a.c' || echo './'`a.c", "gcc -MD -MF f.c -MT t.c -MQ q.c -c -o o.c a.c", "gcc -include pre.c -c a.c",
    "printf %s gcc -c no.c; gcc -c a.c",
    "gcc -o program a.c 'b c.c' -lm", "gcc -c \\\n  a.c \\\n  -DCONTINUED", "gcc -c a.c -DB='b'\"c\"d\\e 'x y.o'",
    "gcc -c a.c -D'A(x)=x+1' \"-DB=\\\"q\\\"\" -DC=\\\"r\\\" -DD=\\$HOME \"-DE=\\$HOME \\\\ \\a\" '-DF=`x` \\'", "gcc -c a.c & wait",
    "gcc -c a.c | cat", "{ gcc -c a.c; }", "gcc -c a.c # gcc -c no.c", "# gcc -c no.c\ngcc -c a.c", "true\ngcc -c a.c\ngcc -c 'b c.c'",
    "case x in x) gcc -c a.c;; esac", "env A=1 gcc -c a.c", "nice gcc -c a.c", "exec gcc -c a.c", "! gcc -c a.c", "gcc -c a.c>out",
    "gcc -DX=1>out -c a.c", "gcc -c a.c </dev/null 2>&1 >&2", "gcc -c ./a.c ../w/a.c", "echo 'a;' \"b & gcc -c no.c\"; gcc -c a.c",
    "CC=gcc; CFLAGS='-c no.c'; export CC; gcc -c a.c", "gcc -c 'été.c' \"a'b.c\" 'a\"b.c' a\\ \\ b.c", "test -f no.c || gcc -c a.c",
    "gcc -c a.c; : gcc -c no.c", "true CC=/usr/bin/gcc a.c", "gcc --version", "gcc -c -DEMPTY= '' a.c",
    "gcc -c \"a.c\"\"\" ''", "cd sub && (test -f x || true) && gcc -c ../a.c", "cd sub; case $X in y) true;; *) gcc -c ../a.c;; esac",
    "if test -d sub; then cd sub; gcc -c ../a.c; fi", "{ cd sub; gcc -c ../a.c; }", "(cd sub; (cd deep; gcc -c ../../a.c); gcc -c ../a.c)",
    "gcc -c e.CC g.CPP f.S h.S", "nice -n 5 distcc gcc -c a.c", "X=1 ccache distcc gcc -c a.c",
    "/bin/sh ./libtool --tag=CC --mode=compile gcc -c a.c", "gcc -idirafter x.c -Xclang y.c -c a.c", "gcc -MD -MT a.c -c a.c",
    "gcc -c 'b c.c' a~.c", "time -p gcc -c a.c", "dash x-libtool gcc -c a.c", "cd sub && gcc -c ../a.c | cat", "cd sub && gcc -c ../a.c & wait",
    "cd sub || exit 1; gcc -c ../a.c", "gcc -c a.c | cat; gcc -c 'b c.c'", "(cd sub | true; true); gcc -c a.c",
    "(cd sub && gcc -c ../a.c) | cat; gcc -c a.c", "(cd sub; gcc -c ../a.c) & gcc -c a.c; wait", "true | (cd sub && gcc -c ../a.c)",
    "gcc -c a.c & gcc -c 'b c.c'; wait", "cat <<E && gcc -c a.c\ngcc -c no.c\nE", "echo $((1<<2)) '<<E'; gcc -c a.c",
]  # fmt: skip
# Scripts whose sources or directories only the shell knows, and commands that compile nothing.
UNKNOWN = [
    "for i in a; do gcc -c $i.c; done", "gcc -c ?.c", "gcc -c *.c", "cd $HOME && gcc -c a.c; gcc -c a.c", "cd `pwd` && gcc -c a.c",
    "gcc -M a.c", "gcc -MM a.c -DX", "gcc -E a.c", "gcc --print-file-name=a.c", "gcc -o x a.o", "echo gcc -c a.c",
    "sh -c 'true gcc -c a.c'", ": gcc -c a.c", "[ gcc = a.c ]", "",
    "for d in sub; do cd $d; gcc -c a.c; done", "cd -P sub && gcc -c ../a.c", "cd && gcc -c a.c",
    "gcc -c [ab].c", "gcc -c {a,d}.c", "gcc -c ~/a.c", "cd su[b] && gcc -c a.c", "cd ~ && gcc -c a.c", "grep -n gcc src/foo.c",
    "cp gcc a.c", "diff gcc a.c", "python3 gen.py --cc gcc foo.c", "-gcc -c a.c", "nice --cc a.c", "sh build.sh gcc a.c",
    "pushd sub && gcc -c a.c", "cd sub && popd && gcc -c a.c", "command cd $X && gcc -c a.c", "cd sub | true; gcc -c a.c",
    "true | cd sub; gcc -c a.c", "cd sub |\n true\n gcc -c a.c", "cd sub & gcc -c a.c", "cd sub && true & gcc -c a.c",
    "{ cd sub; true; } 2>&1 | cat; gcc -c a.c", "{ cd sub; true; } & gcc -c a.c", "true | while read x; do cd sub; done; gcc -c a.c",
    "cat >x <<E\ngcc -c a.c\nE", "cat <<-'E F' >x\n\tgcc -c a.c\n\tE F", "sh <<E\ncd sub\nE\ngcc -c a.c",
]  # fmt: skip
# What is no script. Anything may be found there.
BROKEN = [
    "'", "\"", "`", "gcc -c 'a.c", "gcc -c a.c\\", "((((", "))))", ";;&&||", "\\", "gcc -c `", "cd", "cd \"", "< > <", "gcc -o",
    "\u202e\0\x07",
]  # fmt: skip
COMPILERS = ["gcc", "cc", "arm-none-eabi-gcc-12", "x86_64-linux-gnu-g++"]
RECORDER = f"""#!{sys.executable} -IS
import json, os, sys
with open(os.environ["RECORDED"], "a", encoding="utf-8") as file:
    file.write(json.dumps([os.getcwd(), [os.path.basename(sys.argv[0]), *sys.argv[1:]]]) + "\\n")
"""
WRAPPERS = ["ccache", "distcc", "time"]
WRAPPER = '#!/bin/sh\nwhile case $1 in -*) true;; *) false;; esac; do shift; done\nexec "$@"\n'
# The options before words that are no sources.
VALUES = ("-MF", "-MT", "-MQ", "-include", "-idirafter", "-Xclang", "-o")


def write_capture(folder, rows):
    """Writes a capture whose targets have these directories and commands."""
    os.mkdir(folder)
    names, facts, records = ["1 all"], [], []
    for number, (directory, command) in enumerate(rows, 2):
        names.append(f"{number} t{number}")
        records.append(f"@@REDO:do:7:1600000000.0@@ t{number}")
        lines = command.split("\n")
        facts += [f"{number} log t{number}", f"{number} directory {directory}", f"{number} command {lines[0]}"]
        facts += [f"{number} more {line}" for line in lines[1:]]
    for name, lines in (("names", names), ("facts", facts), ("log.1", records)):
        write(os.path.join(folder, name), "".join(line + "\n" for line in lines))


def is_source(word):
    return re.search(r"\.(c|cc|CC|CPP|S)$", word) is not None and not word.startswith("-")


def normal(directory, words):
    """The directory of a call and its words, with sources in normal form."""
    return directory, [os.path.basename(words[0]), *(os.path.normpath(word) if is_source(word) else word for word in words[1:])]


def scripts_of_shells(checks, at, tool, program):
    """Each script runs in a directory of its own. All of them are commands in one capture."""
    del tool
    folder = os.path.realpath(at("scripts"))
    for name in COMPILERS:
        write(os.path.join(folder, "bin", name), RECORDER, 0o755)
    for name in WRAPPERS:
        write(os.path.join(folder, "bin", name), WRAPPER, 0o755)
    more = environment({"PATH": os.path.join(folder, "bin") + ":" + os.environ["PATH"], "RECORDED": os.path.join(folder, "recorded")})
    rows, expected = [], {}
    for number, script in enumerate([*ALL_RUN, *UNKNOWN]):
        place, script = os.path.join(folder, f"w{number}"), script.replace("/w/", f"/w{number}/")
        for path in ("a.c", "b c.c", "d.cc", "sub/deep/x"):
            write(os.path.join(place, path), "")
        for name in ("libtool", "x-libtool"):
            write(os.path.join(place, name), WRAPPER, 0o755)
        write(more["RECORDED"], "")
        if number < len(ALL_RUN):
            subprocess.run(["sh", "-c", script], cwd=place, env=more, stdout=subprocess.DEVNULL, stderr=subprocess.DEVNULL)
        with open(more["RECORDED"], encoding="utf-8") as file:
            calls = [normal(*json.loads(line)) for line in file]
        rows.append((f"w{number}", script))
        expected[place] = sorted([*call, word] for call in calls for last, word in zip(call[1], call[1][1:])
                                 if is_source(word) and last not in VALUES)  # fmt: skip
    write_capture(os.path.join(folder, "capture"), rows)
    write_json(checks, "scripts", program, folder, "capture")
    found = {place: [] for place in expected}
    for one in json.loads(made(checks, "scripts", "compile_commands", folder)):
        place = re.match(r".*/w\d+(?=/|$)", one["directory"])
        found.setdefault(place and place[0], []).append([*normal(one["directory"], one["arguments"]), os.path.normpath(one["file"])])
    checks.expect("scripts: other directories", sorted(map(str, found)), sorted(expected))
    for place, (_, script) in zip(expected, rows):
        checks.expect(f"the commands of {script!r}", sorted(found[place]), expected[place])
    write_capture(at("broken"), [(".", script) for script in BROKEN])
    write_json(checks, "broken scripts", program, folder, at("broken"))
    checks.expect("broken scripts: a list", type(json.loads(made(checks, "broken scripts", "compile_commands", folder))), list)


PARTS = (scripts_of_shells,)
