"""What people see of a captured build: which target failed, immediately and in one piece, and how to read its log."""
import os
import re
import resource
import signal
import subprocess
import time

from builds import PREFIX, TOOL, failed, last_lines, log_of, make, of_a_terminal, printed_by, project, ran, said, shown, wait_for, wait_until, write
from checks import CAPTURES, contents, environment


def what_failed(checks, at):
    """The output of a failed recipe is printed before make reports the failure."""
    makefile = "all: x y\n\t@echo all >&2\nx: ; @for n in 1 2 3; do echo x $$n >&2; sleep 0.0$$n; done; exit 3\ny: ; @for n in 1 2 3; do echo y $$n >&2; sleep 0.0$$n; done; exit $(Y)\n"
    commands = {name: f"for n in 1 2 3; do echo {name} $n >&2; sleep 0.0$n; done; exit {status}" for name, status in (("x", 3), ("y", 4))}
    blocks = [said(name, status, commands[name], f"{name} 1\n{name} 2\n{name} 3\n") for name, status in (("x", 3), ("y", 4))]
    texts = [block + f"make: *** [Makefile:{line}: {name}] Error {status}\n" for block, name, status, line in zip(blocks, "xy", (3, 4), (3, 4))]
    left = "make: Target 'all' not remade because of errors.\n"
    folder = project(at("one"), makefile)
    checks.expect("one fails", make(folder, "-k", "Y=0"), (2, "", texts[0] + left + failed("x")))
    checks.expect("quietly", make(folder, "-k", "Y=0", options=["--quiet"]), (2, "", "make: *** [Makefile:3: x] Error 3\n" + left + failed("x")))
    for words in (["-k"], ["-kj2"], ["-kj2", "-O"]):
        status, out, told = make(project(at(f"two{words}"), makefile), *words, "Y=4")
        whole = [text + other + left + failed("x", "y") for text, other in (texts, texts[::-1])]
        apart = [line for line in told.splitlines() if not line.startswith("make:")], [line for line in whole[0].splitlines() if not line.startswith("make:")]
        if words[0] == "-kj2":
            # make may report both after both have been shown.
            checks.expect(f"two fail, {words}", (status, sorted(apart[0]), blocks[0] in told, blocks[1] in told), (2, sorted(apart[1]), True, True))
        else:
            checks.expect(f"two fail, {words}", (status, out, told in whole), (2, "", True))

    folder = project(at("lines"), "all:\n\t@echo first >&2\n\t-@echo second >&2; exit 4\n\t@echo third >&2; exit 5\n")
    text = said("all", 4, "echo second >&2; exit 4", "first\nsecond\n") + "make: [Makefile:3: all] Error 4 (ignored)\n" + said("all", 5, "echo third >&2; exit 5", "third\n") + "make: *** [Makefile:4: all] Error 5\n"
    checks.expect("a status that make ignores, and one that it doesn't", make(folder), (2, "", text + failed("all")))

    folder = project(at("nothing"), "all: ; @exit 3\n")
    checks.expect("one that says nothing", make(folder), (2, "", said("all", 3, "exit 3") + "make: *** [Makefile:1: all] Error 3\n" + failed("all", is_empty=True)))

    # make itself says why, in the log of the recipe that runs it or on the terminal.
    folder = project(at("unstarted"), "all: ; @$(MAKE) -s sub\nsub: ; @nosuchcommand x\nempty: ; @exit 3\nlast:\n\t@echo first >&2\n\t@./Makefile\n")
    for words, names in (["all"], ["sub"]), (["last"], ["last"]), (["-k", "all", "empty"], ["empty", "sub"]):
        message = re.search(r"^make.*: (No such file or directory|Permission denied)\n", ran(folder, ["make", "-s", *words])[2], re.M)[0]
        for option in ("--both", "--live"):
            status, _, told = make(folder, "-s", *words, options=[option])
            checks.expect(f"make can't start a command, {words}", (status, last_lines(3, told), message in told), (2, failed(*names, is_unstarted=True), True))
    folder = project(at("unstarted and ignored"), "x:: ; @exit 3\nx:: ; -@nosuchcommand x\n")
    checks.expect("make can't start a command, and ignores that", last_lines(3, make(folder, "-k")[2]), failed("x", is_empty=True))

    folder = project(at("bytes"), "all: ; @./print\n")
    write(os.path.join(folder, "print"), "#!/bin/sh\nprintf 'a\\000b\\033[1m\\377\\n@@REDO:hint:7:1@@ x\\nend' >&2; exit 3\n")
    os.chmod(os.path.join(folder, "print"), 0o755)
    done = subprocess.run([TOOL, "make"], cwd=folder, env=environment(), capture_output=True)
    text = b"redo-log-capture: all (exit 3)\n./print\na\0b\33[1m\xff\n @@REDO:hint:7:1@@ x\nend\nmake: *** "
    checks.expect("bytes as they are, with a space before what looks like a record", done.stderr[: len(text)], text)


def below(checks, at):
    """For sub-makes of a recipe: the failed recipe of the sub-make is shown, and then the output of the recipe that started it."""
    folder = project(at("below"), ".PHONY: lib\nall: need lib\nlib: ; @echo lib >&2; $(MAKE) -s -C lib z; echo no >&2; exit 1\nneed: ; @echo need >&2\n")
    write(os.path.join(folder, "lib/Makefile"), "z: y ; @echo z >&2; exit 3\ny: ; @echo y >&2\n")
    text = said("lib/z", 3, "echo z >&2; exit 3", "z\n", "lib")
    text += said("lib", 1, "echo lib >&2; make -s -C lib z; echo no >&2; exit 1", "lib\nmake[1]: *** [Makefile:1: z] Error 3\nno\n") + "make: *** [Makefile:3: lib] Error 1\n"
    checks.expect("what failed below a recipe", make(folder, "-s"), (2, "", text + failed("lib/z")))

    folder = project(at("shown"), ".PHONY: lib\nlib: ; @$(MAKE) -s -C lib z\n")
    write(os.path.join(folder, "lib/Makefile"), "z: ; @echo \"z.c:7: expected ';'\" >&2; exit 3\n")
    text = "".join(f"    {line}\n" for line in make(folder)[2].splitlines())
    checks.expect("capture/README.md", text in contents("capture/README.md"), True)

    folder = project(at("same"), "top: ; @$(MAKE) -s -f below.mk\n")
    write(os.path.join(folder, "below.mk"), "all: ; @echo all >&2; exit 3\n")
    checks.expect("an `all` of a make below, in the same folder", last_lines(2, make(folder, "-s")[2]), failed("all"))

    folder = project(at("killed"), "all: ; @echo begun >&2; kill -9 $$$$\n")
    checks.expect("one that is killed", make(folder), (2, "", said("all", 137, "echo begun >&2; kill -9 $$", "begun\n") + "make: *** [Makefile:1: all] Killed\n" + failed("all")))


def live(checks, at):
    folder = project(at("live"), "all: a b c\n\t@echo all >&2\na:\n\t@echo a1 >&2\n\t@echo a2 >&2\nb: ; @true\nc: ; @echo c >&2; exit $(C)\n")
    a = "redo-log-capture: a\na1\na2\n"
    checks.expect("all that is said", make(folder, "C=0", options=["--live"]), (0, "", a + "redo-log-capture: c\nc\nredo-log-capture: all\nall\n"))
    text = a + said("c", 1, "echo c >&2; exit 1", "c\n") + "make: *** [Makefile:7: c] Error 1\n"
    checks.expect("and what failed", make(folder, "C=1", options=["--live"]), (2, "", text + failed("c")))
    folder = project(at("both"), "all: ; @echo out; echo err >&2\n")
    checks.expect("both outputs", make(folder, options=["--live", "--both"]), (0, "", "redo-log-capture: all\nout\nerr\n"))
    # The process that is left behind ends when the build has ended, because it waits for a writer of the pipe.
    text = "all: ; @mkfifo wait; { read line <wait; } >/dev/null & printf 'no line feed' >&2\n"
    folder = project(at("unended"), text)
    expected = (0, "", "redo-log-capture: all\nno line feed\n")
    checks.expect("text without a line feed, beside a process that is left behind", make(folder, options=["--live"]), expected)
    with open(os.path.join(folder, "wait"), "w", encoding="ascii"):
        pass


def last_words(checks, at):
    """The last lines name the failed targets, at most ten, and show how to read their logs."""
    names = [f"t{number}" for number in range(12)]
    folder = project(at("many"), f"all: {' '.join(names)}\n{' '.join(names)}: ; @exit 1\n")
    told = make(folder, "-ks", options=["--quiet"])[2]
    checks.expect("twelve failed", last_lines(3, told), failed(*sorted(names), is_empty=True))
    told = make(folder, "-ks", *names[:10], options=["--dir", "ten", "--quiet"])[2]
    ten = " ".join(sorted(names[:10]))
    text = failed(*sorted(names[:10]), words=f"--dir ten {ten}", is_empty=True).replace("-r all", "-r --dir ten all")
    checks.expect("ten failed", last_lines(3, told), text)

    folder = project(at("empty"), "all: a b\na: ; @exit 1\nb: ; @echo b >&2; exit 1\n")
    checks.expect("one of two logs is empty", last_lines(3, make(folder, "-ks")[2]), "make: Target 'all' not remade because of errors.\n" + failed("a", "b"))
    checks.expect("both outputs, and an empty log", last_lines(2, make(folder, "-s", "a", options=["--both"])[2]), failed("a"))

    names = ["x" * 2000 + str(number) for number in range(5)]
    folder = project(at("long"), f"all: {' '.join(names)}\n{' '.join(names)}: ; @echo $@ >&2; exit 1\n")
    line = ("redo-log-capture: 5 targets failed: redo-log " + " ".join(names))[:8187] + " ..\n"
    checks.expect("a line that is too long", make(folder, "-ks")[2].splitlines(keepends=True)[-2], line)

    folder = project(at("listed"), "all: ; @exit 1\n")
    write(os.path.join(folder, "names"), "smith\n")
    text = failed("all", words=f"--dir {CAPTURES} all", is_empty=True).replace("-r all", f"-r --dir {CAPTURES} all")
    checks.expect("where there is another list of names", last_lines(3, make(folder)[2]), text)

    folder = project(at("rule"), "all: a nope ; @echo all >&2\na: ; @echo a >&2\n")
    why = "make: *** No rule to make target 'nope', needed by 'all'.  Stop.\n"
    text = why + "redo-log-capture: no recipe failed; see make's own message\nredo-log-capture: show all logs: redo-log -r all\n"
    checks.expect("no rule", make(folder), (2, "", text))
    text = "redo-log-capture: no recipe failed; see sh's own message\nredo-log-capture: show all logs: redo-log -r all\n"
    checks.expect("of a script", last_lines(2, ran(folder, [TOOL, "sh", "-c", "make -s a; exit 3"])[2]), text)


def printed_something(checks, at):
    """The last lines name targets that printed something and did not fail, if not all of them have been shown."""
    makefile = "all: a b c ; @echo out\na c: ; @echo $@ warns >&2\nb: ; @exit $(B)\n"
    line = "redo-log-capture: 2 targets that did not fail printed something: redo-log a c\n"
    folder = project(at("some"), makefile)
    checks.expect("warnings of a build that succeeds", ran(folder, [TOOL, "make", "B=0"]), (0, "out\n", line))
    status, _, told = ran(folder, [TOOL, "make", "-k", "B=3"])
    checks.expect("warnings of a build that fails", (status, last_lines(4, told)), (2, failed("b", printed=("a", "c"), is_empty=True)))
    for options in (["--quiet"], ["--both"], ["--live"]):
        told = ran(folder, [TOOL, *options, "make", "-s", "B=0"])[2]
        checks.expect(f"warnings, with {options}", "printed something" in told, False)
    checks.expect("one warning", ran(folder, [TOOL, "make", "-s", "a"])[2], "redo-log-capture: 1 target that did not fail printed something: redo-log a\n")
    names = " ".join(f"t{number}" for number in range(11))
    folder = project(at("many"), f"all: {names}\n{names}: ; @echo $@ >&2\n")
    checks.expect("many warnings", ran(folder, [TOOL, "make"])[2], "redo-log-capture: 11 targets that did not fail printed something: redo-log -r all\n")
    checks.expect("no warning", ran(project(at("none"), "all: ; @true\n"), [TOOL, "make"]), (0, "", ""))

    # The block of a line that failed has all that was printed up to then.
    first = "all:\n\t@echo first >&2\n\t-@exit $(E)\n"
    block = said("all", 3, "exit 3", "first\n")
    line = "redo-log-capture: 1 target that did not fail printed something: redo-log all\n"
    for name, makefile, text in (
        ("the last line fails", first, block),
        ("a line fails, and nothing is printed after it", first + "\t@true\n", block),
        ("a line fails, and something is printed after it", first + "\t@echo second >&2\n", block + line),
    ):
        folder = project(at(name), makefile)
        checks.expect(f"what is ignored: {name}", ran(folder, [TOOL, "make", "-s", "E=3"]), (0, "", text))
        checks.expect(f"what is ignored: {name}, and doesn't", ran(folder, [TOOL, "make", "-s", "E=0"]), (0, "", line))
    folder = project(at("missing"), "all:\n\t@echo first >&2\n\t-@./nosuch\n\t@true\n")
    told = ran(folder, [TOOL, "make", "-s"])[2]
    checks.expect("what is ignored: a command that isn't there has no block", last_lines(1, told), line)
    # `x` fails in one make, and prints something in another one, whose output isn't shown. make's own message is in the log of `one`.
    makefile = "all: one two\none: ; @$(MAKE) -s x E=3 $(OR)\ntwo: ; @$(MAKE) -s x E=0\nx: ; @echo x >&2; exit $(E)\n"
    folder = project(at("twice"), makefile)
    told = ran(folder, [TOOL, "make", "-s", "OR=|| :"])
    text = said("x", 3, "echo x >&2; exit 3", "x\n") + "".join(f"redo-log-capture: {line}\n" for line in printed_by("one", "x"))
    checks.expect("a target that fails in one make, and that is ignored, and prints in another one", told, (0, "", text))
    told = ran(folder, [TOOL, "make", "-ks"])[2]
    checks.expect("a target that fails in one make and prints in another one", ("printed something" in told, last_lines(2, told)), (False, failed("x")))


def heads_of_parents(checks, at):
    """A recipe that failed only because its sub-make did has no header, unless it printed something else."""
    folder = project(at("plain"), ".PHONY: lib\nall: lib\nlib: ; @$(MAKE) -s -C lib $(W)\n")
    write(os.path.join(folder, "lib/Makefile"), "z: w ; @exit 3\nw: ; @$(MAKE) -s v\nv: ; @echo v >&2; exit $(V)\n")
    inner = said("lib/v", 4, "echo v >&2; exit 4", "v\n", "lib")
    outer = "make[2]: *** [Makefile:3: v] Error 4\nmake[1]: *** [Makefile:2: w] Error 2\nmake: *** [Makefile:3: lib] Error 2\n"
    checks.expect("two parents that print nothing else", make(folder, "-s", "V=4"), (2, "", inner + outer + failed("lib/v")))
    folder = project(at("more"), ".PHONY: lib\nall: lib\nlib: ; @$(MAKE) -s -C lib || { echo 'no lib' >&2; exit 1; }\n")
    write(os.path.join(folder, "lib/Makefile"), "v: ; @exit 4\n")
    text = said("lib/v", 4, "exit 4", directory="lib") + said("lib", 1, "make -s -C lib || { echo 'no lib' >&2; exit 1; }", "make[1]: *** [Makefile:1: v] Error 4\nno lib\n")
    checks.expect("a parent that prints something else", make(folder, "-s"), (2, "", text + "make: *** [Makefile:3: lib] Error 1\n" + failed("lib/v", is_empty=True)))
    folder = project(at("own"), ".PHONY: lib\nall: lib\nlib: ; @$(MAKE) -s -C lib\n")
    write(os.path.join(folder, "lib/Makefile"), "v ; no rule\n")
    text = said("lib", 2, "make -s -C lib", "Makefile:1: *** missing separator.  Stop.\n") + "make: *** [Makefile:3: lib] Error 2\n"
    checks.expect("a sub-make that fails by itself", make(folder, "-s"), (2, "", text + failed("lib")))


def ignored_failures(checks, at):
    """A target is named if it explains the failure: not if the recipe that ran its make went on, or did not fail."""
    probe = "probe: ; @exit 1\n"
    folder = project(at("minus"), "check:\n\t-@$(MAKE) -s probe 2>/dev/null\n\t@echo '3 of 5 failed'; exit 3\n" + probe)
    text = "make: [Makefile:2: check] Error 2 (ignored)\n" + said("check", 3, "echo '3 of 5 failed'; exit 3") + "make: *** [Makefile:3: check] Error 3\n"
    first, rest = said("check", 2, "make -s probe 2>/dev/null"), text + failed("check", is_empty=True)
    checks.expect("a line after a sub-make whose failure is ignored", make(folder, "check"), (2, "3 of 5 failed\n", first + rest))
    folder = project(at("missing"), "check:\n\t-@$(MAKE) -s probe 2>/dev/null\n\t@./nosuch x\n" + probe)
    checks.expect("a line that can't be started", last_lines(3, make(folder, "check")[2]), failed("check", is_unstarted=True))
    folder = project(at("or"), "all: a b\na:\n\t@$(MAKE) -s probe >/dev/null 2>&1 || echo no probe >&2\n\t@echo a >&2; exit 3\n" + probe + "b: ; @true\n")
    text = said("a", 3, "echo a >&2; exit 3", "no probe\na\n") + "make: *** [Makefile:4: a] Error 3\nmake: Target 'all' not remade because of errors.\n"
    checks.expect("a sub-make whose failure the shell handles", make(folder, "-k"), (2, "", text + failed("a")))
    folder = project(at("redirected"), "all: ; @$(MAKE) -s probe 2>/dev/null; exit 3\n" + probe)
    text = said("all", 3, "make -s probe 2>/dev/null; exit 3") + "make: *** [Makefile:1: all] Error 3\n"
    checks.expect("a sub-make whose output is redirected", make(folder), (2, "", text + failed("probe")))

    folder = project(at("deep"), "all:\n\t@$(MAKE) -s mid || :\n\t@$(MAKE) -s last\nmid: ; @$(MAKE) -s probe\nlast: ; @$(MAKE) -s cause\ncause: ; @echo cause >&2; exit 4\n" + probe)
    checks.expect("two levels", last_lines(2, make(folder, "-s")[2]), failed("cause"))
    folder = project(at("all"), "all: a b\na: ; @$(MAKE) -s probe || :\nb: a ; @$(MAKE) -s cause\ncause: ; @echo cause >&2; exit 4\n" + probe)
    checks.expect("a recipe that did not fail, and another", last_lines(2, make(folder, "-s")[2]), failed("cause"))
    folder = project(at("norule"), "all: a nope\na: ; @$(MAKE) -s probe 2>/dev/null || :\n" + probe)
    lines = ["only failures that seem to be ignored: redo-log probe; see make's own message", "show all logs: redo-log -r all"]
    checks.expect("only failures that are ignored", last_lines(2, make(folder, "-ks")[2]), "".join(f"redo-log-capture: {line}\n" for line in lines))

    folder = project(at("again"), "all: s1 s2\ns1: ; @$(MAKE) -s -f x.mk x X=1\ns2: s1; @$(MAKE) -s -f x.mk x\n")
    write(os.path.join(folder, "x.mk"), "x: ; @test -z \"$(X)\"\n")
    checks.expect("a target that fails in a sub-make", last_lines(3, make(folder, "-s")[2]), failed("x", is_empty=True))
    write(os.path.join(folder, "Makefile"), "all: s1 s2\ns1: ; @$(MAKE) -s -f x.mk x X=1\ns2: ; @$(MAKE) -s -f x.mk x\n")
    checks.expect("and is made by another one", last_lines(3, make(folder, "-ks")[2]), failed("x", is_empty=True))
    folder = project(at("colons"), "all: x\nx:: ; @echo one >&2; false\nx:: ; @echo two >&2\n")
    checks.expect("double-colon rules", last_lines(2, make(folder, "-k")[2]), failed("x"))
    text = said("x", 1, "echo one >&2; false", "one\n") + f"redo-log-capture: {printed_by('x')[0]}\n"
    checks.expect("double-colon rules of a build that succeeds", ran(folder, [TOOL, "make", "-is"]), (0, "", text))


# Makefiles with a failure that ends no recipe early, because the line is the last one, and the targets that are named. `clean`, `gen.mk` and
# `dep` fail, but their make goes on. This is known if it succeeds, executes itself again, or prints nothing while it remakes no makefile.
BELOW = "rebuild: ; @$(MAKE) -s%s && { echo bad.c >&2; exit 3; }\n"
INCLUDED = "gen.mk: ; @echo gen.mk >&2; false\n"
GOING_ON = {
    "-, in a sub-make that succeeds": (BELOW % " clean" + "clean: ; -@false\n", ["rebuild"]),
    "-, and a message about it": ((BELOW % " clean").replace(" -s", "") + "clean: ; -false\n", ["rebuild"]),
    ".IGNORE": (BELOW % " clean" + ".IGNORE: clean\nclean: ; @false\n", ["rebuild"]),
    "make -i": (BELOW % "i clean" + "clean: ; @false\n", ["rebuild"]),
    "a signal": (BELOW % " clean" + "clean: ; -@kill -9 $$$$\n", ["rebuild"]),
    "a command that isn't there": (BELOW % " clean" + "clean: ; -@./nosuch\n", ["rebuild"]),
    "two levels": (BELOW % " mid" + "mid: ; @$(MAKE) -s clean\nclean: ; -@false\n", ["rebuild"]),
    "-include": (BELOW % " CLEAN=1 mid" + "mid: ;\nifdef CLEAN\n-include gen.mk\nendif\n" + INCLUDED, ["rebuild"]),
    "another recipe": ("all: clean x\nclean: ; -@false\nx: clean ; @exit 3\n", ["x"]),
    "another recipe, and a command that isn't there": ("all: clean x\nclean: ; -@./nosuch\nx: clean ; @exit 3\n", ["clean", "x"]),
    "another recipe, after -include": ("-include gen.mk\nall: ; @exit 3\n" + INCLUDED, ["all", "gen.mk"]),
    "another recipe, and a goal needs what -include did without": ("all: x dep\n-include gen.mk\ngen.mk: dep ; @touch $@\ndep: ; @false\nx: ;\n", ["dep"]),
    "the same in a sub-make": ("sub: ; @$(MAKE) -s all\nall: x dep\nifdef MAKELEVEL\nifneq (0,$(MAKELEVEL))\n-include gen.mk\nendif\nendif\ngen.mk: dep ; @touch $@\ndep: ; @false\nx: ; @:\n", ["dep"]),
    "a makefile that is remade, and gen.mk again": ("-include gen.mk\ninclude a.mk\nall: ; @exit 3\na.mk: ; @touch a.mk\n" + INCLUDED, ["all", "gen.mk"]),
    "a makefile that is remade": ("ifndef MAKE_RESTARTS\n-include gen.mk\nendif\ninclude a.mk\nall: ; @exit 3\na.mk: ; @touch a.mk\n" + INCLUDED, ["all"]),
    "a makefile that is remade, and -k": ("MAKEFLAGS += -k\ninclude a.mk\n-include gen.mk\nall: ; @$(MAKE) -s x\nx: ; @exit 3\na.mk: ; @touch a.mk\n" + INCLUDED, ["gen.mk", "x"]),
    "-k": ("MAKEFLAGS += -k\nall: clean x\nclean: ; -@false\nx: ; @exit 3\n", ["x"]),
    "-k, and nothing is ignored": ("MAKEFLAGS += -k\nall: clean x\nclean: ; @false\nx: ; @exit 3\n", ["clean", "x"]),
    "-k for a sub-make that succeeds": (BELOW % "k clean tidy" + "clean tidy: ; -@false\n", ["rebuild"]),
    "a sub-make that fails": ("all: ; @$(MAKE) -s clean || { echo all >&2; exit 3; }\nclean: ; @false\n", ["clean"]),
    "a line that can't be started after it": ("all: ; @$(MAKE) -s clean && exec ./nosuch 2>/dev/null\nclean: ; -@false\n", ["all"]),
}


def ignored_last_lines(checks, at):
    """A target isn't named if its make ignored that the last line of its recipe failed, and that is known: the make went on."""
    for name, (makefile, names) in GOING_ON.items():
        told = ran(project(at(name), makefile), [TOOL, "make", "-s"])[2]
        found = re.search(r"^redo-log-capture: \d+ targets? failed: redo-log (.*)$", told, re.M)
        checks.expect(f"a failure that ends no recipe early, {name}", found and found[1].split(), names)
    script = "make -s clean; make -s x"
    told = ran(project(at("script"), "clean: ; -@false\nx: ; @exit 3\n"), [TOOL, "sh", "-c", script])[2]
    checks.expect("a make that succeeded, and another one", last_lines(3, told), failed("x", is_empty=True))
    # `a` fails in the first make, and succeeds in the second one.
    twice = "all: a b\na: ; @mkdir once 2>/dev/null && exit 1; echo a >&2\nb: ; @echo b >&2; exit 3\n"
    told = ran(project(at("again"), twice), [TOOL, "sh", "-c", "make -s; make -sk"])[2]
    checks.expect("a target that succeeds in the next make", last_lines(3, told), failed("b", printed=["a"]))
    told = ran(project(at("nothing"), twice), [TOOL, "sh", "-c", "make -s; make -s a nothing"])[2]
    line = "only failures that seem to be ignored: redo-log a; see sh's own message"
    checks.expect("a target that succeeds in the next make, which fails without a recipe", line in told, True)
    until = "all: ; @until $(MAKE) -s a; do :; done; echo all >&2; exit 9\n" + twice.partition("\n")[2]
    told = make(project(at("until"), until), "-s")[2]
    checks.expect("a target that succeeds in the next make of its recipe, which fails", last_lines(2, told), failed("all"))
    # The sub-make is killed, and the build isn't.
    told = make(project(at("killed"), "all: ; @$(MAKE) -s t\nt: ; @echo t >&2; kill $$PPID; exec sleep 60\n"), "-s")[2]
    checks.expect("a target whose make is killed", last_lines(2, told), failed("t"))

    # `b` begins its second line when make knows that `a` has failed, and fails then. make ends each recipe that has begun.
    wait = "until [ -e begun ]; do sleep 0.01; done"
    ended = f"until grep -q '@@ 3 a$' {CAPTURES}/log.1; do sleep 0.01; done"
    makefile = f"all: a b c\na: ; @{wait}; exit 3\nb:\n\t@touch begun; {ended.replace('$', '$$')}\n\t@exit $(B)\nc: ; @echo c >&2\n"
    for status, names in (("0", ["a"]), ("4", ["a", "b"])):
        told = make(project(at(f"begun{status}"), makefile), "-sj2", f"B={status}")[2]
        checks.expect(f"a line of a recipe that had begun, {status}", last_lines(3, told), failed(*names, is_empty=True))

    folder = project(at("head"), "all: lib\nlib: ; @$(MAKE) -s clean; $(MAKE) -s norule\nclean: ; -@false\n.PHONY: lib\n")
    text = said("lib", 2, "make -s clean; make -s norule", "make[1]: *** No rule to make target 'norule'.  Stop.\n")
    told = make(folder, "-s")[2]
    checks.expect("the block of a recipe whose second sub-make has no rule", text in told, True)
    checks.expect("a recipe whose second sub-make has no rule", last_lines(2, told), failed("lib"))


# A line of a recipe, and the command as redo-log-capture shows it: at most three lines and 240 bytes of it.
COMMANDS = {
    "a shell": ("@echo 'a  b' >&2; false", "echo 'a  b' >&2; false"),
    "no shell": ("@false 'a  b' c\\ d '' x=y", "false 'a  b' 'c d' '' x=y"),
    "several lines": ("@echo a >&2; \\\n\tfalse", "echo a >&2; \\\nfalse"),
    "240 bytes": ("@: " + "x" * 231 + "; false", ": " + "x" * 231 + "; false"),
    "241 bytes": ("@: " + "x" * 232 + "; false", ": " + "x" * 232 + "; fals .."),
    "a long line": ("@: " + "x" * 20000 + "; false", ": " + "x" * 238 + " .."),
    "three lines": ("@: a; \\\n\t: b; \\\n\tfalse", ": a; \\\n: b; \\\nfalse"),
    "four lines": ("@: a; \\\n\t: b; \\\n\t: c; \\\n\tfalse", ": a; \\\n: b; \\\n: c; \\ .."),
    "a long line without a shell": ("@false " + "it\\'s " * 50, "false " + "'it'\\''s' " * 23 + "'it' .."),
    **{f"a character that ends with byte {240 + over}": ("@: " + "x" * (238 - len(char.encode()) + over) + char + "; false",
       ": " + "x" * (238 - len(char.encode()) + over) + ("" if over else char) + " ..") for char in "\u00e9\u2013\U0001f600" for over in range(len(char.encode()))},
}


def failed_commands(checks, at):
    """The command that failed is shown below the line with the target."""
    for name, (line, command) in COMMANDS.items():
        told = make(project(at(name), f"all:\n\t{line}\n"))[2]
        checks.expect(f"a command that failed, {name}", told.startswith(f"redo-log-capture: all (exit 1)\n{command}\n"), True)
    folder = project(at("bash"), "SHELL = /usr/bin/env bash\n.SHELLFLAGS = -eu -o pipefail -c\nall: ; @false | true\n")
    checks.expect("a command that failed, another shell", make(folder)[2].startswith("redo-log-capture: all (exit 1)\nfalse | true\nmake: ***"), True)
    folder = project(at("kept lines"), ".ONESHELL:\nall:\n\t@: a\n\t: b\n\tfalse\n")
    checks.expect("three lines of one shell", make(folder)[2].startswith("redo-log-capture: all (exit 1)\n: a\n: b\nfalse\nmake: ***"), True)
    folder = project(at("missing"), "all: ; @./missing x\n")
    text = "make: ./missing: No such file or directory\nmake: *** [Makefile:1: all] Error 127\n"
    checks.expect("a command that isn't there", make(folder), (2, "", text + failed("all", is_unstarted=True)))
    checks.expect("a command that isn't there: its log", "@@ 127 all\n" in log_of(folder, "all"), True)


def directories(checks, at):
    """The first line of a block has the directory of the make, if that isn't the directory in which the build began."""
    below = "all: ; @echo warned >&2; exit $(E)\n"
    for name, place, shown_place in (("below", "a/b c", "a/b c"), ("outside", at("other"), at("other")), ("beside", at("base") + "2", at("base") + "2")):
        folder = project(at("base") if name == "beside" else at(name), f"top: ; @$(MAKE) -sC '{place}' E=$(E)\n")
        write(os.path.join(folder, place, "Makefile"), below)
        target = f"{shown_place}/all"
        told = make(folder, "-s", "E=3")[2]
        checks.expect(f"a make {name}", told.startswith(said(target, 3, "echo warned >&2; exit 3", "warned\n", shown_place)), True)
        told = make(folder, "-s", "E=0", options=["--live"])
        checks.expect(f"a make {name} that does not fail", told, (0, "", f"redo-log-capture: {target}, in {shown_place}\nwarned\n"))
    folder = project(at("up"), "x: ; @exit 3\n")
    write(os.path.join(folder, "sub/Makefile"), "../y: ; @exit 3\n")
    told = make(folder, "-sC", "sub")[2]
    checks.expect("a target above its make", told.startswith(said("y", 3, "exit 3", directory="sub")), True)


def long_blocks(checks, at):
    """A block that is longer than the memory that the process may have is printed in full, and without records."""
    count = 1_000_000
    makefile = f"all: x\nx: ; @seq -f 'line %09.0f of the output of this recipe' {count} >&2; $(MAKE) -s y; seq 3 >&2; exit 3\ny: ; @echo y >&2\n"
    folder = project(at("long"), makefile)
    limit = 40 << 20
    build = subprocess.run([TOOL, "make", "-s"], cwd=folder, env=environment(), capture_output=True, preexec_fn=lambda: resource.setrlimit(resource.RLIMIT_AS, (limit, limit)))
    lines = build.stderr.decode().split("\n")
    wanted = [f"line {number:09} of the output of this recipe" for number in range(1, count + 1)] + ["1", "2", "3", "make: *** [Makefile:2: x] Error 3"]
    checks.expect("a block that is longer than memory", (build.returncode, lines[2 : 2 + len(wanted)] == wanted, len(build.stderr) > limit), (2, True, True))
    checks.expect("its first lines", (lines[0], lines[1][:4]), ("redo-log-capture: x (exit 3)", "seq "))


def uncaptured(checks, at):
    """Recipes are captured with all settings of makefiles that they depend on."""
    makefile = "all: x y\nx y:\n\t@echo $@ >&2\n\t@echo $@ again >&2\n"
    for name, front in {"GPATH": "GPATH = .\n", "flags of single targets": "x y: .SHELLFLAGS = -ec\n", "MAKEFILES": "MAKEFILES = none\n"}.items():
        folder = project(at(name), front + makefile)
        checks.expect(f"{name}: make", make(folder), (0, "", ""))
        checks.expect(name, shown(folder, "all"), "redo  all\nredo    x\nx\nx again\nredo    y\ny\ny again\n")


def summaries(checks, at):
    """--summary FILE: a line for each target."""
    folder = project(at("some"), "all: a d/b\na: ; @sleep 0.3; exit $(A)\nd/b: ; @true\n")
    path = os.path.join(folder, "sum")
    write(path, "old\n")
    checks.expect("a summary: make", make(folder, "-k", "A=3", options=["--quiet", "--summary", "sum"])[0], 2)
    rows = [re.fullmatch(r"(\d+|-) (\d+\.\d{3}) (\d+) (.*) \d+\.\d{3} \d+\n", line).groups() for line in open(path, encoding="utf-8")]
    checks.expect("a summary", [(row[0], row[2], row[3]) for row in rows], [("3", "2", "a"), ("0", "3", "d/b")])
    checks.expect("its seconds", (0.3 <= float(rows[0][1]) < 30, float(rows[1][1]) < 30), (True, True))
    checks.expect("nothing else is left", sorted(os.listdir(folder)), [CAPTURES, "Makefile", "sum"])
    make(folder, "A=0", options=[f"--summary={path}"])
    checks.expect("it is replaced", [line.split()[0::3] for line in open(path, encoding="utf-8")], [["0", "a"], ["0", "d/b"]])
    told = "redo-log-capture: cannot write none/sum: Not a directory\n"
    write(os.path.join(folder, "none"), "")
    checks.expect("where it can't be", make(folder, "A=0", options=["--summary", "none/sum"]), (1, "", told))
    checks.expect("without a name", make(folder, options=["--summary="])[0::2], (2, "redo-log-capture: --summary: no file given\n"))

    # Only the first of two makes counts. `a` ends before `b` begins, and notes the time before its make begins.
    folder = project(at("twice"), "NOW = date +%s.%N >$@.time\nall: b\na: ; @$(NOW); $(MAKE) -s x\nb: a ; @$(NOW); sleep 0.1; $(MAKE) -s x\nx: ; @true\n")
    checks.expect("a target made twice: make", make(folder, options=["--summary", "sum"])[0], 0)
    seconds = {row.split()[3]: float(row.split()[1]) for row in contents(os.path.join(folder, "sum")).splitlines()}
    between = float(contents(os.path.join(folder, "b.time"))) - float(contents(os.path.join(folder, "a.time")))
    checks.expect(f"a target made twice, {seconds}, {between}", seconds["x"] <= between + 0.002, True)

    # Files beside it stay, even one that is a link.
    folder = project(at("beside"), "all: ; @true\n")
    for name in ("sum.new", "kept", "sum.tmp1"):
        write(os.path.join(folder, name), "mine\n")
    os.symlink("kept", os.path.join(folder, "sum.tmp0"))
    checks.expect("a summary beside others: make", make(folder, options=["--summary", "sum"]), (0, "", ""))
    path = os.path.join(folder, "sum")
    checks.expect("a summary beside others", (os.path.islink(path), contents(path).split()[0::3]), (False, ["0", "all"]))
    left = [CAPTURES, "Makefile", "kept", "sum", "sum.new", "sum.tmp0", "sum.tmp1"]
    checks.expect("a summary beside others: files", sorted(os.listdir(folder)), left)
    checks.expect("a summary beside others: what they have", {contents(os.path.join(folder, name)) for name in ("kept", "sum.new", "sum.tmp1")}, {"mine\n"})
    for number in range(2, 1000):
        write(os.path.join(folder, f"sum.tmp{number}"), "mine\n")
    checks.expect("no name is left", make(folder, options=["--summary", "sum"]), (1, "", "redo-log-capture: cannot write sum: File exists\n"))
    checks.expect("no name is left: files", len(os.listdir(folder)), len(left) + 998)


def summaries_to_descriptors(checks, at):
    """What a descriptor's file has stays: the summary follows, as the output of a shell's commands does."""
    folder = project(at("descriptors"), "all: ; @echo made\n")
    for name, before, shift, after in (
        ("/dev/stdout", "old\nfirst\nmade\n", ">>file", "last\n"),
        ("/dev/fd/1", "first\nmade\n", ">file", "last\n"),
        ("/dev/stderr", "old\n", "2>>file", ""),
        ("/dev/fd/7", "old\n", "7>>file", ""),
        ("/dev/fd/7", "", "7>file", ""),
        ("/dev/fd/10", "old\nfirst\nmade\n", "10>&1 >>file 10>&1", "last\n"),
    ):
        write(os.path.join(folder, "file"), "old\n")
        script = f"{{ echo first; {TOOL} --quiet --summary {name} make -s; echo last; }} {shift}"
        status = ran(folder, ["bash", "-c", script])[0]
        found = re.sub(r"^0 \d+\.\d{3} 1 all \d+\.\d{3} \d+\n", "ROW\n", contents(os.path.join(folder, "file")), flags=re.M)
        checks.expect(f"a summary to {name}, {shift}", (status, found), (0, before + "ROW\n" + after))
    status, out, _ = ran(folder, ["bash", "-c", f"{TOOL} --quiet --summary >(cat >&2) make -s 2>&1 | cat; {TOOL} --quiet --summary /dev/stdout make -s"])
    checks.expect("a summary to pipes", (status, [line.split()[0::3] for line in out.splitlines()]), (0, [["made"], ["made"], ["0", "all"]]))
    for name, closed in (("/dev/fd/7", "7>&-"), ("/dev/fd/0", "<Makefile"), ("/dev/fd/8", "8<Makefile")):
        told = ran(folder, ["bash", "-c", f"{TOOL} --quiet --summary {name} make {closed}"])
        checks.expect(f"a summary to {name}, {closed}", told, (1, "", f"redo-log-capture: cannot write {name}: Bad file descriptor\n"))
    checks.expect("what it would have overwritten", contents(os.path.join(folder, "Makefile")), "all: ; @echo made\n")


class Watched:
    """A build with --progress=1, and the lines that it has printed."""

    def __init__(self, folder, command):
        self.go, self.began, self.lines = os.path.join(folder, "go"), time.monotonic(), []
        command = [TOOL, "--progress=1", *command]
        self.build = subprocess.Popen(command, cwd=folder, env=environment(), stderr=subprocess.PIPE, text=True, preexec_fn=of_a_terminal)

    def line(self, pattern):
        """Waits for a line, without its seconds."""
        for line in self.build.stderr:
            self.lines.append(line)
            if re.search(pattern, line):
                return re.sub(r"for \d+ s", "for N s", line.removeprefix("redo-log-capture: ").rstrip("\n"))
        return None

    def end(self):
        """Returns the status, and whether there were at most as many lines as seconds."""
        write(self.go, "")
        rest = self.build.communicate(timeout=60)[1].splitlines(keepends=True)
        count = sum("running" in line or "at present" in line for line in self.lines + rest)
        return self.build.returncode, count <= time.monotonic() - self.began


def progress(checks, at):
    """--progress: a line every so many seconds about what was made, failed and runs, and how many targets the last run had."""
    wait = "until [ -e go ]; do sleep 0.01; done"
    makefile = f"all: a b c d\na: ; @true\nb: ; @exit 3\nc: ; @sleep 0.1; {wait}\nd: ; @$(MAKE) -s -f d.mk\n"
    folder = project(at("some"), makefile)
    write(os.path.join(folder, "d.mk"), f"e: ; @sleep 0.2; {wait}\n")
    watched = Watched(folder, ["make", "-skj4"])
    checks.expect("progress", watched.line("1 made, 1 failed, 2 running"), "1 made, 1 failed, 2 running, c for N s")
    checks.expect("progress: the end", watched.end(), (2, True))
    os.remove(watched.go)
    watched = Watched(folder, ["make", "-skj4", "c"])
    checks.expect("progress of another run", watched.line("1 running"), "0 made, 0 failed, 1 running, c for N s; last run: 5")
    os.killpg(watched.build.pid, signal.SIGKILL)
    watched.build.wait()
    watched = Watched(folder, ["make", "-skj4", "d"])
    checks.expect("progress of a run after one that was killed", watched.line("1 running"), "0 made, 0 failed, 1 running, e for N s; last run: 1")
    checks.expect("progress: its end", watched.end(), (0, True))
    os.remove(watched.go)
    watched = Watched(folder, ["sh", "-c", wait])
    checks.expect("progress without a recipe", watched.line("present"), "no recipe is captured at present")
    checks.expect("progress without a recipe: the end", watched.end(), (0, True))
    checks.expect("a short build", ran(folder, [TOOL, "--progress", "make", "-s", "a"]), (0, "", ""))
    for seconds in ("0", "86401", "1.5", "", "-1", "99999999999"):
        text = f"redo-log-capture: --progress: not a number of seconds from 1 to 86400: {seconds}\n"
        checks.expect(f"--progress={seconds}", ran(folder, [TOOL, f"--progress={seconds}", "make"]), (2, "", text))


def signal_group(group, kind):
    """Sends a signal to all processes of a group. They are stopped until all have it, so none sees another one end before."""
    for each in (signal.SIGSTOP, kind, signal.SIGCONT):
        os.killpg(group, each)


def interrupted(checks, at):
    """Targets that ran when a build was interrupted or killed are named, and aren't reported as failed."""
    makefile = "all: a b c\na: ; @exit $(A)\nb c: a ; @touch begun.$@; exec sleep 60\n"
    for kind, what in ((signal.SIGINT, "interrupted by SIGINT"), (signal.SIGTERM, "interrupted by SIGTERM"), (signal.SIGHUP, "interrupted by SIGHUP")):
        for to in ("group", "front") if kind == signal.SIGTERM else ("group",):
            folder = project(at(f"{kind.name}{to}"), makefile)
            command = [TOOL, "--summary", "sum", "make", "-sj3", "A=0"]
            build = subprocess.Popen(command, cwd=folder, env=environment(), stderr=subprocess.PIPE, text=True, preexec_fn=of_a_terminal)
            wait_for(os.path.join(folder, "begun.b"))
            wait_for(os.path.join(folder, "begun.c"))
            (signal_group if to == "group" else os.kill)(build.pid, kind)
            told = build.communicate(timeout=30)[1]
            own = [re.sub(r"\d+\.\d s", "N s", line) for line in told.splitlines() if line.startswith("redo-log-capture")]
            lines = [f"{what}; running: b (N s), c (N s)", "show all logs: redo-log -r all"]
            checks.expect(f"{kind.name} to the {to}", own, [f"redo-log-capture: {line}" for line in lines])
            rows = [line.split()[0::3] for line in open(os.path.join(folder, "sum"), encoding="utf-8")]
            checks.expect(f"{kind.name} to the {to}: the summary", [row[1] for row in rows], ["a", "b", "c"])
    folder = project(at("ignored"), "all: ; @touch begun; until [ -e go ]; do sleep 0.01; done; echo all >&2; exit 3\n")
    command = [TOOL, "sh", "-c", "trap '' HUP; make -s; exit 4"]
    build = subprocess.Popen(command, cwd=folder, env=environment(), stderr=subprocess.PIPE, text=True, preexec_fn=of_a_terminal)
    wait_for(os.path.join(folder, "begun"))
    os.killpg(build.pid, signal.SIGHUP)
    write(os.path.join(folder, "go"), "")
    told = build.communicate(timeout=60)[1]
    checks.expect("a signal that the build ignores", (build.returncode, told.splitlines()[-2:]), (4, failed("all").splitlines()))
    folder = project(at("killed"), "all: a b\na: ; @touch begun; exec sleep 60\nb: ; @echo b >&2; exit 3\n")
    build = subprocess.Popen([TOOL, "make", "-skj2"], cwd=folder, env=environment(), stderr=subprocess.PIPE, text=True, preexec_fn=of_a_terminal)
    wait_for(os.path.join(folder, "begun"))
    wait_until("b has failed", lambda: "@@ 3 b" in log_of(folder, "all"))
    os.kill(int(subprocess.run(["pgrep", "-P", str(build.pid), "-x", "make"], capture_output=True, text=True).stdout), signal.SIGKILL)
    told = build.communicate(timeout=30)[1]
    own = [re.sub(r"\d+\.\d s", "N s", line) for line in told.splitlines()[-3:]]
    lines = ["make was ended by SIGKILL; running: a (N s)", "1 target failed: redo-log b", "show all logs: redo-log -r all"]
    checks.expect("make is killed", (build.returncode, own), (-signal.SIGKILL, [f"redo-log-capture: {line}" for line in lines]))
    os.killpg(build.pid, signal.SIGKILL)


def refused_directories(checks, at):
    """A directory that can't be written is reported before anything is started."""
    folder = project(at("refused"), "all: ; @touch $(TO)\n")
    text = "redo-log-capture: cannot write {}: {}\n".format
    checks.expect("below a file", make(folder, options=["--dir", "Makefile/x"]), (1, "", text("Makefile/x", "Not a directory")))
    checks.expect("a file", make(folder, options=["--dir", "Makefile"]), (1, "", text("Makefile", "Not a directory")))
    os.makedirs(os.path.join(folder, "locked/old/.capture"))
    os.chmod(os.path.join(folder, "locked/old"), 0o555)
    os.chmod(os.path.join(folder, "locked"), 0o555)
    modes = {0o444: "write", 0o222: "read"}
    files = [("names", 0o444), ("names", 0o222), (".capture/lock", 0o444), (".capture/lock", 0o222), (".capture/run", 0o222)]
    kept = [(f"open/{number}", *file) for number, file in enumerate(files)]
    for directory, name, mode in kept:
        os.makedirs(os.path.join(folder, directory, ".capture"))
        write(os.path.join(folder, directory, name), "1 all\n")
        os.chmod(os.path.join(folder, directory, name), mode)
    for path in ("open", *(f"{directory}{below}" for directory, _, _ in kept for below in ("", "/.capture"))):
        os.chmod(os.path.join(folder, path), 0o777)
    os.chmod(PREFIX, 0o755)
    nobody = (lambda: os.setuid(65534)) if os.getuid() == 0 else None

    def answer(directory, *words):
        command = [TOOL, "--dir", directory, "make", "TO=open/made", *words]
        done = subprocess.run(command, cwd=folder, env=environment(), capture_output=True, text=True, preexec_fn=nobody)
        return done.returncode, done.stderr

    for directory in ("locked/new", "locked/old", "locked/new/deep"):
        checks.expect(f"no leave to write {directory}", answer(directory), (1, text(directory, "Permission denied")))
    for directory, name, mode in kept:
        told = f"redo-log-capture: cannot {modes[mode]} {directory}/{name}: Permission denied\n"
        checks.expect(f"no leave to {modes[mode]} {name}", answer(directory), (1, told))
    checks.expect("nothing was made", os.path.exists(os.path.join(folder, "open/made")), False)
    checks.expect("leave to write another one", (answer("open/new"), os.path.exists(os.path.join(folder, "open/made"))), ((0, ""), True))

    device = [TOOL, "--dir", "open/new", "--summary", "/dev/null", "make", "TO=open/made"]
    done = subprocess.run(device, cwd=folder, env=environment(), capture_output=True, text=True, preexec_fn=nobody)
    checks.expect("no leave to write the directory of a device", (done.returncode, done.stderr), (0, ""))

    os.mkdir(os.path.join(folder, "own"))
    os.chown(os.path.join(folder, "own"), *((65534, 65534) if nobody else (-1, -1)))
    write(os.path.join(folder, "late.mk"), "$(shell chmod a-w own)\nall: ; @echo said >&2\n")
    status, told = answer("own/late", "-s", "-f", "late.mk")
    checks.expect("leave is lost before the first recipe", (status, told.splitlines()[:2]), (1, [text(f"{folder}/own/late", "Permission denied").strip(), "said"]))

    write(os.path.join(folder, "lost.mk"), "all: x y\nx: ; @chmod -R a-w open/lost\ny: x ; @echo y >&2; touch $(TO) $(TO).too; exit $(Y)\n")
    for status in (0, 3):
        told = answer("open/lost", "-f", "lost.mk", f"Y={status}")
        lines = [line for line in told[1].splitlines() if not line.startswith("redo-log-capture: cannot write ")]
        checks.expect(f"leave is lost in the middle, {status}", (told[0], lines[0]), (2 if status else 1, "y"))
        checks.expect(f"what is made then, {status}", os.path.exists(os.path.join(folder, "open/made.too")), True)
        subprocess.run(["chmod", "-R", "u+w", os.path.join(folder, "open/lost")], check=True)


PARTS = (
    what_failed, below, heads_of_parents, ignored_failures, ignored_last_lines, failed_commands, live, last_words, printed_something, interrupted, progress, summaries,
    summaries_to_descriptors, uncaptured,
    refused_directories, directories,
)  # fmt: skip
# The parts that sanitizers can't run.
WITHOUT_SANITIZERS = (long_blocks,)
