"""The makefile that each make of a captured build reads first doesn't change what make does: the same builds with and without redo-log-capture, by
make and by the make that MAKE44 names."""
import os

from builds import PREFIX
from invisible import DUMP, OTHER_ORIGINS, Case, same

EXTRA = ".EXTRA_PREREQS := tool\nall: ; @echo all\n"
TOOL_RULE = "tool: ; @echo building tool; touch tool\n"
EXTRA_THAT_FAILS = ".EXTRA_PREREQS := none\nnone: ; @echo cannot; false\nhelp: .EXTRA_PREREQS =\nhelp: ; @echo help\n"
LIST = "$C $M {}; echo $?; ls"
PREREQUISITES = {
    **{f"{flag} with .EXTRA_PREREQS": Case(EXTRA + TOOL_RULE, LIST.format(flag), is_uncaptured=True) for flag in ("-n", "-q", "-t", "-n -B")},
    "-n with .EXTRA_PREREQS of the command line": Case("all: ; @echo all\n" + TOOL_RULE, LIST.format("-n .EXTRA_PREREQS=tool"), is_uncaptured=True),
    "-n with .EXTRA_PREREQS of --eval": Case("all: ; @echo all\n" + TOOL_RULE, LIST.format("-n --eval=.EXTRA_PREREQS=tool"), is_uncaptured=True),
    ".EXTRA_PREREQS that one target resets": Case(EXTRA_THAT_FAILS, "$C $M help"),
    ".EXTRA_PREREQS, made again": Case(EXTRA + TOOL_RULE, "$C $M; touch -d 'next year' tool; $C $M; $C $M -B", logs="redo  all\nredo    tool\n"),
}

SEEN = "[$(MAKEFILE_LIST)] [$(MAKEFILES)] [$(.LOADED)] $(flavor MAKEFILE_LIST) $(origin MAKEFILE_LIST) $(flavor MAKEFILES)"
TWO_MAKES = {"Makefile": f"all: ; @echo {SEEN}; $(MAKE) -s -f below.mk; true\n", "below.mk": f"x: ; @echo below {SEEN}; true\n"}
PREFIXES = [f"--eval='.RECIPEPREFIX={character}'" for character in "%$/#-eiur>M:"] + ["'.RECIPEPREFIX=%'", "'.RECIPEPREFIX=$'"]
EVALS = [".SECONDEXPANSION:", ".POSIX:", ".ONESHELL:", ".EXPORT_ALL_VARIABLES:", ".DEFAULT: ; echo default", "%: ;", "%:: ; echo any", "export", "unexport"]
FLAGS = [
    "MAKEFILE_LIST=all", "MAKEFILE_LIST=", "-e", "-e MAKEFILE_LIST=x", "MAKE_RESTARTS=3", "SHELL=/bin/bash", "--warn-undefined-variables", "-R -r", "-B",
    "--trace", "--debug=b", "-j2 -Otarget", "-w", "-k -i", "-s", *PREFIXES, *(f"--eval='{line}'" for line in EVALS),
]  # fmt: skip
COMMAND_LINES = {f"{number}: make {flags}": Case(None, f"$C $M {flags}", files=TWO_MAKES) for number, flags in enumerate(FLAGS)}
COMMAND_LINES["a space as prefix"] = Case(None, "$C $M --eval='.RECIPEPREFIX:=$(subst x,,x x)'", files=TWO_MAKES, is_uncaptured=True)
COMMAND_LINES["make MAKEFILES="] = Case(None, "$C $M MAKEFILES=", files=TWO_MAKES, is_uncaptured=True)

PRE = "MAKEFILES = $(CURDIR)/pre.mk\nall: ; @echo $(X) [$(MAKEFILES)]; $(MAKE) -s -f below.mk; true\n"
PRE_FILES = {"pre.mk": "X = pre\n", "other.mk": "X = other\n", "below.mk": "x: ; @echo below $(X) [$(MAKEFILES)]; true\n"}
GUARD = "ifneq ($(MAKEFILES),)\n$(error MAKEFILES is set)\nendif\nall: ; @echo all; $(MAKE) -s x\nx: ; @echo x\n"
EXPORTS = ".EXPORT_ALL_VARIABLES:\n" + TWO_MAKES["Makefile"]
REMADE = f"-include made.mk\nall: ; @echo $(Y) {SEEN}; $(MAKE) -s -f below.mk; true\nmade.mk: ; @echo 'Y=1' >made.mk\n"
OF_CAPTURE = "CAPTURE_RUN redo-log-def redo-log-so redo-log-loaded redo-log-recipe-number"
GONE = f"$(foreach v,{OF_CAPTURE},$(info $v $(origin $v)))$(info $(filter redo-log%,$(.VARIABLES)))\nall: ; @echo all; true\n"
LISTED = "all: ; @env | cut -d = -f 1 | grep -v -x -e MAKEFILES -e CAPTURE_RUN | sort\n"
NAMED = "redo-log-capture = /opt/redo-log-capture\nall: ; @echo $(redo-log-capture); env | grep ^redo-log; true\n"
BEFORE = "all: ; @echo $(X) [$(strip $(MAKEFILE_LIST))] [$(strip $(MAKEFILES))]; true\n"
WAYS = {"": "$C $M", ", with -e": "$C $M -e", ", with -e in MAKEFLAGS": "MAKEFLAGS=-e $C $M"}
VARIABLES = {
    **{
        f"{what}{way}": Case(makefile, f"{{ {more}; }}; {run}", files=files, out=out)
        for way, run in WAYS.items()
        for what, makefile, more, files, out in (
            ("MAKEFILES of a makefile", PRE, ":", PRE_FILES, "cat"),
            ("MAKEFILES of the environment", PRE, "export MAKEFILES=$PWD/other.mk", PRE_FILES, "cat"),
            ("MAKEFILES that is exported", "export MAKEFILES\n" + PRE, ":", PRE_FILES, "cat"),
            ("MAKEFILES that must not be set", GUARD, ":", {}, "cat"),
            ("all variables are exported", EXPORTS, ":", TWO_MAKES, "cat"),
            ("all variables are exported, and MAKEFILE_LIST is set", EXPORTS, "export MAKEFILE_LIST=none", TWO_MAKES, "cat"),
            ("a makefile that is remade", REMADE, ":", TWO_MAKES, "cat"),
            ("the variables of the capture", GONE, ":", {}, "cat"),
            ("the variables of recipes", LISTED, ":", {}, "cat"),
            ("a variable named redo-log-capture", NAMED, ":", {}, "cat"),
            ("a variable named redo-log-capture that is exported", "export redo-log-capture\n" + NAMED, ":", {}, "cat"),
            ("all variables", f"{DUMP}\nall: ; @echo built\n", "export MAKEFILE_LIST=none", {}, OTHER_ORIGINS),
        )
    },
    "a variable of the command line named redo-log-capture": Case(NAMED, "$C $M redo-log-capture=x"),
    "a script that puts a makefile before": Case(BEFORE, "MAKEFILES=$PWD/pre.mk; $C sh -c 'MAKEFILES=\"$PWD/pre.mk $MAKEFILES\" '$M", files=PRE_FILES),
}


# Rules that make any file: a terminal one, and others, which make doesn't try for files whose suffix it knows. With -r it knows none.
ANYTHING = {"a terminal rule": ("%:: FORCE", ""), "a rule, with -r": ("%: FORCE", " -r"), "a rule": ("%: FORCE", "")}
OWN = f"cp -a {PREFIX}/. own"
BY_OWN = "${C:+own/bin/redo-log-capture --live} $M"
LIBEXEC = "own/libexec/redo-log"
OF_X = "redo  all\nredo    x\n"


def forwarding(recipe, rule, flags):
    """The makefiles of a build whose recipe runs a make with a rule that makes any file."""
    below = f"x: ; @echo x; true\n{rule} ; @echo making $@\nFORCE: ;\nbelow.mk: ;\n"
    return {"Makefile": f"all: ; @{recipe} $(MAKE) -s{flags} -f below.mk x\n", "below.mk": below}


def unreadable(run, recipe="", **more):
    """A build for each of these rules."""
    return {name: Case(None, run, files=forwarding(recipe, *rule), **more) for name, rule in ANYTHING.items()}


NOT_LOADED = {"setup": f"{OWN}; : >{LIBEXEC}/capture.so", "err": "grep -v 'recipes are not captured'", "is_uncaptured": True}
PRIVATE = {"setup": f"{OWN}; chmod 700 own; mkdir tmp; chmod 755 .", "needs": "other-users", "logs": OF_X}
INSTALLED = {
    "other users can't read it": unreadable(f"TMPDIR=$PWD/tmp {BY_OWN}; ls tmp", "setpriv --reuid=65534 --clear-groups", **PRIVATE),
    "other users can't read TMPDIR either": unreadable(f"TMPDIR=$PWD/own {BY_OWN}", "setpriv --reuid=65534 --clear-groups", **PRIVATE),
    "nor can programs be loaded from TMPDIR": unreadable(
        f'unshare -m sh -c "mount -t tmpfs -o noexec none tmp; TMPDIR=$PWD/tmp {BY_OWN}"', **{**PRIVATE, "needs": "mounting"}
    ),
    "make can't load capture.so": unreadable(f"{BY_OWN} -s -f below.mk x", **NOT_LOADED),
    "capture.so is removed": unreadable(BY_OWN, f"rm -f {LIBEXEC}/capture.so;", **{**NOT_LOADED, "setup": OWN}),
    "it is removed": {"a rule": unreadable(BY_OWN, "rm -rf own;", setup=OWN)["a rule"]},
    "another root directory": {
        "a rule": unreadable(BY_OWN, "unshare -m sh -c 'mount -t tmpfs none own && exec \"$$@\"' mounted", setup=OWN, needs="mounting")["a rule"]
    },
    "a capture by another one": {
        "within": Case("all: ; @$(TOOL) --quiet --dir in $(MAKE) -s x; true\nx: ; @echo x; true\n", f"{BY_OWN} TOOL=$TOOL", setup=OWN),
    },
}
INSTALLATIONS = {f"what is installed: {what}: {name}": case for what, cases in INSTALLED.items() for name, case in cases.items()}


def makes():
    """make, and the make that MAKE44 names if it is another one."""
    return dict.fromkeys(("make", os.environ.get("MAKE44", "make")))


def by_each_make(cases):
    def part(checks, at):
        for make in makes():
            same(checks, lambda name: at(os.path.join(os.path.basename(os.path.dirname(make)) or "first", name)), cases, make)

    return part


def prerequisites(checks, at):
    by_each_make(PREREQUISITES)(checks, at)


def command_lines(checks, at):
    by_each_make(COMMAND_LINES)(checks, at)


def variables(checks, at):
    by_each_make(VARIABLES)(checks, at)


def installations(checks, at):
    by_each_make(INSTALLATIONS)(checks, at)


PARTS = (prerequisites, command_lines, variables, installations)
