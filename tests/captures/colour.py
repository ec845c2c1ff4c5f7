"""--colour: standard error of each recipe is a terminal. What recipes print there arrives unchanged, and the build doesn't notice more."""
import contextlib
import fcntl
import os
import pty
import re
import select
import shutil
import struct
import subprocess
import sys
import termios
import time
import tty

from builds import TOOL, make, of_a_terminal, project, ran, shown, text_of, wait_for, wait_until, without_printed, write
from checks import CAPTURES, contents, environment

ALWAYS = ["--colour=always"]
MOST = 60  # seconds for one build
# Prints whether standard error is a terminal.
ASKS = "test -t 2 && echo terminal >&2 || echo none >&2"


def set_size(terminal, rows, columns):
    fcntl.ioctl(terminal, termios.TIOCSWINSZ, struct.pack("HHHH", rows, columns, 0, 0))


class Terminal:
    """A command whose standard error is a terminal of its own. `is_controlling`: it is the controlling terminal of the command's session,
    and all its standard files."""

    def __init__(self, folder, command, more=None, size=(24, 80), is_controlling=False):
        self.reader, end = pty.openpty()
        tty.setraw(end)
        set_size(end, *size)
        files = {"stdin": end, "stdout": end, "stderr": end} if is_controlling else {"stdin": subprocess.DEVNULL, "stdout": subprocess.DEVNULL, "stderr": end}

        def before():
            if is_controlling:
                of_a_terminal()
                fcntl.ioctl(end, termios.TIOCSCTTY, 0)

        self.process = subprocess.Popen(command, cwd=folder, env=environment(more), preexec_fn=before, **files)
        os.close(end)
        self.text = b""

    def end(self):
        """Returns the status, and what arrived at the terminal."""
        limit = time.monotonic() + MOST
        with contextlib.suppress(OSError):  # at the end
            while time.monotonic() < limit and select.select([self.reader], [], [], limit - time.monotonic())[0]:
                self.text += os.read(self.reader, 65536)
        os.close(self.reader)
        return self.process.wait(timeout=MOST), self.text


def log_bytes(folder, name):
    """The bytes of the text lines of a target's log."""
    with open(os.path.join(folder, CAPTURES, "names"), encoding="utf-8") as names:
        numbers = {line.rstrip("\n").split(" ", 1)[1]: line.split(" ", 1)[0] for line in names}
    with open(os.path.join(folder, CAPTURES, "log." + numbers[name]), "rb") as log:
        return b"".join(line for line in log.read().splitlines(keepends=True) if not line.startswith(b"@@REDO:"))


CODES = bytes(byte for byte in range(256) if byte != ord("\n"))
TEXTS = {
    "each byte": b"".join(bytes([byte]) + b"\n" for byte in CODES),
    "all bytes in a line": CODES + b"\n",
    "ends of lines": b"a\r\nb\n\rc\r\rd\n\n\n\r\n",
    "signals and flow control": b"\x03\x1c\x1a\x04\x13\x11\x15\x16\x17\x12\x0f\x7f\x00\n" * 3,
    "sequences": b"\x1b[01m\x1b[K\x1b]8;;https://x.y/z\x07w\x1b]8;;\x1b\\\x1b[c\x1b[6n\x05\x1b[?1049h\x1b(0\n",
    "a long line": b"0123456789" * 100000 + b"\n",
}
WAYS = {"cat": "cat $(1) >&2", "at once": f"{sys.executable} -c 'import os; b = open(\"$(1)\", \"rb\").read(); assert os.write(2, b) == len(b)'",
        "byte by byte": "dd if=$(1) bs=1 status=none >&2", "opened": "cat $(1) >/dev/stderr"}  # fmt: skip


def bytes_unchanged(checks, at):
    """What a recipe prints is what its log has: nothing is added, interpreted, answered or lost."""
    names = [(text, way) for text in range(len(TEXTS)) for way in range(len(WAYS)) if (list(TEXTS)[text], list(WAYS)[way]) != ("a long line", "byte by byte")]
    makefile = "".join(f"w{number} = {way}\n" for number, way in enumerate(WAYS.values())) + "all:"
    makefile += "".join(f" x{text}.{way}" for text, way in names) + "\n"
    makefile += "".join(f"x{text}.{way}: ; @$(call w{way},text{text})\n" for text, way in names)
    folder = project(at("all"), makefile)
    for number, text in enumerate(TEXTS.values()):
        with open(os.path.join(folder, f"text{number}"), "wb") as file:
            file.write(text)
    checks.expect("bytes: make", make(folder, "-j4", options=ALWAYS), (0, "", ""))
    for text, way in names:
        what = f"bytes: {list(TEXTS)[text]}, {list(WAYS)[way]}"
        checks.expect(what, log_bytes(folder, f"x{text}.{way}") == list(TEXTS.values())[text], True)
    folder = project(at("failed"), "all: ; @printf 'a\\033[1mb\\r\\nunended' >&2; exit 3\n")
    told = subprocess.run([TOOL, *ALWAYS, "make"], cwd=folder, env=environment(), capture_output=True).stderr
    block = b"redo-log-capture: all (exit 3)\nprintf 'a\\033[1mb\\r\\nunended' >&2; exit 3\na\x1b[1mb\r\nunended\nmake: *** "
    checks.expect("bytes of a recipe that failed", told[: len(block)], block)


SOURCES = {
    "warned.c": "int f(int a) { int unused; return a; }\n",
    "wrong.c": "int f(void) { return 1 }\nint g(void) { return undeclared; }\n",
    "format.c": '#include <stdio.h>\nint main(void) { printf("%d é\\n", "x"); return 0; }\n',
    "linked.c": "int missing(void);\nint main(void) { return missing(); }\n",
}
COMPILED = """all: warned.o wrong.o format.o linked
%.o: %.c ; @$(CC) -Wall -Wextra $(FLAGS) -fdiagnostics-color=auto -c -o $@ $<
linked: linked.c ; @$(CC) $(FLAGS) -fdiagnostics-color=auto -o $@ $<
"""
LINKS = re.compile(rb"\x1b\]8;;https?://[^\x07\x1b]*(?:\x07|\x1b\\)")


def compilers(checks, at):
    """Compilers print to a captured recipe what they print to a terminal of the same size: colours and links too."""
    for compiler, flags, urls in (("gcc", "", "bel"), ("gcc", "-fdiagnostics-urls=auto", "st"), ("clang", "", "")):
        if not shutil.which(compiler):
            print(f"captures: {compiler} is left out: it isn't installed")
            continue
        folder, variables = at(f"{compiler}{urls}"), {"TERM": "xterm-256color", "TERM_URLS": urls, "CC": compiler, "FLAGS": flags}
        for name, text in SOURCES.items():
            write(os.path.join(folder, name), text)
        project(folder, COMPILED)
        targets = ["warned.o", "wrong.o", "format.o", "linked"]
        plain = {target: Terminal(folder, ["make", "-s", "-B", target], variables).end() for target in targets}
        status = make(folder, "-B", "-k", "-j4", options=ALWAYS + ["--quiet"], more=variables)[0]
        checks.expect(f"{compiler}: make", status, 2)
        for target in targets:
            text = log_bytes(folder, target)
            others = re.sub(rb"(?m)^make: \*\*\* .*\n", b"", plain[target][1])
            without_names = [re.sub(rb"/tmp/cc\w+\.o|/tmp/\w+-\w+\.o", b"OBJECT", each) for each in (text, others)]
            checks.expect(f"{compiler} {urls}: {target}", without_names[0], without_names[1])
        text = b"".join(log_bytes(folder, target) for target in targets)
        checks.expect(f"{compiler} {urls}: colours", (b"\x1b[" in text, b"\r" in text), (True, False))
        if urls:
            checks.expect(f"{compiler}: links that end with {urls}", bool(LINKS.search(text)), True)
        make(folder, "-B", "-k", options=["--quiet"], more=variables)
        checks.expect(f"{compiler}: no colours without the option", b"\x1b" in b"".join(log_bytes(folder, target) for target in targets), False)


def much(checks, at):
    """Nothing is lost when a recipe ends directly after it has printed much, alone or beside others."""
    count = 60000
    folder = project(at("large"), f"all: 0 1 2 3\n0 1 2 3: ; @seq -f '$@ line %012.0f' {count} >&2\n")
    checks.expect("a megabyte: make", make(folder, "-j4", options=ALWAYS), (0, "", ""))
    for name in "0123":
        text = "".join(f"{name} line {number:012}\n" for number in range(1, count + 1))
        checks.expect(f"a megabyte: {name}", (len(text) > 1 << 20, text_of(folder, name) == text), (True, True))
    # More than a terminal passes on at once, less than it contains, and about that much.
    sizes = [1, 4094, 4095, 4096, 4097, 8191, 8192, 8193, 12287, 12288, 12289, 16384, 20000, 65535, 65536, 65537]
    lines = "".join(f"\t@head -c {size} /dev/zero | tr '\\0' x >&2; echo >&2\n" for size in sizes for _ in range(5))
    folder = project(at("sizes"), "all: a b c d\na b c d:\n" + lines)
    checks.expect("sizes: make", make(folder, "-j4", options=ALWAYS), (0, "", ""))
    for name in "abcd":
        checks.expect(f"sizes: {name}", [len(line) for line in text_of(folder, name).splitlines()], [size for size in sizes for _ in range(5)])
    folder = project(at("unended"), "all:\n" + "".join(f"\t@printf {number} >&2\n" for number in range(100)))
    checks.expect("unended lines: make", make(folder, options=ALWAYS), (0, "", ""))
    checks.expect("unended lines", text_of(folder, "all"), "".join(f"{number}\n" for number in range(100)))
    names = " ".join(f"t{number}" for number in range(200))
    folder = project(at("many"), f"all: {names}\n{names}: ; @echo $@ begins >&2; head -c 6000 /dev/zero | tr '\\0' x >&2; echo $@ ends >&2; exit $(X)\n")
    for words, status in (("X=0", 0), ("X=3", 2)):
        checks.expect(f"200 recipes, {words}: make", make(folder, "-kj8", words, options=ALWAYS + ["--quiet"])[0], status)
        wanted = [f"{name} begins\n{'x' * 6000}{name} ends\n" for name in names.split()]
        checks.expect(f"200 recipes, {words}", [text_of(folder, name) for name in names.split()] == wanted, True)


def background(checks, at):
    """Processes that a recipe leaves behind: make doesn't wait for them, and they can print as long as they want."""
    makefile = "all: a b\na: ; @{ until [ -e go ]; do sleep 0.01; done; echo late >&2; touch end; } >/dev/null & echo now >&2\nb: a ; @touch go; until [ -e end ]; do sleep 0.01; done\n"
    folder = project(at("during"), makefile)
    checks.expect("background: make", make(folder, options=ALWAYS), (0, "", ""))
    checks.expect("background", text_of(folder, "a"), "now\nlate\n")

    folder = project(at("after"), "all: ; @{ until [ -e go ]; do sleep 0.01; done; seq 30000 >&2 && echo more >&2 && touch lived; } >/dev/null & echo all >&2\n")
    done = subprocess.run([TOOL, *ALWAYS, "make"], cwd=folder, env=environment(), stdin=subprocess.DEVNULL, capture_output=True, text=True, timeout=MOST)
    checks.expect("a process that goes on: make", (done.returncode, done.stdout, without_printed(done.stderr)), (0, "", ""))
    write(os.path.join(folder, "go"), "")
    wait_for(os.path.join(folder, "lived"))
    checks.expect("a process that goes on", text_of(folder, "all"), "all\n")
    # The process that reads for it ends when it has ended, and doesn't use the processor meanwhile.
    folder = project(at("ends"), "all: ; @{ touch begun; until [ -e go ]; do sleep 0.01; done; } >/dev/null & echo $$CAPTURE_RUN >&2\n")
    with open(os.path.join(folder, "told"), "wb") as told:
        build = subprocess.Popen([TOOL, *ALWAYS, "make"], cwd=folder, env=environment(), stdin=subprocess.DEVNULL, stdout=told, stderr=told, preexec_fn=os.setsid)
    wait_for(os.path.join(folder, "begun"))
    checks.expect("the last reader: make", build.wait(timeout=MOST), 0)
    readers = lambda: [pid for pid in os.listdir("/proc") if pid.isdigit() and is_reader_of(pid)]
    wait_until("the reader runs", lambda: len(readers()) == 1)
    reader = readers()[0]
    write(os.path.join(folder, "go"), "")
    wait_until("the reader has ended", lambda: not is_reader_of(reader))
    checks.expect("the last reader has ended", readers(), [])

    # A process of another group may not write to its controlling terminal: it stops.
    folder = project(at("stopped"), f"all: ; @echo said >&2; {ASKS}\n")
    script = f"stty tostop; set -m; {TOOL} --colour=always --quiet make -s >out 2>err & wait $!; echo $? >status"
    Terminal(folder, ["bash", "--norc", "-c", script], is_controlling=True).end()
    checks.expect("a build in the background", (contents(os.path.join(folder, "status")), text_of(folder, "all")), ("0\n", "said\nterminal\n"))


def is_reader_of(pid):
    """Whether this is the process that reads what background processes print when the build has ended."""
    with contextlib.suppress(OSError):
        files = [os.readlink(f"/proc/{pid}/fd/{name}") for name in os.listdir(f"/proc/{pid}/fd")]
        return os.readlink(f"/proc/{pid}/exe") == TOOL and files != [] and set(files) <= {"/dev/ptmx", "/dev/pts/ptmx"}
    return False


SIZE = "stty -F /dev/stderr size >&2"
SIZES = f"""all: a s
a: ; @{SIZE}; tput cols >&2
s: ; @$(MAKE) -s in
in: ; @{SIZE}; touch begun; until [ "$$(stty -F /dev/stderr size)" = "50 132" ]; do sleep 0.01; done; $(MAKE) -s below
below: ; @{SIZE}
"""


def sizes(checks, at):
    """Terminals have the size of the window, in sub-makes too, and follow its changes."""
    folder = project(at("window"), SIZES)
    build = Terminal(folder, [TOOL, "--colour", "--quiet", "make", "-s"], {"TERM": "xterm"}, size=(33, 77), is_controlling=True)
    wait_for(os.path.join(folder, "begun"))
    set_size(build.reader, 50, 132)
    checks.expect("a window: make", build.end()[0], 0)
    checks.expect("a window", [text_of(folder, name) for name in ("a", "in", "below")], ["33 77\n77\n", "33 77\n", "50 132\n"])
    folder = project(at("none"), f"all: ; @{SIZE}\n")
    checks.expect("no window", (make(folder, options=ALWAYS), text_of(folder, "all")), ((0, "", ""), "0 0\n"))


# Whether recipes have a terminal: options, the variable NO_COLOR, whether standard error of the build is one; and the result.
CHOICES = (
    ([], None, True, "none"), ([], None, False, "none"),
    *((option, None, is_terminal, "terminal" if is_terminal else "none") for option in (["--colour"], ["--color"], ["--colour=auto"], ["--color=auto"]) for is_terminal in (True, False)),
    *((option, None, is_terminal, "terminal") for option in (["--colour=always"], ["--color=always"]) for is_terminal in (True, False)),
    *((option, None, True, "none") for option in (["--colour=never"], ["--color=never"], ["--colour", "--colour=never"])),
    (["--colour"], "", True, "terminal"), (["--colour"], "1", True, "none"), (["--color=auto"], "0", True, "none"), (["--colour=always"], "1", True, "terminal"),
)  # fmt: skip


def choices(checks, at):
    """When recipes get a terminal."""
    for number, (options, no_colour, is_terminal, wanted) in enumerate(CHOICES):
        folder = project(at(f"choice{number}"), f"all: ; @{ASKS}; test -t 1 && echo out >&2; true\n")
        command, more = [TOOL, *options, "--quiet", "make", "-s"], {} if no_colour is None else {"NO_COLOR": no_colour}
        status = Terminal(folder, command, more).end()[0] if is_terminal else ran(folder, command, more)[0]
        checks.expect(f"a choice: {options}, NO_COLOR={no_colour}, {is_terminal}", (status, text_of(folder, "all")), (0, wanted + "\n"))
    folder = project(at("words"), "all: ; @true\n")
    for word in ("yes", "", "Auto", "always "):
        for option in ("--colour", "--color"):
            text = f"redo-log-capture: --colour: not auto, always or never: {word}\n"
            checks.expect(f"{option}={word}", ran(folder, [TOOL, f"{option}={word}", "make"]), (2, "", text))
    checks.expect("nothing was started", os.listdir(folder), ["Makefile"])


# There is one terminal, which `a` has until `c` and `d` have run; then `e` gets it.
SCARCE = f"""all: a b
a: ; @{ASKS}; touch a.begun; until [ -e go ]; do sleep 0.01; done
b:
	@until [ -e a.begun ]; do sleep 0.01; done; $(MAKE) -s c d; touch go; until [ "$$(ls /dev/pts)" = ptmx ]; do sleep 0.01; done; $(MAKE) -s e
c d: ; @{ASKS}; echo $@ >&2
e: ; @{ASKS}
"""


def none_left(checks, at):
    """When terminals run out, recipes get pipes, and one message says so."""
    mount = 'mount -t devpts -o newinstance,max=1,ptmxmode=666 devpts /dev/pts && { [ -c /dev/ptmx ] || exit 77; } && exec "$@"'
    if subprocess.run(["unshare", "-m", "sh", "-c", mount, "sh", "true"], capture_output=True).returncode != 0:
        print("captures: none_left is left out: no devices may be mounted")
        return
    message = "redo-log-capture: --colour: no terminal is left: some recipes get a pipe, and may print without colours\n"
    folder = project(at("scarce"), SCARCE)
    found = ran(folder, ["unshare", "-m", "sh", "-c", mount, "sh", TOOL, *ALWAYS, "make", "-s", "-j2"])
    checks.expect("one terminal: make", (found[:2], without_printed(found[2])), ((0, ""), message))
    checks.expect("one terminal", [text_of(folder, name) for name in "acde"], ["terminal\n", "none\nc\n", "none\nd\n", "terminal\n"])
    folder = project(at("no device"), f"all: a b\na b: ; @{ASKS}\n")
    words = ["unshare", "-m", "sh", "-c", 'mount --bind /dev/null /dev/ptmx && exec "$@"', "sh", TOOL, *ALWAYS, "make", "-s", "-j2"]
    found = ran(folder, words)
    checks.expect("no device: make", (found[:2], without_printed(found[2])), ((0, ""), message))
    checks.expect("no device", [text_of(folder, name) for name in "ab"], ["none\n", "none\n"])


# Prints the number of the controlling terminal of a process, 0 if there is none.
NUMBER = "sed 's/.*) //' /proc/$1/stat | cut -d ' ' -f 5 >&2\n"
SESSIONS = """all:
	@sh number $$$$; sh number $$PPID
	@setsid -w sh -c "echo x >/dev/stderr; sh number \\$$\\$$"
	@echo end >&2
"""


def no_controlling_terminal(checks, at):
    """The terminal becomes nobody's controlling terminal: of make or a recipe that begins a session, too."""
    for name, front in (("server", []), ("make", ["setsid", "-w"])):
        folder = project(at(name), SESSIONS)
        write(os.path.join(folder, "number"), NUMBER)
        command = [TOOL, *ALWAYS, *front, "make", "-s"]
        done = subprocess.run(command, cwd=folder, env=environment(), stdin=subprocess.DEVNULL, capture_output=True, text=True, preexec_fn=of_a_terminal)
        checks.expect(f"sessions: {name}: make", (done.returncode, done.stdout, without_printed(done.stderr)), (0, "", ""))
        checks.expect(f"sessions: {name}", text_of(folder, "all"), "0\n0\nx\n0\nend\n")
    folder = project(at("read"), "all: ; @cat <&2 2>/dev/null || echo it can not be read >&2\n")
    checks.expect("a terminal that is read", (make(folder, options=ALWAYS), text_of(folder, "all")), ((0, "", ""), "it can not be read\n"))


SAID = """all: a b s t
	@echo all out; echo all err >&2
a b: ; @echo $@ out; echo $@ err >&2
s: ; @$(MAKE) -s c; echo s err >&2
c: ; @echo c out; echo c err >&2; test -z "$(X)"
t: s ; @$(MAKE) -s -f Makefile d 2>log; $(MAKE) -s e 2>&1 | cat >log2; $(MAKE) -s f 2>&1
d e f: ; @echo $@ out; echo $@ err >&2; echo $(shell echo inner) >&2
"""


def as_with_pipes(checks, at):
    """A build does the same with terminals and with pipes."""
    builds = [([], words) for words in (["-j1"], ["-j1", "X=1"], ["-j3", "-k", "X=1"], *(["-j2", f"-O{kind}"] for kind in ("none", "line", "target", "recurse")))]
    builds += [(["--live"], ["-j1"]), (["--both"], ["-j1"]), (["--both"], ["-j3", "-O", "-k", "X=1"]), (["--both", "--live"], ["-j1", "-Oline"]), (["--commands", "--quiet"], ["-j1"])]
    for number, (options, words) in enumerate(builds):
        sides = []
        for side, more in (("pipes", []), ("terminals", ALWAYS)):
            folder = project(at(f"{number}{side}"), SAID)
            status, out, err = ran(folder, [TOOL, *more, *options, "make", "-s", *words])
            logs = [contents(os.path.join(folder, name)) if os.path.exists(os.path.join(folder, name)) else None for name in ("log", "log2")]
            in_order = words[0] == "-j1"
            sides.append((status, out if in_order else sorted(out.splitlines()), err if in_order else sorted(err.splitlines()), shown(folder, "all"), logs))
        checks.expect(f"as with pipes: {options} {words}", sides[1], sides[0])
    folder = project(at("launcher"), "")
    script = f"CAPTURE='x : ' \"$0\" --recipe sh -c '{ASKS}; exit 3'; CAPTURE='y : x' \"$0\" --recipe make -s -f in.mk"
    write(os.path.join(folder, "in.mk"), f"z: ; @{ASKS}\n")
    status, _, told = ran(folder, [TOOL, *ALWAYS, "sh", "-c", script, TOOL])
    checks.expect("--recipe", (status, "redo-log-capture: x (exit 3)\n" in told, "\nterminal\n" in told), (0, True, True))
    checks.expect("--recipe: the logs", [text_of(folder, name) for name in ("x", "z")], ["terminal\n", "terminal\n"])


PARTS = (bytes_unchanged, compilers, much, background, sizes, choices, none_left, no_controlling_terminal, as_with_pipes)
