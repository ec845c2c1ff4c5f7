"""What the tests of captures share: builds in their own directories, with and without redo-log-capture."""
import contextlib
import os
import re
import signal
import subprocess
import sys
import tempfile
import time

sys.path.insert(0, os.path.dirname(os.path.dirname(os.path.abspath(__file__))))
from checks import CAPTURES, PROGRAM, TOP, contents, environment  # noqa: E402

PREFIX = tempfile.mkdtemp()
os.chmod(PREFIX, 0o755)  # what other users can't read is copied
TOOL = os.path.join(PREFIX, "bin/redo-log-capture")
ASKING = (signal.SIGHUP, signal.SIGINT, signal.SIGQUIT, signal.SIGTERM)
# How long tests wait for what happens soon: far longer than it takes on a busy machine.
MOST_SECONDS = 300


def said(name, status, command, text="", directory=""):
    """The block of a failed recipe. `directory` is the one of its make if that isn't the base directory."""
    return f"redo-log-capture: {name} (exit {status}){directory and ', in ' + directory}\n{command}\n{text}"


def failed(*names, words=None, printed=(), is_empty=False, is_unstarted=False):
    """The last lines of a failed build: the targets that failed, and those that printed something and did not fail. `is_empty`: the
    logs of those that failed have no text. `is_unstarted`: make could not start a command of them."""
    count = "1 target" if len(names) == 1 else f"{len(names)} targets"
    named = words or " ".join(names[:10])
    lines = [f"{count} failed{', 10 of them' if len(names) > 10 else ''}: redo-log {named}"]
    if is_unstarted:
        lines.append("make could not start " + ("its command; see make's own message" if len(names) == 1 else "some of their commands; see make's own messages"))
    if is_empty:
        lines.append(("its log is" if len(names) == 1 else "their logs are") + " empty; --both also captures standard output")
    return "".join(f"redo-log-capture: {line}\n" for line in [*lines, *printed_by(*printed), "show all logs: redo-log -r all"])


def printed_by(*names):
    """The line about targets that printed something and did not fail."""
    what = "target that did not fail" if len(names) == 1 else "targets that did not fail"
    return [f"{len(names)} {what} printed something: redo-log {' '.join(names)}"] if names else []


def quoted(name):
    """A name, quoted for a shell where needed, as in a message that shows how to read its log."""
    return name if re.fullmatch(r"[\w./+=:@%,-]+", name, re.A) else "'" + name.replace("'", "'\\''") + "'"


def last_lines(count, text):
    return "".join(text.splitlines(keepends=True)[-count:])


def write(path, text):
    os.makedirs(os.path.dirname(path), exist_ok=True)
    with open(path, "w", encoding="utf-8") as file:
        file.write(text)


def project(folder, makefile):
    write(os.path.join(folder, "Makefile"), makefile)
    return folder


def ran(folder, command, more=None):
    """The status, standard output and standard error of a command."""
    done = subprocess.run(command, cwd=folder, env=environment(more), capture_output=True, text=True)
    return done.returncode, done.stdout, done.stderr


def make(folder, *words, options=(), more=None):
    """As `ended`, for a captured make, without the line about targets that did not fail."""
    status, out, err = ran(folder, [TOOL, *options, "make", *words], more)
    return status, out, without_printed(err)


def text_of(folder, name, at=CAPTURES):
    """The text lines of a target's log."""
    return re.sub(r"^@@REDO:.*\n", "", log_of(folder, name, at), flags=re.M)


def lines_of_others(err):
    """The lines of standard error that redo-log-capture didn't print, without the commands of failed recipes."""
    return [line for line in re.sub(r"^redo-log-capture: (.* \(exit \d+\)(, in .*)?\n)?.*\n", "", err, flags=re.M).splitlines()]


def without_printed(err):
    return re.sub(r"^redo-log-capture: \d+ targets? that did not fail printed something.*\n", "", err, flags=re.M)


def shown(folder, *words, at=CAPTURES):
    """The text that redo-log prints, or its status and error message."""
    done = subprocess.run([PROGRAM, "--dir", os.path.join(folder, at), "-r", *words], capture_output=True)
    return done.stdout.decode() if done.returncode == 0 else (done.returncode, done.stderr.decode())


def log_of(folder, name, at=CAPTURES):
    """The bytes of a target's log, or none if it isn't there yet."""
    at = os.path.join(folder, at)
    with contextlib.suppress(FileNotFoundError), open(os.path.join(at, "names"), encoding="utf-8") as names:
        numbers = {line.rstrip("\n").split(" ", 1)[1]: line.split(" ", 1)[0].lstrip("!") for line in names}
        if name in numbers:
            with open(os.path.join(at, "log." + numbers[name]), encoding="utf-8") as log:
                return log.read()
    return ""


def of_a_terminal():
    """Makes the process the leader of a new group, and lets signals end it even if this process ignores them."""
    os.setsid()
    for kind in ASKING:
        signal.signal(kind, signal.SIG_DFL)


def wait_until(what, holds):
    ends = time.monotonic() + MOST_SECONDS
    while not holds():
        if time.monotonic() > ends:
            raise TimeoutError(what)
        time.sleep(0.01)


def wait_for(path):
    wait_until(path, lambda: os.path.exists(path))


def wait_until_recorded(build, what, holds):
    """Waits until this holds of the captures, and redo-log-capture has written all that it has read: it sleeps then."""
    wait_until(what, holds)
    wait_until(f"{what}: all is written", lambda: contents(f"/proc/{build.pid}/stat").rsplit(")", 1)[1].split()[0] == "S")


def preloaded(name):
    """Compiles a library of this name, to be preloaded."""
    library = os.path.join(PREFIX, f"{name}.so")
    source = os.path.join(TOP, f"tests/captures/{name}.c")
    subprocess.run(["cc", "-O2", "-Wall", "-Wextra", "-shared", "-fPIC", "-o", library, source, "-ldl"], check=True)
    return library
