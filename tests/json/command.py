"""What redo-log-json has in common with redo-log-html: messages, statuses, output files, and devices that fail."""
import errno
import os
import re
import resource
import signal
import stat
import subprocess
import tempfile
import time

import json_reading
from checks import version

MOST_SECONDS = 600
CANNOT_WRITE = b"redo-log-json: cannot write\n"
NO_OUTPUT = "not writable: '{}'; it must be a file in a directory that exists, and you must be allowed to write there"


def run(program, folder, words, **how):
    found = subprocess.run([program, *words], cwd=folder, stdin=subprocess.DEVNULL, capture_output=True, timeout=MOST_SECONDS, **how)
    return found.returncode, found.stdout, found.stderr


def write(folder, files):
    """Writes files into a directory. A file that is None becomes a directory."""
    for name, data in files.items():
        if data is None:
            os.mkdir(os.path.join(folder, name))
        else:
            with open(os.path.join(folder, name), "wb") as file:
                file.write(data)


def like(found):
    """What redo-log-json should have if redo-log-html has this status, output and message."""
    status, out, message = found
    return status, out, message.replace(b"redo-log-html: ", b"redo-log-json: ")


# ---- messages --------------------------------------------------------------------------------------------------------

BUILD = {"names": b"1 all\n2 lib/a.o\n3 lib/b.o\n", "log.1": b"x\n"}
# A status, the files, the message of the first run, and the arguments of each run that ends with this status.
FAILURES = [
    (2, BUILD, ["bad command line", "unknown option '--nope'; try --help"], [
        ["--nope"], ["--senders", "0"], ["--senders=65"], ["-u", "-u"], ["-ux"], ["--dir"], ["--dir", ".", "--dir", "."], ["--output"],
        ["-r", "all"], ["--recursive"], ["--no-details"], ["--debug-pids"], ["--capacity", "2"], ["--explain"], ["--unchanged=1"],
        ["--version", "all"], ["-V", "-V"], [b"\xff"], ["all", "--nope", *["b"] * 997], ["all", "--nope", *["b"] * 999],
    ]),
    (3, {"names": b"1 all\n2 ./all\n"}, ["names: line 2: name listed twice", "leave this line out: sed -i 2d './names'"], [[], ["nope"]]),
    (3, {"names": b"x\n1 all\n"}, ["names: line 1: bad line", "leave this line out: sed -i 1d './names'"], [[]]),
    (3, {"names": b"1 all\n1 b\n"}, ["names: line 2: number listed twice", "leave this line out: sed -i 2d './names'"], [[]]),
    (4, {"names": b"1 all\n", "log.1": b"ok\n@@REDO:do:7\n"},
     ["all: line 2: bad record", "leave this log out: sed -i '/^!*1 /d' './names'"], [[], ["--", "all"]]),
    (4, {"names": b"1 all\n", "log.1": b"@@REDO:done:7:1@@ 0 all\nz\n"},
     ["all: line 2: after the closing record", "leave this log out: sed -i '/^!*1 /d' './names'"], [[]]),
    (4, {"names": b"1 all\n!2 it's\n"}, ["it's: not closed", "leave this log out: sed -i '/^!*2 /d' './names'"], [[], ["-u"]]),
    (5, {}, ["names: cannot be read", "no file './names'; without --dir DIR, a capture is looked for here, in .redo-log and in capture"],
     [[], ["--dir", "none"], ["--dir", "it's"]]),
    (5, {"names": None},
     ["names: cannot be read", "not readable: './names'; it must be a file of at most 1073741824 bytes that you may read"], [[]]),
    (5, {"names": b"1 all\n", "log.1": None},
     ["all: cannot be read", "not readable: './log.1'; it must be a file that you may read"], [[]]),
    (24, BUILD, ["nope: not known", "targets: 3; list them: cut -d ' ' -f 2- './names'"],
     [["nope"], ["all", "a.o"], ["o"], [""], ["all", "b.o", "nope"]]),
    (24, {"names": b"1 a\n2 b\n"}, ["all: not known", "targets: 2; list them: cut -d ' ' -f 2- './names'"], [[], ["all"]]),
    (24, {"names": b""}, ["all: not known", "targets: 0; list them: cut -d ' ' -f 2- './names'"], [[]]),
]  # fmt: skip


def message_of(lines):
    return "".join(f"redo-log-json: {line}\n" for line in lines).encode()


def expect_messages(checks, program, html_program):
    """The status and both lines on standard error are those of redo-log-html, and those that are written above."""
    for status, files, lines, commands in FAILURES:
        with tempfile.TemporaryDirectory() as folder:
            write(folder, files)
            checks.expect(f"{commands[0]} for {files}: the message", run(program, folder, commands[0])[2], message_of(lines))
            for words in commands:
                what = f"{str(words)[:60]} for {files}"
                found = run(program, folder, words)
                checks.expect(what, found, like(run(html_program, folder, words)))
                checks.expect(f"{what}: the status and the lines", (found[:2], found[2].count(b"\n") in (1, 2)), ((status, b""), True))
    with tempfile.TemporaryDirectory() as folder:
        write(folder, {"names": b"1 a\n"})
        checks.expect("--every without all", run(program, folder, ["--every"]), like(run(html_program, folder, [])))
        for word in ("--title", "--max-bytes", "--debug-locks"):
            message = f"redo-log-json: bad command line\nredo-log-json: unknown option '{word}'; try --help\n".encode()
            checks.expect(f"an option of redo-log-html alone: {word}", run(program, folder, [word]), (2, b"", message))
        for word in ("--version", "-V"):
            checks.expect(word, run(program, folder, [word]), (0, f"redo-log-json {version()}\n".encode(), b""))
        helps = [run(program, folder, words) for words in (["--help"], ["-h"], ["--every", "--help", "x"])]
        checks.expect("the help text", helps, [helps[0]] * 3)
        named = re.findall(r"--[a-z]+", helps[0][1].decode().partition("Example:")[0])
        options = ["--dir", "--baseline", "--unchanged", "--every", "--output", "--senders", "--help", "--version"]
        checks.expect("the options in the help text", named, options)


# ---- devices ---------------------------------------------------------------------------------------------------------


def into_full_device(program, folder, *words):
    with open("/dev/full", "wb") as device:
        done = subprocess.run([program, *words], cwd=folder, stdout=device, stderr=subprocess.PIPE, timeout=MOST_SECONDS)
    return done.returncode, b"", done.stderr


def into_closed_pipe(program, folder):
    """Closes the pipe after ten bytes."""
    process = subprocess.Popen([program], cwd=folder, stdout=subprocess.PIPE, stderr=subprocess.PIPE)
    count = len(process.stdout.read(10))
    process.stdout.close()
    return process.wait(MOST_SECONDS), b"%d" % count, process.stderr.read()


def into_nothing(program, folder):
    """Runs the program without standard output."""
    return run(program, folder, [], preexec_fn=lambda: os.close(1))


WAYS = [
    ("a full device", into_full_device),
    ("a full device, at the flush", lambda program, folder: into_full_device(program, folder, "short")),
    ("help for a full device", lambda program, folder: into_full_device(program, folder, "--help")),
    ("the version for a full device", lambda program, folder: into_full_device(program, folder, "--version")),
    ("an output file that is a full device", lambda program, folder: run(program, folder, ["--output", "/dev/full"])),
    ("a closed pipe", into_closed_pipe),
    ("no standard output", into_nothing),
]


def expect_devices(checks, program, html_program):
    text = b"".join(b"line %d\n" % number for number in range(100_000))
    with tempfile.TemporaryDirectory() as folder:
        write(folder, {"names": b"1 all\n2 short\n", "log.1": text, "log.2": b"x\n"})
        for what, way in WAYS:
            found = way(program, folder)
            checks.expect(what, found, like(way(html_program, folder)))
            checks.expect(f"{what}: status and message", (found[0], found[2][: len(CANNOT_WRITE)]), (6, CANNOT_WRITE))


def into_limited_file(program, folder, words, most):
    """Runs the program with a file as standard output that may have so many bytes. Returns the status, the bytes and the message."""

    def limit():
        signal.signal(signal.SIGXFSZ, signal.SIG_IGN)
        resource.setrlimit(resource.RLIMIT_FSIZE, (most, most))

    with tempfile.TemporaryFile() as out:
        done = subprocess.run([program, *words], cwd=folder, stdout=out, stderr=subprocess.PIPE, timeout=MOST_SECONDS, preexec_fn=limit)
        out.seek(0)
        return done.returncode, out.read(), done.stderr


def expect_prefixes(checks, program, files, words, text):
    """Wherever a write fails, the bytes before it are written. `text` is the JSON of these files."""
    with tempfile.TemporaryDirectory() as folder:
        write(folder, files)
        for most in range(len(text)):
            found = into_limited_file(program, folder, words, most)
            checks.expect(f"room for {most} bytes", found, (6, text[:most], CANNOT_WRITE))
        checks.expect("room for all bytes", into_limited_file(program, folder, words, len(text)), (0, text, b""))


# ---- output files ----------------------------------------------------------------------------------------------------

BAD_INDEX, BAD_LOG = {"names": b"x\n"}, {"log.1": b"@@REDO:\n"}
# An output, further files, and the status.
OUTPUTS = [
    ("old", {}, 0), ("new", {}, 0), ("./folder/../old", {}, 0), ("folder/new", {}, 0), ("link", {}, 0), ("dangling", {}, 0),
    ("old", {"old.tmp0": b"other"}, 0), ("old", BAD_INDEX, 3), ("new", BAD_INDEX, 3), ("link", BAD_INDEX, 3), ("old", BAD_LOG, 4),
    ("none/new", BAD_INDEX, 6), ("folder", BAD_INDEX, 6), (".", BAD_INDEX, 6), ("", BAD_INDEX, 3), ("", {}, 6),
]  # fmt: skip
# The JSON if the files are good, as docs/json.md says.
JSON = (b'{"target":"all","parent":null,"status":null,"start_ms":null,"end_ms":null,"cpu_ms":null,"peak_kb":null,'
        b'"directory":null,"commands":[],"needs":[],"lines":["x"],"diagnostics":[],"baseline":null}\n')  # fmt: skip
# What the file `old` has after a run that succeeds, and after one that fails. The JSON is None.
AFTER = {"old": (None, b"old"), "./folder/../old": (None, b"old"), "link": (None, b"")}


def written(program, output, files, mode):
    """Returns the result of a run with an output file, the JSON or page without one, and the files afterwards: whether each is a link,
    its type and permissions, and its bytes."""
    with tempfile.TemporaryDirectory() as folder:
        write(folder, {"names": b"1 all\n", "log.1": b"x\n", "old": b"old", "folder": None, **files})
        os.chmod(os.path.join(folder, "old"), mode)
        os.symlink("old", os.path.join(folder, "link"))
        os.symlink("new", os.path.join(folder, "dangling"))
        found = run(program, folder, ["--output", output])
        after = {}
        for place, _, names in os.walk(folder):
            for path in (os.path.join(place, name) for name in names):
                data = b""
                if os.path.exists(path):
                    with open(path, "rb") as file:
                        data = file.read()
                after[os.path.relpath(path, folder)] = os.path.islink(path), oct(os.lstat(path).st_mode), data
        return found, run(program, folder, [])[1], after


def with_whole(after, text):
    """Returns the files with whether each has this text in place of its bytes."""
    return {name: (*form, data == text) for name, (*form, data) in after.items()}


def expect_output_files(checks, program, html_program):
    """A regular file is replaced, and anything else is written directly."""
    for output, files, status in OUTPUTS:
        for mode in (0o600, 0o644, 0o444):
            what = f"--output {output} with {sorted(files)}, mode {mode:o}"
            found, text, after = written(program, output, files, mode)
            wanted, page, page_after = written(html_program, output, files, mode)
            checks.expect(what, (found, status), (like(wanted), found[0]))
            checks.expect(f"{what}: standard output", text, b"" if files in (BAD_INDEX, BAD_LOG) else JSON)
            if status == 6:
                checks.expect(f"{what}: the message", found[2], CANNOT_WRITE + message_of([NO_OUTPUT.format(output)]))
            # Both programs write the same files with the same permissions.
            checks.expect(f"{what}: the files", with_whole(after, text), with_whole(page_after, page))
            left = AFTER.get(output, (b"old", b"old"))[status != 0]
            checks.expect(f"{what}: the old file", after["old"][2], text if left is None else left)
            if status == 0 and output not in AFTER:
                checks.expect(f"{what}: the new file", after["new" if output == "dangling" else output][2], text)
    umask = os.umask(0)
    os.umask(umask)
    mode = written(program, "old", {}, 0o600)[2]["old"][1]
    checks.expect("a file that is replaced gets default permissions", mode, oct(stat.S_IFREG | 0o666 & ~umask))
    expect_no_half(checks, program)


def opened_pipe(pipe, process, ends):
    """Opens a pipe for writing when the process has opened it. Returns None if the process has ended, or at the time `ends`."""
    while process.poll() is None and time.monotonic() < ends:
        try:
            return os.fdopen(os.open(pipe, os.O_WRONLY | os.O_NONBLOCK), "wb")
        except OSError as error:
            if error.errno != errno.ENXIO:
                raise
        time.sleep(.01)
    return None


def expect_no_half(checks, program):
    """As long as a log has no end, the old file stays as it was."""
    with tempfile.TemporaryDirectory() as folder:
        write(folder, {"names": b"1 all\n2 a\n", "out": b"old", "log.1": b"x\n" * 100_000})
        pipe, out = os.path.join(folder, "log.2"), os.path.join(folder, "out")
        os.mkfifo(pipe)
        process = subprocess.Popen([program, "--dir", folder, "--every", "--output", out], stderr=subprocess.PIPE)
        ends = time.monotonic() + MOST_SECONDS
        try:
            writer = opened_pipe(pipe, process, ends)
            checks.expect("a log that is a pipe: the program opens it", writer is not None, True)
            if writer is None:
                return
            with writer:
                writer.write(b"y\n")
                writer.flush()
                while not os.path.exists(out + ".tmp0") and process.poll() is None and time.monotonic() < ends:
                    time.sleep(.01)
                with open(out, "rb") as file:
                    found = file.read(), sorted(os.listdir(folder))
            checks.expect("the old file while a new one is written", found, (b"old", ["log.1", "log.2", "names", "out", "out.tmp0"]))
            checks.expect("a log that is a pipe: the message", (process.wait(MOST_SECONDS), process.stderr.read()), (0, b""))
        finally:
            process.kill()
            process.wait()
        with open(out, "rb") as file:
            found = [(one["target"], len(one["lines"])) for one in json_reading.read(file.read())]
        left = ["log.1", "log.2", "names", "out"]
        checks.expect("a log that is a pipe", (found, sorted(os.listdir(folder))), ([(b"all", 100_000), (b"a", 1)], left))
