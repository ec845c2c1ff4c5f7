"""The command in the last line of a page, run by shells as a reader copies it: they must pass the options and names to redo-log."""
import html
import os
import random
import re
import shutil
import subprocess
import tempfile

SHELLS = (["dash"], ["bash"], ["busybox", "sh"], ["mksh"], ["zsh"])
# Pieces of names: what a shell, `printf` or a page reads in its own way, and letters.
PIECES = ["a", "b.o", "1", "777", "é", "日本", "\u202e", "\u00a0", "\ufeff", "\U0001f600", "'", '"', "%", "%s", "\\", "\\033", "-", "--", " ", "  ", "$(x)", "$x", "`x`",
          "!", "~", "#", "*", "?", "[a]", "{a,b}", "&", "<b>", ">", "|", ";", "(", "\t", "\r", "\x1b[31m", "\x01", "\x7f"]
CASES = 300


def name_of(rng):
    """A name without slashes that is no `.` or `..`, and is in normal form. It is UTF-8, because arguments that aren't are rejected."""
    return "".join(rng.choice(PIECES) for _ in range(rng.choice([1, 1, 2, 3, 6]))).encode()


def command_in(page):
    """What a reader copies: the text of the last `code` element. Nothing in it may be highlighted."""
    text = page.rpartition(b"As one text: <code>")[2].partition(b"</code>")[0]
    if b"<" in text:
        raise ValueError(f"the command has a tag: {text}")
    return html.unescape(text.decode()).encode()


def expect_commands(checks, program):
    with tempfile.TemporaryDirectory() as folder:
        program_folder = os.path.join(folder, "bin")
        os.mkdir(program_folder)
        with open(os.path.join(program_folder, "redo-log"), "w", encoding="ascii", opener=lambda path, flags: os.open(path, flags, 0o755)) as file:
            file.write("#!/bin/sh\nexec printf '%s\\000' \"$@\"\n")
        environment = {**os.environ, "PATH": program_folder + os.pathsep + os.environ["PATH"]}
        for seed in range(1, CASES + 1):
            rng = random.Random(f"command {seed}")
            directory = os.path.join(os.fsencode(folder), b"%d" % seed)
            capture = name_of(rng)
            os.makedirs(os.path.join(directory, capture))
            names = sorted({name_of(rng) for _ in range(rng.choice([1, 2, 3]))})
            with open(os.path.join(directory, capture, b"names"), "wb") as file:
                file.writelines(b"%d %s\n" % (number, name) for number, name in enumerate(names, 1))
            options = [b"-u"] * rng.randrange(2) + [b"--debug-locks"] * rng.randrange(2)
            found = subprocess.run([program, *options, b"--dir=" + capture, b"--", *names], cwd=directory, stdin=subprocess.DEVNULL, capture_output=True, timeout=60)
            checks.expect(f"command {seed}: status and message", (found.returncode, found.stderr), (0, b""))
            expected = [b"-r", *options, b"--dir=" + capture, *(b"./" * name.startswith(b"-") + name for name in names)]
            command = command_in(found.stdout)
            # A command with nothing that a page highlights is in quotes.
            if all(re.fullmatch(rb"[ -~]*", word) for word in expected):
                checks.expect(f"command {seed}: has no octal digits", b"printf" in command, False)
            shell = SHELLS[seed % len(SHELLS)]
            for words in (shell, ["sh"]):
                ran = subprocess.run([*words, "-c", command], cwd=directory, env=environment, stdin=subprocess.DEVNULL, capture_output=True, timeout=60)
                checks.expect(f"command {seed}, {words[0]}: {command}", (ran.stdout.split(b"\0")[:-1], ran.stderr), (expected, b""))
            shutil.rmtree(directory)
