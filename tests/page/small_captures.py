"""Small captures that a test makes, and parts of the pages that the built program writes of them."""
import os
import subprocess
import tempfile

MOST_SECONDS = 120


def record(kind, text, time=b"1"):
    return b"@@REDO:%s:7:%s@@ %s\n" % (kind, time, text)


def files_of_logs(logs, facts=b""):
    """The files of a capture with the logs of these targets, which have the numbers 1, 2, and so on."""
    names = b"".join(b"%d %s\n" % (number, target) for number, target in enumerate(logs, 1))
    files = {"names": names, "facts": facts, **{f"log.{number}": log for number, log in enumerate(logs.values(), 1)}}
    return {name: data for name, data in files.items() if data}


def write_files(folder, files):
    for name, data in files.items():
        with open(os.path.join(folder, name), "wb") as file:
            file.write(data)


def run(program, folder, words):
    found = subprocess.run([program, *words], cwd=folder, stdin=subprocess.DEVNULL, capture_output=True, timeout=MOST_SECONDS)
    return found.returncode, found.stdout, found.stderr


def made_page(checks, program, expected_page, what, logs, words=(), facts=b""):
    """The page of these targets' logs. The model must give the same one. `expected_page` returns the model's answer."""
    words = [*words] if b"--" in words else [*words, b"--"]
    with tempfile.TemporaryDirectory() as folder:
        write_files(folder, files_of_logs(logs, facts))
        found, wanted = run(program, folder, words), expected_page(folder, words)
    checks.expect(f"{what}: the status and the message", (found[0], found[2]), (0, b""))
    checks.expect(f"{what}: the model's page", found[1] == wanted[1], True)
    return found[1]


def part(page, begin, end):
    """What is between the first `begin` and the first `end` after it, or nothing."""
    rest = page.partition(begin)[2]
    return rest.partition(end)[0] if end in rest else b""


def contents(page, place):
    """What the tree shows in the log at this place. No other log may be in it."""
    return part(part(page, b' id="t%d"><summary>' % place, b"</details>"), b"</summary><ul>", b"</ul>")


def all_of(targets):
    """The log of `all`, in which these targets are made."""
    return b"".join(record(b"do", target) for target in targets)
