"""The scripts of examples/ci. Each is run by the command in its second line, so these command lines are tested, too. The variables of
shells and servers name the directory by a symbolic link."""
import os
import re
import subprocess
import sys
import tempfile

sys.path.insert(0, os.path.dirname(os.path.dirname(os.path.abspath(__file__))))
from checks import TOP, contents, environment  # noqa: E402

SCRIPTS = ("compile_commands", "github", "gitlab", "junit", "new", "sarif", "trace")
EXAMPLES = os.path.join(TOP, "examples/ci")


def command_of(name):
    """The command line that the head of a script has."""
    return re.match(r"# .*\n#     (jq .*)\n", contents(f"examples/ci/{name}.jq"))[1]


def run_script(name, folder):
    """Runs a script in a directory with build.jsonl, or OLD.jsonl and NEW.jsonl. Returns the status, the output and messages."""
    command = command_of(name).split(" >")[0].replace(f" -f {name}.jq", f" -f '{EXAMPLES}/{name}.jq'")
    with tempfile.TemporaryDirectory() as place:
        link = os.path.join(place, "link")
        os.symlink(os.path.realpath(folder), link)
        more = {"GITHUB_WORKSPACE": link, "CI_PROJECT_DIR": link, "PWD": link}
        done = subprocess.run(["sh", "-c", command], cwd=link, env=environment(more), capture_output=True)
    return done.returncode, done.stdout, done.stderr.decode(errors="replace")


def made(checks, what, name, folder):
    """What a script makes of build.jsonl: bytes."""
    status, out, err = run_script(name, folder)
    checks.expect(f"{what}: {name}: status and errors", (status, err), (0, ""))
    return out


def write_json(checks, what, program, folder, capture, to="build.jsonl", words=()):
    """Writes what the program makes of a capture, and returns it."""
    path = os.path.join(folder, to)
    done = subprocess.run([program, "--dir", capture, "--output", path, *words], cwd=folder, capture_output=True, text=True)
    checks.expect(f"{what}: redo-log-json", (done.returncode, done.stdout, done.stderr), (0, "", ""))
    with open(path, "rb") as file:
        return file.read()
