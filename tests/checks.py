"""What the tests of the built programs share: paths, and a count of expectations that held."""
import os
import re
import subprocess
import sys

TOP = os.path.dirname(os.path.dirname(os.path.abspath(__file__)))
PROGRAM = os.path.join(TOP, "crates/redo_log/out/redo_log")
HTML_PROGRAM = os.path.join(TOP, "crates/redo_log_html/out/redo_log_html")
JSON_PROGRAM = os.path.join(TOP, "crates/redo_log_json/out/redo_log_json")
NEW_PROGRAM = os.path.join(TOP, "crates/redo_log_new/out/redo_log_new")
# The program that makes single calls of the libraries.
DRIVER = os.path.join(TOP, "crates/redo_log_driver/out/redo_log_driver")
# The default capture directory of redo-log-capture.
CAPTURES = ".redo-log"
# The dynamic symbols of capture.so: those that make looks up, those that it imports, and the libraries that it needs.
HOOK = (
    ["plugin_is_GPL_compatible", "redo_log_capture"],
    ["dlsym", "gmk_add_function", "gmk_alloc", "gmk_eval", "gmk_expand", "gmk_free"],
    [],
)


def contents(path):
    """The text of a file of the repository."""
    with open(os.path.join(TOP, path), encoding="utf-8") as file:
        return file.read()


def require(*programs):
    """Exits with a message if one of the programs isn't built."""
    for program in programs:
        if not os.path.exists(program):
            sys.exit(f"{os.path.relpath(program, TOP)} is missing: run `make build` first")


def version():
    """The version of the program, from its source."""
    return re.search(r'^const VERSION: &str = "redo-log (\d+\.\d+\.\d+)\\n";$', contents("crates/redo_log_cli/src/program.rt"), re.M)[1]


def environment(more=None):
    """The environment of this process without the variables of a make that runs it."""
    kept = {name: value for name, value in os.environ.items() if not name.startswith(("MAKE", "MFLAGS", "CAPTURE"))}
    return {**kept, "LC_ALL": "C.UTF-8", **(more or {})}


def install_capture(prefix, *words):
    """Installs redo-log-capture below a prefix and returns its path."""
    subprocess.run(["make", "-s", "install-capture", f"PREFIX={prefix}", *words], cwd=TOP, env=environment(), check=True)
    return os.path.join(prefix, "bin/redo-log-capture")


def dynamic_symbols(path):
    """The symbols that a shared object defines, those that it imports, and the libraries that it needs."""
    symbols = subprocess.run(["nm", "-D", path], capture_output=True, text=True).stdout
    header = subprocess.run(["objdump", "-p", path], capture_output=True, text=True).stdout
    defined, imported = (sorted(re.findall(rf"^{value} . (.*)", symbols, re.M)) for value in ("[0-9a-f]+", " +"))
    return defined, imported, re.findall(r"^ +NEEDED +(.*)", header, re.M)


class Checks:
    def __init__(self):
        self.passed = 0
        self.failed = 0

    def expect(self, name, found, wanted):
        if found == wanted:
            self.passed += 1
        else:
            self.failed += 1
            print(f"{name}: found {str(found)[:600]}; expected {str(wanted)[:600]}")

    def end(self, name):
        """Prints the count and exits, with status 1 if an expectation failed."""
        print(f"{name}: {self.passed} passed, {self.failed} failed")
        sys.exit(self.failed > 0)
