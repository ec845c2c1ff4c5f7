"""A capture of links, whose index and logs may be pipes."""
import os
import subprocess
import tempfile

FILES = {
    "names": b"1 all\n2 pipe\n3 linked\n",
    "log.1": b"@@REDO:do:7:1600000000.5@@ pipe\n@@REDO:done:7:1600000002.5@@ 0 pipe\n@@REDO:do:7:1600000003@@ linked\n"
    b"@@REDO:done:7:1600000004@@ 1 linked\n@@REDO:done:7:1600000005@@ 2 all\n",
    "log.2": b"warning: by a pipe\n@@REDO:done:7:1600000002.5@@ 0 pipe\n",
    "log.3": b"error: by a link\n@@REDO:done:7:1600000004@@ 1 linked\n",
}
MOST_SECONDS = 120


def results(program):
    """Returns the results of a program without arguments if no file is a pipe, if a log is one, and if the index is one, too."""
    return [result(program, pipes) for pipes in ((), ("log.2",), ("names", "log.2"))]


def result(program, pipes):
    with tempfile.TemporaryDirectory() as top:
        folder, stored = os.path.join(top, "logs"), os.path.join(top, "stored")
        os.mkdir(folder)
        os.mkdir(stored)
        for name, data in FILES.items():
            with open(os.path.join(stored, name), "wb") as file:
                file.write(data)
            os.mkfifo(os.path.join(folder, name)) if name in pipes else os.symlink(f"../stored/{name}", os.path.join(folder, name))
        writers = [subprocess.Popen(["sh", "-c", f"cat {stored}/{name} >{folder}/{name}"]) for name in pipes]
        try:
            found = subprocess.run([program], cwd=folder, stdin=subprocess.DEVNULL, capture_output=True, timeout=MOST_SECONDS)
            return found.returncode, found.stdout, found.stderr
        except subprocess.TimeoutExpired:
            return f"nothing within {MOST_SECONDS} seconds, as if a pipe were read twice"
        finally:
            for writer in writers:
                writer.kill()
                writer.wait()
