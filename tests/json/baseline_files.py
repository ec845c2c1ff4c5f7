"""Random baselines for capture directories: the same capture with changed logs, another one, the same one, or a directory without one."""
import os
import re
import shutil

import facts_files


def changed(rng, data):
    """A log with lines that are left out, moved, doubled, with other numbers, or of a compiler, and with other statuses."""
    if rng.random() < .5:
        data = re.sub(rb"(@@REDO:done:[^\n]*@@ )[0-9] ", lambda found: found[1] + rng.choice([b"0 ", b"1 "]), data)
    lines = data.split(b"\n")
    for _ in range(rng.choice([0, 1, 3, len(lines)])):
        at, to = rng.randrange(len(lines)), rng.randrange(len(lines))
        match rng.randrange(5):
            case 0 if len(lines) > 1:
                del lines[at]
            case 1:
                lines.insert(to, lines[at])
            case 2:
                lines[at], lines[to] = lines[to], lines[at]
            case 3 if not lines[at].startswith(b"@@"):
                lines[at] = lines[at].replace(b":1:", b":23:").replace(b"  1 |", b"  2 |")
            case 4:
                lines.insert(at, facts_files.compiler_line(rng))
    return b"\n".join(lines)


def add_source_lines(rng, folder):
    """Inserts the source lines that compilers print into logs, mostly after their warnings."""
    for path in logs_in(folder):
        with open(path, "rb") as file:
            lines = file.read().split(b"\n")
        for at in reversed(range(len(lines))):
            if rng.random() < (.5 if b"warning:" in lines[at] or b"error:" in lines[at] else .02):
                source = rng.choice([b"int x;", b"int y;", b" int x; ", b"", b"\xff"])
                lines.insert(at + 1, rng.choice([b"    1 | ", b"12 |", b"\x1b[m 3 | ", b"   | ", b"4| "]) + source)
        with open(path, "wb") as file:
            file.write(b"\n".join(lines))


def logs_in(folder):
    names = sorted(os.listdir(folder)) if os.path.isdir(folder) else []
    paths = [os.path.join(folder, name) for name in names if name.startswith(b"log.")]
    return [path for path in paths if os.path.isfile(path) and not os.path.islink(path) and os.path.getsize(path) < 1_000_000]


def add(rng, folder, baseline, other):
    """Makes a baseline of a capture directory, as a directory that doesn't exist yet. `other` makes another capture in a directory, and
    returns where it is there. Returns the path of the baseline."""
    kind = rng.choice([*["changed"] * 6, *["other"] * 2, "same", "none"])
    if kind == "same":
        return folder
    if kind == "other":
        os.mkdir(baseline)
        return other(baseline)
    if kind == "changed" and os.path.isdir(folder):
        shutil.copytree(folder, baseline, symlinks=True, ignore_dangling_symlinks=True)
        for path in logs_in(baseline):
            if rng.random() < .1:
                os.unlink(path)
            elif rng.random() < .7:
                with open(path, "rb") as file:
                    data = file.read()
                with open(path, "wb") as file:
                    file.write(changed(rng, data))
    return baseline
