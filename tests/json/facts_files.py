"""Random files `facts`: what a capture writes, lines of other forms, and damage."""
import os
import random
import re

import hostile
from directories import PIECES, hostile_text

INDEX_LINE = re.compile(rb"!?([1-9][0-9]{0,8}) (.+)")
NUMBERS = [b"0", b"1", b"7", b"04", b"30", b"99999", b"000000000000000", b"999999999999999"]
BAD_NUMBERS = [b"", b"-1", b"+1", b"1.5", b"1234567890123456", b"0000000000000001", b"x", b"1 ", b" 1"]
PATHS = [b".", b"d/e", b"/usr/src/x", b"../x", b" ", b"a b", b"\xff", b"caf\xc3\xa9", b"\"", b"d\\e", b"\r"]
COMMANDS = [
    b"", b" ", b"cc -c -o a.o a.c", b"echo 'a b' >&2; exit 1", b"printf '\\t\\n' \"$x\"", b"/bin/false '\xff\xfe'", b"true\r",
    b"\t@true", b"\0",
]
WORDS = [b"log", b"directory", b"command", b"truncated", b"more", b"usage"]


def text(rng):
    if rng.random() < .01:
        length = rng.choice([4095, 4096, 65_535, 65_536, 300_000])
        return (rng.choice(PIECES) * length)[:length]
    return rng.choice(COMMANDS) if rng.random() < .5 else hostile_text(rng, 9).replace(b"\n", b" ")


def usage(rng):
    return b" ".join(rng.choice(NUMBERS) for _ in range(3))


def good_line(rng, number, name):
    """A line that states something about the log with this number, once it has begun."""
    word = rng.choice([b"directory", *[b"command"] * 3, b"truncated", *[b"more"] * 3, b"usage"])
    return b"%s %s %s" % (number, word, {b"directory": rng.choice(PATHS), b"usage": usage(rng)}.get(word, text(rng)))


def bad_line(rng, number, name):
    """A line that states nothing about this number, or only for another reason than it seems."""
    word = rng.choice(WORDS)
    return rng.choice([
        lambda: b"",
        lambda: number,
        lambda: number + b" " + word,
        lambda: number + b" log ",
        lambda: number + b" directory ",
        lambda: number + b" usage " + b" ".join(rng.choice([*NUMBERS, *BAD_NUMBERS]) for _ in range(rng.choice([2, 3, 3, 3, 4]))),
        lambda: number + b" usage " + usage(rng) + rng.choice([b" ", b"\r", b" 1", b"x"]),
        lambda: rng.choice([b" ", b"0", b"00", b"!", b"+", b"-", b"\t"]) + number + b" " + word + b" " + name,
        lambda: number + rng.choice([b"  ", b"\t", b"", b"0 ", b"\xa0"]) + word + b" " + name,
        lambda: number + b" " + word + rng.choice([b"\t", b":", b"s ", b"\0 "]) + name,
        lambda: number + b" " + rng.choice([word.upper(), word.title(), word[:-1], b"log-", b"commands", b"dir", b""]) + b" " + name,
        lambda: rng.choice([b"0", b"1234567890", b"9999999999", b"x"]) + b" " + word + b" " + name,
        lambda: hostile_text(rng, 5).replace(b"\n", b""),
    ])()


def spelled(rng, name):
    return rng.choice([b"", b"", b"", b"./", b".//", b"x/../"]) + name if not name.startswith(b"/") else name


def lines_of_target(rng, number, name, names):
    """What a file states about one number, in order: logs that are earlier ones or of other targets, and mostly the log of its target."""
    logs = [rng.choice([name, rng.choice(names)]) for _ in range(rng.choice([0, 0, 0, 1, 2]))]
    logs += [name] * (rng.random() < .8)
    lines = [good_line(rng, number, name) for _ in range(rng.choice([0, 0, 0, 2]))]
    for log in logs:
        lines.append(b"%s log %s" % (number, spelled(rng, log)))
        lines += [(bad_line if rng.random() < .15 else good_line)(rng, number, name) for _ in range(rng.choice([0, 1, 2, 4, 9]))]
    return lines


def interleaved(rng, lists):
    """The lines of some lists, with the order in each list, as recipes that run at once write them."""
    places = [place for place, lines in enumerate(lists) for _ in lines]
    rng.shuffle(places)
    left = [iter(lines) for lines in lists]
    return [next(left[place]) for place in places]


def contents(rng, index):
    """The bytes of a file, for an index: a list of numbers and names."""
    names = [name for _, name in index] + [b"other", b"a"]
    lists = [lines_of_target(rng, number, name, names) for number, name in index if rng.random() < .9]
    data = b"".join(line + b"\n" for line in interleaved(rng, lists))
    for _ in range(rng.choice([0, 0, 0, 0, 1, 1, 3])):
        data = rng.choice([*hostile.DAMAGE, lambda rng, data: data[:-1]])(rng, data)
    return data


def read_index(folder):
    """The lines of an index that are valid, as numbers and names."""
    try:
        with open(os.path.join(folder, b"names"), "rb") as file:
            return [found.groups() for found in map(INDEX_LINE.fullmatch, file.read().split(b"\n")) if found]
    except OSError:
        return []


def write_facts(rng, folder):
    """Writes a file `facts` into a capture directory: mostly a regular file, sometimes none, a directory, or a symbolic link."""
    path = os.path.join(folder, b"facts")
    kind = rng.choice([*["file"] * 16, "missing", "directory", "link", "loop"])
    if not os.path.isdir(folder) or os.path.lexists(path) or kind == "missing":
        return
    if kind == "directory":
        os.mkdir(path)
    elif kind == "loop":
        os.symlink(b"facts", path)
    else:
        if kind == "link":
            os.symlink(b"facts.stored", path)
            path += b".stored"
        with open(path, "wb") as file:
            file.write(contents(rng, read_index(folder)))


# ---- lines of compilers ----------------------------------------------------------------------------------------------

HEADS = [
    b"", b"a.c:1: ", b"a.c:1:2: ", b"lib/b.c:870:38: ", b"b.h:9:9:  ", b"a.c:1:2:3: ", b"a.c:1234567890: ", b"a.c:007:010: ", b":1:2: ",
    b"a b.c:3: ", b"cc1: ", b"make[1]: *** ", b"/usr/bin/ld: /tmp/ccVGBeAi.o: ", b"/tmp/ccVGBeAi.o:(.text+0x10): ", b"[ 50%] ", b"x ",
    b"\xff.c:1:2: ", b"C:\\a.c:1: ", b"caf\xc3\xa9.c:1:2: ", b"a.c:1:2:", b"\t",
]
SEVERITIES = [*[b"warning:"] * 3, *[b"error:"] * 3, b"fatal error:", b"note:", b"Error:", b"xerror:", b"warning"]
AFTER = [*[b" "] * 6, b"", b"  "]
MESSAGES = [
    b"", b"x", b"unused variable \xe2\x80\x98x\xe2\x80\x99", b"\xfe", b"/tmp/cc0aZ9bQ.s: y", b"/tmp/ccVGBeA.o", b"y.h: No such file",
    b"a [b] c", b"error: y", b"]",
]
FLAGS = [*[b""] * 3, b" [-Wx]", b" [-Wunused-variable]", b" []", b" [a] [b]", b" [\xfd]", b" [a[b]]", b"[-Wx]", b" [-Wx] "]
COLOURS = [
    b"\x1b[01m\x1b[K", b"\x1b[m\x1b[K", b"\x1b[01;35m\x1b[K", b"\x1b]8;;https://gcc.gnu.org/x\x07", b"\x1b]8;;\x07", b"\x1b]8;;\x1b\\",
    b"\x1b[", b"\x1b]8;",
]


def compiler_line(rng):
    line = rng.choice(HEADS) + rng.choice(SEVERITIES) + rng.choice(AFTER) + rng.choice(MESSAGES) + rng.choice(FLAGS)
    for _ in range(rng.choice([0, 0, 1, 4])):
        at = rng.choice([0, rng.randrange(len(line) + 1), line.find(b":") + 1, len(line)])
        line = line[:at] + rng.choice(COLOURS) + line[at:]
    return line


def add_compiler_lines(rng, folder):
    """Inserts lines into logs of a capture directory, each before another line."""
    for name in sorted(os.listdir(folder)) if os.path.isdir(folder) else []:
        path = os.path.join(folder, name)
        if not name.startswith(b"log.") or not os.path.isfile(path) or rng.random() < .5:
            continue
        with open(path, "rb") as file:
            lines = file.read().split(b"\n")
        for _ in range(rng.choice([1, 3, 10]) if len(lines) > 1 else 0):
            lines.insert(rng.randrange(len(lines) - 1), compiler_line(rng))
        with open(path, "wb") as file:
            file.write(b"\n".join(lines))


def add(seed, directory, folder):
    """Adds lines of compilers and a file `facts` to a capture directory. Returns a generator of random numbers for this seed."""
    rng = random.Random(f"facts {seed}")
    folder = os.path.join(os.fsencode(directory), folder)
    add_compiler_lines(rng, folder)
    write_facts(rng, folder)
    return rng
