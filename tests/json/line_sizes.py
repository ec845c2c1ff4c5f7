"""Directories whose logs have lines around the sizes at which programs change their ways: vectors of 16 to 128 bytes, 1,024 lines that
are stored together, and 65,536 bytes of lines that are joined. Bytes with escapes, and bytes that are no UTF-8, are near the ends of
lines."""
import os
import random

SIZES = [0, 0, 1, 2, 3, 14, 15, 16, 17, 31, 32, 33, 61, 62, 63, 64, 65, 126, 127, 128, 129, 300]
COUNTS = [1, 1, 2, 3, 5, 20, 60, 1023, 1024, 1025, 2000]
LONG = [65_530, 65_535, 65_536, 65_537, 70_000, 131_072]
SPECIAL = [b'"', b"\\", b"\t", b"\r", b"\0", b"\x1f", b" ", b"\x7f", b"\x80", b"\xc3", "é€😀".encode(), b"\xed\xa0\x80", b"\xff", b": warning: "]


def lines(rng):
    found = [bytes(rng.choices(b"abcXYZ 09.:/-_", k=rng.choice(SIZES))) for _ in range(rng.choice(COUNTS))]
    if rng.random() < .3:
        found[rng.randrange(len(found))] = bytes(rng.choices(b"abc", k=rng.choice(LONG)))
    for _ in range(rng.choice([0, 0, 1, 2, 5])):
        at = rng.randrange(len(found))
        line = found[at]
        place = rng.choice([0, len(line), rng.randrange(len(line) + 1)])
        found[at] = line[:place] + rng.choice(SPECIAL) + line[place:]
    return found


def case(seed, directory):
    """Makes a directory with five logs. Returns words for redo-log-html."""
    rng = random.Random(seed)
    names = [b"t%d" % number for number in range(1, 6)]
    with open(os.path.join(directory, "names"), "wb") as file:
        file.writelines(b"%d %s\n" % (number, name) for number, name in enumerate(names, 1))
    for number in range(1, 6):
        data = b"".join(line + b"\n" for line in lines(rng))
        with open(os.path.join(directory, f"log.{number}"), "wb") as file:
            file.write(data[:-1] if rng.random() < .3 else data)
    return [b"--dir=.", b"--", *names]
