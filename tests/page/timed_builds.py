"""Capture directories of builds that are only simulated: recipes that run in parallel, one after another or in others, with their times."""
import os
import random

# The seconds at which a build begins: the first and the last ones that count, one before, and usual ones.
BEGINNINGS = [1_000_000_000, 999_999_990, 1_600_000_000, *[1_795_829_211] * 6, 4_107_542_390, 9_999_999_990]
BUDGETS = [b"0", b"1", b"4096", b"5000", b"20000", b"100000", b"16000000"]
# Builds at the limits of rules: how long they take, and the lengths of recipes and the pauses between them in ten thousandths of that.
WIDTHS = [*[10_000] * 6, 1, 10, 11, 9278, 9999, 20_000, 59_999, 60_000, 100_000, 3_599_999, 3_600_000, 864_000_000]
LENGTHS = [0, 1, 9, 10, 10, 10, 11, 19, 20, 21, 29, 30, 49, 50, 340, 349, 350, 351]
PAUSES = [0, 0, 0, 9, 10, 11]


class Target:
    def __init__(self, name):
        self.name, self.below, self.runs_below, self.status = name, [], False, 0
        self.began, self.ended = 0, 0

    def each(self):
        yield self
        for target in self.below:
            yield from target.each()


class Build:
    """A build with some style: how its records are written, and what they don't say."""

    def __init__(self, rng, is_large, is_limit=False):
        self.rng, self.is_limit, self.bytes = rng, is_limit, 0
        # Whether each log has nine lines of 1,024 bytes.
        self.is_even = is_limit and rng.random() < .2
        # How many bytes all logs have, if they have no more without the last line of `all`.
        self.total = rng.choice([0, 1, 999, 1000, 1001, 9999, 10_000, 999_999, 1_000_000]) if is_limit and not self.is_even else 0
        # The length of the longest recipes is from 1 ms to some weeks.
        self.longest = int(10 ** rng.uniform(0, 9.2))
        self.equal = rng.random() < .05
        self.shape = rng.choice(["flat", "flat", "deep", "runs others", "runs others", "mixed"])
        self.failing = rng.choice([0, 0, .02, .3])
        self.warning = rng.choice([0, .05, .4])
        self.lines = rng.choice([0, 1, 3, 10, 30])
        # Not all records are written, and not all times are known.
        self.own_begin, self.own_end = rng.random() < .7, rng.random() < .85
        self.unknown = rng.choice([*[0] * 6, .02, .06, .3, 1])
        self.missing = rng.choice([0, 0, 0, .05, .2])
        self.decimals = rng.choice([0, 0, 1, 3, 3, 3, 3, 6, 9])
        self.start = rng.choice(BEGINNINGS) * 1000 + rng.randrange(1000)
        self.set_back = None
        if rng.random() < .1:
            self.set_back = rng.randrange(self.longest + 1), rng.randrange(self.longest + 1)
        self.slots = [0] * rng.choice([1, 2, 4, 8, 16, 17, 30, 41, 97])
        self.all = Target(b"all")
        if is_large:  # So that lanes run out, and bars and marks are joined.
            self.shape, self.unknown, self.missing, self.equal = rng.choice(["flat", "flat", "runs others"]), rng.choice([0, .01, .04]), 0, False
            self.slots, self.lines = [0] * rng.choice([4, 41, 97, 250, 600]), 1
        if is_limit:
            self.shape, self.longest, self.unknown, self.missing, self.decimals = rng.choice(["flat", "mixed"]), rng.choice(WIDTHS), 0, 0, 3
            self.slots, self.set_back, self.equal = [0] * rng.choice([1, 1, 2, 3]), None, False

    def targets(self, count):
        """Makes targets below `all`."""
        rng, made = self.rng, [self.all]
        for number in range(count):
            above = made[0]
            if self.shape != "flat":
                above = rng.choice(made[-3:] if self.shape == "deep" else made[: 1 + len(made) // 3])
            name = rng.choice([b"", b"", b"lib/", b"a/b/", b"<x>/"]) + rng.choice([b"t%d.o", b"%d", b"long-name-of-a-target-%d.o", b"&%d \xe2\x80\xae"]) % number
            target = Target(name)
            target.status = rng.choice([1, 2, -1, 127]) if rng.random() < self.failing else 0
            target.runs_below = self.shape == "runs others" or self.shape == "mixed" and rng.random() < .5
            above.below.append(target)
            made.append(target)
        self.all.runs_below = rng.random() < .2
        for target in reversed(made):
            if target.status == 0 and any(other.status for other in target.below) and rng.random() < .9:
                target.status = 2

    def run(self, target, ready):
        """Runs a target once it may: as soon as a slot is free, if it runs no others. A recipe that does takes the time of those."""
        length = int(self.longest * 10 ** self.rng.uniform(-4, 0))
        if self.is_limit:
            length = self.longest * self.rng.choice(LENGTHS) // 10_000
            ready += self.longest * self.rng.choice(PAUSES) // 10_000
        if target.below and target.runs_below:
            target.began = ready
            target.ended = max([self.run(other, ready + length // 9) for other in target.below]) + self.rng.choice([0, 0, length // 9])
            return target.ended
        ready = max([ready, *(self.run(other, ready) for other in target.below)])
        slot = min(range(len(self.slots)), key=self.slots.__getitem__)
        target.began = max(ready, self.slots[slot])
        target.ended = self.slots[slot] = target.began + length
        return target.ended

    def time(self, ms):
        """A time, as it is in a record."""
        rng = self.rng
        if rng.random() < self.unknown:
            return rng.choice([b"0", b"1", b"1.5", b"999999999.999", b"10000000000", b"18446744073709551616"])
        if self.equal:
            ms = 0
        if self.set_back and ms > self.set_back[0]:
            ms -= self.set_back[1]
        ms = max(0, self.start + ms)
        decimals = (b"%03d%06d" % (ms % 1000, rng.randrange(1_000_000)))[: self.decimals]
        return b"%d" % (ms // 1000) + (b"." + decimals if decimals else b"")

    def record(self, kind, ms, text):
        if self.rng.random() < self.missing:
            return []
        return [b"@@REDO:%s:%d:%s@@ %s" % (kind, self.rng.randrange(1, 99999), self.time(ms), text)]

    def text(self):
        """Some lines of text. One log in twenty is long; some have lines of 1,024 bytes."""
        rng = self.rng
        if self.is_even:
            return [b"x" * 1023] * 9
        if self.is_limit and rng.random() < .1:
            return [b"x" * 1023] * rng.choice([3, 4, 5, 9])
        count, length = rng.randrange(self.lines + 1), 40
        if rng.random() < .05:
            count, length = rng.choice([(1, 9000), (90, 200), (250, 100), (700, 20), (3, 30_000), (20, 4096)])
        return [(b"f.c:1: warning: x" if rng.random() < self.warning else b"w" * rng.randrange(length + 1)) for _ in range(count)]

    def log(self, target):
        """The lines of a target's log."""
        rng = self.rng
        lines = self.record(b"do", target.began, spelled(target, target)) if self.own_begin and target is not self.all else []
        parts = [[]] if self.own_begin else []
        for other in target.below:
            # A mention that is missing would make the log one that is not shown.
            name = spelled(other, target)
            parts.append([b"@@REDO:do:7:%s@@ %s" % (self.time(other.began), name)])
            parts.append(self.record(b"done", other.ended, b"%d %s" % (other.status, name)))
        text = self.text()
        self.bytes += sum(len(line) + 1 for line in text)
        if target is self.all and self.bytes < self.total:
            text.append(b"y" * (self.total - self.bytes - 1))
            self.bytes = self.total
        for place in sorted(rng.choice([len(parts)] * 4 + [0, rng.randrange(len(parts) + 1)]) for _ in text) if rng.random() < .3 else []:
            parts[min(place, len(parts) - 1) if parts else 0 : 0] = [[text.pop()]]
        lines += [line for part in parts for line in part] + text
        if target is self.all or self.own_end:
            lines += self.record(b"done", target.ended, b"%d %s" % (target.status, spelled(target, target)))
        return lines


    def write(self, directory):
        """Runs the targets, and writes their logs. Returns the targets."""
        self.run(self.all, 0)
        if self.is_limit and self.all.ended < self.longest:
            self.all.ended = self.longest
        every = list(self.all.each())
        with open(os.path.join(directory, "names"), "wb") as file:
            file.write(b"".join(b"%d %s\n" % (number, target.name) for number, target in enumerate(every, 1)))
        for number, target in reversed([*enumerate(every, 1)]):  # `all` is the last one.
            with open(os.path.join(directory, "log.%d" % number), "wb") as file:
                file.write(b"".join(line + b"\n" for line in self.log(target)))
        return every


def spelled(target, own):
    """How the log of `own` spells the name of a target."""
    return b"../" * own.name.count(b"/") + target.name


def case(seed, directory):
    """Writes a capture directory, and returns words of a command line."""
    rng = random.Random(f"timed {seed}")
    is_large = seed % 20 == 0
    build = Build(rng, is_large, seed % 5 == 1)
    build.targets(rng.choice([300, 600]) if is_large else rng.choice([0, 1, 2, 5, 12, 12, 30, 30, 80]))
    every = build.write(directory)
    budgets = [*BUDGETS, *[b"%d" % number for number in (build.bytes, max(1, build.bytes - 1), rng.randrange(1, 200_000))]]
    if build.is_even:  # So that exactly 8,192 bytes of each log are shown, or one byte less or more.
        budgets = [b"%d" % number for number in (8192 * len(every) - 1, 8192 * len(every), 8193 * len(every))]
    words = [b"--max-bytes=" + rng.choice(budgets)] * (rng.random() < (1 if build.is_even else .6))
    words += [b"-u"] * (rng.random() < .1) + [b"--debug-locks"] * (rng.random() < .1)
    requested = [b"all"] if rng.random() < .8 else [rng.choice(every).name for _ in range(2)]
    return [*words, b"--", *dict.fromkeys(requested)]
