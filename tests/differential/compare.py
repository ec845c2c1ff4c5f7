"""Compares a program with model.py. Usage: compare.py PROGRAM GENERATOR FIRST LAST

For each seed from FIRST to LAST, both included, GENERATOR (`generate` or `hostile`) fills a fresh directory. PROGRAM runs in it,
and its status, standard output and standard error are compared byte for byte with the model's. With `hostile`, each 200th seed is a
log that grows while PROGRAM reads it. The result must then be the model's result for a prefix of the log. (TMPDIR=/dev/shm makes
it faster.)
"""

import collections
import multiprocessing
import os
import shutil
import subprocess
import sys
import tempfile
import time

import generate
import hostile
import model

MOST_SECONDS = 20  # for one run
MOST_PRINTED = 10
NEEDED_STATUSES = [0, 2, 3, 4, 5, 24]
STATUSES = [0, 2, 3, 4, 5, 6, 7, 24]
GENERATORS = {"generate": generate, "hostile": hostile}


def start(program, directory, words):
    pipe = subprocess.PIPE
    return subprocess.Popen([os.fsencode(program)] + words, cwd=directory, stdin=subprocess.DEVNULL, stdout=pipe, stderr=pipe)


def ended(process):
    """Returns the status (negative for a signal, or `timeout`), standard output and standard error, and the seconds that it took.

    It waits for each second separately. If the machine stops with all its processes, the stop counts as one second, however
    long it is. On a machine that others use too, stops of more than twenty seconds were seen.
    """
    began = time.monotonic()
    for _ in range(MOST_SECONDS):
        try:
            out, err = process.communicate(timeout=1)
            return (process.returncode, out, err), time.monotonic() - began
        except subprocess.TimeoutExpired:
            continue
    process.kill()
    return ("timeout", *process.communicate()), time.monotonic() - began


def same(expected, got):
    if expected[1] is None:  # the help text
        return got[0] == expected[0] and got[1] != b"" and got[2] == expected[2]
    return got == expected


def fronts_of(directory, words, path, more):
    """Returns the model's results for each prefix of the bytes that are appended to the file."""
    with open(path, "rb") as file:
        first = file.read()
    answers = []
    for end in range(len(more) + 1):
        with open(path, "wb") as file:
            file.write(first + more[:end])
        answers.append(model.answer(directory, words))
    with open(path, "wb") as file:
        file.write(first)
    return answers


def compared_as_it_grows(program, seed, directory):
    """Returns the seed, the arguments, the model's result for a prefix of what was appended, the program's result, and the seconds
    that it took."""
    words, path, more = hostile.growing(seed, directory)
    answers = fronts_of(directory, words, path, more)
    process = start(program, directory, words)
    with open(path, "ab", buffering=0) as file:
        for byte in more:
            file.write(bytes([byte]))
    got, seconds = ended(process)
    return seed, words, got if got in answers else answers[-1], got, seconds


def compared(task):
    """Returns the seed, the arguments, the model's result, the program's result, and the seconds that it took."""
    program, generator, seed = task
    directory = tempfile.mkdtemp(prefix="redo-log.")
    try:
        if generator == "hostile" and seed % 200 == 0:
            return compared_as_it_grows(program, seed, directory)
        words = GENERATORS[generator].case(seed, directory)
        expected = model.answer(directory, words)
        return seed, words, expected, *ended(start(program, directory, words))
    except Exception as error:
        raise RuntimeError(f"seed {seed}: {error!r}") from error
    finally:
        shutil.rmtree(directory)


def number_behind(words, option):
    """Returns the number given for an option, or None if the option isn't given."""
    for place, word in enumerate(words[:-1]):
        if word == option:
            return int(words[place + 1])
    for word in words:
        if word.startswith(option + b"="):
            return int(word[len(option) + 1 :])
    return None


def show(title, answer):
    status, out, err = answer
    print(f"  {title} status {status}\n    stdout {'(the help text)' if out is None else out}\n    stderr {err}")


def kind_of(status):
    """Returns how a run's end is counted, or None if it is a status of the table."""
    if status == "timeout":
        return "hangs"
    if status in STATUSES:
        return None
    return "signals" if status < 0 else "statuses outside the table"


def main(program, generator, first, last):
    if os.path.exists(program):
        program = os.path.abspath(program)
    statuses = collections.Counter()
    plans = collections.Counter()
    ends = collections.Counter()
    number, differ, slowest = 0, 0, 0
    with multiprocessing.Pool(os.cpu_count()) as pool:
        tasks = ((program, generator, seed) for seed in range(first, last + 1))
        for seed, words, expected, got, seconds in pool.imap(compared, tasks, chunksize=8):
            number += 1
            slowest = max(slowest, seconds)
            statuses[expected[0]] += 1
            ends[kind_of(got[0])] += 1
            if expected[0] in (0, 4, 5):
                plans[number_behind(words, b"--senders"), number_behind(words, b"--capacity")] += 1
            if same(expected, got):
                continue
            differ += 1
            if differ <= MOST_PRINTED:
                print(f"seed {seed} differs, arguments {words}")
                show("model  ", expected)
                show("program", got)
    missing = [status for status in NEEDED_STATUSES if number >= 1000 and statuses[status] == 0]
    for status in missing:
        print(f"no case had status {status}")
    wanted = [(int(senders), int(capacity)) for senders in generate.SENDERS for capacity in generate.CAPACITIES]
    if number >= 1000:
        for plan in wanted:
            if plans[plan] == 0:
                missing.append(plan)
                print("no case had {} senders and capacity {}".format(*plan))
    least = min(plans[plan] for plan in wanted)
    print(f"each of {len(wanted)} pairs of senders and capacity occurred at least {least} times")
    others = ", ".join(f"{ends[kind]} {kind}" for kind in ("hangs", "signals", "statuses outside the table"))
    print(f"{others}; the slowest run took {slowest:.1f} s")
    print(f"{generator}, seeds {first} to {last}: {number} directories, {differ} differ")
    print("status " + "".join(f"{status:>8}" for status in sorted(statuses)))
    print("cases  " + "".join(f"{statuses[status]:>8}" for status in sorted(statuses)))
    return 1 if differ or missing else 0


if __name__ == "__main__":
    if len(sys.argv) != 5 or sys.argv[2] not in GENERATORS:
        print("usage: compare.py PROGRAM GENERATOR FIRST LAST", file=sys.stderr)
        sys.exit(2)
    sys.exit(main(sys.argv[1], sys.argv[2], int(sys.argv[3]), int(sys.argv[4])))
