"""Captures of worked examples, with their times in milliseconds, and the page that a built program or the model makes of them."""
import tempfile

import page_model
from small_captures import files_of_logs, run, write_files
from times_model import logs_model, times_of
from worked_examples import record

FIRST = 1_600_000_000_000  # All times of a capture are in milliseconds after this one.
UNTIMED = b"1"  # A time that doesn't count.


def time(ms):
    return b"%d.%03d" % divmod(FIRST + ms, 1000)


def ran(name, began, ended, status=0):
    """The records of a target that ran between these times."""
    return record(b"do", time(began), name) + record(b"done", time(ended), b"%d %s" % (status, name))


def page_of_files(program, files):
    """The page of a capture directory with these files."""
    with tempfile.TemporaryDirectory() as folder:
        write_files(folder, files)
        status, page, message = run(program, folder, [])
    if (status, message) != (0, b""):
        raise RuntimeError(f"status {status}: {message}")
    return page


def page_of_logs(program, logs):
    return page_of_files(program, files_of_logs(logs))


def model_of(logs):
    """The model of the page of `all`."""
    build = page_model.Build([logs_model.log_of(*log) for log in logs.items()], [b"all"], False, False, times_of(list(logs.items())))
    return page_model.Page(build, b"", b".", [b"all"], 0, {}, None)
