"""Bytes, and how JSON has them. Python's `json` and `base64` computed the strings."""
import tempfile

import json_model
from command import run, write

# Bytes, the string with their text, and the string with the bytes in Base64.
STRINGS = [
    (b"", b'""', b'""'),
    (b"a.c:1: error: x", b'"a.c:1: error: x"', b'"YS5jOjE6IGVycm9yOiB4"'),
    (b"In function \xe2\x80\x98f\xe2\x80\x99:", b'"In function \xe2\x80\x98f\xe2\x80\x99:"', b'"SW4gZnVuY3Rpb24g4oCYZuKAmTo="'),
    (b"caf\xe9", b'"caf\xef\xbf\xbd"', b'"Y2Fm6Q=="'),
    (b'"\\/', b'"\\"\\\\/"', b'"Ilwv"'),
    (b"\x00\x01\x07\x08\t\n\x0b\x0c\r\x1b\x1f \x7f",
     b'"\\u0000\\u0001\\u0007\\b\\t\\n\\u000b\\f\\r\\u001b\\u001f \x7f"', b'"AAEHCAkKCwwNGx8gfw=="'),
    (b"\xf0\x9f\x98\x80\xe2\x80\xa8", b'"\xf0\x9f\x98\x80\xe2\x80\xa8"', b'"8J+YgOKAqA=="'),
    (b"\xed\xa0\x80", b'"\xef\xbf\xbd\xef\xbf\xbd\xef\xbf\xbd"', b'"7aCA"'),
    (b"\xc0\x80", b'"\xef\xbf\xbd\xef\xbf\xbd"', b'"wIA="'),
    (b"\xe2\x82", b'"\xef\xbf\xbd"', b'"4oI="'),
    (b"\xf0\x9f\x98a", b'"\xef\xbf\xbda"', b'"8J+YYQ=="'),
    (b"\xff\xfe\x80", b'"\xef\xbf\xbd\xef\xbf\xbd\xef\xbf\xbd"', b'"//6A"'),
    (b"\xf4\x90\x80\x80", b'"\xef\xbf\xbd\xef\xbf\xbd\xef\xbf\xbd\xef\xbf\xbd"', b'"9JCAgA=="'),
    (b"a\xe2(b", b'"a\xef\xbf\xbd(b"', b'"YeIoYg=="'),
    (b"ab\xff", b'"ab\xef\xbf\xbd"', b'"YWL/"'),
]  # fmt: skip
REPLACED = "\ufffd".encode()
# The program writes Base64 only of bytes that are no UTF-8. After three such bytes, it has the digits that a string has alone.
AFTER_OTHERS = [(b"\xff\xff\xff" + raw, b'"' + REPLACED * 3 + text[1:], b'"////' + exact[1:]) for raw, text, exact in STRINGS]


def list_of(name, text, exact):
    """The members for a list with one string."""
    return b'"%s":[%s]' % (name, text) + (b',"%s_base64":{"0":%s}' % (name, exact) if REPLACED in text else b"")


def expect_strings(checks, program):
    """Each string is a command, and a text line if it has no line feed."""
    rows = [*STRINGS, *AFTER_OTHERS]
    words = [b"--", *(b"t%d" % number for number in range(1, len(rows) + 1))]
    files = {"names": b"".join(b"%d t%d\n" % (number, number) for number in range(1, len(rows) + 1)), "facts": b""}
    for number, (raw, _, _) in enumerate(rows, 1):
        command = raw.replace(b"\n", b"\n%d more " % number)
        files["facts"] += b"%d log t%d\n%d command %s\n" % (number, number, number, command)
        files[f"log.{number}"] = raw + b"\n" if b"\n" not in raw else b""
    with tempfile.TemporaryDirectory() as folder:
        write(folder, files)
        results = ("the model", json_model.expected(folder, words)), ("the program", run(program, folder, words))
        for who, (status, out, message) in results:
            objects = out.split(b"\n")[:-1]
            checks.expect(f"{who}: strings", (status, len(objects), message), (0, len(rows), b""))
            for (raw, text, exact), found in zip(rows, objects):
                lines = list_of(b"lines", text, exact) if b"\n" not in raw else b'"lines":[]'
                wanted = list_of(b"commands", text, exact) + b',"needs":[],' + lines
                checks.expect(f"{who}: the string {raw}", found.partition(b'"directory":null,')[2].partition(b',"diagnostics":')[0], wanted)
