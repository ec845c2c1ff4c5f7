"""Small files `facts`, and what JSON and a page say of them: worked out by hand, from the rules of docs/format.md alone."""
import os
import re
import tempfile

import json_reading
from checks import contents
from command import run, write
from facts_model import Facts, facts_of
from model import index_of

# What it shows, the index, the file, and the facts of each target.
FACTS = [
    (
        "targets of an index, whose numbers are in any order",
        b"9 b/c\n!7 a\n100 ./d\n",
        b"100 log d\n9 log b/../b/c\n9 command one\n7 log a\n100 command two\n9 more three\n7 command four\n1 command five\n",
        [Facts(commands=((b"one\nthree", True),)), Facts(commands=((b"four", True),)), Facts(commands=((b"two", True),))],
    ),
    (
        "the largest number",
        b"999999999 a\n",
        b"999999999 log a\n999999999 command x\n9999999990 command y\n",
        [Facts(commands=((b"x", True),))],
    ),
    (
        "`more` without a command, and after other facts",
        b"7 a\n",
        b"7 log a\n7 more x\n7 command y\n7 usage 1 2 3\n7 more z\n7 truncated u\n7 more v\n7 more w\n",
        [Facts(commands=((b"y\nz", True), (b"u\nv\nw", False)), usage=(1, 2, 3))],
    ),
    ("a command", b"7 a\n", b"7 log a\n7 command x\n", [Facts(commands=((b"x", True),))]),
    # Bytes that are missing, changed or repeated harm only the lines that have them.
    (
        "a damaged line",
        b"7 a\n8 b\n",
        b"7 log a\n8 log b\n7 com8 command y\n7 command x\n",
        [Facts(commands=((b"x", True),)), Facts()],
    ),
    (
        "lines without a word, and a name that is a space",
        b"7 a\n8 b\n",
        b"\n\n \n  \n7\n7 \n7  \n7  x\n7 log a\n7 log  \n8 log b\n8 command x\n7 command y\n",
        [Facts(), Facts(commands=((b"x", True),))],
    ),
    ("names of other targets", b"7 a\n", b"7 log ../a\n7 command x\n7 log /a\n7 command y\n", [Facts()]),
    (
        "spaces at the ends of a text belong to it",
        b"7 a\n",
        b"7 log a\n7 directory  d \n7 command  x \n",
        [Facts(b" d ", ((b" x ", True),))],
    ),
    (
        "a capture of make and a sub-make, with --commands",
        b"1 all\n2 a.o\n3 sub\n4 sub/x\n",
        b"1 log all\n2 log a.o\n2 directory /src\n2 command echo compiling\n2 usage 0 0 2216\n2 command false 'a b' \"it's\"\n"
        b"2 usage 1 0 2216\n3 log sub\n3 directory /src\n3 command make -C sub -s x\n4 log sub/x\n4 directory sub\n"
        b"4 command echo one\n4 more exit 3\n4 usage 0 0 2320\n3 usage 2 0 2320\n",
        [
            Facts(),
            Facts(b"/src", ((b"echo compiling", True), (b"false 'a b' \"it's\"", True)), (1, 0, 2216)),
            Facts(b"/src", ((b"make -C sub -s x", True),), (2, 0, 2320)),
            Facts(b"sub", ((b"echo one\nexit 3", True),), (0, 0, 2320)),
        ],
    ),
]


def rows_of_document():
    """The rows of the table of docs/format.md, each with the bytes of a file and the facts of the target `a`, which has number 7."""
    heading = r"^Contents \| Facts of the target `a`, which has number 7\n---\|---\n"
    for row in re.search(heading + r"((?:.+\n)+)", contents("docs/format.md"), re.M)[1].splitlines():
        data, wanted = row.split(" | ")
        yield row, b"" if data == "none" else data.strip("`").replace("\\n", "\n").encode(), wanted


def files_of(names, data):
    """The files of a capture in which each target failed."""
    files = {"names": names, "facts": data}
    for listed in index_of(names):
        files["log." + listed.number.decode()] = b"x\n@@REDO:done:7:1@@ 1 %s\n" % os.path.basename(listed.target)
    return files


def words_for(names):
    """The words that request all targets of an index."""
    return [b"--", *(listed.target for listed in index_of(names))]


def in_json(facts):
    """The directory, the commands that are whole, the milliseconds of the processor and the kilobytes."""
    usage = (sum(facts.usage[:2]), facts.usage[2]) if facts.usage else (None, None)
    return facts.directory, [text for text, is_whole in facts.commands if is_whole], *usage


def told_facts(out):
    """The same of each object."""
    return [(one["directory"], one["commands"], one["cpu_ms"], one["peak_kb"]) for one in json_reading.read(out)]


def in_page(facts):
    """The directory and all commands as an article of a page has them. They have no characters that HTML escapes."""
    path = b'<p class="meta">Directory: <bdi>%s</bdi></p>' % facts.directory if facts.directory is not None else b""
    cut = b'<p class="cut">The rest of this command is left out.</p>'
    return path + b"".join(b"<pre>\n%s</pre>" % text + (cut if not is_whole else b"") for text, is_whole in facts.commands)


def recipes_in(page):
    """What each article of a page has between its head and the target's text."""
    return re.findall(rb"<article .*?its place in the tree</a></p>(.*?)<pre>\nx\n</pre></article>", page, re.DOTALL)


def expect_told(checks, what, programs, names, data, facts):
    """JSON and a page of a capture tell these facts of its targets, in order."""
    program, html_program = programs
    with tempfile.TemporaryDirectory() as folder:
        write(folder, files_of(names, data))
        status, out, message = run(program, folder, words_for(names))
        checks.expect(f"{what}: JSON", (status, told_facts(out), message), (0, list(map(in_json, facts)), b""))
        status, page, message = run(html_program, folder, words_for(names))
        checks.expect(f"{what}: the page", (status, recipes_in(page), message), (0, list(map(in_page, facts)), b""))


def expect_facts(checks, program, html_program):
    for what, names, data, facts in FACTS:
        checks.expect(f"the model: facts: {what}", list(facts_of(index_of(names), data).values()), facts)
        expect_told(checks, f"facts: {what}", (program, html_program), names, data, facts)
