"""Texts and their HTML, and the pages of captures with these texts. An independent program in Python computed the HTML."""
import re
from typing import NamedTuple

from small_captures import all_of, contents, made_page, part, record
from text_model import passage

# ---- styles ----------------------------------------------------------------------------------------------------------


class Style(NamedTuple):
    """A style: the numbers that set it, the tags of its element, and the model's value."""

    numbers: bytes
    begin: bytes
    end: bytes
    model: tuple

    def line(self, text):
        """The HTML of a line that has this style."""
        return self.begin + text + b"\n" + self.end


PLAIN = Style(b"0", b"", b"", (False, "-"))
RED = Style(b"31", b'<span class="r">', b"</span>", (False, "r"))
GREEN = Style(b"32", b'<span class="g">', b"</span>", (False, "g"))
YELLOW = Style(b"33", b'<span class="y">', b"</span>", (False, "y"))
BLUE = Style(b"34", b'<span class="b">', b"</span>", (False, "b"))
MAGENTA = Style(b"35", b'<span class="m">', b"</span>", (False, "m"))
CYAN = Style(b"36", b'<span class="c">', b"</span>", (False, "c"))
BOLD = Style(b"1", b"<b>", b"</b>", (True, "-"))
BOLD_GREEN = Style(b"1;32", b'<b class="g">', b"</b>", (True, "g"))
BOLD_YELLOW = Style(b"1;33", b'<b class="y">', b"</b>", (True, "y"))
BOLD_BLUE = Style(b"1;34", b'<b class="b">', b"</b>", (True, "b"))
BOLD_CYAN = Style(b"1;36", b'<b class="c">', b"</b>", (True, "c"))

# ---- tables ----------------------------------------------------------------------------------------------------------

EVERY_BYTE = bytes(range(256))
ASCII_HTML = b" !\"#$%&amp;'()*+,-./0123456789:;&lt;=&gt;?@ABCDEFGHIJKLMNOPQRSTUVWXYZ[\\]^_`abcdefghijklmnopqrstuvwxyz{|}~"
HIGH_HTML = b"".join(b"\\x%02x" % byte for byte in range(0x80, 0x100))
EVERY_BYTE_HTML = (b"<i>^@^A^B^C^D^E^F^G^H</i>\t\n<i>^K^L^M^N^O^P^Q^R^S^T^U^V^W^X^Y^Z^[^\\^]^^^_</i>" + ASCII_HTML
                   + b"<i>^?" + HIGH_HTML + b"</i>")
EVERY_BYTE_TITLE = b"^@^A^B^C^D^E^F^G^H\t\n^K^L^M^N^O^P^Q^R^S^T^U^V^W^X^Y^Z^[^\\^]^^^_" + ASCII_HTML + b"^?" + HIGH_HTML

# The text of a log, and its HTML.
LOGS = [
    (b"cc -c \"a.c\" <x>&y'\n\tok", b"cc -c \"a.c\" &lt;x&gt;&amp;y'\n\tok"),
    (b"\x1b[01m\x1b[Ka.c:1:\x1b[m\x1b[K \x1b[01;31m\x1b[Kerror: \x1b[m\x1b[Kx", b'<b>a.c:1:</b> <b class="r">error: </b>x'),
    (b"\x1b[1;32mok\x1b[22m.\x1b[39m!\x1b[94mb", b'<b class="g">ok</b><span class="g">.</span>!<span class="b">b</span>'),
    (b"\x1b[38;5;196mr\x1b[48;2;1;31;1mg\x1b[33mb", b'rg<span class="y">b</span>'),
    (b"\x1b[;35mm\x1b[31;36mc\x1b[7;30mk\x1b[1031mz", b'<span class="m">m</span><span class="c">c</span>kz'),
    (b"\x1b[31mx\x1b[m\x1b[31my\x1b[32m", b'<span class="r">xy</span>'),
    (b"\x1b[31m\x1b[1mx\x1b[0m\x1b[38;5;31my\x1b[38;5;2;1;31mz", b'<b class="r">x</b>y<b class="r">z</b>'),
    (b"\x1bx1ma[1mb", b"<i>^[</i>x1ma[1mb"),
    (b"\x00\x00\x00\x00", b"<i>^@^@^@^@</i>"),
    (b"\x00\x00\x00\x00\x00a", b"<i>^@\xc3\x975 </i>a"),
    (b"\x01\x01\x02\r\n", b"<i>^A^A^B^M</i>\n"),
    (b"\x07\x1b[31m\x07\x1b[31m\x07", b'<i>^G</i><span class="r"><i>^G^G</i></span>'),
    (b"\x1b[3;1", b"<i>^[</i>[3;1"),
    (b"\x1b]0;t\x07", b"<i>^[</i>]0;t<i>^G</i>"),
    (b"", b""),
    (b"\n", b"\n"),
    (b"plain text, and more of it; 0123456789 ABC {}[]()\n" * 3, b"plain text, and more of it; 0123456789 ABC {}[]()\n" * 3),
    (EVERY_BYTE, EVERY_BYTE_HTML),
    (b"\x1b[31m\x00\x00\x00\x00\x00\x00\x00\x00\x00\x00\x00\x00\x1b[1m\x00\x00\x00x",
     b'<span class="r"><i>^@\xc3\x9712 </i></span><b class="r"><i>^@^@^@</i>x</b>'),
    (b"\x1b[9999999999999999999999m\x1b[01;031mred\x1b[m", b'<b class="r">red</b>'),
    (b"\x1b[31", b"<i>^[</i>[31"),
    (b"\x1b[", b"<i>^[</i>["),
    (b"\x1b", b"<i>^[</i>"),
    (b"\x1b[31;", b"<i>^[</i>[31;"),
    (b"\x1b[35;1mnote\x1b[0m \x1b[58:5:1mx\x1b[58;5;31my\x1b[90mblack\x1b[97mwhite\x1b[91mr\x1b[96mc",
     b'<b class="m">note</b> <i>^[</i>[58:5:1mxyblackwhite<span class="r">r</span><span class="c">c</span>'),
    (b"\xe6\x97\xa5\xe6\x9c\xac\xe8\xaa\x9e \xd1\x80\xd1\x83\xd1\x81 "
     b"\xe2\x80\xae\xe2\x80\xae\xe2\x80\xae\xe2\x80\xae\xe2\x80\xae\xe2\x80\xae x "
     b"\xef\xb8\x8f \xef\xb8\x8e \xed\x9f\xbf \xee\x80\x80 \xf4\x8f\xbf\xbf",
     b"\xe6\x97\xa5\xe6\x9c\xac\xe8\xaa\x9e \xd1\x80\xd1\x83\xd1\x81 <i>[U+202E]\xc3\x976 </i> x "
     b"\xef\xb8\x8f <i>[U+FE0E]</i> \xed\x9f\xbf \xee\x80\x80 <i>[U+10FFFF]</i>"),
    (b"\xf4\x90\x80\x80\xf0\x80\x80\x80\xf5\xe0\x80\x80\xc2", b"<i>\\xf4\\x90\\x80\\x80\\xf0\\x80\\x80\\x80\\xf5\\xe0\\x80\\x80\\xc2</i>"),
    (b"<script>alert(1)</script> </pre> --> ]]> &lt; &#x3c; &amp",
     b"&lt;script&gt;alert(1)&lt;/script&gt; &lt;/pre&gt; --&gt; ]]&gt; &amp;lt; &amp;#x3c; &amp;amp"),
    (b"w [\x1b]8;;https://gcc.gnu.org/x.html#index-Wall\x07-Wall\x1b]8;;\x07]", b"w [-Wall]"),
    (b"\x1b[01;35m\x1b[K\x1b]8;;http://x/?a&b;c\x1b\\-Wall\x1b]8;;\x1b\\\x1b[m\x1b[K]", b'<b class="m">-Wall</b>]'),
    (b"\x1b]8;id=1:k=v;http://x\x1b\\t\x1b]8;id=1;\x07\x1b]8;;\x07u", b"tu"),
    (b"\x1b[31ma\x1b]8;;m\x07b\x1b]8;;1m\x1b\\c", b'<span class="r">abc</span>'),
    (b"\x1b]8;;!~\x07a\x1b]8;;~!\x1b\\b", b"ab"),
    (b"\x07\x07\x07\x1b]8;;u\x07\x07\x07\x07", b"<i>^G^G^G^G^G^G</i>"),
    (b"\x1b]8;;a b\x07c", b"<i>^[</i>]8;;a b<i>^G</i>c"),
    (b"\x1b]8;;a\x7f\x07c", b"<i>^[</i>]8;;a<i>^?^G</i>c"),
    (b"\x1b]8;;\xc3\xa4\x07c", b"<i>^[</i>]8;;\xc3\xa4<i>^G</i>c"),
    (b"\x1b]8;u\x07c", b"<i>^[</i>]8;u<i>^G</i>c"),
    (b"\x1b]8;\x07c", b"<i>^[</i>]8;<i>^G</i>c"),
    (b"\x1b]8\x07;;c", b"<i>^[</i>]8<i>^G</i>;;c"),
    (b"\x1b]9;;u\x07c", b"<i>^[</i>]9;;u<i>^G</i>c"),
    (b"\x1b]8:;u\x07c", b"<i>^[</i>]8:;u<i>^G</i>c"),
    (b"\x1b[8;;u\x07c\x1bX8;;u\x07", b"<i>^[</i>[8;;u<i>^G</i>c<i>^[</i>X8;;u<i>^G</i>"),
    (b"a]8;;u\x07c", b"a]8;;u<i>^G</i>c"),
    (b"\x1b]8;;u", b"<i>^[</i>]8;;u"),
    (b"\x1b]8;;u\x1b", b"<i>^[</i>]8;;u<i>^[</i>"),
    (b"\x1b]8;;u\x1b[31mc", b'<i>^[</i>]8;;u<span class="r">c</span>'),
    (b"\x1b]8;;u\x1b]8;;u\x07c", b"<i>^[</i>]8;;uc"),
    (b"\x1b]8;;u\x08\\c", b"<i>^[</i>]8;;u<i>^H</i>\\c"),
    (b"\x1b]8;;u\n\x07c", b"<i>^[</i>]8;;u\n<i>^G</i>c"),
    (b"\x1b]8;;\x1b]8;;\x1b]8;;\x1b]8;;\x07y", b"<i>^[</i>]8;;<i>^[</i>]8;;<i>^[</i>]8;;y"),
]

# The style at the start of a text of a log, the text, and its HTML.
STYLED = [
    (RED, b"", b""),
    (RED, b"a\x1b[mb", b'<span class="r">a</span>b'),
    (BOLD, b"\x00x", b"<b><i>^@</i>x</b>"),
    (BOLD_BLUE, b"\x1b[31m", b""),
    (GREEN, b"\x1b[m x", b" x"),
    (CYAN, b"one\ntwo\x1b[22m <three>", b'<span class="c">one\ntwo &lt;three&gt;</span>'),
    (BOLD_YELLOW, b"\x1b[22m\x1b[1m&", b'<b class="y">&amp;</b>'),
]

# The style at the start of lines, the lines, their HTML, and the style at their end.
LINES = [
    (PLAIN, b"", b"", PLAIN),
    (BOLD_CYAN, b"", b"", BOLD_CYAN),
    (PLAIN, b"\n", b"\n", PLAIN),
    (RED, b"\n\n", b'<span class="r">\n</span><span class="r">\n</span>', RED),
    (PLAIN, b'cc -c a.c\n\nb <c> & "d"\n\te\n', b'cc -c a.c\n\nb &lt;c&gt; &amp; "d"\n\te\n', PLAIN),
    (PLAIN,
     b"\x1b[31mred\nstill red\n\x1b[mplain\nplain\n",
     b'<span class="r">red\n</span><span class="r">still red\n</span>plain\nplain\n',
     PLAIN),
    (BOLD_GREEN, b"x\n\x1b[39my\n\n\x1b[22mz\n", b'<b class="g">x\n</b><b>y\n</b><b>\n</b>z\n', PLAIN),
    (PLAIN, b"a\x00\n\x00b\n\x01\x01\x01\n\x01\x01\x01\n", b"a<i>^@</i>\n<i>^@</i>b\n<i>^A^A^A</i>\n<i>^A^A^A</i>\n", PLAIN),
    (PLAIN, b"\x1b[31\nm\x1b\n[1mx\n", b"<i>^[</i>[31\nm<i>^[</i>\n[1mx\n", PLAIN),
    (PLAIN, b"\xe2\x82\n\xac\xc3\n\xa9 \xe2\x82\xac\n", b"<i>\\xe2\\x82</i>\n<i>\\xac\\xc3</i>\n<i>\\xa9</i> \xe2\x82\xac\n", PLAIN),
    (PLAIN,
     b"one\ntwo\n\x1b[1;35mnote\x1b[m: three\nfour\nfive\n\x1b[Ksix\nseven\n",
     b'one\ntwo\n<b class="m">note</b>: three\nfour\nfive\nsix\nseven\n',
     PLAIN),
    (PLAIN, b"a\x1b[33m\nb\n\x1b[m\nc\n", b'a<span class="y">\n</span><span class="y">b\n</span>\nc\n', PLAIN),
    (PLAIN,
     b"\x1b[1;31ma\n\x1b[1;31mb\x1b[m\n\x1b[34;1m\nc\n",
     b'<b class="r">a\n</b><b class="r">b</b>\n<b class="b">\n</b><b class="b">c\n</b>',
     BOLD_BLUE),
    (MAGENTA,
     b"\x1b[1m\xff\xff\xff\xff\xff\n\xff\x1b[mx\n",
     b'<b class="m"><i>\\xff\xc3\x975 </i>\n</b><b class="m"><i>\\xff</i></b>x\n',
     PLAIN),
    (YELLOW, b"a\x1b[38;5;196mb\x1b[48;2;1;31;1mc\n\x1b[22;94md\n", b'<span class="y">abc\n</span><span class="b">d\n</span>', BLUE),
    (RED,
     b"\x1b]8;;u\x07a\nb\x1b]8;;\x1b\\\n\x1b]8;;u\n\x07c\n",
     b'<span class="r">a\n</span><span class="r">b\n</span><span class="r"><i>^[</i>]8;;u\n</span>'
     b'<span class="r"><i>^G</i>c\n</span>',
     RED),
]

# A name, and its HTML.
NAMES = [
    (b"\xef\xb7\x90\xef\xb7\xaf\xef\xbf\xbd\xef\xbf\xbe\xf0\x9b\xb2\xa0\xf0\x9d\x85\xba\xf0\x9f\xbf\xbf\xf4\x8f\xbf\xbe",
     b"<i>[U+FDD0][U+FDEF]</i>\xef\xbf\xbd<i>[U+FFFE][U+1BCA0][U+1D17A][U+1FFFF][U+10FFFE]</i>"),
    (b"\x1b[1mx\x1b[K", b"<i>^[</i>[1mx<i>^[</i>[K"),
    (b"\x7f\x1b\x1b[x\x1b[3", b"<i>^?^[^[</i>[x<i>^[</i>[3"),
    (b"\xe2\x80\x98\xc3\xa4\xf0\x9f\x98\x80\xe2\x80\x99", b"\xe2\x80\x98\xc3\xa4\xf0\x9f\x98\x80\xe2\x80\x99"),
    (b"\xe2\x80\xae\xe2\x80\x8b\xef\xbb\xbf\xf3\xa0\x81\x81\xc2\x85", b"<i>[U+202E][U+200B][U+FEFF][U+E0041][U+0085]</i>"),
    (b"\xff\xc3\xe2\x82\xe2\x82\xac\xc0\xaf\xed\xa0\x80", b"<i>\\xff\\xc3\\xe2\\x82</i>\xe2\x82\xac<i>\\xc0\\xaf\\xed\\xa0\\x80</i>"),
    (b"\xff\xff\xff\xff\xff\xff\xff ", b"<i>\\xff\xc3\x977 </i> "),
    (b"", b""),
    (EVERY_BYTE, EVERY_BYTE_HTML),
    (b"out/<b>&\"x'.o", b"out/&lt;b&gt;&amp;\"x'.o"),
    (b"\x1b]8;;u\x07c\x1b]8;;\x1b\\", b"<i>^[</i>]8;;u<i>^G</i>c<i>^[</i>]8;;<i>^[</i>\\"),
]

# A title, and its HTML.
TITLES = [
    (b"<b>\x1b[1m&\xff", b"&lt;b&gt;^[[1m&amp;\\xff"),
    (b"", b""),
    (EVERY_BYTE, EVERY_BYTE_TITLE),
    (b"</title><script>", b"&lt;/title&gt;&lt;script&gt;"),
    (b"\x1b]8;;u\x07c", b"^[]8;;u^Gc"),
]


# ---- texts of logs ---------------------------------------------------------------------------------------------------


def expect_lines_of_excerpt(checks, program, expected_page):
    """An excerpt shows each line by itself, without the style of the line before. Its last 60 lines have the texts of one line."""
    cases = [(text, html) for text, html in LOGS if b"\n" not in text]
    log = b".\n" * 301 + b"".join(text + b"\n" for text, _ in cases) + record(b"done", b"1 all")
    page = made_page(checks, program, expected_page, "texts of one line", {b"all": log})
    excerpt = part(page, b"<article", b"</article>").rpartition(b"<pre>\n")[2].partition(b"</pre>")[0]
    # An excerpt emphasizes the line with `error`.
    shown = excerpt.replace(b"<em>", b"").replace(b"</em>", b"").split(b"\n")[:-1]
    checks.expect("texts of one line: the lines of the excerpt", (len(cases), len(shown)), (45, 60))
    for (text, html), found in zip(cases, shown[-len(cases) :]):
        checks.expect(f"the HTML of {text}", found, html)


def expect_texts_of_lines(checks, program, expected_page):
    """The tree shows texts of several lines. Their lines end in the plain style, and an unended line gets a line feed."""
    cases = [(text, html) for text, html in LOGS if b"\n" in text]
    logs = {b"%d" % place: text for place, (text, _) in enumerate(cases, 1)}
    page = made_page(checks, program, expected_page, "texts of several lines", {b"all": all_of(logs), **logs})
    checks.expect("texts of several lines: how many", len(cases), 6)
    for place, (text, html) in enumerate(cases, 1):
        whole = html if html.endswith(b"\n") else html + b"\n"
        checks.expect(f"the HTML of {text}", contents(page, place), b"<li><pre>\n" + whole + b"</pre></li>")


def expect_styled_texts(checks, program, expected_page):
    """The model's HTML of texts that begin with a style, and the page of logs with these texts after a line that sets the style."""
    for style, text, html in STYLED:
        checks.expect(f"the model: the HTML of {text} after {style.numbers}", passage(text, style.model, colours=True)[0], html)
    logs = {b"%d" % place: b"\x1b[" + style.numbers + b"m\n" + text for place, (style, text, _) in enumerate(STYLED, 1)}
    made_page(checks, program, expected_page, "texts that begin with a style", {b"all": all_of(logs), **logs})


# ---- lines of logs ---------------------------------------------------------------------------------------------------

# The program writes the lines before a record and the lines after it in separate calls. The page shows nothing of this record.
HIDDEN = record(b"unchanged", b"x")
LAST = b"the last line"


def cut(lines):
    """The lines as they are, and with a record after each line feed."""
    return [lines, *(lines[: at + 1] + HIDDEN + lines[at + 1 :] for at, byte in enumerate(lines) if byte == 0x0A)]


def expect_lines(checks, program, expected_page):
    """The lines of each case follow a line that sets the style at their start. The line after them shows the style at their end."""
    cases, logs = [], {}
    for style, lines, html, style_after in LINES:
        first, first_html = (b"", b"") if style == PLAIN else (b"\x1b[" + style.numbers + b"m\n", style.line(b""))
        for number, pieces in enumerate(cut(lines)):
            cases.append((f"{lines} after {style.numbers}, cut {number}", first_html + html + style_after.line(LAST)))
            logs[b"%d" % len(cases)] = first + pieces + LAST + b"\n"
    page = made_page(checks, program, expected_page, "lines", {b"all": all_of(logs), **logs})
    checks.expect("lines: how many cases, and how many with cuts", (len(LINES), len(cases)), (16, 16 + 48))
    for place, (what, html) in enumerate(cases, 1):
        checks.expect(f"the HTML of {what}", contents(page, place), b"<li><pre>\n" + html + b"</pre></li>")


# ---- names and commands ----------------------------------------------------------------------------------------------


def expect_names(checks, program, expected_page):
    """The page shows names of targets, and commands of recipes that failed. Only commands have line feeds, or no bytes at all."""
    names = [(name, html) for name, html in NAMES if name and b"\n" not in name]
    logs = {name: b"" for name, _ in names}
    page = made_page(checks, program, expected_page, "names", {b"all": all_of(logs), **logs})
    checks.expect("names: how many", (len(NAMES), len(names)), (11, 9))
    for place, (name, html) in enumerate(names, 1):
        checks.expect(f"the HTML of the name {name}", part(page, b'<li id="t%d"><bdi>' % place, b"</bdi>"), html)
    targets = {b"a": NAMES[:6], b"b": NAMES[6:]}
    logs = {b"all": all_of(targets), **{target: record(b"done", b"1 " + target) for target in targets}}
    facts = b""
    for number, (target, texts) in enumerate(targets.items(), 2):
        facts += b"%d log %s\n" % (number, target)
        for text, _ in texts:
            facts += b"%d command %s\n" % (number, text.replace(b"\n", b"\n%d more " % number))
    page = made_page(checks, program, expected_page, "commands", logs, facts=facts)
    for place, texts in enumerate(targets.values(), 1):
        shown = re.findall(rb"<pre>\n(.*?)</pre>", part(page, b'<article id="f%d">' % place, b"</article>"), re.S)
        checks.expect(f"commands: how many of target {place}", len(shown), len(texts))
        for found, (text, html) in zip(shown, texts):
            checks.expect(f"the HTML of the command {text}", found, html)


# ---- titles ----------------------------------------------------------------------------------------------------------

# No argument has the byte 0 or bytes that are no UTF-8, and no name has a line feed. So no title has every byte, but these two do.
ASCII_TITLE = (EVERY_BYTE[1:0x80], EVERY_BYTE_TITLE.removeprefix(b"^@").removesuffix(HIGH_HTML))
OTHER_TITLE = (EVERY_BYTE.replace(b"\n", b""), EVERY_BYTE_TITLE.replace(b"\n", b""))


def expect_titles(checks, program, expected_page):
    """The page's title has the text of the option `--title`. Titles of bars have the names of targets."""
    for text, html in TITLES:
        checks.expect(f"the model: the title {text}", passage(text, marks=False)[0], html)
    sign, heading = "\u2713 ".encode(), b"1 target made, none failed"
    for text, html in [*TITLES[3:], ASCII_TITLE, TITLES[1]]:
        page = made_page(checks, program, expected_page, f"the title {text}", {b"all": record(b"done", b"0 all")}, [b"--title=" + text])
        wanted = sign + html + b" \xc2\xb7 " * bool(text) + heading
        checks.expect(f"the title {text}", part(page, b"<title>", b"</title>"), wanted)
    bars = [TITLES[0], *TITLES[3:], OTHER_TITLE]
    begun = b"".join(record(b"do", name, b"1600000001") for name, _ in bars)
    ended = b"".join(record(b"done", b"0 " + name, b"1600000002") for name, _ in bars)
    page = made_page(checks, program, expected_page, "titles of bars", {b"all": begun + ended, **{name: b"" for name, _ in bars}})
    titles = re.findall(rb'<a href="#t[0-9]+" tabindex="-1"><svg [^>]*><title>(.*?)</title>', page, re.S)
    checks.expect("titles of bars", titles, [html + b", 1.00 s" for _, html in bars])


def expect_texts(checks, program, expected_page):
    expect_lines_of_excerpt(checks, program, expected_page)
    expect_texts_of_lines(checks, program, expected_page)
    expect_styled_texts(checks, program, expected_page)
    expect_lines(checks, program, expected_page)
    expect_names(checks, program, expected_page)
    expect_titles(checks, program, expected_page)
