"""How bytes of logs and names are written as HTML: a part of the model of a page."""
import functools
import re

UNSEEN = [(0x80, 0x9F), (0xAD, 0xAD), (0x34F, 0x34F), (0x61C, 0x61C), (0x115F, 0x1160), (0x17B4, 0x17B5), (0x180B, 0x180F), (0x200B, 0x200B),
          (0x200E, 0x200F), (0x2028, 0x202E), (0x2060, 0x206F), (0x3164, 0x3164), (0xD800, 0xDFFF), (0xFDD0, 0xFDEF), (0xFE00, 0xFE0E),
          (0xFEFF, 0xFEFF), (0xFFA0, 0xFFA0), (0xFFF0, 0xFFFB), (0x1BCA0, 0x1BCA3), (0x1D173, 0x1D17A), (0xE0000, 0xE0FFF),
          *((plane + 0xFFFE, plane + 0xFFFF) for plane in range(0, 0x110000, 0x10000))]
HUES = "-rgybmc"
# What sets a style or erases a line, and a link.
SEQUENCE = re.compile(r"\x1b\[([0-9;]*)([mK])|\x1b\]8;[!-:<-~]*;[!-~]*(?:\x07|\x1b\\)")
PLAIN = (False, "-")


@functools.cache
def is_odd(letter):
    code = ord(letter)
    return code < 32 and letter not in "\t\n" or code == 127 or any(first <= code <= last for first, last in UNSEEN)


def picture(letter):
    code = ord(letter)
    if code < 32 or code == 127:
        return "^" + chr(code ^ 64)
    return "\\x%02x" % (code - 0xDC00) if 0xDC00 <= code <= 0xDCFF else "[U+%04X]" % code


def restyled(style, numbers):
    bold, hue = style
    values = [min(999, int(number or 0)) for number in numbers.split(";")]
    while values:
        value = values.pop(0)
        if value == 0:
            bold, hue = PLAIN
        elif value in (1, 22):
            bold = value == 1
        elif value == 39:
            hue = "-"
        elif 30 <= value <= 37 or 90 <= value <= 97:
            hue = (HUES + "-")[value % 10]
        elif value in (38, 48, 58) and values:  # a colour of 256 or of 2^24
            del values[: 2 if values[0] == 5 else 4]
    return bold, hue


def runs_of(raw, colours):
    """What the bytes show: runs of a letter, and the sequences between them."""
    text, at, runs = raw.decode("utf-8", "surrogateescape"), 0, []
    while at < len(text):
        found = SEQUENCE.match(text, at) if colours else None
        if found:
            runs.append((found[1] if found[2] == "m" else None, 0))
            at = found.end()
            continue
        count = 1
        while is_odd(text[at]) and text[at + count : at + count + 1] == text[at] and not (colours and SEQUENCE.match(text, at + count)):
            count += 1
        runs.append((text[at], count))
        at += count
    return runs


def tag_of(style):
    bold, hue = style
    return ("b" if bold else "span") + ("" if hue == "-" else f' class="{hue}"')


def passage(raw, style=PLAIN, colours=False, marks=True):
    """Returns bytes as HTML, and the style at their end."""
    wanted, current, odd, out = style, PLAIN, False, []

    def end_style():
        if current != PLAIN:
            out.append("</%s>" % tag_of(current).split(" ")[0])

    for letter, count in runs_of(raw, colours):
        if count == 0:
            wanted = restyled(wanted, letter) if letter is not None else wanted
            continue
        now_odd = is_odd(letter)
        if odd and not (wanted == current and now_odd):
            out.append("</i>")
            odd = False
        if wanted != current:
            end_style()
            current = wanted
            if current != PLAIN:
                out.append("<%s>" % tag_of(current))
        if now_odd and not odd:
            out.append("<i>")
        odd = now_odd
        if now_odd:
            out.append(picture(letter) * count if count < 5 else "%s\u00d7%d " % (picture(letter), count))
        else:
            out.append({"&": "&amp;", "<": "&lt;", ">": "&gt;"}.get(letter, letter))
    if odd:
        out.append("</i>")
    end_style()
    html = "".join(out)
    return (html if marks else re.sub("</?[ib][^>]*>|</?span[^>]*>", "", html)).encode(), wanted


def name_html(raw):
    return passage(raw)[0]


def bdi(raw):
    return b"<bdi>" + name_html(raw) + b"</bdi>"


def lines_html(lines, framed=lambda line, html: html):
    """Lines of one block: the style of a line goes on in the next one. `framed` returns a line's HTML with what is around it."""
    out, style = [], PLAIN
    for line in lines:
        html, style = passage(line + b"\n", style, colours=True)
        out.append(framed(line, html))
    return b"".join(out)


def cut_to(limit, raw):
    """The longest prefix of a log's text that has at most `limit` bytes and ends between letters and sequences."""
    text, at, size = raw.decode("utf-8", "surrogateescape"), 0, 0
    while at < len(text):
        found = SEQUENCE.match(text, at)
        end = found.end() if found else at + 1
        more = len(text[at:end].encode("utf-8", "surrogateescape"))
        if size + more > limit:
            break
        at, size = end, size + more
    return raw[:size]
