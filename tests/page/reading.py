"""What parsers of HTML read of a page: Python's html.parser, and html5lib, which follows the HTML standard."""
import html.parser
import re
import sys

VOID = ["meta"]
# The elements of a page, and the attributes and values that each may have. N is any number, P a percentage with two decimals.
ELEMENTS = {
    "html": ["lang=en"], "head": [], "body": ["class=good", "class=bad", "class=open"], "title": [], "style": [], "header": [], "h1": [],
    "h2": ["id=h-failed", "id=h-new", "id=h-summary", "id=h-timeline", "id=h-tree"], "h3": [], "p": ["class=meta", "class=quiet", "class=cut"],
    "nav": ["aria-label=Parts of this page"], "main": [],
    "section": ["id=failed", "id=new", "id=summary", "id=timeline", "id=tree", "aria-labelledby=h-failed", "aria-labelledby=h-new",
                "aria-labelledby=h-summary", "aria-labelledby=h-timeline", "aria-labelledby=h-tree"],
    "a": ["href=#failed", "href=#new", "href=#summary", "href=#timeline", "href=#tree", "href=#tN", "href=#fN", "tabindex=-1"],
    "article": ["id=fN"], "ul": ["class=tree"], "ol": ["class=list", "start=N"],
    "li": ["class=note", "id=tN"], "details": ["open=", "id=tN", "class=s", "class=more"], "summary": [], "pre": [], "bdi": [], "code": [],
    "strong": ["class=x", "class=o"], "em": [], "small": [], "footer": [], "i": [], "b": ["class=" + hue for hue in "rgybmc"],
    "span": ["class=sign", "aria-hidden=true", *["class=" + hue for hue in "rgybmc"]],
    "meta": ["charset=utf-8", "name=viewport", "content=width=device-width, initial-scale=1", "name=color-scheme", "content=light dark",
             "name=referrer", "content=no-referrer", "http-equiv=Content-Security-Policy",
             "content=default-src 'none'; style-src 'unsafe-inline'"],
    "dl": [], "dt": [], "dd": [], "div": ["class=cols", "class=scroll", "tabindex=0", "role=region", "aria-labelledby=h-timeline"],
    "table": [], "tbody": [], "tr": [], "th": ["scope=row"], "td": ["class=n", "class=m"],
    "svg": ["role=img", *[f"aria-label=A bar for each target, from its start to its end, in {lanes}" for lanes in ("1 lane", "N lanes")],
            "width=100%", "height=N", "font-size=11", "aria-hidden=true", "x=P", "y=N", "width=P"],
    "g": [*["class=" + kind for kind in ("axis", "w", "k", "e")], "stroke=#8886", "stroke-width=.5",
          *["fill=" + colour for colour in ("currentColor", "#8886", "#3a6ea5", "#8a6d3b")]],
    "line": ["x1=P", "x2=P", "y1=15", "y2=N"],
    "rect": ["x=P", "y=N", "width=P", "width=100%", "height=N", "class=f", "fill=#c62828", "fill=#3a6ea5"],
    "text": ["x=P", "x=4", "y=N", "text-anchor=middle", "text-anchor=end", "fill=#fff", "fill=currentColor"],
}
# The elements that are elements of SVG, and those that are in one: `a` and `title` are also elements of HTML.
OF_SVG = ["svg", "g", "line", "rect", "text"]
IN_SVG = [*OF_SVG, "a", "title"]
SVG = "{http://www.w3.org/2000/svg}"
NUMBER = "(?:0|[1-9][0-9]*)"


def form_of(name, value):
    """An attribute, with N in place of a number, and P in place of a percentage with two decimals."""
    value = value or ""
    if name in ("id", "href"):
        value = re.sub(f"^(#?[tf]){NUMBER}$", r"\1N", value)
    elif name in ("start", "y", "height", "y2"):
        value = re.sub(f"^{NUMBER}$", "N", value)
    elif name in ("x", "x1", "x2", "width"):
        value = re.sub(rf"^{NUMBER}\.[0-9][0-9]%$", "P", value)
    elif name == "aria-label":
        value = re.sub("(?<= in )(?!1 )[0-9]+ lanes$", "N lanes", value)
    return f"{name}={value}"


class Reader(html.parser.HTMLParser):
    """Reads a page, and notes its faults."""

    def __init__(self):
        super().__init__(convert_charrefs=True)
        self.open, self.faults, self.text, self.ids, self.links, self.after_pre = [], [], [], [], [], False

    def handle_starttag(self, tag, attributes):
        if tag not in ELEMENTS:
            self.faults.append(f"the element {tag}")
        if "svg" in self.open and tag not in IN_SVG or "svg" not in self.open and tag in OF_SVG and tag != "svg":
            self.faults.append(f"the element {tag} in {self.open}")
        self.faults += [f"{tag} has {name}={value}" for name, value in attributes if form_of(name, value) not in ELEMENTS.get(tag, [])]
        self.ids += [value for name, value in attributes if name == "id"]
        self.links += [value[1:] for name, value in attributes if name == "href"]
        self.links += [value for name, value in attributes if name == "aria-labelledby"]
        if tag not in VOID:
            self.open.append(tag)
        self.after_pre = tag == "pre"

    def handle_endtag(self, tag):
        if not self.open or self.open.pop() != tag:
            self.faults.append(f"an end tag of {tag}")
        self.after_pre = False

    def handle_data(self, data):
        if self.after_pre and data.startswith("\n"):
            data = data[1:]
        self.after_pre = False
        if self.open and self.open[-1] not in ("style",):
            self.text.append(data)

    def handle_comment(self, data):
        self.faults.append("a comment")

    def handle_pi(self, data):
        self.faults.append("a processing instruction")

    def handle_decl(self, declaration):
        if declaration != "doctype html":
            self.faults.append(f"the declaration {declaration}")

    def unknown_decl(self, data):
        self.faults.append("an unknown declaration")


def read(page):
    """Returns the text of a page, and its faults."""
    reader = Reader()
    reader.feed(page.decode("utf-8", "strict"))
    reader.close()
    faults = list(reader.faults)
    if reader.open:
        faults.append(f"no end tag of {reader.open}")
    if len(set(reader.ids)) < len(reader.ids):
        faults.append("an id twice")
    faults += [f"a link to {link}" for link in reader.links if link not in reader.ids]
    return "".join(reader.text), faults


def read_by_standard(page):
    """Returns the text of a page, and its faults, by html5lib. Every parse error is a fault."""
    sys.path.append("/usr/lib/python3/dist-packages")
    import html5lib
    parser = html5lib.HTMLParser(tree=html5lib.getTreeBuilder("etree"), namespaceHTMLElements=False)
    tree = parser.parse(page, transport_encoding="utf-8")
    faults = [f"{name} at {place}" for place, name, _ in parser.errors]
    text = []

    def walk(element, in_svg):
        name = element.tag.removeprefix(SVG)
        is_svg = name != element.tag
        if name not in (IN_SVG if is_svg else ELEMENTS) or is_svg != (in_svg or name in OF_SVG):
            faults.append(f"the element {element.tag}")
        faults.extend(f"{name} has {attribute}" for attribute, value in element.attrib.items() if form_of(attribute, value) not in ELEMENTS.get(name, []))
        if element.text and name != "style":
            text.append(element.text)
        for child in element:
            walk(child, is_svg)
            if child.tail:
                text.append(child.tail)

    sys.setrecursionlimit(20000)
    walk(tree, False)
    return "".join(text), faults
