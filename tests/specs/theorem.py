"""Checks docs/theorem.md. It must quote each definition that the clause of a run depends on: once, verbatim, and after the
definitions that it cites. No two quoted definitions may share a name. `<!-- CRATE FILE -->` stands for the definitions of a file that
a reader needs and that nothing before it quotes, `<!-- CRATE FILE: LAST -->` for those of them up to LAST, and
`<!-- CRATE FILE: FIRST to LAST -->` for those between two. `; ` separates several in one comment. `run --quote` writes the block after
it."""
import os
import re

from contracts import TOP, Names, clauses, closing, contracts, read

PAGE = "docs/theorem.md"
CLAUSE_OF = "redo_run/src/running.rt"
# The maximum number of quoted lines.
MOST_LINES = 400
# The maximum number of other lines that the laws of a page depend on. docs/guarantees.md says it.
MOST_PAGE_LINES = 2700
# The same without the definitions of the page and of its parts, for all laws and for a law by itself.
MOST_READ_LINES = 1900
MOST_LAW_LINES = 970
UNREAD = [("Rattle.redo_page.specs.Page", "page_html"), ("Rattle.redo_page.specs.Page", "page_parts")]
PART = r"\w+ \w+(?:: (?:[^\s;]+ to )?[^\s;]+)?"
MARK = re.compile(rf"^(<!-- ({PART}(?:; {PART})*) -->\n)(?:```\n.*?\n```\n)?", re.M | re.S)


def clause():
    """Returns the clause of a run, verbatim, and what it cites."""
    text = read("crates", CLAUSE_OF)
    begin = text.index("    ensures ok {", text.index("pub fn run<"))
    end = closing(text, text.index("{", begin)) + 1
    whole = "\n".join(line[4:] for line in text[begin:end].split("\n"))
    return whole, set(Names(text).cited(text[begin:end]))


def reached(specs, places, unread=()):
    """Returns the definitions that a reader of these needs. Names of fields do not count, because a variable may have the same name. The
    reader needs nothing of the definitions in `unread`, nor what only they cite."""
    found, left = set(), {place for place in places if place in specs.texts} - set(unread)
    while left:
        found |= left
        left = {place for one in left for place in specs.texts[one][0].cited(specs.texts[one][1]) if place in specs.texts} - found - set(unread)
    return found


def lines_of(specs, place):
    return sum(bool(line.strip()) for line in specs.texts[place][1].split("\n"))


def lines_of_page(specs):
    """Returns the numbers of lines that the laws of a page depend on, beyond those of a run, by the modules with them."""
    laws = {place for where, _, cites in contracts("redo_page") if where.endswith("/laws.rt") for place in cites}
    counts = {}
    for place in sorted(reached(specs, laws) - reached(specs, clause()[1])):
        counts[place[0]] = counts.get(place[0], 0) + lines_of(specs, place)
    return counts


def lines_of_laws(specs):
    """Returns the number of lines that each law of a page depends on by itself, beyond those of a run, and that of all laws. The definitions
    of the page and of its parts don't count: a law holds of what `write_page` writes, however this is defined."""
    text = read("crates", "redo_page", "src", "laws.rt")
    cites = {}
    for where, _, cited, _, _, begin, _ in clauses("redo_page"):
        if where.endswith("/laws.rt"):
            cites.setdefault(re.findall(r"pub fn (\w+)", text[:begin])[-1], set()).update(cited)
    known = reached(specs, clause()[1])
    count = lambda places: sum(lines_of(specs, place) for place in reached(specs, places, UNREAD) - known)
    return {law: count(places) for law, places in cites.items()}, count(set().union(*cites.values()))


def faults_of_page(specs):
    lines = sum(lines_of_page(specs).values())
    laws, read_lines = lines_of_laws(specs)
    found = [f"the laws depend on {lines} lines, more than {MOST_PAGE_LINES}"] * (lines > MOST_PAGE_LINES)
    found += [f"the laws depend on {read_lines} lines without the page, more than {MOST_READ_LINES}"] * (read_lines > MOST_READ_LINES)
    found += [f"{law} depends on {lines} lines, more than {MOST_LAW_LINES}" for law, lines in laws.items() if lines > MOST_LAW_LINES]
    for most in (MOST_PAGE_LINES, MOST_READ_LINES, MOST_LAW_LINES):
        if f"at most {most:,}" not in read("docs/guarantees.md"):
            found.append(f"docs/guarantees.md doesn't say that laws depend on at most {most:,} lines")
    return found


def rows_of_page(specs):
    counts = lines_of_page(specs)
    laws, read_lines = lines_of_laws(specs)
    rows = sorted(((lines, module) for module, lines in counts.items()), reverse=True)
    return (
        [f"{lines} {module}" for lines, module in rows]
        + [f"{lines} {law}" for lines, law in sorted((lines, law) for law, lines in laws.items())]
        + [f"without the definitions of the page: {read_lines}"]
        + [f"lines that the laws of a page depend on: {sum(counts.values())}"]
    )


def quoted(specs, crate, file, name):
    module = f"Rattle.{crate}.specs.{file}"
    text = specs.texts.get((module, name), (None, ""))[1]
    return "\n".join(line.rstrip() for line in text.split("\n") if line.strip())


def blocks(specs, page):
    """Yields what each comment quotes: the places, and the text."""
    needed = reached(specs, clause()[1])
    left = {}
    for _, parts in MARK.findall(page):
        places, texts = [], []
        for part in parts.split("; "):
            crate, file, first, last = re.fullmatch(r"(\w+) (\w+)(?:: (?:(\S+) to )?(\S+))?", part).groups()
            if file == "run":
                texts.append(clause()[0])
                continue
            module = f"Rattle.{crate}.specs.{file}"
            names = left.setdefault(module, [name for place, name in specs.texts if place == module and (place, name) in needed])
            begin = names.index(first) if first in names else 0
            end = names.index(last) + 1 if last in names else len(names)
            places += [(module, name) for name in names[begin:end]]
            texts += [quoted(specs, crate, file, name) for name in names[begin:end]]
            del names[begin:end]
        yield places, "\n\n".join(texts)


def with_quotes(specs, page):
    texts = iter([text for _, text in blocks(specs, page)])
    return MARK.sub(lambda mark: f"{mark[1]}```\n{next(texts)}\n```\n", page)


def faults(specs):
    page = read(PAGE)
    needed = reached(specs, clause()[1])
    places = [place for quotes, _ in blocks(specs, page) for place in quotes]
    told = lambda place: ".".join(place[0].split(".")[1::2] + [place[1]])
    found = [f"{told(place)} is needed, but not quoted" for place in sorted(needed - set(places))]
    names = [name for _, name in places]
    found += [f"{name} is quoted twice" for name in sorted(set(names)) if names.count(name) > 1]
    for at, place in enumerate(places):
        scope, text = specs.texts.get(place, (None, ""))
        later = {other for other in (scope.cited(text) if scope else ()) if other in places[at + 1 :]}
        found += [f"{told(place)} precedes {told(other)}, which it cites" for other in later]
    lines = sum(bool(line) for _, text in blocks(specs, page) for line in text.split("\n"))
    found += [f"{lines} lines are quoted, more than {MOST_LINES}"] * (lines > MOST_LINES)
    if page != with_quotes(specs, page):
        found.append("a quote differs from its definition: tests/specs/run --quote writes them")
    return found


def write_quotes(specs):
    page = with_quotes(specs, read(PAGE))
    with open(os.path.join(TOP, PAGE), "w", encoding="utf-8") as file:
        file.write(page)
