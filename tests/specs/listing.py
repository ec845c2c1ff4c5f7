"""The list of public clauses: for each function its comment, the names of its clauses, and the definitions that each cites."""
import os
import re
import textwrap

from contracts import clauses, libraries, read, root_of

NAMED = re.compile(r"\b(requires|ensures)\*?(?:\s+(\w+))?\s*$")
FUNCTION = re.compile(r"\bfn (\w+)")
DOC = re.compile(r"^[ \t]*///[ \t]?(.*)$", re.M)
GHOST = re.compile(r"\bghost\s+(\w+)\s*[=:]\s*$")
# The comment of a clause: the lines directly before it.
ABOVE = re.compile(r"((?:^[ \t]*//(?!/).*\n)+)[ \t]*\Z", re.M)
WIDTH = 120


def functions(crate):
    """Returns the public functions of a crate with clauses: file, line, name, comment, and clauses. A clause has a name and what it cites."""
    found = {}
    for where, model, cites, owner, begin, at, _ in clauses(crate):
        text = read("crates", *where.split("/"))
        before = text[begin:at]
        named, function, ghost = NAMED.search(before), FUNCTION.findall(before), GHOST.search(before)
        if model or not named and (not ghost or " for " in owner):  # what an impl must define has no clause of its own
            continue
        name = function[-1] if named and function else f"ghost {ghost[1]}" if ghost else ""
        name = f"{owner}::{name}" if owner else name
        line = text.count("\n", 0, at - len(before) + before.rfind("fn ") if "fn " in before else at) + 1
        doc = " ".join(part.strip() for part in DOC.findall(before)).strip()
        clause = named and " ".join(filter(None, (named[1] if named[1] == "requires" else "", named[2]))) or ""
        above = named and ABOVE.search(before[: named.start()])
        note = " ".join(part.strip().removeprefix("//").strip() for part in above[1].splitlines()) if above else ""
        found.setdefault((where, name), (line, doc, []))[2].append((clause, note, cites))
    return found


def cited(specs, cites):
    """Returns the definitions that a clause cites, by files: `File: Definition, Definition; File: ..`."""
    known = sorted({place for place in map(specs.known, cites) if place})
    files = {}
    for module, name in known:
        files.setdefault(module.split(".specs.")[-1].replace("Private.", ""), []).append(name)
    return "; ".join(f"{file}: {', '.join(names)}" for file, names in files.items())


def rows(specs, crates):
    """Yields the purpose and the clauses of some crates, or of all."""
    for crate in crates or libraries():
        yield crate
        purpose = re.match(r"(?://! .*\n)+", read("crates", crate, root_of(crate)))
        yield from wrapped(" ".join(line.removeprefix("//! ") for line in purpose[0].splitlines()), "  ") if purpose else ()
        file = None
        for (where, name), (line, doc, parts) in functions(crate).items():
            if where != file:
                file = where
                yield f"  {where.partition('/')[2]}"
            yield f"    {name} (line {line})"
            yield from wrapped(doc, " " * 6)
            for clause, note, cites in parts:
                below = cited(specs, cites)
                text = (clause or "ensures") + (f": {note}" if note else "") + (f" [{below}]" if below else "")
                yield from wrapped("- " + text, " " * 6, " " * 8)


def wrapped(text, first, other=None):
    return textwrap.wrap(text, WIDTH, initial_indent=first, subsequent_indent=other or first, break_long_words=False, break_on_hyphens=False)


def without_comment():
    """Yields the public functions with clauses that have no comment. The functions of a trait are described there, not in its impls."""
    for crate in libraries():
        for (where, name), (line, doc, _) in functions(crate).items():
            if not doc and " for " not in name:
                yield f"{where}:{line}: {name} has no comment"
