"""Reads the specification mutants in this directory's files. There is one file for each crate, named after it.

    == what_is_wrong_in_words
    file: Names                       a file of the crate's specs/
    old: TEXT                         a line that occurs once in the file (or, after a line `in: NAME`, in this definition of it)
    new: TEXT                         in which ⏎ ends a line (more of these may follow, also for other files)
    by: row NameRows.computed         what kills it: an example in the crate's proofs/, ..
    by: law splitting_is_unique.only  .. or a clause in its src/laws.rt; for a law with one clause only the law's name
    refuted is = TERM                 a proof that the statement is false then; a law needs it; it may continue on indented lines

Names that the term cites are imported automatically if the crate's files say from where; otherwise a line `use: MODULE.{name}`
imports them. The term may also cite names of the example's file. If a law is refuted, it may cite names of the file that a line
`given: NameRows` at the head of the text gives.
"""
import os
import re
from contracts import COMMENT, HEAD, TOP, Specs, read

FOLDER = os.path.dirname(os.path.abspath(__file__))


class BadEdit(Exception):
    """A mutant that can't be tried."""


class Wrong:
    def __init__(self, crate, name):
        self.crate, self.name = crate, name
        self.edits, self.by, self.where, self.term, self.uses, self.given = [], None, None, None, [], None

    def texts(self):
        """Returns the files that it changes, with their changed texts."""
        changed = {}
        for file, within, old, new in self.edits:
            parts = parts_of(changed.get(file) or specs_file(self.crate, file))
            places = [place for place, (name, part) in enumerate(parts) if within in (None, name) for _ in range(part.count(old))]
            if len(places) != 1:
                raise BadEdit(f"'{old}' occurs {len(places)} times in {within or file + '.antt'}")
            changed[file] = "".join(part.replace(old, new) if place == places[0] else part for place, (_, part) in enumerate(parts))
        return changed

    def definitions(self):
        """Returns the definitions that it changes, each as a module and a name."""
        places = set()
        for file, text in self.texts().items():
            were, are = definitions_in(self.crate, file, specs_file(self.crate, file)), definitions_in(self.crate, file, text)
            places |= {place for place in were if are.get(place) != were[place]}
        return places


def specs_file(crate, file):
    if not os.path.isfile(os.path.join(TOP, "crates", crate, "specs", file + ".antt")):
        raise BadEdit(f"there is no specs/{file}.antt")
    return read("crates", crate, "specs", file + ".antt")


def parts_of(text):
    """Returns the definitions of a file with their names, and the text before and between them."""
    parts = re.split(rf"^(?={HEAD}|module |use |--)", text, flags=re.M)
    heads = [re.match(rf"{HEAD}(\S+)", part) for part in parts]
    return [(head and head[1], part) for head, part in zip(heads, parts)]


def definitions_in(crate, file, text):
    specs = Specs([])
    specs.add(f"Rattle.{crate}.specs.{file}", COMMENT.sub("", text))
    return {place: re.sub(r"\s+", " ", own).strip() for place, (_, own) in specs.texts.items()}


def crates_kept():
    return sorted(name.removesuffix(".txt") for name in os.listdir(FOLDER) if name.endswith(".txt"))


def kept(crate):
    """Returns the mutants of a crate."""
    found, given = [], []
    with open(os.path.join(FOLDER, crate + ".txt"), encoding="utf-8") as file:
        for number, line in enumerate(file.read().splitlines(), 1):
            try:
                take(line, crate, found, given)
            except (ValueError, IndexError) as error:
                raise SystemExit(f"tests/definition_mutants/{crate}.txt:{number}: {error}: {line}")
    for wrong in found:
        wrong.given = given[0] if given else None
        if not wrong.edits or not wrong.where or wrong.edits[-1][3] is None or (wrong.by == "law" and not wrong.term):
            raise SystemExit(f"tests/definition_mutants/{crate}.txt: {wrong.name} lacks a part")
        if "?" in (wrong.term or ""):
            raise SystemExit(f"tests/definition_mutants/{crate}.txt: {wrong.name} has a hole in its proof")
    names = [wrong.name for wrong in found]
    twice = sorted({name for name in names if names.count(name) > 1})
    if twice:
        raise SystemExit(f"tests/definition_mutants/{crate}.txt: these names occur twice: {', '.join(twice)}")
    return found


def take(line, crate, found, given):
    """Adds what a line says to the last mutant found, or to the head before the first one."""
    if line.startswith("== "):
        found.append(Wrong(crate, line[3:].strip()))
        return
    if not line.strip() or line.startswith("#"):
        return
    word, _, text = line.partition(":")
    if word == "given" and not found:
        given.append(text.strip())
        return
    wrong = found[-1]
    if line[0].isspace() and wrong.term:
        wrong.term += "\n" + line
    elif line.startswith("refuted "):
        wrong.term = line
    elif word == "file":
        wrong.file, wrong.within = text.strip(), None
    elif word == "in":
        wrong.within = text.strip()
    elif word == "old":
        wrong.edits.append((wrong.file, wrong.within, text[1:], None))
        wrong.within = None
    elif word == "new":
        wrong.edits[-1] = (*wrong.edits[-1][:3], text[1:].replace("⏎", "\n"))
    elif word == "use":
        wrong.uses.append("use " + text.strip())
    elif word == "by":
        wrong.by, wrong.where = text.split()
        if wrong.by not in ("row", "law"):
            raise ValueError("neither a row nor a law")
    else:
        raise ValueError("not a line of a mutant")
