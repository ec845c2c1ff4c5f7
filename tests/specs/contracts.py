"""Reads the definitions of the repository's crates, with what each cites, and their public contracts."""
import os
import re

TOP = os.path.dirname(os.path.dirname(os.path.dirname(os.path.abspath(__file__))))
WORD = re.compile(r"[^\W\d]\w*")
DOTTED = re.compile(r"[^\W\d][\w'-]*(?:\.[^\W\d][\w'-]*)*")
IMPORT = re.compile(r"^\s*(?:ghost )?use (Rattle\.[\w.+]+?)(?:\.\{([^}]*)\})?(?: as (\w+))?;?\s*$", re.M)
CLAUSE = re.compile(r"(?:\brequires|\bensures)\*?(?:\s+\w+)?\s*$")
GHOST = re.compile(r"\bghost\s+(?!use\b)(\w+)\s*[=:]\s*$")
ITEM = re.compile(r"\s*(?:#\[[^\]]*\]\s*)*(pub(?:\([^)]*\))? )?(?:unsafe |const )*(impl|trait|mod|struct|enum|fn)\b\s*(.*)", re.S)
# A comment, a string or a character. Its braces do not count.
NO_CODE = re.compile(r'//[^\n]*|/\*.*?\*/|b?"(?:\\.|[^"\\])*"|b?\'(?:\\[^\n\']+|[^\\\'\n])\'', re.S)
# A comment of a definition. An option in a string, such as `--dir`, begins none.
COMMENT = re.compile(r"--(?!\w)[^\n]*")
# The beginning of a definition, even within a module with parameters.
HEAD = r"(?:(?:pub (?!mod )|abbrev |unfoldable |record |data )+| +(?:(?:abbrev|unfoldable) (?:pub )?|pub (?:record|data) ))(?=[\w◌])"
# The fields or the constructors that a line of a definition declares. Several constructors may share a line.
PARTS = r"^ +(?:pub )?(?!pub |record |data )([^\s():]+(?: [^\s():]+)*) *:"


def read(*path):
    with open(os.path.join(TOP, *path), encoding="utf-8") as file:
        return file.read()


def files(folder, ending):
    """Returns the files below a directory of the repository, as paths relative to it, except what was built in `out`."""
    top = os.path.join(TOP, folder)
    found = (os.path.relpath(os.path.join(here, name), top) for here, _, names in os.walk(top) for name in names if name.endswith(ending))
    return sorted(path for path in found if "/out/" not in path)


def dependencies():
    """Returns the crates of the repository, each with the libraries that it uses directly."""
    return {crate.split()[0]: lower.split() for crate, lower in re.findall(r"^([^#\n:]+):([^#\n]*)", read("crates.txt"), re.M)}


def libraries_of(crate):
    """Returns the libraries of the repository that a crate depends on, each after its own dependencies."""
    below, order = dependencies(), []

    def visit(upper):
        for lower in below[upper]:
            if lower in below and lower not in order:
                visit(lower)
                order.append(lower)

    visit(crate)
    return order


def libraries():
    """Returns the crates of the programs, each after its own dependencies."""
    programs = ("redo_log", "redo_log_html", "redo_log_json", "redo_log_new")
    return list(dict.fromkeys(crate for program in programs for crate in [*libraries_of(program), program]))


def root_of(crate):
    """Returns the root file of a crate, which is a library or a program."""
    return "src/lib.rt" if os.path.exists(os.path.join(TOP, "crates", crate, "src/lib.rt")) else "src/main.rt"


def title_of(line):
    """Returns the first line of a file without its full stop; only its first sentence, if the last one goes on in the next line."""
    return line.rstrip(".") if line.endswith(".") else line.split(". ")[0]


class Names:
    """What the words of a file denote, by its imports. The file's own definitions are in the module `own`."""

    def __init__(self, text, own=None):
        self.words, self.modules, self.own = {}, {}, own
        for module, names, alias in IMPORT.findall(text):
            for name in filter(None, map(str.strip, names.split(","))):
                word, _, other = name.partition(" as ")
                self.words[other or word] = (module, word)
            if not names:
                self.modules[alias or module.rsplit(".", 1)[-1]] = module

    def cited(self, text):
        """Yields what a text cites, each as a module and a name."""
        for dotted in DOTTED.findall(text):
            first, *others = dotted.split(".")
            if first in self.words:
                yield self.words[first]
            elif first in self.modules and others:
                yield self.modules[first], others[0]
            elif first == "Rattle":
                yield dotted.rpartition(".")[0], others[-1]
            elif self.own:
                yield self.own, first
        for word, place in self.words.items():
            if "◌" in word and all(part in text for part in word.split("◌")):
                yield place


class Specs:
    """The definitions in specs/ of some crates, with what each cites."""

    def __init__(self, crates):
        self.texts, self.parts, self.files = {}, {}, {}
        for crate in crates:
            for path in files(f"crates/{crate}/specs", ".antt"):
                text = read("crates", crate, "specs", path)
                if re.search(r"^(?!--|(pub )?mod |\s*$)", text, re.M):  # a file of only such lines has no definitions
                    module = f"Rattle.{crate}.specs." + path.removesuffix(".antt").replace(os.sep, ".")
                    self.files[module] = (crate, path, text.count("\n"), title_of(text.split("\n")[0].removeprefix("-- ")))
                    self.add(module, COMMENT.sub("", text))
        self.cites = {place: {self.known(other) for other in names.cited(text)} - {None, place} for place, (names, text) in self.texts.items()}

    def add(self, module, text):
        names = Names(text, module)
        for part in re.split(rf"^(?={HEAD}|module )", IMPORT.sub("", text), flags=re.M):
            head = re.match(rf"({HEAD})(\S+)", part)
            if head:
                place = (module, head[2])
                self.texts[place] = (names, self.texts.get(place, (names, ""))[1] + part)
                if re.search(r"\b(record|data)\b", head[1]):
                    for fields in re.findall(PARTS, part, re.M):
                        for field in fields.split():
                            self.parts[module, field] = self.parts[".".join(place), field] = place

    def known(self, place):
        """Returns the definition at a place, or the definition that has this place as a field; None if there is neither."""
        return place if place in self.texts else self.parts.get(place)

    def reached(self, places):
        """Returns these definitions and all that they cite, directly or not."""
        found, left = set(), {self.known(place) for place in places} - {None}
        while left:
            found |= left
            left = {place for one in left for place in self.cites[one]} - found
        return found


def contracts(crate):
    """Yields the public contracts of a crate: the file of each, whether it is part of a model, and what it cites."""
    for where, model, cites, *_ in clauses(crate):
        yield where, model, cites


def clauses(crate):
    """Yields each part of a public contract: its file, whether it is part of a model, what it cites, the type or trait of its block, and its
    place in the file: where its item begins, where the braces open, and where they close."""
    file = root_of(crate)
    root = NO_CODE.sub("", read("crates", crate, file))
    handed_out = {name for used in re.findall(r"\bpub use ([^;]+);", root) for name in WORD.findall(re.sub(r"\b\w+ as ", "", used))}
    # The modules of a program count as public.
    modules = set(re.findall(r"\bpub mod (\w+)" if file == "src/lib.rt" else r"\bmod (\w+)", root)) | {"lib"}
    for path in files(f"crates/{crate}/src", ".rt"):
        text = NO_CODE.sub(lambda found: re.sub(r"[^\n]", " ", found[0]), read("crates", crate, "src", path))
        public = path.split(os.sep)[0].removesuffix(".rt") in modules
        yield from of_items(text, f"{crate}/src/{path}", Names(text), lambda name: public or name in handed_out, None, True)


def of_items(text, where, names, is_public, block, is_out, owner="", base=0):
    """Yields the contracts of items. `block` is the trait of the impl that contains them, `trait`, `own`, or None. `owner` is its type or
    trait, and `base` the place of `text` in its file."""
    head = at = 0
    while at < len(text):
        if text[at] == ";" and text.count("[", head, at) == text.count("]", head, at):  # not that of [u8; 4]
            head = at + 1
        elif text[at] == "{":
            before, end = text[head:at], closing(text, at)
            item, ghost, inside = ITEM.match(before), GHOST.search(before), text[at + 1 : end]
            if CLAUSE.search(before):
                free = block is None and is_public(WORD.match(item[3])[0])
                if is_out and ((item[1] or "").strip() == "pub" and (free or block == "own") or block not in (None, "own")):
                    yield where, False, set(names.cited(inside)), owner, base + head, base + at, base + end
            elif ghost:
                if is_out and block:
                    model = block == "Model" and ghost[1] in ("view", "invariant", "inverse")
                    yield where, model, set(names.cited(inside)), owner, base + head, base + at, base + end
            elif item:
                if item[2] in ("impl", "trait", "mod"):
                    trait, subject = parts_of(item)
                    out = item[2] == "mod" or is_public(subject)
                    name = f"{trait} for {subject}" if trait not in ("own", "trait", None) else subject * (item[2] != "mod")
                    yield from of_items(inside, where, names, is_public, trait, out, name, base + at + 1)
                head = end + 1
            elif not re.search(r"\buse\b", before):
                head = end + 1
            at = end
        at += 1


def closing(text, at):
    """Returns the index of the brace that closes the one at `at`."""
    depth = 0
    for place in range(at, len(text)):
        depth += (text[place] == "{") - (text[place] == "}")
        if depth == 0:
            return place


def parts_of(item):
    """Returns the trait of an impl, or the kind of the block, and the type or trait that the block is for."""
    if item[2] != "impl":
        return ("trait" if item[2] == "trait" else None), WORD.match(item[3])[0]
    trait, _, subject = re.sub(r"^<.*?>(?= )", "", item[3]).rpartition(" for ")
    return (WORD.findall(trait.split("<")[0])[-1] if trait else "own"), (WORD.search(subject) or [subject])[0]


is_private = lambda place: ".specs.Private." in place[0]
told = lambda place: ".".join(place).removeprefix("Rattle.")
