"""Tries specification mutants: one check of a library that has, for each mutant, a copy of what depends on it.

The copies are modules of that library, below specs/wrong_K. They depend on the crates themselves, which are given as
sources. Nothing in these is proved; only what the copies import is read, so no library needs to be built.
"""
import functools
import os
import re
import shutil
import subprocess

from contracts import PARTS, TOP, Names, Specs, closing, dependencies, is_private, libraries_of, read, root_of
from kept import BadEdit

KIT = os.path.dirname(os.path.dirname(os.path.realpath(shutil.which("rt") or "rt")))
ERROR = re.compile(r"^\./specs/(\w+)/(\w+)\.antt:\d+:\d+: error: (.*(?:\n[ \t].*)*)", re.M)
# How an error message shows two types that don't match, the most specific way first.
TWO = r"two types (?:differ only|first differ)\s+where one has `(.*?)`\s+\(expected\).*?the other has `(.*?)`\s+\(found\)"
ARE = r"two types are\s+`(.*?)`\s+\(expected\)\s+and\s+`(.*?)`\s+\(found\)"
DIFFER = [re.compile(how, re.S) for how in (rf"computed as far as they go, the {TWO}", rf"computed as far as they go, the {ARE}", rf"as printed, the {TWO}", r"expected type `(.*?)`,?\s+but this has type `(.*?)`(?!\S)")]
# What begins a value, besides the constructors of the crates' own types: a number, or a constructor of a common type.
VALUE = re.compile(r"\d+|\[\]|∷|true|false|zero|suc|pos|negsuc|record|tt|Some|None|Ok|Err|inl|inr")
CONSTRUCTOR = re.compile(r"Rattle\.(?:\w+\.)+(?:TheVariants|(\w+)\.\1)\.[A-Z]\w*")
COMMON = "Rattle.std.proofs.Common"
DIFFER_IN = "Rattle.wrong.specs.differs.Differs"
NO_TEXT = re.compile(r'"[^"]*"')
# Every trial has these two modules: a proof that two values are not equal if a test distinguishes them, and a control, which must
# be rejected.
DIFFERS = f"""-- Values that a test tells apart are not equal.
use {COMMON}.{{◌≡◌, Bool, true, false, sym, ap, ◌∙◌}}

pub differ : {{A : Type 0}} (test : A → Bool) {{a b : A}} → test a ≡ true → test b ≡ false → a ≡ b → ⊥
differ test of_a of_b same = let both : true ≡ false = sym of_a ∙ (ap test same ∙ of_b) in cc
"""
CONTROL = f"""-- What has to be refused.
use {COMMON}.{{◌≡◌, ℕ, refl}}

refused : ◌≡◌ {{A = ℕ}} 1 2
refused = refl
"""


class Crate:
    """The definitions of a crate that public contracts cite, its examples and its laws."""

    def __init__(self, name):
        self.name = name
        self.specs = Specs([name])
        self.modules = [place.split(".")[-1] for place in self.specs.files if not is_private((place,))]
        self.texts = {module: read("crates", name, "specs", module + ".antt") for module in self.modules}
        files = re.findall(r"^(?:pub )?mod (\w+Rows)$", read("crates", name, "proofs", "Lib.antt"), re.M)
        rows = {file: read("crates", name, "proofs", file + ".antt") for file in files}
        self.examples = {file: Examples(name, file, rows) for file in rows}
        laws = os.path.join("crates", name, "src/laws.rt")
        self.laws = read(laws) if os.path.isfile(os.path.join(TOP, laws)) else ""
        self.imports = {module: self.imported(text) for module, text in self.texts.items()}
        self.sources = [*self.texts.values(), *rows.values()]
        variants = re.findall(r"\.TheVariants\.\{([^}]*)\}", "\n".join(self.sources))
        self.constructors = {name.split(" as ")[-1].strip() for names in variants for name in names.split(",")}
        for enum in re.findall(r"^pub data [^\n]* where\n((?: +.*\n)+)", "\n".join(self.sources), re.M):
            self.constructors |= {name for names in re.findall(PARTS, enum, re.M) for name in names.split()}
        self.constructors |= lower_constructors("\n".join(self.sources))

    def imported(self, text):
        return {module for module in re.findall(rf"Rattle\.{self.name}\.specs\.(\w+)", text) if module in self.modules}

    def below(self, modules):
        """Returns these modules of definitions, and those that they depend on."""
        found, left = set(), set(modules)
        while left:
            found |= left
            left = {other for module in left for other in self.imports[module]} - found
        return found

    def statement(self, where):
        """Returns the statement of a clause of the laws."""
        function, _, clause = where.partition(".")
        head = re.search(rf"^pub fn {function}\(\)\n((?:(?!\{{\}}|pub ).*\n)*)", self.laws, re.M)
        clauses = {}
        for ensures in re.finditer(r"\bensures\b *(\w*) *\{", head[1] if head else ""):
            end = closing(head[1], ensures.end() - 1)
            clauses[ensures[1]] = re.sub(r"\s+", " ", head[1][ensures.end() : end]).strip()
        if clause not in clauses:
            raise BadEdit(f"src/laws.rt has no clause {where}")
        return clauses[clause]

    @functools.cached_property
    def origins(self):
        """The places of the names that the crate's files cite, and the modules that they import under another name."""
        origin = {name: (COMMON, name) for names in re.findall(r"\.\{([^}]*)\}", common()) for name in map(str.strip, names.split(","))}
        aliases = {}
        for source in self.sources:
            names = Names(source)
            origin.update({word: place for word, place in names.words.items() if f"Rattle.{self.name}.proofs." not in place[0]})
            aliases.update(names.modules)
        origin.update({name: (module, name) for module, name in self.specs.texts if not is_private((module,))})
        return origin, aliases

    def uses_for(self, text, known):
        """Yields `use` lines for the names that a text cites, except those that the texts in `known` have."""
        origin, aliases = self.origins
        has = Names("\n".join(known))
        words = set(re.findall(r"\[\]|[^\W\d][\w'-]*", text))
        operators = {name for name in origin if "◌" in name and all(part in NO_TEXT.sub("", text) for part in name.split("◌"))}
        for word in sorted((words & set(origin) | operators) - set(has.words)):
            module, name = origin[word]
            yield word, f"use {module}.{{{name}{'' if name == word else f' as {word}'}}}"
        for alias in sorted(word for word in aliases if f"{word}." in text and word not in has.modules):
            yield alias, f"use {aliases[alias]} as {alias}"

    def opened(self):
        """Returns the definitions to unfold for computing: the crate's own unfoldable ones, and those that its examples unfold."""
        own = [name for module in self.modules for name in re.findall(r"^unfoldable (?:pub )?(\S+) *:", self.texts[module], re.M)]
        opened = [name for text in self.sources for names in re.findall(r"^unfolding (.*)", text, re.M) for name in names.split()]
        return list(dict.fromkeys(own + opened))


def lower_constructors(text):
    """Returns the constructors that a text has of types of other crates: those of an enum, by another name of its module, and those
    of a `data` in specs/ that it imports."""
    found = set()
    for alias in re.findall(r"^use [^\n]*\.TheVariants as (\w+)$", text, re.M):
        found |= set(re.findall(rf"(?<![\w.]){alias}\.([A-Z]\w*)", text))
    for crate, file, kind, names in re.findall(r"^use Rattle\.(\w+)\.specs\.([A-Z]\w*)\.([A-Z]\w*)\.\{([^}]*)\}", text, re.M):
        path = os.path.join("crates", crate, "specs", file + ".antt")
        if os.path.isfile(os.path.join(TOP, path)) and re.search(rf"^pub data {kind}\b", read(path), re.M):
            found |= {name.split(" as ")[-1].strip() for name in names.split(",")}
    return found


def common():
    with open(os.path.join(KIT, "rattle/std/proofs/Common.antt"), encoding="utf-8") as file:
        return file.read()


class Examples:
    """The examples of a file by name, and the rest of the file, after those of the example files that it imports. What it imports
    from other proofs is omitted, and so are the examples that cite it, because it may not fit a mutant."""

    def __init__(self, crate, file, texts):
        own = re.compile(rf"^use Rattle\.{crate}\.proofs\.(\w+)\.\{{([^}}]*)\}}\n", re.M)
        files = [file]
        for other in files:
            files += [module for module, _ in own.findall(texts[other]) if module in texts and module not in files]
        lines = "".join(own.sub("", texts[other]) for other in reversed(files)).splitlines(keepends=True)
        self.rows, self.others = parts_of_rows("".join(sorted(lines, key=lambda line: not line.startswith("use "))))
        self.cites = {row: cited(self.rows, proof_of(row, text)) for row, text in self.rows.items()}
        self.own = set(re.findall(r"^(?:pub )?(?:abbrev |record |data )+(?:pub )?(\S+)", self.others, re.M))
        lacks = {name for other in files for module, names in own.findall(texts[other]) if module not in texts for name in names.split(", ")}
        self.alone = {row for row in self.rows if not cited(lacks, "".join(self.rows[other] for other in self.behind({row})))}

    def behind(self, names):
        """Returns these examples, and those that their proofs cite."""
        found, left = set(), set(names)
        while left:
            found |= left
            left = {other for row in left for other in self.cites[row]} - found
        return found

    def text(self, names):
        """Returns the file with only these examples and those that their proofs cite."""
        behind = self.behind(names)
        return self.others + "".join(text for row, text in self.rows.items() if row in behind)


def parts_of_rows(text):
    """Returns the examples of a file by name, and the rest of the file."""
    rows, others, given, name = {}, "", set(), None
    for part in re.split(r"^(?=[^\s)\]}])", text, flags=re.M):
        first = re.match(r"(?:pub )?(?:(abbrev|record|data|use|unfoldable|module|--)(?: pub)? *)?(\S*)", part)
        if first[1] in ("abbrev", "unfoldable"):
            given.add(first[2])
        if first[1] or first[2] in given:
            others, name = others + part, None
        elif part.startswith("unfolding ") and name:
            rows[name] += part
        elif first[2]:
            name = first[2]
            rows[name] = rows.get(name, "") + part
    return rows, others


def proof_of(row, text):
    """Returns the equations of an example."""
    return " ".join(re.split(rf"^{re.escape(row)}(?! *:)", text, flags=re.M)[1:])


def cited(names, text):
    """Returns those of these names that occur in a text."""
    return set(names) & set(re.findall(r"(?<![\w.'-])[^\W\d][\w'-]*", text))


class Trial:
    """A library of copies, in its own directory."""

    def __init__(self, wrongs, folder):
        self.wrongs, self.folder = wrongs, folder
        self.crates = {name: Crate(name) for name in dict.fromkeys(wrong.crate for wrong in wrongs)}
        self.written, self.bad = [], {}
        shutil.rmtree(folder, ignore_errors=True)
        self.write("differs", {"Differs": DIFFERS, "Control": CONTROL})
        for crate in self.crates.values():
            files = {wrong.where.split(".")[0] for wrong in wrongs if wrong.crate == crate.name and wrong.by == "row"} & set(crate.examples)
            rows = {file: crate.examples[file].text(crate.examples[file].alone) for file in files}
            self.write(crate.name, {**crate.texts, **rows}, crate, crate.modules)
        for number, wrong in enumerate(wrongs):
            try:
                self.write(f"wrong_{number}", *self.copies(wrong))
            except BadEdit as error:
                self.bad[number] = str(error)
        self.put("specs/Lib.antt", "".join(f"pub mod {name}\n" for name in sorted({name for name, _ in self.written})))
        uses = "".join(f"ghost use Rattle.wrong.specs.{name}.{module} as {name}_{module};\n" for name, module in self.written)
        self.put("src/lib.rt", f"//! Wrong definitions.\n{uses}\npub fn tried()\n    ensures {{ Unit {{0}} }}\n{{}}\n")

    def copies(self, wrong):
        """Returns the texts of the modules that a mutant changes, and of those that depend on them, up to what kills the mutant."""
        crate, changed = self.crates[wrong.crate], wrong.texts()
        if wrong.by == "row":
            name, text = example(crate, wrong)
        else:
            name, text = "Refuted", refuted_law(crate, wrong)
        needed = crate.below(crate.imported(text))
        copied = {module for module in crate.modules if module in changed or (module in needed and crate.below({module}) & set(changed))}
        return {**{module: changed.get(module, crate.texts[module]) for module in copied}, name: text}, crate, copied

    def write(self, name, texts, crate=None, copied=()):
        """Writes modules into a directory. Those that are copies import each other."""
        for module, text in texts.items():
            for other in copied:
                text = re.sub(rf"\bRattle\.{crate.name}\.specs\.{other}\b", f"Rattle.wrong.specs.{name}.{other}", text)
            self.put(f"specs/{name}/{module}.antt", text)
            self.written.append((name, module))
        self.put(f"specs/{name}.antt", "".join(f"pub mod {module}\n" for module in sorted(texts)))

    def put(self, path, text):
        path = os.path.join(self.folder, path)
        os.makedirs(os.path.dirname(path), exist_ok=True)
        with open(path, "w", encoding="utf-8") as file:
            file.write(text)

    def command(self):
        """Returns the command of the check: `rt check` would first prove and build the libraries below."""
        below = dependencies()
        own = dict.fromkeys(crate for name in self.crates for crate in [*libraries_of(name), name])
        theirs = sorted({"core", "std", *(lower for crate in own for lower in below[crate] if lower not in below)})
        words = [os.path.join(KIT, "bin/rattle"), "check", "--crate-name", "wrong", "src/lib.rt", "-L", f"dependency={KIT}/rlibs"]
        for library in theirs:
            words += ["--extern", f"{library}={KIT}/rlibs/{library}.rlib"]
        for crate in own:
            words += ["--lib", f"{crate}:{','.join(dict.fromkeys(['core', 'std', *below[crate]]))}={self.library_of(crate)}"]
        logic = ["--antt-project", f"{KIT}/rattle/logic/antt-project.json", "--logic-built", f"{KIT}/logic_built"]
        return words + logic + ["--links", "wrong=", "--jobs", "1", "--only", "tried"]

    def library_of(self, crate):
        """Returns the root file of a library. For a program, writes a library that has only its definitions."""
        folder = os.path.join(TOP, "crates", crate)
        if root_of(crate) == "src/main.rt":
            shutil.copytree(os.path.join(folder, "specs"), os.path.join(self.folder, "programs", crate, "specs"), dirs_exist_ok=True)
            self.put(f"programs/{crate}/src/lib.rt", "//! The definitions of a program.\n")
            folder = os.path.join(self.folder, "programs", crate)
        return os.path.join(folder, "src/lib.rt")

    def run(self):
        """Runs the check. Returns, for each mutant, whether it was killed, and how; before them, what else failed."""
        ran = subprocess.run(self.command(), cwd=self.folder, stdout=subprocess.PIPE, stderr=subprocess.STDOUT, text=True, errors="replace", check=False)
        self.put("output", ran.stdout)
        errors = {}
        for name, module, text in ERROR.findall(ran.stdout):
            errors.setdefault(name, []).append((module, text))
        control = errors.pop("differs", [])
        if not re.search(r"^only=1 ", ran.stdout, re.M) or not refusal(control, "Control", "refused", set()):
            last = [line for line in ran.stdout.splitlines() if "error" in line][:3] or ran.stdout.splitlines()[-3:]
            return [(False, f"the check did not complete, status {ran.returncode}: {' / '.join(last)[:600]}")]
        amiss = [f"{name} without an edit: {module}: {first_line(text)}" for name in self.crates for module, text in errors.get(name, [])]
        return [(False, fault) for fault in amiss] + [self.judged(number, wrong, errors.get(f"wrong_{number}", [])) for number, wrong in enumerate(self.wrongs)]

    def judged(self, number, wrong, errors):
        name = f"{wrong.crate}: {wrong.name}"
        file, _, row = wrong.where.partition(".")
        last = file if wrong.by == "row" else "Refuted"
        ill = [f"{module}: {first_line(text)}" for module, text in errors if module != last]
        if number in self.bad or ill:
            return False, f"{name}: BAD EDIT: {self.bad.get(number) or ill[0]}"
        if wrong.term:
            if errors:
                return False, f"{name}: NOT REFUTED: {wrong.by} {wrong.where}: {first_line(errors[0][1])}"
            return True, f"{name}: refused by {wrong.by} {wrong.where}"
        told = refusal(errors, file, row, self.crates[wrong.crate].constructors)
        if told:
            return True, f"{name}: refused by row {wrong.where}: {told}"
        if errors:
            return False, f"{name}: NOT REFUSED: the text of {wrong.where} no longer fits, which says nothing: {first_line(errors[0][1])}"
        return False, f"{name}: NOT REFUSED by row {wrong.where}"


def example(crate, wrong):
    """Returns a module with one example and what its file has besides examples, or with a proof that the example is false."""
    file, _, name = wrong.where.partition(".")
    if file not in crate.examples:
        raise BadEdit(f"there is no proofs/{file}.antt")
    examples = crate.examples[file]
    if name not in examples.rows:
        raise BadEdit(f"proofs/{file}.antt has no {name}")
    if not wrong.term:
        if name not in examples.alone:
            raise BadEdit(f"{wrong.where} cites other proofs")
        return file, examples.text({name})
    head = re.match(rf"(?:pub )?{re.escape(name)}\s*:\s*(.*?)\n(unfolding [^\n]*\n)?{re.escape(name)} ", examples.rows[name], re.S)
    return file, refuted(crate, wrong, examples, head[1], head[2] or "", [])


def refuted_law(crate, wrong):
    """Returns a module that proves that a law is false."""
    statement, opened = crate.statement(wrong.where), crate.opened()
    unfolding = f"unfolding {' '.join(opened)}\n" if opened else ""
    uses = re.findall(r"^ghost (use .*);$", crate.laws, re.M)
    return refuted(crate, wrong, crate.examples.get(wrong.given), statement, unfolding, uses)


def refuted(crate, wrong, examples, statement, unfolding, uses):
    """Returns a module that proves that a statement is false. It has what a file of examples has besides them, and the examples
    that the proof cites."""
    given = examples.text(cited(examples.rows, wrong.term)) if examples else ""
    uses = [*uses, f"use {DIFFER_IN}.{{differ}}", *wrong.uses]
    text = " ".join([statement, wrong.term, unfolding])
    uses += [use for word, use in crate.uses_for(text, [*uses, given]) if not examples or word not in examples.own | set(examples.rows)]
    return "\n".join(uses) + f"\n{given}\nrefuted : ({statement}) → ⊥\n{unfolding}{wrong.term}\n"


def refusal(errors, file, row, constructors):
    """Returns what an example computes to and what it should compute to, or None if the errors don't show that they differ."""
    if any(module != file or not text.startswith(f"`{row}`") for module, text in errors):
        return None
    for found in (way.search(text) for way in DIFFER for _, text in errors):
        pair = found and first_difference(found[1], found[2], constructors)
        if pair:
            return f"{pair[1]} is not {pair[0]}"
    return None


def first_difference(expected, found, constructors):
    """Returns the first words in which two terms differ, if they are two numbers or constructors, which are never equal."""
    words = [re.findall(r"[^\s(){};,=]+", text) for text in (expected, found)]
    # A list that isn't empty differs from the empty one in the `∷` that follows its first element.
    heads = [["∷", *text] if text[1:2] == ["∷"] else text for text in words]
    pair = next(((a, b) for a, b in zip(*heads) if a != b), None)
    if pair and all(VALUE.fullmatch(word.split(".")[-1]) or CONSTRUCTOR.fullmatch(word) or word.split(".")[-1] in constructors for word in pair):
        pair = tuple(word.split(".")[-1] for word in pair)
        return (expected, found) if len(expected + found) < 80 and "≡" not in expected and not expected.startswith("Path ") else pair
    return None


def short(text):
    text = re.sub(r"\s+", " ", text)
    return text if len(text) <= 70 else text[:67] + ".."


def first_line(text):
    return short(text.split("\n")[0])[:70] if len(text) < 70 else re.sub(r"\s+", " ", text)[:200]
