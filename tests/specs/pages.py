"""The lists that `run` prints, and the names that docs/guarantees.md, killers.txt and laws.txt cite.

What kills each mutant is in killers.txt, what each law rules out in laws.txt; the rest comes from the files of the crates and of
tests/definition_mutants."""
import functools
import os
import re
import sys

from contracts import COMMENT, NO_CODE, TOP, files, is_private, libraries, read

sys.path.insert(0, os.path.join(TOP, "tests/definition_mutants"))
from kept import BadEdit, crates_kept, kept  # noqa: E402

GUARANTEES, KILLERS, LAWS = "docs/guarantees.md", "tests/specs/killers.txt", "tests/specs/laws.txt"
# The directories of a crate with its mutants: those that `rt ci` tries, and those that tests/mutants/run tries.
FOLDERS = ("must-fail", "mutants")
# The tables whose rows cite clauses and definitions, and those whose rows cite laws and their clauses.
TABLE = re.compile(r"^Guarantee \| Clause \| Definition\n[-|]+\n((?:.* \| .*\n?)+)", re.M)
TABLE_OF_LAWS = re.compile(r"^Law \| Clause \| In words\n[-|]+\n((?:.* \| .*\n?)+)", re.M)
QUOTED = re.compile(r"`([^`]+)`")
WORD = re.compile(r"[^\W\d]\w*")
ENSURES = re.compile(r"^ +ensures\b *(\w*) *\{", re.M)
# A function and what follows it, up to the next function.
FUNCTION = re.compile(r"\bfn (\w+)(.*?)(?=\bfn \w|\Z)", re.S)
# Functions, and clauses that one of them has.
CITED = re.compile(r"((?:`[\w:]+`, )*`[\w:]+`): (?:requires )?((?:`\w+`, )*`\w+`)")


def rows_of_files(specs):
    """Yields the public files of specs/: per crate, each file after those that it cites, with its number of lines and its title."""
    public = {module: row for module, row in specs.files.items() if not is_private((module,))}
    for crate in dict.fromkeys(row[0] for row in public.values()):
        left = [module for module, row in public.items() if row[0] == crate]
        yield f"{sum(public[module][2] for module in left):6} {crate}"
        while left:
            module = next((one for one in left if not cited_in(specs, one) & set(left) - {one}), left[0])
            left.remove(module)
            _, file, lines, title = public[module]
            yield f"{lines:6}   {file}: {title}"
    yield f"{sum(row[2] for row in public.values()):6} in all"


def cited_in(specs, module):
    """Returns the modules that the definitions of a module cite."""
    return {other for (own, _), cites in specs.cites.items() if own == module for other, _ in cites}


def mutants():
    """Returns the mutants of all crates, each with the file that it changes."""
    found = {}
    for crate in sorted(os.listdir(os.path.join(TOP, "crates"))):
        for folder in FOLDERS:
            for edit in files(f"crates/{crate}/{folder}", ".edit"):
                changed = re.findall(r"^file: (?:src/)?(\S+)", read("crates", crate, folder, edit), re.M)
                found[crate, edit.removesuffix(".edit")] = ", ".join(f"`{file}`" for file in dict.fromkeys(changed))
    return found


def killers():
    """Returns what kills each mutant according to killers.txt, and the faults of that file."""
    found, faults, crate = {}, [], None
    for number, line in enumerate(read(KILLERS).splitlines(), 1):
        name, _, killer = line.partition(" ")
        if line.startswith("["):
            crate = line.strip("[]")
        elif line.strip() and not line.startswith("#"):
            faults += [f"{KILLERS}:{number}: {name} has no killer"] * (not killer.strip())
            faults += [f"{KILLERS}:{number}: {name} is there twice"] * ((crate, name) in found)
            found[crate, name] = killer.strip()
    return found, faults


def faults_of_edits():
    """Yields the mutants and specification mutants whose old text isn't once in the file that they change."""
    for crate, mutant in mutants():
        for folder in FOLDERS:
            if mutant + ".edit" in files(f"crates/{crate}/{folder}", ".edit"):
                edit = read("crates", crate, folder, mutant + ".edit")
                for file, old in re.findall(r"^file: (\S+)\nold: ?(.*)", edit, re.M):
                    count = read("crates", crate, file).count(old)
                    if count != 1:
                        yield f"{crate}: {mutant}: '{old}' occurs {count} times in {file}"
    for crate in crates_kept():
        for wrong in kept(crate):
            try:
                wrong.texts()
            except BadEdit as fault:
                yield f"{crate}: {wrong.name}: {fault}"


def rows_of_mutants():
    """Yields the mutants of each crate, by the file that they change, and what kills each."""
    killed, changed = killers()[0], mutants()
    for crate in libraries():
        own = {name: file for (other, name), file in changed.items() if other == crate}
        for file in sorted(set(own.values())):
            yield f"{crate}, {file.replace('`', '')}"
            yield from (f"  {name}: {killed.get((crate, name), '')}" for name in sorted(own) if own[name] == file)


def rows_of_counts():
    """Yields the numbers of mutants and specification mutants of each crate, and of those that rows and laws kill."""
    yield "mutants  specification mutants  killed by a row  killed by a law"
    ways = {crate: [wrong.by for wrong in kept(crate)] for crate in crates_kept()}
    rows = []
    for crate in libraries():
        own, by = [one for one, _ in mutants() if one == crate], ways.get(crate, [])
        rows.append((len(own), len(by), by.count("row"), by.count("law")))
        yield "{:7} {:22} {:16} {:16}  {}".format(*rows[-1], crate)
    yield "{:7} {:22} {:16} {:16}  in all".format(*(sum(column) for column in zip(*rows)))


def rows_of_laws():
    """Yields the rows of laws.txt."""
    yield from (line for line in read(LAWS).splitlines() if " | " in line and not line.startswith("#"))


def faults_of_mutants():
    """Returns the mutants without a line in killers.txt, and the lines without a mutant."""
    (killed, faults), there = killers(), mutants()
    faults += [f"{KILLERS}: {crate} has no mutant {name}" for crate, name in killed if (crate, name) not in there]
    faults += [f"{KILLERS} lacks {crate}: {name}" for crate, name in there if (crate, name) not in killed]
    faults += [f"{KILLERS}: {name}: {fault}" for (_, name), cell in killed.items() for fault in unknown(cell)]
    return faults


def faults_of_guarantees(specs):
    """Returns what docs/guarantees.md cites that does not exist."""
    places, faults = {(module.rsplit(".", 1)[-1], name) for module, name in specs.texts}, []
    for row in (row for table in TABLE.findall(read(GUARANTEES)) for row in table.splitlines()):
        cells = [cell.strip() for cell in re.split(r" \|(?: |$)", row)]
        faults += [f"{GUARANTEES}: {cells[0][:50]}: not three cells"] * (len(cells) != 3)
        faults += [f"{GUARANTEES}: {cells[1]}: {fault}" for fault in unknown(cells[1])]
        for part in cells[-1].split(";"):
            file, *names = QUOTED.findall(part) or [None]
            faults += [f"{GUARANTEES}: {file}.antt has no definition {name}" for name in names if (file, name) not in places]
    return faults


def faults_of_laws():
    """Returns the clauses of laws that have no row in laws.txt, the rows for anything else, and the rows of docs/guarantees.md for anything
    else."""
    rows = {(law, clause) for row in rows_of_laws() for law, clause in cells_of(row.split(" | ")[0])}
    there = set()
    for path in (path for path in sources() if path.endswith("/laws.rt")):
        for function in re.split(r"^pub fn ", read("crates", path), flags=re.M)[1:]:
            there |= {(WORD.match(function)[0], clause) for clause in ENSURES.findall(function)}
    faults = [f"{LAWS} has no row for the law {law}: {clause}" for law, clause in sorted(there - rows)]
    changes = {word for row in rows_of_laws() for name in QUOTED.findall(row.partition(" | ")[2]) for word in WORD.findall(name) if "_" in word}
    faults += [f"{LAWS}: `{word}` is not in the sources" for word in sorted(changes - words_of_code())]
    faults += [f"{LAWS} has a row for {law}: {clause}, which is no clause of a law" for law, clause in sorted(rows - there)]
    told = {place for table in TABLE_OF_LAWS.findall(read(GUARANTEES)) for row in table.splitlines() for place in cells_of(" ".join(row.split(" | ")[:2]))}
    return faults + [f"{GUARANTEES} has a row for {law}: {clause}, which is no clause of a law" for law, clause in sorted(told - there)]


def cells_of(cell):
    """Returns the law that a cell names first, with each clause that it names after it, or with an empty one."""
    law, *clauses = QUOTED.findall(cell)
    return {(law, clause) for clause in clauses or [""]}


def sources():
    """Returns the source files of all crates."""
    return [path for path in files("crates", ".rt") if "/src/" in path]


@functools.cache
def words_of_code():
    """Returns the words of all sources and specs, without comments, and the names of their files."""
    words = set()
    for path in sources() + [path for path in files("crates", ".antt") if "/specs/" in path]:
        text = read("crates", path)
        words |= set(WORD.findall(NO_CODE.sub(" ", text) if path.endswith(".rt") else COMMENT.sub("", text)))
        words.add(os.path.basename(path).rsplit(".", 1)[0])
    return words


@functools.cache
def clauses_of_code():
    """Returns the named clauses of the functions with each name, in all crates."""
    found = {}
    for path in sources():
        text = NO_CODE.sub(" ", read("crates", path))
        for name, contract in FUNCTION.findall(text):
            found.setdefault(name, set()).update(re.findall(r"\b(?:requires|ensures)\*? +(\w+) *\{", contract))
    return found


def unknown(cell):
    """Yields the names between backquotes that are not in the sources, and the clauses that no function before the colon has."""
    yield from (f"`{word}` is not in the sources" for name in QUOTED.findall(cell) for word in WORD.findall(name) if word not in words_of_code())
    has = clauses_of_code()
    for functions, clauses in CITED.findall(cell):
        names = [name.rsplit("::", 1)[-1] for name in QUOTED.findall(functions)]
        if all(name in has for name in names):
            known = set().union(*(has[name] for name in names))
            yield from (f"{functions} has no clause `{clause}`" for clause in QUOTED.findall(clauses) if clause not in known)
