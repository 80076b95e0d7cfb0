"""Reads the contracts and the definitions of this repository, for the scripts beside it. It runs nothing by itself.

It knows as much of the two languages as the layout of `rt fmt` shows: where a function, a contract or a definition
begins and ends, and what a name was brought in from.
"""
import dataclasses
import functools
import pathlib
import re

TOP = pathlib.Path(__file__).resolve().parent.parent
CRATES = TOP / "crates"

IMPORT = re.compile(r"^\s*(?:pub |ghost )*use Rattle\.([\w.]+?)(?:\.\{([^}]*)\}|(?: as (\w+))?);?$", re.M)
NAME = re.compile(r"[^\W\d]\w*(?:-\w+)*(?:\.[^\W\d]\w*)*")
HEAD = re.compile(r"(?:abbrev |unfoldable )?(?:mutual\s+)?(?:pub )?(?:(?:record|data) )?([^\W\d]\w*|◌\S+◌)")
FUNCTION = re.compile(r"^\s*(pub )?(?:extern \"C\" )?fn (\w+)")
OWNER = re.compile(r"^(?:impl(?:<.*?>)? (?:(.*?) for )?(\w+).*|pub trait (\w+).*)\{$")
CLAUSE = re.compile(r"^\s*(requires|ensures)\s+(?:(\w+)\s+)?\{|^\s*(ghost) (\w+)(?: =|:) \{")


@functools.cache
def libraries():
    """The libraries of crates.txt, lowest first, without those that only hold tests."""
    rows = (TOP / "crates.txt").read_text().splitlines()
    names = [row.split(":")[0].split()[0] for row in rows if row[:1].isalpha()]
    return [name for name in names if not name.endswith("_tests")]


def without_comments(text, mark, keep_lines=False):
    lines = re.sub(rf"^[ \t]*{mark}.*" + ("" if keep_lines else "\n"), "", text, flags=re.M)
    return re.sub(rf"[ \t]*{mark}.*", "", lines)


def imports_of(text):
    """What each name that a file brings in stands for: the path of a module, or of an item of one."""
    names = {}
    for module, items, alias in IMPORT.findall(text):
        if not items:
            names[alias or module.split(".")[-1]] = module
        for item in filter(None, (item.strip() for item in items.split(","))):
            name, _, other = item.partition(" as ")
            names[other or name] = f"{module}.{name}"
    return names


@dataclasses.dataclass
class Function:
    """A function with a contract: the type or trait that it belongs to, and its clauses by their names."""

    crate: str
    path: pathlib.Path
    line: int
    owner: str
    name: str
    public: bool
    clauses: dict

    @property
    def called(self):
        return "::".join(filter(None, (self.owner, self.name)))


def exported(crate):
    """The names that a crate offers: of types, traits and functions, and of its public modules."""
    text = (CRATES / crate / "src" / "lib.rt").read_text()
    names = set(re.findall(r"^pub (?:mod|struct|enum|trait|fn) (\w+)", text, re.M))
    for many, one in re.findall(r"^pub use [\w:]*?(?:\{([^}]*)\}|(\w+));", text, re.M):
        names |= {name.strip() for name in many.split(",")} if many else {one}
    return names


def open_modules(crate):
    """The modules of a crate whose functions others may call by the module's name."""
    return re.findall(r"^pub mod (\w+);", (CRATES / crate / "src" / "lib.rt").read_text(), re.M)


@functools.cache
def functions(crate):
    """All functions of a crate's code, and the ghost parts of its traits and impls, as functions without a name."""
    source = CRATES / crate / "src"
    if not (source / "lib.rt").is_file():
        return []
    offered = exported(crate)
    return [item for path in sorted(source.rglob("*.rt")) for item in functions_of(crate, path, offered)]


def functions_of(crate, path, offered):
    found, owner, is_trait, ghosts = [], "", False, {}
    is_open = path.stem == "lib" or path.stem in open_modules(crate)
    text = without_comments(path.read_text().split("#[cfg(test)]\nmod tests {")[0], "//", keep_lines=True)
    lines = text.split("\n")
    for number, line in enumerate(lines):
        head, start, clause = OWNER.match(line), FUNCTION.match(line), CLAUSE.match(line)
        if head:
            owner, is_trait, ghosts = head.group(2) or head.group(3), bool(head.group(1) or head.group(3)), {}
            found.append(Function(crate, path, number + 1, owner, "", owner in offered, ghosts))
        elif line == "}":
            owner, is_trait = "", False
        elif start:
            is_offered = owner in offered if owner else is_open or start.group(2) in offered
            public = is_offered and bool(start.group(1) or is_trait)
            found.append(Function(crate, path, number + 1, owner, start.group(2), public, contract(lines[number:])))
        elif clause and clause.group(3) and owner:
            ghosts[clause.group(4)] = ghost_part(lines[number:])
    return found


def contract(lines):
    """The clauses of the function that begins here, by their names; those without a name are `requires`, `ensures`."""
    found, name = {}, None
    for line in lines:
        clause = CLAUSE.match(line)
        if clause and clause.group(1):
            name = clause.group(1) + (f" {clause.group(2)}" if clause.group(2) else "")
            found[name] = found.get(name, "") + line + "\n"
        elif re.match(r"\s*\{\}?$", line) or not name and line.endswith(("{", "{}")):
            break
        elif name:
            found[name] += line + "\n"
        # A method of a trait ends with its last clause, and a `;` behind that.
        if line.endswith(";") and (not name or found[name].count("{") == found[name].count("}")):
            break
    return found


def ghost_part(lines):
    """A ghost part of a trait or an impl, to its `;`."""
    text = ""
    for line in lines:
        text += line + "\n"
        if line.endswith(";") and line.startswith("    ") and text.count("{") == text.count("}"):
            break
    return text


class Definitions:
    """A file of specs/: its definitions by name, its length, and what it says of itself."""

    def __init__(self, path):
        self.path = path
        whole = path.read_text()
        self.lines = whole.count("\n")
        self.about = first_sentence(whole)
        text = without_comments(whole, "--")
        self.imports = imports_of(text)
        self.items, self.owners, name = {}, {}, ""
        for block in re.split(r"\n(?=\n|[a-z])", text):
            block = block.strip("\n")
            if block and not block.startswith(("use ", "pub use ", "pub mod ", "infix")):
                # What is indented belongs to the definition before it.
                name = name if block.startswith(" ") else HEAD.match(block).group(1)
                self.items[name] = self.items.get(name, "") + block + "\n"
        for name, block in self.items.items():
            self.owners[name] = name
            # A constructor stands for its whole type, and each of mutual definitions for all of them.
            if re.match(r"(?:pub )?data |\w+ mutual\b", block):
                self.owners.update({part: name for part in re.findall(r"^  (?:pub )?(\w+) :", block, re.M)})

    def used_by(self, name):
        return resolve(self.items[name], self.imports, self.owners, self.path)


def first_sentence(text):
    """The first sentence of the comment at the head of a file."""
    words = []
    for line in text.splitlines():
        if not line.startswith("--"):
            break
        words.append(line[2:].strip())
    sentence = re.split(r"(?<=[.])\s", " ".join(words) + " ")[0].strip()
    return sentence[:1].upper() + sentence[1:].rstrip(".")


@functools.cache
def definitions(path):
    return Definitions(path)


def resolve(text, imports, owners, path):
    """What a text names: the items of this repository as (file, item), and the words of other libraries."""
    own, others = set(), set()
    for word in NAME.findall(text):
        first, _, rest = word.partition(".")
        if first in owners:
            own.add((path, owners[first]))
        elif first in imports:
            full = imports[first]
            # The name of a module, with an item of it behind the dot.
            found = find(full) or rest and find(f"{full}.{rest.split('.')[0]}")
            if found:
                own.add(found)
            elif not full.startswith("css_"):
                others.add(full)
    own |= {(path, name) for name in owners if name[0] == "◌" and f" {name.strip('◌')} " in text}
    return own, others


@functools.cache
def find(full):
    """The definition that a path names, if it is one of this repository."""
    parts = full.split(".")
    if len(parts) < 4 or not (CRATES / parts[0]).is_dir():
        return None
    if parts[2] == "declared":
        return declared(parts[0], parts[3:])
    path = CRATES.joinpath(*parts[:-1]).with_suffix(".antt")
    if not path.is_file():
        return None
    file, name = definitions(path), parts[-1]
    if name in file.owners:
        return path, file.owners[name]
    # The file hands on what it brought in.
    return find(file.imports[name]) if name in file.imports else None


def declared(crate, parts):
    """A type or a constant of the code, as the definitions see it."""
    if parts[0] == "TheConstants":
        return CRATES / crate / "src" / "lib.rt", parts[1] if len(parts) > 1 else parts[0]
    names = [part for part in parts if part[0].isupper() and part != "TheVariants"]
    modules = [part for part in parts if part[0].islower()]
    return CRATES.joinpath(crate, "src", *modules or ["lib"]).with_suffix(".rt"), names[0]


def closure(roots):
    """All that these definitions rest on: items of this repository, and words of other libraries."""
    seen, words, waiting = set(), set(), list(roots)
    while waiting:
        item = waiting.pop()
        if item not in seen:
            seen.add(item)
            if item[0].suffix == ".antt":
                own, others = definitions(item[0]).used_by(item[1])
                waiting += own
                words |= others
    return seen, words
