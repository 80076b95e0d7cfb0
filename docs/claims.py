#!/usr/bin/env python3
"""Finds in the sources what the pages name: contracts in docs/PROOF.md, definitions in docs/SPECIFICATION.md.

A contract in a table is written `function` `clause`, `clause`; several are parted by semicolons. The crate is that of
the heading, as in "## css_num: ..", or stands before the function, as in `css_wc`: `decode`, and then holds to the end
of the row. A definition is named with its file, as `History.is_asked`. The status is 1 where a name isn't found, or
where docs/PROOF.md leaves out a law.
"""
import re
import sys

sys.dont_write_bytecode = True
import sources

PAGE = sources.TOP / "docs" / "PROOF.md"
MEANINGS = sources.TOP / "docs" / "SPECIFICATION.md"


def contracts(crate):
    """The clauses of each public function of a crate, and the ghost parts of each type and trait, by their names."""
    found = {}
    for function in filter(lambda each: each.public, sources.functions(crate)):
        clauses = {name.removeprefix("ensures ") for name in function.clauses if not name.startswith("requires")}
        module = function.path.stem
        for name in (function.called, f"{module}::{function.called}"):
            found.setdefault(name, set()).update(clauses)
    return found


def claims(page):
    """The crate, the function and the clauses of each contract of the page, with the number of its line."""
    heading = ""
    for number, line in enumerate(page.splitlines(), 1):
        if line.startswith("## "):
            heading = re.match(r"## (css\w*:)?", line).group(1) or ""
            heading = heading.rstrip(":")
        if not line.startswith("| ") or line.startswith("| promise"):
            continue
        crate = heading
        for part in line.rstrip(" |").rpartition(" | ")[2].split(";"):
            names = re.findall(r"`([^`]+)`", part)
            if re.match(r"\s*`css\w*`:", part):
                crate = names.pop(0)
            yield number, crate, names[0], names[1:]


def faults(page):
    known = {crate: contracts(crate) for crate in sources.libraries()}
    for number, crate, function, clauses in claims(page):
        found = known.get(crate, {}).get(function)
        if not found:
            yield f"line {number}: {crate or 'no crate'} has no contract of {function}"
            continue
        for clause in clauses:
            if clause not in found:
                yield f"line {number}: {crate}: {function} has no clause {clause}"


def laws(crate):
    """The public functions of a crate's modules of laws, and of its root, which has no other functions."""
    for function in sources.functions(crate):
        module = function.path.stem
        if function.public and not function.owner and (module.endswith("laws") or module == "lib"):
            yield function.name


def unnamed_laws(page):
    named = {(crate, function.rpartition("::")[2]) for _, crate, function, _ in claims(page)}
    for crate in sources.libraries():
        yield from (f"{crate}: no row names the law {law}" for law in laws(crate) if (crate, law) not in named)


def unknown_definitions(page):
    """The names of definitions in the first column of the tables of a page that no file of specs/ has."""
    known = set()
    for path in sources.CRATES.glob("*/specs/*.antt"):
        known |= {f"{path.stem}.{name}" for name in sources.definitions(path).owners}
    for number, line in enumerate(page.splitlines(), 1):
        if line.startswith("| `"):
            for name in re.findall(r"`([A-Z]\w*\.\w+)`", line.split(" | ")[0]):
                if name not in known:
                    yield f"line {number}: no definition {name}"


def main():
    page = PAGE.read_text()
    told = [f"{PAGE.name}, {fault}" for fault in [*faults(page), *unnamed_laws(page)]]
    told += [f"{MEANINGS.name}, {fault}" for fault in unknown_definitions(MEANINGS.read_text())]
    for fault in told:
        print(f"docs/{fault}")
    return 1 if told else 0


if __name__ == "__main__":
    sys.exit(main())
