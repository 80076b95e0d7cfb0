#!/usr/bin/env python3
"""Writes the tables of docs/TRUSTED.md: which definitions the promises rest on.

A clause of a contract names definitions, these name others, and so on. Who believes the clause believes all of them,
and nothing else that stands in specs/. This script follows the names, file by file.

    docs/trusted.py            writes the tables anew
    docs/trusted.py --check    writes nothing; the status is 1 where the page isn't what the sources say
    docs/trusted.py NAME..     tells what definitions rest on, each named as css_companion.Headline.TheHeadline
"""
import sys

sys.dont_write_bytecode = True
import sources

PAGE = sources.TOP / "docs" / "TRUSTED.md"

# Each table of the page, and the definitions that its clauses name. A table leaves out what an earlier one has.
TABLES = {
    "headline": ["css_companion.Headline.TheHeadline"],
    "replay": ["css_replay.Headline.Promised"],
    "live": ["css_drive.CompanionRun.Ran"],
    "commands": ["css_app.Commands.ByCompanion", "css_app.Commands.ByPair", "css_app.Commands.ByTv"],
    "generated": ["css_app.Commands.ByGenerate", "css_app.Commands.BySurvey"],
    "agree": ["css_app.Commands.ByAgree", "css_app.Commands.ByPairs"],
    "audit": ["css_app.Commands.ByAudit"],
    "record": ["css_app.Commands.ByRecord"],
    "relay": ["css_app.Commands.ByRelay", "css_drive_relay.SecondHop.SecondHopsAreTrue"],
    "migrate": ["css_app.Commands.ByMigrate", "css_laws.Writing.WrittenIsReplayedAlike"],
    "watch": ["css_app.Commands.ByWatch", "css_watch_laws.Promises.CarriedLinesAreTrue"],
}


def named(text):
    crate, module, name = text.split(".")
    item = sources.find(f"{crate}.specs.{module}.{name}")
    if item is None:
        sys.exit(f"docs/trusted.py: no definition {text}")
    return item


def public_names():
    """The definitions that the clauses of all public functions, traits and types name."""
    items = set()
    for crate in sources.libraries():
        for function in filter(lambda each: each.public, sources.functions(crate)):
            imports = sources.imports_of(function.path.read_text())
            for text in function.clauses.values():
                items |= sources.resolve(text, imports, {}, function.path)[0]
    return items


def crate_of(path):
    return path.relative_to(sources.CRATES).parts[0]


def in_reading_order(paths):
    """The files of definitions, each behind those that it cites."""
    order, done = [], set()

    def visit(path):
        if path in done or path not in paths:
            return
        done.add(path)
        for full in sorted(sources.definitions(path).imports.values()):
            found = sources.find(full)
            if found and found[0].suffix == ".antt":
                visit(found[0])
        order.append(path)

    libraries = sources.libraries()
    for path in sorted(paths, key=lambda each: (libraries.index(crate_of(each)), each.name)):
        visit(path)
    return order


def length(path, names):
    """The lines of these definitions, without comments and blank lines."""
    return sum(sources.definitions(path).items[name].count("\n") for name in names)


def by_file(items):
    files = {}
    for path, name in items:
        if path.suffix == ".antt":
            files.setdefault(path, set()).add(name)
    return files


def table(items):
    """A table of the files in which these definitions stand."""
    files = by_file(items)
    rows = ["| file | lines | of these | what stands there |", "|---|---|---|---|"]
    total = 0
    for path in in_reading_order(set(files)):
        file, lines = sources.definitions(path), length(path, files[path])
        total += lines
        link = f"[{crate_of(path)}, {path.stem}](../crates/{path.relative_to(sources.CRATES)})"
        rows.append(f"| {link} | {file.lines} | {lines} | {file.about} |")
    count = sum(len(names) for names in files.values())
    rows.append(f"| together: {count} definitions | | {total} | |")
    return rows


def crate_table(items):
    """A table of all crates: how much of their specs/ the public clauses rest on."""
    files = by_file(items)
    head = "| crate | believed | of all in specs/ | files that only proofs and private clauses use |"
    rows = [head, "|---|---|---|---|"]
    believed = written = 0
    for crate in sources.libraries():
        paths = sorted((sources.CRATES / crate / "specs").glob("*.antt"))
        paths = [path for path in paths if sources.definitions(path).items]
        lines = sum(length(path, files.get(path, ())) for path in paths)
        of = sum(length(path, sources.definitions(path).items) for path in paths)
        unused = ", ".join(path.stem for path in paths if path not in files)
        rows.append(f"| `{crate}` | {lines} | {of} | {unused} |")
        believed, written = believed + lines, written + of
    rows.append(f"| together | {believed} | {written} | |")
    return rows


def word_table(words):
    """The words of std and of the kit's libraries, by the module that has them."""
    modules = {}
    for word in words:
        module, _, name = word.rpartition(".")
        modules.setdefault(module, []).append(name)
    rows = ["| module | words |", "|---|---|"]
    for module in sorted(modules, key=lambda each: (each.split(".")[0] != "std", each)):
        rows.append(f"| `{module}` | {', '.join(f'`{name}`' for name in sorted(modules[module]))} |")
    return rows


def tables():
    """Each table of the page by its mark."""
    result, seen = {}, set()
    for mark, roots in TABLES.items():
        items, words = sources.closure(map(named, roots))
        result[mark] = table(items - seen)
        if mark == "headline":
            result["words"] = word_table(words)
        seen |= items
    result["crates"] = crate_table(sources.closure(public_names())[0])
    return result


def filled(page):
    """The page with its tables as the sources give them."""
    for mark, rows in tables().items():
        begin, end = f"<!-- {mark} -->\n", f"<!-- end of {mark} -->\n"
        head, _, rest = page.partition(begin)
        old, found, tail = rest.partition(end)
        if not found:
            sys.exit(f"docs/trusted.py: the page has no table {mark}")
        page = head + begin + "\n" + "\n".join(rows) + "\n\n" + end + tail
    return page


def main(words):
    if words and words[0] != "--check":
        items, others = sources.closure(map(named, words))
        print("\n".join(table(items) + [""] + word_table(others)))
        return 0
    page = PAGE.read_text()
    new = filled(page)
    if new != page and words:
        print("docs/TRUSTED.md: its tables aren't what the sources say; docs/trusted.py writes them anew")
        return 1
    if new != page:
        PAGE.write_text(new)
    return 0


if __name__ == "__main__":
    sys.exit(main(sys.argv[1:]))
