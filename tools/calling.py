#!/usr/bin/env python3
"""Checks what the pages for callers quote from the sources, or writes it anew.

    calling.py [--write] [CRATE..]

    calling.py --write abuf_frame

Each library crate has a page crates/NAME/CALLING.md for those who call it. README.md and other pages in the folder of a crate may
quote too. A quoted part stands between two lines, the first of which says what it has:

    <!-- quote FILE: NAME NAME .. -->   these items of a file, as abuf_draw/src/tests.rt, below the `use` lines that they need
    <!-- quote item FILE: NAME .. -->   these items alone, without `use` lines
    <!-- quote contracts -->            the public items of the crate, without their bodies
    <!-- quote words -->                the words of the clauses in these: what the definition of each says, and its file
    <!-- end -->                        the end of the part

What is quoted as code is proved: the contracts, the functions and the tests of the crates are. So a page has no other block of
Rattle. Without --write the script tells where a page has drifted from the sources, and the status is 1 then; with it the parts
are written anew. Given crates limit both to the pages in their folders.
"""

import functools
import glob
import os
import re
from typing import Iterable, Iterator, NamedTuple

from abuflib import report
from abuflib.program import TOP
from abuflib.report import Fault, Report

CRATES = os.path.join(TOP, "crates")
# The programs, the library of one alone, tests alone, and callers.
NO_LIBRARY = ("abuf", "abuf_drawing_rows", "abuf_reading_rows", "abuf_refused", "abuf_rows", "abuf_uses", "abuf_watch",
              "abuf_watching")
PART = re.compile(r"(?ms)^<!-- quote ([^\n]*?) -->\n(.*?)^<!-- (end|quote[^\n]*) -->$")


# ---- items of a source

OPENING, CLOSING = "([{", ")]}"
SKIPPED = re.compile(r'//[^\n]*|b?"(?:\\.|[^"\\])*"|b?\'(?:\\[^\n\']+|[^\\\n\'])\'', re.DOTALL)
CLAUSE = re.compile(r"\b(?:requires|ensures)\*?(?:\s+\w+)?\s*\Z|\bghost\s+\w+(?:\s*:|\s*=)\s*\Z")
ITEM = re.compile(r"(?P<public>pub )?(?:pub\(\w+\) )?(?:unsafe )?(?P<kind>const fn|fn|struct|enum|trait|const|static|type|impl|mod|use|"
                  r"ghost use|ghost|macro_rules(?=!))\b ?(?P<rest>.*)")


class Item(NamedTuple):
    """An item of a source."""
    kind: str
    name: str
    is_public: bool
    note: str  # the `//` lines above it
    docs: str  # its `///` lines and attributes, each with its line feed
    head: str  # what stands before its body
    body: str  # with its braces; empty where there is none

    @property
    def text(self) -> str:
        return self.note + self.docs + self.head + self.body

    @property
    def code(self) -> str:
        return self.head + self.body


def steps(text: str, start: int) -> Iterator[tuple[int, str]]:
    """The characters from a place on, without those of comments, texts and letters."""
    at = start
    while at < len(text):
        skipped = SKIPPED.match(text, at)
        if skipped:
            at = skipped.end()
            continue
        yield at, text[at]
        at += 1


def extent(text: str, start: int, kind: str) -> tuple[int, int]:
    """Where the body of an item begins, and where the item ends. An item without a body ends with a semicolon."""
    depth, clause, body = 0, start, None
    for at, letter in steps(text, start):
        if letter in OPENING:
            if letter == "{" and depth == 0 and body is None and kind not in ("const", "static", "type", "use", "ghost use", "ghost"):
                if not CLAUSE.search(text[clause:at]):
                    body = at
            depth += 1
        elif letter in CLOSING:
            depth -= 1
            if depth == 0:
                if body is not None and letter == "}":
                    return body, at + 1
                clause = at + 1
        elif letter == ";" and depth == 0:
            return at, at + 1
    raise Fault(f"an item has no end: {text[start:start + 60]!r}")


def items(text: str) -> Iterator[Item]:
    """The items of a text whose lines begin at its margin, in their order."""
    at, note, docs = 0, "", ""
    while at < len(text):
        end = text.find("\n", at) + 1 or len(text)
        line = text[at:end]
        if line.startswith("#[") or line.startswith("///"):
            while line.startswith("#[") and line.count("[") > line.count("]"):
                end = text.find("\n", end) + 1 or len(text)
                line = text[at:end]
            docs += line
        elif found := ITEM.match(line):
            kind = found["kind"].removeprefix("const fn") or "fn"
            body, end = extent(text, at, kind)
            name = re.match(r"(\w*)", found["rest"])
            yield Item(kind, name.group(1) if name else "", found["public"] is not None, note, docs, text[at:body], text[body:end])
            note = docs = ""
        elif line.startswith(("//", "#!")):
            note += line
        elif line.strip():
            raise Fault(f"a line of no known kind: {line!r}")
        else:
            note = docs = ""
        at = end


def outdented(body: str) -> str:
    """What stands between the braces of a body, at the margin."""
    return re.sub(r"(?m)^    ", "", body.strip()[1:-1].strip("\n"))


def indented(text: str) -> str:
    return re.sub(r"(?m)^(?=.)", "    ", text)


class Source(NamedTuple):
    """A file of a crate's src/."""
    crate: str
    path: str  # from the folder of the crate
    items: list[Item]


@functools.lru_cache(maxsize=None)
def text_of(path: str) -> str:
    try:
        with open(path, encoding="utf-8") as file:
            return file.read()
    except OSError as why:
        raise Fault(f"{path}: {why.strerror}") from None


def folder(crate: str) -> str:
    return os.path.join(CRATES, crate)


@functools.lru_cache(maxsize=None)
def source(crate: str, path: str) -> Source:
    return Source(crate, path, list(items(text_of(os.path.join(folder(crate), path)))))


@functools.lru_cache(maxsize=None)
def sources(crate: str) -> list[Source]:
    """The files of a crate, without those of tests."""
    root = source(crate, "src/lib.rt")
    tests = {item.name for item in root.items if item.kind == "mod" and "#[cfg(test)]" in item.docs}
    found = []
    for path in sorted(glob.glob(os.path.join(folder(crate), "src", "**", "*.rt"), recursive=True)):
        path = os.path.relpath(path, folder(crate))
        if path.split(os.sep)[1].removesuffix(".rt") not in tests:
            found.append(source(crate, path))
    return found


@functools.lru_cache(maxsize=None)
def crates() -> list[str]:
    return re.findall(r"(?m)^(\w+):", text_of(os.path.join(TOP, "crates.txt")))


# ---- words

class Word(NamedTuple):
    """A word of a clause, by the module that defines it."""
    module: str
    name: str
    called: str  # its name in the clause


def imports(lines: Iterable[Item]) -> dict[str, Word]:
    """What the `ghost use` lines bring in, by the name that it has in the file."""
    found = {}
    for item in lines:
        if item.kind != "ghost use":
            continue
        path = re.sub(r"\s+", " ", item.head.removeprefix("ghost use ").strip())
        many = re.fullmatch(r"(.*)\.\{(.*)\}", path)
        if many:
            for part in many.group(2).split(","):
                name, _, other = part.strip().partition(" as ")
                found[other or name] = Word(many.group(1), name, other or name)
        else:
            path, _, other = path.partition(" as ")
            module, _, name = path.rpartition(".")
            found[other or name] = Word(module, name, other or name)
    return found


def words_in(clauses: str, known: dict[str, Word]) -> set[Word]:
    """The words that clauses have."""
    return {known[name] for name in re.findall(r"(?<![\w.'])[A-Za-zℕℤ]\w*", clauses) if name in known}


def file_of(module: str) -> str | None:
    """The file that defines the words of a module, from crates/; none where it is a module of the toolchain."""
    parts = module.split(".")
    if len(parts) < 4 or parts[0] != "Rattle" or parts[1] not in crates():
        return None
    inner = parts[3:]
    top, ending = ("specs", ".antt") if inner[0] != "declared" else ("src", ".rt")
    inner = inner[1:] if inner[0] == "declared" else inner
    for count in range(len(inner), 0, -1):
        path = os.path.join(parts[1], top, *inner[:count]) + ending
        if os.path.exists(os.path.join(CRATES, path)):
            return path
    raise Fault(f"no file defines {module}")


def sentence(comment: Iterable[str]) -> str:
    """The lines of a comment as one."""
    joined = " ".join(" ".join(line.lstrip("-/ ") for line in comment).split())
    return re.sub(r"\[([^\]]*)\]\([^)]*\)", r"\1", joined)


def said_of(word: Word, path: str) -> str:
    """What stands above a definition, and the fields of a record; or the definition itself, where nothing does."""
    text = text_of(os.path.join(CRATES, path))
    name = re.escape(word.name)
    if path.endswith(".rt"):
        found = re.search(rf"(?m)((?:^ *///[^\n]*\n)*)(?:^ *#\[[^\n]*\n)*^ *(?:pub(?:\(\w+\))? )?(?:(?:const|struct|enum|static|trait|type) )?"
                          rf"{name}\b[^\n]*$", text)
        if not found:
            raise Fault(f"{path} doesn't define {word.name}")
        return sentence(found.group(1).splitlines())
    found = re.search(rf"(?m)((?:^ *--[^\n]*\n)*)^( *)(?:[a-z]+ )?pub (record |data )?({name}\b[^\n]*)\n((?:^(?:\2 |\2{name}\b)[^\n]*\n)*)", text)
    if not found:
        raise Fault(f"{path} doesn't define {word.name}")
    said, below = sentence(found.group(1).splitlines()), [line.strip() for line in found.group(5).splitlines()]
    if found.group(3) == "record ":
        fields = re.findall(r"(?m)^pub (\w+) :", "\n".join(below))
        return (said + f" (fields {', '.join(f'`{field}`' for field in fields)})" * bool(fields)).strip()
    if said and not said.lower().startswith("the same"):
        return said
    is_short = len(below) < 4 and all(line.startswith(word.name) and not line.endswith(("{", "=")) and len(line) < 140 for line in below)
    return "<br>".join(f"`{line}`" for line in (below if is_short and below else [found.group(4)]))


# ---- what a crate gives

class Quote(NamedTuple):
    """Quoted items: their names, their text, the files in which they stand, and the words of their clauses."""
    names: list[str]
    text: str
    files: list[str]
    words: set[Word]


def docs_of(item: Item) -> str:
    """The documentation, and for types what is derived."""
    kept = [line for line in item.docs.splitlines(True) if line.startswith("///") or line.startswith("#[derive") and item.kind != "fn"]
    return "".join(kept)


def head_of(item: Item) -> str:
    return docs_of(item) + item.head.rstrip()


def fields_of(item: Item) -> str:
    """A struct with its public fields."""
    if not item.body.startswith("{"):
        return docs_of(item) + item.head + item.body
    kept, hidden, line, depth = [], False, "", 0
    for row in outdented(item.body).splitlines():
        line += row + "\n"
        depth = sum((letter in OPENING) - (letter in CLOSING) for _, letter in steps(line, 0))
        if depth == 0 and not row.startswith(("//", "#[")) and row.strip():
            declared = re.sub(r"(?m)^(?://|#\[).*\n", "", line)
            if declared.startswith("pub "):
                kept.append(re.sub(r"(?m)^// .*\n", "", line).strip("\n"))
            else:
                hidden = True
            line = ""
    if hidden:
        kept.append("// private fields")
    return f"{docs_of(item)}{item.head}{{\n{indented(chr(10).join(kept))}\n}}"


def clauses_of(item: Item) -> str:
    """The text of an item in which words of clauses stand."""
    if item.kind == "struct":
        return "\n".join(line for line in fields_of(item).splitlines() if line.strip().startswith("pub ghost"))
    if item.kind == "enum":
        return ""
    text = item.text if item.kind in ("ghost", "trait") else item.head
    return re.sub(r"(?m)^\s*(?://|ghost use ).*$", "", text)


def type_of(impl: Item) -> tuple[str, str]:
    """The trait that an `impl` is of, if it is of one, and its type: their names alone."""
    head = re.sub(r"^(?:unsafe )?impl(?:<(?:[^<>]|<[^<>]*>)*>)? ", "", impl.head).strip()
    trait, _, of = head.rpartition(" for ")
    return trait, re.match(r"\w*", of).group()  # type: ignore[union-attr]


def impls_of(crate: str, name: str, first: str) -> Iterator[tuple[Source, Item]]:
    """The `impl` blocks of a type: those of its own file first."""
    for file in sorted(sources(crate), key=lambda file: file.path != first):
        for item in file.items:
            if item.kind == "impl" and type_of(item)[1] == name and "cfg(test)" not in item.docs:
                yield file, item


def quote_impl(file: Source, impl: Item) -> tuple[str, set[Word]] | None:
    """The public part of an `impl`; none where there is none."""
    trait, _ = type_of(impl)
    inner = list(items(outdented(impl.body))) if impl.body.startswith("{") else []
    known = {**imports(file.items), **imports(inner)}
    if not trait:
        kept = [item for item in inner if item.is_public and item.kind in ("fn", "const")]
    elif trait == "Model":
        kept = [item for item in inner if item.kind == "ghost" and item.name == "Value"]
    elif trait == "Drop":
        kept = []
    else:
        kept = [item for item in inner if item.kind in ("fn", "ghost", "type")]
    if not kept and (not trait or inner):
        return None
    parts = [head_of(item) if item.kind == "fn" else docs_of(item) + item.head + item.body for item in kept]
    found: set[Word] = set()
    for item in kept:
        found |= words_in(clauses_of(item), known)
    return (f"{impl.head}{{\n{indented((chr(10) * 2).join(parts))}\n}}" if kept else impl.head + impl.body), found


def quote_item(crate: str, file: Source, item: Item) -> Quote:
    """A public item, and the public parts of what is implemented for it."""
    if item.kind == "fn":
        return Quote([item.name], head_of(item), [file.path], words_in(clauses_of(item), imports(file.items)))
    whole = fields_of(item) if item.kind == "struct" else docs_of(item) + item.head + item.body
    parts, files, words = [whole], [file.path], words_in(clauses_of(item), imports(file.items))
    if item.kind in ("struct", "enum"):
        for other, impl in impls_of(crate, item.name, file.path):
            quoted = quote_impl(other, impl)
            if quoted:
                parts.append(quoted[0])
                files += [other.path] * (other.path not in files)
                words |= quoted[1]
    return Quote([item.name], "\n\n".join(parts), files, words)


def module_file(crate: str, name: str) -> Source:
    return source(crate, f"src/{name}.rt")


def public_items(crate: str) -> Iterator[Quote]:
    """What the root of a crate makes public, in its order: by `pub use`, and the modules that are public. What it gives on of another
    crate stands on the page of that one."""
    for item in source(crate, "src/lib.rt").items:
        if item.kind == "mod" and item.is_public:
            file = module_file(crate, item.name)
            quotes = [quote_item(crate, file, inner) for inner in file.items if inner.is_public]
            yield Quote([item.name], "\n\n".join(quote.text for quote in quotes), [file.path], set().union(*(quote.words for quote in quotes)))
        elif item.kind == "use" and item.is_public:
            found = re.match(r"pub use (\w+(?:::[a-z]\w*(?=::))*)::(?:\{([^}]*)\}|(\w+))", re.sub(r"\s+", " ", item.head))
            if not found:
                raise Fault(f"{crate}/src/lib.rt: a `pub use` of no known form: {item.head}")
            if found.group(1) in crates():
                continue
            file = module_file(crate, found.group(1).replace("::", "/"))
            for name in re.findall(r"\w+", found.group(2) or found.group(3)):
                named = [inner for inner in file.items if inner.is_public and inner.name == name and inner.kind != "use"]
                if not named:
                    raise Fault(f"{crate}/{file.path} has no public {name}")
                yield quote_item(crate, file, named[0])


# ---- the parts of a page

def block(text: str) -> str:
    return f"```rust\n{text}\n```\n"


def link(path: str, page: str) -> str:
    """A link from a page to a file below crates/."""
    target = os.path.relpath(os.path.join(CRATES, path), os.path.dirname(os.path.join(TOP, page)))
    return f"[{path}]({target})"


def contracts(crate: str, page: str) -> str:
    """The public items under headings, with links to their files. Those of one file share a heading."""
    groups: list[Quote] = []
    for quote in public_items(crate):
        if groups and groups[-1].files == quote.files:
            last = groups.pop()
            quote = Quote(last.names + quote.names, last.text + "\n\n" + quote.text, last.files, last.words | quote.words)
        groups.append(quote)
    parts = []
    for quote in groups:
        heading = ", ".join(f"`{name}`" for name in quote.names)
        files = ", ".join(link(os.path.join(crate, path), page) for path in quote.files)
        parts.append(f"### {heading}\n\nFrom {files}.\n\n{block(quote.text)}")
    return "\n".join(parts)


def cell(text: str) -> str:
    return text.replace("|", "\\|")


def words(crate: str, page: str) -> str:
    """The words of the contracts: those that the repository defines in a table, and those of the toolchain by their modules."""
    found: set[Word] = set().union(*(quote.words for quote in public_items(crate)))
    own: list[tuple[str, str]] = []
    others: dict[str, set[str]] = {}
    for word in sorted(found, key=lambda word: (word.called.lower(), word)):
        path = file_of(word.module)
        if path is None:
            others.setdefault(word.module, set()).add(word.name)
        else:
            told = said_of(word, path) if word.name != "TheVariants" else "the cases of the type"
            name = f"`{word.called}`" + f", there `{word.name}`" * (word.called != word.name)
            own.append((path, f"| {name} | {cell(told)} | {link(path, page)} |\n"))
    text = ""
    if own:
        own.sort(key=lambda row: (not row[0].startswith(crate + os.sep), row[0]))
        text = "| Word | What its definition says | File |\n|---|---|---|\n" + "".join(row for _, row in own)
    if others:
        listed = "; ".join(f"of `{module}` {', '.join(f'`{name}`' for name in sorted(names, key=str.lower))}"
                           for module, names in sorted(others.items()))
        text += ("\n" if text else "") + f"Of the toolchain: {listed}.\n"
    return text or "The contracts have no words of their own.\n"


def caller(path: str, names: list[str], is_alone: bool) -> str:
    """Functions of a file as they stand there, alone or below the `use` lines that bring in what they name."""
    crate, _, inner = path.partition("/")
    if crate not in crates() or not inner.startswith("src/") or not inner.endswith(".rt"):
        raise Fault(f"{path} is no source of a crate, of which alone what is proved is quoted")
    there = source(crate, inner).items
    chosen = []
    for name in names:
        found = [item for item in there if name in (item.name, type_of(item)[1] if item.kind == "impl" else "") and item.kind != "use"]
        if not found:
            raise Fault(f"{path} has no {name}")
        chosen += [item for item in found if item not in chosen]
    if is_alone:
        return block("\n\n".join(item.text for item in chosen))
    named = set(re.findall(r"\w+", " ".join(item.code for item in chosen)))
    parts = []
    for kind in ("ghost use", "use"):
        lines = [item.code for item in there if item.kind == kind and named & set(re.findall(r"\w+(?=[,;} ]|$)", item.code.partition("use ")[2]))]
        parts += ["\n".join(lines)] * bool(lines)
    return block("\n\n".join(parts + [item.text for item in chosen]))


def part_of(what: str, page: str) -> str:
    """What a quoted part of a page must have."""
    found = re.match(r"crates/(\w+)/", page)
    if what in ("contracts", "words"):
        if not found:
            raise Fault(f"{what} of no crate, since the page is in the folder of none")
        return contracts(found.group(1), page) if what == "contracts" else words(found.group(1), page)
    named = re.fullmatch(r"(item )?([\w/.]+): (\w+(?: \w+)*)", what)
    if not named:
        raise Fault(f"nothing is quoted by '{what}'")
    return caller(named.group(2), named.group(3).split(), named.group(1) is not None)


# ---- pages

def pages(chosen: list[str]) -> list[str]:
    """The pages that may quote, from the top of the checkout."""
    found = [] if chosen else ["README.md"]
    for crate in chosen or crates():
        found += sorted(os.path.relpath(path, TOP) for path in glob.glob(os.path.join(folder(crate), "*.md")))
    return found


def renewed(text: str, page: str) -> str:
    """A page whose quoted parts are those of the sources."""
    def anew(part: re.Match[str]) -> str:
        if part.group(3) != "end":
            raise Fault(f"the part '{part.group(1)}' has no end")
        return f"<!-- quote {part.group(1)} -->\n{part_of(part.group(1), page)}<!-- end -->"
    if text.count("<!-- quote ") != len(PART.findall(text)):
        raise Fault("a part that is quoted has no end")
    return PART.sub(anew, text)


def drift(page: str, text: str, wanted: str) -> str | None:
    """Where a page differs from what it must be."""
    if text == wanted:
        return None
    here, there = text.splitlines(), wanted.splitlines()
    line = next((i for i, (one, other) in enumerate(zip(here, there)) if one != other), min(len(here), len(there)))
    show = [lines[line].strip() if line < len(lines) else "nothing" for lines in (here, there)]
    return f"line {line + 1} is '{show[0]}', and the sources have '{show[1]}'; calling.py --write fixes it"


def fault_of(page: str, text: str) -> str | None:
    """What a page lacks, or has that isn't proved."""
    if re.search(r"(?m)^```(rust|rattle)", PART.sub("", text)):
        return "a block of Rattle isn't quoted, so nothing shows that it is proved"
    if not page.endswith("CALLING.md"):
        return None
    kinds = [what for what, _, _ in PART.findall(text)]
    missing = [f"<!-- quote {what} -->" for what in ("contracts", "words") if what not in kinds]
    missing += ["a caller"] * all(what in ("contracts", "words") for what in kinds)
    return f"the page lacks {', '.join(missing)}" if missing else None


def check(told: Report, page: str, is_written: bool) -> None:
    path = os.path.join(TOP, page)
    with open(path, encoding="utf-8") as file:
        text = file.read()
    try:
        wanted = renewed(text, page)
        if is_written and wanted != text:
            with open(path, "w", encoding="utf-8") as file:
                file.write(wanted)
            told.line(f"{page} is written anew")
            text = wanted
        fault = fault_of(page, text) or drift(page, text, wanted)
    except Fault as why:
        fault = str(why)
    told.add(page, fault)


def main() -> int:
    parser = report.words(__doc__)
    parser.add_argument("--write", action="store_true", help="write the quoted parts anew")
    parser.add_argument("crates", nargs="*", metavar="CRATE", help="the pages of these crates alone")
    given = parser.parse_args()
    unknown = [name for name in given.crates if name not in crates()]
    if unknown:
        parser.error(f"no crate {', '.join(unknown)}")
    told = Report("pages for callers")
    there = pages(given.crates)
    for crate in given.crates or crates():
        page = os.path.join("crates", crate, "CALLING.md")
        if crate not in NO_LIBRARY and page not in there:
            told.add(page, "isn't there")
    for page in there:
        check(told, page, given.write)
    return told.conclude()


if __name__ == "__main__":
    report.end(main)
