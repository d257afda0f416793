#!/usr/bin/env python3
"""Compares the documents with the sources, so that neither drifts away from the other.

    check_docs.py [--only SUBJECT,..] [--abuf PATH]

    check_docs.py --only links,names

The subjects:

    options     the tables of options in docs/FORMATS.md, beside crates/abuf_cli/specs/Options.antt and the manual page
    limits      its table of limits, beside crates/abuf_num/src/limits.rt and tools/abuflib/scene.py
    texts       its statuses, texts and causes, beside crates/abuf_top/specs, the manual page and tools/fuzz.py
    samples     its patterns of samples and refused keywords, beside the specs and the tools
    crates      the tables of crates, beside crates.txt and the folders
    edits       docs/WRONG-BODIES.md, edits that other documents show, and those that docs/DECISIONS.md never drops, beside the
                must-fail folders
    links       each link between documents leads to a file and a heading
    names       each file that a document names is there, and each name in code stands in the sources
    scripts     tools/README.md has each script of tools and no others, and scripts that are named are there
    commands    what README.md, docs/FORMATS.md, docs/VIEWING.md and the manual page tell to type is run, and compared
    pictures    the pictures of the examples are what the program draws

Each difference is told, and the last line counts. Commands whose programs aren't installed are skipped, which is said in a line.
The status is 0 where documents and sources agree, and 1 where they don't.
"""

import functools
import os
import re
import shutil
import subprocess
import tempfile
from typing import Iterable, Iterator

import fuzz
import pictures
import reference
from abuflib import program, report, scene
from abuflib.program import TOP
from abuflib.report import Fault, Report

SECONDS = 60  # for a command of the documents
CODE = re.compile(r"``(.+?)``|`([^`\n]+)`")


# ---- files


@functools.lru_cache(maxsize=None)
def text(path: str) -> str:
    try:
        with open(os.path.join(TOP, path), encoding="utf-8") as file:
            return file.read()
    except OSError as why:
        raise Fault(f"{path}: {why.strerror}") from None


@functools.lru_cache(maxsize=None)
def files() -> list[str]:
    """All files of the checkout, without what is built."""
    found = []
    for folder, folders, names in os.walk(TOP):
        folders[:] = [name for name in folders if name not in (".git", "out", "__pycache__")]
        found += [os.path.relpath(os.path.join(folder, name), TOP) for name in names]
    return sorted(found)


def documents() -> list[str]:
    return [path for path in files() if path.endswith(".md")]


def crates() -> dict[str, list[str]]:
    """The crates in their order, each with what it stands on."""
    return {name: rest.split() for name, rest in re.findall(r"(?m)^(\w+):(.*)$", text("crates.txt"))}


def section(path: str, heading: str) -> str:
    """The part of a document below a heading, down to the next one of its kind or above."""
    found = re.search(rf"(?ms)^(#+) {re.escape(heading)}\n(.*?)(?=^#{{1,6}} |\Z)", without_blocks(path))
    if found is None:
        raise Fault(f"{path} has no heading '{heading}'")
    return found.group(2)


@functools.lru_cache(maxsize=None)
def without_blocks(path: str) -> str:
    """A document without its blocks of code, whose lines stay as empty ones."""
    return re.sub(r"(?ms)^```.*?^```$", lambda block: "\n" * block.group().count("\n"), text(path))


def rows(part: str) -> list[list[str]]:
    """The rows of the tables of a part, without their heads."""
    lines = [line for line in part.splitlines() if line.startswith("|")]
    ends = {i for i, line in enumerate(lines) if re.fullmatch(r"\|[-:| ]+\|", line)}
    heads = ends | {i - 1 for i in ends}
    return [[cell.strip() for cell in re.split(r"(?<!\\)\|", line)[1:-1]] for i, line in enumerate(lines) if i not in heads]


def codes(cell: str) -> list[str]:
    """The code in a cell."""
    return [one or other for one, other in CODE.findall(cell)]


def spec(crate: str, name: str) -> str:
    return text(os.path.join("crates", crate, "specs", name + ".antt"))


def named(source: str, function: str) -> dict[str, str]:
    """The texts that a function of the specs gives: for each case its `codes "..."`."""
    return dict(re.findall(rf'(?m)^{function} (\S+) = codes "([^"]*)"$', source))


def differ(what: str, here: object, there: object) -> str | None:
    return None if here == there else f"{what}: {here} here, {there} there"


def lists_differ(here: Iterable[str], there: Iterable[str]) -> str | None:
    """How two collections differ."""
    one, other = set(here), set(there)
    told = [f"only in the document: {', '.join(sorted(one - other))}"] * bool(one - other)
    told += [f"only in the sources: {', '.join(sorted(other - one))}"] * bool(other - one)
    return "; ".join(told) or None


# ---- the manual page


@functools.lru_cache(maxsize=None)
def manual() -> str:
    """The manual page as text: macros become marks at the beginning of a line."""
    lines = []
    for line in text("docs/abuf.1").splitlines():
        macro, _, rest = line.partition(" ")
        if macro in (".BI", ".BR", ".IR", ".RI", ".RB"):
            parts = [one or other for one, other in re.findall(r'"([^"]*)"|(\S+)', rest)]
            line = "".join(parts)
        elif macro in (".B", ".I"):
            line = rest
        elif macro == ".SH":
            line = f"== {rest}"
        elif macro == ".IP":
            line = ".TP"
        lines.append(re.sub(r"\\f[A-Z]|\\", "", line))
    return "\n".join(lines) + "\n"


def manual_section(name: str) -> str:
    found = re.search(rf"(?ms)^== {name}\n(.*?)(?=^== |\Z)", manual())
    if found is None:
        raise Fault(f"docs/abuf.1 has no section {name}")
    return found.group(1)


# ---- the subjects


def check_options(told: Report) -> None:
    source = spec("abuf_cli", "Options")
    names, defaults = named(source, "name_of"), named(source, "default_of")

    def options(function: str) -> list[str]:
        line = re.search(rf"(?m)^{function} = (.*)$", source)
        return [names[case] for case in re.findall(r"\b[A-Z]\w+", line.group(1))] if line else []

    common, of_render, of_sequence = (options(name) for name in ("image_options", "options_of Render", "options_of Sequence"))
    tables = rows(section("docs/FORMATS.md", "Options"))
    documented = [(codes(row[0])[0].removeprefix("--"), (codes(row[2]) or [""])[0]) for row in tables]
    told.add("docs/FORMATS.md: the options of all commands", differ("the options in order",
             [name for name, _ in documented][:len(common)], common))
    told.add("docs/FORMATS.md: the options of render", differ("the further options",
             [name for name, _ in documented][len(common):], of_render + re.findall(r'flag_rule \(codes "(\w+)"\)', spec("abuf_cli", "Commands"))))
    told.add("docs/FORMATS.md: the options of sequence", differ("options that it lacks",
             re.findall(r"`sequence`\s+has\s+no\s+`--(\w+)`\s+and\s+`--(\w+)`", section("docs/FORMATS.md", "Options"))[:1],
             [tuple(name for name in common if name not in of_sequence)]))
    of_name = {name: defaults[case] for case, name in names.items() if case in defaults}
    for name, default in documented:
        told.add(f"docs/FORMATS.md: the default of --{name}", differ("the default", default, of_name.get(name, "")))
    order = re.search(r"in the order of the tables above: (.*?)\. With", " ".join(section("docs/FORMATS.md", "How a command line is read").split()))
    told.add("docs/FORMATS.md: the order of bad values", differ("the order", codes(order.group(1)) if order else None, list(names.values())))
    in_manual = re.findall(r"(?m)^\.TP\n--([a-z]+)", manual_section("OPTIONS"))
    told.add("docs/abuf.1: the options", differ("the options in order", in_manual, [name for name, _ in documented]))
    for name, default in documented:
        part = re.search(rf"(?ms)^\.TP\n--{name}\b.*?(?=^\.TP|\Z)", manual_section("OPTIONS"))
        found = re.search(r"The default is (\S+?)[,.]?(?:\s|$)", part.group()) if part else None
        told.add(f"docs/abuf.1: the default of --{name}", differ("the default", found.group(1) if found else "", default))
    told.add("tools/reference.py: the options", differ("the options", reference.OPTIONS + reference.RENDER_OPTIONS + reference.RENDER_FLAGS,
                                                       [name for name, _ in documented]))


# The rows of the table of limits, and the constants that they are of. A row may have a number of its own.
LIMITS = {
    "width, height": ["MAX_SIDE"], "pixels": ["MAX_PIXELS"],
    "fragments, of an image, of a band or of each image of a sequence, by --nodes": ["MAX_NODES"], "threads": ["MAX_THREADS"],
    "bytes of the scene, and of each library": ["MAX_BYTES"], "points": ["MAX_POINTS"], "triangles of all faces": ["MAX_TRIANGLES"],
    "primitives after the near plane": ["MAX_PRIMITIVES"], "elements of a face": ["MAX_ELEMENTS"], "libraries": ["MAX_LIBRARIES"],
    "names of materials, in the scene and in all libraries": ["MAX_MATERIALS"], "bytes of a path": ["MAX_PATH_BYTES"],
    "images of a sequence": ["MAX_IMAGES"],
}
OF_TOOLS = {"MAX_BYTES": scene.MOST_BYTES, "MAX_PATH_BYTES": scene.MOST_PATH_BYTES, "MAX_POINTS": scene.MOST_POINTS,
            "MAX_DEPTH": reference.NEAREST_KEY, "MAX_COORDINATE": scene.FARTHEST, "MAX_ELEMENTS": scene.MOST_ELEMENTS,
            "MAX_TRIANGLES": scene.MOST_TRIANGLES, "MAX_LIBRARIES": scene.MOST_LIBRARIES, "MAX_MATERIALS": scene.MOST_MATERIALS,
            "MAX_SIDE": scene.MOST_SIDE, "MAX_PIXELS": scene.MOST_PIXELS, "MAX_NODES": scene.MOST_NODES,
            "MAX_IMAGES": scene.MOST_IMAGES}


def check_limits(told: Report) -> None:
    constants = dict(re.findall(r"(?m)^pub const (MAX_\w+): \w+ = (\d+);$", text("crates/abuf_num/src/limits.rt")))
    told.add("limits.rt has constants", None if len(constants) > 5 else "none were found")
    documented = {row[0].replace("`", ""): row[1] for row in rows(section("docs/FORMATS.md", "Limits"))}
    for row, names in LIMITS.items():
        numbers = re.findall(r"\d+", documented.get(row, ""))
        told.add(f"docs/FORMATS.md: the limit of {row}", differ("the greatest", numbers[-1:], [constants.get(name) for name in names]))
    demo = re.search(r"(?m)^number_of text = counted 1 (\d+)", spec("abuf_cli", "Values"))
    told.add("docs/FORMATS.md: the limit of demo", differ("the greatest", re.findall(r"\d+", documented.get("triangles of demo", ""))[-1:],
                                                          [demo.group(1)] if demo else []))
    for name, number in OF_TOOLS.items():
        told.add(f"tools: {name}", differ("the number", str(number), constants.get(name)))
    formats = set(re.findall(r"\d{4,}", text("docs/FORMATS.md")))
    told.add("docs/FORMATS.md has each limit", lists_differ([], [f"{name} {number}" for name, number in constants.items()
                                                              if number not in set(re.findall(r"\d+", text("docs/FORMATS.md")))]))
    of_manual = set(re.findall(r"\d{4,}", re.sub(r"(?m)^\.TH.*$", "", text("docs/abuf.1")).replace("\\", "")))
    told.add("docs/abuf.1: numbers of four digits and more", lists_differ(of_manual - formats, []))


def template(expression: str, source: str) -> str:
    """A text of the specs, with # for each number, NAME for an option and CAUSE for a cause."""
    expression = re.sub(r"line_text line \((.*)\)", r'codes "line " ++ decimal line ++ codes ": " ++ \1', expression)
    parts = []
    for part in re.split(r" \+\+ ", expression):
        if found := re.fullmatch(r'codes "([^"]*)"', part.strip()):
            parts.append(found.group(1))
        else:
            parts.append("#" if part.startswith("decimal") else "NAME" if part.startswith("name_of") else "CAUSE")
    return "".join(parts).replace(": unknown material", ": CAUSE")


def generic(line: str) -> str:
    """A text of the documents, with # in place of a letter that stands for a number."""
    return re.sub(r"\b[A-Z]\b", "#", line)


def check_texts(told: Report) -> None:
    source = re.sub(r"=\n\s+", "= ", spec("abuf_top", "Refusals"))
    numbers = dict(re.findall(r"(?m)^status_number ended\.(\w+) = (\d+)$", spec("abuf_top", "Status")))
    status_of = dict(re.findall(r"(?m)^refusal_status \(?refusal\.(\w+).*? = ended\.(\w+)$", source))
    wanted = {(numbers[status_of[case]], template(rest, source))
              for case, rest in re.findall(r"(?m)^refusal_text \(?refusal\.(\w+).*? = (.*)$", source)}
    wanted |= {(numbers["PoolFull"], template(rest, source)) for rest in re.findall(r"(?m)^full_text .*? = (.*)$", source)}
    stops = dict(re.findall(r"(?m)^stop_status stop\.(\w+) = ended\.(\w+)$", source))
    wanted |= {(numbers[stops[case]], template(rest, source)) for case, rest in re.findall(r"(?m)^stop_text stop\.(\w+) = (.*)$", source)}
    told.add("Refusals.antt has texts", None if len(wanted) > 10 else f"only {len(wanted)} were found")

    def show(pairs: Iterable[tuple[str, str]]) -> list[str]:
        return [f"{status} '{line}'" for status, line in pairs]

    documented = {(row[0], generic(codes(row[1])[0])) for row in rows(section("docs/FORMATS.md", "Statuses and texts"))
                  if row[0].isdigit() and codes(row[1])}
    told.add("docs/FORMATS.md: statuses and texts", lists_differ(show(documented), show(wanted)))
    of_manual, status = set(), ""
    for part in manual_section("EXIT STATUS").split(".TP\n")[1:]:
        first, _, rest = part.partition("\n")
        if first.isdigit():
            status, part = first, rest
        line = generic(part.partition("\n")[0])
        if status != "0" and ".br" in part:
            of_manual.add((status, line))
        elif status and not first.isdigit() and ".br" not in part:
            break
    of_manual |= {(number, line) for number, line in re.findall(r"(?m)^\.TP\n(\d)\n([a-z][^\n]*)\n\.br", manual_section("EXIT STATUS"))
                  for line in [generic(line)]}
    told.add("docs/abuf.1: statuses and texts", lists_differ(show((number, re.sub(r": (CAUSE|wrong count|bad turn|bad number|too many images)$", ": CAUSE", line))
                                                                  for number, line in of_manual), show(wanted)))

    of_scenes, of_libraries, of_paths = (set(named(source, f"{kind}_cause").values()) for kind in ("scene", "library", "path"))
    of_scenes.add("unknown material")
    table = [(codes(row[0]), row[1], row[2]) for row in rows(section("docs/FORMATS.md", "Statuses and texts")) if not row[0].isdigit()]
    told.add("docs/FORMATS.md: causes of scenes", lists_differ((cause for row in table if row[1] for cause in row[0]), of_scenes))
    told.add("docs/FORMATS.md: causes of libraries", lists_differ((cause for row in table if row[2] for cause in row[0]), of_libraries))
    in_sequences = [cause for row in rows(section("docs/FORMATS.md", "Sequences")) for cause in codes(row[0])]
    told.add("docs/FORMATS.md: causes of paths", lists_differ(in_sequences, of_paths))
    causes = manual_section("EXIT STATUS").partition("CAUSE\non the statuses")[2]
    told.add("docs/abuf.1: causes", lists_differ(re.findall(r"(?m)^\.T[PQ]\n([a-z ]+)$", causes), of_scenes | of_libraries))
    for number, line in sorted(wanted):
        kinds = {"3": of_scenes, "4": of_libraries, "9": of_paths}.get(number, {""})
        for cause in kinds if "CAUSE" in line else {""}:
            example = line.replace("#", "7").replace("CAUSE", cause).replace("NAME", "size").encode()
            told.add(f"tools/fuzz.py knows '{example.decode()}'", None if re.fullmatch(fuzz.TEXTS[int(number)], example) else "it doesn't")


def check_samples(told: Report) -> None:
    words = {"one_sample": 1, "two_samples": 2, "four_samples": 4, "eight_samples": 8, "sixteen_samples": 16}
    table = {codes(row[0])[0]: [(int(x), int(y)) for x, y in re.findall(r"\((-?\d+),(-?\d+)\)", row[1])]
             for row in rows(section("docs/FORMATS.md", "Samples"))}
    source = spec("abuf_raster", "Samples")
    for name, count in words.items():
        found = re.search(rf"(?ms)^{name} =(.*?)\[\]", source)
        offsets = [tuple(int(part.replace("pos ", "").replace("minus ", "-")) for part in pair)
                   for pair in re.findall(r"\(((?:pos|minus) \d+), ((?:pos|minus) \d+)\)", found.group(1) if found else "")]
        told.add(f"docs/FORMATS.md: the pattern of {count}", differ("the offsets", table.get(str(count)), offsets))
        told.add(f"tools/reference.py: the pattern of {count}", differ("the offsets", reference.OFFSETS[count], offsets))
    refused = set(re.findall(r'codes "(\w+)"', re.search(r"(?ms)=\n(.*?)\[\]", spec("abuf_obj", "Keywords")).group(1)))  # type: ignore[union-attr]
    told.add("tools/abuflib/scene.py: refused keywords", lists_differ((word.decode() for word in scene.FREE_FORMS), refused))
    row = next(row for row in rows(section("docs/FORMATS.md", "Scenes")) if "`cstype`" in row[0])
    told.add("docs/FORMATS.md: refused keywords", lists_differ(codes(row[0]), refused))


def check_crates(told: Report) -> None:
    there = crates()
    folders = {path.split(os.sep)[1] for path in files() if path.startswith("crates" + os.sep)}
    told.add("crates.txt: the folders of crates/", lists_differ(there, folders))

    def first_codes(part: str) -> list[str]:
        return [codes(row[0])[0] for row in rows(part) if codes(row[0])]

    table = {codes(row[0])[0]: row[1] for row in rows(section("docs/ARCHITECTURE.md", "The crates")) if codes(row[0])}
    told.add("docs/ARCHITECTURE.md: the crates", lists_differ(table, there))
    for name, stands_on in there.items():
        own = {below.removeprefix("abuf_") for below in stands_on if below in there}
        cell = table.get(name, "")
        if cell != "all above":
            told.add(f"docs/ARCHITECTURE.md: what {name} stands on", lists_differ(set(re.findall(r"\w+", cell)), own))
    in_proofs = first_codes(section("docs/PROOFS.md", "Crate by crate"))
    told.add("docs/PROOFS.md: the crates", lists_differ(in_proofs, {crate for crate in there if not crate.endswith("_rows")}))


def check_edits(told: Report) -> None:
    page = re.split(r"(?m)^## (\w+)$", text("docs/WRONG-BODIES.md"))[1:]
    parts = dict(zip(page[::2], page[1::2]))
    for crate in crates():
        names = {os.path.basename(path)[:-len(".edit")].replace("_", " ") for path in files()
                 if path.startswith(os.path.join("crates", crate, "must-fail") + os.sep) and path.endswith(".edit")}
        part = parts.get(crate, "")
        told.add(f"docs/WRONG-BODIES.md: the edits of {crate}", lists_differ((row[0] for row in rows(part)), names))
        number = re.search(r"(?m)^(\d+) edits?\.$", part)
        told.add(f"docs/WRONG-BODIES.md: how many edits {crate} has", differ("the number", number.group(1) if number else "0", str(len(names))))
    check_shown_edits(told)
    check_kept_edits(told)


def check_shown_edits(told: Report) -> None:
    """An edit that a document shows is one of the crates'."""
    there = {text(path) for path in files() if path.endswith(".edit")}
    for path in documents():
        for block in re.findall(r"(?ms)^```\n(file: .*?)^```$", text(path)):
            told.add(f"{path}: the edit of {block.split()[1]}", None if block in there else "no crate has it")


def check_kept_edits(told: Report) -> None:
    """The edits that are never dropped are there."""
    heading = "Edits that are never dropped"
    kept = [(codes(crate)[0], name) for _, crate, names in rows(section("docs/DECISIONS.md", heading)) for name in codes(names)]
    told.add(f"docs/DECISIONS.md: {heading}", None if kept else "the table names none")
    for crate, name in kept:
        is_here = os.path.join("crates", crate, "must-fail", name + ".edit") in files()
        told.add(f"docs/DECISIONS.md: the edit {name} of {crate}, which is never dropped", None if is_here else "isn't there")


# ---- links and names


def slug(heading: str) -> str:
    """The anchor of a heading, as GitHub makes it."""
    plain = re.sub(r"\[([^\]]*)\]\([^)]*\)", r"\1", heading).replace("`", "")
    return re.sub(r"[^\w\- ]", "", plain.lower()).replace(" ", "-")


@functools.lru_cache(maxsize=None)
def anchors(path: str) -> set[str]:
    found: set[str] = set()
    for heading in re.findall(r"(?m)^#+ (.*)$", without_blocks(path)):
        name, number = slug(heading), 0
        while name in found:
            number += 1
            name = f"{slug(heading)}-{number}"
        found.add(name)
    return found


def check_links(told: Report) -> None:
    for path in documents():
        for target in re.findall(r"\]\(([^)\s]+)\)", re.sub(r"`[^`\n]*`", "", without_blocks(path))):
            if re.match(r"[a-z]+:", target):
                continue
            name, _, anchor = target.partition("#")
            place = os.path.normpath(os.path.join(os.path.dirname(path), name)) if name else path
            fault = None
            if not os.path.exists(os.path.join(TOP, place)):
                fault = "leads nowhere"
            elif anchor and place.endswith(".md") and anchor not in anchors(place):
                fault = f"{place} has no such heading"
            told.add(f"{path}: the link {target}", fault)


ENDINGS = (".antt", ".rt", ".py", ".sh", ".c", ".md", ".edit", ".tri")
# Files of proofs of which there are many, and guides of the toolchain.
OTHERS = {"Answers.antt", "Invariants.antt", "LANGUAGE.md", "CONTRACTS.md", "FIRST_PROOFS.md", "SHORTER_PROOFS.md", "LEMMAS.md",
          "ANSWERS.md"}
FORMER = {"fixed_point"}  # names that are gone, and told as such
# The documents whose names in code are those of the sources. Others name functions of libraries and drivers too, and the code of
# WRONG-BODIES.md was changed by the edits.
OF_CRATES = {"README.md", *(f"docs/{name}.md" for name in ("ARCHITECTURE", "CONTRIBUTING", "DECISIONS", "DEFINITIONS", "GLOSSARY", "PROOFS"))}


def is_there(cited: str, path: str) -> bool:
    """Whether a file that a document names is in the checkout, by the end of its path."""
    cited = os.path.normpath(os.path.join(os.path.dirname(path), cited)) if cited.startswith(".") else cited
    return any(file == cited or file.endswith(os.sep + cited) for file in files())


@functools.lru_cache(maxsize=None)
def words_of_sources() -> set[str]:
    """Each word of the sources: of the crates, the tools, the suite and the examples."""
    found: set[str] = set()
    for path in files():
        if path.endswith((".antt", ".rt", ".py", ".sh", ".c", ".json", ".ini", ".txt", ".mtl", ".edit")) or path == "abuf":
            with open(os.path.join(TOP, path), encoding="utf-8", errors="replace") as file:
                found.update(re.findall(r"\w+", file.read()))
        found.update(re.findall(r"\w+", path))
    return found


def check_names(told: Report) -> None:
    for path in documents():
        prose = without_blocks(path)
        cited = {name for name in (one or other for one, other in CODE.findall(prose))
                 if name.endswith(ENDINGS) and re.fullmatch(r"[\w./-]*\w\.\w+", name)
                 and os.path.basename(name) not in OTHERS and not re.search(r"\b[A-Z]{2,}\b[./]", name.replace(".md", ""))}
        for name in sorted(cited):
            told.add(f"{path}: the file {name}", None if is_there(name, path) else "isn't there")
        for names, name in re.findall(r"((?:`\w+`(?:, | and |,\n| with )?)+)\s+in\s+\[?`([\w./-]+\.(?:antt|rt|py|c))`", prose):
            holders = [file for file in files() if file == name or file.endswith(os.sep + name)]
            for word in codes(names):
                is_held = any(re.search(rf"\b{word}\b", text(file)) for file in holders)
                told.add(f"{path}: {word} in {name}", None if is_held or not holders else "isn't in it")
        if path not in OF_CRATES:
            continue
        words = {word for word in (one or other for one, other in CODE.findall(prose)) if re.fullmatch(r"[a-z]+(_[a-z0-9]+)+|([A-Z][a-z]+){2,}", word)}
        for word in sorted(words):
            told.add(f"{path}: the name {word}", None if word in words_of_sources() | FORMER else "is in no source")


def check_scripts(told: Report) -> None:
    there = {os.path.basename(path) for path in files() if os.path.dirname(path) == "tools" and path.endswith((".py", ".sh", ".c"))}
    told.add("tools/README.md: the scripts", lists_differ(
        {os.path.basename(name) for name in codes(without_blocks("tools/README.md").replace("\n", " "))
         if re.fullmatch(r"\w+\.(py|sh|c)", name)}, there))
    for path in documents():
        for folder in ("tools", "bench", "conformance"):
            for name in set(re.findall(rf"\b{folder}/([\w/]+\.(?:py|sh|c))\b", text(path))):
                told.add(f"{path}: {folder}/{name}", None if os.path.join(folder, name) in files() else "isn't there")


# ---- commands

# What takes longer than a second, changes the machine, waits for its user, or is tested elsewhere.
LONG = re.compile(r"\brt\b|unproved|install\.sh|view\.py|apng\.py|display|ffplay|examples/driver|check\.py|parallel|sbatch|draw\.sh|"
                  r"ulimit|apt-get|dpkg|\(cd examples|--bands 16 <|--size 320x240 --focal 2\.7 < lantern")
SHELL = frozenset("cd for do done cat cp echo printf grep sed awk tr sort head tail cmp ls".split())
# How a command begins that stands in a table.
IN_TABLE = re.compile(r"(pam|pnm|png)\w+ |ffmpeg |convert |identify |fit\.py |fix_obj\.py ")
NEEDED = re.compile(r"(?<![\w>])(?<!> )[\w-]+\.(?:obj|mtl|pam|path|png|ppm)\b")


class Place:
    """A folder as the commands want it: a checkout's shape, with the examples and the program."""

    def __init__(self, folder: str, abuf: program.Program) -> None:
        self.top, self.examples = folder, os.path.join(folder, "examples")
        shutil.copytree(program.EXAMPLES, self.examples)
        for name, other in (("films.obj", "scene.obj"), ("lantern.path", "scene.path")):
            shutil.copy(os.path.join(self.examples, name), os.path.join(self.examples, other))
        for name in ("tools", "docs"):
            os.symlink(os.path.join(TOP, name), os.path.join(folder, name))
        with open(os.path.join(folder, "abuf"), "w") as file:
            file.write(f'#!/bin/sh\nexec "{abuf.path}" "$@"\n')
        os.chmod(os.path.join(folder, "abuf"), 0o755)
        self.variables = {**abuf.environment(), "PATH": f"{folder}:{folder}/tools:{os.environ['PATH']}"}
        self.missing: set[str] = set()
        self.skipped = 0

    def can_run(self, command: str) -> bool:
        """Whether the command is short, and its programs are installed."""
        if LONG.search(command):
            return False
        for part in re.split(r"\|\|?|&&|;|\n|\$\(", re.sub(r"'[^']*'|\"[^\"]*\"", "''", command)):
            words = part.split()
            while words and re.match(r"\w+=", words[0]):
                words.pop(0)
            if not words or words[0] in SHELL or not re.fullmatch(r"[a-z][\w.-]+", words[0]):
                continue
            if shutil.which(words[0], path=self.variables["PATH"]) is None:
                self.missing.add(words[0])
                self.skipped += 1
                return False
        return True

    def run(self, command: str) -> tuple[int | None, str]:
        """The status and all that a command prints."""
        try:
            done = subprocess.run(["bash", "-e", "-o", "pipefail", "-c", command], cwd=self.examples, env=self.variables,
                                  timeout=SECONDS, stdin=subprocess.DEVNULL, stdout=subprocess.PIPE, stderr=subprocess.STDOUT)
        except subprocess.TimeoutExpired:
            return None, "no end"
        return done.returncode, done.stdout.decode(errors="replace")


def typed(path: str) -> Iterator[str]:
    """The blocks of code of a document, and the commands in its tables, in their order."""
    if path.endswith(".1"):
        for block in re.findall(r"(?ms)^\.EX\n(.*?)^\.EE$", text(path)):
            yield block.replace("\\", "")
        return
    for block, row in re.findall(r"(?ms)^```\w*\n(.*?)^```$|^(\|[^\n]*)$", text(path)):
        if block:
            yield block
        for code in codes(row):
            if IN_TABLE.match(code):
                yield code.replace("\\|", "|")


def is_typed(block: str) -> bool:
    """Whether a block is a command on the files of the examples, and not a piece of a file or of another folder."""
    first = re.split(r"\s", block)[0]
    is_start = first in SHELL or first in ("abuf", "tr") or re.match(r"\w+='", block) or first.startswith("../") or IN_TABLE.match(block)
    return bool(is_start) and "/tmp/" not in block and "model." not in block


def shown(block: str) -> list[tuple[str, str]]:
    """The commands of a block that stand after a $, each with what it prints below."""
    return [(command, out) for command, out in re.findall(r"(?ms)^\$ ([^\n]*)\n(.*?)(?=^\$ |\Z)", block)]


def check_commands(told: Report, abuf: program.Program) -> None:
    if shutil.which("bash") is None:
        told.line("check_docs: commands aren't run, since bash isn't installed")
        return
    with tempfile.TemporaryDirectory() as folder:
        place = Place(folder, abuf)
        for path in ("README.md", "docs/FORMATS.md", "docs/VIEWING.md", "docs/abuf.1"):
            # The commands of a document follow on one another, so they share a folder and the variables of the shell.
            variables = ""
            for block in typed(path):
                for command, out in shown(block):
                    check_command(told, place, path, variables, command, out)
                if not block.startswith("$ ") and is_typed(block):
                    lines = [line for line in block.splitlines() if line != "cd examples" and not LONG.search(line)]
                    check_command(told, place, path, variables, "\n".join(lines))
                variables += "".join(line + "\n" for line in re.findall(r"(?m)^\w+='[^']*'$", block))
        if place.missing:
            told.line(f"check_docs: {place.skipped} commands skipped, since {', '.join(sorted(place.missing))} isn't installed")


def check_command(told: Report, place: Place, path: str, variables: str, command: str, wanted: str | None = None) -> None:
    """Runs a command whose files are there; it must end in status 0, or print what the document shows."""
    made = set(re.findall(r"> ?([\w.-]+)", command))
    plain = re.sub(r"'[^']*'", "", command)
    needed = set(NEEDED.findall(plain)) - made
    is_made_within = re.search(r"(?m)^for | -y |^convert|^identify", plain) is not None
    if not command or not place.can_run(command) or not is_made_within and not all(
            os.path.exists(os.path.join(place.examples, name)) for name in needed):
        return
    status, found = place.run(variables + command)
    if wanted is not None:
        told.add(f"{path}: $ {command}", None if found == wanted else f"prints\n{found}where the document has\n{wanted}")
    else:
        told.add(f"{path}: {command}", None if status == 0 else f"status {status}, {found.strip()}")


def check_pictures(told: Report, abuf: program.Program) -> None:
    for picture in pictures.pictures():
        try:
            pictures.check(abuf, picture)
            told.add(f"the picture {picture.name}", None)
        except (pictures.Failed, Fault) as why:
            told.add(f"the picture {picture.name}", str(why))


SUBJECTS = {"options": check_options, "limits": check_limits, "texts": check_texts, "samples": check_samples, "crates": check_crates,
            "edits": check_edits, "links": check_links, "names": check_names, "scripts": check_scripts}
WITH_ABUF = {"commands": check_commands, "pictures": check_pictures}


def main() -> int:
    parser = report.words(__doc__)
    parser.add_argument("--only", metavar="SUBJECT,..", type=lambda value: value.split(","), default=[*SUBJECTS, *WITH_ABUF],
                        help="these subjects alone")
    program.add_option(parser)
    given = parser.parse_args()
    unknown = [name for name in given.only if name not in [*SUBJECTS, *WITH_ABUF]]
    if unknown:
        parser.error(f"no subject {', '.join(unknown)}; there are {', '.join([*SUBJECTS, *WITH_ABUF])}")
    abuf = program.find(given.abuf, program.launcher_tunables()) if set(given.only) & set(WITH_ABUF) else None
    told = Report("comparisons")
    for name in given.only:
        try:
            if name in SUBJECTS:
                SUBJECTS[name](told)
            elif abuf is not None:
                WITH_ABUF[name](told, abuf)
        except (Fault, KeyError, AttributeError, StopIteration) as why:
            told.add(name, f"the document or the source has another form than is known: {why!r}")
    return told.conclude()


if __name__ == "__main__":
    report.end(main)
