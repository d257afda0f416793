#!/usr/bin/env python3
"""Runs the conformance suite: each case must give the image or the text that is recorded for it.

    check.py [PROGRAM]              check a program, on 1, 3 and 64 threads
    check.py --reference            check what is recorded against tools/reference.py, in minutes
    check.py --write [PROGRAM]      write scenes, triangles, pictures and records anew
    check.py --expand FILE.lines    write out a scene or library that is too long to be kept

The program is the one named, or that of the environment variable ABUF, or crates/abuf/out/abuf.
Each case that differs is told, and the last line counts them. The status is 0 where all agree, 1
where a case differs, and 2 where the suite couldn't be run.
"""

import argparse
import contextlib
import hashlib
import importlib
import json
import os
import re
import shlex
import shutil
import struct
import subprocess
import sys
import tempfile
import zlib
from dataclasses import dataclass

HERE = os.path.dirname(os.path.abspath(__file__))
TOP = os.path.dirname(HERE)
REFERENCE = os.path.join(TOP, "tools", "reference.py")
README = os.path.join(HERE, "README.md")
SUBJECTS = {
    "coverage": "Coverage: edges and vertices on samples",
    "samples": "The places of the samples",
    "subpixel": "Places in 1/256 pixel",
    "far": "Past the sides and far outside",
    "near": "The near plane",
    "camera": "The camera",
    "depth": "Depth and order",
    "compositing": "Compositing",
    "pools": "Pools",
    "sequences": "Sequences of images",
    "reading": "Reading of scenes and libraries",
    "refusals": "Refusals",
}
PICTURE_SIDE = 192  # what small images are enlarged to, nearly
TALLEST = 512  # taller images have no picture
SECONDS = 300  # the most that a run may take


class Fault(Exception):
    """Why the suite couldn't be run."""


# ---- files


def folder_of(subject):
    return os.path.join(HERE, subject)


def read(path):
    with open(path, "rb") as file:
        return file.read()


def write(path, data):
    with open(path, "wb") as file:
        file.write(data.encode() if isinstance(data, str) else data)


def records_of(subject):
    try:
        return json.loads(read(os.path.join(folder_of(subject), "cases.json")))
    except (OSError, ValueError) as why:
        raise Fault(f"{subject}/cases.json: {why}") from None


def expanded(recipe):
    """The bytes of a file too long to be kept: each line of its recipe is a count and a text that
    stands as a line so often, with its number from 1 on for {}."""
    parts = []
    for line in recipe.splitlines():
        count, _, text = line.partition(b" ")
        if b"{}" in text:
            parts += [text.replace(b"{}", b"%d" % i) + b"\n" for i in range(1, int(count) + 1)]
        else:
            parts.append((text + b"\n") * int(count))
    return b"".join(parts)


def working_copy(subject, folder):
    """A copy of the scenes, libraries and paths of a subject, the long ones among them."""
    for name in os.listdir(folder_of(subject)):
        path = os.path.join(folder_of(subject), name)
        if name.endswith(".lines"):
            write(os.path.join(folder, name[:-len(".lines")]), expanded(read(path)))
        elif name.endswith((".obj", ".mtl", ".path")):
            shutil.copyfile(path, os.path.join(folder, name))


# ---- images and pictures


@dataclass
class Image:
    width: int
    height: int
    maxval: int
    values: bytes


HEADER = re.compile(rb"P7\nWIDTH (\d+)\nHEIGHT (\d+)\nDEPTH 3\nMAXVAL (\d+)\n"
                    rb"TUPLTYPE RGB\nENDHDR\n")


def image_of(data):
    """The image of a PAM, or None where the bytes are none. Of a sequence the images stand one below
    another."""
    header = HEADER.match(data)
    if header is None:
        return None
    width, height, maxval = map(int, header.groups())
    length = width * height * (3 if maxval == 255 else 6)
    values, count = [], 0
    while data:
        if not data.startswith(header.group()):
            return None
        values.append(data[header.end():header.end() + length])
        data = data[header.end() + length:]
        count += 1
    if len(values[-1]) < length:
        return None
    return Image(width, count * height, maxval, b"".join(values))


def picture_of(image):
    """The rows of a PNG of an image, each pixel of which is enlarged to a square."""
    times = max(1, PICTURE_SIDE // max(image.width, image.height))
    pixel = 3 if image.maxval == 255 else 6
    rows = []
    for start in range(0, len(image.values), image.width * pixel):
        row = image.values[start:start + image.width * pixel]
        wide = b"".join(row[i:i + pixel] * times for i in range(0, len(row), pixel))
        rows += [b"\0" + wide] * times
    return image.width * times, image.height * times, 8 * pixel // 3, b"".join(rows)


def png_of(image):
    def chunk(kind, data):
        check = zlib.crc32(kind + data)
        return struct.pack(">I", len(data)) + kind + data + struct.pack(">I", check)

    width, height, bits, rows = picture_of(image)
    header = struct.pack(">IIBBBBB", width, height, bits, 2, 0, 0, 0)
    return (b"\x89PNG\r\n\x1a\n" + chunk(b"IHDR", header)
            + chunk(b"IDAT", zlib.compress(rows, 9)) + chunk(b"IEND", b""))


def shows_image(png, image):
    """Whether a PNG that was written here shows the image, however it was compressed."""
    width, height, bits, rows = picture_of(image)
    try:
        length = struct.unpack(">I", png[33:37])[0]
        return (struct.unpack(">IIB", png[16:25]) == (width, height, bits)
                and zlib.decompress(png[41:41 + length]) == rows)
    except (struct.error, zlib.error):
        return False


# ---- commands


@dataclass
class Command:
    words: list
    source: str  # the file that is standard input, or None
    sink: str  # the file that takes standard output, or None


def command_of(text):
    parts = shlex.split(text)
    places = {}
    while len(parts) > 2 and parts[-2] in ("<", ">"):
        places[parts[-2]] = parts[-1]
        parts = parts[:-2]
    return Command(parts[1:], places.get("<"), places.get(">"))


@dataclass
class Answer:
    status: int
    out: bytes
    err: bytes


def run(program, command, folder, threads=None):
    """What a program answers to a command; threads are asked for unless None."""
    words = list(command.words)
    if threads is not None:
        words[1:1] = ["--threads", str(threads)]
    with contextlib.ExitStack() as stack:
        source = stack.enter_context(open(os.path.join(folder, command.source or os.devnull), "rb"))
        sink = stack.enter_context(open(command.sink, "wb")) if command.sink else subprocess.PIPE
        try:
            done = subprocess.run(program + words, cwd=folder, stdin=source, stdout=sink,
                                  stderr=subprocess.PIPE, timeout=SECONDS)
        except subprocess.TimeoutExpired:
            return Answer(None, b"", b"no end within %d seconds" % SECONDS)
    return Answer(done.returncode, done.stdout or b"", done.stderr)


def lines_of(data):
    """Lines of text, each ended by LF."""
    lines = data.decode(errors="replace").split("\n")
    last = lines.pop()
    return lines + [last + " (without a line end)"] if last else lines


def outcome_of(answer):
    """What is recorded of an answer."""
    outcome = {"status": answer.status}
    if answer.err or answer.status:
        outcome["error"] = "\n".join(lines_of(answer.err))
    if image_of(answer.out):
        outcome["sha256"] = hashlib.sha256(answer.out).hexdigest()
    elif answer.out or not answer.status:
        outcome["output"] = lines_of(answer.out)
    return outcome


def recorded(record):
    return {key: record[key] for key in ("status", "error", "sha256", "output") if key in record}


# ---- checking


def picture_fault(subject, record, answer):
    """What is wrong with the picture of a case, or None."""
    image = image_of(answer.out)
    path = os.path.join(folder_of(subject), record["name"] + ".png")
    if image is None or image.height > TALLEST:
        return None
    if not os.path.exists(path):
        return "there is no picture"
    return None if shows_image(read(path), image) else "the picture isn't that of the image"


def check_case(program, threads, subject, record, folder):
    """What differs in a case, as lines of text."""
    command = command_of(record["command"])
    wanted = recorded(record)
    told = []
    # Words that are refused are tried as they stand, since more words could change the refusal.
    for count in [None] if record["status"] == 2 else threads:
        answer = run(program, command, folder, count)
        by = "" if count is None else f" on {count} thread" + "s" * (count > 1)
        outcome = outcome_of(answer)
        if outcome != wanted:
            keys = sorted(key for key in wanted.keys() | outcome.keys()
                          if wanted.get(key) != outcome.get(key))
            told += [f"{key}{by}: recorded {wanted.get(key)}, got {outcome.get(key)}"
                     for key in keys]
        elif count == threads[0] and (fault := picture_fault(subject, record, answer)):
            told.append(fault)
    return told


def is_sequence(command):
    return command.words[:1] == ["sequence"]


def check_triangles(subject, record, folder):
    """What differs in the file of triangles of a case, as lines of text."""
    path = os.path.join(folder_of(subject), record["name"] + ".tri")
    if "sha256" not in record or is_sequence(command_of(record["command"])):
        return []
    text = triangles_module().text_of(command_of(record["command"]), folder)
    return [] if os.path.exists(path) and read(path) == text else ["the triangles differ"]


def check(program, threads, subjects, is_reference):
    passed = failed = 0
    for subject in subjects:
        with tempfile.TemporaryDirectory() as folder:
            working_copy(subject, folder)
            for record in records_of(subject):
                told = check_case(program, threads, subject, record, folder)
                if is_reference:
                    told += check_triangles(subject, record, folder)
                failed += bool(told)
                passed += not told
                for line in told:
                    print(f"{subject}/{record['name']}: {line}", flush=True)
    if subjects == list(SUBJECTS):
        agrees = read(README).decode() == with_tables(read(README).decode())
        failed += not agrees
        passed += agrees
        if not agrees:
            print("README.md: its tables aren't those of the cases")
    print(f"{passed} passed, {failed} failed")
    return failed == 0


# ---- writing


def triangles_module():
    sys.path[:0] = [HERE, os.path.dirname(REFERENCE)]
    try:
        return importlib.import_module("scenes.triangles")
    finally:
        del sys.path[:2]


def write_files(subject, cases):
    """The scenes and libraries of a subject, in an empty folder."""
    folder = folder_of(subject)
    if os.path.isdir(folder):
        shutil.rmtree(folder)
    os.mkdir(folder)
    written = {}
    for case in cases:
        for name, text in case.files.items():
            if written.setdefault(name, text) != text:
                raise Fault(f"{subject}/{case.name}: another {name} is there")
            write(os.path.join(folder, name), text)


def write_case(program, subject, case, folder):
    """The picture and the triangles of a case; its record is given back."""
    command = command_of(case.command)
    answer = run(program, command, folder)
    outcome = outcome_of(answer)
    if (outcome["status"], outcome.get("error")) != (case.status, case.error):
        raise Fault(f"{subject}/{case.name}: {answer.status} {answer.err!r}")
    image = image_of(answer.out)
    base = os.path.join(folder_of(subject), case.name)
    if image and not is_sequence(command):
        write(base + ".tri", triangles_module().text_of(command, folder))
    if image and image.height <= TALLEST:
        write(base + ".png", png_of(image))
    return {"name": case.name, "shows": case.shows, "command": case.command, **outcome}


def write_subject(program, subject):
    sys.path.insert(0, HERE)
    cases = list(importlib.import_module(f"scenes.{subject}").cases())
    del sys.path[0]
    names = [case.name for case in cases]
    if len(set(names)) < len(names):
        raise Fault(f"{subject}: two cases have one name")
    write_files(subject, cases)
    with tempfile.TemporaryDirectory() as folder:
        working_copy(subject, folder)
        records = [write_case(program, subject, case, folder) for case in cases]
    text = json.dumps(records, indent=1, ensure_ascii=False)
    write(os.path.join(folder_of(subject), "cases.json"), text + "\n")
    print(f"{subject}: {len(records)} cases")


def table_of(subject):
    """The part of README.md on a subject."""
    records = records_of(subject)
    has_pictures = any("sha256" in record for record in records)
    text = [f"### {SUBJECTS[subject]}", "", f"{len(records)} cases, in `{subject}/`.", ""]
    if has_pictures:
        text += ["| | Case | What it shows | Command |", "|---|---|---|---|"]
    else:
        text += ["| Case | What it shows | Status | Text | Command |", "|---|---|---|---|---|"]
    for record in records:
        name, error = record["name"], record.get("error")
        picture = f"{subject}/{name}.png"
        cells = [f"`{name}`", record["shows"], f"`{record['command']}`"]
        if not has_pictures:
            cells[2:2] = [str(record["status"]), f"`{error}`"]
        elif error:
            cells[1] += f" Status {record['status']}, `{error}`."
        if has_pictures:
            is_there = os.path.exists(os.path.join(HERE, picture))
            cells.insert(0, f"![{name}]({picture})" if is_there else "")
        text.append("| " + " | ".join(cells) + " |")
    return "\n".join(text)


def with_tables(readme):
    """The text of README.md with the tables of the cases that are there."""
    begin, end = "<!-- cases -->\n", "<!-- end of cases -->"
    if begin not in readme or end not in readme:
        raise Fault("README.md has no place for the tables")
    there = [subject for subject in SUBJECTS
             if os.path.exists(os.path.join(folder_of(subject), "cases.json"))]
    tables = "\n\n".join(table_of(subject) for subject in there)
    return readme[:readme.index(begin)] + begin + tables + "\n" + readme[readme.index(end):]


def main():
    parser = argparse.ArgumentParser(description=__doc__,
                                     formatter_class=argparse.RawDescriptionHelpFormatter)
    parser.add_argument("program", nargs="?", metavar="PROGRAM",
                        default=os.environ.get("ABUF", os.path.join(TOP, "crates/abuf/out/abuf")))
    parser.add_argument("--only", choices=SUBJECTS, metavar="SUBJECT",
                        help="one of " + ", ".join(SUBJECTS))
    parser.add_argument("--threads", default="1,3,64", metavar="LIST",
                        help="the numbers of threads to check with (1,3,64)")
    parser.add_argument("--reference", action="store_true", help="check against the reference")
    parser.add_argument("--write", action="store_true", help="write all files of the cases anew")
    parser.add_argument("--expand", metavar="FILE.lines", help="write out a file too long to be kept")
    given = parser.parse_args()
    subjects = [given.only] if given.only else list(SUBJECTS)
    threads = [int(part) for part in given.threads.split(",")]
    program = [os.path.abspath(given.program)]
    try:
        if given.expand:
            sys.stdout.buffer.write(expanded(read(given.expand)))
            sys.exit(0)
        if given.write:
            for subject in subjects:
                write_subject(program, subject)
            write(README, with_tables(read(README).decode()))
            sys.exit(0)
        if given.reference:
            program, threads = [sys.executable, REFERENCE], [1]
        sys.exit(0 if check(program, threads, subjects, given.reference) else 1)
    except (Fault, OSError) as why:
        print(f"check.py: {why}", file=sys.stderr)
        sys.exit(2)


if __name__ == "__main__":
    main()
