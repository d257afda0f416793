#!/usr/bin/env python3
"""Runs abuf where the outside is odd, and checks its status, its output and its text.

    outside.py [--abuf PATH]

    outside.py --abuf /usr/local/libexec/abuf

Standard input, output or error is closed, full or a folder; a reader goes away; a library is a
device, a pipe, a folder or no name at all; memory, stacks, files or time are limited. Each check is
a line of the shell, run in a new folder in which are

    scene.obj       a triangle, white, or red by a library that the check names
    a.mtl           the library with the colour
    path            the path of a sequence
    folder          an empty folder

'abuf WORDS..' runs the program, whose status is what counts, also within a pipe; 'render' runs
'abuf render' with few pixels and nodes, and 'sequence' the same along a path, which the line may
name; 'unblock N' lets no read or write of a descriptor wait. A line that doesn't end has failed.
The status is 1 where a check failed.
"""

import functools
import os
import signal
import subprocess
import sys
import tempfile
from dataclasses import dataclass

import reference
from abuflib import program, report

SECONDS = 60

SHELL = """
abuf() { "$program" "$@"; echo $? > status; }
render() { abuf render --size 4x4 --nodes 100 "$@"; }
sequence() { abuf sequence "${1:-path}" --size 4x4 --nodes 100; }
unblock() { "$python" -c "import os; os.set_blocking($1, False)"; }
until_it_ends() { until [ -e status ]; do sleep 0.1; done; }
"""
TRIANGLE = b"v 0 3 0\nv 3 -3 0\nv -3 -3 0\n%bf 1 2 3\n"
LIBRARY = b"newmtl red\nKd 1 0 0\n"
PATH = b"# twelve distances\n" + b"".join(b"1 0 0 0 0 0 -%d\n" % z for z in (5, 4, *range(6, 16)))
WHOLE = "the image"
NOTHING = ""


@dataclass
class Check:
    title: str
    line: str
    status: int
    text: str = ""  # on standard error, where the line leaves it
    out: str = NOTHING
    library: bytes | None = None  # its name in the scene
    is_short: bool = False  # of memory: status 8 is well too
    size: str = "4x4"  # of the images of a sequence
    part: int | None = None  # how many bytes of the images of the sequence come, in place of the output


# ---- the checks


def checks():
    yield from of_the_scene()
    yield from of_the_output()
    yield from of_the_text()
    yield from of_names()
    yield from of_pipes()
    yield from of_memory()
    yield from of_limits()
    yield from of_paths()
    yield from of_streams()


def of_the_scene():
    fault = "read fault"
    yield Check("standard input is closed", "render <&-", 6, fault)
    yield Check("it is open for writing alone", "render 0> other", 6, fault)
    yield Check("it is a folder", "render < folder", 6, fault)
    yield Check("it is memory that can't be read", "render < /proc/self/mem", 6, fault)
    yield Check("it has no end", "render < /dev/zero", 3, "scene too long")
    yield Check("it comes byte by byte", "dd bs=1 if=scene.obj 2> log | render", 0, out=WHOLE)
    yield Check("it comes late", "(sleep 0.5; cat scene.obj) | render", 0, out=WHOLE)
    yield Check("it is empty for now and doesn't wait",
                "until_it_ends | (unblock 0; render)", 6, fault)
    yield Check("it ends within a line", "printf 'v 1' | render", 3, "line 1: bad number")
    yield Check("refused words leave it unread",
                "(abuf render --size 0x0; cmp - scene.obj >&2) < scene.obj", 2, "bad value: size")
    yield Check("demo doesn't read it", "abuf demo 1 --size 1x1 --nodes 9 <&- > other", 0)


def of_the_output():
    fault = "write fault"
    large = "abuf render --size 200x200 --nodes 40000 < scene.obj"
    yield Check("standard output is closed", "render < scene.obj >&-", 7, fault)
    yield Check("it is open for reading alone", "render < scene.obj 1< a.mtl", 7, fault)
    yield Check("it is a full disk", "render < scene.obj > /dev/full", 7, fault)
    yield Check("a report on a full disk", "abuf pick 1,1 < scene.obj > /dev/full", 7, fault)
    yield Check("a summary on a full disk", "abuf demo 1 --size 1x1 > /dev/full", 7, fault)
    yield Check("its reader has gone", "(sleep 0.5; render < scene.obj) | true", 7, fault)
    yield Check("its reader goes away", f"{large} | head -c 9 > other", 7, fault)
    yield Check("its reader is slow", "render < scene.obj | (sleep 0.5; cat)", 0, out=WHOLE)
    yield Check("it is full for now and doesn't wait",
                f"(unblock 1; {large}) | (until_it_ends; cat > other)", 7, fault)
    yield Check("a refusal leaves it alone", "abuf render --size 0x0 > /dev/full", 2,
                "bad value: size")


def of_the_text():
    yield Check("standard error is closed", "abuf render --size 0x0 2>&-", 2)
    yield Check("it is full", "abuf render --size 0x0 2> /dev/full", 2)
    yield Check("its reader has gone", "(sleep 0.5; abuf render --size 0x0 2>&1) | true", 2)
    yield Check("it is closed on a write fault", "render < scene.obj > /dev/full 2>&-", 7)
    yield Check("it is closed and not needed", "render < scene.obj 2>&-", 0, out=WHOLE)
    yield Check("all three are closed", "render <&- >&- 2>&-", 6)


def of_names():
    def check(title, name, status, text="", before="", out=NOTHING):
        return Check(title, f"{before}render < scene.obj", status, text, out, name)

    fault, missing = "read fault", "library 1 missing"
    unknown = "line 6: unknown material"
    yield check("a library", b"a.mtl", 0, out=WHOLE)
    yield check("through a folder and back", b"folder/../a.mtl", 0, out=WHOLE)
    yield check("from the root", b"$PWD/a.mtl", 0, out=WHOLE)
    yield check("through the folders above", b"../" * 20 + b"$PWD/a.mtl", 0, out=WHOLE)
    yield check("a link", b"b.mtl", 0, before="ln -s a.mtl b.mtl; ", out=WHOLE)
    yield check("the name of a variable isn't one", b"$HOME/a.mtl$(echo)", 4, missing)
    yield check("no such file", b"b.mtl", 4, missing)
    yield check("no such folder", b"no/../a.mtl", 4, missing)
    yield check("a link to nothing", b"b.mtl", 4, missing, "ln -s no.mtl b.mtl; ")
    yield check("a link to itself", b"b.mtl", 6, fault, "ln -s b.mtl b.mtl; ")
    yield check("a folder", b"folder", 6, fault)
    yield check("the folder above", b"..", 6, fault)
    yield check("the root", b"/", 6, fault)
    yield check("a path through a file", b"a.mtl/b.mtl", 6, fault)
    yield check("a zero byte", b"a.mtl\0", 6, fault)
    yield check("bytes that aren't UTF-8", b"a\xff.mtl", 6, fault)
    yield check("a name that is too long", b"a" * 300, 6, fault)
    yield check("a path that is too long", b"./" * 3000 + b"a.mtl", 6, fault)
    if os.geteuid() != 0:  # to whom nothing is forbidden
        yield check("a file that may not be read", b"a.mtl", 6, fault, "chmod 0 a.mtl; ")
    yield check("memory that can't be read", b"/proc/self/mem", 6, fault)
    yield check("the terminal, where there is none", b"/dev/tty", 6, fault)
    yield check("an empty device", b"/dev/null", 3, unknown)
    yield check("a device without an end", b"/dev/zero", 4, "library 1 too long")
    yield check("the scene itself", b"/dev/stdin", 3, unknown)


def of_pipes():
    pipe = b"b.mtl"
    make = "mkfifo b.mtl; "
    yield Check("a library from a pipe", make + "cat a.mtl > b.mtl & render < scene.obj", 0,
                out=WHOLE, library=pipe)
    yield Check("its writer comes late",
                make + "(sleep 0.5; cat a.mtl > b.mtl) & render < scene.obj", 0,
                out=WHOLE, library=pipe)
    yield Check("its writer never ends", make + "cat /dev/zero > b.mtl & render < scene.obj", 4,
                "library 1 too long", library=pipe)
    yield Check("it has no writer and is waited for",
                make + 'timeout 1 "$program" render < scene.obj; echo $? > status', 124,
                library=pipe)
    yield Check("it is the program's own and is waited for",
                '(timeout 1 "$program" render < scene.obj; echo $? > status) | cat', 124,
                library=b"/dev/stdout")
    yield Check("the scene's own pipe, at its end", "cat scene.obj | render", 3,
                "line 6: unknown material", library=b"/dev/stdin")


def of_memory():
    for threads, nodes in ((1, 4194304), (64, 100), (64, 4194304)):
        for limit in (6, 8, 12, 16, 24, 32, 48, 64, 96, 128, 160, 192, 256, 384, 512, 768, 1024):
            line = f"ulimit -v {1024 * limit}; abuf render --size 4x4 --threads {threads} " \
                f"--nodes {nodes} < scene.obj"
            yield Check("little memory", line, 0, out=WHOLE, library=b"a.mtl", is_short=True)


def of_limits():
    def check(title, limits, words, status, out=NOTHING, before=""):
        """The limits hold for the program, and not for the shell that writes its status."""
        line = f'{before}({limits}; exec "$program" {words}) < scene.obj; echo $? > status'
        return Check(title, line, status, out=out, library=b"a.mtl")

    small = "render --size 4x4 --nodes 100"
    yield check("a small stack", "ulimit -s 64", small + " --threads 1", 0, WHOLE)
    for stack in ("64", "unlimited"):
        yield check("small and large stacks of threads", f"ulimit -s {stack}",
                    small + " --threads 64", 0, WHOLE)
    yield check("no file may grow, and its signal is ignored", "trap '' XFSZ; ulimit -f 0",
                small + " > other", 7, before="exec 2> log; ")
    yield check("no file may grow", "ulimit -c 0; ulimit -f 0", small + " > other", 128 + 25,
                before="exec 2> log; ")
    yield check("processor time is short", "ulimit -c 0; ulimit -t 1",
                "demo 200000 --nodes 100 --threads 1", 128 + 9, before="exec 2> log; ")


def of_paths():
    """The path of a sequence; nothing is written unless it is taken."""
    def check(title, name, status, text="", before="", part=0):
        return Check(title, f"{before}sequence {name} < scene.obj", status, text, part=part)

    fault, missing = "read fault", "path missing"
    all_of_it = len(images_of("4x4"))
    yield check("a path", "path", 0, part=all_of_it)
    yield check("a path through a folder and back", "folder/../path", 0, part=all_of_it)
    yield check("a path from the root", '"$PWD/path"', 0, part=all_of_it)
    yield check("a link to a path", "b", 0, before="ln -s path b; ", part=all_of_it)
    yield check("a path whose name has a blank", "'my path'", 0, before="cp path 'my path'; ",
                part=all_of_it)
    yield check("a path from a pipe", "b", 0, before="mkfifo b; cat path > b & ", part=all_of_it)
    yield check("no such path", "no", 9, missing)
    yield check("a path in no such folder", "no/../path", 9, missing)
    yield check("a path that is a link to nothing", "b", 9, missing, "ln -s no b; ")
    yield check("a path that is a link to itself", "b", 6, fault, "ln -s b b; ")
    yield check("a path that is a folder", "folder", 6, fault)
    yield check("a path through a file", "a.mtl/b", 6, fault)
    yield check("a path's name that is too long", "a" * 300, 6, fault)
    yield check("a path that is memory that can't be read", "/proc/self/mem", 6, fault)
    if os.geteuid() != 0:  # to whom nothing is forbidden
        yield check("a path that may not be read", "path", 6, fault, "chmod 0 path; ")
    yield check("a path that is an empty device", "/dev/null", 0)
    yield check("a path that is a device without an end", "/dev/zero", 9, "path too long")
    yield check("a path whose writer never ends", "b", 9, "path too long",
                "mkfifo b; cat /dev/zero > b & ")
    yield check("a scene as the path", "scene.obj", 9, "path line 1: wrong count")
    yield Check("a path's name that isn't UTF-8", 'sequence "$(printf "p\\377")" < scene.obj', 2,
                "words not understood")
    yield Check("a refused path leaves the scene unread",
                "(sequence no; cmp - scene.obj >&2) < scene.obj", 9, missing)
    yield Check("a path from the pipe of the scene", "cat path scene.obj | sequence /dev/stdin", 9,
                "path line 14: wrong count")


def of_streams():
    """The output of a sequence: whole images, and a part of one where it can't go on."""
    fault = "write fault"
    image, large = (len(images_of(size)) // 12 for size in ("4x4", "100x100"))

    def cut(title, part):
        line = f"abuf sequence path --size 100x100 --nodes 10000 < scene.obj | head -c {part}"
        return Check(title, line, 7, fault, size="100x100", part=part)

    yield cut("its reader goes away after two images", 2 * large)
    yield cut("its reader goes away within the third", 2 * large + 99)
    yield cut("its reader goes away within the first header", 20)
    yield Check("its reader has gone before the first", "(sleep 0.5; sequence < scene.obj) | true",
                7, fault)
    yield Check("the disk is full within the fifth image",
                "(trap '' XFSZ; ulimit -f 1; sequence > other) < scene.obj; cat other", 7, fault,
                part=512)
    yield Check("the disk is full from the start", "sequence < scene.obj > /dev/full", 7, fault)
    yield Check("standard output is closed, and a sequence", "sequence < scene.obj >&-", 7, fault)
    yield Check("it is closed, and there are no images", "sequence /dev/null < scene.obj >&-", 0)
    yield Check("its reader is slow, and a sequence", "sequence < scene.obj | (sleep 0.5; cat)", 0,
                part=12 * image)
    yield Check("a scene that comes late, and a sequence", "(sleep 0.5; cat scene.obj) | sequence",
                0, part=12 * image)
    yield Check("the scene can't be read, and a sequence", "sequence < folder", 6, "read fault")
    yield Check("the second image fills the pool",
                "abuf sequence path --size 4x4 --nodes 2 < scene.obj", 5,
                "image 2: pool full: 3 fragments, 2 nodes", part=image)
    yield Check("its reader goes away before the image that fills the pool",
                "(sleep 0.5; abuf sequence path --size 4x4 --nodes 2 < scene.obj) | true", 7, fault)
    yield Check("the first image fills the pool on a full disk",
                "abuf sequence path --size 4x4 --nodes 1 < scene.obj > /dev/full", 5,
                "image 1: pool full: 2 fragments, 1 nodes")


# ---- running


def scene_of(check, folder):
    if check.library is None:
        return TRIANGLE % b""
    name = check.library.replace(b"$PWD", os.fsencode(folder))
    return TRIANGLE % (b"mtllib %b\nusemtl red\n" % name)


def image_of(check):
    """The bytes of the image, by the reference."""
    paint = b"" if check.library is None else b"mtllib a.mtl\nusemtl red\n"
    return reference.output_of(["render", "--size", "4x4"], lambda most: TRIANGLE % paint,
                               lambda name, most: LIBRARY)


@functools.lru_cache
def images_of(size):
    """The bytes of the images of the sequence, by the reference."""
    return reference.output_of(["sequence", "path", "--size", size], lambda most: TRIANGLE % b"",
                               lambda name, most: PATH)


def output_of(check):
    """The bytes that are to come."""
    if check.part is not None:
        return images_of(check.size)[:check.part]
    return image_of(check) if check.out == WHOLE else b""


def prepare(check, folder):
    os.mkdir(os.path.join(folder, "folder"))
    for name, data in (("scene.obj", scene_of(check, folder)), ("a.mtl", LIBRARY), ("path", PATH)):
        with open(os.path.join(folder, name), "wb") as file:
            file.write(data)


def run(check, path, folder):
    """The status, output and text of a line; the status is None where it didn't end."""
    out_path, err_path, status_path = (os.path.join(folder, n) for n in ("out", "err", "status"))
    with open(out_path, "wb") as out, open(err_path, "wb") as err:
        shell = subprocess.Popen(["sh", "-c", SHELL + check.line], cwd=folder,
                                 stdin=subprocess.DEVNULL, stdout=out, stderr=err,
                                 start_new_session=True,
                                 env=program.environment(program=path, python=sys.executable))
        try:
            shell.wait(SECONDS)
        except subprocess.TimeoutExpired:
            os.killpg(shell.pid, signal.SIGKILL)
            shell.wait()
    if not os.path.exists(status_path):
        return None, b"", b""
    status, out, err = (read(path) for path in (status_path, out_path, err_path))
    return int(status), out, err


def read(path):
    with open(path, "rb") as file:
        return file.read()


def fault_of(check, answer):
    """What is wrong, or None."""
    wanted = check.status, output_of(check), \
        check.text.encode() + b"\n" if check.text else b""
    if answer == wanted or check.is_short and answer == (8, b"", b"no memory\n"):
        return None
    if answer[0] is None:
        return f"it didn't end within {SECONDS} seconds"
    for name, a, b in zip(("status", "standard output", "standard error"), wanted, answer):
        if a != b:
            return f"{name}: wanted {short(a)}, got {short(b)}"
    return None


def short(found):
    told = repr(found)
    return told if len(told) <= 120 else f"{told[:80]}.. ({len(found)} bytes)"


def main():
    parser = report.words(__doc__)
    program.add_option(parser)
    path = program.find(parser.parse_args().abuf).path
    told = report.Report()
    for check in checks():
        with tempfile.TemporaryDirectory() as folder:
            folder = os.path.realpath(folder)
            prepare(check, folder)
            told.add(f"{check.title}: {check.line}\n   ", fault_of(check, run(check, path, folder)))
        told.progress(told.passed + told.failed)
    return told.conclude()


if __name__ == "__main__":
    report.end(main)
