#!/usr/bin/env python3
"""Shows a model in the browser, drawn by abuf, or compares images.

    view.py MODEL.obj [--turn=A,B,C,D] [--size WxH] [--samples S] [--port N] [--no-browser] [--abuf PATH]
    view.py A B                 compares two images: PAM, PPM or PNG
    view.py FOLDER              compares the pairs of a folder: NAME.abuf.pam with each NAME.OTHER.pam (or .png, .ppm)

    view.py --size 800x600 examples/lantern.obj

A page of this machine's loopback address alone opens in the browser; nothing else can reach it, and it loads nothing from
elsewhere. Drag to turn the model, drag with shift to shift it, and use the wheel to move. While it moves it is drawn small; at
rest it is drawn at full size with all samples. The command that draws exactly the picture is shown, and a click copies it. A
click on a pixel shows what `abuf pick` says of it: the layers of each sample from the farthest to the nearest, each with its
primitive, its line of the file, its material and its alpha, and the colour so far. A refusal is shown with its line and what
fixes it. Control-C ends the program.
"""

import functools
import http.server
import json
import os
import re
import shlex
import sys
import threading
import urllib.parse
import webbrowser
from typing import Any, NamedTuple

import fit
import reference
from abuflib import pam, program, report, scene
from abuflib.report import Fault

PAGE = os.path.join(program.TOOLS, "view.html")
ADDRESS = "127.0.0.1"
OPTIONS = ("size", "samples", "turn", "move", "near", "focal", "background")
LIMIT = 120.0  # seconds that a drawing may take
# What fixes a model that is refused, by the end of the text.
REMEDIES = {
    "unknown keyword": "an OBJ file of another coding, or with free forms", "bad number": "a number of another form, or beyond 32767",
    "bad index": "a corner that names no point", "too few elements": "an edge or a point in place of a face",
    "too many elements": "a face of more than 1024 corners", "no name": "a material or a library without a name",
    "unknown material": "a material that is in no library", "missing": "a library that isn't in the model's folder",
    "no material": "a value above the first material",
}


class Refused(Exception):
    """A refusal of abuf, as the page shows it."""

    def __init__(self, told: dict[str, Any]) -> None:
        super().__init__(told["text"])
        self.told = told


# ---- what lies in a pixel


class Layer(NamedTuple):
    """A primitive in a sample, and the colour with it."""

    primitive: int
    line: int  # of its face
    material: str
    depth: int
    colour: tuple[int, ...]
    alpha: int
    so_far: tuple[int, ...]


def near_of(job: reference.Job) -> int:
    return sum(part * part for part in job.turn) * job.near


class Faces:
    """The faces of a model with their paints, and which primitive is of which face."""

    def __init__(self, data: bytes, folder: str) -> None:
        self.obj = reference.read_obj(data)
        self.materials: dict[bytes, reference.Paint] = {}
        for number, name in enumerate(self.obj.libraries, 1):
            library = reference.fetch_from_folder(os.path.join(os.fsencode(folder), name), scene.MOST_BYTES)
            reference.read_mtl(library, number, self.materials)

    @functools.lru_cache(maxsize=4)
    def faces_of_primitives(self, turn: tuple[int, ...], shift: tuple[int, ...], near: int) -> list[int]:
        """The place of the face of each primitive, by how many pieces the near plane makes of each triangle."""
        job = reference.Job(turn=turn, shift=shift, near=near)
        is_inside = [reference.seen(job, point)[2] >= near_of(job) for point in self.obj.points]
        found: list[int] = []
        for place, face in enumerate(self.obj.faces):
            first = face.corners[0]
            for b, c in zip(face.corners[1:], face.corners[2:]):
                count = is_inside[first] + is_inside[b] + is_inside[c]
                found += [place] * (0, 1, 2, 1)[count]
        return found

    def paint(self, face: reference.Face) -> reference.Paint:
        return reference.Paint() if face.name is None else self.materials[face.name]

    def layers(self, job: reference.Job, report_of_pick: str) -> list[list[Layer]]:
        """The layers of each sample, from the farthest to the nearest, by the report of pick."""
        places = self.faces_of_primitives(job.turn, job.shift, job.near)
        samples = []
        for line in re.findall(r"(?m)^sample \d+(.*)$", report_of_pick):
            colour, layers = tuple(job.background), []
            for primitive, depth in re.findall(r"prim (\d+) depth (\d+)", line):
                face = self.obj.faces[places[int(primitive)]]
                paint = self.paint(face)
                colour = tuple(reference.over(under, own, paint.alpha) for under, own in zip(colour, paint.colour))
                name = "none: white" if face.name is None else face.name.decode(errors="replace")
                layers.append(Layer(int(primitive), face.line, name, int(depth), tuple(paint.colour), paint.alpha, colour))
            samples.append(layers)
        return samples


# ---- the model


class Model:
    """A model that is drawn for the page."""

    def __init__(self, path: str, abuf: program.Program, turn: scene.Turn, size: tuple[int, int], samples: int) -> None:
        self.path, self.folder = path, os.path.dirname(os.path.abspath(path))
        self.abuf, self.turn, self.size, self.samples = abuf, turn, size, samples
        with open(path, "rb") as file:
            self.data = file.read()
        self.lock = threading.Lock()
        self.known: Faces | None = None

    def state(self) -> dict[str, Any]:
        """What the page begins with: the model, its middle and its reach, and the camera of fit.py."""
        told: dict[str, Any] = {"kind": "model", "name": os.path.basename(self.path), "size": self.size, "samples": self.samples}
        try:
            self.run(["render", "--size", "1x1", "--peel"])
            points = self.points
            middle = [(min(p[axis] for p in points) + max(p[axis] for p in points)) / 2 for axis in range(3)]
            told["middle"] = [part / scene.LENGTH for part in middle]
            told["reach"] = max(sum((a - b) ** 2 for a, b in zip(p, middle)) for p in points) ** 0.5 / scene.LENGTH
            told["camera"] = self.fitted(self.turn, self.size)
            # The faces are read by and by, for the first click on a pixel.
            threading.Thread(target=self.faces, daemon=True).start()
        except Refused as refused:
            told["refusal"] = refused.told
        except Fault as why:
            told["refusal"] = {"text": str(why), "remedy": "nothing of the model can be shown"}
        return told

    @functools.cached_property
    def points(self) -> set[tuple[int, ...]]:
        return fit.points_of(self.data)

    def fitted(self, turn: scene.Turn, size: tuple[int, int]) -> dict[str, Any]:
        """The camera that shows all of the model."""
        words, remark = fit.fit(fit.turned(self.points, turn), size[0] / size[1])
        camera: dict[str, Any] = dict(word[2:].split("=") for word in words)
        return {**camera, "turn": ",".join(map(str, turn)), "remark": remark}

    def run(self, words: list[str]) -> tuple[bytes, list[str]]:
        """The output for the words, and the words with those that a full pool needs besides."""
        answer = self.abuf.run(words, self.data, self.folder, LIMIT)
        full = re.fullmatch(r"pool full: (\d+) fragments, \d+ nodes", answer.text()) if answer.status == 5 else None
        if full:
            fragments = int(full.group(1))
            more = ["--nodes", str(fragments)]
            if fragments > scene.MOST_NODES:
                if words[0] != "render":
                    raise Refused({"text": answer.text(), "remedy": "a smaller image has fewer fragments"})
                more = ["--nodes", str(scene.MOST_NODES), "--bands", str(min(self.size[1], 2 + 2 * fragments // scene.MOST_NODES))]
            words = words + more
            answer = self.abuf.run(words, self.data, self.folder, LIMIT)
        if answer.status != 0:
            raise Refused(self.refusal(answer))
        return answer.out, words

    def refusal(self, answer: program.Answer) -> dict[str, Any]:
        """A refusal with its line of the file and what fixes it."""
        text = answer.text()
        told: dict[str, Any] = {"status": answer.status, "text": text, "file": os.path.basename(self.path)}
        data = self.data
        library = re.match(r"library (\d+)", text)
        if library:
            names = [line.rest for line in scene.lines(self.data) if line.keyword == b"mtllib" and line.rest]
            name = list(dict.fromkeys(names))[int(library.group(1)) - 1]
            told["file"] = name.decode(errors="replace")
            place = os.path.join(os.fsencode(self.folder), name)
            data = b""
            if os.path.isfile(place):
                with open(place, "rb") as file:
                    data = file.read()
        line = re.search(r"line (\d+)", text)
        if line:
            lines = data.split(b"\n")
            told["line"] = int(line.group(1))
            told["source"] = lines[told["line"] - 1][:200].decode(errors="replace").rstrip("\r") if told["line"] <= len(lines) else ""
        cause = next((remedy for end, remedy in REMEDIES.items() if text.endswith(end)), None)
        if cause:
            told["remedy"] = f"{cause}; this fixes it, and says what it changes:"
            told["command"] = f"tools/fix_obj.py {shlex.quote(self.path)} fixed.obj"
        return told

    def words(self, asked: dict[str, str]) -> list[str]:
        return [f"--{name}={asked[name]}" for name in OPTIONS if name in asked]

    def image(self, asked: dict[str, str]) -> tuple[bytes, str]:
        """The image that is asked for, and the command that draws it."""
        out, words = self.run(["render", *self.words(asked)])
        return out, self.command(words)

    def command(self, words: list[str]) -> str:
        return f"abuf {shlex.join(words)} < {shlex.quote(os.path.basename(self.path))} > {os.path.splitext(os.path.basename(self.path))[0]}.pam"

    def faces(self) -> Faces:
        with self.lock:
            if self.known is None:
                self.known = Faces(self.data, self.folder)
            return self.known

    def pixel(self, asked: dict[str, str]) -> dict[str, Any]:
        """What lies in a pixel."""
        place = f"{int(asked['x'])},{int(asked['y'])}"
        out, words = self.run(["pick", place, *self.words(asked)])
        job = reference.job_of(["render", *self.words(asked)])
        samples = self.faces().layers(job, out.decode())
        finals = [layers[-1].so_far if layers else job.background for layers in samples]
        value = [reference.pixel_value(job, sum(channel)) for channel in zip(*finals)]
        return {"pixel": place, "fragments": int(out.split()[1]), "background": job.background, "value": value,
                "offsets": reference.OFFSETS[job.samples], "samples": [[layer._asdict() for layer in layers] for layers in samples],
                "command": self.command(words).partition(" > ")[0]}


# ---- images to compare


class Pairs:
    """Pairs of images to compare."""

    def __init__(self, pairs: list[tuple[str, str, str]], name: str = "Two images") -> None:
        self.pairs, self.name = pairs, name

    def state(self) -> dict[str, Any]:
        def names(a: str, b: str) -> dict[str, str]:
            short = os.path.basename(a), os.path.basename(b)
            return dict(zip("ab", short if len(set(short)) == 2 else (a, b)))

        return {"kind": "pairs", "name": self.name, "pairs": [{"name": name, **names(a, b)} for name, a, b in self.pairs]}

    def file(self, asked: dict[str, str]) -> bytes:
        return pam.to_pam(pam.load(self.pairs[int(asked["pair"])][2 if asked["side"] == "b" else 1]))


def pairs_of_folder(folder: str) -> list[tuple[str, str, str]]:
    """The images of abuf, each with that of another renderer, by their names."""
    names = sorted(os.listdir(folder))
    found = []
    for name in names:
        match = re.fullmatch(r"(.*)\.abuf\.(pam|png|ppm)", name)
        if match:
            others = [other for other in names if re.fullmatch(re.escape(match.group(1)) + r"\.(?!abuf\.|where\.)\w+\.(pam|png|ppm)", other)]
            found += [(match.group(1), os.path.join(folder, name), os.path.join(folder, other)) for other in others]
    if not found:
        raise Fault(f"{folder} has no pairs NAME.abuf.pam and NAME.OTHER.pam")
    return found


# ---- the server


class Handler(http.server.BaseHTTPRequestHandler):
    """Answers the page. It takes requests for this machine's own address alone, whatever name they came by."""

    shown: Model | Pairs

    def do_GET(self) -> None:
        host = self.headers.get("Host", "")
        if host.rpartition(":")[0] not in (ADDRESS, "localhost"):
            return self.send(403, b"", "text/plain")
        where = urllib.parse.urlsplit(self.path)
        asked = dict(urllib.parse.parse_qsl(where.query))
        try:
            self.answer(where.path, asked)
        except Refused as refused:
            self.send_json(refused.told, 409)
        except (reference.Refusal, reference.ReadFault) as why:
            self.send_json({"text": getattr(why, "text", "read fault")}, 409)
        except (Fault, KeyError, ValueError, IndexError) as why:
            self.send_json({"text": str(why) or "a request that isn't understood"}, 400)

    def answer(self, path: str, asked: dict[str, str]) -> None:
        shown = self.shown
        if path == "/":
            with open(PAGE, "rb") as file:
                self.send(200, file.read(), "text/html; charset=utf-8")
        elif path == "/state":
            self.send_json(shown.state())
        elif path == "/image" and isinstance(shown, Model):
            data, command = shown.image(asked)
            self.send(200, data, "application/octet-stream", {"X-Command": urllib.parse.quote(command)})
        elif path == "/pixel" and isinstance(shown, Model):
            self.send_json(shown.pixel(asked))
        elif path == "/fit" and isinstance(shown, Model):
            self.send_json(shown.fitted(scene.turn_of(asked["turn"]), scene.size_of(asked["size"])))
        elif path == "/file" and isinstance(shown, Pairs):
            self.send(200, shown.file(asked), "application/octet-stream")
        else:
            self.send(404, b"", "text/plain")

    def send(self, status: int, data: bytes, kind: str, more: dict[str, str] | None = None) -> None:
        # The page loads nothing from elsewhere, and no other page may show it.
        own = {"Content-Type": kind, "Content-Length": str(len(data)), "Cache-Control": "no-store",
               "Content-Security-Policy": "default-src 'self' 'unsafe-inline'; img-src data:; frame-ancestors 'none'"}
        try:
            self.send_response(status)
            for name, value in {**own, **(more or {})}.items():
                self.send_header(name, value)
            self.end_headers()
            self.wfile.write(data)
        except (BrokenPipeError, ConnectionResetError):
            pass  # the page was closed, or asks for another picture by now

    def send_json(self, told: dict[str, Any], status: int = 200) -> None:
        self.send(status, json.dumps(told).encode(), "application/json")

    def log_message(self, format: str, *args: object) -> None:
        pass


def server_of(shown: Model | Pairs, port: int) -> http.server.ThreadingHTTPServer:
    handler = type("Own", (Handler,), {"shown": shown})
    try:
        return http.server.ThreadingHTTPServer((ADDRESS, port), handler)
    except OSError as why:
        raise Fault(f"port {port}: {why.strerror}; --port names another") from None


def shown_by(given: Any) -> Model | Pairs:
    """What the words ask to show."""
    if len(given.files) == 2:
        for path in given.files:
            pam.load(path)
        one, other = given.files
        return Pairs([(f"{one} and {other}", one, other)])
    if len(given.files) > 2:
        raise Fault("a model, a folder or two images are shown")
    path = given.files[0]
    if os.path.isdir(path):
        return Pairs(pairs_of_folder(path), os.path.basename(os.path.abspath(path)))
    return Model(path, program.find(given.abuf, program.launcher_tunables()), given.turn, given.size, given.samples)


def main() -> int:
    parser = report.words(__doc__)
    parser.add_argument("files", nargs="+", metavar="FILE", help="a model, a folder or two images")
    parser.add_argument("--turn", type=scene.turn_of, default=(1, 0, 0, 0), metavar="A,B,C,D", help="the first turn (1,0,0,0)")
    parser.add_argument("--size", type=scene.size_of, default=(640, 480), metavar="WxH", help="the size at rest (640x480)")
    parser.add_argument("--samples", type=int, choices=scene.SAMPLES, default=8, help="the samples at rest (8)")
    parser.add_argument("--port", type=int, default=0, metavar="N", help="the port (one that is free)")
    parser.add_argument("--no-browser", action="store_true", help="print the address, and open no browser")
    program.add_option(parser)
    given = parser.parse_args()
    server = server_of(shown_by(given), given.port)
    address = f"http://{ADDRESS}:{server.server_address[1]}/"
    print(f"{address} (Control-C ends it)", flush=True)
    if not given.no_browser:
        threading.Thread(target=webbrowser.open, args=(address,), daemon=True).start()
    try:
        server.serve_forever()
    except KeyboardInterrupt:
        print(file=sys.stderr)
    return report.WELL


if __name__ == "__main__":
    report.end(main)
