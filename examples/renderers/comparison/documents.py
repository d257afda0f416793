"""The tables and pictures of the documents, from results that were measured.

A part of a document that is made here stands between `<!-- renderers: NAME -->` and `<!-- end of NAME -->`. The results are kept in
measured.json, so the tests can tell whether the documents have its figures.
"""

import json
import os
import re
from typing import Sequence

import renderer
from abuflib import pam
from abuflib.report import Fault

from comparison import tables
from comparison.trials import ABUF, DRAWN

MEASURED = os.path.join(renderer.HERE, "measured.json")
COMPARING = os.path.join(renderer.TOP, "docs", "COMPARING.md")
README = os.path.join(renderer.TOP, "README.md")
PICTURES = os.path.join(renderer.TOP, "docs", "pictures")
TIMED = ("stack-64", "stack-256", "stack-1024", "lantern", "furniture", "demo-1000")  # scenes whose times the documents have
SHOWN = "demo-1000"  # whose times the README has
FLAT, DEEP, FINE = "films", "stack-256", "lantern"  # the scenes of the pictures
LISTS = ("opengl", "vulkan")  # whose image is mostly abuf's, and isn't shown
GAP, GREY = 8, 160  # between the pictures of a strip


# ---- parts of documents


def readme_table(results: dict) -> str:
    """The demonstration by each renderer: its times, its memory, and how far it is from the exact image."""
    scene = next(scene for scene in tables.scenes_there(results) if scene["name"] == SHOWN)
    films = next(scene for scene in tables.scenes_there(results) if scene["name"] == FLAT)
    rows, clock = [], "processor" if tables.is_busy(results) else "seconds"
    for key in (ABUF, *tables.peers_there(results)):
        times = tables.times_of(scene, key)
        version = results["renderers"][key]["version"] if key != ABUF else ""
        shown = [tables.seconds_text(times[str(n)][clock]) if str(n) in times else tables.verdict_of(scene, key).text() for n in results["threads"]]
        peak = f"{max(one['peak'] for one in times.values()) / 1024:.0f} MiB" if times else ""
        rows.append([f"{tables.name_of(results, key)} {version}".strip(), *shown, peak, differing(scene, key), differing(films, key)])
    return tables.markdown_table(["", *(f"{n} thread{'s' * (n != 1)}" for n in results["threads"]), "memory", f"`{SHOWN}` differs", f"`{FLAT}` differs"], rows)


def differing(scene: dict, key: str) -> str:
    """How many pixels aren't abuf's."""
    verdict = tables.verdict_of(scene, key)
    if verdict.outcome != DRAWN:
        return verdict.text()
    return "0" if verdict.is_same else f"{verdict.differing}, by {verdict.greatest}"


def shown_by(results: dict, name: str, differing_only: bool = False) -> list[str]:
    """The renderers whose images of a scene are shown."""
    scene = next(scene for scene in tables.scenes_there(results) if scene["name"] == name)
    verdicts = {key: tables.verdict_of(scene, key) for key in tables.peers_there(results) if key not in LISTS}
    return [key for key, verdict in verdicts.items() if verdict.outcome == DRAWN and not (differing_only and verdict.is_same)]


def caption(results: dict, name: str) -> str:
    """What the strip of a scene shows, from the left."""
    if name == FLAT:
        return ", ".join(tables.name_of(results, key) for key in (ABUF, *shown_by(results, FLAT)))
    keys = shown_by(results, name, True)
    return "abuf" + "".join(f", where {tables.name_of(results, key)} differs" for key in keys)


def parts_of(results: dict) -> dict[str, dict[str, str]]:
    """For each document the parts that are made, by their names."""
    strip = f"![From the left: {caption(results, FLAT)}]"
    return {
        COMPARING: {
            "differences": tables.differences_table(results),
            "times": tables.times_table(results, TIMED),
            "how": tables.how_of(results) + "\n",
            "pictures": "".join(f"![{caption(results, name)}](pictures/renderers-{name}.png)\n\n`{name}`, from the left: {caption(results, name)}.\n\n"
                                for name in (FLAT, DEEP, FINE)).rstrip("\n") + "\n",
        },
        README: {"answer": f"{strip}(docs/pictures/renderers-{FLAT}.png)\n\nFrom the left: {caption(results, FLAT)}.\n\n{readme_table(results)}"
                 + f"\n{tables.BUSY}\n" * tables.is_busy(results)},
    }


def part_pattern(name: str) -> str:
    return rf"(?s)(<!-- renderers: {name} -->\n).*?(<!-- end of {name} -->\n)"


def with_parts(document: str, parts: dict[str, str], path: str) -> str:
    """The document with its parts made anew."""
    for name, part in parts.items():
        if len(re.findall(part_pattern(name), document)) != 1:
            raise Fault(f"{path} doesn't have one part between <!-- renderers: {name} --> and <!-- end of {name} -->")
        document = re.sub(part_pattern(name), lambda found: f"{found.group(1)}\n{part}\n{found.group(2)}", document)
    return document


# ---- pictures


def strip(images: Sequence[pam.Image]) -> pam.Image:
    """Images of one height side by side."""
    gap = bytes([GREY] * 3 * GAP)
    rows = [gap.join(rows) for rows in zip(*(image.rows() for image in images))]
    return pam.Image(len(rows[0]) // 3, images[0].height, 255, b"".join(rows))


def picture_of(results: dict, folder: str, name: str) -> pam.Image:
    scene = next(scene for scene in tables.scenes_there(results) if scene["name"] == name)
    first = next(iter(scene["orders"].values()))
    keys = shown_by(results, name, name != FLAT)
    images = [pam.load(os.path.join(folder, first["pictures"][ABUF]["image"]))]
    for key in keys:
        worst = scene["orders"][tables.verdict_of(scene, key).worst]
        names = worst["pictures"][key]
        images.append(pam.load(os.path.join(folder, names["image" if name == FLAT else "difference"])))
    images = [pam.enlarged(image, 4) if image.width < 100 else image for image in images]
    return strip(images)


# ---- all of it


def without_pictures(results: dict) -> dict:
    """The results without the names of files, which aren't kept."""
    scenes: list[dict] = [{**scene, "orders": {order: {**told, "pictures": {}} for order, told in scene["orders"].items()}} for scene in results["scenes"]]
    return {**results, "scenes": scenes}


def update(results: dict, folder: str) -> list[str]:
    """Writes documents, pictures and figures, and tells which."""
    wanted = {FLAT, DEEP, FINE, *TIMED}
    if lacking := wanted - {scene["name"] for scene in tables.scenes_there(results)}:
        raise Fault(f"the documents need the scenes {', '.join(sorted(lacking))} too")
    texts = {}
    for path, parts in parts_of(results).items():
        with open(path, encoding="utf-8") as file:
            texts[path] = with_parts(file.read(), parts, path)
    texts[MEASURED] = json.dumps(without_pictures(results), indent=1) + "\n"
    for path, text in texts.items():
        with open(path, "w", encoding="utf-8") as file:
            file.write(text)
    for name in (FLAT, DEEP, FINE):
        path = os.path.join(PICTURES, f"renderers-{name}.png")
        pam.save(path, picture_of(results, folder, name))
        texts[path] = ""
    return list(texts)
