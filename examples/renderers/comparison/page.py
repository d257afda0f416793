"""The results as one page of HTML, which needs no network. Its look is that of the suite's page."""

import base64
import os
import sys

import renderer

sys.path.append(os.path.join(renderer.TOP, "conformance"))

from testing.page import STYLE, text  # noqa: E402

from comparison.causes import CAUSES, LOOKED_AT  # noqa: E402
from comparison.tables import (Verdict, how_of, is_busy, name_of, peers_there, scenes_there, time_cell, verdict_of)  # noqa: E402
from comparison.trials import ABUF, CRASHED, DRAWN, MALFORMED, SKIPPED, TOO_LONG  # noqa: E402

SIDE = 320  # of a picture on the page
MORE_STYLE = """
body { max-width: 80rem }
section { border-top: 1px solid var(--line); padding: .6rem 0; display: flex; flex-wrap: wrap; gap: .4rem 1rem; align-items: flex-start }
section > .figures { margin: 0 }
section > div.told { flex: 1 1 15rem; min-width: 12rem }
section h4 { margin: 0; font-size: 1rem; font-weight: 600 }
td.first { white-space: nowrap } td, th { white-space: nowrap }
td.long, td small { white-space: normal }
figure img { height: auto }
@media (max-width: 34rem) { body { padding: .7rem } section > .figures { width: 100% } }
"""
TONES = {SKIPPED: "quiet", CRASHED: "bad", TOO_LONG: "bad", MALFORMED: "bad"}
OUTCOMES = {SKIPPED: "Skipped", CRASHED: "Crashed", TOO_LONG: "Took too long", MALFORMED: "Wrote no image that can be compared"}
HOW = f"""
<details><summary>How the figures were got</summary>
<p>Each scene is drawn with one ray or sample at the centre of each pixel, flat colours and linear values of 8 bits. An image is compared
with abuf's, pixel by pixel, as <code>tools/agree.py</code> does it. Pixels that differ are looked into, up to {LOOKED_AT} in an image, those that
differ by more than a unit first. What lies at a pixel's centre is known exactly. If one change of it gives the renderer's colour within a
unit, that change is the cause. Otherwise it is only suspected.</p>
<p>A time is that of the renderer's process from its start to its end, with its image written; in brackets that of the drawing alone, where
the renderer can tell it. It is without the time in which its script reads the OBJ file and writes what the renderer reads. abuf reads the
OBJ file itself. The memory is the most that the process had resident. The renderers run in turn, one process at a time.</p></details>
"""


def tone(verdict: Verdict) -> str:
    if verdict.outcome != DRAWN:
        return TONES[verdict.outcome]
    return "good" if verdict.is_same else "warn" if verdict.greatest <= 1 else "bad"


def picture(folder: str, name: str, caption: str) -> str:
    with open(os.path.join(folder, name), "rb") as file:
        data = file.read()
    width, height = int.from_bytes(data[16:20], "big"), int.from_bytes(data[20:24], "big")
    times = max(1, SIDE // max(width, height)) if width < SIDE else SIDE / width
    return (f'<figure><img src="data:image/png;base64,{base64.b64encode(data).decode()}" width="{width * times:.0f}" height="{height * times:.0f}" '
            f'alt="{text(caption)}"><figcaption>{text(caption)}</figcaption></figure>')


# ---- the head


def renderers_list(results: dict) -> str:
    rows = []
    for key, told in results["renderers"].items():
        state = f"<td class='quiet long'>skipped: {text(told['missing'])}" if told["missing"] else f"<td class=long>{text(told['version'])}"
        rows.append(f"<tr><td>{text(told['name'])}{state}<td class='quiet long'>{text(told['device'])}")
    return "<div class=wide><table><thead><tr><th>Renderer<th>Version<th>On</thead>" + "".join(rows) + "</table></div>"


def differences(results: dict) -> str:
    peers = peers_there(results)
    rows = []
    for scene in scenes_there(results):
        cells = []
        for key in peers:
            verdict = verdict_of(scene, key)
            count, _, cause = verdict.text().partition(": ")
            cells.append(f"<td class={tone(verdict)}>" + ("the same" if verdict.is_same else text(count)) + (f"<br><small>{text(cause)}</small>" if cause else ""))
        rows.append(f"<tr><td><a href=\"#{text(scene['name'])}\">{text(scene['name'])}</a>{''.join(cells)}")
    return ("<h2>Pixels that differ from abuf's image</h2><p class=quiet>In the worst order of the faces, with the greatest difference of 255, and the "
            "likely cause.</p><div class=wide><table><thead><tr><th>Scene" + "".join(f"<th>{text(name_of(results, key))}" for key in peers)
            + "</thead>" + "".join(rows) + "</table></div>")


def times(results: dict) -> str:
    keys = [ABUF, *peers_there(results)]
    rows = [f"<tr><td>{text(scene['name'])}<td>{threads}" + "".join(f"<td>{text(time_cell(scene, key, threads, is_busy(results)))}" for key in keys)
            for scene in scenes_there(results) for threads in results["threads"]]
    return ("<h2>Time and memory</h2><p class=quiet>Of the whole process; in brackets the drawing alone.</p><div class=wide><table><thead><tr>"
            "<th>Scene<th>Threads" + "".join(f"<th>{text(name_of(results, key))}" for key in keys) + "</thead>" + "".join(rows) + "</table></div>")


# ---- a scene


def causes_text(told: dict) -> str:
    """What was found in the pixels that were looked into."""
    parts = [f"{text(CAUSES[cause])}: {count}" for cause, count in told["causes"].items()]
    return (f"<p>Of {told['looked_at']} pixels that were looked into, {told['explained']} are explained.</p><ul>"
            + "".join(f"<li>{part}" for part in parts) + "</ul>")


def orders_text(scene: dict, key: str) -> str:
    """How each order of the faces came out, those that came out alike together."""
    if len(scene["orders"]) < 2:
        return ""
    alike: dict[str, list[str]] = {}
    for order, told in scene["orders"].items():
        one = told["results"][key]
        how = one["why"] or one["outcome"]
        if one["outcome"] == DRAWN:
            how = f"{one['differing']} pixels by {one['greatest']}" if one["differing"] else "the same as abuf's"
        alike.setdefault(how, []).append(order)
    if len(alike) == 1 and verdict_of(scene, key).outcome != DRAWN:
        return ""
    if len(alike) == 1:
        return f"<p class=quiet>In each of {len(scene['orders'])} orders of the faces: {text(*alike)}.</p>"
    return "<p class=quiet>By order of the faces: " + text("; ".join(f"{', '.join(orders)}: {how}" for how, orders in alike.items())) + ".</p>"


def peer_section(results: dict, scene: dict, key: str, folder: str) -> str:
    verdict = verdict_of(scene, key)
    parts = [f"<h4>{text(name_of(results, key))}</h4>"]
    figures = ""
    if verdict.outcome != DRAWN:
        parts.append(f"<p class={tone(verdict)}>{OUTCOMES[verdict.outcome]}: {text(verdict.why)}</p>")
    elif verdict.is_same:
        parts.append("<p class=good>The same as abuf's image in each pixel.</p>")
    else:
        told = scene["orders"][verdict.worst]["results"][key]
        names = scene["orders"][verdict.worst]["pictures"].get(key, {})
        figures = "".join(picture(folder, names[kind], caption) for kind, caption in (("image", name_of(results, key)), ("difference", f"where it differs: yellow by {verdict.greatest}"))
                          if kind in names)
        parts.append(f"<p class={tone(verdict)}>{verdict.differing} of {verdict.pixels} pixels differ, by {verdict.greatest} at most and by "
                     f"{told['mean']:.4g} in the mean of all values; {told['by_one']} of them by 1.</p>{causes_text(told)}")
    parts.append(orders_text(scene, key))
    if verdict.varies:
        parts.append("<p class=bad>The image isn't the same in each run.</p>")
    parts += [f"<p>{threads} thread{'s' * (threads != 1)}: {text(time_cell(scene, key, threads, is_busy(results)))}</p>" for threads in results["threads"]
              if verdict.outcome == DRAWN]
    return f"<section>{f'<div class=figures>{figures}</div>' if figures else ''}<div class=told>{''.join(parts)}</div></section>"


def article(results: dict, scene: dict, folder: str) -> str:
    name, first = text(scene["name"]), next(iter(scene["orders"].values()))
    same = [order for order, told in scene["orders"].items() if told["is_as_first"]]
    how = "" if len(scene["orders"]) == 1 else (f"The same bytes in all {len(same)} orders of the faces." if len(same) == len(scene["orders"])
                                                 else f"The same bytes in {len(same)} of {len(scene['orders'])} orders of the faces only!")
    figure = picture(folder, first["pictures"][ABUF]["image"], "abuf")
    lines = "".join(f"<p>{threads} thread{'s' * (threads != 1)}: {text(time_cell(scene, ABUF, threads, is_busy(results)))}</p>" for threads in results["threads"])
    return (f'<article id="{name}"><header><h3>{name}</h3><span class=quiet>{scene["triangles"]} triangles</span></header><p>{text(scene["says"])}</p>'
            f"<pre>abuf render {text(' '.join(scene['words']))}</pre>"
            f"<section><div class=figures>{figure}</div><div class=told><h4>abuf</h4><p>{how}</p>{lines}</div></section>"
            + "".join(peer_section(results, scene, key, folder) for key in peers_there(results)) + "</article>")


def html_of(results: dict, folder: str) -> str:
    """The page; the pictures lie in the folder."""
    missing = "".join(f"<p class=quiet>{text(scene['name'])} is skipped: {text(scene['missing'])}.</p>" for scene in results["scenes"] if scene["missing"])
    return "\n".join(['<!doctype html><html lang=en><meta charset=utf-8><meta name=viewport content="width=device-width, initial-scale=1">',
                      f"<title>Renderers beside abuf</title><style>{STYLE}{MORE_STYLE}</style><h1>Renderers beside abuf</h1>",
                      f"<p class=quiet>{text(how_of(results))}</p>", renderers_list(results), differences(results), times(results), HOW, missing,
                      *(article(results, scene, folder) for scene in scenes_there(results))]) + "</html>\n"
