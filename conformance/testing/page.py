"""A run's results as one page of HTML, which needs no network."""

from __future__ import annotations

import base64
import html
import math
import re
from collections import Counter, defaultdict

from testing.cases import shows, tags
from testing.reports import mode_of, ordered, title_of, verdict_counts
from testing.scenes import OFFSETS
from testing.verdicts import RULES, VERDICTS

PICTURE_SIDE = 200  # of a picture on the page, nearly
MOST_BESIDE = 32  # pixels that the drawing of the worst sample shows on each side of it

STYLE = """
:root { color-scheme: light dark; --text: #1c2024; --back: #fff; --quiet: #5c6670; --line: #d5dade;
  --box: #f5f7f8; --bad: #b3261e; --warn: #8a5a00; --good: #1b6e33; --exact: #1665c0 }
@media (prefers-color-scheme: dark) { :root { --text: #e4e7ea; --back: #15181b; --quiet: #9aa5af; --line: #363d43;
  --box: #1f2428; --bad: #ff8a80; --warn: #f0b34a; --good: #76d391; --exact: #7db8ff } }
* { box-sizing: border-box }
body { margin: 0 auto; max-width: 64rem; padding: 1rem; font: 1rem/1.5 system-ui, sans-serif; color: var(--text);
  background: var(--back) }
h1 { font-size: 1.4rem; margin: 0 0 .3rem; line-height: 1.25 }
h2 { font-size: 1.15rem; margin: 2rem 0 .5rem }
h3 { font-size: 1rem; margin: 0; overflow-wrap: anywhere }
p { margin: .4rem 0 }
small, .quiet { color: var(--quiet) }
.wide { overflow-x: auto }
table { border-collapse: collapse; font-variant-numeric: tabular-nums }
th, td { padding: .2rem .7rem; border-bottom: 1px solid var(--line); text-align: right; font-weight: normal }
th:first-child, td:first-child { text-align: left }
thead th { color: var(--quiet) }
article { border: 1px solid var(--line); border-radius: .5rem; padding: .8rem 1rem; margin: .8rem 0 }
article > header { display: flex; flex-wrap: wrap; gap: .2rem .8rem; justify-content: space-between }
.figures { display: flex; flex-wrap: wrap; gap: .8rem; margin: .6rem 0 }
figure { margin: 0 }
figure img, figure svg { display: block; image-rendering: pixelated; border: 1px solid var(--line); max-width: 100% }
@media (max-width: 34rem) { th, td { padding: .2rem .35rem } .wide { font-size: .85rem }
  figure { width: calc(50% - .4rem) } figure img, figure svg { width: 100%; height: auto } }
figcaption { font-size: .8rem; color: var(--quiet) }
code, pre { font: .85rem/1.4 ui-monospace, monospace; overflow-wrap: anywhere; white-space: pre-wrap }
pre { background: var(--box); padding: .5rem .7rem; border-radius: .3rem; margin: .4rem 0 }
details > summary { cursor: pointer; color: var(--quiet) }
.bad { color: var(--bad) } .warn { color: var(--warn) } .good { color: var(--good) }
"""
TONES = {"Pass": "good", "Fail": "bad", "Crash": "bad", "Timeout": "bad", "Malformed": "bad", "Changed": "bad",
         "UnexpectedPass": "bad", "Skip": "quiet", "Missing": "quiet"}


def text(value: object) -> str:
    return html.escape(str(value))


def capital(sentence: str) -> str:
    return sentence[:1].upper() + sentence[1:]


def headings(kinds: list[str]) -> str:
    """Of columns; a narrow page breaks ExpectedFail in its middle."""
    return "".join("<th>" + "<wbr>".join(re.findall("[A-Z][a-z]*", kind)) for kind in kinds)


def tone(outcome: str) -> str:
    return TONES.get(outcome, "warn")


# ---- the head


def offsets_table(driver: dict) -> str:
    """Where the driver's samples lie, and whether abuf's pattern is the same."""
    rows = []
    for samples, offsets in driver["sample_offsets"].items():
        if offsets is None:
            rows.append(f"<tr><td>{text(samples)}<td class=quiet>not told<td>")
            continue
        wanted = [list(offset) for offset in OFFSETS[int(samples)]]
        is_same = sorted(offsets) == sorted(wanted)
        rows.append(f"<tr><td>{text(samples)}<td>" + text(" ".join(f"({x:g},{y:g})" for x, y in offsets))
                    + ("<td class=good>the standard places" if is_same else "<td class=bad>other places"))
    return ("<div class=wide><table><thead><tr><th>Samples<th>Places, in 1/16 pixel from the centre<th></thead>"
            + "".join(rows) + "</table></div>")


def head(results: dict) -> str:
    driver = results["driver"]
    counts = "; ".join(f"{name}: {', '.join(map(str, values)) or 'none'}"
                       for name, values in driver["sample_counts"].items())
    variables = " ".join(f"{name}={value}" for name, value in driver.get("environment", {}).items())
    return "".join([
        f"<h1>{text(title_of(driver))}</h1>",
        f"<p class=quiet>{text(driver['name'])}; {driver['subpixel_bits']} subpixel bits; viewport "
        f"{driver['viewport']} pixels; {text(driver.get('host', ''))}; {text(results['started'])}, "
        f"{results['seconds']} s</p>",
        f"<details><summary>Samples and environment</summary><p>Numbers of samples by attachment: {text(counts)}</p>",
        offsets_table(driver), f"<pre>{text(driver.get('command', ''))}\n{text(variables)}</pre></details>",
    ])


def totals(results: dict) -> str:
    by_mode: dict[str, Counter] = defaultdict(Counter)
    for trial in results["trials"]:
        by_mode[mode_of(trial["name"])][trial["outcome"]] += 1
    kinds = ordered(results["counts"])
    rows = [*by_mode.items(), ("all", results["counts"])]
    cells = "".join(
        f"<tr><td>{text(mode)}" + "".join(f"<td class={tone(kind)}>{counts.get(kind) or ''}" for kind in kinds)
        for mode, counts in rows)
    bad = len(results["bad"])
    told = (f"<p class=bad>{bad} case{'s' * (bad != 1)} not as expected.</p>" if bad
            else "<p class=good>All is as expected.</p>")
    return (f"{told}<div class=wide><table><thead><tr><th>Mode{headings(kinds)}"
            f"</thead>{cells}</table></div>")


def folders(results: dict) -> str:
    """Totals by the folder of the scene."""
    by_folder: dict[str, Counter] = defaultdict(Counter)
    for trial in results["trials"]:
        by_folder[trial["name"].partition("/")[0]][trial["outcome"]] += 1
    kinds = ordered(results["counts"])
    cells = "".join(f"<tr><td>{text(folder)}" + "".join(f"<td class={tone(k)}>{counts.get(k) or ''}" for k in kinds)
                    for folder, counts in sorted(by_folder.items()))
    return ("<details><summary>By folder</summary><div class=wide><table><thead><tr><th>Folder"
            + headings(kinds) + f"</thead>{cells}</table></div></details>")


# ---- a case


def clipped_line(a: list, b: list, low: tuple, high: tuple) -> tuple | None:
    """The part of a line within a box, since drawing programs lose the places of far ends."""
    first, last = 0.0, 1.0
    for axis in (0, 1):
        step = b[axis] - a[axis]
        for bound, sign in ((low[axis], 1), (high[axis], -1)):
            inside, change = sign * (a[axis] - bound), sign * step
            if change == 0:
                if inside < 0:
                    return None
                continue
            part = -inside / change
            first, last = (max(first, part), last) if change > 0 else (first, min(last, part))
    if first > last:
        return None
    return tuple(a[axis] + part * (b[axis] - a[axis]) for part in (first, last) for axis in (0, 1))


def zoom(worst: dict, samples: int) -> str:
    """The worst sample among the pixels as far as the nearest edge, with the edges of its primitive."""
    beside = min(MOST_BESIDE, 1 + math.ceil(worst["distance"] / 256))
    count = 2 * beside + 1
    side, line = 256 * count, 2 * count
    low = tuple(256 * (at - beside) for at in worst["pixel"])
    high = (low[0] + side, low[1] + side)
    place = tuple(256 * beside + 128 + 16 * offset for offset in OFFSETS[samples][worst["sample"]])
    parts = [f'<path d="M{256 * n} 0V{side}M0 {256 * n}H{side}" stroke="var(--line)" stroke-width="{line / 2}"/>'
             for n in range(count + 1)]
    corners = worst["corners"]
    edges = [ends for a, b in zip(corners, [*corners[1:], corners[0]]) if (ends := clipped_line(a, b, low, high))]
    for ends in edges:
        x1, y1, x2, y2 = (value - low[n % 2] for n, value in enumerate(ends))
        parts.append(f'<line x1="{x1:.1f}" y1="{y1:.1f}" x2="{x2:.1f}" y2="{y2:.1f}" stroke="var(--exact)" '
                     f'stroke-width="{line}"/>')
    parts.append(f'<circle cx="{place[0]}" cy="{place[1]}" r="{7 * count}" fill="none" stroke="var(--bad)" '
                 f'stroke-width="{1.5 * line}"/>')
    told = " and its primitive's edges" if edges else f"; no edge of its primitive within {MOST_BESIDE} pixels"
    return (f'<figure><svg width="{PICTURE_SIDE}" height="{PICTURE_SIDE}" viewBox="0 0 {side} {side}" role="img" '
            f'aria-label="edges near the sample">{"".join(parts)}</svg><figcaption>the worst sample{told}'
            "</figcaption></figure>")


def worst_text(trial: dict) -> str:
    finding = trial["finding"]
    worst = finding["worst"]
    corners = " ".join(f"({x},{y})" for x, y in worst["corners"])
    classes = ", ".join(f"{verdict}: {count}" for verdict, count in finding["counts"].items())
    return (f"<p>{finding.get('missing', 0)} samples missing, {finding.get('extra', 0)} extra ({text(classes)}). "
            f"The worst: pixel ({worst['pixel'][0]},{worst['pixel'][1]}), sample {worst['sample']}, primitive "
            f"{worst['primitive']}: {worst['what']}, {worst['distance'] / 256:.4g} pixel from its outline. "
            f"<small>Corners in 1/256 pixel: {text(corners)}</small></p>")


def size_of(picture: str) -> tuple[int, int]:
    """Width and height of a PNG, which it begins with, enlarged by a whole number."""
    begin = base64.b64decode(picture[:32])
    width, height = int.from_bytes(begin[16:20]), int.from_bytes(begin[20:24])
    times = max(1, PICTURE_SIDE // max(width, height))
    return times * width, times * height


def figures(trial: dict, samples: int) -> str:
    parts = []
    for kind, data in trial.get("pictures", {}).items():
        width, height = size_of(data)
        parts.append(f'<figure><img src="data:image/png;base64,{data}" width="{width}" height="{height}" '
                     f'alt="{kind}"><figcaption>{kind}</figcaption></figure>')
    if trial.get("finding", {}).get("worst"):
        parts.append(zoom(trial["finding"]["worst"], samples))
    return f"<div class=figures>{''.join(parts)}</div>" if parts else ""


def asks_text(tags: dict) -> str:
    """What a scene asks of a driver."""
    if not tags:
        return ""
    return (f" {tags['triangles']} triangle{'s' * (tags['triangles'] != 1)}, {tags['samples']} "
            f"sample{'s' * (tags['samples'] != 1)} a pixel, corners up to {tags['reach']} pixels away, "
            f"{tags['subpixel_bits']} subpixel bits{'' if tags['floats'] else ', no floats of 32 bits'}.")


def article(trial: dict, sentences: dict[str, str], known_tags: dict[str, dict], samples: int) -> str:
    scene = trial["name"].rpartition("@")[0]
    outcome, verdict = trial["outcome"], trial.get("verdict", "")
    parts = [f"<article id=\"{text(trial['name'])}\"><header><h3>{text(trial['name'])}</h3>"
             f"<span class={tone(outcome)}>{text(outcome)}{': ' + text(verdict) if verdict else ''}</span></header>",
             f"<p class=quiet>{text(sentences.get(scene, ''))}{text(asks_text(known_tags.get(scene, {})))}</p>",
             f"<p>{text(capital(trial.get('reason', '')))}</p>"]
    if trial.get("finding", {}).get("worst"):
        parts.append(worst_text(trial))
    parts.append(figures(trial, samples))
    if trial.get("error"):
        parts.append(f"<details><summary>Standard error</summary><pre>{text(trial['error'])}</pre></details>")
    if trial.get("command"):
        parts.append(f"<pre>{text(trial['command'])}</pre>")
    return "".join(parts) + "</article>"


def group_of(trial: dict) -> str:
    return trial.get("verdict") or trial["status"]


def html_of(results: dict) -> str:
    sentences, known_tags = shows(), tags()
    told = [t for t in results["trials"] if t["status"] not in ("Pass", "Skip", "Missing")
            or t["outcome"] == "UnexpectedPass"]
    bad = set(results["bad"])
    groups: dict[str, list[dict]] = defaultdict(list)
    for trial in told:
        groups[group_of(trial)].append(trial)
    order = ["Crash", "Timeout", "Malformed", *VERDICTS]
    parts = ["<!doctype html><html lang=en><meta charset=utf-8>"
             '<meta name=viewport content="width=device-width, initial-scale=1">',
             f"<title>{text(title_of(results['driver']))}</title><style>{STYLE}</style>", head(results),
             totals(results), folders(results)]
    verdicts = verdict_counts(results["trials"])
    for group in sorted(groups, key=lambda name: order.index(name) if name in order else len(order)):
        cases = sorted(groups[group], key=lambda trial: (trial["name"] not in bad, trial["name"]))
        parts.append(f"<h2>{text(group)} ({verdicts[group] or len(cases)})</h2>")
        if group in RULES:
            parts.append(f"<p class=quiet>{text(RULES[group])}</p>")
        parts += [article(trial, sentences, known_tags, trial.get("samples", 1)) for trial in cases]
    if not told:
        parts.append("<h2>No case differs</h2>")
    return "\n".join(parts) + "</html>\n"
