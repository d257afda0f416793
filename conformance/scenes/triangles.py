"""The screen triangles of a case, by the functions of tools/reference.py."""

import os

import reference


def text_of(command, folder):
    """The file of a scene's triangles as README.md describes it: the primitives by their numbers,
    each with its corners as they come from the face."""
    job = reference.job_of(command.words)
    with open(os.path.join(folder, command.source), "rb") as file:
        scene = reference.read_obj(file.read())
    materials = {}
    for number, name in enumerate(scene.libraries, 1):
        with open(os.path.join(os.fsencode(folder), name), "rb") as file:
            reference.read_mtl(file.read(), number, materials)
    least = sum(part * part for part in job.turn) * job.near
    lines = [f"size {job.width} {job.height}", f"samples {job.samples}",
             "background {} {} {}".format(*job.background)]
    for corners, paint in reference.triangles_of(scene, materials):
        for piece in reference.clipped([reference.seen(job, p) for p in corners], least):
            values = [value for corner in piece for value in reference.on_screen(job, corner)]
            values += [*paint.colour, paint.alpha]
            lines.append("t " + " ".join(map(str, values)))
    return "".join(line + "\n" for line in lines).encode()
