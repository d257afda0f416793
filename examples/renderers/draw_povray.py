#!/usr/bin/env python3
"""Draws a scene with POV-Ray: one ray through the centre of each pixel, surfaces that glow and let light through, and no light.

    draw_povray.py SCENE.obj IMAGE WORDS..

    examples/renderers/draw_povray.py examples/cube.obj cube.png --size 320x240 --turn=8,2,-3,0

POV-Ray reads no OBJ, so the scene is written as one mesh. It follows a ray through at most 256 surfaces, and has no near plane.
"""

import renderer

MOST_LEVELS = 256  # of max_trace_level

HEAD = """#version 3.7;
global_settings {{ assumed_gamma 1 max_trace_level {levels} adc_bailout 0 }}
camera {{ perspective location 0 direction <0, 0, {focal}> up <0, 2, 0> right <{width}, 0, 0> }}
background {{ rgb <{background}> }}
#default {{ finish {{ ambient 0 diffuse 0 emission 1 }} }}
"""


def info() -> renderer.Info:
    return renderer.Info("POV-Ray", renderer.version(["povray", "--version"], "povray", r"POV-Ray (\S+)"))


def vector(point: renderer.Point) -> str:
    """A point in POV-Ray's coordinates, whose z runs away from the camera."""
    return f"<{point[0]!r}, {point[1]!r}, {-point[2]!r}>"


def text_of(scene: renderer.Scene) -> str:
    parts = [HEAD.format(levels=min(MOST_LEVELS, scene.most_layers + 2), focal=repr(scene.focal), width=repr(2 * scene.width / scene.height),
                         background=", ".join(map(repr, scene.background)))]
    for number, (colour, alpha) in enumerate(scene.materials):
        parts.append(f"#declare M{number} = texture {{ pigment {{ rgb <{', '.join(map(repr, colour))}> transmit {1 - alpha!r} }} }}\n")
    parts.append("mesh {\n")
    for corners, material in scene.triangles:
        parts.append(f"triangle {{ {', '.join(map(vector, corners))} texture {{ M{material} }} }}\n")
    return "".join(parts) + "}\n"


def draw(scene: renderer.Scene, image: str) -> renderer.Run:
    if scene.is_cut:
        raise renderer.Cant("it has no near plane, and the scene reaches in front of it")
    with open("scene.pov", "w", encoding="ascii") as file:
        file.write(text_of(scene))
    return renderer.run(["povray", "+Iscene.pov", f"+O{image}", f"+W{scene.width}", f"+H{scene.height}", "+FN8", "File_Gamma=1.0",
                         "-D", "-A", "-GA", f"+WT{scene.threads}"])


if __name__ == "__main__":
    renderer.main(info, draw)
