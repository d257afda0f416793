"""The camera: turns, shifts and focal lengths."""

from scenes.drawing import NODES, Case, Drawing, lines

SCENE = lines(
    "# axes", "# Three arms from the origin: red along x, green along y, blue along z.",
    "mtllib paints.mtl",
    "v 0 0 0", "v 3 -0.4 0", "v 3 0.4 0", "usemtl red", "f 1 2 3",
    "v -0.4 2 0", "v 0.4 2 0", "usemtl green", "f 1 4 5",
    "v -0.4 -0.4 1.5", "v 0.4 0.4 1.5", "usemtl blue", "f 1 6 7",
    "v -1 -1 -1", "v 1 -1 -1", "v 0 0.5 -1", "usemtl white_film", "f 8 9 10",
)


def cases():
    views = [
        ("still", "", "Without turn: x runs to the right, y upwards and z towards the camera."),
        ("half-turn", "--turn 0,0,1,0", "A half turn about the vertical axis."),
        ("top", "--turn 1,1,0,0", "A quarter turn about the horizontal axis: what was above comes "
         "to the front."),
        ("side", "--turn 1,0,1,0", "A quarter turn about the vertical axis: what was in front goes "
         "to the right."),
        ("roll", "--turn 1,0,0,1", "A quarter turn about the axis of view, counterclockwise."),
        ("any-turn", "--turn 8,2,-3,1", "A turn by whole numbers that are no quarter."),
        ("times-four", "--turn 32,8,-12,4", "A common factor of the turn changes nothing here, "
         "since nothing is cut."),
        ("largest", "--turn=-1024,1024,1023,-1024", "A turn by the largest numbers there are."),
        ("shift", "--turn 8,2,-3,1 --move=0.5,-0.75,-3", "The shift is added after the turn."),
        ("wide", "--turn 8,2,-3,1 --focal 0.5", "Half of the focal length shows the scene half as "
         "large."),
        ("long", "--turn 8,2,-3,1 --focal 3 --move 0,0,-12", "Three times the focal length at "
         "three times the distance: nearly the same, with less perspective."),
        ("tall", "--turn 8,2,-3,1", "Pixels are square, and the height decides the scale."),
    ]
    files = {"axes.obj": SCENE, **Drawing("", 1, 1).files()}
    for name, words, shows in views:
        size = "20x40" if name == "tall" else "32x32"
        all_words = " ".join(f"--size {size} --samples 4 --nodes {NODES} {words}".split())
        yield Case(name, shows, f"abuf render {all_words} < axes.obj", files)
