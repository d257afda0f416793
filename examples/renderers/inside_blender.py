"""Makes a scene in Blender and draws it with Cycles; draw_cycles.py starts it.

    blender --background --factory-startup --python inside_blender.py -- SCENE.json IMAGE.png
"""

import json
import math
import sys
import time

import bpy

MOST_BOUNCES = 1024  # that Cycles takes


def material_of(number, given):
    """A surface that glows by its alpha and lets light through by the rest."""
    material = bpy.data.materials.new(str(number))
    material.use_nodes = True
    nodes, links = material.node_tree.nodes, material.node_tree.links
    nodes.clear()
    glow, clear, mix, output = (nodes.new(kind) for kind in ("ShaderNodeEmission", "ShaderNodeBsdfTransparent", "ShaderNodeMixShader",
                                                             "ShaderNodeOutputMaterial"))
    glow.inputs[0].default_value = (*given["colour"], 1)
    mix.inputs[0].default_value = given["alpha"]
    links.new(clear.outputs[0], mix.inputs[1])
    links.new(glow.outputs[0], mix.inputs[2])
    links.new(mix.outputs[0], output.inputs[0])
    return material


def add_mesh(into, scene):
    corners = [corner for triangle in scene["triangles"] for corner in triangle["corners"]]
    mesh = bpy.data.meshes.new("mesh")
    mesh.from_pydata(corners, [], [(k, k + 1, k + 2) for k in range(0, len(corners), 3)])
    for number, given in enumerate(scene["materials"]):
        mesh.materials.append(material_of(number, given))
    mesh.polygons.foreach_set("material_index", [triangle["material"] for triangle in scene["triangles"]])
    into.collection.objects.link(bpy.data.objects.new("mesh", mesh))


def add_camera(into, scene):
    camera = bpy.data.cameras.new("camera")
    camera.sensor_fit = "VERTICAL"
    camera.angle = math.radians(scene["angle"])
    camera.clip_start, camera.clip_end = scene["near"], scene["far"]
    into.camera = bpy.data.objects.new("camera", camera)  # at 0,0,0, and looks along -z
    into.collection.objects.link(into.camera)


def set_world(into, scene):
    into.world = bpy.data.worlds.new("world")
    into.world.use_nodes = True
    into.world.node_tree.nodes["Background"].inputs[0].default_value = (*scene["background"], 1)


def set_render(into, scene, image):
    render = into.render
    render.engine = "CYCLES"
    render.resolution_x, render.resolution_y, render.resolution_percentage = scene["width"], scene["height"], 100
    render.filepath = image
    render.image_settings.file_format, render.image_settings.color_mode = "PNG", "RGB"
    render.image_settings.color_depth = "8"
    render.dither_intensity = 0
    into.view_settings.view_transform = "Raw"  # linear values
    cycles = into.cycles
    cycles.samples, cycles.use_adaptive_sampling, cycles.use_denoising = 1, False, False
    cycles.pixel_filter_type, cycles.filter_width = "BOX", 0.01
    cycles.max_bounces = MOST_BOUNCES
    cycles.transparent_max_bounces = MOST_BOUNCES
    cycles.min_transparent_bounces = MOST_BOUNCES


def main():
    path, image = sys.argv[sys.argv.index("--") + 1:]
    with open(path, encoding="utf-8") as file:
        scene = json.load(file)
    bpy.ops.wm.read_factory_settings(use_empty=True)
    into = bpy.context.scene
    add_mesh(into, scene)
    add_camera(into, scene)
    set_world(into, scene)
    set_render(into, scene, image)
    began = time.perf_counter()
    bpy.ops.render.render(write_still=True)
    print("made: " + json.dumps({"drawing": time.perf_counter() - began}))


main()
