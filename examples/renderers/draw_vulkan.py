#!/usr/bin/env python3
"""Draws a scene with the lists of each pixel that examples/driver makes with a Vulkan driver.

    draw_vulkan.py SCENE.obj IMAGE WORDS..

    VK_ICD_FILENAMES=/usr/share/vulkan/icd.d/lvp_icd.x86_64.json examples/renderers/draw_vulkan.py examples/cube.obj cube.pam

As draw_opengl.py says of OpenGL, only coverage is the driver's. The loader of Vulkan chooses the driver.
"""

import draw_opengl
import renderer


def info() -> renderer.Info:
    return draw_opengl.info_of("vulkan", "Vulkan")


def draw(scene: renderer.Scene, image: str) -> renderer.Run:
    return draw_opengl.draw_with("vulkan", scene, image)


if __name__ == "__main__":
    renderer.main(info, draw)
