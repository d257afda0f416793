/* A scene as it lies on the screen, read from a .tri file. conformance/README.md has the format. */

#ifndef SCENE_H
#define SCENE_H

#include <stddef.h>
#include <stdint.h>
#include <stdio.h>

enum { MOST_SAMPLES = 16, MOST_SIDE = 4096 };

/* A place in 1/256 pixel from the top left of the image, x to the right and y downwards. */
typedef struct { int64_t x, y; } Place;

typedef struct {
    Place corners[3];
    int64_t depths[3];
    uint32_t colour[3], alpha;
} Triangle;

typedef struct {
    int width, height, samples;
    uint32_t background[3];
    Triangle *triangles; /* the place of each is its primitive number */
    uint32_t count;
} Scene;

/* Memory of zeros; the program ends where there is none. */
void *allocate(size_t count, size_t size);

/* The scene of a file. The program ends with one line where the file isn't one. */
Scene read_scene(FILE *file);

/* The same scene with triangles of its own. */
Scene copy_scene(const Scene *scene);

/* Rounds all corners to so many subpixel bits, halves to even. */
void round_corners(Scene *scene, int bits);

/* Where the samples of a pattern lie, from the top left of their pixel. */
void sample_places(int samples, Place *places);

#endif
