/* The fragments of a scene, in one list for each pixel, and the image that they give. */

#ifndef LISTS_H
#define LISTS_H

#include <stdbool.h>
#include <stdint.h>
#include <stdio.h>

#include "scene.h"

/* One fragment, as a shader writes it. `next` counts nodes from 1, and 0 ends a list. */
typedef struct { uint32_t next, primitive, mask; } Node;

typedef struct {
    int width, height;
    uint32_t *heads; /* of each pixel, in rows from the top */
    Node *nodes;
    uint32_t count, room;
} Lists;

/* Rules of depth and order that aren't abuf's, to be planted as faults. */
typedef struct {
    bool reverses_equals;  /* of equal depth keys, the earlier primitive is on top */
    bool has_pixel_depth;  /* depth is taken at the pixel's centre for all of its samples */
    bool has_float_depth;  /* depth is a float of 32 bits from 0 to 1 */
} Order;

Lists make_lists(int width, int height, uint32_t room);
void free_lists(Lists *lists);
void add_fragment(Lists *lists, int x, int y, uint32_t primitive, uint32_t mask);

/* Writes a line `x y primitive mask` for each fragment, by rows, columns and primitives. A sample that a primitive
   covers twice stands in two of its lines. */
void write_fragments(const Lists *lists, FILE *file);

/* Reads such lines. The program ends with one line where they aren't fragments of the scene. */
Lists read_fragments(const Scene *scene, FILE *file);

/* Folds the fragments and writes the image as PAM, by the rules of docs/FORMATS.md. */
void write_image(const Scene *scene, const Lists *lists, const Order *order, int maxval, FILE *file);

#endif
