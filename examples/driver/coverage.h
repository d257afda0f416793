/* Which samples a triangle covers, and how deep it is there, in whole numbers. */

#ifndef COVERAGE_H
#define COVERAGE_H

#include "lists.h"

/* What covers a sample that lies exactly on an edge. Only the first is abuf's and Direct3D's. */
typedef enum { TOP_LEFT, BOTTOM_RIGHT, EVERY_EDGE, NO_EDGE } Ties;

/* All fragments of the scene. */
Lists exact_lists(const Scene *scene, Ties ties);

/* The depth key at a place, whatever the order of the corners; 0 of a triangle without area. */
int64_t depth_key(const Triangle *triangle, Place place);

/* The depth at a place in floats from 0 to 1, as a fault to plant. */
float float_depth(const Triangle *triangle, Place place);

#endif
