#include "coverage.h"

/* Corners are at most 2^46 away, so an edge function is below 2^95, and a depth key's sum below 2^121. */
typedef __int128 Wide;

/* Above 0 where s lies to the right of the way from a to b on the screen. */
static Wide edge(Place a, Place b, Place s)
{
    return (Wide)(b.x - a.x) * (s.y - a.y) - (Wide)(b.y - a.y) * (s.x - a.x);
}

static bool accepts(Place a, Place b, Place s, Ties ties)
{
    Wide side = edge(a, b, s);
    if (side != 0)
        return side > 0;
    bool is_left = b.y < a.y, is_top = b.y == a.y && b.x > a.x;
    return ties == TOP_LEFT       ? is_left || is_top
           : ties == BOTTOM_RIGHT ? !is_left && !is_top
                                  : ties == EVERY_EDGE;
}

static int64_t least(int64_t a, int64_t b, int64_t c)
{
    int64_t least_two = a < b ? a : b;
    return least_two < c ? least_two : c;
}

static int64_t greatest(int64_t a, int64_t b, int64_t c)
{
    return -least(-a, -b, -c);
}

/* The pixels of a row or column that a range of places may reach. */
typedef struct { int first, end; } Span;

static Span span_of(int64_t low, int64_t high, int side)
{
    int64_t first = (low >> 8) - 1, end = (high >> 8) + 2;
    return (Span){first < 0 ? 0 : first > side ? side : first, end < 0 ? 0 : end > side ? side : end};
}

/* Adds the fragments of a triangle whose corners are in positive order. */
static void add_triangle(Lists *lists, const Scene *scene, uint32_t primitive, Place a, Place b, Place c, Ties ties)
{
    Place places[MOST_SAMPLES];
    Span columns = span_of(least(a.x, b.x, c.x), greatest(a.x, b.x, c.x), scene->width);
    Span rows = span_of(least(a.y, b.y, c.y), greatest(a.y, b.y, c.y), scene->height);
    sample_places(scene->samples, places);
    for (int y = rows.first; y < rows.end; y++)
        for (int x = columns.first; x < columns.end; x++) {
            uint32_t mask = 0;
            for (int k = 0; k < scene->samples; k++) {
                Place s = {256 * x + places[k].x, 256 * y + places[k].y};
                if (accepts(a, b, s, ties) && accepts(b, c, s, ties) && accepts(c, a, s, ties))
                    mask |= 1u << k;
            }
            if (mask)
                add_fragment(lists, x, y, primitive, mask);
        }
}

Lists exact_lists(const Scene *scene, Ties ties)
{
    Lists lists = make_lists(scene->width, scene->height, 1024);
    for (uint32_t n = 0; n < scene->count; n++) {
        const Place *c = scene->triangles[n].corners;
        Wide area = edge(c[0], c[1], c[2]);
        if (area > 0)
            add_triangle(&lists, scene, n, c[0], c[1], c[2], ties);
        else if (area < 0)
            add_triangle(&lists, scene, n, c[0], c[2], c[1], ties);
    }
    return lists;
}

/* ---- depth */

int64_t depth_key(const Triangle *triangle, Place place)
{
    const Place *c = triangle->corners;
    const int64_t *q = triangle->depths;
    Wide area = edge(c[0], c[1], c[2]);
    Wide sum = edge(c[1], c[2], place) * q[0] + edge(c[2], c[0], place) * q[1] + edge(c[0], c[1], place) * q[2];
    if (area == 0)
        return 0;
    if (area < 0)
        area = -area, sum = -sum;
    return sum / area - (sum % area < 0);
}

float float_depth(const Triangle *triangle, Place place)
{
    const Place *c = triangle->corners;
    float area = edge(c[0], c[1], c[2]), depth = 0;
    for (int k = 0; k < 3; k++) {
        float weight = edge(c[(k + 1) % 3], c[(k + 2) % 3], place) / area;
        depth += weight * (triangle->depths[k] / 16777215.0f);
    }
    return depth;
}
