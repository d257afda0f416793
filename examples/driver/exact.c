/* No driver: coverage by whole numbers and the top-left rule. It is what drivers are compared with, and it can have a
   fault planted into it, to see how that shows. */

#include <err.h>
#include <stdlib.h>
#include <string.h>

#include "coverage.h"
#include "driver.h"

/* A mirrored image is mirrored back pixel by pixel. What is left of it is that the samples of a pixel are mirrored, and
   that ties go to the other side. */
typedef struct {
    const char *name, *what;
    bool mirrors_x, mirrors_y;
    int shift; /* to the right, in 1/256 pixel */
    int bits;  /* to which corners are rounded */
    bool admits_bits;
    Ties ties;
    Order order;
} Fault;

static const Fault NONE = {.bits = 8};

static const Fault FAULTS[] = {
    {"mirror-x", "samples are mirrored from left to right, and ties go to the right", .mirrors_x = true, .bits = 8},
    {"mirror-y", "samples are mirrored from top to bottom, and ties go to the bottom", .mirrors_y = true, .bits = 8},
    {"shift", "everything is 1/256 pixel too far to the right", .shift = 1, .bits = 8},
    {"4-bits", "4 subpixel bits, though 8 are told", .bits = 4},
    {"4-bits-told", "4 subpixel bits, as is told", .bits = 4, .admits_bits = true},
    {"bottom-right", "a sample on an edge is covered if that is a bottom or a right edge", .bits = 8,
     .ties = BOTTOM_RIGHT},
    {"every-edge", "a sample on an edge is covered", .bits = 8, .ties = EVERY_EDGE},
    {"no-edge", "a sample on an edge isn't covered", .bits = 8, .ties = NO_EDGE},
    {"order-of-equals", "of equal depths the earlier primitive is on top", .bits = 8, .order.reverses_equals = true},
    {"depth-at-centre", "depth is taken at the pixel's centre", .bits = 8, .order.has_pixel_depth = true},
    {"depth-in-floats", "depth is a float of 32 bits", .bits = 8, .order.has_float_depth = true},
};

static const Fault *fault = &NONE;

static void choose_fault(const char *name)
{
    size_t count = sizeof FAULTS / sizeof *FAULTS;
    for (size_t n = 0; n < count; n++)
        if (strcmp(name, FAULTS[n].name) == 0)
            fault = &FAULTS[n];
    if (fault != &NONE)
        return;
    warnx("no fault is named %s; there are", name);
    for (size_t n = 0; n < count; n++)
        fprintf(stderr, "  %-16s %s\n", FAULTS[n].name, FAULTS[n].what);
    exit(2);
}

Driver open_driver(const Choice *choice)
{
    Driver driver = {.interface = "none", .name = "exact", .version = "1", .device = "whole numbers",
                     .viewport = choice->viewport ? choice->viewport : 1 << 30, .most_side = 16 * MOST_SIDE,
                     .most_bytes = (size_t)1 << 31};
    if (choice->device)
        errx(2, "there is no device %d", choice->device);
    if (choice->fault)
        choose_fault(choice->fault);
    driver.subpixel_bits = fault->admits_bits ? fault->bits : 8;
    for (int n = 0; n < ATTACHMENTS; n++)
        driver.counts[n] = 1u << 1 | 1u << 2 | 1u << 4 | 1u << 8 | 1u << 16;
    return driver;
}

bool tell_offsets(int samples, Offset *offsets)
{
    Place places[MOST_SAMPLES];
    sample_places(samples, places);
    for (int k = 0; k < samples; k++)
        offsets[k] = (Offset){(places[k].x - 128) / 16, (places[k].y - 128) / 16};
    return true;
}

Order image_order(void)
{
    return fault->order;
}

static void mirror_corners(Scene *scene)
{
    for (uint32_t n = 0; n < scene->count; n++)
        for (int k = 0; k < 3; k++) {
            Place *corner = &scene->triangles[n].corners[k];
            corner->x = fault->shift + (fault->mirrors_x ? 256 * scene->width - corner->x : corner->x);
            corner->y = fault->mirrors_y ? 256 * scene->height - corner->y : corner->y;
        }
}

static void mirror_pixels(Lists *lists)
{
    uint32_t *heads = allocate((size_t)lists->width * lists->height, sizeof *heads);
    for (int y = 0; y < lists->height; y++)
        for (int x = 0; x < lists->width; x++) {
            int column = fault->mirrors_x ? lists->width - 1 - x : x;
            int row = fault->mirrors_y ? lists->height - 1 - y : y;
            heads[(size_t)y * lists->width + x] = lists->heads[(size_t)row * lists->width + column];
        }
    free(lists->heads);
    lists->heads = heads;
}

Lists draw_lists(const Scene *scene)
{
    Scene changed = copy_scene(scene);
    round_corners(&changed, fault->bits);
    mirror_corners(&changed);
    Lists lists = exact_lists(&changed, fault->ties);
    mirror_pixels(&lists);
    free(changed.triangles);
    return lists;
}
