#include "scene.h"

#include <err.h>
#include <errno.h>
#include <stdbool.h>
#include <stdlib.h>
#include <string.h>

/* Edge functions and depth keys of corners within these bounds fit into 128 bits. */
static const int64_t FARTHEST = (int64_t)1 << 46, NEAREST_DEPTH = 16777215, MOST_COLOUR = 65535;

enum { MOST_NUMBERS = 13, MOST_TRIANGLES = 1 << 24 };

void *allocate(size_t count, size_t size)
{
    void *memory = calloc(count ? count : 1, size);
    if (!memory)
        errx(2, "no memory");
    return memory;
}

/* ---- reading */

/* Reads the whole numbers after a keyword. False if there aren't just so many. */
static bool read_numbers(const char *text, int64_t *numbers, int count)
{
    for (int n = 0; n < count; n++) {
        char *end;
        errno = 0;
        numbers[n] = strtoll(text, &end, 10);
        if (*text != ' ' || end == text || errno)
            return false;
        text = end;
    }
    return strcmp(text, "\n") == 0 || *text == '\0';
}

static bool all_within(const int64_t *numbers, int count, int64_t least, int64_t most)
{
    for (int n = 0; n < count; n++)
        if (numbers[n] < least || numbers[n] > most)
            return false;
    return true;
}

static void read_size(Scene *scene, const int64_t *numbers, int line)
{
    if (!all_within(numbers, 2, 1, MOST_SIDE))
        errx(2, "line %d: the size isn't 1 to %d", line, MOST_SIDE);
    scene->width = numbers[0];
    scene->height = numbers[1];
}

static void read_samples(Scene *scene, const int64_t *numbers, int line)
{
    int64_t samples = numbers[0];
    if (samples < 1 || samples > MOST_SAMPLES || (samples & (samples - 1)))
        errx(2, "line %d: the number of samples isn't 1, 2, 4, 8 or 16", line);
    scene->samples = samples;
}

static void read_background(Scene *scene, const int64_t *numbers, int line)
{
    if (!all_within(numbers, 3, 0, MOST_COLOUR))
        errx(2, "line %d: a colour isn't 0 to 65535", line);
    for (int i = 0; i < 3; i++)
        scene->background[i] = numbers[i];
}

static void read_triangle(Scene *scene, const int64_t *numbers, int line)
{
    Triangle triangle;
    for (int k = 0; k < 3; k++) {
        if (!all_within(&numbers[3 * k], 2, -FARTHEST, FARTHEST))
            errx(2, "line %d: a corner is farther away than 2^46", line);
        if (!all_within(&numbers[3 * k + 2], 1, 0, NEAREST_DEPTH))
            errx(2, "line %d: a depth isn't 0 to 16777215", line);
        triangle.corners[k] = (Place){numbers[3 * k], numbers[3 * k + 1]};
        triangle.depths[k] = numbers[3 * k + 2];
    }
    if (!all_within(&numbers[9], 4, 0, MOST_COLOUR))
        errx(2, "line %d: a colour isn't 0 to 65535", line);
    for (int i = 0; i < 3; i++)
        triangle.colour[i] = numbers[9 + i];
    triangle.alpha = numbers[12];
    if (scene->count == MOST_TRIANGLES)
        errx(2, "line %d: more than %d triangles", line, MOST_TRIANGLES);
    if ((scene->count & (scene->count - 1)) == 0) { /* the room doubles where it is full */
        size_t room = scene->count ? 2 * (size_t)scene->count : 1;
        scene->triangles = realloc(scene->triangles, room * sizeof triangle);
        if (!scene->triangles)
            errx(2, "no memory");
    }
    scene->triangles[scene->count++] = triangle;
}

static const struct {
    const char *keyword;
    int numbers;
    void (*read)(Scene *scene, const int64_t *numbers, int line);
} LINES[] = {
    {"size", 2, read_size},
    {"samples", 1, read_samples},
    {"background", 3, read_background},
    {"t", MOST_NUMBERS, read_triangle},
};

static void read_line(Scene *scene, const char *text, int line)
{
    size_t length = strcspn(text, " \n");
    for (size_t n = 0; n < sizeof LINES / sizeof *LINES; n++)
        if (strlen(LINES[n].keyword) == length && memcmp(LINES[n].keyword, text, length) == 0) {
            int64_t numbers[MOST_NUMBERS];
            if (!read_numbers(text + length, numbers, LINES[n].numbers))
                errx(2, "line %d: %s has not just %d whole numbers", line, LINES[n].keyword, LINES[n].numbers);
            LINES[n].read(scene, numbers, line);
            return;
        }
    errx(2, "line %d: begins with none of size, samples, background and t", line);
}

Scene read_scene(FILE *file)
{
    Scene scene = {0};
    char text[1024];
    for (int line = 1; fgets(text, sizeof text, file); line++)
        if (text[0] != '#')
            read_line(&scene, text, line);
    if (ferror(file))
        errx(2, "the scene couldn't be read");
    if (!scene.width)
        errx(2, "the scene has no line with its size");
    if (!scene.samples)
        errx(2, "the scene has no line with its samples");
    return scene;
}

/* ---- changing */

Scene copy_scene(const Scene *scene)
{
    Scene copy = *scene;
    copy.triangles = allocate(scene->count, sizeof *copy.triangles);
    if (scene->count)
        memcpy(copy.triangles, scene->triangles, scene->count * sizeof *copy.triangles);
    return copy;
}

/* The multiple of a power of two that is nearest to a number, the even one of two. */
static int64_t rounded(int64_t value, int64_t step)
{
    int64_t below = value & -step, rest = value - below;
    bool is_odd = below & step;
    return 2 * rest > step || (2 * rest == step && is_odd) ? below + step : below;
}

void round_corners(Scene *scene, int bits)
{
    int64_t step = bits < 8 ? (int64_t)1 << (8 - bits) : 1;
    for (uint32_t n = 0; n < scene->count; n++)
        for (int k = 0; k < 3; k++) {
            Place *corner = &scene->triangles[n].corners[k];
            *corner = (Place){rounded(corner->x, step), rounded(corner->y, step)};
        }
}

/* ---- samples */

/* In 1/16 pixel from the centre, x to the right and y downwards. */
static const signed char OFFSETS[][MOST_SAMPLES][2] = {
    {{0, 0}},
    {{4, 4}, {-4, -4}},
    {{-2, -6}, {6, -2}, {-6, 2}, {2, 6}},
    {{1, -3}, {-1, 3}, {5, 1}, {-3, -5}, {-5, 5}, {-7, -1}, {3, 7}, {7, -7}},
    {{1, 1}, {-1, -3}, {-3, 2}, {4, -1}, {-5, -2}, {2, 5}, {5, 3}, {3, -5},
     {-2, 6}, {0, -7}, {-4, -6}, {-6, 4}, {-8, 0}, {7, -4}, {6, 7}, {-7, -8}},
};

void sample_places(int samples, Place *places)
{
    int pattern = 0;
    while (1 << pattern < samples)
        pattern++;
    for (int k = 0; k < samples; k++)
        places[k] = (Place){128 + 16 * OFFSETS[pattern][k][0], 128 + 16 * OFFSETS[pattern][k][1]};
}
