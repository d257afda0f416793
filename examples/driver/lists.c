#include "lists.h"

#include <err.h>
#include <stdlib.h>

#include "coverage.h"

/* ---- lists */

Lists make_lists(int width, int height, uint32_t room)
{
    size_t pixels = (size_t)width * height;
    return (Lists){width, height, allocate(pixels, sizeof(uint32_t)), allocate(room, sizeof(Node)), 0, room};
}

void free_lists(Lists *lists)
{
    free(lists->heads);
    free(lists->nodes);
}

void add_fragment(Lists *lists, int x, int y, uint32_t primitive, uint32_t mask)
{
    if (lists->count == lists->room) {
        lists->room = 2 * lists->room + 64;
        lists->nodes = realloc(lists->nodes, lists->room * sizeof *lists->nodes);
        if (!lists->nodes)
            errx(2, "no memory");
    }
    uint32_t *head = &lists->heads[(size_t)y * lists->width + x];
    lists->nodes[lists->count] = (Node){*head, primitive, mask};
    *head = ++lists->count;
}

/* ---- fragments as text */

static int compare_nodes(const void *a, const void *b)
{
    const Node *p = a, *q = b;
    return (p->primitive > q->primitive) - (p->primitive < q->primitive);
}

/* Writes the fragments of one primitive in one pixel as few lines as their masks allow. */
static void write_masks(int x, int y, const Node *nodes, size_t count, FILE *file)
{
    uint32_t mask = 0;
    for (size_t n = 0; n < count; n++) {
        if (mask & nodes[n].mask) {
            fprintf(file, "%d %d %u %u\n", x, y, nodes->primitive, mask);
            mask = 0;
        }
        mask |= nodes[n].mask;
    }
    fprintf(file, "%d %d %u %u\n", x, y, nodes->primitive, mask);
}

void write_fragments(const Lists *lists, FILE *file)
{
    Node *nodes = allocate(lists->count, sizeof *nodes);
    for (int y = 0; y < lists->height; y++)
        for (int x = 0; x < lists->width; x++) {
            size_t count = 0;
            for (uint32_t at = lists->heads[(size_t)y * lists->width + x]; at; at = lists->nodes[at - 1].next)
                nodes[count++] = lists->nodes[at - 1];
            qsort(nodes, count, sizeof *nodes, compare_nodes);
            for (size_t first = 0, end; first < count; first = end) {
                end = first + 1;
                while (end < count && nodes[end].primitive == nodes[first].primitive)
                    end++;
                write_masks(x, y, &nodes[first], end - first, file);
            }
        }
    free(nodes);
}

Lists read_fragments(const Scene *scene, FILE *file)
{
    Lists lists = make_lists(scene->width, scene->height, 1024);
    char text[128];
    for (int line = 1; fgets(text, sizeof text, file); line++) {
        int x, y;
        unsigned primitive, mask;
        char end;
        if (sscanf(text, "%d %d %u %u%c", &x, &y, &primitive, &mask, &end) != 5 || end != '\n')
            errx(2, "line %d of the fragments isn't `x y primitive mask`", line);
        if (x < 0 || x >= scene->width || y < 0 || y >= scene->height || primitive >= scene->count || mask == 0 ||
            mask >> scene->samples)
            errx(2, "line %d of the fragments is none of the scene", line);
        add_fragment(&lists, x, y, primitive, mask);
    }
    return lists;
}

/* ---- the image */

typedef struct { double key; uint32_t primitive; } Layer;

static int compare_layers(const void *a, const void *b)
{
    const Layer *p = a, *q = b;
    if (p->key != q->key)
        return p->key < q->key ? -1 : 1;
    return (p->primitive > q->primitive) - (p->primitive < q->primitive);
}

static int compare_reversed(const void *a, const void *b)
{
    const Layer *p = a, *q = b;
    return p->key != q->key ? compare_layers(a, b) : compare_layers(b, a);
}

/* n / m rounded to the nearest, halves upwards. */
static uint64_t round_div(uint64_t n, uint64_t m)
{
    return (2 * n + m) / (2 * m);
}

/* The layers of sample k at this place, in the order in which they are put over the background. */
static size_t order_layers(const Scene *scene, const Lists *lists, uint32_t head, int k, Place place,
                           const Order *order, Layer *layers)
{
    size_t count = 0;
    for (uint32_t at = head; at; at = lists->nodes[at - 1].next) {
        const Node *node = &lists->nodes[at - 1];
        const Triangle *triangle = &scene->triangles[node->primitive];
        if (node->mask >> k & 1)
            layers[count++] = (Layer){order->has_float_depth ? float_depth(triangle, place)
                                                             : (double)depth_key(triangle, place), node->primitive};
    }
    qsort(layers, count, sizeof *layers, order->reverses_equals ? compare_reversed : compare_layers);
    return count;
}

/* The sums of the three channels over the samples of a pixel. The layers are room for one list. */
static void fold_pixel(const Scene *scene, const Lists *lists, int x, int y, const Order *order, Layer *layers,
                       uint64_t *sums)
{
    Place places[MOST_SAMPLES];
    sample_places(scene->samples, places);
    for (int k = 0; k < scene->samples; k++) {
        Place within = order->has_pixel_depth ? (Place){128, 128} : places[k];
        Place place = {256 * x + within.x, 256 * y + within.y};
        size_t count = order_layers(scene, lists, lists->heads[(size_t)y * lists->width + x], k, place, order, layers);
        for (int i = 0; i < 3; i++) {
            uint64_t colour = scene->background[i];
            for (size_t n = 0; n < count; n++) {
                const Triangle *t = &scene->triangles[layers[n].primitive];
                colour = round_div((uint64_t)t->alpha * t->colour[i], 65535) +
                         round_div((65535 - t->alpha) * colour, 65535);
            }
            sums[i] += colour;
        }
    }
}

void write_image(const Scene *scene, const Lists *lists, const Order *order, int maxval, FILE *file)
{
    Layer *layers = allocate(lists->count, sizeof *layers);
    fprintf(file, "P7\nWIDTH %d\nHEIGHT %d\nDEPTH 3\nMAXVAL %d\nTUPLTYPE RGB\nENDHDR\n", scene->width, scene->height,
            maxval);
    for (int y = 0; y < scene->height; y++)
        for (int x = 0; x < scene->width; x++) {
            uint64_t sums[3] = {0};
            fold_pixel(scene, lists, x, y, order, layers, sums);
            for (int i = 0; i < 3; i++) {
                int value = round_div(sums[i], 65535 / maxval * scene->samples);
                if (maxval > 255)
                    putc(value >> 8, file);
                putc(value & 255, file);
            }
        }
    free(layers);
}
