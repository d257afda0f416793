/* Draws a .tri scene with a driver and writes which samples each triangle covers.

       exact|opengl|vulkan [--mode native|grid|magnify|emulate] [--bits B] [--attachment none|rgba8|bgra8]
                           [--viewport SIDE] [--device N] [--image [--maxval 255|65535]] < scene.tri
       exact --fragments FILE --image < scene.tri
       exact|opengl|vulkan --info

   It writes a line `x y primitive mask` for each fragment. --image writes the image of the fragments instead, and
   --fragments folds those of a file. --info tells the driver as JSON.

   --mode        native draws the scene as it stands. grid first rounds its corners to the driver's subpixel bits.
                 magnify draws it 16 times as large: 1/256 pixel becomes 1/16, and each sample a pixel of its own. So
                 any driver draws all patterns. emulate draws once for each sample, with one sample a pixel and the
                 scene moved, for patterns that the driver lacks.
   --bits        rounds corners to B subpixel bits first, 0 to 8, halves to even
   --attachment  what is drawn into; drivers have different paths for them
   --viewport    the side of the viewport in pixels; the image's top left is its centre
   --device      the number of the device, from 0
   --fault       plants a fault; `exact` alone has them, and a wrong name lists them

   The status is 0, or 3 where the driver lacks what is needed, or 2 where something else fails. */

#include <err.h>
#include <stdlib.h>
#include <string.h>

#include "driver.h"

typedef enum { NATIVE, GRID, MAGNIFY, EMULATE } Mode;

typedef struct {
    Choice choice;
    Mode mode;
    int bits; /* or -1 */
    bool is_info, is_image;
    int maxval;
    const char *fragments; /* the name of a file, or NULL */
} Job;

static const char *const MODES[] = {"native", "grid", "magnify", "emulate", NULL};
static const char *const ATTACHMENT_NAMES[] = {"none", "rgba8", "bgra8", NULL};

/* ---- modes */

static void move_scene(Scene *scene, int64_t right, int64_t down)
{
    for (uint32_t n = 0; n < scene->count; n++)
        for (int k = 0; k < 3; k++) {
            scene->triangles[n].corners[k].x += right;
            scene->triangles[n].corners[k].y += down;
        }
}

static void free_scene(Scene *scene)
{
    free(scene->triangles);
}

/* Draws once for each sample, with the scene moved so that the sample lies on the pixel's centre. */
static Lists emulate(const Scene *scene)
{
    Place places[MOST_SAMPLES];
    Lists all = make_lists(scene->width, scene->height, 0);
    sample_places(scene->samples, places);
    for (int k = 0; k < scene->samples; k++) {
        Scene moved = copy_scene(scene);
        moved.samples = 1;
        move_scene(&moved, 128 - places[k].x, 128 - places[k].y);
        Lists lists = draw_lists(&moved);
        for (int y = 0; y < scene->height; y++)
            for (int x = 0; x < scene->width; x++)
                for (uint32_t at = lists.heads[(size_t)y * lists.width + x]; at; at = lists.nodes[at - 1].next)
                    add_fragment(&all, x, y, lists.nodes[at - 1].primitive, lists.nodes[at - 1].mask << k);
        free_lists(&lists);
        free_scene(&moved);
    }
    return all;
}

/* Draws 16 times as large, with one sample a pixel. The scene is moved by half a pixel of those, so that each sample
   lies on the centre of one. */
static Lists magnify(const Driver *driver, const Scene *scene)
{
    Place places[MOST_SAMPLES];
    Scene large = copy_scene(scene);
    int greatest = scene->width > scene->height ? scene->width : scene->height;
    size_t bytes = (size_t)scene->width * scene->height * 256 * sizeof(uint32_t);
    if (16 * greatest > driver->most_side || 16 * greatest > driver->viewport / 2 || bytes > driver->most_bytes)
        errx(NOT_SUPPORTED, "the image is too large to be magnified");
    large.width *= 16, large.height *= 16, large.samples = 1;
    move_scene(&large, 8, 8);
    for (uint32_t n = 0; n < large.count; n++)
        for (int k = 0; k < 3; k++)
            large.triangles[n].corners[k].x *= 16, large.triangles[n].corners[k].y *= 16;
    Lists lists = draw_lists(&large), all = make_lists(scene->width, scene->height, lists.count);
    sample_places(scene->samples, places);
    for (int y = 0; y < scene->height; y++)
        for (int x = 0; x < scene->width; x++)
            for (int k = 0; k < scene->samples; k++) {
                size_t column = 16 * x + places[k].x / 16, row = 16 * y + places[k].y / 16;
                for (uint32_t at = lists.heads[row * lists.width + column]; at; at = lists.nodes[at - 1].next)
                    add_fragment(&all, x, y, lists.nodes[at - 1].primitive, lists.nodes[at - 1].mask << k);
            }
    free_lists(&lists);
    free_scene(&large);
    return all;
}

static Lists draw(const Job *job, const Driver *driver, Scene *scene)
{
    Attachment attachment = job->choice.attachment;
    int samples = job->mode == MAGNIFY || job->mode == EMULATE ? 1 : scene->samples;
    if (!(driver->counts[attachment] >> samples & 1))
        errx(NOT_SUPPORTED, "the driver has no pattern of %d samples for attachment %s", samples,
             ATTACHMENT_NAMES[attachment]);
    if (scene->width > driver->most_side || scene->height > driver->most_side)
        errx(NOT_SUPPORTED, "the image is too large for the driver");
    if (job->mode == GRID || job->bits >= 0)
        round_corners(scene, job->bits >= 0 ? job->bits : driver->subpixel_bits);
    return job->mode == MAGNIFY   ? magnify(driver, scene)
           : job->mode == EMULATE ? emulate(scene)
                                  : draw_lists(scene);
}

/* ---- telling the driver */

static void write_text(const char *name, const char *text)
{
    printf(" \"%s\": \"", name);
    for (; *text; text++)
        if (*text == '"' || *text == '\\')
            printf("\\%c", *text);
        else if ((unsigned char)*text >= ' ')
            putchar(*text);
    printf("\",\n");
}

static void write_counts(uint32_t counts)
{
    const char *before = "";
    putchar('[');
    for (int samples = 1; samples <= MOST_SAMPLES; samples *= 2)
        if (counts >> samples & 1) {
            printf("%s%d", before, samples);
            before = ", ";
        }
    putchar(']');
}

static void write_offsets(int samples)
{
    Offset offsets[MOST_SAMPLES];
    if (!tell_offsets(samples, offsets)) {
        printf("null");
        return;
    }
    putchar('[');
    for (int k = 0; k < samples; k++)
        printf("%s[%g, %g]", k ? ", " : "", offsets[k].x, offsets[k].y);
    putchar(']');
}

static void tell_driver(const Driver *driver)
{
    printf("{\n");
    write_text("interface", driver->interface);
    write_text("name", driver->name);
    write_text("version", driver->version);
    write_text("device", driver->device);
    printf(" \"subpixel_bits\": %d,\n \"viewport\": %d,\n \"most_side\": %d,\n", driver->subpixel_bits,
           driver->viewport, driver->most_side);
    printf(" \"sample_counts\": {");
    for (int n = 0; n < ATTACHMENTS; n++) {
        printf("%s\"%s\": ", n ? ", " : "", ATTACHMENT_NAMES[n]);
        write_counts(driver->counts[n]);
    }
    printf("},\n \"sample_offsets\": {");
    for (int samples = 1; samples <= MOST_SAMPLES; samples *= 2) {
        printf("%s\"%d\": ", samples > 1 ? ", " : "", samples);
        write_offsets(samples);
    }
    printf("}\n}\n");
}

/* ---- the program */

/* The place of a text among those that an option takes. */
static int choice_of(const char *text, const char *const *texts, const char *option)
{
    for (int n = 0; texts[n]; n++)
        if (strcmp(text, texts[n]) == 0)
            return n;
    errx(2, "%s doesn't take %s", option, text);
}

static int number_of(const char *text, int least, int most, const char *option)
{
    char *end;
    long number = strtol(text, &end, 10);
    if (end == text || *end || number < least || number > most)
        errx(2, "%s isn't a number from %d to %d", option, least, most);
    return number;
}

static void read_option(Job *job, const char *option, const char *value)
{
    if (strcmp(option, "--mode") == 0)
        job->mode = choice_of(value, MODES, option);
    else if (strcmp(option, "--attachment") == 0)
        job->choice.attachment = choice_of(value, ATTACHMENT_NAMES, option);
    else if (strcmp(option, "--bits") == 0)
        job->bits = number_of(value, 0, 8, option);
    else if (strcmp(option, "--viewport") == 0)
        job->choice.viewport = number_of(value, 1, 1 << 20, option);
    else if (strcmp(option, "--device") == 0)
        job->choice.device = number_of(value, 0, 1 << 10, option);
    else if (strcmp(option, "--fault") == 0)
        job->choice.fault = value;
    else if (strcmp(option, "--fragments") == 0)
        job->fragments = value;
    else if (strcmp(option, "--maxval") == 0)
        job->maxval = number_of(value, 255, 65535, option);
    else
        errx(2, "there is no option %s", option);
}

static Job job_of(int count, char **words)
{
    Job job = {.bits = -1, .maxval = 255};
    for (int n = 1; n < count; n++)
        if (strcmp(words[n], "--info") == 0)
            job.is_info = true;
        else if (strcmp(words[n], "--image") == 0)
            job.is_image = true;
        else if (n + 1 == count)
            errx(2, "%s is no option, or lacks its value", words[n]);
        else
            read_option(&job, words[n], words[n + 1]), n++;
    if (job.maxval != 255 && job.maxval != 65535)
        errx(2, "--maxval isn't 255 or 65535");
    return job;
}

static Lists fragments_of_file(const Scene *scene, const char *name)
{
    FILE *file = fopen(name, "r");
    if (!file)
        err(2, "%s", name);
    Lists lists = read_fragments(scene, file);
    fclose(file);
    return lists;
}

int main(int count, char **words)
{
    Job job = job_of(count, words);
    Driver driver = open_driver(&job.choice);
    if (job.is_info) {
        tell_driver(&driver);
    } else {
        Scene scene = read_scene(stdin);
        Lists lists = job.fragments ? fragments_of_file(&scene, job.fragments) : draw(&job, &driver, &scene);
        Order order = image_order();
        if (job.is_image)
            write_image(&scene, &lists, &order, job.maxval, stdout);
        else
            write_fragments(&lists, stdout);
    }
    if (fflush(stdout) != 0 || ferror(stdout))
        errx(2, "the output couldn't be written");
    return 0;
}
