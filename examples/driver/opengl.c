/* The rasterizer of an OpenGL 4.5 driver, by EGL without a surface.

   All triangles are drawn at once. The fragment shader puts each fragment, with its primitive number and its mask of
   samples, into the list of its pixel by atomic steps, and the lists are read back. OpenGL's rows go upwards. Here they
   are taken as going downwards: then sample positions, and Mesa's rule for ties, are those of Direct3D. */

#define GL_GLEXT_PROTOTYPES
#include <EGL/egl.h>
#include <EGL/eglext.h>
#include <GL/glcorearb.h>
#include <err.h>
#include <stdlib.h>
#include <string.h>

#include "driver.h"

enum { FIRST_ROOM = 65536 };

static const char *const VERTEX_SHADER =
    "#version 450\n"
    "layout(location = 0) in vec2 place;\n" /* in 1/256 pixel */
    "layout(location = 0) uniform float scale;\n"
    "void main() { gl_Position = vec4(place * scale, 0, 1); }\n";

static const char *const FRAGMENT_SHADER =
    "#version 450\n"
    "struct Node { uint next, primitive, mask; };\n"
    "layout(binding = 0, std430) buffer Count { uint count; };\n"
    "layout(binding = 1, std430) buffer Heads { uint heads[]; };\n"
    "layout(binding = 2, std430) buffer Nodes { Node nodes[]; };\n"
    "layout(location = 1) uniform uint width;\n"
    "void main() {\n"
    "    uint node = atomicAdd(count, 1u);\n"
    "    if (node < nodes.length()) {\n"
    "        uvec2 pixel = uvec2(gl_FragCoord.xy);\n"
    "        uint next = atomicExchange(heads[pixel.y * width + pixel.x], node + 1u);\n"
    "        nodes[node] = Node(next, uint(gl_PrimitiveID), uint(gl_SampleMaskIn[0]));\n"
    "    }\n"
    "}\n";

static Attachment attachment;
static int viewport_side;

/* ---- opening */

static void make_context(int number)
{
    const EGLint wanted[] = {
        EGL_CONTEXT_MAJOR_VERSION, 4,
        EGL_CONTEXT_MINOR_VERSION, 5,
        EGL_CONTEXT_OPENGL_PROFILE_MASK, EGL_CONTEXT_OPENGL_CORE_PROFILE_BIT,
        EGL_NONE,
    };
    if (number)
        errx(2, "there is no device %d of EGL; set LIBGL_ALWAYS_SOFTWARE or DRI_PRIME to choose one", number);
    EGLDisplay display = eglGetPlatformDisplay(EGL_PLATFORM_SURFACELESS_MESA, EGL_DEFAULT_DISPLAY, NULL);
    if (!display)
        display = eglGetDisplay(EGL_DEFAULT_DISPLAY);
    if (!eglInitialize(display, NULL, NULL) || !eglBindAPI(EGL_OPENGL_API))
        errx(2, "there is no display of EGL with OpenGL; on Debian, install libegl1 and libgl1-mesa-dri");
    EGLContext context = eglCreateContext(display, EGL_NO_CONFIG_KHR, EGL_NO_CONTEXT, wanted);
    if (!context || !eglMakeCurrent(display, EGL_NO_SURFACE, EGL_NO_SURFACE, context))
        errx(2, "the driver has no context of OpenGL 4.5 without a surface");
}

/* The greatest power of two that the viewport may be large, with the image's top left as its centre. */
static int greatest_viewport(void)
{
    GLint most[2];
    GLfloat bounds[2];
    int side = 1;
    glGetIntegerv(GL_MAX_VIEWPORT_DIMS, most);
    glGetFloatv(GL_VIEWPORT_BOUNDS_RANGE, bounds);
    while (2 * side <= most[0] && 2 * side <= most[1] && side <= -bounds[0])
        side *= 2;
    return side;
}

/* Binds a framebuffer of this size. False where it hasn't just so many samples. */
static bool make_framebuffer(Attachment kind, int width, int height, int samples)
{
    GLuint framebuffer, colour;
    GLint most, got;
    glGetIntegerv(kind == NO_ATTACHMENT ? GL_MAX_FRAMEBUFFER_SAMPLES : GL_MAX_SAMPLES, &most);
    if (samples > most || kind == BGRA8) /* OpenGL has no format that says BGRA8 */
        return false;
    glCreateFramebuffers(1, &framebuffer);
    if (kind == NO_ATTACHMENT) {
        glNamedFramebufferParameteri(framebuffer, GL_FRAMEBUFFER_DEFAULT_WIDTH, width);
        glNamedFramebufferParameteri(framebuffer, GL_FRAMEBUFFER_DEFAULT_HEIGHT, height);
        glNamedFramebufferParameteri(framebuffer, GL_FRAMEBUFFER_DEFAULT_SAMPLES, samples == 1 ? 0 : samples);
    } else {
        glCreateRenderbuffers(1, &colour);
        glNamedRenderbufferStorageMultisample(colour, samples == 1 ? 0 : samples, GL_RGBA8, width, height);
        glNamedFramebufferRenderbuffer(framebuffer, GL_COLOR_ATTACHMENT0, GL_RENDERBUFFER, colour);
    }
    glBindFramebuffer(GL_FRAMEBUFFER, framebuffer);
    if (glCheckFramebufferStatus(GL_FRAMEBUFFER) != GL_FRAMEBUFFER_COMPLETE)
        errx(2, "the framebuffer isn't complete");
    glGetIntegerv(GL_SAMPLES, &got);
    return samples == (got == 0 ? 1 : got);
}

Driver open_driver(const Choice *choice)
{
    Driver driver = {0};
    GLint bits, sides[2], bytes;
    if (choice->fault)
        errx(2, "only `exact` has faults to plant");
    make_context(choice->device);
    attachment = choice->attachment;
    viewport_side = greatest_viewport();
    if (choice->viewport > viewport_side)
        errx(NOT_SUPPORTED, "the driver's viewport is at most %d pixels large", viewport_side);
    if (choice->viewport)
        viewport_side = choice->viewport;
    glGetIntegerv(GL_SUBPIXEL_BITS, &bits);
    glGetIntegerv(GL_MAX_FRAMEBUFFER_WIDTH, &sides[0]);
    glGetIntegerv(GL_MAX_RENDERBUFFER_SIZE, &sides[1]);
    glGetIntegerv(GL_MAX_SHADER_STORAGE_BLOCK_SIZE, &bytes);
    snprintf(driver.interface, sizeof driver.interface, "OpenGL 4.5");
    snprintf(driver.name, sizeof driver.name, "%s", (const char *)glGetString(GL_VENDOR));
    snprintf(driver.version, sizeof driver.version, "%s", (const char *)glGetString(GL_VERSION));
    snprintf(driver.device, sizeof driver.device, "%s", (const char *)glGetString(GL_RENDERER));
    driver.subpixel_bits = bits;
    driver.viewport = viewport_side;
    driver.most_side = sides[0] < sides[1] ? sides[0] : sides[1];
    driver.most_bytes = bytes;
    for (int n = 0; n < ATTACHMENTS; n++)
        for (int samples = 1; samples <= MOST_SAMPLES; samples *= 2)
            if (make_framebuffer(n, 16, 16, samples))
                driver.counts[n] |= 1u << samples;
    return driver;
}

Order image_order(void)
{
    return (Order){0};
}

/* ---- samples */

/* Where the samples of the framebuffer that is bound lie. */
static void bound_offsets(int samples, Offset *offsets)
{
    for (int k = 0; k < samples; k++) {
        float at[2] = {0.5f, 0.5f};
        if (samples > 1)
            glGetMultisamplefv(GL_SAMPLE_POSITION, k, at);
        offsets[k] = (Offset){16 * at[0] - 8, 16 * at[1] - 8};
    }
}

bool tell_offsets(int samples, Offset *offsets)
{
    if (!make_framebuffer(attachment, 16, 16, samples))
        return false;
    bound_offsets(samples, offsets);
    return true;
}

/* Of each of the driver's samples, the one of abuf's pattern that lies there. */
static void match_samples(int samples, int *numbers)
{
    Place places[MOST_SAMPLES];
    Offset offsets[MOST_SAMPLES];
    sample_places(samples, places);
    bound_offsets(samples, offsets);
    for (int k = 0; k < samples; k++) {
        numbers[k] = -1;
        for (int n = 0; n < samples; n++)
            if (places[n].x == 16 * offsets[k].x + 128 && places[n].y == 16 * offsets[k].y + 128)
                numbers[k] = n;
        if (numbers[k] < 0)
            errx(NOT_SUPPORTED, "the driver's pattern of %d samples isn't abuf's", samples);
    }
}

/* ---- drawing */

static void add_shader(GLuint program, GLenum kind, const char *text)
{
    GLint is_compiled;
    char log[1024] = "";
    GLuint shader = glCreateShader(kind);
    glShaderSource(shader, 1, &text, NULL);
    glCompileShader(shader);
    glGetShaderiv(shader, GL_COMPILE_STATUS, &is_compiled);
    glGetShaderInfoLog(shader, sizeof log, NULL, log);
    if (!is_compiled)
        errx(2, "a shader doesn't compile: %.*s", (int)strcspn(log, "\n"), log);
    glAttachShader(program, shader);
}

static void use_program(int width)
{
    static GLuint program;
    if (!program) {
        program = glCreateProgram();
        add_shader(program, GL_VERTEX_SHADER, VERTEX_SHADER);
        add_shader(program, GL_FRAGMENT_SHADER, FRAGMENT_SHADER);
        glLinkProgram(program);
    }
    glUseProgram(program);
    glUniform1f(0, 1.0f / 128 / viewport_side);
    glUniform1ui(1, width);
}

static void load_corners(const Scene *scene)
{
    GLuint array, buffer;
    size_t bytes = scene->count * 6 * sizeof(float);
    float *places = allocate(scene->count, 6 * sizeof *places), *end = places;
    for (uint32_t n = 0; n < scene->count; n++)
        for (int k = 0; k < 3; k++) {
            *end++ = scene->triangles[n].corners[k].x;
            *end++ = scene->triangles[n].corners[k].y;
        }
    glGenVertexArrays(1, &array);
    glBindVertexArray(array);
    glGenBuffers(1, &buffer);
    glBindBuffer(GL_ARRAY_BUFFER, buffer);
    glBufferData(GL_ARRAY_BUFFER, bytes, places, GL_STATIC_DRAW);
    glVertexAttribPointer(0, 2, GL_FLOAT, GL_FALSE, 0, NULL);
    glEnableVertexAttribArray(0);
    free(places);
}

/* A buffer of zeros for the shader. */
static GLuint make_buffer(GLuint binding, size_t size)
{
    GLuint buffer;
    glCreateBuffers(1, &buffer);
    glNamedBufferData(buffer, size, NULL, GL_DYNAMIC_READ);
    glClearNamedBufferData(buffer, GL_R32UI, GL_RED_INTEGER, GL_UNSIGNED_INT, NULL);
    glBindBufferBase(GL_SHADER_STORAGE_BUFFER, binding, buffer);
    return buffer;
}

/* Draws all triangles into lists of at most so many fragments. The count goes on beyond that. */
static Lists draw_into(const Scene *scene, uint32_t room)
{
    size_t pixels = (size_t)scene->width * scene->height;
    Lists lists = make_lists(scene->width, scene->height, room);
    GLuint buffers[] = {make_buffer(0, sizeof lists.count), make_buffer(1, pixels * sizeof *lists.heads),
                        make_buffer(2, room * sizeof *lists.nodes)};
    glViewport(-viewport_side / 2, -viewport_side / 2, viewport_side, viewport_side);
    glDrawArrays(GL_TRIANGLES, 0, 3 * scene->count);
    glMemoryBarrier(GL_BUFFER_UPDATE_BARRIER_BIT);
    glGetNamedBufferSubData(buffers[0], 0, sizeof lists.count, &lists.count);
    glGetNamedBufferSubData(buffers[1], 0, pixels * sizeof *lists.heads, lists.heads);
    glGetNamedBufferSubData(buffers[2], 0, room * sizeof *lists.nodes, lists.nodes);
    glDeleteBuffers(3, buffers);
    if (glGetError() != GL_NO_ERROR)
        errx(2, "the driver refused a call");
    return lists;
}

/* Changes the masks from the driver's numbers of samples to abuf's. */
static void renumber_samples(Lists *lists, int samples, const int *numbers)
{
    for (uint32_t n = 0; n < lists->count; n++) {
        uint32_t mask = 0;
        for (int k = 0; k < samples; k++)
            mask |= (lists->nodes[n].mask >> k & 1) << numbers[k];
        lists->nodes[n].mask = mask;
    }
}

Lists draw_lists(const Scene *scene)
{
    int numbers[MOST_SAMPLES];
    if (!make_framebuffer(attachment, scene->width, scene->height, scene->samples))
        errx(NOT_SUPPORTED, "the driver has no pattern of %d samples", scene->samples);
    match_samples(scene->samples, numbers);
    use_program(scene->width);
    load_corners(scene);
    Lists lists = draw_into(scene, FIRST_ROOM);
    if (lists.count > FIRST_ROOM) {
        uint32_t count = lists.count;
        free_lists(&lists);
        lists = draw_into(scene, count);
    }
    renumber_samples(&lists, scene->samples, numbers);
    return lists;
}
