/* What a driver gives. Each interface has a file: exact.c (no driver), opengl.c and vulkan.c. */

#ifndef DRIVER_H
#define DRIVER_H

#include "lists.h"

enum { NOT_SUPPORTED = 3 }; /* the status where the driver lacks what a scene or an option needs */

/* What is drawn into. Drivers have different paths for these. */
typedef enum { NO_ATTACHMENT, RGBA8, BGRA8, ATTACHMENTS } Attachment;

typedef struct {
    Attachment attachment;
    int device;        /* its number, from 0 */
    int viewport;      /* the side of the viewport in pixels, or 0 for the greatest power of two that the driver has */
    const char *fault; /* a fault to plant, or NULL */
} Choice;

typedef struct {
    char interface[64], name[256], version[320], device[256];
    int subpixel_bits;
    int viewport;                 /* the side in pixels; the image's top left is its centre */
    int most_side;                /* of what is drawn into, in pixels */
    size_t most_bytes;            /* of a buffer that a shader writes */
    uint32_t counts[ATTACHMENTS]; /* bit S is set if S samples can be drawn into that attachment */
} Driver;

/* A place in a pixel, in 1/16 pixel from its centre. */
typedef struct { float x, y; } Offset;

/* Opens the driver that is chosen. The program ends with one line where it can't. */
Driver open_driver(const Choice *choice);

/* Where the driver says that the samples of a pattern lie. False if it doesn't say. */
bool tell_offsets(int samples, Offset *offsets);

/* The fragments of a scene whose number of samples the driver has, with the samples in abuf's order. */
Lists draw_lists(const Scene *scene);

/* The rules of depth and order for the image; those of abuf if no fault is planted. */
Order image_order(void);

#endif
