/* Compares a PNG file with the picture that the triangle's geometry gives, pixel by pixel.

       check FILE.png

   The triangle's corners are a tenth of the picture off its edges: apex in the middle of the top, the others at the
   bottom. Eight by eight fields lie over the square around it, so u and v here count fields from its upper left corner.
   Drivers may differ on pixels that lie on an edge, and by a level or two elsewhere. Statuses: 0 alike, 1 not alike or
   no such picture, 2 for other arguments. */
#include "triangle.h"

#include <math.h>
#include <png.h>
#include <stdio.h>
#include <stdlib.h>

enum { TOLERANCE = 2, FIELDS = 8, SHOWN = 10 };
static const double NEAR = 0.01; /* fields: a quarter of a pixel */

static bool is_near_border(double place)
{
    return fabs(place - floor(place + 0.5)) < NEAR;
}

/* The colour of a pixel, or null where it is too near an edge to say. */
static const unsigned char *colour_of(int x, int y)
{
    static const unsigned char clear[TEXEL] = {13, 13, 26, 255};
    static const unsigned char fields[2][TEXEL] = {{235, 160, 60, 255}, {40, 90, 160, 255}};
    const double u = (x + 0.5 - 0.1 * TARGET_SIDE) / (0.1 * TARGET_SIDE);
    const double v = (y + 0.5 - 0.1 * TARGET_SIDE) / (0.1 * TARGET_SIDE);
    const double from_side = v / 2 - fabs(u - FIELDS / 2); /* positive within, as the next one */
    const double from_bottom = FIELDS - v;
    const double within = fmin(from_side, from_bottom);
    if (fabs(within) < NEAR)
        return NULL;
    if (within < 0)
        return clear;
    if (is_near_border(u) || is_near_border(v))
        return NULL;
    return fields[((int)u + (int)v) % 2];
}

static bool is_alike(const unsigned char *pixel, const unsigned char *colour)
{
    for (int i = 0; i < TEXEL; i++)
        if (abs(pixel[i] - colour[i]) > TOLERANCE)
            return false;
    return true;
}

static bool read_png(const char *file, unsigned char pixels[TARGET_BYTES])
{
    png_image image = {.version = PNG_IMAGE_VERSION};
    if (!png_image_begin_read_from_file(&image, file)) {
        fprintf(stderr, "check: %s: %s\n", file, image.message);
        return false;
    }
    if (image.width != TARGET_SIDE || image.height != TARGET_SIDE) {
        fprintf(stderr, "check: %s has other sides than %d pixels\n", file, TARGET_SIDE);
        png_image_free(&image);
        return false;
    }
    image.format = PNG_FORMAT_RGBA;
    return png_image_finish_read(&image, NULL, pixels, 0, NULL) != 0;
}

static void show(int x, int y, const unsigned char *pixel, const unsigned char *colour)
{
    fprintf(stderr, "check: pixel (%d, %d) is (%d, %d, %d, %d), and not (%d, %d, %d, %d)\n", x, y, pixel[0], pixel[1],
            pixel[2], pixel[3], colour[0], colour[1], colour[2], colour[3]);
}

int main(int count, char **texts)
{
    static unsigned char pixels[TARGET_BYTES];
    int compared = 0, wrong = 0;
    if (count != 2) {
        fprintf(stderr, "usage: check FILE.png\n");
        return 2;
    }
    if (!read_png(texts[1], pixels))
        return 1;
    for (int y = 0; y < TARGET_SIDE; y++)
        for (int x = 0; x < TARGET_SIDE; x++) {
            const unsigned char *pixel = &pixels[TEXEL * (y * TARGET_SIDE + x)], *colour = colour_of(x, y);
            if (colour == NULL)
                continue;
            compared++;
            if (!is_alike(pixel, colour) && ++wrong <= SHOWN)
                show(x, y, pixel, colour);
        }
    printf("check: %s: %d pixels compared, %d near an edge left out, %d wrong\n", texts[1], compared,
           TARGET_SIDE * TARGET_SIDE - compared, wrong);
    return wrong == 0 ? 0 : 1;
}
