/* What is drawn, and the drawing: a triangle with a checkerboard on it. */
#ifndef TRIANGLE_H
#define TRIANGLE_H

#include "device.h"

#ifdef __cplusplus
extern "C" {
#endif

enum {
    TARGET_SIDE = 256, /* pixels */
    TEXTURE_SIDE = 64, /* texels */
    FIELD_SIDE = 8,    /* of the checkerboard, texels */
    TEXEL = 4,         /* bytes: red, green, blue, alpha */
    TARGET_BYTES = TEXEL * TARGET_SIDE * TARGET_SIDE,
    TEXTURE_BYTES = TEXEL * TEXTURE_SIDE * TEXTURE_SIDE,
    STAGED_VERTICES = TEXTURE_BYTES /* the vertices lie behind the texture in the staging buffer */
};

typedef struct vertex {
    float position[2], uv[2];
} vertex;

extern const vertex VERTICES[3];

void fill_checkerboard(unsigned char texels[TEXTURE_BYTES]);

VkBufferCreateInfo buffer_info(VkDeviceSize size, VkBufferUsageFlags usage);
VkImageCreateInfo image_info(uint32_t side, VkImageUsageFlags usage); /* 2D, R8G8B8A8_UNORM, optimal tiling */

typedef struct resources {
    VkBuffer vertices;
    VkImage texture, target;
    VkBuffer staging;   /* the texture, then the vertices */
    VkBuffer read_back; /* the target's pixels, row by row */
} resources;

/* Copies what is staged, draws it into the target, copies that to read_back, and waits for the device. */
void draw(device *d, const resources *r);

/* Writes the target's pixels as a PNG file. */
void write_png(const char *file, const unsigned char pixels[TARGET_BYTES]);

#ifdef __cplusplus
}
#endif
#endif
