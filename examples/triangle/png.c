#include "triangle.h"

#include <stdio.h>
#include <stdlib.h>

static void must_write(bool holds, const char *file, const char *why)
{
    if (!holds) {
        fprintf(stderr, "triangle: %s: %s\n", file, why);
        exit(1);
    }
}

#ifdef _WIN32
#include <windows.h>

#include <gdiplus.h>

/* Windows has the three colours in the other order. */
static void exchange_red_and_blue(unsigned char to[TARGET_BYTES], const unsigned char pixels[TARGET_BYTES])
{
    static const int places[] = {2, 1, 0, 3};
    for (size_t i = 0; i < TARGET_BYTES; i++)
        to[i] = pixels[i - i % 4 + (size_t)places[i % 4]];
}

void write_png(const char *file, const unsigned char pixels[TARGET_BYTES])
{
    static const CLSID png = {0x557cf406, 0x1a04, 0x11d3, {0x9a, 0x73, 0x00, 0x00, 0xf8, 0x1e, 0xf3, 0x2e}};
    static unsigned char exchanged[TARGET_BYTES];
    const GdiplusStartupInput input = {.GdiplusVersion = 1};
    WCHAR name[MAX_PATH];
    ULONG_PTR token;
    GpBitmap *bitmap;
    exchange_red_and_blue(exchanged, pixels);
    must_write(MultiByteToWideChar(CP_UTF8, 0, file, -1, name, MAX_PATH) > 0, file, "a name that is too long");
    must_write(GdiplusStartup(&token, &input, NULL) == Ok, file, "GDI+ does not start");
    must_write(GdipCreateBitmapFromScan0(TARGET_SIDE, TARGET_SIDE, 4 * TARGET_SIDE, PixelFormat32bppARGB, exchanged,
                                         &bitmap) == Ok, file, "GDI+ makes no bitmap");
    must_write(GdipSaveImageToFile((GpImage *)bitmap, name, &png, NULL) == Ok, file, "it cannot be written");
    GdipDisposeImage((GpImage *)bitmap);
    GdiplusShutdown(token);
}
#else
#include <png.h>

void write_png(const char *file, const unsigned char pixels[TARGET_BYTES])
{
    png_image image = {
        .version = PNG_IMAGE_VERSION,
        .width = TARGET_SIDE,
        .height = TARGET_SIDE,
        .format = PNG_FORMAT_RGBA,
    };
    must_write(png_image_write_to_file(&image, file, 0, pixels, 0, NULL) != 0, file, image.message);
}
#endif
