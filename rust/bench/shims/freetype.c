/* FreeType's smooth rasteriser, for the benchmark. Nothing is kept between calls but the library's handle, which the
   caller holds. */
#include <stdint.h>
#include <string.h>

#include <ft2build.h>
#include FT_FREETYPE_H
#include FT_OUTLINE_H

enum {
    MOST_POINTS = 1024, /* the most that `build` accepts; the caller has checked it */
    UNITS_BITS = 2      /* from 1/256 pixel to FreeType's 1/64 */
};

void *bench_freetype_open(void) {
    FT_Library library;
    return FT_Init_FreeType(&library) == 0 ? library : NULL;
}

void bench_freetype_close(void *library) {
    FT_Done_FreeType(library);
}

/* The version of the library that was linked, as 10,000 × major + 100 × minor + patch. */
uint32_t bench_freetype_version(void *library) {
    FT_Int major, minor, patch;
    FT_Library_Version(library, &major, &minor, &patch);
    return 10000 * major + 100 * minor + patch;
}

/* To the nearest, halves up. */
static FT_Pos scaled(int64_t coordinate, uint32_t bits) {
    return (coordinate + ((1 << bits) >> 1)) >> bits;
}

/* Draws the outline of a tile of `side` pixels, halved so many times. 0, or FreeType's error. */
int bench_freetype_draw(void *library, const int64_t *points, const uint32_t *counts, uint32_t contours, uint32_t side,
                        uint32_t halvings, uint8_t *picture) {
    FT_Vector places[MOST_POINTS];
    char tags[MOST_POINTS];
    short ends[MOST_POINTS];
    uint32_t size = side >> halvings, total = 0;
    for (uint32_t i = 0; i < contours; i++) {
        total += counts[i];
        ends[i] = (short)(total - 1);
    }
    for (uint32_t i = 0; i < total; i++) {
        places[i].x = scaled(points[2 * i], UNITS_BITS + halvings);
        places[i].y = scaled(points[2 * i + 1], UNITS_BITS + halvings);
    }
    memset(tags, FT_CURVE_TAG_ON, total);
    FT_Outline outline = {
        .n_contours = (short)contours,
        .n_points = (short)total,
        .points = places,
        .tags = tags,
        .contours = ends,
        .flags = FT_OUTLINE_NONE /* filled where the winding is not 0 */
    };
    FT_Bitmap bitmap = {
        .rows = size,
        .width = size,
        .pitch = -(int)size, /* y grows downwards here: the row of y = 0 comes first in memory */
        .buffer = picture,
        .num_grays = 256,
        .pixel_mode = FT_PIXEL_MODE_GRAY
    };
    memset(picture, 0, (size_t)size * size);
    return FT_Outline_Get_Bitmap(library, &outline, &bitmap);
}
