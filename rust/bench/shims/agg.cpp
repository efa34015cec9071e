// AGG's anti-aliasing rasteriser, for the benchmark. Nothing is kept between calls but what the caller holds: the
// rasteriser, whose memory AGG means to be used again, and a scanline.
#include <cstdint>
#include <cstring>

#include <agg_pixfmt_gray.h>
#include <agg_rasterizer_scanline_aa.h>
#include <agg_renderer_base.h>
#include <agg_renderer_scanline.h>
#include <agg_scanline_u.h>

namespace {

struct Agg {
    agg::rasterizer_scanline_aa<> rasterizer; // its gamma is linear unless another is set
    agg::scanline_u8 scanline;
};

// To the nearest, halves up. AGG's units are 1/256 pixel, as ours are.
int scaled(int64_t coordinate, uint32_t halvings) {
    return static_cast<int>((coordinate + ((1 << halvings) >> 1)) >> halvings);
}

} // namespace

extern "C" void *bench_agg_open() {
    try {
        return new Agg;
    } catch (...) {
        return nullptr;
    }
}

extern "C" void bench_agg_close(void *handle) {
    delete static_cast<Agg *>(handle);
}

// Draws the outline of a tile of `side` pixels, halved so many times. 0, or 1 where memory ran out.
extern "C" int bench_agg_draw(void *handle, const int64_t *points, const uint32_t *counts, uint32_t contours,
                              uint32_t side, uint32_t halvings, uint8_t *picture) {
    try {
        Agg &agg = *static_cast<Agg *>(handle);
        uint32_t size = side >> halvings;
        agg::rendering_buffer buffer(picture, size, size, static_cast<int>(size));
        agg::pixfmt_gray8 pixels(buffer);
        agg::renderer_base<agg::pixfmt_gray8> base(pixels);
        agg.rasterizer.reset();
        agg.rasterizer.filling_rule(agg::fill_non_zero);
        for (uint32_t i = 0; i < contours; i++) {
            agg.rasterizer.move_to(scaled(points[0], halvings), scaled(points[1], halvings));
            for (uint32_t k = 1; k < counts[i]; k++) {
                agg.rasterizer.line_to(scaled(points[2 * k], halvings), scaled(points[2 * k + 1], halvings));
            }
            points += 2 * counts[i];
        }
        std::memset(picture, 0, static_cast<size_t>(size) * size);
        agg::render_scanlines_aa_solid(agg.rasterizer, agg.scanline, base, agg::gray8(255));
        return 0;
    } catch (...) {
        return 1;
    }
}
