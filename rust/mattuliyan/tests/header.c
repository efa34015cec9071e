/* 01's letter F through the C header, its letter G by a shift, G put in and taken out, both on a sheet, a letter with a curve, and refusals of each
 * call: prints what is answered and left, one line a call. */
#include "mattuliyan.h"

#include <inttypes.h>
#include <stdio.h>

/* What a correction answers, and the record and the table that it leaves. */
static void print_tile(uint32_t number, uint32_t edges, const int64_t *table) {
    printf("%" PRIu32 " %" PRIu32, number, edges);
    for (int i = 0; i < 4; i++) printf(" %" PRId64, table[i]);
    printf("\n");
}

/* Puts letters into a tile that holds F and takes them out. */
static void correct(void) {
    const int64_t most = INT64_C(1) << 40; /* that question 9 lets pass */
    const int64_t f[] = {0, 0, 384, 1, 0, 1}, g[] = {255, 0, 259, 1, 255, 1};
    const int64_t g_off_by_halves[] = {0, 7, 4, 8, 0, 8};
    const double shift[] = {254.5, -7.5, 0};
    int64_t table[] = {384, 299, 384, 299};
    uint32_t edges = 3, number;

    /* putting in: refused for its placement and its edges, done, and refused for entry 0, before the call and after it */
    number = mattuliyan_put(2, g_off_by_halves, 6, 3, shift, 3, &edges, table, 4);
    print_tile(number, edges, table);
    edges = 1022;
    number = mattuliyan_put(2, g_off_by_halves, 6, 3, shift, 2, &edges, table, 4);
    print_tile(number, edges, table);
    edges = 3;
    number = mattuliyan_put(2, g_off_by_halves, 6, 3, shift, 2, &edges, table, 4);
    print_tile(number, edges, table);
    table[0] = most + 1;
    number = mattuliyan_put(2, g, 6, 3, shift, 0, &edges, table, 4);
    print_tile(number, edges, table);
    table[0] = most - 3; /* G has 4 there */
    number = mattuliyan_put(2, g, 6, 3, shift, 0, &edges, table, 4);
    print_tile(number, edges, table);
    table[0] = 388;

    /* taking out: refused for its points, done under another placement, and refused for entry 2, before the call and after it */
    number = mattuliyan_take(2, g, 5, 3, shift, 0, &edges, table, 4);
    print_tile(number, edges, table);
    number = mattuliyan_take(2, g, 6, 3, shift, 0, &edges, table, 4);
    print_tile(number, edges, table);
    table[2] = -most - 1;
    number = mattuliyan_take(2, f, 6, 3, shift, 0, &edges, table, 4);
    print_tile(number, edges, table);
    table[2] = 383 - most; /* F has 384 there */
    number = mattuliyan_take(2, f, 6, 3, shift, 0, &edges, table, 4);
    print_tile(number, edges, table);
    table[2] = 384;

    /* the last contour is taken out, and then there is none left */
    number = mattuliyan_take(2, f, 6, 3, shift, 0, &edges, table, 4);
    print_tile(number, edges, table);
    number = mattuliyan_take(2, f, 6, 3, shift, 0, &edges, table, 4);
    print_tile(number, edges, table);
}

/* On a sheet of 4, builds F and G in tiles of 2, and puts them in and takes them out. */
static void on_sheet(void) {
    const int64_t f[] = {512, 0, 896, 1, 512, 1}; /* in the second tile */
    const int64_t across[] = {0, 0, 768, 1, 0, 1}; /* like F, twice as wide */
    const int64_t g_off_by_halves[] = {512, 7, 516, 8, 512, 8};
    const double shift[] = {254.5, -7.5};
    const uint32_t counts[] = {3};
    int64_t table[] = {7, 7, 7, 7};
    uint32_t edges = 7, number;

    /* building: refused for its sides and its place, in a tile where F is not and in its own, and over two tiles */
    number = mattuliyan_build_on_sheet(4, 3, 1, 0, f, 6, counts, 1, shift, 0, table, 4, &edges);
    print_tile(number, edges, table);
    number = mattuliyan_build_on_sheet(4, 2, 1, 2, f, 6, counts, 1, shift, 0, table, 4, &edges);
    print_tile(number, edges, table);
    number = mattuliyan_build_on_sheet(4, 2, 0, 1, f, 6, counts, 1, shift, 0, table, 4, &edges);
    print_tile(number, edges, table);
    number = mattuliyan_build_on_sheet(4, 2, 0, 0, across, 6, counts, 1, shift, 0, table, 4, &edges);
    print_tile(number, edges, table);
    number = mattuliyan_build_on_sheet(4, 2, 1, 0, f, 6, counts, 1, shift, 0, table, 4, &edges);
    print_tile(number, edges, table);

    /* putting in: refused for its place, done by a shift */
    number = mattuliyan_put_on_sheet(4, 2, 2, 0, g_off_by_halves, 6, 3, shift, 2, &edges, table, 4);
    print_tile(number, edges, table);
    number = mattuliyan_put_on_sheet(4, 2, 1, 0, g_off_by_halves, 6, 3, shift, 2, &edges, table, 4);
    print_tile(number, edges, table);

    /* taking out: refused for its sides, done, and refused for its edges */
    number = mattuliyan_take_on_sheet(128, 64, 1, 0, f, 6, 3, shift, 0, &edges, table, 4);
    print_tile(number, edges, table);
    number = mattuliyan_take_on_sheet(4, 2, 1, 0, f, 6, 3, shift, 0, &edges, table, 4);
    print_tile(number, edges, table);
    edges = 2;
    number = mattuliyan_take_on_sheet(4, 2, 1, 0, g_off_by_halves, 6, 3, shift, 2, &edges, table, 4);
    print_tile(number, edges, table);
}

/* A curve from corner to corner of a pixel, of 8 chords, and two straight edges: builds it, puts it in and takes it out, alone and on a sheet. */
static void with_curves(void) {
    const int64_t letter[] = {0, 0, 256, 0, 256, 256, 0, 256};
    const int64_t closing[] = {256, 256, 0, 256, 0, 0, 256, 0}; /* the same, its curve last */
    const int64_t twice[] = {0, 0, 512, 0, 512, 512, 0, 512};
    const int64_t farther[] = {512, 0, 768, 0, 768, 256, 512, 256}; /* the same, a tile of 2 to the right */
    const uint8_t marks[] = {1, 0, 0, 1, 2};
    const double half[] = {0.5};
    const uint32_t counts[] = {3};
    int64_t table[] = {7, 7, 7, 7};
    uint32_t edges = 7, number;

    /* building: refused for its marks and their number, for its points, and done, also by a scale and with the curve last */
    number = mattuliyan_build_curves(2, letter, 8, counts, 1, marks + 2, 3, half, 0, table, 4, &edges);
    print_tile(number, edges, table);
    number = mattuliyan_build_curves(2, letter, 8, counts, 1, marks, 4, half, 0, table, 4, &edges);
    print_tile(number, edges, table);
    number = mattuliyan_build_curves(2, letter, 6, counts, 1, marks, 3, half, 0, table, 4, &edges);
    print_tile(number, edges, table);
    number = mattuliyan_build_curves(2, letter, 8, counts, 1, marks, 3, half, 0, table, 4, &edges);
    print_tile(number, edges, table);
    number = mattuliyan_build_curves(2, twice, 8, counts, 1, marks, 3, half, 1, table, 4, &edges);
    print_tile(number, edges, table);
    number = mattuliyan_build_curves(2, closing, 8, counts, 1, marks + 1, 3, half, 0, table, 4, &edges);
    print_tile(number, edges, table);

    /* putting in: refused for its chords with those of the record, and done; taking out: done twice, and refused for its chords */
    edges = 1015;
    number = mattuliyan_put_curves(2, letter, 8, 3, marks, 3, half, 0, &edges, table, 4);
    print_tile(number, edges, table);
    edges = 10;
    number = mattuliyan_put_curves(2, twice, 8, 3, marks, 3, half, 1, &edges, table, 4);
    print_tile(number, edges, table);
    number = mattuliyan_take_curves(2, closing, 8, 3, marks + 1, 3, half, 0, &edges, table, 4);
    print_tile(number, edges, table);
    number = mattuliyan_take_curves(2, letter, 8, 3, marks, 3, half, 0, &edges, table, 4);
    print_tile(number, edges, table);
    edges = 9;
    number = mattuliyan_take_curves(2, letter, 8, 3, marks, 3, half, 0, &edges, table, 4);
    print_tile(number, edges, table);

    /* on a sheet of 4: refused for its place, built in a tile where it is not and in its own, put in once more, taken out, and refused */
    number = mattuliyan_build_curves_on_sheet(4, 2, 2, 0, farther, 8, counts, 1, marks, 3, half, 0, table, 4, &edges);
    print_tile(number, edges, table);
    number = mattuliyan_build_curves_on_sheet(4, 2, 0, 1, farther, 8, counts, 1, marks, 3, half, 0, table, 4, &edges);
    print_tile(number, edges, table);
    number = mattuliyan_build_curves_on_sheet(4, 2, 1, 0, farther, 8, counts, 1, marks, 3, half, 0, table, 4, &edges);
    print_tile(number, edges, table);
    number = mattuliyan_put_curves_on_sheet(4, 2, 1, 0, farther, 8, 3, marks, 3, half, 0, &edges, table, 4);
    print_tile(number, edges, table);
    number = mattuliyan_take_curves_on_sheet(4, 2, 1, 0, farther, 8, 3, marks, 3, half, 0, &edges, table, 4);
    print_tile(number, edges, table);
    number = mattuliyan_put_curves_on_sheet(4, 2, 1, 0, farther, 8, 3, marks + 2, 3, half, 0, &edges, table, 4);
    print_tile(number, edges, table);
    number = mattuliyan_take_curves_on_sheet(4, 3, 1, 0, farther, 8, 3, marks, 3, half, 0, &edges, table, 4);
    print_tile(number, edges, table);
}

int main(void) {
    const int64_t points[] = {0, 0, 384, 1, 0, 1};
    const int64_t off_by_halves[] = {0, 7, 4, 8, 0, 8}; /* as shifted, (255,0) (259,1) (255,1) */
    const uint32_t counts[] = {3};
    const double placement[] = {254.5, -7.5, 0};
    int64_t table[] = {7, 7, 7, 7}, figures[] = {7, 7, 7, 7}, figure = 7;
    uint8_t greys[] = {7, 7, 7, 7}, pyramid[] = {7, 7, 7, 7, 7};
    uint32_t edges = 7, number;

    number = mattuliyan_build(2, points, 5, counts, 1, table, 4, &edges);
    printf("%" PRIu32 " %" PRIu32 " %" PRId64 "\n", number, edges, table[0]);
    number = mattuliyan_build_placed(2, off_by_halves, 6, counts, 1, placement, 3, table, 4, &edges);
    printf("%" PRIu32 " %" PRIu32 " %" PRId64 "\n", number, edges, table[0]);
    number = mattuliyan_build_placed(2, off_by_halves, 6, counts, 1, placement, 2, table, 4, &edges);
    printf("%" PRIu32 " %" PRIu32, number, edges);
    for (int i = 0; i < 4; i++) printf(" %" PRId64, table[i]);
    number = mattuliyan_build(2, points, 6, counts, 1, table, 4, &edges);
    printf("\n%" PRIu32 " %" PRIu32, number, edges);
    for (int i = 0; i < 4; i++) printf(" %" PRId64, table[i]);
    number = mattuliyan_figures(2, 1, table, 4, figures, 3);
    printf("\n%" PRIu32 " %" PRId64 "\n", number, figures[0]);
    number = mattuliyan_figures(2, 1, table, 4, figures, 4);
    printf("%" PRIu32, number);
    for (int i = 0; i < 4; i++) printf(" %" PRId64, figures[i]);
    number = mattuliyan_greys(2, 2, table, 4, greys, 4);
    printf("\n%" PRIu32 " %d\n", number, greys[0]);
    number = mattuliyan_greys(2, 1, table, 4, greys, 4);
    printf("%" PRIu32 " %d %d %d %d\n", number, greys[0], greys[1], greys[2], greys[3]);
    number = mattuliyan_pyramid(2, table, 4, pyramid, 4);
    printf("%" PRIu32 " %d\n", number, pyramid[0]);
    number = mattuliyan_pyramid(2, table, 4, pyramid, 5);
    printf("%" PRIu32, number);
    for (int i = 0; i < 5; i++) printf(" %d", pyramid[i]);
    printf("\n");
    number = mattuliyan_cell(2, 1, 1, 2, table, 4, &figure);
    printf("%" PRIu32 " %" PRId64 "\n", number, figure);
    number = mattuliyan_cell(2, 1, 1, 0, table, 4, &figure);
    printf("%" PRIu32 " %" PRId64 "\n", number, figure);
    correct();
    on_sheet();
    with_curves();
    return 0;
}
