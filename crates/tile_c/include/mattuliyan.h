/* Grey tiles from traced outlines: the seventeen calls of the proved library libtile_c.a, which `rt lib` makes.
 *
 * A tile is a square of 1, 2, 4, 8, 16, 32 or 64 pixels a side; a step is 1/256 pixel; x grows to the right, y downwards. An outline is
 * closed contours of whole points, letters clockwise as seen on the page, the holes in them anticlockwise, or all of it the other way round:
 * every figure then has the opposite sign, and every grey is the same. Building turns it into a table of Haar coefficients, from
 * which pictures are drawn at full size (the deepest level, 6 for side 64) and at every halving, down to level 0.
 *
 * A table with a record of its edge count is a tile, into which single contours are put and out of which they are taken again. As long as each
 * contour taken out was in, table and record are those of building the contours that remain.
 *
 * A letter that is wider than a tile lies on a sheet, a square of 1, 2, 4, 8, 16, 32, 64 or 128 pixels a side, and is drawn tile by tile, in
 * tiles of 1, 2, 4, 8, 16 or 32 pixels, each at its place on the sheet.
 *
 * An outline may have curved edges, quadratic Bezier curves of two ends and a control point. The calls for those take a mark for each edge, 0
 * straight or 1 curved, and draw 2^k chords in place of a curve. Counts and marks are of the edges as marked; what is drawn, and how near it is,
 * goes by the chords.
 *
 * Each call answers 0 where the work is done, or the number of the first question that is answered no. Then no table, no picture and no
 * record has changed; but the calls whose names begin with mattuliyan_build then write 0 to *edges, and mattuliyan_cell to *figure. (So the
 * record of a tile in use is not to be handed to building: where that is refused the table stays, and the record would be gone.) The
 * questions, in each call's order:
 *
 *   building: 1, 2, 4, 5, 3, 6      building with a placement: 1, 2, 4, 5, 3, 12, 6
 *   putting in: 1, 2, 4, 5, 3, 12, 6, 9      taking out: 1, 2, 4, 5, 3, 12, 6, 13, 9
 *   on a sheet, building: 14, 15, 2, 4, 5, 3, 12, 6
 *   on a sheet, putting in: 14, 15, 2, 4, 5, 3, 12, 6, 9      taking out: 14, 15, 2, 4, 5, 3, 12, 6, 13, 9
 *   of curves, building: 1, 2, 4, 16, 3, 12, 6, 5
 *   of curves, putting in: 1, 2, 4, 16, 3, 12, 6, 5, 9      taking out: 1, 2, 4, 16, 3, 12, 6, 5, 13, 9
 *   of curves on a sheet: the same, with 14, 15 in the place of 1
 *   pictures and greys: 1, 2, 7, 8, 9      one cell: 1, 2, 7, 10, 9      the greys of all levels: 1, 2, 8, 9
 *
 *    1  Is the side 1, 2, 4, 8, 16, 32 or 64?
 *    2  Has the table exactly side x side entries? (On a sheet, the side is the tile's.)
 *    3  Are the points exactly twice as many numbers as the counts' sum? (Putting in and taking out have one count.) Of curves: are they exactly
 *       two for each straight edge and four for each curved one?
 *    4  Is every count from 3 to 1,024? Of curves: a count is how many edges, as marked, a contour has.
 *    5  Is the counts' sum at most 1,024? For putting in: the record's count and the contour's together. (Taking out is never answered 5.) Of
 *       curves: is the number of chords, a straight edge being one, at most 1,024, for putting in with the record's count? (There taking out is
 *       answered 5 where the contour has more.)
 *    6  Is every coordinate, as placed, from 0 to 256 x side? On a sheet: to 256 x sheet, the sheet's side. Of curves: control points' too.
 *    7  Is the level at most the depth, the number of halvings from the side to 1?
 *    8  Has the picture exactly 4^level places? Of all levels: are there exactly 1 + 4 + .. + 4^depth?
 *    9  Is every entry of the table from -2^40 to 2^40? For putting in and taking out: of the table as it is, and of the one that the call
 *       would leave.
 *   10  Are both cell numbers below 2^level?
 *   12  Is every number of the placement a multiple of 1/65,536 in its range (factors from -2 to 2, offsets from -16,384 to 16,384), and
 *       every coordinate that is moved from -32,768 to 32,767?
 *   13  Does the record count at least as many edges as are taken out? Of curves: as chords.
 *   14  Is the sheet's side 1, 2, 4, 8, 16, 32, 64 or 128, and the tile's 1, 2, 4, 8, 16 or 32 and not larger than the sheet's?
 *   15  Is the tile's place on the sheet: are column and row both below the sheet's side / the tile's?
 *   16  Is every mark 0 or 1, and are there exactly as many marks as the counts' sum?
 *
 * Numbers may be any. What the caller owes, since no function can ask it: a pointer is not NULL, even where its length is 0, is aligned for
 * what it points to, and as many elements as its length says are there; what is written overlaps nothing else that is passed; meanwhile
 * nobody else writes any of it, nor reads what is written (a call that is refused with 9 may have changed a table in between and put it
 * back); and floats are computed as C starts with them, subnormal numbers kept and no exception trapped (a program linked with -ffast-math
 * may have changed that). The calls keep no state and allocate nothing, so they may run on several threads at once. */
#ifndef MATTULIYAN_H
#define MATTULIYAN_H

#include <stddef.h>
#include <stdint.h>

#ifdef __cplusplus
extern "C" {
#endif

/* Builds the table of an outline: points has x and y of each point in turn, in steps, and counts how many points each contour has. *edges
 * becomes the number of edges, or 0 where the call is refused. What the table held before makes no difference. */
uint32_t mattuliyan_build(uint32_t side, const int64_t *points, size_t points_length, const uint32_t *counts, size_t counts_length,
                          int64_t *table, size_t table_length, uint32_t *edges);

/* As mattuliyan_build, of the points as placed. How many numbers the placement has says what is done to a point (x, y), in steps; another
 * length is answered 12, in that question's place.
 *
 *   0           nothing
 *   1  s        scaled, to (s x, s y): a factor
 *   2  u, v     shifted, to (x + u, y + v): two offsets
 *   6  a to f   turned, to (a x + b y + c, d x + e y + f): c and f are offsets, the others factors
 *
 * A moved coordinate is rounded to the nearest step, halves towards the larger. Question 6 is asked of the points as placed. */
uint32_t mattuliyan_build_placed(uint32_t side, const int64_t *points, size_t points_length, const uint32_t *counts,
                                 size_t counts_length, const double *placement, size_t placement_length, int64_t *table,
                                 size_t table_length, uint32_t *edges);

/* Puts a contour into a tile: points has x and y of each of its count points in turn, in steps, and the contour is these as placed; the
 * placement is handed over as to mattuliyan_build_placed. What it adds to each entry is added to the table, and its count to *edges, the
 * record. A tile begins with a table of zeros and a record of 0, or with what building left. The contour should go round as the tile's other
 * letters do, and a hole the other way: where both directions share a pixel, they cancel. */
uint32_t mattuliyan_put(uint32_t side, const int64_t *points, size_t points_length, uint32_t count, const double *placement,
                        size_t placement_length, uint32_t *edges, int64_t *table, size_t table_length);

/* Takes a contour out of a tile again: as mattuliyan_put, with its values taken from the table and its count from *edges. A contour is known
 * by its points as placed, in their order, so it may be taken out under another placement than it was put in, if that leads to the same
 * points. Its reverse is another contour: to take out the reverse of one that is in adds that one's ink once more. Only a contour that is in
 * should be taken out: the call cannot tell, and takes out any that passes its questions. */
uint32_t mattuliyan_take(uint32_t side, const int64_t *points, size_t points_length, uint32_t count, const double *placement,
                         size_t placement_length, uint32_t *edges, int64_t *table, size_t table_length);

/* As mattuliyan_build_placed, of one tile of a sheet: the outline lies on the sheet, its coordinates are from the sheet's upper left corner, and
 * it may lie on the tile or beyond. sheet and side are the sides of sheet and tile, in pixels; column and row are how many tiles lie to the left
 * of the tile and above it. *edges becomes the number of all edges of the outline. The table has side x side entries, and is drawn as any other,
 * with the tile's side.
 *
 * Its root, entry 0, is the tile's own area and no longer the outline's: the sum over all edges of each one's exact part of it, rounded to the
 * nearest unit, halves away from zero. A figure may so miss 4^level times the exact area by 4^level x edges / 2, and by nothing where every edge
 * is level, upright or at 45 degrees; a grey is at most one from the exact area's. */
uint32_t mattuliyan_build_on_sheet(uint32_t sheet, uint32_t side, uint32_t column, uint32_t row, const int64_t *points,
                                   size_t points_length, const uint32_t *counts, size_t counts_length, const double *placement,
                                   size_t placement_length, int64_t *table, size_t table_length, uint32_t *edges);

/* As mattuliyan_put, into one tile of a sheet, which is told as to mattuliyan_build_on_sheet; the contour lies on the sheet, and all its edges
 * are counted. A tile that is corrected keeps one sheet side and one place through all corrections: nothing in a table tells them, and no call
 * can ask. */
uint32_t mattuliyan_put_on_sheet(uint32_t sheet, uint32_t side, uint32_t column, uint32_t row, const int64_t *points,
                                 size_t points_length, uint32_t count, const double *placement, size_t placement_length,
                                 uint32_t *edges, int64_t *table, size_t table_length);

/* As mattuliyan_take, out of one tile of a sheet, likewise. */
uint32_t mattuliyan_take_on_sheet(uint32_t sheet, uint32_t side, uint32_t column, uint32_t row, const int64_t *points,
                                  size_t points_length, uint32_t count, const double *placement, size_t placement_length,
                                  uint32_t *edges, int64_t *table, size_t table_length);

/* As mattuliyan_build_placed, of an outline that may have curved edges. marks has 0 for a straight edge and 1 for a curved one, over all contours
 * in order, and counts how many edges each contour has. points has x and y of each edge's start and, where the edge is curved, x and y of its
 * control point right after; an edge ends where the next one of its contour starts, and the last one where the first starts. So where the last
 * edge is curved, its control point is the contour's last point.
 *
 * A placement moves control points like the other points, to whole steps, before the chords are made. Of the points as placed, a curve with the
 * ends p0 and p2 and the control point p1 becomes 2^k chords at equal steps of its parameter, where k is the least from 0 to 7 such that neither
 * coordinate of p0 - 2 p1 + p2 is more than 4 x 4^k in magnitude: so no chord leaves its curve by more than a step in x or y. The chords' ends
 * are then rounded to the nearest step, halves towards the larger. The table is that of the chords, and *edges becomes their number, a straight
 * edge being one. */
uint32_t mattuliyan_build_curves(uint32_t side, const int64_t *points, size_t points_length, const uint32_t *counts,
                                 size_t counts_length, const uint8_t *marks, size_t marks_length, const double *placement,
                                 size_t placement_length, int64_t *table, size_t table_length, uint32_t *edges);

/* As mattuliyan_put, of a contour that may have curved edges, its points and marks being as for mattuliyan_build_curves and count the number of
 * its edges as marked. What is added to *edges, the record, is the number of its chords. */
uint32_t mattuliyan_put_curves(uint32_t side, const int64_t *points, size_t points_length, uint32_t count, const uint8_t *marks,
                               size_t marks_length, const double *placement, size_t placement_length, uint32_t *edges,
                               int64_t *table, size_t table_length);

/* As mattuliyan_take, of a contour that may have curved edges, its points and marks as for mattuliyan_build_curves. A contour is known by its
 * points as placed and its marks. One without marks that are 1 may be put in or taken out by mattuliyan_put and mattuliyan_take as well, so a
 * tile may hold contours of either kind. */
uint32_t mattuliyan_take_curves(uint32_t side, const int64_t *points, size_t points_length, uint32_t count, const uint8_t *marks,
                                size_t marks_length, const double *placement, size_t placement_length, uint32_t *edges,
                                int64_t *table, size_t table_length);

/* The same three for one tile of a sheet, which is told as to mattuliyan_build_on_sheet. */
uint32_t mattuliyan_build_curves_on_sheet(uint32_t sheet, uint32_t side, uint32_t column, uint32_t row, const int64_t *points,
                                          size_t points_length, const uint32_t *counts, size_t counts_length,
                                          const uint8_t *marks, size_t marks_length, const double *placement,
                                          size_t placement_length, int64_t *table, size_t table_length, uint32_t *edges);

uint32_t mattuliyan_put_curves_on_sheet(uint32_t sheet, uint32_t side, uint32_t column, uint32_t row, const int64_t *points,
                                        size_t points_length, uint32_t count, const uint8_t *marks, size_t marks_length,
                                        const double *placement, size_t placement_length, uint32_t *edges, int64_t *table,
                                        size_t table_length);

uint32_t mattuliyan_take_curves_on_sheet(uint32_t sheet, uint32_t side, uint32_t column, uint32_t row, const int64_t *points,
                                         size_t points_length, uint32_t count, const uint8_t *marks, size_t marks_length,
                                         const double *placement, size_t placement_length, uint32_t *edges, int64_t *table,
                                         size_t table_length);

/* Draws the figures of a level, row by row from the top left: 4^level times each cell's area, in units of which 131,072 are a pixel. */
uint32_t mattuliyan_figures(uint32_t side, uint32_t level, const int64_t *table, size_t table_length, int64_t *picture,
                            size_t picture_length);

/* Draws the greys of a level, row by row from the top left: 0 is bare paper, 255 full ink. A grey is 255 x |figure| / (131,072 x side x
 * side), to the nearest whole number, halves up, and at most 255. Where contours of opposite directions share a pixel, they cancel. */
uint32_t mattuliyan_greys(uint32_t side, uint32_t level, const int64_t *table, size_t table_length, uint8_t *picture,
                          size_t picture_length);

/* Draws the greys of every level, from 0 to the depth, one picture after the other: each is what mattuliyan_greys draws of its level, 4^level
 * places. Level 0 has the first place, level 1 the next four, and so on. It takes less time than a call for each level. */
uint32_t mattuliyan_pyramid(uint32_t side, const int64_t *table, size_t table_length, uint8_t *pictures, size_t pictures_length);

/* The figure of one cell, column cx and row cy of the level. *figure becomes it, or 0 where the call is refused. */
uint32_t mattuliyan_cell(uint32_t side, uint32_t level, uint32_t cx, uint32_t cy, const int64_t *table, size_t table_length,
                         int64_t *figure);

#ifdef __cplusplus
}
#endif

#endif
