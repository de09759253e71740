/* Lanovishel for C: link liblanovishel.a, which `tools/build lanovishel` makes.
 *
 * A list is a pointer and a length. No function asks anything of its caller but that each pointer is valid
 * for its length and that no list that is written overlaps another. A call answers 0 where it is accepted, and
 * else one of the numbers that docs/NUMBERS.md lists: it then leaves every list as it was lent (the work words
 * as document 01 says, and 0 in a list that is lent for answers alone).
 *
 * place says where a surface is open: after 31 and 32 the side from place[0] to place[1], after 33 the corner
 * place[0], and place[1] is 0. After any other answer both are 0. */
#ifndef LANOVISHEL_H
#define LANOVISHEL_H

#include <stddef.h>
#include <stdint.h>

/* How many work words a surface needs. */
#define LANOVISHEL_WORK_WORDS(points, triangles) (32 * (size_t)(triangles) + 16 * (size_t)(points))

/* The square root of IEEE 754. */
double lanovishel_sqrt(double x);

/* Checks a surface: points has three values a point, corners three corner numbers a triangle, labels one a
 * triangle. Where it is accepted, numbers has its smallest quality and its volume; else numbers is 0. Of m
 * triangles with all coordinates in whole 1/1024 within 32 either way, the volume is within m * m / 2^33 of the
 * exact one. */
uint32_t lanovishel_check(const double *points, size_t point_values,
                          const uint32_t *corners, size_t corner_numbers,
                          const uint8_t *labels, size_t label_count,
                          uint32_t *work, size_t work_words,
                          double numbers[2], uint32_t place[2]);

/* An edit run: entries of three words each, kind, a, b (1 flips side a b; 2 keeps a and removes b; 3 takes back
 * the last a edits, b is 0), one verdict word per entry, twelve journal words for each edit that may be in force.
 * Where the call is accepted, answer has triangles left and edits in force, and corners and labels hold the
 * surface that is left, then 0; else answer is 0. */
uint32_t lanovishel_edit(const double *points, size_t point_values,
                         uint32_t *corners, size_t corner_numbers,
                         uint8_t *labels, size_t label_count,
                         uint32_t *work, size_t work_words,
                         const uint32_t *entries, size_t entry_words,
                         uint32_t *verdicts, size_t verdict_words,
                         uint32_t *journal, size_t journal_words,
                         uint64_t answer[2], uint32_t place[2]);

/* Improves a surface by rounds, at most 1,000: short sides of badly shaped triangles are collapsed, the points
 * numbered anew by first use, and sides flipped where that helps. The field sheet: up to 64 terms, each a
 * coefficient and the powers of x, y and z, 0 to 3; the lower level, which may be -infinity, and the upper;
 * bounds is the lower corner of a box within +-2^20, then the upper. A triangle of label 0 lies on the upper
 * level and one of 1 on the lower; 2 to 7 are the walls of the box at lower x, upper x, lower y and so on.
 * Where the call is accepted, answer has points left, triangles left and flips, and points, corners and labels
 * hold the surface that is left, then 0; else answer is 0. */
uint32_t lanovishel_improve(double *points, size_t point_values,
                            uint32_t *corners, size_t corner_numbers,
                            uint8_t *labels, size_t label_count,
                            uint32_t *work, size_t work_words,
                            const double *coefficients, size_t coefficient_count,
                            const uint32_t *powers, size_t power_count,
                            const double levels[2], const double bounds[6],
                            uint32_t rounds, uint32_t answer[3], uint32_t place[2]);

/* The price of a surface, in cents, from its exact volume: what lanovishel_check refuses has none, and every
 * coordinate is in whole 1/1024 within 32 either way, those of unused points too. The price sheet: one to eight
 * steps, each with a price of at most 100,000 for each started unit cube (of side 1) within it, and an upper volume
 * in unit cubes for each but the last, which has no end; upper volumes rise strictly. A step begins where the one
 * before it ends, the first at 0. Where the call is accepted, cents has the sum over the steps, 0 for a volume of 0
 * or less; else cents is 0. */
uint32_t lanovishel_price(const double *points, size_t point_values,
                          const uint32_t *corners, size_t corner_numbers,
                          const uint8_t *labels, size_t label_count,
                          uint32_t *work, size_t work_words,
                          const uint64_t *uppers, size_t upper_count,
                          const uint64_t *prices, size_t price_count,
                          uint64_t cents[1], uint32_t place[2]);

/* What stands for a corner where a surface has no triangles. */
#define LANOVISHEL_NO_CORNER UINT64_C(4294967295)

/* The nearest corner of a surface to each of up to 64 probes, among the corners that a triangle names. The surface
 * may be open, and its labels may be any. probes has three values a probe, and every coordinate is in whole 1/1024
 * within 32 either way, those of unused points too. Where the call is accepted, count has the number of probes, and
 * answers has two words for each, what it would get alone, then 0: the corner, of equally near ones the smallest,
 * and its squared distance in (1/1024)^2, or LANOVISHEL_NO_CORNER and 0 where there are no triangles. Else answers
 * and count are 0. */
uint32_t lanovishel_nearest(const double *points, size_t point_values,
                            const uint32_t *corners, size_t corner_numbers,
                            const uint8_t *labels, size_t label_count,
                            uint32_t *work, size_t work_words,
                            const double *probes, size_t probe_values,
                            uint64_t *answers, size_t answer_words,
                            uint32_t count[1]);

/* The outlines of a layer: the loops in which the plane z = (height + 1/2) / 1024 crosses a closed surface, one that
 * lanovishel_edit takes. Every coordinate is in whole 1/1024 within 32 either way, those of unused points too, so no
 * point lies in the plane; height is -32,768 to 32,767. Each side that is crossed gets three words of outline: its
 * smaller corner, its larger corner, and the number of its loop, from 0. Sides that follow one another in a loop, the
 * last and the first too, share a triangle. A loop begins with its smallest side, by the smaller corner and then by
 * the larger, and goes on through the triangle that runs this from the smaller to the larger corner; loops come in the
 * order of the sides that they begin with. Where the call is accepted, counts has the number of sides and the number
 * of loops, and outline has the sides, then 0. Else outline and counts are 0. */
uint32_t lanovishel_outlines(const double *points, size_t point_values,
                             const uint32_t *corners, size_t corner_numbers,
                             const uint8_t *labels, size_t label_count,
                             uint32_t *work, size_t work_words,
                             int32_t height, uint32_t *outline, size_t outline_words,
                             uint32_t counts[2], uint32_t place[2]);

/* How many points, triangles and bytes a sheet of either edition has at most. */
#define LANOVISHEL_SHEET_POINTS 128
#define LANOVISHEL_SHEET_TRIANGLES 256
#define LANOVISHEL_SHEET_BYTES 12981

/* Reads a sheet of either edition: the first is in 1/1024 units within 32,768 either way, the second, whose first
 * line is "edition points triangles", in 1/65,536 units within 2,097,152 either way. Where the call is accepted,
 * counts has the number of points and the number of triangles, points has three values for each point, exactly what
 * the sheet says, corners three numbers and labels one for each triangle, and all three lists are 0 behind. Of the
 * surface nothing is asked; lanovishel_check does that. Else counts and the three lists are 0: 16 is for a text that is
 * no sheet, 35 for a list that is too short. */
uint32_t lanovishel_read_sheet(const uint8_t *sheet, size_t sheet_bytes,
                               double *points, size_t point_values,
                               uint32_t *corners, size_t corner_numbers,
                               uint8_t *labels, size_t label_count,
                               uint32_t counts[2]);

/* Writes a sheet of edition 1 or 2: coordinates has three for each point, in whole units of the edition within its
 * range, corners three numbers for each triangle, labels one. Where the call is accepted, count has the number of
 * bytes, and written has the sheet, then 0; no 0 is part of a sheet. Else count and written are 0: 16 is for what no
 * sheet of the edition has, 35 for a list that is too short. */
uint32_t lanovishel_write_sheet(uint32_t edition,
                                const int32_t *coordinates, size_t coordinate_count,
                                const uint32_t *corners, size_t corner_numbers,
                                const uint8_t *labels, size_t label_count,
                                uint8_t *written, size_t written_bytes,
                                uint64_t count[1]);

/* Converts a sheet of either edition to edition 1 or 2. What lanovishel_read_sheet gives stays the same to the last
 * bit; a sheet that is in the edition already is given back as it is. Where the call is accepted, count has the number
 * of bytes, and written has the sheet, then 0. Else count and written are 0: 16 is for a text that is no sheet, or for
 * another edition; 38 for a coordinate that is no multiple of 64, of a sheet of edition 2 that is asked for in edition
 * 1; 35 for a list that is too short. */
uint32_t lanovishel_convert_sheet(const uint8_t *sheet, size_t sheet_bytes, uint32_t edition,
                                  uint8_t *written, size_t written_bytes,
                                  uint64_t count[1]);

/* How many nodes the lattice of so many cells a side has. */
#define LANOVISHEL_NODES(cells) (((size_t)(cells) + 1) * ((size_t)(cells) + 1) * ((size_t)(cells) + 1))

/* Samples a field on the lattice of a box, with 4 to 128 cells a side. Field sheet, levels and box are those of
 * lanovishel_improve. Nodes are numbered along x, then y, then z; along each axis, a node that is c cells from the
 * lower end lies at lower + ((upper - lower) * c) / cells. Its value is the sum, from +0 and in order, of the terms
 * ((q * x^i) * y^j) * z^k, with the powers 1, v, v * v and (v * v) * v. It is near a finite level where they differ, in
 * double, by at most 2^-46 of the largest magnitude among all values, the finite levels and 2^-1022. A value near the
 * lower level is set onto that; then what is near the upper level is set onto this.
 *
 * An edge goes from a node by a step i j k along x, y and z: 0 is 1 0 0, 1 is 0 1 0, 2 is 0 0 1, 3 is 1 1 0, 4 is
 * 1 0 1, 5 is 0 1 1 and 6 is 1 1 1. With n nodes a side it ends at node + i + n * j + n * n * k. A finite level crosses
 * it where one end is below the level and the other is not. Each edge gets three words of edges for each level that
 * crosses it: the node, the step, and the label, 0 for the upper level and 1 for the lower; by rising nodes, then steps,
 * then labels.
 *
 * Where the call is accepted, counts has the number of nodes in grid, of nodes in values and of edges; grid has three
 * values a node, values one, edges three words an edge, and all three lists are 0 behind. Else counts and the three
 * lists are 0: 13 is for field sheet, levels or box, 34 for the cells, 35 for too short a grid or list of values, 36 for
 * a value that is not finite, and then 35 for too short a list of edges. */
uint32_t lanovishel_sample(const double *coefficients, size_t coefficient_count,
                           const uint32_t *powers, size_t power_count,
                           const double levels[2], const double bounds[6], uint32_t cells,
                           double *grid, size_t grid_values,
                           double *values, size_t value_count,
                           uint32_t *edges, size_t edge_words,
                           uint32_t counts[3]);

/* Samples a field as lanovishel_sample does and finds where its levels cut the listed edges. The residual at a point is
 * the field there less the level of the edge's label, in double; at a node it is the node's value less the level. An edge
 * whose first node has the residual 0 is cut there; else, one whose second node has it, there. On every other edge the
 * two nodes have residuals of opposite sign. The parameter t is 0 at the first node a and 1 at the second node b, and
 * its point is a * (1 - t) + b * t. From the ends lo = 0 and hi = 1, each round takes the field at one t:
 * lo - (flo * (hi - lo)) / (fhi - flo), with the residuals flo and fhi at the ends; or (lo + hi) * 0.5 where that is not
 * strictly between the ends, and in the rounds 3, 7, 11, 12, 13 and so on, counted from 0. Where the residual is at most
 * 2^-46 of the largest magnitude among both nodes' residuals, the level and 2^-1022, the edge is cut at t. Else t becomes
 * the end whose node has a residual of the same sign. After 52 rounds the edge is cut at (lo + hi) * 0.5.
 *
 * Where the call is accepted, counts has the number of nodes in grid, of nodes in values, of edges and of cut places;
 * cuts has a place for each edge, in the order of the list, the three values of the point where the edge is cut; fields
 * has the number of field values taken on the edges, those at the nodes not counted; and all four lists are 0 behind.
 * Else counts, fields and the four lists are 0: after all that lanovishel_sample refuses comes 35 for fewer cut places
 * than edges, and then 37 for an edge, in the order of the list, on which a residual is not finite, that at a node or
 * that in a round. */
uint32_t lanovishel_cut(const double *coefficients, size_t coefficient_count,
                        const uint32_t *powers, size_t power_count,
                        const double levels[2], const double bounds[6], uint32_t cells,
                        double *grid, size_t grid_values,
                        double *values, size_t value_count,
                        uint32_t *edges, size_t edge_words,
                        uint32_t counts[4],
                        double *cuts, size_t cut_values,
                        uint64_t fields[1]);

#endif
