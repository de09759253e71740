/* Where the sphere x·x + y·y + z·z = 1/2 cuts the edges of a lattice with 5 nodes a side, in a box of side 2, from C. The
 * first edge goes from (-1/2, -1/2, -1) to (0, 0, -1/2), and the sphere cuts it after two thirds:
 *   tools/build lanovishel && cc -Iinclude examples/cut.c target/staticlib/liblanovishel.a -o cut && ./cut */
#include "lanovishel.h"
#include <inttypes.h>
#include <math.h>
#include <stdio.h>

int main(void) {
    const double coefficients[] = {1, 1, 1};
    const uint32_t powers[] = {2, 0, 0, 0, 2, 0, 0, 0, 2};
    const double levels[] = {-INFINITY, 0.5};
    const double bounds[] = {-1, -1, -1, 1, 1, 1};
    double grid[3 * LANOVISHEL_NODES(4)], values[LANOVISHEL_NODES(4)], cuts[3 * 100];
    uint32_t edges[3 * 100], counts[4];
    uint64_t fields[1];
    uint32_t number = lanovishel_cut(coefficients, 3, powers, 9, levels, bounds, 4, grid, sizeof grid / sizeof *grid,
                                     values, sizeof values / sizeof *values, edges, sizeof edges / sizeof *edges,
                                     counts, cuts, sizeof cuts / sizeof *cuts, fields);
    printf("number %u, cuts %u, field values %" PRIu64 ": the first at %g %g %g\n", number, counts[3], fields[0], cuts[0],
           cuts[1], cuts[2]);
    return number != 0;
}
