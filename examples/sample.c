/* The ball x·x + y·y + z·z up to 1/2, in a box of side 2, sampled on 5 nodes a side from C. Inside are the middle, which
 * has 14 edges, 6 of them to the other nodes inside, and the 6 nodes next to it, which have 14 each, 3 of them inside:
 *   tools/build lanovishel && cc -Iinclude examples/sample.c target/staticlib/liblanovishel.a -o sample && ./sample */
#include "lanovishel.h"
#include <math.h>
#include <stdio.h>

int main(void) {
    const double coefficients[] = {1, 1, 1};
    const uint32_t powers[] = {2, 0, 0, 0, 2, 0, 0, 0, 2};
    const double levels[] = {-INFINITY, 0.5};
    const double bounds[] = {-1, -1, -1, 1, 1, 1};
    double grid[3 * LANOVISHEL_NODES(4)], values[LANOVISHEL_NODES(4)];
    uint32_t edges[3 * 100], counts[3];
    uint32_t number = lanovishel_sample(coefficients, 3, powers, 9, levels, bounds, 4, grid, sizeof grid / sizeof *grid,
                                        values, sizeof values / sizeof *values, edges, sizeof edges / sizeof *edges,
                                        counts);
    printf("number %u, nodes %u, edges %u: the first from %g %g %g by step %u\n", number, counts[0], counts[2],
           grid[3 * edges[0]], grid[3 * edges[0] + 1], grid[3 * edges[0] + 2], edges[1]);
    return number != 0;
}
