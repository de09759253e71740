/* One round of improving from C, on an octahedron with a seventh point too close to the first:
 *   tools/build lanovishel && cc -Iinclude examples/improve.c target/staticlib/liblanovishel.a -o improve && ./improve */
#include "lanovishel.h"
#include <stdio.h>

int main(void) {
    double points[] = {1, 0, 0, -1, 0, 0, 0, 1, 0, 0, -1, 0, 0, 0, 1, 0, 0, -1, 0.96, 0.28, 0};
    uint32_t corners[] = {0, 6, 4, 6, 2, 4, 2, 1, 4, 1, 3, 4, 3, 0, 4, 2, 6, 5, 6, 0, 5, 1, 2, 5, 3, 1, 5, 0, 3, 5};
    uint8_t labels[10] = {0};
    uint32_t work[LANOVISHEL_WORK_WORDS(7, 10)];
    /* x·x + y·y + z·z up to 1, in a box of side 4 */
    const double coefficients[] = {1, 1, 1};
    const uint32_t powers[] = {2, 0, 0, 0, 2, 0, 0, 0, 2};
    const double levels[] = {-1, 1};
    const double bounds[] = {-2, -2, -2, 2, 2, 2};
    uint32_t answer[3], place[2];
    uint32_t number = lanovishel_improve(points, 21, corners, 30, labels, 10, work, sizeof work / sizeof *work,
                                         coefficients, 3, powers, 9, levels, bounds, 1, answer, place);
    printf("number %u, points %u, triangles %u, flips %u\n", number, answer[0], answer[1], answer[2]);
    return number != 0;
}
