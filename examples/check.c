/* Checks the tetrahedron of document 01 from C:
 *   tools/build lanovishel && cc -Iinclude examples/check.c target/staticlib/liblanovishel.a -o check && ./check */
#include "lanovishel.h"
#include <stdio.h>

int main(void) {
    const double points[] = {0, 0, 0, 1, 0, 0, 0, 1, 0, 0, 0, 1};
    const uint32_t corners[] = {0, 2, 1, 0, 1, 3, 0, 3, 2, 1, 2, 3};
    const uint8_t labels[] = {0, 0, 0, 0};
    uint32_t work[LANOVISHEL_WORK_WORDS(4, 4)];
    double numbers[2];
    uint32_t place[2];
    uint32_t verdict = lanovishel_check(points, 12, corners, 12, labels, 4, work, sizeof work / sizeof *work,
                                        numbers, place);
    printf("verdict %u, quality %.17g, volume %.17g\n", verdict, numbers[0], numbers[1]);
    return verdict != 0;
}
