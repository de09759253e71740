/* The nearest corners of a tetrahedron to two probes from C, with squared distances in (1/1024)^2. The first probe is
 * midway between corners 0 and 1, the second a quarter off corner 3:
 *   tools/build lanovishel && cc -Iinclude examples/nearest.c target/staticlib/liblanovishel.a -o nearest && ./nearest */
#include "lanovishel.h"
#include <inttypes.h>
#include <stdio.h>

int main(void) {
    const double points[] = {0, 0, 0, 1, 0, 0, 0, 1, 0, 0, 0, 1};
    const uint32_t corners[] = {0, 2, 1, 0, 1, 3, 0, 3, 2, 1, 2, 3};
    const uint8_t labels[4] = {0};
    uint32_t work[LANOVISHEL_WORK_WORDS(4, 4)];
    const double probes[] = {0.5, 0, 0, 0, 0.25, 1};
    uint64_t answers[4];
    uint32_t count[1];
    uint32_t number = lanovishel_nearest(points, 12, corners, 12, labels, 4, work, sizeof work / sizeof *work,
                                         probes, 6, answers, 4, count);
    printf("number %u, count %u: corner %" PRIu64 " at %" PRIu64 ", corner %" PRIu64 " at %" PRIu64 "\n", number,
           count[0], answers[0], answers[1], answers[2], answers[3]);
    return number != 0;
}
