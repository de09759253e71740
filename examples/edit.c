/* An edit run from C, on the octahedron of document 01: a flip, one that would leave it not closed, and a collapse.
 *   tools/build lanovishel && cc -Iinclude examples/edit.c target/staticlib/liblanovishel.a -o edit && ./edit */
#include "lanovishel.h"
#include <inttypes.h>
#include <stdio.h>

int main(void) {
    const double points[] = {1, 0, 0, -1, 0, 0, 0, 1, 0, 0, -1, 0, 0, 0, 1, 0, 0, -1};
    uint32_t corners[] = {0, 2, 4, 2, 1, 4, 1, 3, 4, 3, 0, 4, 2, 0, 5, 1, 2, 5, 3, 1, 5, 0, 3, 5};
    uint8_t labels[8] = {0};
    uint32_t work[LANOVISHEL_WORK_WORDS(6, 8)];
    /* flip the side 0 2; flip 4 0; take back one edit; keep 0 and remove 2 */
    const uint32_t entries[] = {1, 0, 2, 1, 4, 0, 3, 1, 0, 2, 0, 2};
    uint32_t verdicts[4], journal[12], place[2];
    uint64_t answer[2];
    uint32_t number = lanovishel_edit(points, 18, corners, 24, labels, 8, work, sizeof work / sizeof *work,
                                      entries, 12, verdicts, 4, journal, 12, answer, place);
    printf("number %u, verdicts %u %u %u %u, triangles %" PRIu64 ", edits %" PRIu64 ": the first [%u,%u,%u]\n", number,
           verdicts[0], verdicts[1], verdicts[2], verdicts[3], answer[0], answer[1], corners[0], corners[1], corners[2]);
    return number != 0;
}
