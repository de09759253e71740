/* The outline of an octahedron from C. The plane z = 512.5/1024 crosses the four sides at its top, corner 4, in a loop:
 *   tools/build lanovishel && cc -Iinclude examples/outlines.c target/staticlib/liblanovishel.a -o outlines
 *   ./outlines */
#include "lanovishel.h"
#include <stdio.h>

int main(void) {
    const double points[] = {1, 0, 0, -1, 0, 0, 0, 1, 0, 0, -1, 0, 0, 0, 1, 0, 0, -1};
    const uint32_t corners[] = {0, 2, 4, 2, 1, 4, 1, 3, 4, 3, 0, 4, 2, 0, 5, 1, 2, 5, 3, 1, 5, 0, 3, 5};
    const uint8_t labels[8] = {0};
    uint32_t work[LANOVISHEL_WORK_WORDS(6, 8)];
    uint32_t outline[12], counts[2], place[2];
    uint32_t number = lanovishel_outlines(points, 18, corners, 24, labels, 8, work, sizeof work / sizeof *work,
                                          512, outline, 12, counts, place);
    printf("number %u, sides %u, loops %u:", number, counts[0], counts[1]);
    for (uint32_t i = 0; i < counts[0]; i++)
        printf(" %u-%u", outline[3 * i], outline[3 * i + 1]);
    printf("\n");
    return number != 0;
}
