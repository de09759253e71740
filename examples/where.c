/* Says where the surface of a sheet is open. The sheet is of either edition, on standard input.
 *   tools/build lanovishel && cc -Iinclude examples/where.c target/staticlib/liblanovishel.a -o where
 *   ./where < examples/open.sheet */
#include "lanovishel.h"
#include <stdio.h>

enum { POINTS = LANOVISHEL_SHEET_POINTS, TRIANGLES = LANOVISHEL_SHEET_TRIANGLES };

/* One byte more than the longest sheet has. */
static uint8_t sheet[LANOVISHEL_SHEET_BYTES + 1];
static double points[3 * POINTS];
static uint32_t corners[3 * TRIANGLES];
static uint8_t labels[TRIANGLES];
static uint32_t work[LANOVISHEL_WORK_WORDS(POINTS, TRIANGLES)];

int main(void) {
    size_t bytes = fread(sheet, 1, sizeof sheet, stdin);
    uint32_t counts[2], place[2];
    uint32_t number = lanovishel_read_sheet(sheet, bytes, points, 3 * POINTS, corners, 3 * TRIANGLES, labels, TRIANGLES,
                                            counts);
    if (number != 0) {
        puts("no sheet");
        return 1;
    }
    size_t n = counts[0], m = counts[1];
    double numbers[2];
    number = lanovishel_check(points, 3 * n, corners, 3 * m, labels, m, work, sizeof work / sizeof *work,
                              numbers, place);
    switch (number) {
    case 0:
        puts("0: accepted");
        break;
    case 31:
        printf("31: the side from %u to %u occurs more than once\n", place[0], place[1]);
        break;
    case 32:
        printf("32: the side from %u to %u has no reverse\n", place[0], place[1]);
        break;
    case 33:
        printf("33: the triangles around corner %u are more than one ring\n", place[0]);
        break;
    default:
        printf("%u: docs/NUMBERS.md says what this means\n", number);
    }
    return 0;
}
