/* The price of a box of 1 x 2 x 5.25 from C, at 500 cents for each unit cube up to ten and 300 for each above:
 *   tools/build lanovishel && cc -Iinclude examples/price.c target/staticlib/liblanovishel.a -o price && ./price */
#include "lanovishel.h"
#include <inttypes.h>
#include <stdio.h>

int main(void) {
    const double points[] = {0, 0, 0,    1, 0, 0,    0, 2, 0,    1, 2, 0,
                             0, 0, 5.25, 1, 0, 5.25, 0, 2, 5.25, 1, 2, 5.25};
    const uint32_t corners[] = {0, 2, 1, 1, 2, 3, 4, 5, 6, 5, 7, 6, 0, 1, 4, 1, 5, 4,
                                2, 6, 3, 3, 6, 7, 0, 4, 2, 2, 4, 6, 1, 3, 5, 3, 7, 5};
    const uint8_t labels[12] = {0};
    uint32_t work[LANOVISHEL_WORK_WORDS(8, 12)];
    const uint64_t uppers[] = {10};
    const uint64_t prices[] = {500, 300};
    uint64_t cents[1];
    uint32_t place[2];
    uint32_t number = lanovishel_price(points, 24, corners, 36, labels, 12, work, sizeof work / sizeof *work,
                                       uppers, 1, prices, 2, cents, place);
    printf("number %u, cents %" PRIu64 "\n", number, cents[0]);
    return number != 0;
}
