/* Writes the tetrahedron of document 01 as a sheet of the first edition, in whole 1/1024 units:
 *   tools/build lanovishel && cc -Iinclude examples/write.c target/staticlib/liblanovishel.a -o write && ./write */
#include "lanovishel.h"
#include <stdio.h>

int main(void) {
    const int32_t coordinates[] = {0, 0, 0, 1024, 0, 0, 0, 1024, 0, 0, 0, 1024};
    const uint32_t corners[] = {0, 2, 1, 0, 1, 3, 0, 3, 2, 1, 2, 3};
    const uint8_t labels[] = {0, 0, 0, 0};
    uint8_t written[LANOVISHEL_SHEET_BYTES];
    uint64_t count[1];
    uint32_t number = lanovishel_write_sheet(1, coordinates, 12, corners, 12, labels, 4, written, sizeof written,
                                             count);
    fwrite(written, 1, count[0], stdout);
    return number != 0;
}
