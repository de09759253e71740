/* Converts the sheet on standard input to the other edition, and says how long it then is and what its head is:
 *   tools/build lanovishel && cc -Iinclude examples/convert.c target/staticlib/liblanovishel.a -o convert
 *   ./convert < examples/octahedron.sheet */
#include "lanovishel.h"
#include <inttypes.h>
#include <stdio.h>
#include <string.h>

/* One byte more than the longest sheet has. */
static uint8_t sheet[LANOVISHEL_SHEET_BYTES + 1];
static uint8_t written[LANOVISHEL_SHEET_BYTES + 1];

int main(void) {
    size_t bytes = fread(sheet, 1, sizeof sheet, stdin);
    uint32_t edition = memcmp(sheet, "edition", 7) == 0 ? 1 : 2;
    uint64_t count[1];
    uint32_t number = lanovishel_convert_sheet(sheet, bytes, edition, written, LANOVISHEL_SHEET_BYTES, count);
    printf("number %u, bytes %" PRIu64 ":", number, count[0]);
    /* The first two lines. Behind the sheet there is a 0. */
    const char *text = (const char *)written;
    for (int line = 0; line < 2; line++) {
        int length = (int)strcspn(text, "\n");
        printf(" \"%.*s\"", length, text);
        text += length + (text[length] != 0);
    }
    printf("\n");
    return number != 0;
}
