/* What the sheet in a file needs: prints the words of scratch that its lowering asks for, or `refused` and the number.
 *
 *   cc -std=c99 -I include examples/c/needs.c crates/api/out/libapi.a -o needs
 */
#include <inttypes.h>
#include <stdio.h>

#include "sheet_lower.h"

enum { SHEET_BYTES = 65536 };

static uint8_t sheet[SHEET_BYTES + 1];

int main(int argc, char **argv)
{
    FILE *file = argc == 2 ? fopen(argv[1], "rb") : NULL;
    if (file == NULL) {
        fprintf(stderr, "needs SHEET\n");
        return 2;
    }
    size_t length = fread(sheet, 1, sizeof sheet, file);
    fclose(file);

    uint64_t words = 0;
    uint32_t number = SHEET_SIZE;
    if (length <= SHEET_BYTES) {
        number = sheet_needs(sheet, length, &words);
    }
    if (number == SHEET_LOWERED) {
        printf("%" PRIu64 " words of scratch\n", words);
    } else {
        printf("refused %" PRIu32 "\n", number);
    }
    return 0;
}
