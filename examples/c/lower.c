/* Lowers the sheet in a file: prints the image's words, or `refused` and the number.
 *
 *   cc -std=c99 -I include examples/c/lower.c crates/api/out/libapi.a -o lower
 */
#include <inttypes.h>
#include <stdio.h>

#include "sheet_lower.h"

enum { SHEET_BYTES = 65536, IMAGE_WORDS = 16384, SCRATCH_WORDS = 16384 };

static uint8_t sheet[SHEET_BYTES + 1];
static uint32_t image[IMAGE_WORDS];
static uint32_t scratch[SCRATCH_WORDS];

int main(int argc, char **argv)
{
    FILE *file = argc == 2 ? fopen(argv[1], "rb") : NULL;
    if (file == NULL) {
        fprintf(stderr, "lower SHEET\n");
        return 2;
    }
    size_t length = fread(sheet, 1, sizeof sheet, file);
    fclose(file);

    uint64_t words = 0;
    uint32_t number = SHEET_SIZE;
    if (length <= SHEET_BYTES) {
        number = sheet_lower(sheet, length, image, IMAGE_WORDS, scratch, SCRATCH_WORDS, &words);
    }
    if (number != SHEET_LOWERED) {
        printf("refused %" PRIu32 "\n", number);
        return 0;
    }
    for (uint64_t i = 0; i < words; i++) {
        printf(i == 0 ? "%" PRIu32 : " %" PRIu32, image[i]);
    }
    printf("\n");
    return 0;
}
