/* Checks the image in a file of decimal words beside the sheet in another: prints `well made`, or `refused` and the number.
 *
 *   cc -std=c99 -I include examples/c/check_image.c crates/api/out/libapi.a -o check_image
 */
#include <inttypes.h>
#include <stdio.h>

#include "sheet_lower.h"

enum { SHEET_BYTES = 65536, IMAGE_WORDS = 16384 };

static uint8_t sheet[SHEET_BYTES + 1];
static uint32_t image[IMAGE_WORDS];
static uint32_t scratch[IMAGE_WORDS];

/* Reads the words of an image. Returns how many there are, or -1 for a file that is missing, too long, or has something else than words in it. */
static long read_words(const char *path)
{
    FILE *file = fopen(path, "r");
    if (file == NULL) {
        return -1;
    }
    long count = 0;
    uint64_t word;
    int found;
    while ((found = fscanf(file, "%" SCNu64, &word)) == 1 && word <= UINT32_MAX && count < IMAGE_WORDS) {
        image[count++] = (uint32_t)word;
    }
    fclose(file);
    return found == EOF ? count : -1;
}

int main(int argc, char **argv)
{
    FILE *file = argc == 3 ? fopen(argv[1], "rb") : NULL;
    if (file == NULL) {
        fprintf(stderr, "check_image SHEET WORDS\n");
        return 2;
    }
    size_t length = fread(sheet, 1, sizeof sheet, file);
    fclose(file);
    long words = read_words(argv[2]);
    if (words < 0) {
        fprintf(stderr, "%s: not up to %d decimal words\n", argv[2], IMAGE_WORDS);
        return 2;
    }

    uint32_t number = SHEET_SIZE;
    if (length <= SHEET_BYTES) {
        number = sheet_check_image(sheet, length, image, (size_t)words, scratch, IMAGE_WORDS);
    }
    if (number == SHEET_WELL_MADE) {
        printf("well made\n");
    } else {
        printf("refused %" PRIu32 "\n", number);
    }
    return 0;
}
