/* The proved library, crates/api/out/libapi.a: the check of a sheet, what it needs, its lowering into an image, and the check of an image.
 *
 * The formats of sheet and image, word by word, are in docs/FORMAT.md. A node has eight words, of which the last two are a namespace and its
 * position, and a name in an image has three; a sheet with nodes of six words, as before version 0.4.0, is refused with SHEET_SIZE, and one in which
 * a name has no bytes, since version 0.5.0, with SHEET_EMPTY_NAME. What the comments here say of answers and buffers is proved of the functions for
 * every sheet and every buffer (docs/PROOFS.md); the caller's duties are these:
 *
 *  - each pointer is not null, is aligned for its type, and points to as many elements as the length beside it says, also where that length is 0;
 *  - what is not `const` is writable, and overlaps no other area of the call;
 *  - until the call returns, nothing else writes to any of the areas, or reads one that is not `const`.
 *
 * There is no other duty: any bytes are taken as a sheet, and any words as an image to check. How long a hostile sheet may take, and how to bound it
 * by its size, is in docs/FORMAT.md, with what each refusal means and how to cure it. The functions use no heap and no global variable,
 * make no system call, keep nothing between calls and always return, so they may run in several threads at once, each with its own buffers, and
 * again from an interrupted call. Of the C library they need memcpy and memset alone. The compiled code uses SSE registers to move data.
 */
#ifndef SHEET_LOWER_H
#define SHEET_LOWER_H

#include <stddef.h>
#include <stdint.h>

/* The version of this header and of the archive, which is for x86-64 (CHANGELOG.md). */
#define SHEET_LOWER_VERSION "0.5.0"
#define SHEET_LOWER_VERSION_MAJOR 0
#define SHEET_LOWER_VERSION_MINOR 5
#define SHEET_LOWER_VERSION_PATCH 0

#ifdef __cplusplus
extern "C" {
#endif

/* What the functions answer. Where several causes hold, the first in the order 1 to 4, 14, 5 to 13 is the answer; they stand here in this order.
 *
 * 14 counts among 1 to 8: where 1 to 8, 1 to 10 or 1 to 11 is said, it is meant too. So a test such as `number <= 8` leaves it out.
 */
enum sheet_number {
    SHEET_LOWERED = 0,        /* sheet_lower: lowered; sheet_needs: with enough scratch nothing refuses before the image is made */
    SHEET_WELL_MADE = 0,      /* sheet_check_image: the image is well made */
    SHEET_SIZE = 1,           /* length, padding or a size is wrong; so is a sheet with nodes of six words */
    SHEET_SHAPE = 2,          /* a node's kind, shape or field is wrong */
    SHEET_TEXT = 3,           /* a text lies outside its bytes, or is malformed */
    SHEET_NUMBER = 4,         /* a text number or a block number does not exist */
    SHEET_EMPTY_NAME = 14,    /* a Variable, Property, MethodCall, FnCall or local has a name of no bytes */
    SHEET_DEPTH = 5,          /* the tree is deeper than 64 */
    SHEET_ARMS = 6,           /* over 64 blocks, cases, ranges, or Refs in one case */
    SHEET_TWICE = 7,          /* two cases of equal kind and value */
    SHEET_UNSUPPORTED = 8,    /* kind 23, 24 or 25; FnCall `curry` with over one argument, of a module too */
    SHEET_EVAL = 9,           /* lowering reaches an FnCall `eval`, of a module too */
    SHEET_EMITTED = 10,       /* over 262,143 instructions emitted, those taken back included */
    SHEET_SCRATCH_SHORT = 11, /* scratch below 16 words per emitted instruction, plus 16 per node, plus 4,096; of an image check: below image_len */
    SHEET_IMAGE_LONG = 12,    /* the finished image is longer than its buffer */
    SHEET_ILL_MADE = 13       /* the image is not well made */
};

/* Scratch words for a sheet that emits `emitted` instructions and has `nodes` nodes. */
#define SHEET_SCRATCH_WORDS(emitted, nodes) (16 * (size_t)(emitted) + 16 * (size_t)(nodes) + 4096)

/* Scratch words that are enough for every sheet: 262,143 instructions emitted, 131,072 nodes. */
#define SHEET_SCRATCH_MOST SHEET_SCRATCH_WORDS(262143, 131072)

/* Checks the `sheet_len` bytes of `sheet`.
 *
 * Returns 0, or the first of the numbers 1 to 8 (14 among them) that fits. Writes nothing. sheet_lower makes the same check by itself.
 */
uint32_t sheet_check(const uint8_t *sheet, size_t sheet_len);

/* What the `sheet_len` bytes of `sheet` need before buffers are lent.
 *
 * Returns 0, or the first of the numbers 1 to 10 (14 among them) that fits.
 *
 *   returned      *scratch_words         sheet_lower of the same sheet, whatever the buffers are
 *   0             the words that it      returns 11 exactly where `scratch_len` is less, and else 0 or 12
 *                 needs of scratch
 *   1 to 10, 14   0                      returns the same number
 *
 * *scratch_words is always written, and never above SHEET_SCRATCH_MOST. The sheet is only read. How long the image will be is not answered.
 */
uint32_t sheet_needs(const uint8_t *sheet, size_t sheet_len, uint64_t *scratch_words);

/* Lowers the `sheet_len` bytes of `sheet` into `image`, which has `image_len` words, with the help of `scratch`, which has `scratch_len` words.
 *
 * Returns 0, or the first of the numbers 1 to 12 (14 among them) that fits. What the buffers held before does not matter.
 *
 *   returned      *words              image                                          scratch
 *   0             image's word count  that many words are written, the rest is kept  all words are 0
 *   1 to 11, 14   0                   kept                                           kept
 *   12            0                   kept                                           all words are 0
 *
 * *words is always written, and never above `image_len`.
 */
uint32_t sheet_lower(const uint8_t *sheet, size_t sheet_len,
                     uint32_t *image, size_t image_len,
                     uint32_t *scratch, size_t scratch_len,
                     uint64_t *words);

/* Checks that the `image_len` words of `image` are an image that is well made for the sheet, with the help of `scratch`, which has `scratch_len` words:
 * `image_len` or more.
 *
 * Returns 0, or the first of the numbers 1 to 8 (14 among them), 11 and 13 that fits. Every image that sheet_lower makes of a sheet is well made for it;
 * so may be images of another compiler, and what they do is not compared with what the sheet says. The image is exactly the `image_len` words: in a
 * longer buffer, pass the word count of the image, not the buffer's length. What the scratch held before does not matter.
 *
 *   returned         scratch
 *   0, 13            all `scratch_len` words are 0
 *   1 to 8, 14, 11   kept
 *
 * Sheet and image are only read.
 */
uint32_t sheet_check_image(const uint8_t *sheet, size_t sheet_len,
                           const uint32_t *image, size_t image_len,
                           uint32_t *scratch, size_t scratch_len);

#ifdef __cplusplus
}
#endif

#endif
