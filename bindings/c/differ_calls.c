/*
 * differ_calls: the tiles in which two pictures differ, from C (and, the same file, from C++): arguments in their order, every count and value stored, the
 * refusals. The Rust crate's examples call them too, and the viewer's tests.
 */
#include "xurbalenz.h"

#include <stdio.h>
#include <string.h>

static int checks, faults;

static void check(int good, int line)
{
    checks++;
    if (!good) {
        faults++;
        printf("differ_calls: line %d\n", line);
    }
}

#define CHECK(good) check(good, __LINE__)

/* 70 x 65: two columns and two rows of tiles, all but the first cut */
enum { WIDTH = 70, HEIGHT = 65, WORDS = WIDTH * HEIGHT };
static uint16_t old16[WORDS + 1], next16[WORDS + 1];
static uint32_t old32[WORDS], next32[WORDS], counts[6];

/* The next tile is this one. */
static int told(xurbalenz_size from, xurbalenz_size tile, xurbalenz_size x, xurbalenz_size y, uint32_t n)
{
    xurbalenz_size t = 99, column = 99, row = 99;
    uint32_t words = 99;
    uint8_t number = xurbalenz_next_tile(WIDTH, HEIGHT, counts, 6, from, &t, &column, &row, &words);
    return number == XURBALENZ_DONE && t == tile && column == x && row == y && words == n;
}

int main(void)
{
    xurbalenz_size tile = 99, x = 99, y = 99, i;
    uint32_t n = 99;
    for (i = 0; i < WORDS; i++) old16[i] = next16[i] = (uint16_t)(i * 7), old32[i] = next32[i] = (uint32_t)(i * 70001);
    memset(counts, 9, sizeof counts);
    CHECK(xurbalenz_count_tiles(WIDTH, HEIGHT, old16, WORDS, next16, WORDS, counts, 6) == XURBALENZ_DONE);
    for (i = 0; i < 6; i++) CHECK(counts[i] == 0); /* equal: begun anew, past the last tile too */
    CHECK(told(0, 0, 0, 0, 0));

    next16[63] ^= 1;              /* the last column of tile 0 */
    next16[64] ^= 0x8000;         /* the first of tile 1 */
    next16[64 * WIDTH + 69] ^= 2; /* the last word, tile 3 */
    next16[63 * WIDTH + 69] ^= 2; /* above it, tile 1 again */
    next16[WORDS] ^= 4;           /* behind the picture */
    CHECK(xurbalenz_count_tiles(WIDTH, HEIGHT, old16, WORDS + 1, next16, WORDS + 1, counts, 6) == XURBALENZ_DONE);
    CHECK(counts[0] == 1 && counts[1] == 2 && counts[2] == 0 && counts[3] == 1 && counts[4] == 0 && counts[5] == 0);
    CHECK(told(0, 0, 0, 0, 1) && told(1, 1, 1, 0, 2) && told(2, 3, 1, 1, 1) && told(3, 3, 1, 1, 1) && told(4, 0, 0, 0, 0));

    next32[64 * WIDTH] ^= 0x10000;
    CHECK(xurbalenz_count_tiles_32(WIDTH, HEIGHT, old32, WORDS, next32, WORDS, counts, 6) == XURBALENZ_DONE);
    CHECK(counts[0] == 0 && counts[1] == 0 && counts[2] == 1 && counts[3] == 0);
    CHECK(told(0, 2, 0, 1, 1) && told(3, 0, 0, 0, 0));

    CHECK(xurbalenz_count_tiles(0, HEIGHT, old16, WORDS, next16, WORDS, counts, 6) == XURBALENZ_FIELD);
    CHECK(xurbalenz_count_tiles(WIDTH + 65536, HEIGHT, old16, WORDS, next16, WORDS, counts, 6) == XURBALENZ_FIELD); /* nothing is cut to 16 bits */
    CHECK(xurbalenz_count_tiles(WIDTH, HEIGHT, old16, WORDS - 1, next16, WORDS, counts, 6) == XURBALENZ_BUFFER);
    CHECK(xurbalenz_count_tiles(WIDTH, HEIGHT, old16, WORDS, next16, WORDS - 1, counts, 3) == XURBALENZ_BUFFER);
    CHECK(xurbalenz_count_tiles_32(WIDTH, HEIGHT, old32, WORDS, next32, WORDS, counts, 3) == XURBALENZ_ROOM);
    CHECK(counts[2] == 1); /* refused: untouched */
    CHECK(xurbalenz_next_tile(WIDTH, XURBALENZ_MAX_HEIGHT + 1, counts, 6, 0, &tile, &x, &y, &n) == XURBALENZ_FIELD);
    CHECK(tile == 0 && x == 0 && y == 0 && n == 0);
    printf("differ_calls: %d checks, %d faults\n", checks, faults);
    return faults != 0;
}
