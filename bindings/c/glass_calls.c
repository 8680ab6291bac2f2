/*
 * glass_calls: the glass of 32 bits, the version, and the writers over a work struct, from C (and, the same file, from C++): arguments in their order, every
 * value stored, both glasses beside each other, and the refusals. The Rust tests look at much more.
 */
#include "xurbalenz.h"

#include <stdio.h>
#include <string.h>

#define W 70
#define H 40

static int checks, faults;

static void check(int good, int line)
{
    checks++;
    if (!good) {
        faults++;
        printf("glass_calls: line %d\n", line);
    }
}

#define CHECK(good) check(good, __LINE__)

static const uint8_t luma[10] = XURBALENZ_DEFAULT_QUANT, chroma[10] = {7, 7, 7, 7, 8, 8, 9, 9, 9, 10};
static XurbalenzWork work;
static int32_t y[XURBALENZ_LIST], cb[XURBALENZ_LIST], cr[XURBALENZ_LIST], scratch[XURBALENZ_LIST];
static uint8_t old[3 * W * H], next[3 * W * H], out[40000], again[40000];
static uint16_t narrow[W * H + 1];
static uint32_t wide[W * H + 1], wide_again[W * H + 1];
static xurbalenz_size size, n, tiles, count;

static uint8_t raw_32(XurbalenzSession *s, const uint8_t *message, xurbalenz_size length, uint32_t *picture, xurbalenz_size words)
{
    tiles = 9;
    return xurbalenz_read_frame_32(s, message, length, picture, words, y, XURBALENZ_LIST, cb, XURBALENZ_LIST, cr, XURBALENZ_LIST, scratch, XURBALENZ_LIST,
                                   &tiles);
}

/* A session of this glass, with its four headers in. */
static XurbalenzSession ready(uint8_t glass, uint8_t mode)
{
    static const size_t blocks[4] = {12, 10, 12, 13};
    XurbalenzSession s = xurbalenz_open(glass);
    uint8_t headers[XURBALENZ_HEADERS_SIZE];
    size_t at = 0, i;
    CHECK(s.glass == glass && s.headers == 0 && s.words == 0);
    CHECK(xurbalenz_write_headers(W, H, mode, headers, sizeof headers, &size) == XURBALENZ_DONE && size == sizeof headers);
    for (i = 0; i < 4; i++) {
        CHECK(xurbalenz_read_header(&s, headers + at, blocks[i]) == XURBALENZ_DONE);
        at += blocks[i];
    }
    CHECK(s.headers == 4 && s.width == W && s.height == H && s.words == W * H && s.glass == glass); /* the sync kept it */
    return s;
}

/* One frame on both glasses: the same places, the same colours but for the bits that 5-6-5 has not. */
static void both(uint8_t mode)
{
    XurbalenzSession s16 = ready(XURBALENZ_GLASS_16, mode), s32 = ready(XURBALENZ_GLASS_32, mode), was;
    size_t i, off = 0;
    for (i = 0; i < sizeof next; i++) next[i] = (uint8_t)(i * i >> 5);
    CHECK(xurbalenz_write_frame_with(W, H, mode, luma, 3, next, sizeof next, &work, out, sizeof out, &size) == XURBALENZ_DONE);
    memset(wide, 0x77, sizeof wide);
    memset(wide_again, 0x77, sizeof wide_again);
    CHECK(raw_32(&s32, out, size, wide, W * H - 1) == XURBALENZ_BUFFER && tiles == 0 && wide[0] == 0x77777777);
    CHECK(raw_32(&s16, out, size, wide, W * H) == XURBALENZ_BUFFER && tiles == 0);
    CHECK(raw_32(&s32, out, size - 1, wide, W * H) == XURBALENZ_CUT && tiles == 0 && wide[0] == 0x77777777);
    was = s32;
    CHECK(raw_32(&s32, out, size, wide, W * H + 1) == XURBALENZ_DONE && tiles == 2 && memcmp(&s32, &was, 13) == 0);
    CHECK(wide[W * H] == 0x77777777 && y[0] == 0 && scratch[4095] == 0);
    tiles = 9;
    CHECK(xurbalenz_read_frame_32_with(&s32, out, size, wide_again, W * H, &work, &tiles) == XURBALENZ_DONE && tiles == 2);
    CHECK(memcmp(wide, wide_again, sizeof wide) == 0);
    CHECK(xurbalenz_read_frame_with(&s32, out, size, narrow, W * H, &work, &tiles) == XURBALENZ_BUFFER && tiles == 0); /* the other's glass */
    CHECK(xurbalenz_read_frame_32_with(&s16, out, size, wide_again, W * H, &work, &tiles) == XURBALENZ_BUFFER && tiles == 0);
    CHECK(xurbalenz_read_frame_with(&s16, out, size, narrow, W * H, &work, &tiles) == XURBALENZ_DONE && tiles == 2);
    for (i = 0; i < W * H; i++) {
        uint32_t w = wide[i];
        off += w >> 24 != 0 || narrow[i] != ((w >> 8 & 0xF800) | (w >> 5 & 0x07E0) | (w >> 3 & 0x001F));
    }
    CHECK(off == 0);
}

/* What another glass than the two makes of a record. */
static void glasses(uint8_t mode)
{
    XurbalenzSession s = ready(XURBALENZ_GLASS_32, mode);
    CHECK(XURBALENZ_GLASS_16 == 0 && XURBALENZ_GLASS_32 == 1 && XURBALENZ_RLGR1 == 1 && XURBALENZ_RLGR3 == 4);
    s.glass = 2;
    CHECK(raw_32(&s, out, size, wide, W * H) == XURBALENZ_ORDER && tiles == 0);
    CHECK(xurbalenz_version() == XURBALENZ_VERSION);
    CHECK(xurbalenz_record_16() == sizeof(XurbalenzSession) && xurbalenz_collector_32() == sizeof(XurbalenzCollector) && sizeof(xurbalenz_size) == 8);
}

/* The writers over a work struct write what the others write. */
static void works(uint8_t mode)
{
    uint32_t picks[2] = {7, 7};
    memcpy(old, next, sizeof old);
    next[3 * 65] ^= 0x80; /* a pixel of the second tile */
    CHECK(xurbalenz_make_plan(W, H, old, sizeof old, next, sizeof next, picks, 2, &count) == XURBALENZ_DONE && count == 1 && picks[0] == 1 && picks[1] == 7);
    CHECK(xurbalenz_check_plan(W, H, old, sizeof old, next, sizeof next, picks, count) == XURBALENZ_DONE);
    memset(out, 0xA5, sizeof out);
    memset(again, 0xA5, sizeof again);
    CHECK(xurbalenz_write_frame_sets(W, H, mode, luma, chroma, 5, next, sizeof next, y, XURBALENZ_LIST, scratch, XURBALENZ_LIST, out, sizeof out, &size) ==
          XURBALENZ_DONE);
    CHECK(xurbalenz_write_frame_sets_with(W, H, mode, luma, chroma, 5, next, sizeof next, &work, again, sizeof again, &n) == XURBALENZ_DONE);
    CHECK(n == size && memcmp(out, again, sizeof out) == 0);
    CHECK(xurbalenz_write_frame_sets_with(W, H, mode, luma, chroma, 5, next, sizeof next, &work, again, size - 1, &n) == XURBALENZ_ROOM && n == 0);
    memset(out, 0xA5, sizeof out);
    memset(again, 0xA5, sizeof again);
    CHECK(xurbalenz_write_frame_short(W, H, mode, luma, chroma, 5, old, sizeof old, next, sizeof next, picks, 1, y, XURBALENZ_LIST, scratch,
                                      XURBALENZ_LIST, out, sizeof out, &size) == XURBALENZ_DONE);
    CHECK(xurbalenz_write_frame_short_with(W, H, mode, luma, chroma, 5, old, sizeof old, next, sizeof next, picks, 1, &work, again, sizeof again, &n) ==
          XURBALENZ_DONE);
    CHECK(n == size && memcmp(out, again, sizeof out) == 0);
    CHECK(xurbalenz_write_frame_short_with(W, H, mode, luma, chroma, 5, old, sizeof old, next, sizeof next, picks, 0, &work, again, sizeof again, &n) ==
              XURBALENZ_TILE_MISSING &&
          n == 0);
}

/* A short frame on a glass of 32 bits that shows the old picture leaves what a full frame of the new one gives. */
static void changed(uint8_t mode)
{
    XurbalenzSession s = ready(XURBALENZ_GLASS_32, mode);
    uint32_t picks[2];
    CHECK(xurbalenz_write_frame_sets_with(W, H, mode, luma, chroma, 0, old, sizeof old, &work, out, sizeof out, &size) == XURBALENZ_DONE);
    CHECK(xurbalenz_read_frame_32_with(&s, out, size, wide, W * H, &work, &tiles) == XURBALENZ_DONE && tiles == 2);
    CHECK(xurbalenz_make_plan(W, H, old, sizeof old, next, sizeof next, picks, 2, &count) == XURBALENZ_DONE);
    CHECK(xurbalenz_write_frame_short_with(W, H, mode, luma, chroma, 1, old, sizeof old, next, sizeof next, picks, count, &work, out, sizeof out, &size) ==
          XURBALENZ_DONE);
    CHECK(xurbalenz_read_frame_32_with(&s, out, size, wide, W * H, &work, &tiles) == XURBALENZ_DONE && tiles == 1);
    CHECK(xurbalenz_write_frame_sets_with(W, H, mode, luma, chroma, 2, next, sizeof next, &work, out, sizeof out, &size) == XURBALENZ_DONE);
    CHECK(xurbalenz_read_frame_32_with(&s, out, size, wide_again, W * H, &work, &tiles) == XURBALENZ_DONE && tiles == 2);
    CHECK(memcmp(wide, wide_again, 4 * W * H) == 0);
}

int main(void)
{
    static const uint8_t modes[2] = {XURBALENZ_RLGR1, XURBALENZ_RLGR3};
    int i;
    for (i = 0; i < 2; i++) {
        both(modes[i]);
        glasses(modes[i]);
        works(modes[i]);
        changed(modes[i]);
    }
    printf("glass_calls: %d checks, %d faults\n", checks, faults);
    return faults != 0;
}
