/*
 * settings_calls: settings from and to bytes, and frames with luma's and chroma's quantisers, from C (and, the same file, from C++): arguments in their
 * order, every value stored, the refusals. The Rust tests look at much more.
 */
#include "xurbalenz.h"

#include <stdio.h>
#include <string.h>

static int checks, faults;

static void check(int good, int line)
{
    checks++;
    if (!good) {
        faults++;
        printf("settings_calls: line %d\n", line);
    }
}

#define CHECK(good) check(good, __LINE__)

static const uint8_t luma[10] = XURBALENZ_DEFAULT_QUANT, chroma[10] = {7, 7, 7, 7, 8, 8, 9, 9, 9, 10}, bad[10] = {6, 6, 6, 6, 6, 6, 6, 6, 6, 16};
static const uint8_t one[10] = {0, 1, 0, 1, 0x66, 0x66, 0x77, 0x88, 0x98, 4};
static const uint8_t two[15] = {0, 2, 0, 2, 0x66, 0x66, 0x77, 0x88, 0x98, 0x77, 0x77, 0x88, 0x99, 0xA9, 1};
static uint8_t first[10], second[10], mode, out[4096];
static xurbalenz_size size;

static uint8_t read_with(uint8_t newest, const uint8_t *bytes, size_t len)
{
    static const uint8_t zeros[10] = {0, 0, 0, 0, 0, 0, 0, 0, 0, 0};
    uint8_t number;
    memset(first, 99, sizeof first);
    memset(second, 99, sizeof second);
    mode = 99;
    number = xurbalenz_read_settings(newest, bytes, len, first, second, &mode);
    CHECK(number == XURBALENZ_DONE || (memcmp(first, zeros, 10) == 0 && memcmp(second, zeros, 10) == 0 && mode == 0));
    return number;
}

static void reading(void)
{
    uint8_t bent[15];
    size_t i;
    CHECK(read_with(1, one, 10) == XURBALENZ_DONE && memcmp(first, luma, 10) == 0 && memcmp(second, luma, 10) == 0 && mode == XURBALENZ_RLGR3);
    CHECK(read_with(2, two, 15) == XURBALENZ_DONE && memcmp(first, luma, 10) == 0 && memcmp(second, chroma, 10) == 0 && mode == XURBALENZ_RLGR1);
    CHECK(read_with(1, two, 15) == XURBALENZ_VERSION_NOT_TAKEN && read_with(0, one, 10) == XURBALENZ_VERSION_NOT_TAKEN);
    CHECK(read_with(2, two, 3) == XURBALENZ_NO_SETTING && read_with(2, two, 0) == XURBALENZ_CUT);
    for (i = 4; i < 15; i++) CHECK(read_with(2, two, i) == XURBALENZ_CUT);
    CHECK(read_with(2, two + 3, 12) == XURBALENZ_ORDER);
    memcpy(bent, two, 15);
    bent[3] = 3;
    CHECK(read_with(2, bent, 15) == XURBALENZ_KIND);
    bent[3] = 2;
    bent[13] = 5;
    CHECK(read_with(2, bent, 15) == XURBALENZ_QUANT);
    bent[13] = two[13];
    bent[14] = 2;
    CHECK(read_with(2, bent, 15) == XURBALENZ_FIELD);
}

static void writing(void)
{
    memset(out, 0xA5, sizeof out);
    CHECK(xurbalenz_write_settings(luma, luma, XURBALENZ_RLGR3, out, 10, &size) == XURBALENZ_DONE && size == 10 && memcmp(out, one, 10) == 0);
    CHECK(xurbalenz_write_settings(luma, chroma, XURBALENZ_RLGR1, out, XURBALENZ_SETTINGS_SIZE, &size) == XURBALENZ_DONE && size == 15);
    CHECK(memcmp(out, two, 15) == 0 && out[15] == 0xA5);
    CHECK(xurbalenz_write_settings(luma, chroma, XURBALENZ_RLGR1, out, 14, &size) == XURBALENZ_ROOM && size == 0);
    CHECK(xurbalenz_write_settings(bad, luma, 9, out, 0, &size) == XURBALENZ_QUANT && size == 0);
    CHECK(xurbalenz_write_settings(luma, bad, 9, out, 0, &size) == XURBALENZ_QUANT && size == 0);
    CHECK(xurbalenz_write_settings(luma, chroma, 9, out, 0, &size) == XURBALENZ_FIELD && size == 0);
}

static void frames(void)
{
    static int32_t list[XURBALENZ_LIST], scratch[XURBALENZ_LIST], cb[XURBALENZ_LIST], cr[XURBALENZ_LIST];
    static const uint8_t pixels[6] = {200, 100, 0, 10, 90, 250};
    static uint8_t plain[4096];
    uint16_t picture[2] = {7, 7};
    XurbalenzSession s = xurbalenz_session_of(4, 2, 1, XURBALENZ_RLGR1);
    xurbalenz_size long_plain, tiles;
    CHECK(xurbalenz_write_frame(2, 1, XURBALENZ_RLGR1, luma, 5, pixels, 6, list, XURBALENZ_LIST, scratch, XURBALENZ_LIST, plain, sizeof plain,
                                &long_plain) == XURBALENZ_DONE);
    CHECK(xurbalenz_write_frame_sets(2, 1, XURBALENZ_RLGR1, luma, luma, 5, pixels, 6, list, XURBALENZ_LIST, scratch, XURBALENZ_LIST, out, sizeof out,
                                     &size) == XURBALENZ_DONE);
    CHECK(size == long_plain && memcmp(out, plain, size) == 0);
    CHECK(xurbalenz_write_frame_sets(2, 1, XURBALENZ_RLGR1, luma, chroma, 5, pixels, 6, list, XURBALENZ_LIST, scratch, XURBALENZ_LIST, out, sizeof out,
                                     &size) == XURBALENZ_DONE);
    CHECK(list[0] == 0 && scratch[4095] == 0);
    CHECK(xurbalenz_read_frame(&s, out, size, picture, 2, list, XURBALENZ_LIST, cb, XURBALENZ_LIST, cr, XURBALENZ_LIST, scratch, XURBALENZ_LIST,
                               &tiles) == XURBALENZ_DONE &&
          tiles == 1 && picture[0] != 7);
    CHECK(xurbalenz_write_frame_sets(2, 1, XURBALENZ_RLGR1, luma, bad, 5, pixels, 6, list, XURBALENZ_LIST, scratch, XURBALENZ_LIST, out, sizeof out,
                                     &size) == XURBALENZ_QUANT &&
          size == 0);
    CHECK(xurbalenz_write_frame_sets(2, 1, XURBALENZ_RLGR1, luma, chroma, 5, pixels, 5, list, XURBALENZ_LIST, scratch, XURBALENZ_LIST, out, sizeof out,
                                     &size) == XURBALENZ_BUFFER &&
          size == 0);
    CHECK(xurbalenz_write_frame_sets(2, 1, XURBALENZ_RLGR1, luma, chroma, 5, pixels, 6, list, XURBALENZ_LIST, scratch, XURBALENZ_LIST, out, 77, &size) ==
              XURBALENZ_ROOM &&
          size == 0);
}

int main(void)
{
    reading();
    writing();
    frames();
    printf("settings_calls: %d checks, %d faults\n", checks, faults);
    return faults != 0;
}
