/*
 * six_calls: every call of xurbalenz.h from C (and, the same file, from C++): arguments in their order, the value behind the last pointer, the
 * constants, the calls over a work struct. The Rust tests look at much more; this one is here because a header that is wrong for C is not seen
 * from Rust.
 */
#include "xurbalenz.h"
#include "xurbalenz.h" /* twice: it is guarded */

#include <stdio.h>
#include <string.h>

static int checks, faults;

static void check(int good, int line)
{
    checks++;
    if (!good) {
        faults++;
        printf("six_calls: line %d\n", line);
    }
}

#define CHECK(good) check(good, __LINE__)

static XurbalenzSession session;
static uint8_t out[40000], pixels[3 * 70 * 40];
static uint16_t picture[70 * 40 + 1];
static int32_t y[XURBALENZ_LIST], cb[XURBALENZ_LIST], cr[XURBALENZ_LIST], scratch[XURBALENZ_LIST];

static void constants(void)
{
    static const char *const words[18] = {"done",  "cut",   "buffer", "kind",    "length", "field", "too big",
                                          "quant", "place", "range",  "overrun", "tail",   "order", "room",
                                          "version not taken", "no setting", "out of order", "tile missing"};
    static const int numbers[18] = {XURBALENZ_DONE,  XURBALENZ_CUT,   XURBALENZ_BUFFER, XURBALENZ_KIND,    XURBALENZ_LENGTH, XURBALENZ_FIELD, XURBALENZ_TOO_BIG,
                                    XURBALENZ_QUANT, XURBALENZ_PLACE, XURBALENZ_RANGE,  XURBALENZ_OVERRUN, XURBALENZ_TAIL,   XURBALENZ_ORDER, XURBALENZ_ROOM,
                                    XURBALENZ_VERSION_NOT_TAKEN, XURBALENZ_NO_SETTING, XURBALENZ_OUT_OF_ORDER, XURBALENZ_TILE_MISSING};
    char version[40];
    int i;
    for (i = 0; i < 18; i++) CHECK(numbers[i] == i && strcmp(xurbalenz_word((uint8_t)i), words[i]) == 0);
    CHECK(strcmp(xurbalenz_word(18), "unknown") == 0 && strcmp(xurbalenz_word(255), "unknown") == 0);
    for (i = 0; i < 18; i++) CHECK(strlen(xurbalenz_says((uint8_t)i)) > 10 && strcmp(xurbalenz_says((uint8_t)i), xurbalenz_says(18)) != 0);
    CHECK(strcmp(xurbalenz_says(XURBALENZ_PLACE), "a tile starts outside the channel, or a list names a tile that is not there") == 0);
    CHECK(strcmp(xurbalenz_says(18), "a number that has no word here") == 0 && xurbalenz_says(255) == xurbalenz_says(18));
    sprintf(version, "%d.%d.%d", XURBALENZ_VERSION / 10000, XURBALENZ_VERSION / 100 % 100, XURBALENZ_VERSION % 100);
    CHECK(strcmp(version, XURBALENZ_VERSION_TEXT) == 0);
    CHECK(XURBALENZ_RECORD_LAYOUT && sizeof session == 16 && xurbalenz_record_16() == 16);
    CHECK(XURBALENZ_TILES(70, 40) == 2 && XURBALENZ_TILES(64, 64) == 1 && XURBALENZ_TILES(4096, 2048) == 2048);
    CHECK(XURBALENZ_FRAME_ROOM(1, 1) == 77 + 19 + 3 * 65535);
}

static void components(uint8_t mode)
{
    xurbalenz_size bits = 9, size = 9;
    int i;
    memset(y, 0, sizeof y);
    y[0] = -1;
    CHECK(xurbalenz_write_component(mode, y, XURBALENZ_LIST, out, 4, &size) == XURBALENZ_DONE && size == 4);
    CHECK(out[0] == 0xA0 && out[1] == 0 && out[2] == 0 && out[3] == 0);
    CHECK(xurbalenz_write_component(mode, y, XURBALENZ_LIST, out, 3, &size) == XURBALENZ_ROOM && size == 0);
    for (i = 0; i < XURBALENZ_LIST; i++) cb[i] = 7;
    CHECK(xurbalenz_read_component(mode, out, 4, cb, XURBALENZ_LIST - 1, &bits) == XURBALENZ_BUFFER && bits == 0 && cb[0] == 7);
    CHECK(xurbalenz_read_component(mode, out, 4, cb, XURBALENZ_LIST, &bits) == XURBALENZ_DONE && bits == (mode == XURBALENZ_RLGR1 ? 28u : 27u));
    CHECK(memcmp(y, cb, sizeof y) == 0);
    CHECK(xurbalenz_read_component(mode, out, 0, cb, XURBALENZ_LIST, &bits) == XURBALENZ_CUT && bits == 0 && cb[0] == 0);
    CHECK(xurbalenz_read_component(0, out, 4, cb, XURBALENZ_LIST, &bits) == XURBALENZ_FIELD);
}

static void frames(uint8_t mode)
{
    static const uint8_t quant[10] = XURBALENZ_DEFAULT_QUANT;
    static const size_t blocks[4] = {12, 10, 12, 13};
    xurbalenz_size size = 9, tiles = 9;
    size_t at = 0, i;
    CHECK(xurbalenz_write_headers(70, 40, mode, out, XURBALENZ_HEADERS_SIZE - 1, &size) == XURBALENZ_ROOM && size == 0);
    CHECK(xurbalenz_write_headers(70, 40, mode, out, sizeof out, &size) == XURBALENZ_DONE && size == XURBALENZ_HEADERS_SIZE);
    CHECK(xurbalenz_read_header(&session, out, 11) == XURBALENZ_CUT);
    CHECK(xurbalenz_read_header(&session, out + 22, 12) == XURBALENZ_ORDER);
    for (i = 0; i < 4; i++) {
        CHECK(xurbalenz_read_header(&session, out + at, blocks[i]) == XURBALENZ_DONE && session.headers == i + 1);
        at += blocks[i];
    }
    CHECK(session.width == 70 && session.height == 40 && session.mode == mode);
    memset(pixels, 255, sizeof pixels); /* white */
    memset(picture, 0, sizeof picture);
    CHECK(xurbalenz_write_frame(70, 40, mode, quant, 5, pixels, sizeof pixels, y, XURBALENZ_LIST, scratch, XURBALENZ_LIST, out, 71, &size) ==
              XURBALENZ_ROOM &&
          size == 0);
    CHECK(xurbalenz_write_frame(70, 40, mode, quant, 5, pixels, sizeof pixels, y, XURBALENZ_LIST, scratch, XURBALENZ_LIST, out, sizeof out,
                                &size) == XURBALENZ_DONE &&
          size > 72);
    CHECK(out[8] == 5);
    CHECK(xurbalenz_read_frame(&session, out, size - 1, picture, 70 * 40, y, XURBALENZ_LIST, cb, XURBALENZ_LIST, cr, XURBALENZ_LIST, scratch,
                               XURBALENZ_LIST, &tiles) == XURBALENZ_CUT &&
          tiles == 0 && picture[0] == 0);
    CHECK(xurbalenz_read_frame(&session, out, size, picture, 70 * 40 - 1, y, XURBALENZ_LIST, cb, XURBALENZ_LIST, cr, XURBALENZ_LIST, scratch,
                               XURBALENZ_LIST, &tiles) == XURBALENZ_BUFFER);
    CHECK(xurbalenz_read_frame(&session, out, size, picture, 70 * 40, y, XURBALENZ_LIST, cb, XURBALENZ_LIST, cr, XURBALENZ_LIST, scratch,
                               XURBALENZ_LIST, &tiles) == XURBALENZ_DONE &&
          tiles == 2);
    for (i = 0; i < 70 * 40 && picture[i] == 0xFFFF; i++) {
    }
    CHECK(i == 70 * 40 && picture[i] == 0); /* all white, and the word behind the channel as it was */
}

/* The record with a byte of one of its numbers put off by so much. */
static XurbalenzSession bent(XurbalenzSession s, size_t at, int by)
{
    uint8_t *byte = (uint8_t *)&s + at;
    *byte = (uint8_t)(*byte + by);
    return s;
}

/* A record in which columns, rows or words is off by one, or the glass is neither 0 nor 1, is 12 in both calls, and takes a good sync; a glass of 1 is
   kept, and refuses a picture of 16-bit words; what stands behind the glass is not judged. The session is ready; out gets our headers, and our frame
   behind them. */
static void records(uint8_t mode)
{
    static const uint8_t quant[10] = XURBALENZ_DEFAULT_QUANT;
    static const size_t places[4] = {offsetof(XurbalenzSession, columns), offsetof(XurbalenzSession, rows), offsetof(XurbalenzSession, words),
                                     offsetof(XurbalenzSession, glass)};
    XurbalenzSession fresh = XURBALENZ_FRESH, s = xurbalenz_session_of(4, 70, 40, mode), four = s, three = xurbalenz_session_of(3, 70, 40, 0);
    uint8_t *frame = out + XURBALENZ_HEADERS_SIZE;
    xurbalenz_size size = 9, tiles = 9;
    size_t i;
    int by;
    CHECK(xurbalenz_write_headers(70, 40, mode, out, XURBALENZ_HEADERS_SIZE, &size) == XURBALENZ_DONE);
    CHECK(xurbalenz_write_frame(70, 40, mode, quant, 5, pixels, sizeof pixels, y, XURBALENZ_LIST, scratch, XURBALENZ_LIST, frame,
                                sizeof out - XURBALENZ_HEADERS_SIZE, &size) == XURBALENZ_DONE);
    CHECK(fresh.headers == 0 && fresh.columns == 0 && fresh.rows == 0 && fresh.words == 0 && fresh.glass == 0);
    CHECK(s.columns == 2 && s.rows == 1 && s.words == 2800 && s.glass == 0);
    CHECK(session.headers == 4 && session.columns == 2 && session.rows == 1 && session.words == 2800 && session.glass == 0);
    CHECK(xurbalenz_read_header(&three, out + 34, 13) == XURBALENZ_DONE && three.headers == 4 && three.words == 2800);
    for (i = 0; i < 4; i++) {
        for (by = -1; by <= 1; by += 2) {
            int off = i == 3 && by == 1 ? 2 : by;
            s = bent(four, places[i], off);
            CHECK(xurbalenz_read_frame(&s, frame, size, picture, 70 * 40, y, XURBALENZ_LIST, cb, XURBALENZ_LIST, cr, XURBALENZ_LIST, scratch,
                                       XURBALENZ_LIST, &tiles) == XURBALENZ_ORDER &&
                  tiles == 0);
            three = bent(xurbalenz_session_of(3, 70, 40, 0), places[i], off);
            CHECK(xurbalenz_read_header(&three, out + 34, 13) == XURBALENZ_ORDER && three.headers == 3);
            CHECK(xurbalenz_read_header(&s, out, 12) == XURBALENZ_DONE);
            CHECK(s.headers == 1 && s.mode == 0 && s.width == 0 && s.height == 0 && s.columns == 0 && s.rows == 0 && s.words == 0 && s.glass == 0);
        }
    }
    s = bent(four, places[3], 1);
    CHECK(xurbalenz_read_frame(&s, frame, size, picture, 70 * 40, y, XURBALENZ_LIST, cb, XURBALENZ_LIST, cr, XURBALENZ_LIST, scratch,
                               XURBALENZ_LIST, &tiles) == XURBALENZ_BUFFER &&
          tiles == 0);
    CHECK(xurbalenz_read_header(&s, out, 12) == XURBALENZ_DONE && s.headers == 1 && s.glass == 1);
    memset((uint8_t *)&four + 13, 0xFF, 3);
    CHECK(xurbalenz_read_frame(&four, frame, size, picture, 70 * 40, y, XURBALENZ_LIST, cb, XURBALENZ_LIST, cr, XURBALENZ_LIST, scratch,
                               XURBALENZ_LIST, &tiles) == XURBALENZ_DONE &&
          tiles == 2);
}

/* Do the numbers of a list have this value? */
static int all(const int32_t *list, int32_t value)
{
    int i = 0;
    while (i < XURBALENZ_LIST && list[i] == value) i++;
    return i == XURBALENZ_LIST;
}

static void fill(struct XurbalenzWork *work)
{
    int i;
    for (i = 0; i < XURBALENZ_LIST; i++) work->y[i] = work->cb[i] = work->cr[i] = work->scratch[i] = 7;
}

/* The calls over a work struct answer and leave memory as the raw ones do, whatever the struct holds. */
static void works(uint8_t mode)
{
    static const uint8_t quant[10] = XURBALENZ_DEFAULT_QUANT, coarse[10] = {16, 6, 6, 6, 7, 7, 8, 8, 8, 9};
    static struct XurbalenzWork work; /* tag and name are one type */
    static uint8_t again[sizeof out];
    static uint16_t shown[70 * 40 + 1];
    struct XurbalenzSession *s = &session;
    xurbalenz_size size = 9, tiles = 9, n = 9;
    size_t i;
    CHECK(sizeof work == 4 * 4 * 4096 && sizeof work.y == 4 * XURBALENZ_LIST);
    for (i = 0; i < sizeof pixels; i++) pixels[i] = (uint8_t)(i * i >> 5);
    memset(out, 0xA5, sizeof out);
    memset(again, 0xA5, sizeof again);
    fill(&work);
    CHECK(xurbalenz_write_frame_with(70, 40, mode, coarse, 5, pixels, sizeof pixels, &work, again, sizeof again, &n) == XURBALENZ_QUANT && n == 0);
    CHECK(xurbalenz_write_frame_with(70, 40, mode, quant, 5, pixels, sizeof pixels - 1, &work, again, sizeof again, &n) == XURBALENZ_BUFFER && n == 0);
    CHECK(all(work.y, 7) && all(work.scratch, 7));
    CHECK(xurbalenz_write_frame_with(70, 40, mode, quant, 5, pixels, sizeof pixels, &work, again, sizeof again, &n) == XURBALENZ_DONE && n > 72);
    CHECK(all(work.y, 0) && all(work.cb, 7) && all(work.cr, 7) && all(work.scratch, 0));
    CHECK(xurbalenz_write_frame(70, 40, mode, quant, 5, pixels, sizeof pixels, y, XURBALENZ_LIST, scratch, XURBALENZ_LIST, out, sizeof out,
                                &size) == XURBALENZ_DONE &&
          size == n && memcmp(out, again, sizeof out) == 0);
    CHECK(xurbalenz_write_frame_with(70, 40, mode, quant, 5, pixels, sizeof pixels, &work, again, size - 1, &n) == XURBALENZ_ROOM && n == 0);
    fill(&work);
    memset(shown, 0, sizeof shown);
    CHECK(xurbalenz_read_frame_with(s, out, size, shown, 70 * 40 - 1, &work, &tiles) == XURBALENZ_BUFFER && tiles == 0 && all(work.y, 7));
    CHECK(xurbalenz_read_frame_with(s, out, size - 1, shown, 70 * 40, &work, &tiles) == XURBALENZ_CUT && tiles == 0 && shown[0] == 0);
    CHECK(all(work.y, 0) && all(work.cb, 0) && all(work.cr, 0) && all(work.scratch, 0));
    fill(&work);
    CHECK(xurbalenz_read_frame_with(s, out, size, shown, 70 * 40, &work, &tiles) == XURBALENZ_DONE && tiles == 2);
    CHECK(all(work.y, 0) && all(work.cb, 0) && all(work.cr, 0) && all(work.scratch, 0));
    CHECK(xurbalenz_read_frame(s, out, size, picture, 70 * 40, y, XURBALENZ_LIST, cb, XURBALENZ_LIST, cr, XURBALENZ_LIST, scratch,
                               XURBALENZ_LIST, &tiles) == XURBALENZ_DONE &&
          tiles == 2 && memcmp(picture, shown, sizeof picture) == 0 && picture[0] != 0xFFFF);
    memset(s, 0, sizeof *s); /* fresh */
    CHECK(xurbalenz_read_frame_with(s, out, size, shown, 70 * 40, &work, &tiles) == XURBALENZ_ORDER && tiles == 0);
}

/* Sending only what changed: the list, the check, the short frame on a glass that shows the old picture. */
static void changes(uint8_t mode)
{
    static const uint8_t quant[10] = XURBALENZ_DEFAULT_QUANT;
    static const uint32_t both[2] = {0, 1}, again[2] = {1, 1}, beyond[1] = {2};
    static uint8_t old[sizeof pixels];
    static uint16_t want[70 * 40];
    uint32_t picks[2] = {7, 7};
    xurbalenz_size count = 9, size = 9, full = 9, tiles = 9;
    frames(mode); /* the session's headers are in, and the glass is white */
    memset(old, 255, sizeof old);
    memset(pixels, 255, sizeof pixels);
    memset(pixels + 3 * 65, 0, 9); /* three pixels of the second tile */
    CHECK(xurbalenz_make_plan(70, 40, old, sizeof old, pixels, sizeof pixels, picks, 0, &count) == XURBALENZ_ROOM && count == 0);
    CHECK(xurbalenz_make_plan(70, 40, old, sizeof old, pixels, sizeof pixels, picks, 2, &count) == XURBALENZ_DONE && count == 1);
    CHECK(picks[0] == 1 && picks[1] == 7);
    CHECK(xurbalenz_check_plan(70, 40, old, sizeof old, pixels, sizeof pixels, picks, 1) == XURBALENZ_DONE);
    CHECK(xurbalenz_check_plan(70, 40, old, sizeof old, pixels, sizeof pixels, picks, 0) == XURBALENZ_TILE_MISSING);
    CHECK(xurbalenz_check_plan(70, 40, old, sizeof old, pixels, sizeof pixels, again, 2) == XURBALENZ_OUT_OF_ORDER);
    CHECK(xurbalenz_check_plan(70, 40, old, sizeof old, pixels, sizeof pixels, beyond, 1) == XURBALENZ_PLACE);
    CHECK(xurbalenz_check_plan(70, 40, old, sizeof old - 1, pixels, sizeof pixels, both, 2) == XURBALENZ_BUFFER);
    CHECK(xurbalenz_write_frame(70, 40, mode, quant, 5, pixels, sizeof pixels, y, XURBALENZ_LIST, scratch, XURBALENZ_LIST, out, sizeof out, &full) ==
          XURBALENZ_DONE);
    memcpy(want, picture, sizeof want);
    CHECK(xurbalenz_read_frame(&session, out, full, want, 70 * 40, y, XURBALENZ_LIST, cb, XURBALENZ_LIST, cr, XURBALENZ_LIST, scratch, XURBALENZ_LIST,
                               &tiles) == XURBALENZ_DONE &&
          tiles == 2);
    CHECK(xurbalenz_write_frame_short(70, 40, mode, quant, quant, 5, old, sizeof old, pixels, sizeof pixels, picks, 1, y, XURBALENZ_LIST, scratch,
                                      XURBALENZ_LIST, out, sizeof out, &size) == XURBALENZ_DONE &&
          size < full);
    CHECK(xurbalenz_read_frame(&session, out, size, picture, 70 * 40, y, XURBALENZ_LIST, cb, XURBALENZ_LIST, cr, XURBALENZ_LIST, scratch,
                               XURBALENZ_LIST, &tiles) == XURBALENZ_DONE &&
          tiles == 1 && memcmp(picture, want, sizeof want) == 0);
    CHECK(xurbalenz_write_frame_short(70, 40, mode, quant, quant, 5, old, sizeof old, pixels, sizeof pixels, both, 2, y, XURBALENZ_LIST, scratch,
                                      XURBALENZ_LIST, out, sizeof out, &size) == XURBALENZ_DONE &&
          size == full);
    CHECK(xurbalenz_write_frame_short(70, 40, mode, quant, quant, 5, pixels, sizeof pixels, pixels, sizeof pixels, both, 0, y, XURBALENZ_LIST, scratch,
                                      XURBALENZ_LIST, out, 72, &size) == XURBALENZ_DONE &&
          size == 72);
}

static size_t number_at(const uint8_t *at, int bytes)
{
    size_t n = 0;
    while (bytes--) n = n << 8 | at[bytes];
    return n;
}

static void put_number(uint8_t *at, size_t n, int bytes)
{
    for (; bytes--; n >>= 8) *at++ = (uint8_t)n;
}

/* A frame of our own with a zero byte where FreeRDP puts one, behind each code whose bits mod 8 are 5, 6 or 7: the panel refuses it, and tidied it is what our
   writer wrote. */
static void surplus(uint8_t mode)
{
    static const uint8_t quant[10] = XURBALENZ_DEFAULT_QUANT;
    static uint8_t bent[sizeof out], tidied[sizeof out];
    xurbalenz_size size = 9, tiles = 9;
    size_t count = 0, from = 64, to = 64;
    frames(mode);
    memset(pixels + 3 * 65, 100, 9);
    CHECK(xurbalenz_write_frame(70, 40, mode, quant, 5, pixels, sizeof pixels, y, XURBALENZ_LIST, scratch, XURBALENZ_LIST, out, sizeof out, &size) ==
          XURBALENZ_DONE);
    memcpy(bent, out, 64);
    for (int tile = 0; tile < 2; tile++) {
        size_t head = to, code = from + 19;
        memcpy(bent + to, out + from, 19);
        to += 19;
        for (int k = 0; k < 3; k++) {
            size_t length = number_at(out + from + 13 + 2 * k, 2), more;
            xurbalenz_size bits = 0;
            CHECK(xurbalenz_read_component(mode, out + code, length, y, XURBALENZ_LIST, &bits) == XURBALENZ_DONE);
            more = bits % 8 >= 5;
            count += more;
            memcpy(bent + to, out + code, length);
            bent[to + length] = 0;
            put_number(bent + head + 13 + 2 * k, length + more, 2);
            to += length + more;
            code += length;
        }
        put_number(bent + head + 2, to - head, 4);
        from = code;
    }
    put_number(bent + 39, to - 37, 4);
    put_number(bent + 55, to - 64, 4);
    memcpy(bent + to, out + from, 8);
    CHECK(from + 8 == size && to + 8 == size + count && count > 0);
    CHECK(xurbalenz_read_frame(&session, bent, to + 8, picture, 70 * 40, y, XURBALENZ_LIST, cb, XURBALENZ_LIST, cr, XURBALENZ_LIST, scratch, XURBALENZ_LIST,
                               &tiles) == XURBALENZ_TAIL);
    xurbalenz_size told[2] = {9, 9};
    CHECK(xurbalenz_tidy_frame(XURBALENZ_FREERDP, 70, 40, mode, bent, to + 8, y, XURBALENZ_LIST - 1, tidied, sizeof tidied, told) == XURBALENZ_BUFFER && told[0] == 0 &&
          told[1] == 0);
    CHECK(xurbalenz_tidy_frame(XURBALENZ_FREERDP, 70, 40, mode, bent, to + 8, y, XURBALENZ_LIST, tidied, to + 7, told) == XURBALENZ_ROOM && told[0] == 0 && told[1] == 0);
    CHECK(xurbalenz_tidy_frame(XURBALENZ_FREERDP, 70, 40, mode, bent, to + 8, y, XURBALENZ_LIST, tidied, sizeof tidied, told) == XURBALENZ_DONE && told[0] == size && told[1] == count);
    CHECK(memcmp(tidied, out, size) == 0 && all(y, 0));
    CHECK(xurbalenz_tidy_frame(XURBALENZ_STRICT, 70, 40, mode, bent, to + 8, y, XURBALENZ_LIST, tidied, sizeof tidied, told) == XURBALENZ_DONE &&
          told[0] == to + 8 && told[1] == 0 && memcmp(tidied, bent, told[0]) == 0);
    CHECK(xurbalenz_tidy_frame(XURBALENZ_FREERDP, 70, 40, mode, out, size, y, XURBALENZ_LIST, tidied, sizeof tidied, told) == XURBALENZ_DONE && told[0] == size && told[1] == 0);
    CHECK(memcmp(tidied, out, size) == 0);
    bent[12] = 2; /* two regions: as it came */
    CHECK(xurbalenz_tidy_frame(XURBALENZ_FREERDP, 70, 40, mode, bent, to + 8, y, XURBALENZ_LIST, tidied, sizeof tidied, told) == XURBALENZ_DONE && told[0] == to + 8 &&
          told[1] == 0 && memcmp(tidied, bent, told[0]) == 0);
    CHECK(xurbalenz_tidy_frame(3, 70, 40, mode, bent, to + 8, y, XURBALENZ_LIST - 1, tidied, 0, told) == XURBALENZ_FIELD && told[0] == 0 && told[1] == 0);
    bent[12] = 1; /* 65,936 is no width, and not 400: as it came */
    CHECK(xurbalenz_tidy_frame(XURBALENZ_FREERDP, 65536 + 70, 40, mode, bent, to + 8, y, XURBALENZ_LIST, tidied, sizeof tidied, told) == XURBALENZ_DONE &&
          told[0] == to + 8 && told[1] == 0);
}

/* FreeRDP's order, sync, context, versions, channels: what goes on is the panel's; another length of what is held is 2, too little room 13, and nothing changes. */
static void ordered(void)
{
    uint8_t held[XURBALENZ_HELD_SIZE] = {0}, blocks[XURBALENZ_HEADERS_SIZE], sent[128];
    xurbalenz_size size = 9;
    size_t done = 0;
    CHECK(xurbalenz_write_headers(70, 40, XURBALENZ_RLGR3, blocks, sizeof blocks, &size) == XURBALENZ_DONE && size == 47);
    CHECK(xurbalenz_tidy_header(held, sizeof held - 1, blocks, 12, sent, sizeof sent, &size) == XURBALENZ_BUFFER && size == 0);
    CHECK(xurbalenz_tidy_header(held, sizeof held, blocks, 12, sent, 46, &size) == XURBALENZ_ROOM && size == 0);
    CHECK(xurbalenz_tidy_header(held, sizeof held, blocks, 12, sent, 47, &size) == XURBALENZ_DONE && size == 12);
    done += size;
    CHECK(xurbalenz_tidy_header(held, sizeof held, blocks + 34, 13, sent + done, sizeof sent - done, &size) == XURBALENZ_DONE && size == 0);
    CHECK(xurbalenz_tidy_header(held, sizeof held, blocks + 12, 10, sent + done, sizeof sent - done, &size) == XURBALENZ_DONE && size == 0);
    CHECK(xurbalenz_tidy_flush(held, sizeof held, sent + done, 34, &size) == XURBALENZ_ROOM && size == 0);
    CHECK(xurbalenz_tidy_header(held, sizeof held, blocks + 22, 12, sent + done, sizeof sent - done, &size) == XURBALENZ_DONE && size == 35);
    CHECK(memcmp(sent, blocks, sizeof blocks) == 0);
    CHECK(xurbalenz_tidy_flush(held, sizeof held, sent, sizeof sent, &size) == XURBALENZ_DONE && size == 0);
}

int main(void)
{
    constants();
    components(XURBALENZ_RLGR1);
    components(XURBALENZ_RLGR3);
    frames(XURBALENZ_RLGR1);
    records(XURBALENZ_RLGR1);
    works(XURBALENZ_RLGR1);
    changes(XURBALENZ_RLGR1);
    surplus(XURBALENZ_RLGR1);
    frames(XURBALENZ_RLGR3);
    records(XURBALENZ_RLGR3);
    works(XURBALENZ_RLGR3);
    changes(XURBALENZ_RLGR3);
    surplus(XURBALENZ_RLGR3);
    ordered();
    printf("six_calls: %d checks, %d faults\n", checks, faults);
    return faults != 0;
}
