/* damage [TIMES] NAME=FILE..: how often damage of a component's code is not seen. FILE is a recording: a stream of blocks, or of surface commands (told by its
   first two bytes); `writer:1` and `writer:4` are frames of our own writer in these modes. The codes are taken out as their sender wrote them. A code is damaged TIMES
   times in each of four ways (one bit; one byte; two bytes that follow each other set to zero; a byte lost, and the byte behind the code moves in), put into a frame
   of one tile with its own quantisers and two components of zeros, and given to the panel, and to the filter for each sender with the panel behind it. Counted is
   how often the frame is accepted with another list than the one that was sent, in percent. The first column is of the code as document 01 has it (a sender's
   surplus is taken off before it is damaged), read by the panel alone. Rows in Markdown; seeded, so that two runs say the same. */
#include "xurbalenz.h"

#include <stdio.h>
#include <stdlib.h>
#include <string.h>

#define MOST 70000
#define WAYS 4
#define SENDERS 3

typedef struct Code {
    const uint8_t *bytes;
    size_t size;
    uint8_t mode, five[5], behind;
} Code;

static Code *codes;
static size_t code_count;
static int32_t sent_list[XURBALENZ_LIST], got_list[XURBALENZ_LIST], work[4][XURBALENZ_LIST];
static uint8_t frame[MOST + 200], tidied[MOST + 200], own[MOST], bent[MOST];
static uint16_t glass[64 * 64];
static uint64_t seed = 1;

static uint64_t next_random(void)
{
    seed ^= seed << 13;
    seed ^= seed >> 7;
    seed ^= seed << 17;
    return seed;
}

static size_t number(const uint8_t *at, int bytes)
{
    size_t n = 0;
    while (bytes-- > 0) n = n << 8 | at[bytes];
    return n;
}

static uint8_t *put(uint8_t *to, size_t n, int bytes)
{
    for (; bytes > 0; bytes--, n >>= 8) *to++ = (uint8_t)n;
    return to;
}

/* ---- the codes of a recording */

static void take_tile(const uint8_t *tile, const uint8_t *sets, size_t set_count, uint8_t mode)
{
    size_t at = 19, c;
    for (c = 0; c < 3; c++) {
        size_t size = number(tile + 13 + 2 * c, 2), set = tile[6 + c];
        Code *code = &codes[code_count];
        if (set >= set_count || size == 0) continue;
        code->bytes = tile + at;
        code->size = size;
        code->mode = mode;
        code->behind = at + size < number(tile + 2, 4) ? tile[at + size] : 0;
        memcpy(code->five, sets + 5 * set, 5);
        code_count++;
        at += size;
    }
}

static void take_blocks(const uint8_t *m, size_t size, uint8_t *mode)
{
    size_t at = 0;
    while (at + 6 <= size) {
        size_t kind = number(m + at, 2), length = number(m + at + 2, 4), tile, n;
        if (length < 6 || at + length > size) exit(fprintf(stderr, "damage: a block that is not whole at %zu\n", at) * 0 + 2);
        if (kind == 0xCCC3) *mode = (uint8_t)(number(m + at + 11, 2) >> 9 & 15);
        if (kind == 0xCCC7) {
            tile = at + 22 + 5 * (size_t)m[at + 14];
            for (n = number(m + at + 16, 2); n > 0; n--) {
                take_tile(m + tile, m + at + 22, m[at + 14], *mode);
                tile += number(m + tile + 2, 4);
            }
        }
        at += length;
    }
}

static void take_recording(const uint8_t *d, size_t size)
{
    uint8_t mode = XURBALENZ_RLGR3;
    size_t at = 0, data;
    code_count = 0;
    if (number(d, 2) >= 0xCCC0) {
        take_blocks(d, size, &mode);
        return;
    }
    while (at + 8 <= size) {
        if (number(d + at, 2) == 4) {
            at += 8;
            continue;
        }
        data = at + (d[at + 11] & 1 ? 46 : 22);
        if (d[at + 13] == 3) take_blocks(d + data, number(d + at + 18, 4), &mode);
        at = data + number(d + at + 18, 4);
    }
}

/* A frame of our own writer: slopes, a grid of lines as letters have, and noise. */
static size_t written(uint8_t mode, uint8_t *out, size_t room)
{
    enum { WIDTH = 320, HEIGHT = 192 };
    static const uint8_t quant[10] = XURBALENZ_DEFAULT_QUANT;
    uint8_t *pixels = malloc(3 * WIDTH * HEIGHT);
    size_t x, y, head, size;
    if (pixels == NULL) exit(2);
    for (y = 0; y < HEIGHT; y++)
        for (x = 0; x < WIDTH; x++) {
            uint8_t *p = pixels + 3 * (y * WIDTH + x);
            int line = y < 128 && (x % 11 == 0 || y % 13 < 2);
            p[0] = (uint8_t)(y >= 128 ? next_random() >> 56 : line ? 20 : x * 255 / WIDTH);
            p[1] = (uint8_t)(y >= 128 ? 128 + (next_random() >> 59) : line ? 20 : y * 255 / HEIGHT);
            p[2] = (uint8_t)(line ? 20 : 230 - x / 4);
        }
    if (xurbalenz_write_headers(WIDTH, HEIGHT, mode, out, room, &head) != XURBALENZ_DONE) exit(2);
    if (xurbalenz_write_frame(WIDTH, HEIGHT, mode, quant, 1, pixels, 3 * WIDTH * HEIGHT, work[0], XURBALENZ_LIST, work[1], XURBALENZ_LIST, out + head, room - head,
                              &size) != XURBALENZ_DONE)
        exit(2);
    free(pixels);
    return head + size;
}

static size_t loaded(const char *file, uint8_t *d, size_t room)
{
    FILE *in;
    size_t size;
    if (strncmp(file, "writer:", 7) == 0) return written((uint8_t)atoi(file + 7), d, room);
    in = fopen(file, "rb");
    if (in == NULL) exit(fprintf(stderr, "damage: %s is not there\n", file) * 0 + 2);
    size = fread(d, 1, room, in);
    fclose(in);
    return size;
}

/* ---- a frame of one tile, read */

static size_t frame_of(const Code *c, const uint8_t *code, size_t size)
{
    static const uint8_t zeros[3] = {0, 0, 0};
    uint8_t *to = frame;
    size_t data = 19 + size + 6, at;
    to = put(put(put(put(put(put(to, 0xCCC4, 2), 14, 4), 1, 1), 0, 1), 0, 4), 1, 2);
    to = put(put(put(put(put(put(to, 0xCCC6, 2), 15, 4), 1, 1), 0, 1), 1, 1), 0, 2);
    to = put(put(to, 0xCAC1, 2), 1, 2);
    to = put(put(put(put(put(put(to, 0xCCC7, 2), 27 + data, 4), 1, 1), 0, 1), 0xCAC2, 2), 0, 2);
    to = put(put(put(put(put(to, c->mode == XURBALENZ_RLGR3 ? 0x5051 : 0x4451, 2), 1, 1), 64, 1), 1, 2), data, 4);
    for (at = 0; at < 5; at++) *to++ = c->five[at];
    to = put(put(put(put(put(to, 0xCAC3, 2), data, 4), 0, 3), 0, 4), size, 2);
    to = put(put(to, 3, 2), 3, 2);
    memcpy(to, code, size);
    memcpy(to + size, zeros, 3);
    memcpy(to + size + 3, zeros, 3);
    to = put(put(put(put(to + size + 6, 0xCCC5, 2), 8, 4), 1, 1), 0, 1);
    return (size_t)(to - frame);
}

/* Is a frame accepted? Then the list of its first component is in got_list. */
static int accepted(const uint8_t *m, size_t size, uint8_t mode)
{
    uint8_t headers[XURBALENZ_HEADERS_SIZE];
    XurbalenzSession s = XURBALENZ_FRESH;
    size_t length, tiles, bits;
    xurbalenz_write_headers(64, 64, mode, headers, sizeof headers, &length);
    xurbalenz_read_header(&s, headers, 12);
    xurbalenz_read_header(&s, headers + 12, 10);
    xurbalenz_read_header(&s, headers + 22, 12);
    xurbalenz_read_header(&s, headers + 34, 13);
    if (xurbalenz_read_frame(&s, m, size, glass, 64 * 64, work[0], XURBALENZ_LIST, work[1], XURBALENZ_LIST, work[2], XURBALENZ_LIST, work[3], XURBALENZ_LIST,
                             &tiles) != XURBALENZ_DONE)
        return 0;
    return xurbalenz_read_component(mode, m + 14 + 15 + 27 + 19, number(m + 14 + 15 + 27 + 13, 2), got_list, XURBALENZ_LIST, &bits) == XURBALENZ_DONE;
}

static int accepted_behind(uint8_t sender, size_t size, uint8_t mode)
{
    size_t told[2];
    if (xurbalenz_tidy_frame(sender, 64, 64, mode, frame, size, work[0], XURBALENZ_LIST, tidied, sizeof tidied, told) != XURBALENZ_DONE) exit(2);
    return accepted(tidied, told[0], mode);
}

static int another(void) { return memcmp(sent_list, got_list, sizeof sent_list) != 0; }

/* ---- damage */

static size_t damaged(int way, const uint8_t *from, size_t size, uint8_t behind)
{
    size_t at = next_random() % size;
    memcpy(bent, from, size);
    switch (way) {
    case 0: bent[at] ^= (uint8_t)(1 << next_random() % 8); break;
    case 1: bent[at] ^= (uint8_t)(1 + next_random() % 255); break;
    case 2:
        bent[at] = 0;
        if (at + 1 < size) bent[at + 1] = 0;
        break;
    default:
        memmove(bent + at, bent + at + 1, size - at - 1);
        bent[size - 1] = behind;
    }
    return size;
}

static void row(const char *name, int way, size_t times)
{
    static const char *const words[WAYS] = {"one bit", "one byte", "two zeroed bytes", "a byte lost, one behind"};
    size_t alone = 0, through[SENDERS] = {0, 0, 0}, n, bits, size, sender;
    for (n = 0; n < times; n++) {
        const Code *c = &codes[next_random() % code_count];
        size_t surplus = c->size;
        while (surplus > 0 && xurbalenz_read_component(c->mode, c->bytes, surplus, sent_list, XURBALENZ_LIST, &bits) != XURBALENZ_DONE) surplus--;
        if (surplus == 0) { /* the sample's form: the list is what the filter makes of it */
            size = frame_of(c, c->bytes, c->size);
            if (!accepted_behind(2, size, c->mode)) continue;
            memcpy(sent_list, got_list, sizeof sent_list);
        }
        if (xurbalenz_write_component(c->mode, sent_list, XURBALENZ_LIST, own, sizeof own, &size) != XURBALENZ_DONE) exit(2);
        size = damaged(way, own, size, c->behind);
        size = frame_of(c, bent, size);
        alone += accepted(frame, size, c->mode) && another();
        size = damaged(way, c->bytes, c->size, c->behind);
        size = frame_of(c, bent, size);
        for (sender = 0; sender < SENDERS; sender++) through[sender] += accepted_behind((uint8_t)sender, size, c->mode) && another();
    }
    printf("| %s | %s | %.2f |", name, words[way], 100.0 * (double)alone / (double)times);
    for (sender = 0; sender < SENDERS; sender++) printf(" %.2f |", 100.0 * (double)through[sender] / (double)times);
    printf("\n");
    fflush(stdout);
}

int main(int argc, char **argv)
{
    size_t times = 10000;
    int first = 1, way;
    if (argc > 1 && strspn(argv[1], "0123456789") == strlen(argv[1])) times = strtoul(argv[first++], NULL, 10);
    if (first >= argc || times == 0) return fprintf(stderr, "usage: damage [TIMES] NAME=FILE..\n"), 2;
    printf("| Recording | Damage | panel alone, 01's bytes | strict | freerdp | sample |\n|---|---|---|---|---|---|\n");
    for (; first < argc; first++) {
        char *file = strchr(argv[first], '=');
        uint8_t *d = malloc(1 << 24);
        size_t size;
        if (file == NULL || d == NULL) return fprintf(stderr, "damage: %s is not NAME=FILE\n", argv[first]), 2;
        *file++ = 0;
        size = loaded(file, d, (1 << 24) - 64);
        codes = malloc(sizeof *codes * (size / 7 + 1));
        take_recording(d, size);
        if (code_count == 0) return fprintf(stderr, "damage: %s has no codes\n", file), 2;
        seed = 0x9E3779B97F4A7C15u;
        for (way = 0; way < WAYS; way++) row(argv[first], way, times);
        free(codes);
        free(d);
    }
    return 0;
}
