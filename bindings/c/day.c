/*
 * day FILE..: recorded days, the same on every machine. A line for each file, with a hash over all that its calls answered and left behind: whoever compiled the
 * archive for another processor compares the hashes.
 *
 * A file of cases (.vec, bindings/vectors/FORMAT.md: hdr, frm, pic, glass, rec) has each call's answer with it, of an independent implementation: what the call
 * answers, the record and the hash of the picture must be the same. A stream (.rfx) goes through the collector in pieces of 1,460 bytes to a glass of 16 bits and to one of
 * 32; behind each frame the picture is hashed. Then the last picture is written again, at once and as a short frame beside black, and those bytes are hashed.
 *
 * Exit code: 0 when every answer was as recorded, 1 when one was not, 2 when a file could not be read. Nothing is allocated, and where there is no system
 * (XURBALENZ_BARE, bindings/c/bare.c) the files are those compiled in.
 */
#include "xurbalenz.h"

#include <stdio.h>
#include <string.h>

#define MOST_WORDS (800 * 480)

/* Marks for bench/icount.c, around each frame of a stream that is read and around the one that is written. */
#if defined(XURBALENZ_MARKS) && defined(XURBALENZ_BARE)
#define MARK() __asm__ volatile("yield")
#elif defined(XURBALENZ_MARKS)
extern long syscall(long number, ...);
#define MARK() (void)syscall(0x5EED, 0L)
#else
#define MARK() (void)0
#endif

static XurbalenzSession session;
static XurbalenzWork work;
static uint16_t narrow[MOST_WORDS];
static uint32_t wide[MOST_WORDS];
static uint8_t message[1 << 20], again[1 << 20], black[3 * MOST_WORDS], pixels[3 * MOST_WORDS]; /* message: the store, or the bytes of a line */
static size_t words;                                                                            /* of the picture of a case */
static unsigned calls, refused, faults;

/* FNV-1a, 64 bits. */
#define START UINT64_C(0xCBF29CE484222325)
static uint64_t fnv(uint64_t hash, uint32_t value, int bytes)
{
    for (; bytes--; value >>= 8) hash = (hash ^ (value & 255)) * UINT64_C(0x100000001B3);
    return hash;
}

static uint64_t hash_16(uint64_t hash, size_t n)
{
    size_t i;
    for (i = 0; i < n; i++) hash = fnv(hash, narrow[i], 2);
    return hash;
}

static uint64_t hash_32(uint64_t hash, size_t n)
{
    size_t i;
    for (i = 0; i < n; i++) hash = fnv(hash, wide[i], 4);
    return hash;
}

static uint64_t hash_bytes(uint64_t hash, const uint8_t *bytes, size_t n)
{
    size_t i;
    for (i = 0; i < n; i++) hash = fnv(hash, bytes[i], 1);
    return hash;
}

static uint64_t hash_answer(uint64_t hash, uint8_t number, xurbalenz_size value)
{
    calls++;
    refused += number != XURBALENZ_DONE;
    return fnv(fnv(hash, number, 1), (uint32_t)value, 4);
}

/* ---- a stream */

static uint64_t part(uint64_t hash, uint8_t call, xurbalenz_size size)
{
    xurbalenz_size tiles = 0;
    uint8_t number;
    if (call == XURBALENZ_HEADER_CALL) {
        number = xurbalenz_read_header(&session, message, size);
        return hash_answer(hash, number, session.words);
    }
    if (session.glass == XURBALENZ_GLASS_16) {
        MARK();
        number = xurbalenz_read_frame_with(&session, message, size, narrow, MOST_WORDS, &work, &tiles);
        MARK();
        return hash_16(hash_answer(hash, number, tiles), session.words);
    }
    MARK();
    number = xurbalenz_read_frame_32_with(&session, message, size, wide, MOST_WORDS, &work, &tiles);
    MARK();
    return hash_32(hash_answer(hash, number, tiles), session.words);
}

static uint64_t shown(uint64_t hash, uint8_t glass, const uint8_t *bytes, size_t n)
{
    XurbalenzCollector collector = XURBALENZ_COLLECTOR_FRESH;
    session = xurbalenz_open(glass);
    while (n > 0) {
        uint8_t call;
        xurbalenz_size size, taken;
        uint8_t number = xurbalenz_collect(&collector, bytes, n < 1460 ? n : 1460, message, sizeof message, &call, &size, &taken);
        if (number != XURBALENZ_DONE) return hash_answer(hash, number, taken);
        if (call != XURBALENZ_NO_CALL) hash = part(hash, call, size);
        bytes += taken;
        n -= (size_t)taken;
    }
    return hash;
}

/* The glass of 32 bits as pixels, written as frames. */
static uint64_t written(uint64_t hash)
{
    static const uint8_t luma[10] = XURBALENZ_DEFAULT_QUANT, chroma[10] = {7, 7, 7, 7, 8, 8, 9, 9, 9, 10};
    static uint32_t picks[XURBALENZ_TILES(800, 480)];
    size_t n = 3 * (size_t)session.words, i;
    xurbalenz_size size, count;
    uint8_t number;
    if (session.headers != 4 || session.words > MOST_WORDS) return hash;
    for (i = 0; i < session.words; i++) {
        pixels[3 * i] = (uint8_t)(wide[i] >> 16);
        pixels[3 * i + 1] = (uint8_t)(wide[i] >> 8);
        pixels[3 * i + 2] = (uint8_t)wide[i];
    }
    MARK();
    number = xurbalenz_write_frame_with(session.width, session.height, session.mode, luma, 7, pixels, n, &work, again, sizeof again, &size);
    MARK();
    hash = hash_bytes(hash_answer(hash, number, size), again, (size_t)size);
    number = xurbalenz_make_plan(session.width, session.height, black, n, pixels, n, picks, sizeof picks / sizeof *picks, &count);
    hash = hash_answer(hash, number, count);
    number = xurbalenz_write_frame_short_with(session.width, session.height, session.mode, luma, chroma, 8, black, n, pixels, n, picks, count, &work, again,
                                              sizeof again, &size);
    return hash_bytes(hash_answer(hash, number, size), again, (size_t)size);
}

/* ---- a file of cases */

static const char *at, *line_end; /* the place in a line, and its end */

/* Is the next word this one? Then it is taken. */
static int word(const char *text)
{
    size_t n = strlen(text);
    if ((size_t)(line_end - at) < n || memcmp(at, text, n) != 0 || (at + n < line_end && at[n] != ' ')) return 0;
    at += n + (at + n < line_end);
    return 1;
}

static size_t figure(void)
{
    size_t n = 0;
    while (at < line_end && *at >= '0' && *at <= '9') n = 10 * n + (size_t)(*at++ - '0');
    if (at < line_end && *at == ' ') at++;
    return n;
}

static unsigned digit(char c) { return c <= '9' ? (unsigned)(c - '0') : (unsigned)(c - 'a' + 10); }

/* The next word's bytes, into the message: `-`, or hex, or hex*N, joined by commas. */
static size_t bytes_of_word(void)
{
    size_t n = 0, from, times;
    if (word("-")) return 0;
    for (;;) {
        for (from = n; at + 1 < line_end && *at != ' ' && *at != ',' && *at != '*'; at += 2) message[n++] = (uint8_t)(digit(at[0]) << 4 | digit(at[1]));
        if (at < line_end && *at == '*') {
            size_t item = n - from;
            for (at++, times = 0; at < line_end && *at >= '0' && *at <= '9'; at++) times = 10 * times + (size_t)(*at - '0');
            if (times == 0) n = from;
            for (; times > 1; times--, n += item) memcpy(message + n, message + from, item);
        }
        if (at >= line_end || *at != ',') break;
        at++;
    }
    if (at < line_end) at++;
    return n;
}

/* A picture of the formula that FORMAT.md has. */
static void picture_of(size_t length, size_t seed, int bits)
{
    size_t i;
    words = length < MOST_WORDS ? length : 0;
    for (i = 0; i < words; i++) {
        uint32_t value = (uint32_t)(i * 25173 + seed * 13849 + 1);
        if (bits == 32) wide[i] = value & 0xFFFFFF;
        else narrow[i] = (uint16_t)value;
    }
}

/* The frame call on the message's first bytes, with lists of the lengths that follow in the line. */
static void frame_line(char *said, size_t n)
{
    size_t lengths[3], i;
    xurbalenz_size tiles = 9;
    uint8_t number;
    uint64_t hash;
    char lists = 'z';
    for (i = 0; i < 3; i++) lengths[i] = figure();
    for (i = 0; i < XURBALENZ_LIST; i++) work.y[i] = work.cb[i] = work.cr[i] = work.scratch[i] = 7;
    if (session.glass == XURBALENZ_GLASS_32) {
        number = xurbalenz_read_frame_32(&session, message, n, wide, words, work.y, lengths[0], work.cb, lengths[1], work.cr, lengths[2], work.scratch,
                                         XURBALENZ_LIST, &tiles);
        hash = hash_32(START, words);
    } else {
        number = xurbalenz_read_frame(&session, message, n, narrow, words, work.y, lengths[0], work.cb, lengths[1], work.cr, lengths[2], work.scratch,
                                      XURBALENZ_LIST, &tiles);
        hash = hash_16(START, words);
    }
    if (work.scratch[0] == 7) lists = 'u';
    for (i = 0; i < XURBALENZ_LIST; i++)
        if (work.scratch[i] != (lists == 'u' ? 7 : 0)) lists = '?';
    refused += number != XURBALENZ_DONE;
    sprintf(said, "%u %u %c %u %u %u %u %08lx%08lx", number, (unsigned)tiles, lists, session.headers, session.width, session.height, session.mode,
            (unsigned long)(hash >> 32), (unsigned long)(hash & 0xFFFFFFFF));
}

/* A line: a setting, or a call, whose answer is what the line has behind its arrow. */
static uint64_t line(uint64_t hash)
{
    char said[100];
    size_t n;
    if (at == line_end || *at == '#' || word("opt")) return hash;
    if (word("case")) {
        session = xurbalenz_open(XURBALENZ_GLASS_16);
        words = 0;
        return hash;
    }
    if (word("glass")) {
        session = xurbalenz_open(figure() == 32 ? XURBALENZ_GLASS_32 : XURBALENZ_GLASS_16);
        return hash;
    }
    if (word("pic")) {
        size_t length = figure(), seed = figure();
        picture_of(length, seed, at < line_end && figure() == 32 ? 32 : 16);
        return hash;
    }
    if (word("hdr")) {
        uint8_t number;
        n = bytes_of_word();
        number = xurbalenz_read_header(&session, message, n);
        refused += number != XURBALENZ_DONE;
        sprintf(said, "%u %u %u %u %u", number, session.headers, session.width, session.height, session.mode);
    } else if (word("frm")) {
        n = bytes_of_word();
        frame_line(said, n);
    } else {
        faults++; /* no such line */
        return hash;
    }
    calls++;
    if (!word("->") || (size_t)(line_end - at) != strlen(said) || memcmp(at, said, strlen(said)) != 0) faults++;
    return hash_bytes(hash, (const uint8_t *)said, strlen(said));
}

/* ---- both */

static void day(const char *name, const uint8_t *bytes, size_t n)
{
    uint64_t hash = START;
    const char *file = strrchr(name, '/') ? strrchr(name, '/') + 1 : name;
    calls = refused = 0;
    if (n > 1 && bytes[0] == 0xC0 && bytes[1] == 0xCC) {
        hash = shown(hash, XURBALENZ_GLASS_16, bytes, n);
        hash = shown(hash, XURBALENZ_GLASS_32, bytes, n);
        hash = written(hash);
    } else {
        const char *end = (const char *)bytes + n;
        for (at = (const char *)bytes; at < end; at = line_end + 1) {
            line_end = (const char *)memchr(at, '\n', (size_t)(end - at));
            if (!line_end) line_end = end;
            hash = line(hash);
        }
    }
    printf("day %s: %u calls, %u refused, hash %08lx%08lx%s\n", file, calls, refused, (unsigned long)(hash >> 32), (unsigned long)(hash & 0xFFFFFFFF),
           faults ? "; AN ANSWER IS NOT AS RECORDED" : "");
}

#ifdef XURBALENZ_BARE
extern const uint8_t day_stream[], day_stream_end[], day_cases[], day_cases_end[], day_wide[], day_wide_end[];

int main(void)
{
    day("control-room.rfx", day_stream, (size_t)(day_stream_end - day_stream));
    day("request_fourteen.vec", day_cases, (size_t)(day_cases_end - day_cases));
    day("request_fourteen_32.vec", day_wide, (size_t)(day_wide_end - day_wide));
    return faults != 0;
}
#else
int main(int argc, char **argv)
{
    static uint8_t bytes[1 << 20];
    int i;
    for (i = 1; i < argc; i++) {
        FILE *f = fopen(argv[i], "rb");
        size_t n = f ? fread(bytes, 1, sizeof bytes, f) : 0;
        if (!f || ferror(f)) {
            fprintf(stderr, "day: cannot read %s\n", argv[i]);
            return 2;
        }
        fclose(f);
        day(argv[i], bytes, n);
    }
    return faults != 0;
}
#endif
