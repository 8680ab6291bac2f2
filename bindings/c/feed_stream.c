/*
 * feed_stream STREAM [BYTES [WORDS]]
 *
 * Reads a RemoteFX stream from a file as a network card would hand it over, so many bytes at a time (1,460 where nothing else is said), and never
 * holds more of it than the frame under way: the collector gathers header blocks and frames, and hands each on whole. A line for each message, as
 * show_stream prints it; then the picture's words, 5-6-5 and low byte first, go to the file WORDS.
 *
 * Where the collector refuses, nobody knows where the next block starts. A link would be dropped there, and the collector reset before the next
 * one; of a file, the rest is left.
 *
 * Exit code: 0 when the stream was read to its end or to a refusal of the collector, 2 when a file could not be read or written.
 */
#include "xurbalenz.h"

#include <stdio.h>
#include <stdlib.h>

/* All that a session needs: the record, the picture, the work lists; and the collector with its store. All static, so all 0: fresh. */
static XurbalenzSession session;
static XurbalenzWork work;
static uint16_t no_picture[1]; /* a slice of length 0 still has a pointer */
static uint16_t *picture = no_picture;
static size_t picture_width, picture_height;
static XurbalenzCollector collector;
static uint8_t store[3 << 20]; /* the longest frame that can be gathered */

static int fail(const char *what, const char *name)
{
    fprintf(stderr, "feed_stream: %s %s\n", what, name);
    return 2;
}

/* After a channels header: a picture of the channel's size, black if it is a new size. A sync alone keeps the picture. */
static int fit_picture(void)
{
    uint16_t *fresh;
    if (session.headers != 3 || (session.width == picture_width && session.height == picture_height)) return 1;
    fresh = calloc((size_t)session.width * session.height, sizeof *fresh);
    if (!fresh) return 0;
    if (picture != no_picture) free(picture);
    picture = fresh;
    picture_width = session.width;
    picture_height = session.height;
    return 1;
}

/* A message that is whole: the store's first bytes. */
static int message(uint8_t call, size_t size)
{
    xurbalenz_size tiles;
    uint8_t number;
    if (call == XURBALENZ_FRAME_CALL) {
        number = xurbalenz_read_frame_with(&session, store, size, picture, picture_width * picture_height, &work, &tiles);
        printf("frame, %zu bytes: %u %s; %zu tiles\n", size, number, xurbalenz_word(number), (size_t)tiles);
        return 1;
    }
    number = xurbalenz_read_header(&session, store, size);
    printf("header %02X%02X, %zu bytes: %u %s; record %u %u %u %u\n", store[1], store[0], size, number, xurbalenz_word(number), session.headers,
           session.width, session.height, session.mode);
    return number != XURBALENZ_DONE || fit_picture();
}

/* A hand-over of the card: given again, from behind what was taken, until all of it is. The collector's number; or 255 for want of memory. */
static uint8_t feed(const uint8_t *bytes, size_t n)
{
    while (n > 0) {
        uint8_t call;
        xurbalenz_size size, taken;
        uint8_t number = xurbalenz_collect(&collector, bytes, n, store, sizeof store, &call, &size, &taken);
        if (number != XURBALENZ_DONE) return number;
        if (call != XURBALENZ_NO_CALL && !message(call, size)) return 255;
        bytes += taken;
        n -= taken;
    }
    return XURBALENZ_DONE;
}

static int write_words(const char *name)
{
    FILE *f = fopen(name, "wb");
    size_t i;
    int bad;
    if (!f) return 0;
    for (i = 0; i < picture_width * picture_height; i++) {
        putc(picture[i] & 255, f);
        putc(picture[i] >> 8, f);
    }
    bad = ferror(f);
    return fclose(f) == 0 && !bad;
}

int main(int argc, char **argv)
{
    static uint8_t piece[1 << 16];
    size_t most = argc > 2 ? strtoul(argv[2], NULL, 10) : 1460, got;
    uint8_t number = XURBALENZ_DONE;
    FILE *f;
    if (argc < 2 || argc > 4 || most < 1 || most > sizeof piece) return fail("usage:", "feed_stream STREAM [BYTES [WORDS]], BYTES 1 to 65536");
    f = fopen(argv[1], "rb");
    if (!f) return fail("cannot read", argv[1]);
    while (number == XURBALENZ_DONE && (got = fread(piece, 1, most, f)) > 0) number = feed(piece, got);
    if (number == 255) return fail("no memory for the picture of", argv[1]);
    if (ferror(f)) return fail("cannot read", argv[1]);
    fclose(f);
    if (number != XURBALENZ_DONE) {
        printf("the collector refuses: %u %s\n", number, xurbalenz_word(number));
        xurbalenz_collect_reset(&collector); /* as a link that starts anew must */
    }
    printf("picture %zu x %zu\n", picture_width, picture_height);
    if (argc == 4 && !write_words(argv[3])) return fail("cannot write", argv[3]);
    if (picture != no_picture) free(picture);
    return 0;
}
