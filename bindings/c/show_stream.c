/*
 * show_stream STREAM [PICTURE.bmp]
 *
 * Reads a RemoteFX stream from a file, header blocks and frames as they follow each other, hands each to its call, prints a line for each,
 * and writes the picture as a 16-bit BMP (5-6-5: the panel's own words, as they are).
 *
 * The stream is split by block type and length alone: CCC0 to CCC3 are a header call each, CCC4 up to and with CCC5 is one frame call. What is
 * neither goes on alone to the call that refuses it. Where a length is damaged nobody knows where the next block starts: the rest of the file
 * is then handed on as one message, refused, and the picture stays what it was.
 *
 * Exit code: 0 when the stream was read to its end (refusals are lines, not errors), 2 when a file could not be read or written.
 */
#include "xurbalenz.h"

#include <stdio.h>
#include <stdlib.h>

/* All that a session needs: the record, the picture, the work lists. */
static XurbalenzSession session; /* static, so all 0: fresh */
static XurbalenzWork work;
static uint16_t no_picture[1]; /* a slice of length 0 still has a pointer */
static uint16_t *picture = no_picture;
static size_t picture_width, picture_height;

static int fail(const char *what, const char *name)
{
    fprintf(stderr, "show_stream: %s %s\n", what, name);
    return 2;
}

/* The whole file; NULL if it cannot be read. The buffer has one byte more than the file, so that it is never empty. */
static uint8_t *read_file(const char *name, size_t *length)
{
    FILE *f = fopen(name, "rb");
    size_t room = 1 << 16, n = 0;
    uint8_t *bytes = f ? malloc(room) : NULL;
    while (bytes) {
        size_t got = fread(bytes + n, 1, room - n - 1, f);
        n += got;
        if (got == 0) break;
        if (n == room - 1) {
            uint8_t *more = realloc(bytes, room *= 2);
            if (!more) free(bytes);
            bytes = more;
        }
    }
    if (bytes && ferror(f)) {
        free(bytes);
        bytes = NULL;
    }
    if (f) fclose(f);
    *length = n;
    return bytes;
}

/* The block type at a place, 0 where fewer than 6 bytes are left. */
static unsigned type_at(const uint8_t *bytes, size_t left)
{
    return left < 6 ? 0 : (unsigned)bytes[0] | (unsigned)bytes[1] << 8;
}

/* The bytes of the block there: blockLen, or all that is left where that cannot be. */
static size_t block_at(const uint8_t *bytes, size_t left)
{
    size_t n;
    if (left < 6) return left;
    n = (size_t)bytes[2] | (size_t)bytes[3] << 8 | (size_t)bytes[4] << 16 | (size_t)bytes[5] << 24;
    return n < 6 || n > left ? left : n;
}

/* The bytes of the frame there: its blocks up to and with the frame end. */
static size_t frame_at(const uint8_t *bytes, size_t left)
{
    size_t n = 0;
    while (n < left) {
        unsigned type = type_at(bytes + n, left - n);
        n += block_at(bytes + n, left - n);
        if (type == 0xCCC5) break;
    }
    return n;
}

/* After a channels header: a picture of the channel's size, black if it is a new size. A sync alone keeps the picture. */
static int fit_picture(void)
{
    uint16_t *fresh;
    if (session.headers != 3 || (session.width == picture_width && session.height == picture_height)) return 1;
    fresh = calloc((size_t)session.width * session.height, sizeof *fresh);
    if (!fresh) return 0;
    if (picture != no_picture) free(picture);
    picture = fresh;
    picture_width = session.width;
    picture_height = session.height;
    return 1;
}

static int header(const uint8_t *message, size_t length)
{
    uint8_t number = xurbalenz_read_header(&session, message, length);
    printf("header %04X, %zu bytes: %u %s; record %u %u %u %u\n", type_at(message, length), length, number, xurbalenz_word(number),
           session.headers, session.width, session.height, session.mode);
    return number != XURBALENZ_DONE || fit_picture();
}

static void frame(const uint8_t *message, size_t length)
{
    xurbalenz_size tiles;
    uint8_t number = xurbalenz_read_frame_with(&session, message, length, picture, picture_width * picture_height, &work, &tiles);
    printf("frame, %zu bytes: %u %s; %zu tiles\n", length, number, xurbalenz_word(number), (size_t)tiles);
}

static void put(uint8_t *at, uint32_t value, int bytes)
{
    while (bytes--) {
        *at++ = (uint8_t)value;
        value >>= 8;
    }
}

/* A BMP of 16 bits a pixel with its masks, top row first; rows are filled up to four bytes. */
static int write_bmp(const char *name)
{
    uint8_t head[66] = {'B', 'M'}, word[2];
    size_t pad = picture_width % 2 * 2, row = 2 * picture_width + pad, x, line;
    FILE *f = fopen(name, "wb");
    if (!f) return 0;
    put(head + 2, (uint32_t)(66 + row * picture_height), 4);
    put(head + 10, 66, 4); /* where the words start */
    put(head + 14, 40, 4);
    put(head + 18, (uint32_t)picture_width, 4);
    put(head + 22, 0 - (uint32_t)picture_height, 4); /* negative: top row first */
    put(head + 26, 1, 2);
    put(head + 28, 16, 2);
    put(head + 30, 3, 4); /* masks follow */
    put(head + 34, (uint32_t)(row * picture_height), 4);
    put(head + 54, 0xF800, 4);
    put(head + 58, 0x07E0, 4);
    put(head + 62, 0x001F, 4);
    fwrite(head, 1, sizeof head, f);
    for (line = 0; line < picture_height; line++) {
        for (x = 0; x < picture_width; x++) {
            put(word, picture[line * picture_width + x], 2);
            fwrite(word, 1, 2, f);
        }
        fwrite("\0\0", 1, pad, f);
    }
    x = (size_t)ferror(f);
    return fclose(f) == 0 && x == 0;
}

int main(int argc, char **argv)
{
    uint8_t *bytes;
    size_t length, at = 0;
    if (argc < 2 || argc > 3) return fail("usage:", "show_stream STREAM [PICTURE.bmp]");
    bytes = read_file(argv[1], &length);
    if (!bytes) return fail("cannot read", argv[1]);
    while (at < length) {
        size_t left = length - at, n;
        unsigned type = type_at(bytes + at, left);
        if (type >= 0xCCC4 && type <= 0xCCC7) {
            n = type == 0xCCC4 ? frame_at(bytes + at, left) : block_at(bytes + at, left);
            frame(bytes + at, n);
        } else {
            n = block_at(bytes + at, left);
            if (!header(bytes + at, n)) return fail("no memory for the picture of", argv[1]);
        }
        at += n;
    }
    printf("picture %zu x %zu\n", picture_width, picture_height);
    if (argc == 3 && !write_bmp(argv[2])) return fail("cannot write", argv[2]);
    free(bytes);
    if (picture != no_picture) free(picture);
    return 0;
}
