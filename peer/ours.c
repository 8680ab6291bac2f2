/*
 * Our side: the archive's writer and reader on whole streams of four headers and one frame.
 */
#include "peer.h"

#include <string.h>

static XurbalenzWork work;

uint8_t ours_write(const Picture *p, const Setting *with, Stream *out)
{
    size_t head = 0, frame = 0;
    uint8_t number = xurbalenz_write_headers(p->width, p->height, with->mode, out->bytes, out->room, &head);
    if (number == XURBALENZ_DONE)
        number = xurbalenz_write_frame_with(p->width, p->height, with->mode, with->quant, 0, p->rgb, 3 * p->width * p->height, &work,
                                            out->bytes + head, out->room - head, &frame);
    out->size = head + frame;
    return number;
}

uint8_t ours_read(const Stream *in, const Picture *p, uint16_t *words)
{
    XurbalenzSession session = XURBALENZ_FRESH;
    size_t at = 0, tiles = 0;
    if (in->size < XURBALENZ_HEADERS_SIZE) return XURBALENZ_CUT;
    for (int i = 0; i < 4; i++) {
        size_t length = in->bytes[at + 2]; /* 10, 12 or 13, or the call refuses it */
        uint8_t number = xurbalenz_read_header(&session, in->bytes + at, length < in->size - at ? length : in->size - at);
        if (number != XURBALENZ_DONE) return number;
        at += length;
    }
    return xurbalenz_read_frame_with(&session, in->bytes + at, in->size - at, words, p->width * p->height, &work, &tiles);
}

int ours_tidy(const Stream *in, const Picture *p, uint8_t mode, Stream *out)
{
    size_t head = XURBALENZ_HEADERS_SIZE, told[2] = {0, 0};
    uint8_t number;
    if (in->size < head || out->room < head) return 0;
    memcpy(out->bytes, in->bytes, head);
    number = xurbalenz_tidy_frame(XURBALENZ_FREERDP, p->width, p->height, mode, in->bytes + head, in->size - head, work.y, XURBALENZ_LIST,
                                  out->bytes + head, out->room - head, told);
    out->size = head + told[0];
    return number == XURBALENZ_DONE;
}

/* ---- steps */

static unsigned apart(unsigned a, unsigned b) { return a > b ? a - b : b - a; }

/* The farthest channel. */
static unsigned farthest(uint16_t a, uint16_t b)
{
    unsigned red = apart(a >> 11, b >> 11), green = apart(a >> 5 & 63, b >> 5 & 63), blue = apart(a & 31, b & 31);
    unsigned most = red > green ? red : green;
    return most > blue ? most : blue;
}

void count_steps(Steps *into, const uint16_t *a, const uint16_t *b, size_t words)
{
    for (size_t i = 0; i < words; i++) {
        unsigned most = farthest(a[i], b[i]);
        if (most == 0) into->equal++;
        else if (most == 1) into->one++;
        else into->more++;
    }
}

void add_steps(Steps *into, const Steps *more)
{
    into->equal += more->equal;
    into->one += more->one;
    into->more += more->more;
}
