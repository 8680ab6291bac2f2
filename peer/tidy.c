/*
 * ONLY THE PEER'S: what the library's tidy does, by hand, to hold the two together, and the same walk with other codes put in. It takes the streams that
 * FreeRDP's own encoder makes, one frame behind four headers, and no others; nothing about it is proved, and a plant must not use it.
 *
 * FreeRDP sends sync, context, versions, channels; 01 has them as sync, versions, channels, context. And in about a third of FreeRDP's codes a zero byte
 * follows the code (its last flush counts the wrong bits), which 01 refuses as 11.
 */
#include "peer.h"

#include <string.h>

size_t tails_cut;

static int32_t list[XURBALENZ_LIST];

/* Fewer than 32 bits behind a complete code are cut off, the filling of its last byte is made zeros; every other code stays as it is. */
size_t cut_tail(uint8_t mode, size_t code, const uint8_t *bytes, size_t size, uint8_t *out)
{
    size_t bits = 0, whole;
    (void)code;
    memcpy(out, bytes, size);
    if (xurbalenz_read_component(mode, bytes, size, list, XURBALENZ_LIST, &bits) != XURBALENZ_TAIL) return size;
    if (8 * size - bits >= 32) return size;
    whole = (bits + 7) / 8;
    if (bits % 8) out[whole - 1] &= (uint8_t)(0xFF00u >> bits % 8);
    tails_cut++;
    return whole;
}

/* ---- bytes */

static size_t get(const uint8_t *at, int bytes)
{
    size_t n = 0;
    while (bytes--) n = n << 8 | at[bytes];
    return n;
}

static void put(uint8_t *at, size_t value, int bytes)
{
    for (; bytes--; value >>= 8) *at++ = (uint8_t)value;
}

static int append(Stream *out, const uint8_t *bytes, size_t size)
{
    if (out->room - out->size < size) return 0;
    memcpy(out->bytes + out->size, bytes, size);
    out->size += size;
    return 1;
}

/* The length of the block at a place, if it is of this type and whole; else 0. */
static size_t block(const Stream *in, size_t at, unsigned type)
{
    size_t length;
    if (in->size < at || in->size - at < 6 || get(in->bytes + at, 2) != type) return 0;
    length = get(in->bytes + at + 2, 4);
    return length >= 6 && length <= in->size - at ? length : 0;
}

/* ---- the parts of a stream */

/* The headers in 01's order. Answers where the frame starts and the mode, or 0. */
static size_t headers(const Stream *in, Stream *out, uint8_t *mode)
{
    static const unsigned sent[4] = {0xCCC0, 0xCCC3, 0xCCC1, 0xCCC2}, due[4] = {0, 2, 3, 1};
    size_t at = 0, where[4], length[4];
    for (int i = 0; i < 4; i++) {
        where[i] = at;
        length[i] = block(in, at, sent[i]);
        if (!length[i]) return 0;
        at += length[i];
    }
    if (length[1] != 13) return 0;
    *mode = (uint8_t)(get(in->bytes + where[1] + 11, 2) >> 9 & 15);
    for (int i = 0; i < 4; i++)
        if (!append(out, in->bytes + where[due[i]], length[due[i]])) return 0;
    return at;
}

/* A tile of `length` bytes with its three codes made anew. */
static int one_tile(const uint8_t *tile, size_t length, uint8_t mode, size_t tile_number, Recode *recode, Stream *out)
{
    static uint8_t code[XURBALENZ_MAX_COMPONENT];
    size_t start = out->size, at = 19;
    if (length < 19 || !append(out, tile, 19)) return 0;
    for (size_t i = 0; i < 3; i++) {
        size_t size = get(tile + 13 + 2 * i, 2), fresh;
        if (size > length - at) return 0;
        fresh = recode(mode, 3 * tile_number + i, tile + at, size, code);
        if (!append(out, code, fresh)) return 0;
        put(out->bytes + start + 13 + 2 * i, fresh, 2);
        at += size;
    }
    put(out->bytes + start + 2, out->size - start, 4);
    return at == length;
}

/* The tileset at a place, its tiles one by one. */
static int tileset(const Stream *in, size_t at, uint8_t mode, Recode *recode, Stream *out)
{
    size_t length = block(in, at, 0xCCC7), start = out->size, head, tiles, end = at + length;
    if (length < 22) return 0;
    head = 22 + 5 * get(in->bytes + at + 14, 1);
    tiles = get(in->bytes + at + 16, 2);
    if (length < head || !append(out, in->bytes + at, head)) return 0;
    at += head;
    for (size_t i = 0; i < tiles; i++) {
        size_t tile = block(in, at, 0xCAC3);
        if (!tile || tile > end - at || !one_tile(in->bytes + at, tile, mode, i, recode, out)) return 0;
        at += tile;
    }
    put(out->bytes + start + 2, out->size - start, 4);
    put(out->bytes + start + 18, out->size - start - head, 4);
    return at == end;
}

int standin(const Stream *in, Recode *recode, Stream *out)
{
    uint8_t mode;
    size_t at, length;
    out->size = 0;
    at = headers(in, out, &mode);
    if (!at) return 0;
    for (unsigned type = 0xCCC4; type <= 0xCCC6; type += 2) { /* begin, region */
        length = block(in, at, type);
        if (!length || !append(out, in->bytes + at, length)) return 0;
        at += length;
    }
    if (!tileset(in, at, mode, recode, out)) return 0;
    at += block(in, at, 0xCCC7);
    length = block(in, at, 0xCCC5);
    return length && at + length == in->size && append(out, in->bytes + at, length);
}
