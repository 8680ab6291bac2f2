/* SPDX-License-Identifier: MIT */
/*
 * xurbalenz.h - RemoteFX (MS-RDPRFX) pictures for the door glass: its calls are proved for every input.
 *
 * Link target/staticlib/libxurbalenz.a (made by `tools/archive`, x86-64; `tools/archive --list` says for which machines else). Its functions read four
 * header blocks and whole frames into a lent picture of 16-bit or 32-bit words, and write headers, components and frames; and they gather header blocks
 * and frames from a network card's bytes, however these are cut;
 * they make frames of other senders acceptable; they tell which tiles of two pictures differ;
 * and they read and write what a client says of its capabilities and the frames that it acknowledges, and the settings that a cabinet keeps.
 *
 * WHAT YOU CAN RELY ON
 *  - Every call takes any bytes whatever and comes back with a number: 0 done, any other refused (below). Nothing has to be checked first.
 *  - A frame is drawn whole or not at all. After a refusal the picture and the record are what they were.
 *  - The number is that of the first fault, in the order given at each call.
 *  - What each lent region holds afterwards is said at each call, for every answer. The value behind the last pointer (tiles, bits, size),
 *    the three of the collector, and what a reader of capabilities or settings stores, are always written.
 *  - Same memory in, same answer and same memory out. No state is kept between calls but what you hold: the record and the picture, the
 *    collector and its store.
 *
 * WHAT YOU LEND
 *  - A slice is a pointer and a length in elements (not bytes): uint8_t, uint16_t, uint32_t or int32_t, each aligned as its type asks.
 *  - A pointer is never null, also where the length is 0: pass the address of any object of that type then.
 *  - The whole slice must be there to read, and to write where the pointer is not const. Regions lent to one call must not overlap, but for those
 *    that it only reads (const): these may coincide. Nobody else may write them (or, but for a display controller, read those that the call writes) during the call.
 *  - It is normal memory, not a device's: words may be read and written at any alignment, and more than one at a time.
 *  - THESE FOUR ARE NOT CHECKED, nor can they be: a wrong pointer or a wrong length is as bad here as in memcpy.
 *  - What work lists, output and component lists hold before the call does not matter; fresh memory need not be cleared.
 *  - The picture is only written, and never read. So a display controller may scan it out during a call; but it sees a frame half drawn then, for as
 *    long as drawing takes. Lend a picture that is not shown, and show it after the call (copy it, or show two in turn and give each every frame).
 *
 * THREADS, MEMORY, TIME
 *  - No global state, no allocation, no input or output, no locks: calls on different memory may run at the same time. One record, picture
 *    or list belongs to one call at a time.
 *  - A frame is read twice, once to judge it and once to draw it, so a bad last tile costs the time of judging those before it.
 *    What a call costs goes by its bytes and tiles, and hardly by what the region's rectangles say. On x86-64 a tile of zeros takes some 350,000
 *    instructions, one of a picture some 760,000, one of noise at the finest quantisers some 2.4 million; with the worst 256 rectangles that we could
 *    make at most 400,000 more. A frame has at most 2,048 tiles. A header, or a block given to the collector, takes a few hundred and less than one
 *    for each of its bytes (docs/BENCH.md).
 *
 * WHAT THE ARCHIVE NEEDS
 *  - Any x86-64 processor (SSE2 and nothing newer) and the System V calling convention, as on Linux; those for Arm: docs/landings/19-arm.md. On Linux it
 *    is position independent: programs and shared objects may hold it.
 *  - memcpy and memset, and nothing else, of a C library; on 32-bit Arm __aeabi_memcpy, __aeabi_memclr and their like, __aeabi_uldivmod and __aeabi_uidiv, which every C
 *    library and libgcc (or compiler-rt) for it has.
 *  - 2,048 bytes of stack (XURBALENZ_STACK; 1,536 before 0.5.0), whatever the input: no function calls itself. Measured on x86-64 were 1,464 for a frame
 *    read, 1,545 for one written, 1,641 for a short one and 1,192 for one tidied; on Arm no call took more than 1,640 (bindings/c/stack.c). A dynamic linker
 *    that looks them up at their first call takes more of its own then.
 *
 * This header is C99 (and C++98, where <stdint.h> is there).
 *
 * The numbers, and the rules behind every sentence here, are the project's requirements; docs/PROMISES.md names the theorem for each.
 */
#ifndef XURBALENZ_H
#define XURBALENZ_H

#include <stddef.h>
#include <stdint.h>

#ifdef __cplusplus
extern "C" {
#endif

/* The version of this header: 10,000 x major + 100 x minor + patch, and as text. The Rust crate has the same. */
#define XURBALENZ_VERSION 502
#define XURBALENZ_VERSION_TEXT "0.5.2"

/* The version of the archive, as a number like that one: not the same where header and archive were not made together. */
uint32_t xurbalenz_version(void);

/* Lengths and counts have 64 bits on every machine, as they have in the proofs: xurbalenz_size is size_t where that has 64 bits, and uint64_t elsewhere. A length
   that is handed over converts by itself. What a call stores (size, tiles, bits, taken, count, cut) must be declared xurbalenz_size: a pointer to another
   type is an error in C++ and in C breaks a constraint, of which every compiler tells. */
#if defined(SIZE_MAX) && defined(UINT64_MAX) && SIZE_MAX == UINT64_MAX
typedef size_t xurbalenz_size;
#else
typedef uint64_t xurbalenz_size;
#endif

/* What must hold where this header is compiled; in C99 and C++98 too. */
#if defined(__cplusplus) && __cplusplus >= 201103L
#define XURBALENZ_HOLDS(name, what, says) static_assert(what, says)
#elif defined(__STDC_VERSION__) && __STDC_VERSION__ >= 201112L
#define XURBALENZ_HOLDS(name, what, says) _Static_assert(what, says)
#else
#define XURBALENZ_HOLDS(name, what, says) typedef char xurbalenz_holds_##name[(what) ? 1 : -1]
#endif
XURBALENZ_HOLDS(size, sizeof(xurbalenz_size) == 8, "the archive's lengths have 64 bits");

/* ---- the numbers the fitter sees ---- */

#define XURBALENZ_DONE 0
#define XURBALENZ_CUT 1      /* a block, or the code being read, needs more than is there */
#define XURBALENZ_BUFFER 2   /* a list is not 4,096 numbers, or a picture is too short or of the other glass, or pixels are not 3 x width x height bytes; or a
                                store is shorter than what is gathered in it */
#define XURBALENZ_KIND 3     /* a block type that the call does not take, or not the one due in a frame; settings: a record of no known kind */
#define XURBALENZ_LENGTH 4   /* blockLen or tilesDataSize disagrees with the layout, or bytes follow the last block */
#define XURBALENZ_FIELD 5    /* a fixed field differs, or a size or mode is not allowed */
#define XURBALENZ_TOO_BIG 6  /* over 256 rectangles, 2,048 tiles, 65,535 bytes in a component, or two entries */
#define XURBALENZ_QUANT 7    /* a quantiser outside 6 to 15, or an index that is not below the number of sets */
#define XURBALENZ_PLACE 8    /* a tile that starts outside the channel; in a list of tiles, a number that no tile has */
#define XURBALENZ_RANGE 9    /* a coefficient, LL3 sum or scaled value outside -32,767 to 32,767 */
#define XURBALENZ_OVERRUN 10 /* a remainder run with no place left for its value, or a second value not zero with no place */
#define XURBALENZ_TAIL 11    /* after the 4,096th value 8 or more bits remain, or one of them is 1 */
#define XURBALENZ_ORDER 12   /* a known header that is not due, or a frame before all four headers; a record or a collector that no calls could have made;
                                settings: the version is not first, or not once */
#define XURBALENZ_ROOM 13    /* the lent output is shorter than what is to be written, or the store than what is to be gathered */
#define XURBALENZ_VERSION_NOT_TAKEN 14 /* settings of a version that this reader does not take */
#define XURBALENZ_NO_SETTING 15        /* settings that have a version and nothing behind it */
#define XURBALENZ_OUT_OF_ORDER 16      /* a list of tiles in which some number is not above the one before it */
#define XURBALENZ_TILE_MISSING 17      /* a list of tiles without one that differs between the pictures */

/* The word for a number, for a log line. A number that no call gives is "unknown". */
static inline const char *xurbalenz_word(uint8_t number)
{
    static const char *const words[] = {"done",  "cut",   "buffer", "kind",    "length", "field", "too big",
                                        "quant", "place", "range",  "overrun", "tail",   "order", "room",
                                        "version not taken", "no setting", "out of order", "tile missing"};
    return number < sizeof words / sizeof words[0] ? words[number] : "unknown";
}

/* What a number says, for the fitter: printf("%u %s: %s\n", number, xurbalenz_word(number), xurbalenz_says(number)); */
static inline const char *xurbalenz_says(uint8_t number)
{
    static const char *const sentences[] = {"all that was asked",
                                            "a block, or the code being read, needs more than is there",
                                            "a list is not 4,096 numbers, or a picture, the pixels or a store do not have their size",
                                            "not a block type that is taken or due here; or settings with a record of no known kind",
                                            "a length disagrees with the layout, or bytes follow the last block",
                                            "a fixed field differs, or size or mode is not allowed",
                                            "over 256 rectangles, 2,048 tiles, 65,535 bytes in a component, or two entries",
                                            "a quantiser outside 6 to 15, or an index with no set",
                                            "a tile starts outside the channel, or a list names a tile that is not there",
                                            "a coefficient, LL3 sum or scaled value outside -32,767 to 32,767",
                                            "a value with no place left for it",
                                            "more than filling follows the 4,096th value",
                                            "a header that is not due, a frame before all four headers, or settings whose version is not first and once",
                                            "the output or the store is shorter than what goes into it",
                                            "settings of a version that this reader does not take",
                                            "settings that have a version and nothing behind it",
                                            "a list of tiles that does not rise",
                                            "a tile that changed is not listed"};
    return number < sizeof sentences / sizeof sentences[0] ? sentences[number] : "a number that has no word here";
}

/* ---- sizes and settings ---- */

#define XURBALENZ_RLGR1 1 /* the two modes of the component code (et in the context header) */
#define XURBALENZ_RLGR3 4

#define XURBALENZ_LIST 4096            /* numbers in every component list and work list: a tile of 64 x 64 */
#define XURBALENZ_MAX_WIDTH 4096       /* a channel is 1 to 4,096 wide */
#define XURBALENZ_MAX_HEIGHT 2048      /* and 1 to 2,048 high */
#define XURBALENZ_HEADERS_SIZE 47      /* the four header blocks: 12, 10, 12 and 13 bytes */
#define XURBALENZ_MAX_COMPONENT 65535u /* bytes in a component's code: an output of this size always has room for one */
#define XURBALENZ_STACK 2048           /* bytes of stack with which every call runs, its arguments counted in */

/* The ten quantisers that servers commonly send, in a set's own order: LL3, LH3, HL3, HH3, LH2, HL2, HH2, LH1, HL1, HH1. Each value is
   6 (finest) to 15 (coarsest). Use: const uint8_t quant[10] = XURBALENZ_DEFAULT_QUANT; */
#define XURBALENZ_DEFAULT_QUANT {6, 6, 6, 6, 7, 7, 8, 8, 8, 9}

/* Tiles of a channel, and an output size with which xurbalenz_write_frame and xurbalenz_write_frame_sets never answer 13: 77 bytes around the tiles
   (72 with one quantiser set), and for each tile a head of 19 and three codes of at most 65,535. Real frames are far smaller; on 13 nothing is lost, so start small and try again. */
#define XURBALENZ_TILES(width, height) ((((size_t)(width) + 63) / 64) * (((size_t)(height) + 63) / 64))
#define XURBALENZ_FRAME_ROOM(width, height) (77 + XURBALENZ_TILES(width, height) * (19 + 3 * (size_t)65535))

/* ---- the session record ---- */

/* How many headers are in (0 to 4), the mode, the channel's width and height; tile columns, tile rows and words of the picture, which follow from
   the size; and the glass, 0 for words of 16 bits, 1 for 32. All 0 when fresh: XurbalenzSession s = XURBALENZ_FRESH; A sync keeps the glass.
   Only xurbalenz_read_header changes it. A record that no calls could have made (a stray write, a stale copy, one of the numbers wrong) is
   answered 12 where a record is judged, and a good sync still starts it over. The bytes behind glass are never read.

   THE SERVER CHOOSES the channel's size, and it need not be the panel's: when headers is 3, compare width and height with the picture's. A picture of more words
   is drawn with width words a row, at its start, which is not what a wider glass shows; one of fewer is 2 at each frame. So lend one of the channel's own size, or
   drop the link and say why. A NEW LINK starts with a fresh record (XURBALENZ_FRESH, xurbalenz_open) and a fresh collector; the picture may stay. */
typedef struct XurbalenzSession {
    uint8_t headers;
    uint8_t mode;
    uint16_t width;
    uint16_t height;
    uint8_t columns;
    uint8_t rows;
    uint32_t words;
    uint8_t glass;
} XurbalenzSession;

#define XURBALENZ_FRESH {0, 0, 0, 0, 0, 0, 0, 0}

#define XURBALENZ_RECORD_LAYOUT                                                                                                                     \
    (sizeof(XurbalenzSession) == 16 && offsetof(XurbalenzSession, headers) == 0 && offsetof(XurbalenzSession, mode) == 1 &&                         \
     offsetof(XurbalenzSession, width) == 2 && offsetof(XurbalenzSession, height) == 4 && offsetof(XurbalenzSession, columns) == 6 &&               \
     offsetof(XurbalenzSession, rows) == 7 && offsetof(XurbalenzSession, words) == 8 && offsetof(XurbalenzSession, glass) == 12)
XURBALENZ_HOLDS(record, XURBALENZ_RECORD_LAYOUT, "the archive lays the record out in 16 bytes");

/* The record of four numbers, as they were kept somewhere; the others are worked out from them. */
static inline XurbalenzSession xurbalenz_session_of(uint8_t headers, uint16_t width, uint16_t height, uint8_t mode)
{
    XurbalenzSession s = XURBALENZ_FRESH;
    s.headers = headers;
    s.mode = mode;
    s.width = width;
    s.height = height;
    s.columns = (uint8_t)((width + 63) / 64); /* at most 64 where the size is allowed */
    s.rows = (uint8_t)((height + 63) / 64);
    s.words = (uint32_t)width * height;
    return s;
}

/* A fresh session for a glass, 0 or 1. Any other number is no glass: it makes a record that no calls could have made, which is 12 wherever a record is judged, and
   which a good sync makes, without a word, a session for 16 bits. */
#define XURBALENZ_GLASS_16 0 /* pictures of 16-bit words: xurbalenz_read_frame */
#define XURBALENZ_GLASS_32 1 /* pictures of 32-bit words, XRGB8888: xurbalenz_read_frame_32 */
static inline XurbalenzSession xurbalenz_open(uint8_t glass)
{
    XurbalenzSession s = XURBALENZ_FRESH;
    s.glass = glass;
    return s;
}

/* The bytes of the record, 16. The name carries the layout: the three calls that take a record call this one too (see the end of this header), so
   a program compiled with this header does not link with an archive whose record is laid out otherwise. */
uint8_t xurbalenz_record_16(void);

/* ---- bytes from the network: the collector ---- */

/* What is kept from call to call beside the store. All 0 when fresh: XurbalenzCollector c = XURBALENZ_COLLECTOR_FRESH; Only xurbalenz_collect and
   xurbalenz_collect_reset change it, and you need not look into it: held is how many of the store's bytes are gathered, refused the refusal
   that is kept. One that no calls could have made is answered 12. */
typedef struct XurbalenzCollector {
    xurbalenz_size held;
    xurbalenz_size end;
    xurbalenz_size head;
    uint8_t refused;
    uint8_t part;
    uint8_t seen;
} XurbalenzCollector;

#define XURBALENZ_COLLECTOR_FRESH {0, 0, 0, 0, 0, 0}

#define XURBALENZ_COLLECTOR_LAYOUT                                                                                                                  \
    (sizeof(XurbalenzCollector) == 32 && offsetof(XurbalenzCollector, held) == 0 && offsetof(XurbalenzCollector, end) == 8 &&                       \
     offsetof(XurbalenzCollector, head) == 16 && offsetof(XurbalenzCollector, refused) == 24 && offsetof(XurbalenzCollector, part) == 25 &&         \
     offsetof(XurbalenzCollector, seen) == 26)
XURBALENZ_HOLDS(collector, XURBALENZ_COLLECTOR_LAYOUT, "the archive lays the collector out in 32 bytes");

/* The bytes of the collector, 32. The name carries the layout, as that of xurbalenz_record_16 does. */
uint8_t xurbalenz_collector_32(void);

#define XURBALENZ_NO_CALL 0     /* nothing is handed on */
#define XURBALENZ_HEADER_CALL 1 /* store[0 .. size) is a message for xurbalenz_read_header */
#define XURBALENZ_FRAME_CALL 2  /* store[0 .. size) is a message for xurbalenz_read_frame */

/*
 * Takes bytes of the stream as a network card gives them, any number at a time, and hands on one header block, or one frame from its begin
 * block through its end block, whole. It stops at the end of what it hands on; give the rest again:
 *
 *     while (n > 0) {
 *         uint8_t number = xurbalenz_collect(&c, bytes, n, store, sizeof store, &call, &size, &taken);
 *         if (number != XURBALENZ_DONE) { log_line(xurbalenz_says(number)); drop_the_link(); break; }
 *         if (call == XURBALENZ_HEADER_CALL) xurbalenz_read_header(&session, store, size);
 *         if (call == XURBALENZ_FRAME_CALL) xurbalenz_read_frame_with(&session, store, size, picture, words, &work, &tiles);
 *         bytes += taken;
 *         n -= taken;
 *     }
 *
 * Outside a frame any block but a begin (CCC4) is handed on alone: CCC0 to CCC3 to the header call, CCC5 to CCC7 to the frame call. Inside
 * one, every block is gathered until the end block (CCC5). Those calls then judge the message, as if it had come in one piece.
 *
 * A LINK THAT STARTS ANEW NEEDS A RESET: call xurbalenz_collect_reset before the first byte of a new connection, and after every refusal but 2.
 * Else what was gathered of the old one stays in front of the new bytes. Make the session's record fresh as well.
 *
 * Judged in this order: a collector that no calls could have made (12); a refusal that is kept (its number again); a store shorter than what
 * is gathered, or than the end of the block under way (2, not kept: with the right store it goes on). Then the six bytes of each block's head,
 * when the sixth is there: type not CCC0 to CCC7 (3), blockLen under 6 (4), the frame's earlier blocks and this one longer than the store (13).
 * After 3, 4 and 13 every call answers the same until the reset.
 *
 * Lend the same store from call to call, at least as long as the longest frame. It need not be cleared. A full frame of a control screen or of a screen of text,
 * with the quantisers of XURBALENZ_DEFAULT_QUANT, has 0.33 to 0.58 bytes a pixel (docs/BENCH.md), and one of this library's writers never more than
 * XURBALENZ_FRAME_ROOM(width, height). A frame that is longer than the store is 13, and the link must be dropped; so lend what you can.
 *
 * Afterwards: *taken is how many of the bytes were taken: all when it waits for more, those up to the end of what is handed on, those up to the
 * end of a head that is refused, 0 on every later refusal. *call is one of the three numbers above, and *size how long the message is, else 0;
 * it stands in the store until the next call. The collector is then fresh again. A call that takes nothing changes nothing.
 */
uint8_t xurbalenz_collect(XurbalenzCollector *c, const uint8_t *bytes, xurbalenz_size bytes_len, uint8_t *store, xurbalenz_size store_len,
                          uint8_t *call, xurbalenz_size *size, xurbalenz_size *taken);

/* Makes the collector fresh, whatever it was: what was gathered is thrown away, and a refusal forgotten. The next byte is the first of a block. */
void xurbalenz_collect_reset(XurbalenzCollector *c);

/* ---- reading ---- */

/*
 * Reads one header block; the message is that block and nothing else. They are due in this order: sync (CCC0), versions (CCC1), channels
 * (CCC2), context (CCC3). A good sync is always due and starts the session over: one header in, all else 0; keep the picture.
 *
 * Judged in this order: head of 6 bytes there (1), type CCC0 to CCC3 (3), due (12), blockLen (4), whole block there (1), fields in wire
 * order (5), bytes after the block (4).
 *
 * Afterwards: done - the record has the header in it (width, height and what follows from them with channels, mode with the context);
 * refused - the record is what it was.
 */
uint8_t xurbalenz_read_header(XurbalenzSession *s, const uint8_t *message, xurbalenz_size message_len);

/*
 * Reads one frame and draws it; the message is begin (CCC4), region (CCC6), tileset (CCC7), end (CCC5) and nothing else.
 *
 * picture: 16-bit words, red 5 bits (high), green 6, blue 5, row by row, width words a row; at least width x height words. Lend the same
 * picture from frame to frame. y, cb, cr, scratch: work lists of 4,096 numbers each.
 *
 * Judged in this order: a record with all four headers (12); the four lists, the glass and the picture's length (2); then the blocks in wire order,
 * each: head there (1), kind due (3), blockLen against its fixed or least size (4), whole block there (1), fixed fields (5), counts (6),
 * blockLen against counts (4), contents; the two fields behind a region's rectangles come last of it (5). Contents of the tileset: the
 * quantisers (7), then tile by tile its head, kind, size and presence within the tileset's data (1, 3, 4, 1), lengths (4), quantiser
 * indices (7), place (8), then Y, Cb, Cr in turn: the code (1, 9, 10, 11), then LL3 sums and scaling (9); data left over after the last tile
 * is 4. Bytes after the frame end are 4.
 *
 * Afterwards: done - a word of the picture has changed exactly if it lies in the channel, in some rectangle of the region and in some
 * listed tile (the last such tile decides); a region with no rectangles is one rectangle over the whole channel, one of width or height 0
 * holds nothing; *tiles is how many tiles the frame lists; refused - the picture is what it was, *tiles is 0.
 * Words past width x height never change. The record is left equal in every case (it is not const only because all calls take it alike).
 * Work lists: untouched on 12 and 2; only zeros after every other answer, done too.
 */
uint8_t xurbalenz_read_frame(XurbalenzSession *s, const uint8_t *message, xurbalenz_size message_len, uint16_t *picture, xurbalenz_size picture_len,
                             int32_t *y, xurbalenz_size y_len, int32_t *cb, xurbalenz_size cb_len, int32_t *cr, xurbalenz_size cr_len,
                             int32_t *scratch, xurbalenz_size scratch_len, xurbalenz_size *tiles);

/*
 * The same on a glass of 32 bits. picture: 32-bit words, red x 65,536 + green x 256 + blue: XRGB8888, whose highest byte is 0. (A layer that takes that byte for
 * alpha, ARGB8888, shows nothing.) All else is said at xurbalenz_read_frame: the same frame changes the
 * same places. Each of the two answers 2 to a record of the other's glass.
 */
uint8_t xurbalenz_read_frame_32(XurbalenzSession *s, const uint8_t *message, xurbalenz_size message_len, uint32_t *picture,
                                xurbalenz_size picture_len, int32_t *y, xurbalenz_size y_len, int32_t *cb, xurbalenz_size cb_len, int32_t *cr,
                                xurbalenz_size cr_len, int32_t *scratch, xurbalenz_size scratch_len, xurbalenz_size *tiles);

/*
 * Reads one component's code into a list of 4,096 numbers, quantised, in the order of the code: HL1, LH1, HH1, HL2, LH2, HH2, HL3, LH3, HH3,
 * LL3.
 *
 * Judged in this order: mode (5), list_len (2), code_len over 65,535 (6), then the code; each element of it is read in full (1) before it is
 * judged, 9 before 10; last what follows the 4,096th value (11).
 *
 * Afterwards: done - the list has the values; 5, 2, 6 - the list is untouched; 1, 9, 10, 11 - the list holds only zeros. *bits is the
 * code's length in bits on 0 and on 11 (there: up to the 4,096th value), else 0.
 */
uint8_t xurbalenz_read_component(uint8_t mode, const uint8_t *code, xurbalenz_size code_len, int32_t *list, xurbalenz_size list_len,
                                 xurbalenz_size *bits);

/* ---- writing ---- */

/* Every writer measures before it writes. Refused: out is untouched and *size is 0. Done: *size is the length in bytes, out[0 .. *size) holds
   what was written, and the bytes past it are untouched. */

/*
 * Writes a component's code: the one code that this list has in this mode.
 * Judged in this order: mode (5), list_len not 4,096 (2), a number outside -32,767 to 32,767 (9), a code over 65,535 bytes (6), out (13).
 */
uint8_t xurbalenz_write_component(uint8_t mode, const int32_t *list, xurbalenz_size list_len, uint8_t *out, xurbalenz_size out_len,
                                  xurbalenz_size *size);

/*
 * Writes the four header blocks one behind the other: 12, 10, 12 and 13 bytes. Hand them to four header calls.
 * Judged in this order: width 1 to 4,096, height 1 to 2,048, mode (5); fewer than 47 bytes of out (13).
 */
uint8_t xurbalenz_write_headers(xurbalenz_size width, xurbalenz_size height, uint8_t mode, uint8_t *out, xurbalenz_size out_len,
                                xurbalenz_size *size);

/*
 * Writes one frame over the whole channel: all tiles row by row, one rectangle, one quantiser set for Y, Cb and Cr. The last column and row
 * are repeated into tiles that hang over the edge.
 *
 * quant: ten values in the order of XURBALENZ_DEFAULT_QUANT. index: goes into the frame as frameIdx, any value. pixels: three bytes a pixel,
 * R, G, B, row by row, exactly 3 x width x height. list, scratch: work lists of 4,096 numbers.
 *
 * Judged in this order: size or mode (5), a quantiser outside 6 to 15 (7), pixels_len, list_len or scratch_len (2), then component by
 * component a value that a reader would refuse (9) and a code over 65,535 bytes (6), then out (13). No picture leads to 9 or 6; that is
 * proved. So with good arguments and XURBALENZ_FRAME_ROOM bytes of out every picture is written, and it is written at once: with less room the frame is
 * measured before its first byte goes out, which takes nearly twice the instructions.
 *
 * Afterwards, besides what holds for every writer: list and scratch are untouched on 5, 7 and 2, and hold only zeros after every other
 * answer, done too.
 */
uint8_t xurbalenz_write_frame(xurbalenz_size width, xurbalenz_size height, uint8_t mode, const uint8_t quant[10], uint32_t index,
                              const uint8_t *pixels, xurbalenz_size pixels_len, int32_t *list, xurbalenz_size list_len, int32_t *scratch,
                              xurbalenz_size scratch_len, uint8_t *out, xurbalenz_size out_len, xurbalenz_size *size);

/* ---- sending only what changed ---- */

/*
 * Tiles are numbered row by row from 0: there are XURBALENZ_TILES(width, height). old and next are the old and the new picture, of one size, three bytes a
 * pixel, R, G, B, row by row, each exactly 3 x width x height. picks is a list of tile numbers: those that are to be sent. A tile differs if some pixel
 * of it does.
 *
 * If the glass shows what a full frame of the old picture gives, a short frame of the tiles that differ leaves it showing what a full frame of the new one
 * would give, with the same quantisers, mode and session. Of a glass that shows something else nothing is said: send a full frame first.
 */

/*
 * Judges such a list, whoever made it. Nothing is changed.
 * Judged in this order: size (5), either picture's length (2), then over the whole list: a number that is not above the one before it (16), a number that no
 * tile has (8), a tile that differs and is not listed (17). A tile that does not differ may be listed. The empty list is in order.
 */
uint8_t xurbalenz_check_plan(xurbalenz_size width, xurbalenz_size height, const uint8_t *old, xurbalenz_size old_len, const uint8_t *next,
                             xurbalenz_size next_len, const uint32_t *picks, xurbalenz_size picks_len);

/*
 * Makes the shortest list that xurbalenz_check_plan takes: the numbers of the tiles that differ. A list of XURBALENZ_TILES always has room.
 * Judged in this order: size (5), either picture's length (2), a list with no room for the numbers (13).
 * Afterwards: done - *count is how many there are, picks[0 .. *count) has them, those past it are untouched; refused - picks is untouched, *count is 0.
 */
uint8_t xurbalenz_make_plan(xurbalenz_size width, xurbalenz_size height, const uint8_t *old, xurbalenz_size old_len, const uint8_t *next,
                            xurbalenz_size next_len, uint32_t *picks, xurbalenz_size picks_len, xurbalenz_size *count);

/*
 * Writes one frame of the listed tiles of the new picture, in the list's order: one rectangle over the whole channel, luma's ten quantisers for Y and
 * chroma's for Cb and Cr, two sets where they differ. With all tiles listed and luma equal to chroma it writes what xurbalenz_write_frame writes; with none
 * it writes 72 bytes (77 with two sets). XURBALENZ_FRAME_ROOM is always enough.
 *
 * Judged in this order: size or mode (5), a quantiser outside 6 to 15 (7), either picture's length, list_len or scratch_len (2), then the list as
 * xurbalenz_check_plan judges it (16, 8, 17), then component by component of the listed tiles 9 and 6, which no picture leads to, then out (13).
 *
 * Afterwards, besides what holds for every writer: list and scratch are untouched on 5, 7 and 2, and hold only zeros after every other answer, done too.
 */
uint8_t xurbalenz_write_frame_short(xurbalenz_size width, xurbalenz_size height, uint8_t mode, const uint8_t luma[10], const uint8_t chroma[10],
                                    uint32_t index, const uint8_t *old, xurbalenz_size old_len, const uint8_t *next, xurbalenz_size next_len,
                                    const uint32_t *picks, xurbalenz_size picks_len, int32_t *list, xurbalenz_size list_len, int32_t *scratch,
                                    xurbalenz_size scratch_len, uint8_t *out, xurbalenz_size out_len, xurbalenz_size *size);

/* ---- which tiles of two pictures differ ---- */

/*
 * Counts, for each tile, the words in which two pictures of one size differ: of what the glass showed and what it shows, say. counts[k] is that of tile k; tiles are
 * numbered row by row from 0, and there are XURBALENZ_TILES(width, height) of them. Pictures may be longer than width x height words; what is behind is not looked at.
 *
 * Judged in this order: size (5), either picture's length (2), counts_len below the number of tiles (13).
 * Afterwards: done - counts past the last tile are 0; refused - counts are untouched.
 */
uint8_t xurbalenz_count_tiles(xurbalenz_size width, xurbalenz_size height, const uint16_t *old, xurbalenz_size old_len, const uint16_t *next, xurbalenz_size next_len,
                              uint32_t *counts, xurbalenz_size counts_len);

/* The same for pictures of 32-bit words. */
uint8_t xurbalenz_count_tiles_32(xurbalenz_size width, xurbalenz_size height, const uint32_t *old, xurbalenz_size old_len, const uint32_t *next, xurbalenz_size next_len,
                                 uint32_t *counts, xurbalenz_size counts_len);

/*
 * Tells the first tile that differs, from tile `from` on: *tile is its number, *x and *y its column and its row, *n its count. Where there is none *n is 0, and so are
 * the others. All of them, one after the other:
 *
 *     for (xurbalenz_size from = 0; xurbalenz_next_tile(w, h, counts, counts_len, from, &tile, &x, &y, &n) == XURBALENZ_DONE && n > 0; from = tile + 1)
 *         printf("%zu %zu %u\n", x, y, n);
 *
 * A size that is not allowed is 5; all four are 0 then.
 */
uint8_t xurbalenz_next_tile(xurbalenz_size width, xurbalenz_size height, const uint32_t *counts, xurbalenz_size counts_len, xurbalenz_size from, xurbalenz_size *tile, xurbalenz_size *x, xurbalenz_size *y,
                            uint32_t *n);

/* ---- what other senders write, made acceptable ---- */

/* Who sends: chosen by whoever installs the filter, never guessed from the bytes. */
#define XURBALENZ_STRICT 0  /* nothing but what the panel takes */
#define XURBALENZ_FREERDP 1 /* FreeRDP's encoder: one byte 00 behind a code exactly where the code's bits mod 8 are 5, 6 or 7 */
#define XURBALENZ_SAMPLE 2  /* the encoder of MS-RDPRFX's own sample: one value -1 more, filled up, and one byte 00 */

/*
 * Passes one frame on to a panel behind it, for senders whose codes this library's reader refuses (11, 10): each of them writes one byte string for a list of
 * 4,096 numbers, and a code that is the sender's own byte string of a list is written again as the panel reads it. Nothing else is changed. message is the frame;
 * width, height and mode are those of the session's headers (of another size than 1 to 4,096 by 1 to 2,048 there is no session, and the frame goes on as it came).
 * list: a work list of 4,096 numbers.
 *
 * A frame that the panel accepts goes on byte for byte. One whose only faults are such codes goes on with these written again, and shows the decoding of the same
 * numbers. Every other frame goes on as it came, to be refused by its number. Never does a frame become longer. Whether the bytes are those that were sent is
 * the link's to hold: RemoteFX has no checksum.
 *
 * Judged in this order: sender above 2 (5), list_len (2), out_len below message_len (13).
 * Afterwards: done - told[0] bytes of out are the frame to hand on, bytes past them are untouched, told[1] is how many of its codes were changed (0: it is as it
 * came), and list holds only zeros; refused - out and list are untouched, told is 0, 0.
 */
uint8_t xurbalenz_tidy_frame(uint8_t sender, xurbalenz_size width, xurbalenz_size height, uint8_t mode, const uint8_t *message, xurbalenz_size message_len, int32_t *list,
                             xurbalenz_size list_len, uint8_t *out, xurbalenz_size out_len, xurbalenz_size told[2]);

/* The bytes that hold what waits between two header blocks. */
#define XURBALENZ_HELD_SIZE 38

/*
 * Puts header blocks into the panel's order, for every sender: behind a good sync the next three blocks wait until versions, channels and context are all there,
 * and go on in this order; if another block comes before that, what waits goes on as it came, and the block behind it. Nothing is lost. Give every header block of
 * the stream, whole, one after the other; hand the first *size bytes of out on to the panel, block by block by their lengths. Before a frame, and at the end, let go
 * what waits. held: XURBALENZ_HELD_SIZE bytes, all zeros at first, handed from call to call.
 *
 * Judged in this order: held_len, or what stands in held was not left there by these calls (2); out_len below 35 and the block's length, for letting go below 35,
 * whatever goes on (13).
 * Afterwards: done - *size bytes of out go on, bytes past them are untouched; refused - nothing changes, *size is 0.
 */
uint8_t xurbalenz_tidy_header(uint8_t *held, xurbalenz_size held_len, const uint8_t *block, xurbalenz_size block_len, uint8_t *out, xurbalenz_size out_len, xurbalenz_size *size);
uint8_t xurbalenz_tidy_flush(uint8_t *held, xurbalenz_size held_len, uint8_t *out, xurbalenz_size out_len, xurbalenz_size *size);

/* ---- capabilities and acknowledgements ---- */

/*
 * What a client can do, and which frames it has shown: MS-RDPRFX, sections 2.2.1.1, 2.2.1.3 and 2.2.3.1. Each message is read along the wire, field by
 * field: a field whose bytes are not all there is 1, then it is judged, then the next. A fixed field that differs is 5, a length that disagrees 4 (one
 * that speaks of later bytes is judged with them), more than two entries 6, bytes after the last field 4. What is not judged is kept: whatever is read
 * and written again from its fields comes out the same. Sessions and frames take no part.
 *
 * A reader stores its fields on every answer, 0 when refused. The writers are as the others: refused, out is untouched and *size is 0.
 */
#define XURBALENZ_CAPS_SIZE(n) (33 + 8 * (size_t)(n)) /* bytes of a container of n entries: at most 49 */
#define XURBALENZ_ACK_CAP_SIZE 8
#define XURBALENZ_ACK_SIZE 22

/*
 * Reads a client capability container, which is the whole message: *flags is captureFlags, *n how many entries there are (0 to 2), entries the flags
 * and entropyBits (XURBALENZ_RLGR1 or XURBALENZ_RLGR3) of the first and of the second; 0 0 where there is none.
 */
uint8_t xurbalenz_read_caps(const uint8_t *message, xurbalenz_size message_len, uint32_t *flags, uint8_t *n, uint8_t entries[4]);

/* Writes one. Judged in this order: n over 2 (6), entropyBits of an entry that is there (5), out (13). What stands in entries past n is ignored. */
uint8_t xurbalenz_write_caps(uint32_t flags, uint8_t n, const uint8_t entries[4], uint8_t *out, xurbalenz_size out_len, xurbalenz_size *size);

/* Reads a frame acknowledge capability, which is the whole message: *count is maxUnacknowledgedFrameCount. */
uint8_t xurbalenz_read_ack_cap(const uint8_t *message, xurbalenz_size message_len, uint32_t *count);

/* Writes one: 8 bytes, else 13. */
uint8_t xurbalenz_write_ack_cap(uint32_t count, uint8_t *out, xurbalenz_size out_len, xurbalenz_size *size);

/*
 * Reads a frame acknowledge message from its shareDataHeader on, 22 bytes, which are the whole message; the headers in front are the link's. fields are
 * version (the upper twelve bits of pduType), pduSource, shareId, pad1, streamId, uncompressedLength, compressedType, compressedLength and frameID, in
 * wire order.
 */
uint8_t xurbalenz_read_ack(const uint8_t *message, xurbalenz_size message_len, uint32_t fields[9]);

/* Writes one. Judged in this order: a version over 4,095 (5), out (13). */
uint8_t xurbalenz_write_ack(uint16_t version, uint16_t source, uint32_t share, uint8_t pad, uint8_t stream, uint16_t uncompressed,
                            uint8_t compression, uint16_t compressed, uint32_t frame, uint8_t *out, xurbalenz_size out_len, xurbalenz_size *size);

/* ---- settings kept by the cabinet ---- */

/*
 * The frame writer's quantisers and mode, as records: a version (kind 0, first and once), then settings (kind 1: one set for luma and chroma; kind 2: two
 * sets, of version 2), of which the last counts. luma and chroma are ten values each, in the order of XURBALENZ_DEFAULT_QUANT.
 */
#define XURBALENZ_SETTINGS_SIZE 15 /* an output of this size always has room for settings; equal sets take 10 */

/*
 * Reads the records of a store. newest is the newest version that this reader knows: 1 takes version 1, 2 takes 1 and 2, 0 takes none.
 *
 * An empty store is 1. Then record by record, each in full before the next: its kind (3), its place (12: the version first, and once), that it is there (1),
 * then its bytes as they stand: a version that is not taken (14); quantisers, luma and then chroma (7), mode (5). At the end the version alone is 15.
 *
 * Afterwards: done - luma, chroma and *mode are the settings; refused - all of them are 0.
 */
uint8_t xurbalenz_read_settings(uint8_t newest, const uint8_t *bytes, xurbalenz_size bytes_len, uint8_t luma[10], uint8_t chroma[10], uint8_t *mode);

/*
 * Writes settings: equal sets as version 1, 10 bytes, which every reader takes; else as version 2, 15 bytes, which a reader of version 1 refuses (14).
 * Judged in this order: a quantiser of luma or chroma outside 6 to 15 (7), mode (5), out (13).
 */
uint8_t xurbalenz_write_settings(const uint8_t luma[10], const uint8_t chroma[10], uint8_t mode, uint8_t *out, xurbalenz_size out_len,
                                 xurbalenz_size *size);

/*
 * xurbalenz_write_frame with luma's quantisers (Y) and chroma's (Cb and Cr). Where they are equal it writes the same bytes; else the frame has two sets,
 * luma's first. All else is said there; 7 is a quantiser of either.
 */
uint8_t xurbalenz_write_frame_sets(xurbalenz_size width, xurbalenz_size height, uint8_t mode, const uint8_t luma[10], const uint8_t chroma[10],
                                   uint32_t index, const uint8_t *pixels, xurbalenz_size pixels_len, int32_t *list, xurbalenz_size list_len,
                                   int32_t *scratch, xurbalenz_size scratch_len, uint8_t *out, xurbalenz_size out_len, xurbalenz_size *size);

/* ---- the record's layout ---- */

/* What the names xurbalenz_read_header, xurbalenz_read_frame, xurbalenz_read_frame_32, xurbalenz_collect and xurbalenz_collect_reset stand for from here on: the
   calls above, and the name of the layout. */
static inline uint8_t xurbalenz_read_header_16(XurbalenzSession *s, const uint8_t *message, xurbalenz_size message_len)
{
    (void)xurbalenz_record_16();
    return xurbalenz_read_header(s, message, message_len);
}

static inline uint8_t xurbalenz_read_frame_16(XurbalenzSession *s, const uint8_t *message, xurbalenz_size message_len, uint16_t *picture,
                                              xurbalenz_size picture_len, int32_t *y, xurbalenz_size y_len, int32_t *cb, xurbalenz_size cb_len,
                                              int32_t *cr, xurbalenz_size cr_len, int32_t *scratch, xurbalenz_size scratch_len, xurbalenz_size *tiles)
{
    (void)xurbalenz_record_16();
    return xurbalenz_read_frame(s, message, message_len, picture, picture_len, y, y_len, cb, cb_len, cr, cr_len, scratch, scratch_len, tiles);
}

static inline uint8_t xurbalenz_read_frame_32_16(XurbalenzSession *s, const uint8_t *message, xurbalenz_size message_len, uint32_t *picture,
                                                 xurbalenz_size picture_len, int32_t *y, xurbalenz_size y_len, int32_t *cb, xurbalenz_size cb_len,
                                                 int32_t *cr, xurbalenz_size cr_len, int32_t *scratch, xurbalenz_size scratch_len,
                                                 xurbalenz_size *tiles)
{
    (void)xurbalenz_record_16();
    return xurbalenz_read_frame_32(s, message, message_len, picture, picture_len, y, y_len, cb, cb_len, cr, cr_len, scratch, scratch_len, tiles);
}

static inline uint8_t xurbalenz_collect_32(XurbalenzCollector *c, const uint8_t *bytes, xurbalenz_size bytes_len, uint8_t *store,
                                           xurbalenz_size store_len, uint8_t *call, xurbalenz_size *size, xurbalenz_size *taken)
{
    (void)xurbalenz_collector_32();
    return xurbalenz_collect(c, bytes, bytes_len, store, store_len, call, size, taken);
}

static inline void xurbalenz_collect_reset_32(XurbalenzCollector *c)
{
    (void)xurbalenz_collector_32();
    xurbalenz_collect_reset(c);
}

#define xurbalenz_read_header xurbalenz_read_header_16
#define xurbalenz_read_frame xurbalenz_read_frame_16
#define xurbalenz_read_frame_32 xurbalenz_read_frame_32_16
#define xurbalenz_collect xurbalenz_collect_32
#define xurbalenz_collect_reset xurbalenz_collect_reset_32

/* ---- frames with the work lists in one struct ---- */

/* The four work lists: 64 KiB, so static or from malloc rather than on a small stack. It need not be cleared, holds nothing between calls, and
   may serve any number of sessions, one call at a time. */
typedef struct XurbalenzWork {
    int32_t y[XURBALENZ_LIST];
    int32_t cb[XURBALENZ_LIST];
    int32_t cr[XURBALENZ_LIST];
    int32_t scratch[XURBALENZ_LIST];
} XurbalenzWork;

/* xurbalenz_read_frame and xurbalenz_read_frame_32 with these lists: 2 can then only mean the picture. */
static inline uint8_t xurbalenz_read_frame_with(XurbalenzSession *s, const uint8_t *message, xurbalenz_size message_len, uint16_t *picture,
                                                xurbalenz_size picture_len, XurbalenzWork *work, xurbalenz_size *tiles)
{
    return xurbalenz_read_frame(s, message, message_len, picture, picture_len, work->y, XURBALENZ_LIST, work->cb, XURBALENZ_LIST, work->cr,
                                XURBALENZ_LIST, work->scratch, XURBALENZ_LIST, tiles);
}

static inline uint8_t xurbalenz_read_frame_32_with(XurbalenzSession *s, const uint8_t *message, xurbalenz_size message_len, uint32_t *picture,
                                                   xurbalenz_size picture_len, XurbalenzWork *work, xurbalenz_size *tiles)
{
    return xurbalenz_read_frame_32(s, message, message_len, picture, picture_len, work->y, XURBALENZ_LIST, work->cb, XURBALENZ_LIST, work->cr,
                                   XURBALENZ_LIST, work->scratch, XURBALENZ_LIST, tiles);
}

/* xurbalenz_write_frame with the lists y and scratch of it: 2 can then only mean the pixels. cb and cr are not touched. */
static inline uint8_t xurbalenz_write_frame_with(xurbalenz_size width, xurbalenz_size height, uint8_t mode, const uint8_t quant[10], uint32_t index,
                                                 const uint8_t *pixels, xurbalenz_size pixels_len, XurbalenzWork *work, uint8_t *out,
                                                 xurbalenz_size out_len, xurbalenz_size *size)
{
    return xurbalenz_write_frame(width, height, mode, quant, index, pixels, pixels_len, work->y, XURBALENZ_LIST, work->scratch, XURBALENZ_LIST, out,
                                 out_len, size);
}

/* xurbalenz_write_frame_sets and xurbalenz_write_frame_short with the same two. */
static inline uint8_t xurbalenz_write_frame_sets_with(xurbalenz_size width, xurbalenz_size height, uint8_t mode, const uint8_t luma[10],
                                                      const uint8_t chroma[10], uint32_t index, const uint8_t *pixels, xurbalenz_size pixels_len,
                                                      XurbalenzWork *work, uint8_t *out, xurbalenz_size out_len, xurbalenz_size *size)
{
    return xurbalenz_write_frame_sets(width, height, mode, luma, chroma, index, pixels, pixels_len, work->y, XURBALENZ_LIST, work->scratch,
                                      XURBALENZ_LIST, out, out_len, size);
}

static inline uint8_t xurbalenz_write_frame_short_with(xurbalenz_size width, xurbalenz_size height, uint8_t mode, const uint8_t luma[10],
                                                       const uint8_t chroma[10], uint32_t index, const uint8_t *old, xurbalenz_size old_len,
                                                       const uint8_t *next, xurbalenz_size next_len, const uint32_t *picks, xurbalenz_size picks_len,
                                                       XurbalenzWork *work, uint8_t *out, xurbalenz_size out_len, xurbalenz_size *size)
{
    return xurbalenz_write_frame_short(width, height, mode, luma, chroma, index, old, old_len, next, next_len, picks, picks_len, work->y,
                                       XURBALENZ_LIST, work->scratch, XURBALENZ_LIST, out, out_len, size);
}

#ifdef __cplusplus
}
#endif

#endif
