/*
 * peer.h - what the files of the peer share: pictures, streams, FreeRDP behind a few functions, tidy by hand, the count of steps.
 */
#ifndef PEER_H
#define PEER_H

#include "xurbalenz.h"

#include <stddef.h>
#include <stdint.h>

#define WIDEST 1024
#define HIGHEST 768
#define MOST_TILES (WIDEST / 64 * HIGHEST / 64)

/* ---- pictures (pictures.c) ---- */

enum { CONTROL, TEXT, PHOTO, NOISE, HARSH, GRADIENT, FLAT, KINDS };

typedef struct Picture {
    int kind;
    size_t width, height;
    uint8_t rgb[3 * WIDEST * HIGHEST];  /* for us: R, G, B */
    uint8_t bgrx[4 * WIDEST * HIGHEST]; /* for FreeRDP: the same pixels as B, G, R and a byte that is nothing */
} Picture;

extern const char *const kind_names[KINDS];

/* Draws a picture of this kind, the same on every machine. */
void draw(Picture *p, int kind, size_t width, size_t height);

/* ---- streams: four headers and one frame ---- */

typedef struct Stream {
    uint8_t *bytes;
    size_t size, room;
} Stream;

/* What a stream is made with. */
typedef struct Setting {
    uint8_t mode; /* XURBALENZ_RLGR1 or XURBALENZ_RLGR3 */
    const uint8_t *quant;
    const char *name; /* of the quantisers */
} Setting;

/* Our writer and our reader, on whole streams (ours.c). The number is the first refusal's. */
uint8_t ours_write(const Picture *p, const Setting *with, Stream *out);
uint8_t ours_read(const Stream *in, const Picture *p, uint16_t *words);

/* Headers as they are, the frame behind them through xurbalenz_tidy_frame; 0 where that refuses. */
int ours_tidy(const Stream *in, const Picture *p, uint8_t mode, Stream *out);

/* ---- FreeRDP (theirs.c) ---- */

enum { PORTABLE, SIMD, SIDES };

extern const char *const side_names[SIDES];

/* Makes both sides' contexts; answers NULL, or what is wrong. */
const char *theirs_open(void);
void theirs_close(void);

/* Whether the two sides have different routines: else SIMD is PORTABLE once more. */
int theirs_switched(void);

/* The library's version, as it says itself. */
const char *theirs_version(void);

/* Decodes a stream to 5-6-5 words, or to 32 bits a pixel; 0 where FreeRDP refuses it. */
int theirs_read(int side, const Stream *in, const Picture *p, uint16_t *words);
int theirs_read_32(int side, const Stream *in, const Picture *p, uint32_t *pixels);

/* Encodes a picture; 0 where FreeRDP fails. Each list that it quantises is kept, in the order of the codes in the stream. With no `out` (for the times)
   nothing is kept or copied. */
int theirs_write(int side, const Picture *p, const Setting *with, Stream *out);

/* The list that FreeRDP quantised for a code of the last stream. */
const int16_t *theirs_list(size_t code);

/* ---- tidy by hand (tidy.c) ---- */

/* Makes one component's code anew: its bytes go to out (at most 65,535), its length is the answer. `code` counts from 0 through the frame. */
typedef size_t Recode(uint8_t mode, size_t code, const uint8_t *bytes, size_t size, uint8_t *out);

/* Puts the headers into our order and every code through `recode`, and fills lengths in again; 0 where the stream is not laid out as FreeRDP does. */
int standin(const Stream *in, Recode *recode, Stream *out);

/* The recoding that tidy does: what follows a complete code is cut off. It counts the codes that it has cut. */
Recode cut_tail;
extern size_t tails_cut;

/* ---- counts ---- */

/* Pixels of two pictures of 5-6-5 words: equal, one step apart in some channel and no more in any, further apart. */
typedef struct Steps {
    unsigned long equal, one, more;
} Steps;

void count_steps(Steps *into, const uint16_t *a, const uint16_t *b, size_t words);
void add_steps(Steps *into, const Steps *more);

/* ---- the parts of the program ---- */

/* Compares; answers how many streams failed (compare.c). */
int compare_all(int quick);

/* Times, or with 0 rounds runs all once between marks; answers how many calls failed (times.c). */
int time_all(int rounds);

/* Ends the program with a line. */
void give_up(const char *what);

/* Memory for the longest stream. */
void make_room(Stream *s);

#endif
