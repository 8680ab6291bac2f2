/*
 * Both ways, compared. Ours to theirs: our writer's stream, read by us and by FreeRDP. Theirs to ours: FreeRDP's stream, read by FreeRDP, and, tidied, by us.
 * Both readers' pictures are 5-6-5, and a pixel more than one step off in some channel fails. (One step is to be expected: we round to the nearest colour,
 * as 02's request Four asks, FreeRDP cuts.)
 *
 * Faults of FreeRDP that are known are listed apart. (1) Its encoder sends a list that ends in a zero within a run as if it ended in +1: one step of LL3's
 * quantiser in a tile's last corner, which shows where that is coarse, and can take LL3 out of range (9). From 13 on that step is as wide as all samples
 * together, and FreeRDP's decoder then leaves its 16 bits in the colours: such tiles are counted apart. (2) A code that wants more than its 4,096 bytes is
 * cut off (1). Each is seen for what it is: the lists that FreeRDP quantised are kept, and what its code says is held against them. We may refuse
 * a frame that has such a code, with that number; any other refusal fails, and so does any other difference between list and code. And
 * the same lists are written without the faults by our component writer ("as meant"): that stream must be read alike by both, without exception.
 */
#include "peer.h"

#include <stdio.h>
#include <stdlib.h>
#include <string.h>

#define SETS 4

static const uint8_t quants[SETS][10] = {{6, 6, 6, 6, 6, 6, 6, 6, 6, 6},
                                         XURBALENZ_DEFAULT_QUANT,
                                         {10, 10, 10, 10, 11, 11, 12, 12, 12, 13},
                                         {15, 15, 15, 15, 15, 15, 15, 15, 15, 15}};
static const char *const set_names[SETS] = {"finest", "default", "coarse", "coarsest"};
static const size_t sizes[][2] = {{1, 1}, {3, 200}, {64, 64}, {65, 63}, {320, 200}, {WIDEST, HIGHEST}};
#define SIZES (sizeof sizes / sizeof sizes[0])

/* What came of a kind of picture with a set of quantisers, all sizes and both modes together. */
typedef struct Row {
    unsigned long from_us, from_them, accepted; /* streams each way; those of FreeRDP's that we accept */
    Steps ours[SIDES];                          /* our streams, FreeRDP's words against ours */
    Steps theirs, apart;                        /* its streams that we accept, the same; tiles that are counted apart */
    Steps meant;                                /* its lists written without its faults, the same */
    Steps shown;                                /* what its faults show: its streams against those as meant, both read by us */
    unsigned long codes, tails, ones, cut_offs; /* its codes; with a tail; with a last +1 that is a zero; cut off */
    unsigned long refused_1, refused_9;         /* its frames that we refuse for these faults */
} Row;

static Row rows[KINDS][SETS];
static Picture picture;
static Stream stream, ordered, by_hand, tidied, meant;
static uint16_t our_words[WIDEST * HIGHEST], their_words[WIDEST * HIGHEST], meant_words[WIDEST * HIGHEST];
static int failures;

/* What is being compared. */
static const Setting *with;
static int side;
static Row *row;

static void fail(const char *what, unsigned long n)
{
    printf("peer: FAILED: %s, %zu x %zu, RLGR%d, %s quantisers, FreeRDP %s: %s (%lu)\n", kind_names[picture.kind], picture.width, picture.height,
           with->mode == XURBALENZ_RLGR1 ? 1 : 3, with->name, side_names[side], what, n);
    fflush(stdout);
    failures++;
}

/* ---- pictures beside each other */

static uint8_t tile_apart[MOST_TILES];

/* FreeRDP's words against ours; the tiles that are apart go there, if it is said where. */
static Steps beside(const uint16_t *ours, Steps *apart)
{
    Steps here = {0, 0, 0};
    size_t w = picture.width, columns = (w + 63) / 64;
    for (size_t y = 0; y < picture.height; y++)
        for (size_t x = 0; x < w; x += 64) {
            int is_apart = apart && tile_apart[y / 64 * columns + x / 64];
            count_steps(is_apart ? apart : &here, ours + y * w + x, their_words + y * w + x, w - x < 64 ? w - x : 64);
        }
    return here;
}

/* FreeRDP reads a stream, and its words are held against ours. */
static void read_beside(const Stream *in, const uint16_t *ours, Steps *into, Steps *apart)
{
    Steps here;
    memset(their_words, 0x5A, sizeof their_words);
    if (!theirs_read(side, in, &picture, their_words)) {
        fail("it refuses a stream of so many bytes", in->size);
        return;
    }
    here = beside(ours, apart);
    add_steps(into, &here);
    if (here.more) fail(into == &row->meant ? "pixels of its lists as meant, more than one step off" : "pixels more than one step off", here.more);
}

/* ---- ours to theirs */

static void ours_to_theirs(void)
{
    uint8_t number = ours_write(&picture, with, &stream);
    if (number == XURBALENZ_DONE) number = ours_read(&stream, &picture, our_words);
    if (number != XURBALENZ_DONE) {
        fail("we refuse our own stream, by number", number);
        return;
    }
    row->from_us++;
    for (side = 0; side < SIDES; side++) read_beside(&stream, our_words, &row->ours[side], NULL);
}

/* ---- theirs to ours */

static int same_stream(const Stream *a, const Stream *b) { return a->size == b->size && !memcmp(a->bytes, b->bytes, a->size); }

static int has_one, has_cut_off; /* in this frame */
static int32_t list[XURBALENZ_LIST], code_list[XURBALENZ_LIST];

static void take_list(size_t code)
{
    for (size_t i = 0; i < XURBALENZ_LIST; i++) list[i] = theirs_list(code)[i];
}

/* A code of FreeRDP's, and the number and the list that our reader makes of it, against the list that it was to be. */
static void judge(size_t code, size_t size, uint8_t number)
{
    size_t last = XURBALENZ_LIST - 1;
    take_list(code);
    row->codes++;
    if (number == XURBALENZ_CUT && size == 4096) {
        has_cut_off = 1;
        row->cut_offs++;
    } else if (number != XURBALENZ_DONE) {
        fail("its code is refused, by number", number);
    } else if (memcmp(list, code_list, last * sizeof *list)) {
        fail("its code is not that of its list, code", code);
    } else if (list[last] == 0 && code_list[last] == 1) {
        has_one = 1;
        row->ones++;
        tile_apart[code / 3] |= with->quant[0] >= 13;
    } else if (list[last] != code_list[last]) {
        fail("its code is not that of its list at the last place, code", code);
    }
}

/* The code as it came. */
static size_t as_it_came(uint8_t mode, size_t code, const uint8_t *bytes, size_t size, uint8_t *out)
{
    (void)mode, (void)code;
    memcpy(out, bytes, size);
    return size;
}

/* The code cut by hand as tidy does, and judged. */
static size_t cut_and_judge(uint8_t mode, size_t code, const uint8_t *bytes, size_t size, uint8_t *out)
{
    size_t fresh = cut_tail(mode, code, bytes, size, out), bits;
    judge(code, size, xurbalenz_read_component(mode, out, fresh, code_list, XURBALENZ_LIST, &bits));
    return fresh;
}

/* The code that its list has. */
static size_t as_meant(uint8_t mode, size_t code, const uint8_t *bytes, size_t size, uint8_t *out)
{
    size_t fresh = 0;
    (void)bytes, (void)size;
    take_list(code);
    if (xurbalenz_write_component(mode, list, XURBALENZ_LIST, out, XURBALENZ_MAX_COMPONENT, &fresh)) fail("its list has no code, code", code);
    return fresh;
}

/* The frame behind ordered headers through the library's tidy. Where we accept it then, it is what was cut by hand; else it is as it came. */
static void tidy_frame(void)
{
    int accepted;
    if (!ours_tidy(&ordered, &picture, with->mode, &tidied)) {
        fail("tidy refuses a stream of so many bytes", ordered.size);
        return;
    }
    accepted = ours_read(&tidied, &picture, our_words) == XURBALENZ_DONE;
    if (!same_stream(&tidied, accepted ? &by_hand : &ordered)) fail("its stream is tidied otherwise than by hand, to bytes", tidied.size);
}

/* FreeRDP's stream, tidied and as meant. */
static int their_streams(void)
{
    has_one = has_cut_off = 0;
    tails_cut = 0;
    memset(tile_apart, 0, sizeof tile_apart);
    if (!theirs_write(side, &picture, with, &stream) || !standin(&stream, as_it_came, &ordered) ||
        !standin(&stream, cut_and_judge, &by_hand) || !standin(&stream, as_meant, &meant)) {
        fail("its stream is not laid out as expected, bytes", stream.size);
        return 0;
    }
    row->from_them++;
    row->tails += tails_cut;
    tidy_frame();
    return 1;
}

static void theirs_to_ours(void)
{
    uint8_t number;
    if (!their_streams()) return;
    number = ours_read(&meant, &picture, meant_words);
    if (number != XURBALENZ_DONE) fail("as meant, its stream is refused by number", number);
    else read_beside(&meant, meant_words, &row->meant, NULL);
    number = ours_read(&tidied, &picture, our_words);
    if (number == XURBALENZ_DONE) {
        row->accepted++;
        read_beside(&stream, our_words, &row->theirs, &row->apart);
        count_steps(&row->shown, meant_words, our_words, picture.width * picture.height);
    } else if (number == XURBALENZ_CUT && has_cut_off) {
        row->refused_1++;
    } else if (number == XURBALENZ_RANGE && has_one) {
        row->refused_9++;
    } else {
        fail("its stream is refused by number", number);
    }
}

/* ---- all of them */

static void one_picture(int kind, size_t width, size_t height)
{
    draw(&picture, kind, width, height);
    for (int set = 0; set < SETS; set++)
        for (int third = 0; third < 2; third++) {
            Setting here = {third ? XURBALENZ_RLGR3 : XURBALENZ_RLGR1, quants[set], set_names[set]};
            with = &here;
            row = &rows[kind][set];
            ours_to_theirs();
            for (side = 0; side < SIDES; side++) theirs_to_ours();
        }
    fprintf(stderr, "peer: %s, %zu x %zu: done\n", kind_names[kind], width, height);
}

/* ---- tables */

/* A number with commas. */
static void print_number(unsigned long n)
{
    char digits[32];
    int length = snprintf(digits, sizeof digits, "%lu", n);
    printf(" ");
    for (int i = 0; i < length; i++) printf("%s%c", i && (length - i) % 3 == 0 ? "," : "", digits[i]);
    printf(" |");
}

static void print_steps(const Steps *s)
{
    print_number(s->equal);
    print_number(s->one);
    print_number(s->more);
}

static void our_row(const Row *r)
{
    print_number(r->from_us);
    for (int s = 0; s < SIDES; s++) print_steps(&r->ours[s]);
}

static void their_row(const Row *r)
{
    print_number(r->from_them);
    print_number(r->accepted);
    print_steps(&r->theirs);
    print_steps(&r->meant);
}

static void fault_row(const Row *r)
{
    print_number(r->codes);
    print_number(r->tails);
    print_number(r->ones);
    print_number(r->cut_offs);
    print_number(r->refused_1);
    print_number(r->refused_9);
}

static void shown_row(const Row *r)
{
    print_steps(&r->shown);
    print_steps(&r->apart);
}

static Row all;

static void add_up(const Row *r)
{
    all.from_us += r->from_us;
    all.from_them += r->from_them;
    all.accepted += r->accepted;
    for (int s = 0; s < SIDES; s++) add_steps(&all.ours[s], &r->ours[s]);
    add_steps(&all.theirs, &r->theirs);
    add_steps(&all.apart, &r->apart);
    add_steps(&all.meant, &r->meant);
    add_steps(&all.shown, &r->shown);
    all.codes += r->codes;
    all.tails += r->tails;
    all.ones += r->ones;
    all.cut_offs += r->cut_offs;
    all.refused_1 += r->refused_1;
    all.refused_9 += r->refused_9;
}

static void table(const char *title, const char *head, int columns, void (*print)(const Row *))
{
    printf("\n%s\n\n| picture | quantisers | %s |\n|", title, head);
    for (int i = 0; i < columns + 2; i++) printf("---|");
    for (int kind = 0; kind < KINDS; kind++)
        for (int set = 0; set < SETS; set++) {
            printf("\n| %s | %s |", kind_names[kind], set_names[set]);
            print(&rows[kind][set]);
        }
    printf("\n| all | |");
    print(&all);
    printf("\n");
}

static void tables(void)
{
    for (int kind = 0; kind < KINDS; kind++)
        for (int set = 0; set < SETS; set++) add_up(&rows[kind][set]);
    table("Our streams: FreeRDP's pixels beside ours", "streams | portable: equal | one step | more | SIMD: equal | one step | more", 7, our_row);
    table("FreeRDP's streams, of its portable and its SIMD encoder: our pixels beside its own",
          "streams | accepted | tidied: equal | one step | more | as meant: equal | one step | more", 8, their_row);
    table("FreeRDP's faults, apart: its codes, and its frames that we refuse for them",
          "codes | with a tail | last zero as +1 | cut off | refused 1 | refused 9", 6, fault_row);
    table("What the last +1 shows, in the frames that we accept: beside the same lists as meant; and in tiles apart, our pixels beside FreeRDP's",
          "shown: equal | one step | more | apart: equal | one step | more", 6, shown_row);
}

int compare_all(int quick)
{
    make_room(&stream);
    make_room(&ordered);
    make_room(&by_hand);
    make_room(&tidied);
    make_room(&meant);
    for (int kind = 0; kind < KINDS; kind++)
        for (size_t i = 0; i + (quick ? 1 : 0) < SIZES; i++) one_picture(kind, sizes[i][0], sizes[i][1]);
    tables();
    free(stream.bytes);
    free(ordered.bytes);
    free(by_hand.bytes);
    free(tidied.bytes);
    free(meant.bytes);
    return failures;
}
