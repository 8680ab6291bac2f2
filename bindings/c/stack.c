/*
 * stack: no call takes more stack than XURBALENZ_STACK, its arguments counted in. Each runs on a painted stack of its own, which is then searched
 * for the deepest byte that changed. (No function of the archive calls itself, so a frame's depth does not grow with its size.) Where there is no
 * system (XURBALENZ_BARE, bindings/c/bare.c) it is the stack at hand, painted below the place where the call is made.
 */
#define _XOPEN_SOURCE 600
#include "xurbalenz.h"

#include <stdio.h>
#include <string.h>

#define PAINT 0xA5
#define GROUND (1 << 16)

static XurbalenzSession session;
static XurbalenzCollector collector;
static XurbalenzWork work;
static uint8_t pixels[3 * 70 * 40], headers[XURBALENZ_HEADERS_SIZE], frame[40000], code[XURBALENZ_MAX_COMPONENT];
static uint16_t picture[70 * 40];
static uint32_t wide[70 * 40];
static xurbalenz_size size, frame_size, code_size, taken;
static size_t at;
static uint8_t store[sizeof frame], call;
static uint8_t number; /* the first refusal */

static void judge(uint8_t answer) { number = number ? number : answer; }

static void nothing(void) {}

static void write_headers(void) { judge(xurbalenz_write_headers(70, 40, XURBALENZ_RLGR3, headers, sizeof headers, &size)); }

static void read_header(void)
{
    judge(xurbalenz_read_header(&session, headers + at, headers[at + 2]));
    at += headers[at + 2];
}

static void write_frame(void)
{
    static const uint8_t quant[10] = XURBALENZ_DEFAULT_QUANT;
    judge(xurbalenz_write_frame_with(70, 40, XURBALENZ_RLGR3, quant, 0, pixels, sizeof pixels, &work, frame, sizeof frame, &frame_size));
}

static void read_frame(void) { judge(xurbalenz_read_frame_with(&session, frame, frame_size, picture, 70 * 40, &work, &size)); }

static void read_frame_32(void)
{
    XurbalenzSession s = xurbalenz_open(XURBALENZ_GLASS_32);
    for (at = 0; at < sizeof headers; at += headers[at + 2]) judge(xurbalenz_read_header(&s, headers + at, headers[at + 2]));
    judge(xurbalenz_read_frame_32_with(&s, frame, frame_size, wide, 70 * 40, &work, &size));
}

static void names(void) { judge(xurbalenz_version() == XURBALENZ_VERSION && xurbalenz_record_16() == 16 && xurbalenz_collector_32() == 32 ? 0 : 255); }

static void write_component(void) { judge(xurbalenz_write_component(XURBALENZ_RLGR1, work.cb, XURBALENZ_LIST, code, sizeof code, &code_size)); }

static void read_component(void) { judge(xurbalenz_read_component(XURBALENZ_RLGR1, code, code_size, work.y, XURBALENZ_LIST, &size)); }

/* The frame in two pieces: a head in one of them is cut. */
static void collect(void)
{
    judge(xurbalenz_collect(&collector, frame, 17, store, sizeof store, &call, &size, &taken));
    judge(xurbalenz_collect(&collector, frame + 17, frame_size - 17, store, sizeof store, &call, &size, &taken));
    judge(call == XURBALENZ_FRAME_CALL && size == frame_size ? 0 : 255);
}

static void collect_reset(void) { xurbalenz_collect_reset(&collector); }

static void capabilities(void)
{
    static uint8_t message[64], n, entries[4] = {0, 1, 0, 4};
    static uint32_t flags, fields[9];
    judge(xurbalenz_write_caps(1, 2, entries, message, sizeof message, &size));
    judge(xurbalenz_read_caps(message, size, &flags, &n, entries));
    judge(xurbalenz_write_ack_cap(1, message, sizeof message, &size));
    judge(xurbalenz_read_ack_cap(message, size, &flags));
    judge(xurbalenz_write_ack(1, 2, 3, 4, 5, 6, 7, 8, 9, message, sizeof message, &size));
    judge(xurbalenz_read_ack(message, size, fields));
}

/* The frame once more as a short one: its list judged, made and sent. */
static void short_frame(void)
{
    static const uint8_t quant[10] = XURBALENZ_DEFAULT_QUANT, coarse[10] = {15, 15, 15, 15, 15, 15, 15, 15, 15, 15};
    static uint8_t old[sizeof pixels], sent[sizeof frame];
    static uint32_t picks[2];
    xurbalenz_size count;
    judge(xurbalenz_make_plan(70, 40, old, sizeof old, pixels, sizeof pixels, picks, 2, &count));
    judge(xurbalenz_check_plan(70, 40, old, sizeof old, pixels, sizeof pixels, picks, count));
    judge(xurbalenz_write_frame_short(70, 40, XURBALENZ_RLGR3, quant, coarse, 1, old, sizeof old, pixels, sizeof pixels, picks, count, work.y,
                                      XURBALENZ_LIST, work.scratch, XURBALENZ_LIST, sent, sizeof sent, &size));
}

/* The frame passed on with a 1 behind its last code, where that has room for one. */
static void tidied(void)
{
    static uint8_t bent[sizeof frame], sent[sizeof frame];
    static uint8_t held[XURBALENZ_HELD_SIZE];
    xurbalenz_size told[2];
    memcpy(bent, frame, frame_size);
    bent[frame_size - 9] |= 1;
    judge(xurbalenz_tidy_frame(XURBALENZ_SAMPLE, 70, 40, XURBALENZ_RLGR3, bent, frame_size, work.y, XURBALENZ_LIST, sent, sizeof sent, told));
    judge(xurbalenz_tidy_header(held, sizeof held, bent, 12, sent, sizeof sent, &size));
    judge(xurbalenz_tidy_flush(held, sizeof held, sent, sizeof sent, &size));
}

static void settings(void)
{
    static uint8_t luma[10] = XURBALENZ_DEFAULT_QUANT, chroma[10] = {7, 7, 7, 7, 8, 8, 9, 9, 9, 10}, bytes[XURBALENZ_SETTINGS_SIZE], mode;
    judge(xurbalenz_write_settings(luma, chroma, XURBALENZ_RLGR1, bytes, sizeof bytes, &size));
    judge(xurbalenz_read_settings(2, bytes, size, luma, chroma, &mode));
    judge(xurbalenz_write_frame_sets(70, 40, mode, luma, chroma, 0, pixels, sizeof pixels, work.y, XURBALENZ_LIST, work.scratch, XURBALENZ_LIST, frame,
                                     sizeof frame, &size));
}

/* How deep a call goes. */
#ifdef XURBALENZ_BARE
static size_t depth(void (*call)(void))
{
    register uint8_t *top __asm__("sp");
    uint8_t *here = top, *at = here - GROUND;
    while (at < here) *(volatile uint8_t *)at++ = PAINT;
    call();
    for (at = here - GROUND; at < here && *(volatile uint8_t *)at == PAINT;) at++;
    return (size_t)(here - at);
}
#else
#include <ucontext.h>

static uint8_t ground[GROUND];
static ucontext_t here, there;

static size_t depth(void (*call)(void))
{
    size_t i = 0;
    memset(ground, PAINT, sizeof ground);
    getcontext(&there);
    there.uc_stack.ss_sp = ground;
    there.uc_stack.ss_size = sizeof ground;
    there.uc_link = &here;
    makecontext(&there, call, 0);
    swapcontext(&here, &there);
    while (i < sizeof ground && ground[i] == PAINT) i++;
    return sizeof ground - i;
}
#endif

int main(void)
{
    static const struct {
        const char *name;
        void (*call)(void);
    } calls[] = {{"headers written", write_headers}, {"a header read", read_header},      {"a header read", read_header},
                 {"a header read", read_header},     {"a header read", read_header},      {"a frame written", write_frame},
                 {"a frame tidied", tidied},         {"a code written", write_component}, {"a code read", read_component},
                 {"a frame read", read_frame},       {"a frame read, 32", read_frame_32}, {"bytes gathered", collect},
                 {"a reset", collect_reset},         {"capabilities", capabilities},      {"a short frame", short_frame},
                 {"settings, two sets", settings},   {"names", names}};
    size_t i, deepest = 0, bare = depth(nothing);
    for (i = 0; i < sizeof pixels; i++) pixels[i] = (uint8_t)(i * i >> 5);
    for (i = 0; i < XURBALENZ_LIST; i++) work.cb[i] = (int32_t)(i % 7) - 3;
    for (i = 0; i < sizeof calls / sizeof calls[0]; i++) {
        size_t deep = depth(calls[i].call) - bare;
        if (deep > deepest) deepest = deep;
        printf("stack: %u bytes, %s\n", (unsigned)deep, calls[i].name);
    }
    printf("stack: %u bytes at most, %d allowed; first refusal %u\n", (unsigned)deepest, XURBALENZ_STACK, number);
    return deepest > XURBALENZ_STACK || number != XURBALENZ_DONE;
}
