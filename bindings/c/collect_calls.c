/*
 * collect_calls: the collector's two calls from C (and, the same file, from C++): arguments in their order, the three values, the struct's layout,
 * every refusal, and a stream cut in every way that two cuts can cut it. The Rust tests look at much more.
 */
#include "xurbalenz.h"

#include <stdio.h>
#include <string.h>

static int checks, faults;

static void check(int good, int line)
{
    checks++;
    if (!good) {
        faults++;
        printf("collect_calls: line %d\n", line);
    }
}

#define CHECK(good) check(good, __LINE__)

static const XurbalenzCollector fresh = XURBALENZ_COLLECTOR_FRESH;
static uint8_t store[64], call;
static xurbalenz_size size, taken;

static uint8_t take(XurbalenzCollector *c, const uint8_t *bytes, size_t n, size_t room)
{
    call = 9;
    size = taken = 99;
    return xurbalenz_collect(c, bytes, n, store, room, &call, &size, &taken);
}

/* The fields alone: bytes behind the last are nobody's. */
static int same(const XurbalenzCollector *a, const XurbalenzCollector *b)
{
    return a->held == b->held && a->end == b->end && a->head == b->head && a->refused == b->refused && a->part == b->part && a->seen == b->seen;
}

static void layout(void)
{
    CHECK(XURBALENZ_COLLECTOR_LAYOUT && sizeof(XurbalenzCollector) == 32 && xurbalenz_collector_32() == 32);
    CHECK(offsetof(XurbalenzCollector, held) == 0 && offsetof(XurbalenzCollector, end) == 8 && offsetof(XurbalenzCollector, head) == 16);
    CHECK(offsetof(XurbalenzCollector, refused) == 24 && offsetof(XurbalenzCollector, part) == 25 && offsetof(XurbalenzCollector, seen) == 26);
    CHECK(XURBALENZ_NO_CALL == 0 && XURBALENZ_HEADER_CALL == 1 && XURBALENZ_FRAME_CALL == 2);
}

static void refusals(void)
{
    static const uint8_t foreign[7] = {0xC8, 0xCC, 6, 0, 0, 0, 1}, shorter[6] = {0xC0, 0xCC, 5, 0, 0, 0}, longer[6] = {0xC7, 0xCC, 11, 0, 0, 0};
    XurbalenzCollector c = fresh, was;
    CHECK(take(&c, foreign, 5, 10) == XURBALENZ_DONE && call == XURBALENZ_NO_CALL && size == 0 && taken == 5 && c.seen == 5);
    CHECK(take(&c, foreign + 5, 2, 10) == XURBALENZ_KIND && call == XURBALENZ_NO_CALL && size == 0 && taken == 1 && c.refused == XURBALENZ_KIND);
    was = c;
    CHECK(take(&c, longer, 6, 64) == XURBALENZ_KIND && taken == 0 && same(&c, &was));
    CHECK(take(&c, longer, 0, 0) == XURBALENZ_KIND && taken == 0 && same(&c, &was));
    xurbalenz_collect_reset(&c);
    CHECK(same(&c, &fresh));
    CHECK(take(&c, shorter, 6, 10) == XURBALENZ_LENGTH && taken == 6);
    xurbalenz_collect_reset(&c);
    CHECK(take(&c, longer, 6, 10) == XURBALENZ_ROOM && taken == 6);
    xurbalenz_collect_reset(&c);
    CHECK(take(&c, longer, 6, 11) == XURBALENZ_DONE && taken == 6 && c.held == 6 && c.end == 11);
    was = c;
    CHECK(take(&c, longer, 6, 10) == XURBALENZ_BUFFER && taken == 0 && same(&c, &was));
    CHECK(take(&c, longer, 6, 11) == XURBALENZ_DONE && call == XURBALENZ_FRAME_CALL && size == 11 && taken == 5 && same(&c, &fresh));
    c.seen = 7;
    was = c;
    CHECK(take(&c, longer, 6, 64) == XURBALENZ_ORDER && call == XURBALENZ_NO_CALL && size == 0 && taken == 0 && same(&c, &was));
    xurbalenz_collect_reset(&c);
    CHECK(same(&c, &fresh) && take(&c, longer, 0, 64) == XURBALENZ_DONE && taken == 0 && same(&c, &fresh));
}

/* A header block, a frame of three blocks, a block alone, and the start of a header block. */
static const uint8_t stream[] = {0xC1, 0xCC, 7, 0, 0, 0, 1, 0xC4, 0xCC, 8, 0, 0, 0, 2, 3, 0xC0, 0xCC, 6, 0, 0, 0, 0xC5, 0xCC, 7, 0, 0, 0, 4, 0xC6, 0xCC, 6, 0, 0, 0, 0xC0, 0xCC};

static void give(XurbalenzCollector *c, const uint8_t *bytes, size_t n, size_t *at)
{
    static const size_t ends[4] = {7, 28, 34, 0};
    static const uint8_t calls[3] = {XURBALENZ_HEADER_CALL, XURBALENZ_FRAME_CALL, XURBALENZ_FRAME_CALL};
    while (n > 0) {
        CHECK(take(c, bytes, n, sizeof store) == XURBALENZ_DONE && taken <= n);
        if (call != XURBALENZ_NO_CALL) {
            size_t from = *at ? ends[*at - 1] : 0;
            CHECK(*at < 3 && call == calls[*at] && size == ends[*at] - from && memcmp(store, stream + from, size) == 0 && same(c, &fresh));
            ++*at;
        } else {
            CHECK(taken == n);
        }
        bytes += taken;
        n -= taken;
    }
}

static void cuts(void)
{
    size_t i, j, n = sizeof stream;
    for (i = 0; i <= n; i++) {
        for (j = i; j <= n; j++) {
            XurbalenzCollector c = fresh;
            size_t at = 0;
            give(&c, stream, i, &at);
            give(&c, stream + i, j - i, &at);
            give(&c, stream + j, n - j, &at);
            CHECK(at == 3 && c.seen == 2 && c.head == 0xCCC0 && c.held == 0 && c.part == 0);
        }
    }
}

int main(void)
{
    layout();
    refusals();
    cuts();
    printf("collect_calls: %d checks, %d faults\n", checks, faults);
    return faults != 0;
}
