/*
 * caps_calls: the six calls of capabilities and acknowledgements from C (and, the same file, from C++): arguments in their order, every field, every
 * refusal. The Rust tests look at much more.
 */
#include "xurbalenz.h"

#include <stdio.h>
#include <string.h>

static int checks, faults;

static void check(int good, int line)
{
    checks++;
    if (!good) {
        faults++;
        printf("caps_calls: line %d\n", line);
    }
}

#define CHECK(good) check(good, __LINE__)

/* The sample of MS-RDPRFX, section 4.2.1. */
static const uint8_t sample[49] = {0x31, 0, 0, 0, 1, 0, 0, 0, 0x25, 0, 0, 0, 0xC0, 0xCB, 8, 0, 0, 0, 1, 0, 0xC1, 0xCB, 0x1D, 0, 0,
                                   0, 1, 0xC0, 0xCF, 2, 0, 8, 0, 0, 1, 0x40, 0, 0, 1, 1, 1, 0, 1, 0x40, 0, 0, 1, 1, 4};
static uint8_t message[64], out[64];
static xurbalenz_size size;

static uint8_t read_with(size_t at, uint8_t value, size_t len)
{
    uint32_t flags = 9;
    uint8_t n = 9, entries[4] = {9, 9, 9, 9}, number;
    memcpy(message, sample, sizeof sample);
    message[at] = value;
    number = xurbalenz_read_caps(message, len, &flags, &n, entries);
    CHECK(number == XURBALENZ_DONE || (flags == 0 && n == 0 && entries[0] == 0 && entries[1] == 0 && entries[2] == 0 && entries[3] == 0));
    return number;
}

static void container(void)
{
    static const uint8_t both[4] = {0, XURBALENZ_RLGR1, 0, XURBALENZ_RLGR3}, wrong[4] = {0, 1, 7, 2};
    uint32_t flags = 9;
    uint8_t n = 9, entries[4] = {9, 9, 9, 9};
    size_t i;
    CHECK(xurbalenz_read_caps(sample, sizeof sample, &flags, &n, entries) == XURBALENZ_DONE && flags == 1 && n == 2 && memcmp(entries, both, 4) == 0);
    CHECK(xurbalenz_write_caps(flags, n, entries, out, sizeof out, &size) == XURBALENZ_DONE && size == XURBALENZ_CAPS_SIZE(2));
    CHECK(memcmp(out, sample, size) == 0 && out[size] == 0);
    for (i = 0; i < sizeof sample; i++) CHECK(read_with(0, 0x31, i) == XURBALENZ_CUT);
    CHECK(read_with(0, 0x31, 50) == XURBALENZ_LENGTH);
    CHECK(read_with(12, 0, 49) == XURBALENZ_FIELD && read_with(33, 1, 49) == XURBALENZ_FIELD && read_with(48, 2, 49) == XURBALENZ_FIELD);
    CHECK(read_with(0, 0x32, 49) == XURBALENZ_LENGTH && read_with(14, 9, 49) == XURBALENZ_LENGTH && read_with(29, 1, 49) == XURBALENZ_LENGTH);
    CHECK(read_with(29, 3, 49) == XURBALENZ_TOO_BIG);
    CHECK(read_with(4, 0xFF, 49) == XURBALENZ_DONE && read_with(37, 0xFF, 49) == XURBALENZ_DONE); /* flags that nobody judges */
    CHECK(xurbalenz_write_caps(1, 3, both, out, sizeof out, &size) == XURBALENZ_TOO_BIG && size == 0);
    CHECK(xurbalenz_write_caps(1, 2, wrong, out, sizeof out, &size) == XURBALENZ_FIELD && size == 0);
    CHECK(xurbalenz_write_caps(1, 1, wrong, out, 40, &size) == XURBALENZ_ROOM && size == 0);
    CHECK(xurbalenz_write_caps(1, 1, wrong, out, 41, &size) == XURBALENZ_DONE && size == 41);
    CHECK(xurbalenz_write_caps(0, 0, wrong, out, 33, &size) == XURBALENZ_DONE && size == 33);
    CHECK(xurbalenz_read_caps(out, 33, &flags, &n, entries) == XURBALENZ_DONE && flags == 0 && n == 0 && entries[1] == 0);
}

static void capability(void)
{
    static const uint8_t bytes[8] = {0x1E, 0, 8, 0, 4, 3, 2, 1};
    uint32_t count = 9;
    CHECK(xurbalenz_read_ack_cap(bytes, 8, &count) == XURBALENZ_DONE && count == 0x01020304);
    CHECK(xurbalenz_read_ack_cap(bytes, 7, &count) == XURBALENZ_CUT && count == 0);
    CHECK(xurbalenz_read_ack_cap(bytes + 2, 6, &count) == XURBALENZ_FIELD && count == 0);
    CHECK(xurbalenz_write_ack_cap(0x01020304, out, XURBALENZ_ACK_CAP_SIZE, &size) == XURBALENZ_DONE && size == 8 && memcmp(out, bytes, 8) == 0);
    CHECK(xurbalenz_write_ack_cap(0x01020304, out, 7, &size) == XURBALENZ_ROOM && size == 0);
}

static void acknowledgement(void)
{
    static const uint8_t bytes[22] = {22, 0, 0x27, 0x01, 4, 3, 8, 7, 6, 5, 9, 10, 12, 11, 0x38, 13, 15, 14, 19, 18, 17, 16};
    static const uint32_t fields[9] = {0x12, 0x0304, 0x05060708, 9, 10, 0x0B0C, 13, 0x0E0F, 0x10111213};
    uint32_t got[9] = {9, 9, 9, 9, 9, 9, 9, 9, 9};
    size_t i;
    CHECK(xurbalenz_read_ack(bytes, 22, got) == XURBALENZ_DONE && memcmp(got, fields, sizeof got) == 0);
    CHECK(xurbalenz_write_ack(0x12, 0x0304, 0x05060708, 9, 10, 0x0B0C, 13, 0x0E0F, 0x10111213, out, sizeof out, &size) == XURBALENZ_DONE);
    CHECK(size == XURBALENZ_ACK_SIZE && memcmp(out, bytes, 22) == 0);
    for (i = 0; i < 22; i++) CHECK(xurbalenz_read_ack(bytes, i, got) == XURBALENZ_CUT && got[8] == 0);
    memcpy(message, bytes, 22);
    CHECK(xurbalenz_read_ack(message, 23, got) == XURBALENZ_LENGTH);
    message[14] = 0x37;
    CHECK(xurbalenz_read_ack(message, 22, got) == XURBALENZ_FIELD);
    message[2] = 0x26;
    message[0] = 23;
    CHECK(xurbalenz_read_ack(message, 22, got) == XURBALENZ_LENGTH);
    CHECK(xurbalenz_write_ack(4096, 0, 0, 0, 0, 0, 0, 0, 0, out, 0, &size) == XURBALENZ_FIELD && size == 0);
    CHECK(xurbalenz_write_ack(4095, 0, 0, 0, 0, 0, 0, 0, 0, out, 21, &size) == XURBALENZ_ROOM && size == 0);
}

int main(void)
{
    container();
    capability();
    acknowledgement();
    printf("caps_calls: %d checks, %d faults\n", checks, faults);
    return faults != 0;
}
