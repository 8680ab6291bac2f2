/*
 * say_caps [FILE]: what a client says it can do. Prints the capability container of a file in words, or, with no file, writes one of our own, prints it,
 * and acknowledges a frame.
 */
#include "xurbalenz.h"

#include <stdio.h>

static int said(const uint8_t *message, size_t length)
{
    uint32_t flags;
    uint8_t n, entries[4], number = xurbalenz_read_caps(message, length, &flags, &n, entries);
    unsigned i;
    if (number != XURBALENZ_DONE) {
        printf("no container: %u %s\n", number, xurbalenz_word(number));
        return 1;
    }
    printf("container, %u bytes: captureFlags %08lX, entries %u\n", (unsigned)length, (unsigned long)flags, n);
    for (i = 0; i < n; i++) printf("entry %u: flags %02X, %s\n", i + 1, entries[2 * i], entries[2 * i + 1] == XURBALENZ_RLGR1 ? "RLGR1" : "RLGR3");
    return 0;
}

int main(int count, char **words)
{
    static const uint8_t both[4] = {0, XURBALENZ_RLGR1, 0, XURBALENZ_RLGR3};
    uint8_t message[64], ack[XURBALENZ_ACK_SIZE];
    xurbalenz_size size;
    if (count > 1) {
        FILE *file = fopen(words[1], "rb");
        if (!file) {
            perror(words[1]);
            return 1;
        }
        size = fread(message, 1, sizeof message, file); /* no container has more than 49 bytes */
        fclose(file);
        return said(message, size);
    }
    if (xurbalenz_write_caps(1, 2, both, message, sizeof message, &size) != XURBALENZ_DONE || said(message, size)) return 1;
    if (xurbalenz_write_ack(1, 1007, 0x103EA, 0, 1, 8, 0, 0, 7, ack, sizeof ack, &size) != XURBALENZ_DONE) return 1;
    printf("frame 7 acknowledged, %u bytes behind the link's own\n", (unsigned)size);
    return 0;
}
