/* collect FRAME PIECE: a stream of frames of FRAME bytes (begin, region of one rectangle, tileset, end) in pieces of PIECE bytes, through the collector
   and through memcpy. Every frame that comes out is compared; marks for the instruction count. */
#include "xurbalenz.h"

#include <stdio.h>
#include <stdlib.h>
#include <string.h>
#include <unistd.h>

#define STREAM 2000000

static uint8_t frame[1 << 16], stream[STREAM + (1 << 16)], store[1 << 16], copied[1 << 16];
static size_t frame_size, stream_size, piece, handed;

static size_t block(size_t at, unsigned type, size_t length)
{
    size_t i;
    for (i = 6; i < length; i++) frame[at + i] = (uint8_t)(i * i >> 3);
    frame[at] = (uint8_t)type;
    frame[at + 1] = 0xCC;
    for (i = 0; i < 4; i++) frame[at + 2 + i] = (uint8_t)(length >> 8 * i);
    return at + length;
}

/* What is handed on, counted; looked at only where that is not measured. */
static void collect(int look)
{
    XurbalenzCollector c = {0, 0, 0, 0, 0, 0};
    size_t at = 0;
    handed = 0;
    while (at < stream_size) {
        uint8_t call;
        size_t size, taken, n = stream_size - at < piece - at % piece ? stream_size - at : piece - at % piece;
        uint8_t number = xurbalenz_collect(&c, stream + at, n, store, sizeof store, &call, &size, &taken);
        if (number != XURBALENZ_DONE) exit(printf("refused %u\n", number));
        if (look && call != XURBALENZ_NO_CALL && (call != XURBALENZ_FRAME_CALL || size != frame_size || memcmp(store, frame, size) != 0)) exit(printf("a frame differs\n"));
        handed += call == XURBALENZ_FRAME_CALL;
        at += taken;
    }
}

/* what is counted, by the syscalls (qemu's plugin) or by the functions' names (callgrind) */
__attribute__((noinline)) void mark_collect(void)
{
    syscall(0x5eed, 0);
    collect(0);
    syscall(0x5eed, 1);
}

__attribute__((noinline)) void mark_copy(void)
{
    size_t at, n;
    syscall(0x5eed, 2);
    for (at = 0; at < stream_size; at += n) {
        n = stream_size - at < piece ? stream_size - at : piece;
        memcpy(copied, stream + at, n);
        __asm__ volatile("" : : "r"(copied) : "memory");
    }
    syscall(0x5eed, 3);
}

int main(int argc, char **argv)
{
    if (argc != 3) return 2;
    frame_size = strtoul(argv[1], NULL, 10);
    piece = strtoul(argv[2], NULL, 10);
    if (frame_size < 67 || frame_size > sizeof frame || piece < 1 || piece > sizeof copied) return 2;
    block(block(block(block(0, 0xC4, 14), 0xC6, 23), 0xC7, frame_size - 45), 0xC5, 8);
    while (stream_size < STREAM) {
        memcpy(stream + stream_size, frame, frame_size);
        stream_size += frame_size;
    }
    collect(1);
    if (handed * frame_size != stream_size) return printf("a frame is missing\n");
    mark_collect();
    mark_copy();
    printf("bytes %zu\n", stream_size);
    return 0;
}
