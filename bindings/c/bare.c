/*
 * bare: what a Cortex-M needs to run a test program with no system under it, for an emulator (qemu-system-arm, mps2-an500): the vectors, reset (memory made ready, then
 * main, then exit), and the days that day.c reads. Lines go out by semihosting (newlib's rdimon). A fault ends the run with status 3.
 */
#include <stdint.h>
#include <stdlib.h>
#include <string.h>

extern uint8_t image_data[], image_data_start[], image_data_end[], image_bss_start[], image_bss_end[];
extern void image_stack(void); /* where the stack begins, an address */
extern void initialise_monitor_handles(void);
extern int main(void);

#ifdef DAYS
#define FILE_AS(name, file) __asm__(".section .rodata." #name "\n.balign 4\n.global " #name "\n" #name ": .incbin \"" file "\"\n.global " #name "_end\n" #name "_end: .byte 0\n.text")
FILE_AS(day_stream, DAYS "/demo/control-room.rfx");
FILE_AS(day_cases, DAYS "/bindings/vectors/request_fourteen.vec");
FILE_AS(day_wide, DAYS "/bindings/vectors/request_fourteen_32.vec");
#endif

/* newlib's exit asks for it. */
void _fini(void) {}

void reset(void)
{
    *(volatile uint32_t *)0xE000ED88 |= 0xFu << 20; /* the float unit on, for newlib's printf: the archive has no use for it */
    memcpy(image_data_start, image_data, (size_t)(image_data_end - image_data_start));
    memset(image_bss_start, 0, (size_t)(image_bss_end - image_bss_start));
    initialise_monitor_handles();
    exit(main());
}

static void fault(void) { _Exit(3); }

/* Where the stack begins, where the program does, and the faults. */
__attribute__((section(".vectors"), used)) static void (*const vectors[16])(void) = {image_stack, reset, fault, fault, fault, fault, fault};
