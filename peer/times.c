/*
 * Times: CPU time of the process, FreeRDP's threads being off; every side on the same stream or picture, taking turns, best of so many rounds. Control, text
 * and photo, 1,024 x 768, default quantisers. Reading: our stream to 5-6-5 by us, and by FreeRDP to 5-6-5 and to 32 bits, portable and
 * SIMD. Writing: the picture by us and by FreeRDP, portable and SIMD. The speed is FreeRDP's time over ours: above 1 we are faster.
 *
 * Or, once each, between two marks for the counting plugin of bench/icount.c: then peer/run says how many x86-64 instructions each took. They are the same on
 * every machine, but they are not times: a SIMD instruction does the work of several and may take as long as they do.
 */
#define _GNU_SOURCE
#include "peer.h"

#include <stdio.h>
#include <stdlib.h>
#include <time.h>
#include <unistd.h>

static Picture picture;
static Stream ours;
static uint16_t words[WIDEST * HIGHEST];
static uint32_t pixels[WIDEST * HIGHEST];
static Setting with;

static int we_read(void) { return ours_read(&ours, &picture, words) == XURBALENZ_DONE; }
static int portable_reads(void) { return theirs_read(PORTABLE, &ours, &picture, words); }
static int simd_reads(void) { return theirs_read(SIMD, &ours, &picture, words); }
static int portable_reads_32(void) { return theirs_read_32(PORTABLE, &ours, &picture, pixels); }
static int simd_reads_32(void) { return theirs_read_32(SIMD, &ours, &picture, pixels); }
static int we_write(void) { return ours_write(&picture, &with, &ours) == XURBALENZ_DONE; }
static int portable_writes(void) { return theirs_write(PORTABLE, &picture, &with, NULL); }
static int simd_writes(void) { return theirs_write(SIMD, &picture, &with, NULL); }

typedef struct Job {
    const char *name;
    int (*work)(void);
    int simd;
} Job;

static const Job reads[] = {{"we, to 5-6-5", we_read, 0},
                            {"FreeRDP portable, to 5-6-5", portable_reads, 0},
                            {"FreeRDP SIMD, to 5-6-5", simd_reads, 1},
                            {"FreeRDP portable, to 32 bits", portable_reads_32, 0},
                            {"FreeRDP SIMD, to 32 bits", simd_reads_32, 1}};
static const Job writes[] = {{"we", we_write, 0}, {"FreeRDP portable", portable_writes, 0}, {"FreeRDP SIMD", simd_writes, 1}};
#define MOST_JOBS 5

static double cpu_ms(void)
{
    struct timespec t;
    clock_gettime(CLOCK_PROCESS_CPUTIME_ID, &t);
    return (double)t.tv_sec * 1e3 + (double)t.tv_nsec / 1e6;
}

/* For the plugin; elsewhere a call that the system does not know. */
static void mark(long id) { (void)syscall(0x5eed, id); }

static void name(const char *what, const Job *job)
{
    printf("| %s | %s | RLGR%d | %s |", what, kind_names[picture.kind], with.mode == XURBALENZ_RLGR1 ? 1 : 3, job->name);
}

/* Each job once before its marks, so that nothing is done for the first time between them. */
static int count(const char *what, const Job *jobs, size_t n)
{
    static long id;
    int failed = 0;
    for (size_t i = 0; i < n; i++, id++) {
        failed += !jobs[i].work();
        mark(2 * id);
        failed += !jobs[i].work();
        mark(2 * id + 1);
        printf("count %ld ", id);
        name(what, &jobs[i]);
        printf("\n");
    }
    return failed;
}

/* The first job is ours. */
static int race(const char *what, const Job *jobs, size_t n, int rounds)
{
    double best[MOST_JOBS] = {0};
    int failed = 0;
    for (int round = 0; round < rounds; round++)
        for (size_t i = 0; i < n; i++) {
            double start = cpu_ms(), took;
            failed += !jobs[i].work();
            took = cpu_ms() - start;
            if (round == 0 || took < best[i]) best[i] = took;
        }
    for (size_t i = 0; i < n; i++) {
        if (jobs[i].simd && !theirs_switched()) continue;
        name(what, &jobs[i]);
        printf(" %.2f | %.2f |\n", best[i], best[i] / best[0]);
    }
    return failed;
}

static int run(const char *what, const Job *jobs, size_t n, int rounds) { return rounds ? race(what, jobs, n, rounds) : count(what, jobs, n); }

int time_all(int rounds)
{
    static const uint8_t quant[10] = XURBALENZ_DEFAULT_QUANT;
    int failed = 0;
    make_room(&ours);
    if (rounds) printf("\nCPU time, milliseconds, best of %d; our speed is its time over ours\n\n", rounds);
    else printf("\nMillions of x86-64 instructions, and times ours; these are not times\n\n");
    printf("| | picture | mode | who | %s |\n|---|---|---|---|---|---|\n", rounds ? "ms | our speed" : "instructions | times ours");
    for (int kind = CONTROL; kind <= PHOTO; kind++)
        for (int third = 0; third < 2; third++) {
            draw(&picture, kind, WIDEST, HIGHEST);
            with = (Setting){third ? XURBALENZ_RLGR3 : XURBALENZ_RLGR1, quant, "default"};
            failed += !we_write(); /* the stream that all read */
            failed += run("read", reads, sizeof reads / sizeof *reads, rounds);
            failed += run("write", writes, sizeof writes / sizeof *writes, rounds);
        }
    if (failed) printf("peer: FAILED: %d calls that were timed\n", failed);
    free(ours.bytes);
    return failed;
}
