/*
 * peer [--quick], peer --times [N], peer --count
 *
 * A real peer beside us: FreeRDP reads what our writer makes, and our reader reads what FreeRDP makes (tidied); pictures are compared, pixel by pixel, in
 * 5-6-5. compare.c says what is compared and what fails. --quick leaves out the size of 1,024 x 768. --times compares nothing, and times both sides (times.c),
 * best of N rounds (31). Under an emulator a time says nothing, so there none is printed: XURBALENZ_EMULATED, set by peer/run, says `yes` there, and nothing elsewhere.
 * --count does once what --times does, between marks, for peer/run to count instructions.
 *
 * Status: 0 if nothing failed, 1 if something did, 2 where the call is wrong.
 */
#include "peer.h"

#include <stdio.h>
#include <stdlib.h>
#include <string.h>

void give_up(const char *what)
{
    fflush(stdout);
    fprintf(stderr, "peer: %s\n", what);
    exit(1);
}

void make_room(Stream *s)
{
    s->room = XURBALENZ_HEADERS_SIZE + XURBALENZ_FRAME_ROOM(WIDEST, HIGHEST);
    s->bytes = malloc(s->room);
    if (!s->bytes) give_up("there is no memory");
}

/* Whether the processor outside is one that runs this program itself. */
static int native(void)
{
    const char *emulated = getenv("XURBALENZ_EMULATED");
    if (emulated && !*emulated) return 1;
    printf("peer: no times: %s\n", emulated ? "the program is emulated on this machine, and emulated times say nothing"
                                            : "XURBALENZ_EMULATED does not say whether this program is emulated; peer/run sets it");
    return 0;
}

static int usage(void)
{
    fprintf(stderr, "usage: peer [--quick], or peer --times [N], N from 1 to 9999, or peer --count\n");
    return 2;
}

static int work(int quick, int times, int rounds)
{
    int failed;
    if (times && rounds && !native()) return 0;
    const char *wrong = theirs_open();
    if (wrong) give_up(wrong);
    printf("peer: FreeRDP %s%s; ours %s\n", theirs_version(), theirs_switched() ? ", portable and SIMD" : ", which cannot be switched: both rows are one",
           XURBALENZ_VERSION_TEXT);
    failed = times ? time_all(rounds) : compare_all(quick);
    theirs_close();
    if (failed) printf("peer: FAILED: %d\n", failed);
    else if (!times) printf("\npeer: passed: no pixel more than one step off but in the tiles apart, nothing refused but for FreeRDP's known faults\n");
    return failed != 0;
}

int main(int argc, char **argv)
{
    int quick = 0, times = 0, count = 0, rounds = 31;
    for (int i = 1; i < argc; i++) {
        if (strcmp(argv[i], "--quick") == 0) quick = 1;
        else if (strcmp(argv[i], "--times") == 0) times = 1;
        else if (strcmp(argv[i], "--count") == 0) count = 1;
        else if (times && argv[i][0] >= '0' && argv[i][0] <= '9') rounds = atoi(argv[i]);
        else return usage();
    }
    if (rounds < 1 || rounds > 9999 || quick + times + count > 1) return usage();
    return work(quick, times || count, count ? 0 : rounds);
}
