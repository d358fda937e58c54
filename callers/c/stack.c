/* Prints the stack that each call takes: it runs on a thread whose stack was filled with one byte, and the
 * part that no longer holds it is counted. A few KB of it are the thread's own. */
#include <pthread.h>
#include <stdio.h>
#include <stdlib.h>
#include <string.h>
#include <sys/mman.h>

#include "gorvyts.h"

enum { STACK = 8 << 20, FILL = 0xA5 };

static const char history[] =
    "range 100000 4096\n"
    "add 1 1\n"
    "add 2 2\n"
    "add 3 3\n";

static const char *const names[] = {
    "check", "fresh", "replay", "transcript", "add", "remove", "resize", "owner", "copies", "copies_of_many", "open", "owner_in", "copies_in",
    "numbers", "share", "report", "devices", "intervals",
};

static uint8_t image[GORVYTS_IMAGE_MOST], next[GORVYTS_IMAGE_MOST], out[GORVYTS_TRANSCRIPT_ROOM];
static uint64_t list[4 * GORVYTS_MOVES_MOST], answer[4];
static uint32_t tally[2], row[10];
static int64_t difference;
static struct gorvyts_pool pool;
static size_t length;

static uint32_t call(int which)
{
    static const uint64_t blocks[1] = {7};
    const size_t places = sizeof list / sizeof *list, size = strlen(history);
    const uint8_t *text = (const uint8_t *)history;
    switch (which) {
    case 0: return gorvyts_check(image, length);
    case 1: return gorvyts_fresh(100, 16, next, sizeof next, answer, 3);
    case 2: return gorvyts_replay(text, size, next, sizeof next, answer, 3);
    case 3: return gorvyts_transcript(text, size, out, sizeof out, answer, 3);
    case 4: return gorvyts_add(image, length, 4, 2000, next, sizeof next, list, places, answer, 3);
    case 5: return gorvyts_remove(image, length, 3, next, sizeof next, list, places, answer, 3);
    case 6: return gorvyts_resize(image, length, 3, 2000, next, sizeof next, list, places, answer, 3);
    case 7: return gorvyts_owner(image, length, 50, answer, 3);
    case 8: return gorvyts_copies(image, length, 7, 2, tally, 2, row, 10);
    case 9: return gorvyts_copies_of_many(image, length, blocks, 1, 2, tally, 2, row, 10);
    case 10: return gorvyts_pool_open(&pool, image, length);
    case 11: return gorvyts_pool_owner(&pool, 50, answer);
    case 12: return gorvyts_pool_copies(&pool, 7, 2, tally, row);
    case 13: return gorvyts_numbers(image, length, answer, 4);
    case 14: return gorvyts_share(image, length, 3, answer, 1);
    case 15: return gorvyts_report(image, length, 3, answer, 2, &difference);
    case 16: return gorvyts_devices(image, length, list, places);
    default: return gorvyts_intervals(image, length, list, places);
    }
}

static void *run(void *number)
{
    int which = *(int *)number;
    *(int *)number = (int)call(which);
    return NULL;
}

/* The bytes of stack that a call takes, or 0 where it could not be run. */
static size_t taken(int which)
{
    uint8_t *stack = mmap(NULL, STACK, PROT_READ | PROT_WRITE, MAP_PRIVATE | MAP_ANONYMOUS, -1, 0);
    pthread_attr_t attributes;
    pthread_t thread;
    size_t below = 0;
    if (stack == MAP_FAILED)
        return 0;
    memset(stack, FILL, STACK);
    if (pthread_attr_init(&attributes) != 0 || pthread_attr_setstack(&attributes, stack, STACK) != 0)
        return 0;
    if (pthread_create(&thread, &attributes, run, &which) != 0 || pthread_join(thread, NULL) != 0 || which != 0)
        return 0;
    while (below < STACK && stack[below] == FILL)
        below++;
    munmap(stack, STACK);
    return STACK - below;
}

int main(void)
{
    if (gorvyts_replay((const uint8_t *)history, strlen(history), image, sizeof image, answer, 3) != 0)
        return 1;
    length = answer[0];
    for (int which = 0; which < 18; which++) {
        size_t bytes = taken(which);
        if (bytes == 0)
            return 1;
        printf("stack of gorvyts_%s: %zu KB\n", names[which], bytes / 1024);
    }
    return 0;
}
