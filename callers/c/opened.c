/* Opened pools: lookups of the opened pool against the calls on its image, for some histories; images with a
 * byte changed; buffers that are too short or longer than needed; and arrays of any contents, with a page behind
 * them that may not be touched. Prints how many calls were compared, or the first difference, and then ends
 * with 1. */
#include <inttypes.h>
#include <stdio.h>
#include <string.h>
#include <sys/mman.h>

#include "gorvyts.h"

enum { PAGE = 4096, BLOCKS = 40 };

static const char *const histories[] = {
    "range 100 16\n",
    "range 100 16\nadd 1 1\n",
    "range 100 16\nadd 1 1\nadd 2 1\nadd 3 1.0\n",
    "range 100 16\nadd 1 1\nadd 2 1\nadd 3 1.0\nremove 2\nresize 3 3\n",
    "range 4294967296 4096\nadd 1 1\nadd 2 2\nadd 65535 0.5\nadd 9 1000\nresize 2 7\nremove 1\n",
    "range 1 1\nadd 7 0.001\n",
};

static uint8_t image[GORVYTS_IMAGE_MOST];
static struct gorvyts_pool *pool;
static uint64_t compared;

static void differs(const char *what, uint64_t input)
{
    printf("differs: %s at %" PRIu64 "\n", what, input);
}

static uint64_t next_random(void)
{
    static uint64_t state = 20180401;
    state ^= state << 13;
    state ^= state >> 7;
    state ^= state << 17;
    return state;
}

static int same_owner(size_t length, uint64_t point)
{
    uint64_t ours[2] = {5, 6}, theirs[2] = {5, 6};
    uint32_t number = gorvyts_pool_owner(pool, point, ours);
    compared++;
    if (number == gorvyts_owner(image, length, point, theirs, 1) && memcmp(ours, theirs, sizeof ours) == 0)
        return 1;
    differs("owner", point);
    return 0;
}

static int same_copies(size_t length, uint64_t block, uint64_t k)
{
    uint32_t ours[13], theirs[13];
    memset(ours, 7, sizeof ours);
    memset(theirs, 7, sizeof theirs);
    uint32_t number = gorvyts_pool_copies(pool, block, k, ours, ours + 2);
    compared++;
    if (number == gorvyts_copies(image, length, block, k, theirs, 2, theirs + 2, 10) && memcmp(ours, theirs, sizeof ours) == 0)
        return 1;
    differs("copies", block);
    return 0;
}

static int same_lookups(size_t length)
{
    const uint64_t range = pool->numbers[0];
    for (uint64_t i = 0; i < 120; i++)
        if (!same_owner(length, i) || !same_owner(length, range - 2 + i % 4) || !same_owner(length, next_random() % (2 * range)))
            return 0;
    for (uint64_t block = 0; block < BLOCKS; block++)
        for (uint64_t k = 0; k <= 9; k++)
            if (!same_copies(length, block, k))
                return 0;
    return same_owner(length, UINT64_MAX) && same_copies(length, UINT64_MAX, UINT64_MAX);
}

/* A byte of the image changed: the number of gorvyts_check, zeros, and the arrays as they were. */
static int same_refusals(size_t length)
{
    static struct gorvyts_pool before;
    for (size_t i = 0; i < length; i++) {
        const uint8_t kept = image[i];
        image[i] = (uint8_t)(kept + 1 + next_random() % 255);
        const uint32_t expected = gorvyts_check(image, length);
        memcpy(&before, pool, sizeof before);
        const uint32_t number = gorvyts_pool_open(pool, image, length);
        image[i] = kept;
        compared++;
        if (number != expected) {
            differs("number of a changed image", i);
            return 0;
        }
        if (number == 0)
            continue;
        memset(before.numbers, 0, sizeof before.numbers);
        if (memcmp(&before, pool, sizeof before) != 0) {
            differs("pool of a refused image", i);
            return 0;
        }
    }
    return 1;
}

/* One place too few: 17, and everything as it was. Longer buffers: the places behind stay. */
static int same_sizes(size_t length)
{
    static uint32_t starts[GORVYTS_PLACES + 1];
    static uint16_t owners[GORVYTS_PLACES + 1];
    uint64_t numbers[4] = {8, 8, 8, 8}, answer[1] = {8};
    uint32_t row[10];
    const size_t places = GORVYTS_PLACES;
    memset(row, 8, sizeof row);
    memset(starts, 8, sizeof starts);
    memset(owners, 8, sizeof owners);
    const uint32_t start = starts[0], none = row[0];
    compared += 7;
    if (gorvyts_open(image, length, starts, places - 1, owners, places, numbers, 3) != 17 ||
        gorvyts_open(image, length, starts, places, owners, places - 1, numbers, 3) != 17 ||
        gorvyts_open(image, 0, starts, places, owners, places, numbers, 2) != 17 ||
        gorvyts_owner_in(starts, owners, numbers, 0, answer, 0) != 17 ||
        gorvyts_copies_in(starts, owners, numbers, 0, 1, row, 1, row, 10) != 17 ||
        gorvyts_copies_in(starts, owners, numbers, 0, 1, row, 2, row + 2, 8) != 17) {
        differs("number of a short buffer", 17);
        return 0;
    }
    for (size_t i = 0; i <= places; i++)
        if (starts[i] != start || owners[i] != (uint16_t)start) {
            differs("array of a short call", i);
            return 0;
        }
    if (numbers[0] != 8 || answer[0] != 8 || row[0] != none || row[9] != none) {
        differs("numbers of a short call", 0);
        return 0;
    }
    if (gorvyts_open(image, length, starts, places + 1, owners, places + 1, numbers, 4) != 0 ||
        starts[places] != start || owners[places] != (uint16_t)start || numbers[3] != 8 ||
        memcmp(starts, pool->starts, sizeof pool->starts) != 0 || memcmp(owners, pool->owners, sizeof pool->owners) != 0 ||
        memcmp(numbers, pool->numbers, sizeof pool->numbers) != 0) {
        differs("longer buffers", 0);
        return 0;
    }
    return 1;
}

/* Contents that no opening left: an answer, and nothing outside is touched. */
static int any_contents(void)
{
    static const uint64_t sizes[] = {0, 1, 2, 4095, 4096, 4097, 65536, UINT32_MAX, UINT64_MAX};
    uint64_t answer[1];
    uint32_t tally[2], row[10];
    for (int turn = 0; turn < 2000; turn++) {
        uint8_t *bytes = (uint8_t *)pool;
        for (size_t i = 0; i < sizeof *pool && turn % 50 == 0; i++)
            bytes[i] = (uint8_t)next_random();
        for (int i = 0; i < 3; i++)
            pool->numbers[i] = next_random() % 4 ? sizes[next_random() % (sizeof sizes / sizeof *sizes)] : next_random();
        const uint64_t point = next_random() % 2 ? next_random() : next_random() % 5000;
        const uint32_t number = gorvyts_pool_owner(pool, point, answer);
        const uint32_t expected = point >= pool->numbers[0] ? 13 : pool->numbers[2] == 0 ? 10 : 0;
        compared++;
        if (number != expected || answer[0] > 65535 || (number != 0 && answer[0] != 0)) {
            differs("owner in any contents", (uint64_t)turn);
            return 0;
        }
        const uint64_t k = next_random() % 10;
        const uint32_t copies = gorvyts_pool_copies(pool, next_random(), k, tally, row);
        compared++;
        if (copies != row[0] || (copies != 0 && (copies < 10 || copies > 12)) || (copies == 11) != (k == 0 || k == 9)) {
            differs("copies in any contents", (uint64_t)turn);
            return 0;
        }
    }
    return 1;
}

int main(void)
{
    /* the pool ends where a page begins that may not be touched */
    const size_t pages = (sizeof *pool + PAGE - 1) / PAGE * PAGE;
    uint8_t *memory = mmap(NULL, pages + PAGE, PROT_READ | PROT_WRITE, MAP_PRIVATE | MAP_ANONYMOUS, -1, 0);
    if (memory == MAP_FAILED || mprotect(memory + pages, PAGE, PROT_NONE) != 0)
        return 1;
    pool = (struct gorvyts_pool *)(memory + pages - sizeof *pool);
    for (size_t i = 0; i < sizeof histories / sizeof *histories; i++) {
        uint64_t answer[1];
        const uint8_t *text = (const uint8_t *)histories[i];
        if (gorvyts_replay(text, strlen(histories[i]), image, sizeof image, answer, 1) != 0)
            return 1;
        const size_t length = answer[0];
        if (gorvyts_pool_open(pool, image, length) != 0 || !same_lookups(length) || !same_sizes(length) || !same_refusals(length))
            return 1;
    }
    if (!any_contents())
        return 1;
    printf("opened pools: %" PRIu64 " calls, all same\n", compared);
    return 0;
}
