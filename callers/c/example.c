/* Replays a history, lists the devices and the intervals, asks for shares, for owners and for copies, also of the
 * opened pool, adds a device and lists the moves, adds the largest disk and one that is too large, and asks for the
 * reports on three equal devices that share 100 points. */
#include <inttypes.h>
#include <stdio.h>
#include <string.h>

#include "gorvyts.h"

static const char history[] =
    "range 100 16\n"
    "add 1 1.000\n"
    "add 2 1\n"
    "add 3 1.0\n"
    "add 3 3,2\n"
    "remove 2\n"
    "resize 3 3\n";

static uint8_t image[GORVYTS_IMAGE_MOST];
static uint8_t next[GORVYTS_IMAGE_MOST];
static uint8_t out[GORVYTS_TRANSCRIPT_ROOM];
static uint64_t list[4 * GORVYTS_MOVES_MOST];
static uint64_t rows[3 * GORVYTS_INTERVALS_MOST];
static struct gorvyts_pool pool;

static const char *sentence(uint32_t number)
{
    switch (number) {
    case 0: return "accepted";
    case GORVYTS_OUTSIDE_LIMITS: return "a number is outside its limits";
    case GORVYTS_ID_PRESENT: return "the device to add is present";
    case GORVYTS_ID_ABSENT: return "the device is absent";
    case GORVYTS_POINT_PAST_RANGE: return "the point is at or above the range";
    default: return "refused";
    }
}

int main(void)
{
    uint64_t answer[4];
    int64_t difference;
    uint32_t tally[2] = {0, 0}, row[10], number;

    if (gorvyts_transcript((const uint8_t *)history, strlen(history), out, sizeof out, answer, 3) != 0)
        return 1;
    fwrite(out, 1, answer[0], stdout);

    if (gorvyts_replay((const uint8_t *)history, strlen(history), image, sizeof image, answer, 3) != 0)
        return 1;
    size_t length = answer[0];
    printf("image of %zu bytes\n", length);

    if (gorvyts_numbers(image, length, answer, 4) != 0)
        return 1;
    printf("range %" PRIu64 ", limit %" PRIu64 ", %" PRIu64 " devices, %" PRIu64 " intervals\n",
           answer[0], answer[1], answer[2], answer[3]);
    if (gorvyts_devices(image, length, rows, 3 * answer[2]) != 0)
        return 1;
    for (uint64_t i = 0; i < answer[2]; i++)
        printf("device %" PRIu64 ": capacity %" PRIu64 ", share %" PRIu64 "\n", rows[3 * i], rows[3 * i + 1], rows[3 * i + 2]);
    if (gorvyts_intervals(image, length, rows, 3 * answer[3]) != 0)
        return 1;
    for (uint64_t i = 0; i < answer[3]; i++)
        printf("from %" PRIu64 ", %" PRIu64 " points: device %" PRIu64 "\n", rows[3 * i], rows[3 * i + 1], rows[3 * i + 2]);
    for (uint64_t id = 2; id <= 3; id++) {
        number = gorvyts_share(image, length, id, answer, 1);
        printf("share of %" PRIu64 ": %" PRIu32 ", %s, %" PRIu64 " points\n", id, number, sentence(number), answer[0]);
    }

    for (uint64_t point = 0; point <= 100; point += 25) {
        number = gorvyts_owner(image, length, point, answer, 3);
        if (number == 0)
            printf("point %" PRIu64 ": device %" PRIu64 "\n", point, answer[0]);
        else
            printf("point %" PRIu64 ": %" PRIu32 ", %s\n", point, number, sentence(number));
    }

    if (gorvyts_copies(image, length, 7, 2, tally, 2, row, 10) != 0)
        return 1;
    printf("block 7: devices %" PRIu32 " and %" PRIu32 ", probes %" PRIu32 "\n", row[1], row[2], row[9]);
    printf("tally: lookups %" PRIu32 ", probes %" PRIu32 "\n", tally[0], tally[1]);

    if (gorvyts_pool_open(&pool, image, length) != 0)
        return 1;
    printf("opened: range %" PRIu64 ", %" PRIu64 " intervals, %" PRIu64 " devices\n",
           pool.numbers[0], pool.numbers[1], pool.numbers[2]);
    number = gorvyts_pool_owner(&pool, 25, answer);
    printf("point 25: %" PRIu32 ", device %" PRIu64 "\n", number, answer[0]);
    if (gorvyts_pool_copies(&pool, 7, 2, tally, row) != 0)
        return 1;
    printf("block 7: devices %" PRIu32 " and %" PRIu32 ", probes %" PRIu32 "\n", row[1], row[2], row[9]);
    printf("tally: lookups %" PRIu32 ", probes %" PRIu32 "\n", tally[0], tally[1]);

    number = gorvyts_add(image, length, 3, 2000, next, sizeof next, list, sizeof list / sizeof *list, answer, 3);
    printf("add 3: %" PRIu32 ", %s\n", number, sentence(number));

    number = gorvyts_add(image, length, 4, 2000, next, sizeof next, list, sizeof list / sizeof *list, answer, 3);
    if (number != 0)
        return 1;
    printf("add 4: %" PRIu64 " points in %" PRIu64 " moves\n", answer[1], answer[2]);
    for (uint64_t i = 0; i < answer[2]; i++)
        printf("%" PRIu64 " %" PRIu64 ": %" PRIu64 " to %" PRIu64 "\n",
               list[4 * i], list[4 * i + 1], list[4 * i + 2], list[4 * i + 3]);
    printf("image of %" PRIu64 " bytes\n", answer[0]);

    for (uint64_t capacity = GORVYTS_CAPACITY_MOST; capacity <= GORVYTS_CAPACITY_MOST + 1; capacity++) {
        number = gorvyts_add(image, length, 4, capacity, next, sizeof next, list, sizeof list / sizeof *list, answer, 3);
        printf("add 4 of %" PRIu64 ": %" PRIu32 ", %s, %" PRIu64 " points\n", capacity, number, sentence(number), answer[1]);
    }

    static const char three[] = "range 100 16\nadd 1 1\nadd 2 1\nadd 3 1\n";
    if (gorvyts_replay((const uint8_t *)three, strlen(three), image, sizeof image, answer, 3) != 0)
        return 1;
    length = answer[0];
    for (uint64_t id = 1; id <= 4; id++) {
        number = gorvyts_report(image, length, id, answer, 2, &difference);
        printf("report on %" PRIu64 ": %" PRIu32 ", %s, due %" PRIu64 " and a remainder of %" PRIu64 ", difference %" PRId64 "\n",
               id, number, sentence(number), answer[0], answer[1], difference);
    }
    return 0;
}
