/* Calls of libgorvyts.a on the pool that a history leaves: exports CALL COUNT < HISTORY. CALL is `resize` (of a
 * device to and fro, image to image), `remove_add` (of that device, in turn), `check`, `share`, `report`, `owner`,
 * `open` or `owner_in`; the pool is made first, and opened for `owner_in`, so that a run with COUNT 0 has all but the
 * calls. Prints the last answer. Ends with 1 where a call is refused. */
#include <inttypes.h>
#include <stdio.h>
#include <stdlib.h>
#include <string.h>

#include "../../callers/c/gorvyts.h"

static uint8_t text[65536], images[2][GORVYTS_IMAGE_MOST];
static uint64_t list[4 * 4096];
static struct gorvyts_pool pool;

/* The first device of an image: its id. */
static uint64_t first_id(const uint8_t *image)
{
    return (uint64_t)image[19] * 256 + image[20];
}

int main(int argc, char **argv)
{
    if (argc != 3)
        return 2;
    const char *call = argv[1];
    uint64_t count = strtoull(argv[2], NULL, 10), answer[3] = {0, 0, 0};
    int64_t difference = 0;
    size_t size = fread(text, 1, sizeof text, stdin);
    uint32_t number = gorvyts_replay(text, size, images[0], sizeof images[0], answer, 3);
    size_t length = answer[0];
    const uint64_t id = first_id(images[0]);
    if (number == 0)
        number = gorvyts_pool_open(&pool, images[0], length);
    for (uint64_t i = 0; i < count && number == 0; i++) {
        uint64_t point = i * 2654435761u % pool.numbers[0];
        const uint8_t *image = images[i % 2];
        uint8_t *next = images[(i + 1) % 2];
        if (strcmp(call, "resize") == 0) {
            number = gorvyts_resize(image, length, id, i % 2 ? 12345 : 12844, next, sizeof images[0], list,
                                    sizeof list / sizeof *list, answer, 3);
            length = answer[0];
        } else if (strcmp(call, "remove_add") == 0) {
            number = i % 2 ? gorvyts_add(image, length, id, 12345, next, sizeof images[0], list,
                                         sizeof list / sizeof *list, answer, 3)
                           : gorvyts_remove(image, length, id, next, sizeof images[0], list,
                                            sizeof list / sizeof *list, answer, 3);
            length = answer[0];
        } else if (strcmp(call, "check") == 0)
            number = gorvyts_check(images[0], length);
        else if (strcmp(call, "owner") == 0)
            number = gorvyts_owner(images[0], length, point, answer, 1);
        else if (strcmp(call, "open") == 0)
            number = gorvyts_pool_open(&pool, images[0], length);
        else if (strcmp(call, "owner_in") == 0)
            number = gorvyts_pool_owner(&pool, point, answer);
        else if (strcmp(call, "share") == 0)
            number = gorvyts_share(images[0], length, id, answer, 1);
        else if (strcmp(call, "report") == 0)
            number = gorvyts_report(images[0], length, id, answer, 2, &difference);
        else
            return 2;
    }
    printf("%" PRIu32 " %" PRIu64 "\n", number, answer[0]);
    return number != 0;
}
