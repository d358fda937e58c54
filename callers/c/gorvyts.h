/* Calls of libgorvyts.a, for x86-64: the placement of a recorder pool, as document 01 has it.
 *
 * A pool is given by the bytes of its image, and a call that makes or changes one leaves the bytes of
 * its image in a lent buffer; nothing is held between two calls. A buffer is a pointer and a count of
 * elements; the buffers of one call do not overlap, and beyond the count nothing is read or written. The
 * pointer is never null, also where the count is 0: then any address that is not null will do. A call
 * takes any numbers and any bytes, and returns 0 or a refusal number.
 *
 * Results stand in the first places of `answer` (or `row`). On a refusal the places of `answer` are zeros;
 * of a row, row[0] is the number that is returned, row[9] is 256 where that is 12, and the others are
 * zeros. Where there are too few places the call returns 17 and stores nothing at all. Beside those
 * places a refused call leaves every value: buffers, list, rows and tally hold what was lent (the tally's two
 * numbers may be stored again, unchanged). Bytes past a written image stay, and so do the places of a
 * list past its moves and of rows past the last one.
 *
 * Stack: measured on x86-64 (callers/c/stack.c), the changes and gorvyts_replay need 380 KB,
 * gorvyts_transcript 340, gorvyts_open and the lookups on an image 210, gorvyts_check, gorvyts_numbers,
 * gorvyts_share, gorvyts_report, gorvyts_devices and gorvyts_intervals 190, gorvyts_fresh 60, gorvyts_owner_in and
 * gorvyts_copies_in 4. A thread of 256 KB is too small for the first three: it ends the process.
 *
 * Cost: every call on an image reads and checks all of it, which takes far longer than the lookup itself; a
 * single gorvyts_owner or gorvyts_copies takes as long as some hundred blocks of gorvyts_copies_of_many,
 * which checks its image once. For many lookups of one pool, gorvyts_open checks the image once and leaves
 * the pool in memory of the caller's; gorvyts_owner_in and gorvyts_copies_in then only search.
 *
 * Threads: no call keeps or shares anything but the buffers lent to it, so calls may run at the same time
 * on buffers of their own. Buffers that are only read (image, text, blocks) may be shared. A tally that
 * several threads use must be guarded by them: it is read and then stored.
 */
#ifndef GORVYTS_H
#define GORVYTS_H

#include <stddef.h>
#include <stdint.h>

#ifdef __cplusplus
extern "C" {
#endif

enum {
    GORVYTS_LINE_SHAPE = 1,       /* a line is not one of the four shapes */
    GORVYTS_OUTSIDE_LIMITS = 2,   /* a number outside its limits, or too many bytes */
    GORVYTS_LINE_ORDER = 3,       /* a change before a range line, or a second range line */
    GORVYTS_ID_PRESENT = 4,       /* add: the id is present */
    GORVYTS_ID_ABSENT = 5,        /* remove, resize, share, report: the id is absent */
    GORVYTS_TOO_MANY_DEVICES = 6, /* add: 256 devices are present */
    GORVYTS_ONLY_DEVICE = 7,      /* remove: it is the only device */
    GORVYTS_TOO_MANY_INTERVALS = 8, /* a change: the new table has over M intervals */
    GORVYTS_TOO_MANY_MOVES = 9,   /* a change: more moves than places in the list */
    GORVYTS_NO_DEVICE = 10,       /* copies, owner: no device is present */
    GORVYTS_COPIES_COUNT = 11,    /* copies: k is 0 or above 8 */
    GORVYTS_TOO_FEW_OWNERS = 12,  /* copies: fewer than k different owners in 256 probes */
    GORVYTS_POINT_PAST_RANGE = 13, /* owner: the point is at or above R */
    GORVYTS_NO_IMAGE = 14,        /* an image: under 19 bytes, or another mark */
    GORVYTS_OTHER_VERSION = 15,   /* an image: a version other than 2 */
    GORVYTS_FAULTY_IMAGE = 16,    /* an image: any other fault */
    GORVYTS_BUFFER_TOO_SHORT = 17 /* a buffer, a row or an answer is too short */
};

/* The bytes of the largest image; the bytes that every transcript fits in; the most moves of a change; the
 * most devices and the most intervals of a pool; the largest capacity, in thousandths of a TB. */
#define GORVYTS_IMAGE_MOST 26131
#define GORVYTS_TRANSCRIPT_ROOM 3145728
#define GORVYTS_MOVES_MOST 8448
#define GORVYTS_DEVICES_MOST 256
#define GORVYTS_INTERVALS_MOST 4096
#define GORVYTS_CAPACITY_MOST 16000000

/* Whether the bytes are the image of a pool: 0, 14, 15 or 16. An image has version 2; one of version 1, from before
 * the share rule of Wish 4, gets 15. */
uint32_t gorvyts_check(const uint8_t *image, size_t image_size);

/* The image of a fresh pool of range R and interval limit M. answer[0]: its length.
 * Refusals: 2, 17. */
uint32_t gorvyts_fresh(uint64_t range, uint64_t limit, uint8_t *image, size_t image_size, uint64_t *answer, size_t answer_size);

/* The image of the pool that a history leaves; lines that are refused change nothing. A text without an
 * accepted range line leaves a fresh pool with R = 1 and M = 1, and 0 is returned. answer[0]: its length.
 * Refusals: 2 for more than 65,536 bytes, 17. */
uint32_t gorvyts_replay(const uint8_t *text, size_t text_size, uint8_t *image, size_t image_size, uint64_t *answer, size_t answer_size);

/* What `slices` prints of a history: what became of each line, and the table. answer[0]: its length.
 * Refusals: 17 for a buffer of less than GORVYTS_TRANSCRIPT_ROOM bytes. */
uint32_t gorvyts_transcript(const uint8_t *text, size_t text_size, uint8_t *out, size_t out_size, uint64_t *answer, size_t answer_size);

/* The numbers of a pool. answer[0]: the range R, answer[1]: the interval limit M, answer[2]: the number of
 * devices, answer[3]: the number of intervals.
 * Refusals: 14, 15, 16; 17 where the answer has under 4 places. */
uint32_t gorvyts_numbers(const uint8_t *image, size_t image_size, uint64_t *answer, size_t answer_size);

/* The share of a device: how many of the quotients of its capacity by 1, 2, 3 and so on are among the R largest of all
 * devices, where of equal ones that of the lower id comes first. answer[0]: its points.
 * Refusals: 14, 15, 16; 2 where the id is not within 1 to 65,535; 5; 17. */
uint32_t gorvyts_share(const uint8_t *image, size_t image_size, uint64_t id, uint64_t *answer, size_t answer_size);

/* The report on a device: what it is exactly due, R × c / C with C the sum of all capacities, and how far its share
 * lies from that. answer[0]: R × c divided by C as a whole number, answer[1]: the remainder; difference, one number
 * with a sign: share × C − R × c. It lies strictly between −C and n × C for n devices and is 0 only where the
 * remainder is 0, and the differences of all devices add up to 0.
 * Refusals: 14, 15, 16; 2 where the id is not within 1 to 65,535; 5; then answer[0], answer[1] and the difference
 * are 0. 17 where the answer has under 2 places; then the difference stays as well. */
uint32_t gorvyts_report(const uint8_t *image, size_t image_size, uint64_t id, uint64_t *answer, size_t answer_size,
                        int64_t *difference);

/* The devices of a pool by rising id, three numbers each in `rows`: id, capacity in thousandths of a TB, share.
 * rows_size counts numbers; answer[2] of gorvyts_numbers is the number of rows.
 * Refusals: 14, 15, 16; 17 where there are under 3 numbers for each device. Then the rows stay: no place holds
 * the number. */
uint32_t gorvyts_devices(const uint8_t *image, size_t image_size, uint64_t *rows, size_t rows_size);

/* The intervals of a pool by rising start, three numbers each in `rows`: start, length, owner. answer[3] of
 * gorvyts_numbers is the number of rows.
 * Refusals: 14, 15, 16; 17 where there are under 3 numbers for each interval. Then the rows stay. */
uint32_t gorvyts_intervals(const uint8_t *image, size_t image_size, uint64_t *rows, size_t rows_size);

/* Changes: from the image of a pool to that of the changed pool, in `next`. The moves go to `list`, four
 * numbers each: start, length, old owner, new owner; list_size counts numbers, so that it has
 * list_size / 4 places. Capacities are in thousandths of a TB, 1 to GORVYTS_CAPACITY_MOST. answer[0]: the
 * length of the new image, answer[1]: the moved points, answer[2]: the number of moves. An add moves points only to
 * the added device, a remove only from the removed one, a resize only to the named one or only from it.
 * Refusals: 14, 15, 16; 2, 4, 6, 8, 9 of an add; 2, 5, 7, 8, 9 of a remove; 2, 5, 8, 9 of a resize; 17. */
uint32_t gorvyts_add(const uint8_t *image, size_t image_size, uint64_t id, uint64_t capacity,
                     uint8_t *next, size_t next_size, uint64_t *list, size_t list_size, uint64_t *answer, size_t answer_size);
uint32_t gorvyts_remove(const uint8_t *image, size_t image_size, uint64_t id,
                        uint8_t *next, size_t next_size, uint64_t *list, size_t list_size, uint64_t *answer, size_t answer_size);
uint32_t gorvyts_resize(const uint8_t *image, size_t image_size, uint64_t id, uint64_t capacity,
                        uint8_t *next, size_t next_size, uint64_t *list, size_t list_size, uint64_t *answer, size_t answer_size);

/* The owner of a point. answer[0]: its id.
 * Refusals: 14, 15, 16, 13, 10, 17. */
uint32_t gorvyts_owner(const uint8_t *image, size_t image_size, uint64_t point, uint64_t *answer, size_t answer_size);

/* The k devices that hold the copies of a block. row[0]: the number that is returned, row[1] to row[8]: the
 * owners in their order and then zeros, row[9]: the probes made, 256 where 12 is returned. The tally is
 * two numbers, lookups and probes; an accepted lookup is added, and both stay at 4,294,967,295. A refused
 * lookup leaves both.
 * Refusals: 14, 15, 16, 11, 10, 12; 17 where the tally has under 2 places or the row under 10. */
uint32_t gorvyts_copies(const uint8_t *image, size_t image_size, uint64_t block, uint64_t k,
                        uint32_t *tally, size_t tally_size, uint32_t *row, size_t row_size);

/* The same for many blocks, one after another, with ten numbers for each in `rows`. Returns 0 though rows may
 * hold refusals.
 * Refusals: 14, 15, 16; 17 where the tally has under 2 places or there are under 10 numbers for each block.
 * Refused as a whole, it leaves rows and tally: no row holds the number then. */
uint32_t gorvyts_copies_of_many(const uint8_t *image, size_t image_size, const uint64_t *blocks, size_t blocks_size, uint64_t k,
                                uint32_t *tally, size_t tally_size, uint32_t *rows, size_t rows_size);

/* An opened pool: arrays of GORVYTS_PLACES places, and three numbers. The calls on it take any contents: what
 * gorvyts_open left of an accepted image gives the answers of gorvyts_owner and gorvyts_copies on that image;
 * other contents give some answer, and nothing outside the arrays is read. */
#define GORVYTS_PLACES 4096

/* Reads and checks an image. starts, owners: of each interval in the order of the table, its first point and the
 * device that owns it, then zeros up to GORVYTS_PLACES places; numbers[0]: the range, numbers[1]: the
 * intervals, numbers[2]: the devices. Places past these stay.
 * Refusals: 17 where starts or owners have under GORVYTS_PLACES places or the numbers under 3, then nothing is
 * stored; 14, 15, 16, then the three numbers are zeros and the arrays stay. */
uint32_t gorvyts_open(const uint8_t *image, size_t image_size, uint32_t *starts, size_t starts_size,
                      uint16_t *owners, size_t owners_size, uint64_t *numbers, size_t numbers_size);

/* The owner of a point of an opened pool, as gorvyts_owner gives it. starts and owners point to GORVYTS_PLACES
 * elements, numbers to 3; all of them are only read.
 * Refusals: 13, 10, 17. */
uint32_t gorvyts_owner_in(const uint32_t *starts, const uint16_t *owners, const uint64_t *numbers,
                          uint64_t point, uint64_t *answer, size_t answer_size);

/* The copies of a block of an opened pool, as gorvyts_copies gives them; arrays as of gorvyts_owner_in. A range above
 * 4,294,967,296, which no image has, is taken as that.
 * Refusals: 11, 10, 12; 17 where the tally has under 2 places or the row under 10. */
uint32_t gorvyts_copies_in(const uint32_t *starts, const uint16_t *owners, const uint64_t *numbers,
                           uint64_t block, uint64_t k, uint32_t *tally, size_t tally_size, uint32_t *row, size_t row_size);

/* The memory of an opened pool, 24 KB, and the same calls on it. */
struct gorvyts_pool {
    uint32_t starts[GORVYTS_PLACES];
    uint16_t owners[GORVYTS_PLACES];
    uint64_t numbers[3];
};

/* Refusals: 14, 15, 16; then every lookup is refused too, an owner with 13, copies with 11 or 10. */
static inline uint32_t gorvyts_pool_open(struct gorvyts_pool *pool, const uint8_t *image, size_t image_size)
{
    return gorvyts_open(image, image_size, pool->starts, GORVYTS_PLACES, pool->owners, GORVYTS_PLACES, pool->numbers, 3);
}

/* owner: one number, the id. Refusals: 13, 10. */
static inline uint32_t gorvyts_pool_owner(const struct gorvyts_pool *pool, uint64_t point, uint64_t *owner)
{
    return gorvyts_owner_in(pool->starts, pool->owners, pool->numbers, point, owner, 1);
}

/* tally: two numbers; row: ten. Refusals: 11, 10, 12. */
static inline uint32_t gorvyts_pool_copies(const struct gorvyts_pool *pool, uint64_t block, uint64_t k, uint32_t *tally, uint32_t *row)
{
    return gorvyts_copies_in(pool->starts, pool->owners, pool->numbers, block, k, tally, 2, row, 10);
}

#ifdef __cplusplus
}
#endif

#endif
