/* The order of calls for one step of joined models: check a table, order it, judge an order or a schedule. */
#ifndef OORLICHDAY_H
#define OORLICHDAY_H

#include <stddef.h>
#include <stdint.h>

#ifdef __cplusplus
extern "C" {
#endif

/*
 * Counts the changes of what the two headers declare: one more when a call, a struct, a size or a
 * number comes, goes or changes its meaning. Both headers give it, so that a compiler objects to
 * headers of two versions in one file.
 */
#define OORLICHDAY_VERSION 2

/* Greatest sizes in bytes of a packed table and of an order. */
#define OORLICHDAY_TABLE_MAX 644u
#define OORLICHDAY_ORDER_MAX 224u

/* An answer's number, SPECIFICATION, Numbers: 1 to 7 the table's, 8 and 9 the order's, 11 to 18 the verdict's. */
enum oorlichday_number {
    OORLICHDAY_OK = 0,
    OORLICHDAY_LENGTH = 1,            /* fewer than 4 bytes, or another length than the counts call for */
    OORLICHDAY_COUNT = 2,             /* a count is out of range */
    OORLICHDAY_OWNER = 3,             /* an owner is no unit */
    OORLICHDAY_KIND = 4,              /* a kind is neither 0 nor 1 */
    OORLICHDAY_SOURCE = 5,            /* a source is no output */
    OORLICHDAY_FEED = 6,              /* a feed names a port that is not there, or ports of two units */
    OORLICHDAY_FEED_TWICE = 7,        /* an earlier feed is the same */
    OORLICHDAY_ROOM = 8,              /* the buffer has fewer than N bytes */
    OORLICHDAY_CYCLE = 9,             /* there is a cycle; its length is the place */
    /* 10 is not used: it was a number of version 1, which no table gave */
    OORLICHDAY_NO_CALL = 11,          /* this is no call */
    OORLICHDAY_DONE_BEFORE = 12,      /* this call is done already */
    OORLICHDAY_DELAYED_SET = 13,      /* a step: a delayed input has been set */
    OORLICHDAY_REACTIVE_NOT_SET = 14, /* a step: a reactive input has not been set */
    OORLICHDAY_NOT_STEPPED = 15,      /* a get: its unit has not stepped */
    OORLICHDAY_FEEDING_NOT_SET = 16,  /* a get: an input that feeds it has not been set */
    OORLICHDAY_SOURCE_NOT_GOT = 17,   /* a set: its source has not been got */
    OORLICHDAY_ENDED = 18             /* fewer than N calls; how many is the place */
};

/*
 * Every answer is 256 times its number plus its place.
 *
 * What the caller owes: each pointer is not null and points at as many bytes as the length beside
 * it says, or as many records as the count, for the time of the call (a length of 0 may come with
 * any non-null pointer). The bytes that are written to overlap no other buffer of the same call;
 * those only read may overlap.
 * The functions keep no state, allocate nothing and may be called from any thread.
 */

static inline uint32_t oorlichday_number(uint32_t answer) { return answer >> 8; }
static inline uint32_t oorlichday_place(uint32_t answer) { return answer & 255u; }

/* Is the table sound? 0 with N, the number of its calls, or the first of 1 to 7 with place 0. */
uint32_t oorlichday_check(const uint8_t *table, size_t table_len);

/*
 * The first order of the table's calls: 0 with N, and N bytes at the front of `order`; or 9 with
 * the cycle's length, and that many bytes; or 1 to 8. Every other byte of `order` is left alone.
 */
uint32_t oorlichday_order(const uint8_t *table, size_t table_len, uint8_t *order, size_t order_len);

/* Does the order keep the rules? 0 with N; or 1 to 7; or number and place of its first fault. */
uint32_t oorlichday_verdict(const uint8_t *table, size_t table_len,
                            const uint8_t *order, size_t order_len);

/* The kinds of a record. */
enum oorlichday_kind {
    OORLICHDAY_STEP = 0,
    OORLICHDAY_GET = 1,
    OORLICHDAY_SET = 2
};

/* A call of the firmware's own schedule: its kind, and its unit, output or input. Two bytes. */
struct oorlichday_record {
    uint8_t kind;
    uint8_t number;
};

/*
 * The same verdict on a schedule of `count` records. A kind above 2, or a number not below the
 * table's count of its kind, is 11. A place counts records.
 */
uint32_t oorlichday_verdict_of_records(const uint8_t *table, size_t table_len,
                                       const struct oorlichday_record *records, size_t count);

#ifdef __cplusplus
}
#endif

#endif
