/* On a desk: read a text table or list the order of its calls; judge call by call; ask what precedes what. */
#ifndef OORLICHDAY_DESK_H
#define OORLICHDAY_DESK_H

#include <stdbool.h>
#include <stddef.h>
#include <stdint.h>

#ifdef __cplusplus
extern "C" {
#endif

/* What it counts is said in oorlichday.h, and it is the same there. */
#define OORLICHDAY_VERSION 2

/* Greatest sizes in bytes of a text that is read, and of a listing. */
#define OORLICHDAY_TEXT_MAX 24576u
#define OORLICHDAY_LISTING_MAX 8860u

/* The number of a text's refusal: SPECIFICATION, Numbers 20 to 34. */
enum oorlichday_text_number {
    OORLICHDAY_TEXT_SIZE = 20,        /* no bytes, or too many; line 0 */
    OORLICHDAY_TEXT_NOT_ENDED = 21,   /* the last line has no LF */
    OORLICHDAY_TEXT_BYTE = 22,        /* a byte that no text may have */
    OORLICHDAY_TEXT_FIRST_LINE = 23,  /* the first line is not as it must be */
    OORLICHDAY_TEXT_FORM = 24,        /* no such keyword, or not its number of fields */
    OORLICHDAY_TEXT_NAME = 25,        /* a name of no bytes, or of more than 16 */
    OORLICHDAY_TEXT_NAME_TWICE = 26,  /* a name that its set has already */
    OORLICHDAY_TEXT_NOT_DECLARED = 27, /* a name that no line above declares */
    OORLICHDAY_TEXT_KIND = 28,        /* a kind that is neither word */
    OORLICHDAY_TEXT_COUNT = 29,       /* one more than a table can have */
    OORLICHDAY_TEXT_JOINED_TWICE = 30, /* an input that is joined already */
    OORLICHDAY_TEXT_NOT_JOINED = 31,  /* an input that no line joins */
    OORLICHDAY_TEXT_FEED_TWICE = 32,  /* a feed that is given already */
    OORLICHDAY_TEXT_NO_UNIT = 33,     /* no unit; line 1 */
    OORLICHDAY_TEXT_ROOM = 34         /* the lent buffer is too short; line 0 */
};

/* A refusal's number with its line, counted from 1; or 0 with how many bytes were written. */
struct oorlichday_reading {
    uint8_t number;
    size_t place;
};

/* What the caller owes, and what threads may do, is as in oorlichday.h. */

/* Reads a text into a packed table at the front of `table`; every other byte is left alone. */
struct oorlichday_reading oorlichday_read(const uint8_t *text, size_t text_len,
                                          uint8_t *table, size_t table_len);

/*
 * Writes at the front of `out` what the lister prints of a text, a refusal too; every other byte
 * is left alone. The number is 0 with the length, or 34 with nothing written.
 */
struct oorlichday_reading oorlichday_list(const uint8_t *text, size_t text_len,
                                          uint8_t *out, size_t out_len);

/* A judged run: which call numbers are done. Any marks are taken, each of them true or false. */
struct oorlichday_run {
    bool done[224];
};

/* The run after a call, with the number that the call is answered. */
struct oorlichday_taken {
    struct oorlichday_run run;
    uint8_t number;
};

/*
 * One call of a judged run, by its number, however great: 0 and the run with the call done; or 1 to
 * 7 for an unsound table, then 11 to 17, with the run as it was. A run in which nothing is done is
 * all zeros.
 */
struct oorlichday_taken oorlichday_take(const uint8_t *table, size_t table_len,
                                        struct oorlichday_run run, size_t call);

/*
 * Is the first call a direct predecessor of the second? On a sound table by the five sentences of
 * precedence, and false where one of the two is no call. On an unsound table the answer says nothing.
 */
bool oorlichday_precedes(const uint8_t *table, size_t table_len, size_t first, size_t second);

#ifdef __cplusplus
}
#endif

#endif
