/* A judged run from C: document 01's examples call by call, any state, any number, any bytes. */
#include "../../include/oorlichday.h"
#include "../../include/oorlichday_desk.h"
#include "test.h"

static uint8_t *first;

_Static_assert(sizeof(struct oorlichday_run) == 224, "a mark is a byte");
_Static_assert(offsetof(struct oorlichday_taken, number) == 224, "the number follows the run");

/* One call of the run at `run`, which is left as it is answered; a refusal leaves it alone. */
static unsigned take(const void *table, size_t length, struct oorlichday_run *run, size_t call,
                     int side)
{
    uint8_t *lent = lend_copy(first, table, length, side);
    struct oorlichday_taken taken = oorlichday_take(lent, length, *run, call);
    EXPECT(memcmp(lent, table, length) == 0 && canaries(first, lent, length));
    if (taken.number == 0) {
        EXPECT(call < 224 && !run->done[call]);
        run->done[call % 224] = true;
    }
    EXPECT(memcmp(run, &taken.run, sizeof *run) == 0);
    *run = taken.run;
    return taken.number;
}

/* A list of calls by a run of its own: the verdict that it comes to. */
static uint32_t judged(const void *table, size_t length, const uint8_t *calls, size_t count,
                       int side)
{
    struct oorlichday_run run = { { false } };
    uint32_t whole = oorlichday_check(table, length);
    for (size_t place = 0; place < count; place++) {
        unsigned number = take(table, length, &run, calls[place], side);
        if (number != 0)
            return 256 * number + (number < 8 ? 0 : (uint32_t)place);
    }
    return whole < 256 && count < whole ? 256 * 18 + (uint32_t)count : whole;
}

static const uint8_t a[] = { 2, 2, 2, 0, 0, 1, 0, 1, 0, 1, 1, 0 };

static void examples(int side)
{
    static const uint8_t c[] = { 2, 2, 2, 0, 0, 1, 0, 1, 0, 0, 1, 0 };
    static const uint8_t g[] = { 2, 2, 2, 1, 0, 1, 0, 1, 0, 0, 1, 0, 1, 1 };
    static const struct {
        const uint8_t *table;
        size_t length, count;
        uint32_t answer;
        uint8_t calls[8];
    } cases[] = {
        { a, 12, 6, 6, { 0, 2, 5, 1, 3, 4 } },
        { c, 12, 6, 6, { 1, 0, 3, 4, 2, 5 } },
        { g, 14, 3, 256 * 16 + 2, { 0, 1, 3 } },
        { a, 12, 2, 256 * 14 + 1, { 0, 1 } },
        { c, 12, 4, 256 * 13 + 3, { 0, 2, 5, 1 } },
        { a, 12, 3, 256 * 12 + 2, { 0, 2, 2 } },
        { a, 12, 2, 256 * 15 + 1, { 0, 3 } },
        { a, 12, 3, 256 * 17 + 2, { 0, 2, 4 } },
        { a, 12, 1, 256 * 11, { 6 } },
        { a, 12, 5, 256 * 18 + 5, { 0, 2, 5, 1, 3 } },
        { a, 12, 0, 256 * 18, { 0 } },
        { a, 12, 7, 256 * 12 + 6, { 0, 2, 5, 1, 3, 4, 0 } },
        { a, 11, 1, 256, { 0 } },
    };
    for (size_t k = 0; k < sizeof cases / sizeof cases[0]; k++) {
        EXPECT(judged(cases[k].table, cases[k].length, cases[k].calls, cases[k].count, side) ==
               cases[k].answer);
        EXPECT(oorlichday_verdict(cases[k].table, cases[k].length, cases[k].calls,
                                  cases[k].count) == cases[k].answer);
    }
}

/* States that no order leads to, marks above N, and an unsound table before all else. */
static void states(int side)
{
    struct oorlichday_run all, early = { { false } }, above = { { false } };
    memset(all.done, true, sizeof all.done);
    early.done[4] = true;
    above.done[6] = above.done[223] = true;
    EXPECT(take(a, sizeof a, &early, 0, side) == OORLICHDAY_DELAYED_SET);
    EXPECT(take(a, sizeof a, &above, 6, side) == OORLICHDAY_NO_CALL);
    EXPECT(take(a, sizeof a, &above, 223, side) == OORLICHDAY_NO_CALL);
    EXPECT(take(a, sizeof a, &above, 0, side) == OORLICHDAY_OK);
    for (size_t call = 0; call < 300; call++) {
        EXPECT(take(a, sizeof a, &all, call, side) ==
               (call < 6 ? OORLICHDAY_DONE_BEFORE : OORLICHDAY_NO_CALL));
        EXPECT(take(a, 11, &all, call, side) == OORLICHDAY_LENGTH);
    }
    EXPECT(oorlichday_take(nowhere, 0, all, 0).number == OORLICHDAY_LENGTH);
    EXPECT(oorlichday_take(NULL, 0, all, SIZE_MAX).number == OORLICHDAY_LENGTH);
}

/* Numbers that a byte, or a half word, would cut to a call. */
static void wide_numbers(int side)
{
    struct oorlichday_run run = { { false } };
    for (unsigned bit = 8; bit < 64; bit++)
        for (size_t call = 0; call < 6; call++)
            EXPECT(take(a, sizeof a, &run, ((size_t)1 << bit) + call, side) == OORLICHDAY_NO_CALL);
    for (size_t below = 0; below < 300; below++)
        EXPECT(take(a, sizeof a, &run, SIZE_MAX - below, side) == OORLICHDAY_NO_CALL);
    EXPECT(take(a, sizeof a, &run, 0, side) == OORLICHDAY_OK);
}

/* The greatest table call by call, and its verdict. */
static void great(int side)
{
    static const uint8_t turn[6] = { 0, 3, 4, 1, 2, 5 };
    uint8_t table[OORLICHDAY_TABLE_MAX], calls[OORLICHDAY_ORDER_MAX];
    size_t length = greatest(table, 0), count = 0;
    for (uint8_t unit = 0; unit < 32; unit++)
        calls[count++] = unit;
    for (uint8_t unit = 0; unit < 32; unit++)
        for (int k = 0; k < 6; k++)
            calls[count++] = (uint8_t)(32 + 3 * unit + turn[k] % 3 + (turn[k] < 3 ? 0 : 96));
    for (count = 0; count <= 224; count += 8)
        EXPECT(judged(table, length, calls, count, side) ==
               oorlichday_verdict(table, length, calls, count));
}

static void any_bytes(int side)
{
    uint8_t table[700], marks[225];
    for (int round = 0; round < 4000; round++) {
        struct oorlichday_run run = { { false } };
        size_t marked = some_bytes(marks, sizeof marks, 2);
        for (size_t call = 0; call < marked; call++)
            run.done[call] = marks[call];
        size_t length = some_bytes(table, sizeof table, round % 2 ? 256 : 4);
        unsigned number = take(table, length, &run, some_number() % 300, side);
        EXPECT(number <= 17 && (number <= 7 || number >= 11));
        number = take(a, sizeof a, &run, some_number() % 8, side);
        EXPECT(number == 0 || (number >= 11 && number <= 17));
    }
}

int main(void)
{
    first = pages();
    run("examples of the document, call by call", examples);
    run("states that no order leads to", states);
    run("numbers above a byte", wide_numbers);
    run("the greatest table", great);
    run("any bytes", any_bytes);
    return report();
}
