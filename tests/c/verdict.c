/* The verdict from C: SPECIFICATION, Examples; overlapping reads, any length, any bytes. */
#include "../../include/oorlichday.h"
#include "test.h"

static uint8_t *first, *second;

static uint32_t verdict(const void *table, size_t length, const void *calls, size_t count, int side)
{
    uint8_t *lent = lend_copy(first, table, length, side);
    uint8_t *order = lend_copy(second, calls, count, !side);
    uint32_t answer = oorlichday_verdict(lent, length, order, count);
    EXPECT(memcmp(lent, table, length) == 0 && canaries(first, lent, length));
    EXPECT(memcmp(order, calls, count) == 0 && canaries(second, order, count));
    return answer;
}

static void examples(int side)
{
    static const uint8_t a[] = { 2, 2, 2, 0, 0, 1, 0, 1, 0, 1, 1, 0 };
    static const uint8_t c[] = { 2, 2, 2, 0, 0, 1, 0, 1, 0, 0, 1, 0 };
    static const uint8_t g[] = { 2, 2, 2, 1, 0, 1, 0, 1, 0, 0, 1, 0, 1, 1 };
    static const struct {
        const uint8_t *table;
        size_t length, count;
        unsigned number, place;
        uint8_t calls[8];
    } cases[] = {
        { a, 12, 6, 0, 6, { 0, 2, 5, 1, 3, 4 } },
        { c, 12, 6, 0, 6, { 1, 0, 3, 4, 2, 5 } },
        { g, 14, 3, 16, 2, { 0, 1, 3 } },
        { a, 12, 2, 14, 1, { 0, 1 } },
        { c, 12, 4, 13, 3, { 0, 2, 5, 1 } },
        { a, 12, 3, 12, 2, { 0, 2, 2 } },
        { a, 12, 2, 15, 1, { 0, 3 } },
        { a, 12, 3, 17, 2, { 0, 2, 4 } },
        { a, 12, 1, 11, 0, { 6 } },
        { a, 12, 1, 11, 0, { 255 } },
        { a, 12, 5, 18, 5, { 0, 2, 5, 1, 3 } },
        { a, 12, 0, 18, 0, { 0 } },
        { a, 12, 7, 12, 6, { 0, 2, 5, 1, 3, 4, 4 } },
        { a, 12, 7, 11, 6, { 0, 2, 5, 1, 3, 4, 6 } },
        { a, 11, 0, 1, 0, { 0 } },
        { a, 0, 0, 1, 0, { 0 } },
    };
    EXPECT(oorlichday_verdict(nowhere, 0, nowhere, 0) == 256);
    EXPECT(oorlichday_verdict(NULL, 0, NULL, 0) == 256);
    EXPECT(oorlichday_verdict(a, sizeof a, nowhere, 0) == 256 * 18);
    EXPECT(oorlichday_verdict(a, sizeof a, NULL, 0) == 256 * 18);
    for (size_t k = 0; k < sizeof cases / sizeof cases[0]; k++)
        EXPECT(verdict(cases[k].table, cases[k].length, cases[k].calls, cases[k].count, side) ==
               256 * cases[k].number + cases[k].place);
}

/* Steps, then outputs and inputs unit by unit: passes where all inputs are delayed. */
static void great(int side)
{
    uint8_t table[OORLICHDAY_TABLE_MAX], calls[OORLICHDAY_ORDER_MAX + 300] = { 0 };
    size_t length = greatest(table, 0), count = 0;
    static const uint8_t turn[6] = { 0, 3, 4, 1, 2, 5 };
    for (uint8_t unit = 0; unit < 32; unit++)
        calls[count++] = unit;
    for (uint8_t unit = 0; unit < 32; unit++)
        for (int k = 0; k < 6; k++)
            calls[count++] = (uint8_t)(32 + 3 * unit + turn[k] % 3 + (turn[k] < 3 ? 0 : 96));
    for (size_t shorter = 0; shorter <= 224; shorter++)
        EXPECT(verdict(table, length, calls, shorter, side) ==
               (shorter == 224 ? 224 : 256 * 18 + shorter));
    for (size_t longer = 225; longer <= sizeof calls; longer += 7)
        EXPECT(verdict(table, length, calls, longer, side) == 256 * 12 + 224);
}

/* The order begins with the table's last byte, is the table, or is part of it, and is judged. */
static void shared(int side)
{
    static const uint8_t a[] = { 2, 2, 2, 0, 0, 1, 0, 1, 0, 1, 1, 0, 2, 5, 1, 3, 4 };
    static const uint8_t one[] = { 1, 0, 0, 0 };
    uint8_t *lent = lend_copy(first, a, sizeof a, side);
    EXPECT(oorlichday_verdict(lent, 12, lent + 11, 6) == 6);
    EXPECT(oorlichday_verdict(lent, 12, lent, 12) == 256 * 15);
    EXPECT(oorlichday_verdict(lent, 12, lent + 12, 5) == 256 * 15);
    lent = lend_copy(first, one, sizeof one, side);
    EXPECT(oorlichday_verdict(lent, 4, lent + 3, 1) == 1);
    EXPECT(oorlichday_verdict(lent, 4, lent + 2, 2) == 256 * 12 + 1);
    EXPECT(oorlichday_verdict(lent, 4, lent, 4) == 256 * 11);
}

/* The order is any stretch of bytes in which the table lies: judged as a copy of it is. */
static void overlapping(int side)
{
    enum { ROUND_IT = 40, WHOLE = ROUND_IT + OORLICHDAY_TABLE_MAX + ROUND_IT };
    uint8_t bytes[WHOLE], copy[WHOLE];
    for (size_t at = 0; at < WHOLE; at++)
        bytes[at] = (uint8_t)(some_number() % 224);
    size_t length = greatest(bytes + ROUND_IT, 0);
    memcpy(copy, bytes, WHOLE);
    uint8_t *lent = lend_copy(first, bytes, WHOLE, side);
    for (int round = 0; round < 3000; round++) {
        size_t from = some_number() % (WHOLE + 1), count = some_number() % (WHOLE + 1 - from);
        EXPECT(oorlichday_verdict(lent + ROUND_IT, length, lent + from, count) ==
               oorlichday_verdict(bytes + ROUND_IT, length, copy + from, count));
    }
    EXPECT(memcmp(lent, bytes, WHOLE) == 0 && canaries(first, lent, WHOLE));
}

static void any_bytes(int side)
{
    static const uint8_t a[] = { 2, 2, 2, 0, 0, 1, 0, 1, 0, 1, 1, 0 };
    uint8_t table[700], calls[300];
    for (int round = 0; round < 2000; round++) {
        size_t count = some_bytes(calls, sizeof calls, round % 2 ? 256 : 7);
        uint32_t answer = verdict(a, sizeof a, calls, count, side);
        EXPECT(answer == 6 || (answer / 256 >= 11 && answer / 256 <= 18 && answer % 256 <= 6));
        size_t length = some_bytes(table, sizeof table, round % 2 ? 256 : 4);
        answer = verdict(table, length, calls, count, side);
        EXPECT(answer % 256 == 0 || answer < 225 || answer / 256 >= 11);
        EXPECT(answer / 256 <= 18 && (answer / 256 <= 7 || answer / 256 >= 11));
    }
}

int main(void)
{
    first = pages(), second = pages();
    run("examples of the document", examples);
    run("the greatest table by orders of every length", great);
    run("table and order share bytes", shared);
    run("the greatest table within the order", overlapping);
    run("any bytes", any_bytes);
    return report();
}
