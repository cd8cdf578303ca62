/* The order from C: SPECIFICATION, Examples; every buffer length, canaries, the greatest tables. */
#include "../../include/oorlichday.h"
#include "test.h"

static uint8_t *first, *second;

/* Orders into a buffer of `room` bytes, which must then hold `calls` and nothing else new. */
static uint32_t order(const void *table, size_t length, size_t room, const void *calls,
                      size_t written, int side)
{
    uint8_t *lent = lend_copy(first, table, length, side);
    uint8_t *out = lend(second, room, !side);
    uint32_t answer = oorlichday_order(lent, length, out, room);
    EXPECT(memcmp(lent, table, length) == 0 && canaries(first, lent, length));
    EXPECT(canaries(second, out, written) && (calls == NULL || memcmp(out, calls, written) == 0));
    return answer;
}

static void examples(int side)
{
    static const struct {
        size_t length;
        uint32_t answer;
        uint8_t table[16], calls[8];
    } cases[] = {
        { 12, 6, { 2, 2, 2, 0, 0, 1, 0, 1, 0, 1, 1, 0 }, { 0, 2, 5, 1, 3, 4 } },
        { 12, 256 * 9 + 6, { 2, 2, 2, 0, 0, 1, 0, 1, 1, 1, 1, 0 }, { 0, 2, 5, 1, 3, 4 } },
        { 12, 6, { 2, 2, 2, 0, 0, 1, 0, 1, 0, 0, 1, 0 }, { 0, 1, 2, 3, 4, 5 } },
        { 16, 256 * 9 + 4, { 2, 2, 2, 2, 0, 1, 0, 1, 0, 0, 1, 0, 0, 0, 1, 1 }, { 2, 5, 3, 4 } },
        { 14, 6, { 2, 2, 2, 1, 0, 1, 0, 1, 0, 0, 1, 0, 1, 1 }, { 0, 1, 2, 5, 3, 4 } },
        { 4, 1, { 1, 0, 0, 0 }, { 0 } },
        { 8, 3, { 1, 1, 1, 0, 0, 0, 0, 0 }, { 0, 1, 2 } },
        { 8, 256 * 9 + 3, { 1, 1, 1, 0, 0, 0, 1, 0 }, { 0, 1, 2 } },
        { 15, 256 * 9 + 3, { 3, 2, 3, 0, 1, 2, 1, 2, 0, 1, 1, 1, 0, 1, 1 }, { 2, 4, 6 } },
        { 4, 512, { 33, 0, 0, 0 }, { 0 } },
        { 3, 256, { 1, 0, 0 }, { 0 } },
    };
    for (size_t k = 0; k < sizeof cases / sizeof cases[0]; k++) {
        uint32_t answer = cases[k].answer;
        size_t written = answer < 256 || answer / 256 == 9 ? answer % 256 : 0;
        EXPECT(order(cases[k].table, cases[k].length, 224, cases[k].calls, written, side) ==
               answer);
    }
}

/* A table whose order or cycle is given, in buffers of every length from 0 to past N. */
static void rooms(const void *table, size_t length, uint32_t answer, const void *calls, unsigned n,
                  int side)
{
    for (size_t room = 0; room < n + 4u; room++) {
        uint32_t expected = room < n ? 256u * 8 : answer;
        size_t written = room < n ? 0 : answer % 256;
        EXPECT(order(table, length, room, calls, written, side) == expected);
    }
}

static void small(int side)
{
    static const uint8_t a[] = { 2, 2, 2, 0, 0, 1, 0, 1, 0, 1, 1, 0 };
    static const uint8_t both_fed[] = { 2, 2, 2, 2, 0, 1, 0, 1, 0, 0, 1, 0, 0, 0, 1, 1 };
    EXPECT(oorlichday_order(nowhere, 0, nowhere, 0) == 256);
    EXPECT(oorlichday_order(NULL, 0, NULL, 0) == 256);
    EXPECT(oorlichday_order(a, sizeof a, nowhere, 0) == 256 * 8);
    EXPECT(oorlichday_order(a, sizeof a, NULL, 0) == 256 * 8);
    rooms(a, sizeof a, 6, (uint8_t[]){ 0, 2, 5, 1, 3, 4 }, 6, side);
    rooms(both_fed, sizeof both_fed, 256 * 9 + 4, (uint8_t[]){ 2, 5, 3, 4 }, 6, side);
}

static void great(int side)
{
    uint8_t table[OORLICHDAY_TABLE_MAX], calls[OORLICHDAY_ORDER_MAX];
    size_t length = greatest(table, 0);
    EXPECT(oorlichday_order(table, length, calls, sizeof calls) == 224);
    rooms(table, length, 224, calls, 224, side);
    length = greatest(table, 1);
    uint32_t answer = oorlichday_order(table, length, calls, sizeof calls);
    EXPECT(answer / 256 == 9);
    rooms(table, length, answer, calls, 224, side);
}

static void any_bytes(int side)
{
    uint8_t table[700];
    for (int round = 0; round < 1000; round++) {
        size_t length = some_bytes(table, sizeof table, round % 2 ? 256 : 4);
        uint8_t *lent = lend_copy(first, table, length, side);
        uint8_t *out = lend(second, 224, side);
        uint32_t answer = oorlichday_order(lent, length, out, 224), number = answer / 256;
        EXPECT(number <= 9 && number != 8 && canaries(second, out, number % 9 ? 0 : answer % 256));
        EXPECT(memcmp(lent, table, length) == 0 && canaries(first, lent, length));
    }
}

int main(void)
{
    first = pages(), second = pages();
    run("examples of the document", examples);
    run("buffers of every length", small);
    run("the greatest tables in buffers of every length", great);
    run("any bytes", any_bytes);
    return report();
}
