/* Precedence from C: the five sentences on document 01's tables, the greatest table, any bytes. */
#include "../../include/oorlichday.h"
#include "../../include/oorlichday_desk.h"
#include "test.h"

static uint8_t *first;

/* The answer, which must be a byte of 0 or 1. */
static unsigned precedes(const void *table, size_t length, size_t before, size_t after, int side)
{
    uint8_t *lent = lend_copy(first, table, length, side), byte;
    bool answer = oorlichday_precedes(lent, length, before, after);
    memcpy(&byte, &answer, 1);
    EXPECT(memcmp(lent, table, length) == 0 && canaries(first, lent, length));
    EXPECT(byte < 2);
    return byte;
}

/* The direct predecessors of each call of a table of six calls, as bits. */
struct known {
    size_t length;
    uint8_t table[16], before[6];
};

static const struct known tables[] = {
    /* A, both reactive, C, C with both feeds, G */
    { 12, { 2, 2, 2, 0, 0, 1, 0, 1, 0, 1, 1, 0 }, { 0, 32, 1, 2, 8 + 1, 4 } },
    { 12, { 2, 2, 2, 0, 0, 1, 0, 1, 1, 1, 1, 0 }, { 16, 32, 1, 2, 8, 4 } },
    { 12, { 2, 2, 2, 0, 0, 1, 0, 1, 0, 0, 1, 0 }, { 0, 0, 1, 2, 8 + 1, 4 + 2 } },
    { 16, { 2, 2, 2, 2, 0, 1, 0, 1, 0, 0, 1, 0, 0, 0, 1, 1 },
      { 0, 0, 1 + 16, 2 + 32, 8 + 1, 4 + 2 } },
    { 14, { 2, 2, 2, 1, 0, 1, 0, 1, 0, 0, 1, 0, 1, 1 }, { 0, 0, 1, 2 + 32, 8 + 1, 4 + 2 } },
};

static void examples(int side)
{
    for (size_t k = 0; k < sizeof tables / sizeof tables[0]; k++)
        for (size_t before = 0; before < 300; before++)
            for (size_t after = 0; after < 9; after++)
                EXPECT(precedes(tables[k].table, tables[k].length, before, after, side) ==
                       (before < 6 && after < 6 && (tables[k].before[after] >> before & 1)));
    EXPECT(!oorlichday_precedes(nowhere, 0, 0, 0) && !oorlichday_precedes(NULL, 0, 0, 0));
}

static void wide_numbers(int side)
{
    for (unsigned bit = 8; bit < 64; bit++) {
        EXPECT(!precedes(tables[0].table, 12, (size_t)1 << bit, 2, side));
        EXPECT(!precedes(tables[0].table, 12, 0, ((size_t)1 << bit) + 2, side));
    }
    EXPECT(!precedes(tables[0].table, 12, SIZE_MAX, SIZE_MAX, side));
    EXPECT(!precedes(tables[0].table, 12, 0, SIZE_MAX, side));
}

/* Every pair of the greatest table: each get waits for its step and its feeds, each set for its
   get and, where it is delayed, for its step. */
static void great(int side)
{
    uint8_t table[OORLICHDAY_TABLE_MAX];
    for (int reactive = 0; reactive < 2; reactive++) {
        size_t length = greatest(table, reactive), count = 0;
        uint8_t *lent = lend_copy(first, table, length, side);
        for (size_t before = 0; before < 226; before++)
            for (size_t after = 0; after < 226; after++)
                count += oorlichday_precedes(lent, length, before, after);
        EXPECT(count == 96 + 96 + 128 + 96);
        EXPECT(memcmp(lent, table, length) == 0 && canaries(first, lent, length));
    }
}

static void any_bytes(int side)
{
    uint8_t table[700];
    for (int round = 0; round < 4000; round++) {
        size_t length = some_bytes(table, sizeof table, round % 2 ? 256 : 6);
        size_t before = some_number() % 300, after = some_number() % 300;
        unsigned answer = precedes(table, length, before, after, side);
        EXPECT(answer == precedes(table, length, before, after, !side));
    }
}

int main(void)
{
    first = pages();
    run("tables of the document", examples);
    run("numbers above a byte", wide_numbers);
    run("every pair of the greatest table", great);
    run("any bytes", any_bytes);
    return report();
}
