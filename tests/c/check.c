/* The check from C: SPECIFICATION, Examples; buffers at page ends, the greatest table, any bytes. */
#include "../../include/oorlichday.h"
#include "test.h"

static uint8_t *first;

static uint32_t check(const void *table, size_t length, int side)
{
    uint8_t *lent = lend_copy(first, table, length, side);
    uint32_t answer = oorlichday_check(lent, length);
    EXPECT(memcmp(lent, table, length) == 0 && canaries(first, lent, length));
    return answer;
}

static void examples(int side)
{
    static const struct {
        size_t length;
        uint32_t answer;
        uint8_t table[16];
    } cases[] = {
        { 12, 6, { 2, 2, 2, 0, 0, 1, 0, 1, 0, 1, 1, 0 } },
        { 4, 1, { 1, 0, 0, 0 } },
        { 4, 32, { 32, 0, 0, 0 } },
        { 4, 512, { 33, 0, 0, 0 } },
        { 5, 512, { 33, 0, 0, 0, 0 } },
        { 3, 256, { 33, 0, 0 } },
        { 4, 512, { 0, 0, 0, 0 } },
        { 5, 256, { 1, 0, 0, 0, 0 } },
        { 8, 3, { 1, 1, 1, 0, 0, 0, 0, 0 } },
        { 8, 768, { 1, 1, 1, 0, 1, 0, 0, 0 } },
        { 8, 768, { 1, 1, 1, 0, 0, 1, 2, 1 } },
        { 8, 1024, { 1, 1, 1, 0, 0, 0, 2, 1 } },
        { 8, 1280, { 1, 1, 1, 0, 0, 0, 0, 1 } },
        { 7, 1280, { 1, 0, 1, 0, 0, 0, 0 } },
        { 6, 1536, { 1, 0, 0, 1, 0, 0 } },
        { 12, 1792, { 1, 1, 1, 2, 0, 0, 0, 0, 0, 0, 0, 0 } },
        { 12, 1536, { 1, 1, 1, 2, 0, 0, 0, 0, 0, 1, 0, 0 } },
    };
    for (size_t k = 0; k < sizeof cases / sizeof cases[0]; k++)
        EXPECT(check(cases[k].table, cases[k].length, side) == cases[k].answer);
}

static void lengths(int side)
{
    uint8_t table[700] = { 0 };
    size_t whole = greatest(table, 0);
    EXPECT(whole == OORLICHDAY_TABLE_MAX);
    for (size_t length = 0; length <= sizeof table; length++)
        EXPECT(check(table, length, side) == (length == whole ? 224u : 256u));
    EXPECT(oorlichday_check(nowhere, 0) == 256 && oorlichday_check(NULL, 0) == 256);
}

static void any_bytes(int side)
{
    uint8_t table[700];
    for (int round = 0; round < 2000; round++) {
        size_t length = some_bytes(table, sizeof table, round % 2 ? 256 : 8);
        uint32_t answer = check(table, length, side);
        EXPECT(answer < 256 * 8 && (answer < 225 || answer % 256 == 0));
    }
}

int main(void)
{
    first = pages();
    run("examples of the document", examples);
    run("the greatest table at every length", lengths);
    run("any bytes", any_bytes);
    return report();
}
