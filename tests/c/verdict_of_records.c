/* The verdict on records from C: document 01's examples, no calls, overlapping reads, any length, any bytes. */
#include "../../include/oorlichday.h"
#include "test.h"

static uint8_t *first, *second;

_Static_assert(sizeof(struct oorlichday_record) == 2, "a record is two bytes");

static uint32_t verdict(const void *table, size_t length, const struct oorlichday_record *records,
                        size_t count, int side)
{
    size_t size = count * sizeof *records;
    uint8_t *lent = lend_copy(first, table, length, side);
    uint8_t *given = lend_copy(second, records, size, !side);
    uint32_t answer = oorlichday_verdict_of_records(
        lent, length, (const struct oorlichday_record *)given, count);
    EXPECT(memcmp(lent, table, length) == 0 && canaries(first, lent, length));
    EXPECT(memcmp(given, records, size) == 0 && canaries(second, given, size));
    return answer;
}

static const uint8_t a[] = { 2, 2, 2, 0, 0, 1, 0, 1, 0, 1, 1, 0 };

/* The judging examples, each call as kind and number. */
static void examples(int side)
{
    static const uint8_t c[] = { 2, 2, 2, 0, 0, 1, 0, 1, 0, 0, 1, 0 };
    static const uint8_t g[] = { 2, 2, 2, 1, 0, 1, 0, 1, 0, 0, 1, 0, 1, 1 };
    static const struct {
        const uint8_t *table;
        size_t length, count;
        unsigned number, place;
        struct oorlichday_record records[8];
    } cases[] = {
        { a, 12, 6, 0, 6, { { 0, 0 }, { 1, 0 }, { 2, 1 }, { 0, 1 }, { 1, 1 }, { 2, 0 } } },
        { c, 12, 6, 0, 6, { { 0, 1 }, { 0, 0 }, { 1, 1 }, { 2, 0 }, { 1, 0 }, { 2, 1 } } },
        { g, 14, 3, 16, 2, { { 0, 0 }, { 0, 1 }, { 1, 1 } } },
        { a, 12, 2, 14, 1, { { 0, 0 }, { 0, 1 } } },
        { c, 12, 4, 13, 3, { { 0, 0 }, { 1, 0 }, { 2, 1 }, { 0, 1 } } },
        { a, 12, 3, 12, 2, { { 0, 0 }, { 1, 0 }, { 1, 0 } } },
        { a, 12, 2, 15, 1, { { 0, 0 }, { 1, 1 } } },
        { a, 12, 3, 17, 2, { { 0, 0 }, { 1, 0 }, { 2, 0 } } },
        { a, 12, 5, 18, 5, { { 0, 0 }, { 1, 0 }, { 2, 1 }, { 0, 1 }, { 1, 1 } } },
        { a, 12, 0, 18, 0, { { 0, 0 } } },
        { a, 12, 7, 12, 6, { { 0, 0 }, { 1, 0 }, { 2, 1 }, { 0, 1 }, { 1, 1 }, { 2, 0 }, { 2, 0 } } },
        { a, 12, 1, 11, 0, { { 0, 2 } } },
        { a, 12, 1, 11, 0, { { 1, 2 } } },
        { a, 12, 1, 11, 0, { { 2, 2 } } },
        { a, 12, 1, 11, 0, { { 3, 0 } } },
        { a, 12, 2, 11, 1, { { 0, 0 }, { 255, 0 } } },
        { a, 12, 2, 11, 1, { { 0, 0 }, { 0, 255 } } },
        { a, 11, 1, 1, 0, { { 3, 0 } } },
        { a, 11, 0, 1, 0, { { 0, 0 } } },
    };
    for (size_t k = 0; k < sizeof cases / sizeof cases[0]; k++)
        EXPECT(verdict(cases[k].table, cases[k].length, cases[k].records, cases[k].count, side) ==
               256 * cases[k].number + cases[k].place);
    const struct oorlichday_record *none = (const struct oorlichday_record *)nowhere;
    EXPECT(oorlichday_verdict_of_records(nowhere, 0, none, 0) == 256);
    EXPECT(oorlichday_verdict_of_records(NULL, 0, NULL, 0) == 256);
    EXPECT(oorlichday_verdict_of_records(a, sizeof a, none, 0) == 256 * 18);
    EXPECT(oorlichday_verdict_of_records(a, sizeof a, NULL, 0) == 256 * 18);
}

/* One record of each kind, and of kinds that there are not, with every number: a call of the table, or 11 at 0. */
static void every_record(int side)
{
    static const unsigned answers[3][2] = { { 18, 14 }, { 15, 15 }, { 17, 17 } };
    static const uint8_t kinds[] = { 0, 1, 2, 3, 4, 127, 128, 254, 255 };
    for (size_t k = 0; k < sizeof kinds; k++)
        for (unsigned number = 0; number < 256; number++) {
            struct oorlichday_record one = { kinds[k], (uint8_t)number };
            unsigned expected = kinds[k] < 3 && number < 2 ? answers[kinds[k]][number] : 11;
            EXPECT(verdict(a, sizeof a, &one, 1, side) ==
                   256 * expected + (expected == 18 ? 1 : 0));
        }
}

/* Steps, then outputs and inputs unit by unit: passes where all inputs are delayed. */
static void great(int side)
{
    static struct oorlichday_record records[OORLICHDAY_ORDER_MAX + 300];
    static const uint8_t turn[6] = { 0, 3, 4, 1, 2, 5 };
    uint8_t table[OORLICHDAY_TABLE_MAX];
    size_t length = greatest(table, 0), count = 0;
    for (uint8_t unit = 0; unit < 32; unit++)
        records[count++] = (struct oorlichday_record){ OORLICHDAY_STEP, unit };
    for (uint8_t unit = 0; unit < 32; unit++)
        for (int k = 0; k < 6; k++) {
            uint8_t kind = turn[k] < 3 ? OORLICHDAY_GET : OORLICHDAY_SET;
            uint8_t number = (uint8_t)(3 * unit + turn[k] % 3);
            records[count++] = (struct oorlichday_record){ kind, number };
        }
    for (size_t shorter = 0; shorter <= 224; shorter++)
        EXPECT(verdict(table, length, records, shorter, side) ==
               (shorter == 224 ? 224 : 256 * 18 + shorter));
    for (size_t longer = 225; longer <= sizeof records / sizeof records[0]; longer += 7)
        EXPECT(verdict(table, length, records, longer, side) == 256 * 12 + 224);
}

/* The records are any stretch of bytes in which the table lies: judged as a copy of it is. */
static void overlapping(int side)
{
    enum { ROUND_IT = 41, WHOLE = ROUND_IT + OORLICHDAY_TABLE_MAX + ROUND_IT };
    uint8_t bytes[WHOLE], copy[WHOLE];
    for (size_t at = 0; at < WHOLE; at++)
        bytes[at] = (uint8_t)(some_number() % (at % 2 ? 3 : 97));
    size_t length = greatest(bytes + ROUND_IT, 0);
    memcpy(copy, bytes, WHOLE);
    uint8_t *lent = lend_copy(first, bytes, WHOLE, side);
    for (int round = 0; round < 3000; round++) {
        size_t from = some_number() % (WHOLE + 1), count = some_number() % ((WHOLE - from) / 2 + 1);
        EXPECT(oorlichday_verdict_of_records(lent + ROUND_IT, length,
                                             (const struct oorlichday_record *)(lent + from), count) ==
               oorlichday_verdict_of_records(bytes + ROUND_IT, length,
                                             (const struct oorlichday_record *)(copy + from), count));
    }
    EXPECT(memcmp(lent, bytes, WHOLE) == 0 && canaries(first, lent, WHOLE));
}

static void any_bytes(int side)
{
    uint8_t table[700], bytes[600];
    const struct oorlichday_record *records = (const struct oorlichday_record *)bytes;
    for (int round = 0; round < 2000; round++) {
        size_t count = some_bytes(bytes, sizeof bytes, round % 2 ? 256 : 4) / 2;
        uint32_t answer = verdict(a, sizeof a, records, count, side);
        EXPECT(answer == 6 || (answer / 256 >= 11 && answer / 256 <= 18 && answer % 256 <= 6));
        size_t length = some_bytes(table, sizeof table, round % 2 ? 256 : 4);
        answer = verdict(table, length, records, count, side);
        EXPECT(answer % 256 == 0 || answer < 225 || answer / 256 >= 11);
        EXPECT(answer / 256 <= 18 && (answer / 256 <= 7 || answer / 256 >= 11));
    }
}

int main(void)
{
    first = pages(), second = pages();
    run("examples of the document", examples);
    run("every kind and number", every_record);
    run("the greatest table by lists of every length", great);
    run("the greatest table within the records", overlapping);
    run("any bytes", any_bytes);
    return report();
}
