/* The listing from C: one of each kind of answer, every buffer length, the greatest text, any bytes. */
#include "../../include/oorlichday_desk.h"
#include "texts.h"

static uint8_t *first, *second;

/* Lists into buffers of every length from 0 to past the whole. */
static void lists(const char *text, const char *listing, int side)
{
    size_t whole = strlen(listing);
    for (size_t room = 0; room < whole + 4; room++) {
        uint8_t *lent = lend_copy(first, text, strlen(text), side);
        uint8_t *out = lend(second, room, !side);
        struct oorlichday_reading answer = oorlichday_list(lent, strlen(text), out, room);
        size_t written = room < whole ? 0 : whole;
        EXPECT(answer.number == (room < whole ? 34 : 0) && answer.place == written);
        EXPECT(canaries(first, lent, strlen(text)) && canaries(second, out, written));
        EXPECT(memcmp(out, listing, written) == 0);
    }
}

static void orders(int side)
{
    lists("cosim\t1\nunit\tpump\nunit\ttank\nout\tpump\tflow\nout\ttank\tlevel\n"
          "in\tpump\tlevel\tdelayed\nin\ttank\tflow\treactive\n"
          "join\tpump\tflow\ttank\tflow\njoin\ttank\tlevel\tpump\tlevel\n",
          "order\t6\n0\tstep\tpump\t-\n1\tget\tpump\tflow\n2\tset\ttank\tflow\n"
          "3\tstep\ttank\t-\n4\tget\ttank\tlevel\n5\tset\tpump\tlevel\n", side);
}

static void cycles(int side)
{
    lists("cosim\t1\nunit\ta\nout\ta\ty\nin\ta\tx\treactive\njoin\ta\ty\ta\tx\n",
          "cycle\t3\n0\tstep\ta\t-\n1\tget\ta\ty\n2\tset\ta\tx\n", side);
}

static void refusals(int side)
{
    EXPECT(oorlichday_list(nowhere, 0, nowhere, 0).number == 34);
    EXPECT(oorlichday_list(NULL, 0, NULL, 0).number == 34);
    lists("", "refused\t20\t0\n", side);
    lists("cosim\t1\nunit\ta\nunit\ta\n", "refused\t26\t3\n", side);
}

/* How many lines there are. */
static size_t lines(const uint8_t *text, size_t length)
{
    size_t count = 0;
    for (size_t at = 0; at < length; at++)
        count += text[at] == '\n';
    return count;
}

/* All 224 calls under the longest names, in buffers about the listing's length. */
static void great(int side)
{
    static char text[OORLICHDAY_TEXT_MAX];
    uint8_t table[644];
    size_t length = greatest_text(text, table, 0);
    for (size_t room = OORLICHDAY_LISTING_MAX - 3; room < OORLICHDAY_LISTING_MAX + 3; room++) {
        uint8_t *lent = lend_copy(first, text, length, side);
        uint8_t *out = lend(second, room, !side);
        struct oorlichday_reading answer = oorlichday_list(lent, length, out, room);
        int fits = room >= OORLICHDAY_LISTING_MAX;
        size_t written = fits ? OORLICHDAY_LISTING_MAX : 0;
        EXPECT(answer.number == (fits ? 0 : 34) && answer.place == written);
        EXPECT(memcmp(lent, text, length) == 0 && canaries(first, lent, length));
        EXPECT(canaries(second, out, written) && lines(out, written) == (fits ? 225 : 0));
        EXPECT(!fits || memcmp(out, "order\t224\n0\tstep\ta_unit_number_00\t-\n", 36) == 0);
    }
    length = greatest_text(text, table, 1);
    uint8_t *out = lend(second, 10000, side);
    struct oorlichday_reading answer =
        oorlichday_list(lend_copy(first, text, length, side), length, out, 10000);
    EXPECT(answer.number == 0 && canaries(second, out, answer.place));
    EXPECT(memcmp(out, "cycle\t", 6) == 0);
}

/* Is it the one line of a refusal, and nothing else? */
static int is_refusal(const uint8_t *out, size_t length)
{
    char said[21] = "", again[40];
    unsigned number, line;
    memcpy(said, out, length < 20 ? length : 20);
    return sscanf(said, "refused\t%u\t%u", &number, &line) == 2 && number >= 20 && number < 34 &&
           (size_t)sprintf(again, "refused\t%u\t%u\n", number, line) == length &&
           strcmp(said, again) == 0;
}

static void any_bytes(int side)
{
    uint8_t bytes[700];
    for (int round = 0; round < 1000; round++) {
        size_t length = some_bytes(bytes, sizeof bytes, 256);
        uint8_t *lent = lend_copy(first, bytes, length, side);
        uint8_t *out = lend(second, 20, !side);
        struct oorlichday_reading answer = oorlichday_list(lent, length, out, 20);
        EXPECT(answer.number == 0 && canaries(second, out, answer.place));
        EXPECT(is_refusal(out, answer.place));
        EXPECT(memcmp(lent, bytes, length) == 0 && canaries(first, lent, length));
    }
}

int main(void)
{
    first = pages(), second = pages();
    run("an order in buffers of every length", orders);
    run("a cycle in buffers of every length", cycles);
    run("refusals in buffers of every length", refusals);
    run("the greatest texts", great);
    run("any bytes", any_bytes);
    return report();
}
