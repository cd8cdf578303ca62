/* The text reader from C: refusals, sizes of text and buffer, the greatest text, any bytes. */
#include "../../include/oorlichday_desk.h"
#include "texts.h"

static uint8_t *first, *second;

static const char text[] =
    "cosim\t1\nunit\tpump\nunit\ttank\nout\tpump\tflow\nout\ttank\tlevel\n"
    "in\tpump\tlevel\tdelayed\nin\ttank\tflow\treactive\n"
    "join\tpump\tflow\ttank\tflow\njoin\ttank\tlevel\tpump\tlevel\n";
static const uint8_t a[] = { 2, 2, 2, 0, 0, 1, 0, 1, 0, 1, 1, 0 };

/* Reads into `room` bytes and tells whether number, place and the bytes written are these. */
static int reads(const void *bytes, size_t length, size_t room, unsigned number, size_t place,
                 const void *table, size_t written, int side)
{
    uint8_t *lent = lend_copy(first, bytes, length, side);
    uint8_t *out = lend(second, room, !side);
    struct oorlichday_reading answer = oorlichday_read(lent, length, out, room);
    return answer.number == number && answer.place == place &&
           memcmp(lent, bytes, length) == 0 && canaries(first, lent, length) &&
           canaries(second, out, written) && (written == 0 || memcmp(out, table, written) == 0);
}

/* A unit with an output and an input. */
#define UNIT "cosim\t1\nunit\ta\nout\ta\ty\nin\ta\tx\tdelayed\n"

static void refusals(int side)
{
    static const struct {
        const char *text;
        unsigned number;
        size_t line;
    } cases[] = {
        { "", 20, 0 },
        { "\n", 23, 1 },
        { "cosim\t1", 21, 1 },
        { "cosim\t1\nunit A\nunit\ta", 21, 3 },
        { "cosim\t1\nunit A\n", 22, 2 },
        { "cosim\t1\r\nunit\ta\r\n", 22, 1 },
        { "cosim\t2\n", 23, 1 },
        { "cosim\t1\n\n", 24, 2 },
        { "cosim\t1\ncosim\t1\n", 24, 2 },
        { "cosim\t1\nunit\n", 24, 2 },
        { "cosim\t1\nunit\t\n", 25, 2 },
        { "cosim\t1\nunit\tseventeen_letters\n", 25, 2 },
        { "cosim\t1\nin\tb\tx\tmaybe\n", 28, 2 },
        { "cosim\t1\nin\tb\tx\tdelayed\n", 27, 2 },
        { "cosim\t1\nunit\ta\nunit\ta\n", 26, 3 },
        { UNIT "join\ta\ty\ta\tx\njoin\ta\ty\ta\tx\n", 30, 6 },
        { UNIT "feed\ta\tx\ty\nfeed\ta\tx\ty\n", 32, 6 },
        { "cosim\t1\n", 33, 1 },
        { "cosim\t1\nunit\ta\nin\ta\tx\tdelayed\n", 31, 3 },
    };
    for (size_t k = 0; k < sizeof cases / sizeof cases[0]; k++)
        EXPECT(reads(cases[k].text, strlen(cases[k].text), 644, cases[k].number, cases[k].line,
                     NULL, 0, side));
}

static void sizes(int side)
{
    static char long_text[24578];
    memset(long_text, 'a', sizeof long_text);
    EXPECT(reads(long_text, 24576, 644, 21, 1, NULL, 0, side));
    EXPECT(reads(long_text, 24577, 644, 20, 0, NULL, 0, side));
    long_text[24575] = '\n';
    EXPECT(reads(long_text, 24576, 644, 23, 1, NULL, 0, side));
    EXPECT(oorlichday_read(nowhere, 0, nowhere, 0).number == 20);
    EXPECT(oorlichday_read(NULL, 0, NULL, 0).number == 20);
    EXPECT(oorlichday_read((const uint8_t *)text, sizeof text - 1, nowhere, 0).number == 34);
    EXPECT(oorlichday_read((const uint8_t *)text, sizeof text - 1, NULL, 0).number == 34);
    for (size_t room = 0; room < sizeof a + 3; room++)
        EXPECT(room < sizeof a ? reads(text, sizeof text - 1, room, 34, 0, NULL, 0, side)
                               : reads(text, sizeof text - 1, room, 0, 12, a, 12, side));
}

/* The greatest tables under the longest names, in buffers about their length. */
static void great(int side)
{
    static char long_text[OORLICHDAY_TEXT_MAX];
    uint8_t table[644];
    for (int reactive = 0; reactive < 2; reactive++) {
        size_t length = greatest_text(long_text, table, reactive);
        EXPECT(!reactive || length == GREATEST_TEXT);
        EXPECT(reads(long_text, length, 643, 34, 0, NULL, 0, side));
        EXPECT(reads(long_text, length, 644, 0, 644, table, 644, side));
        EXPECT(reads(long_text, length, 700, 0, 644, table, 644, side));
        EXPECT(reads(long_text, length - 1, 644, 21, 449, NULL, 0, side));
        for (size_t cut = 1; cut < length; cut += 997) {
            long_text[length - cut] ^= 0x80;
            size_t line = 1;
            for (size_t at = 0; at < length - cut; at++)
                line += long_text[at] == '\n';
            EXPECT(reads(long_text, length, 644, cut == 1 ? 21 : 22, line, NULL, 0, side));
            long_text[length - cut] ^= 0x80;
        }
    }
}

/* Bytes of any kind, and of the letters of a text below its first line. */
static void any_bytes(int side)
{
    static const char letters[] = "unitofedjcsm1\t\t\n\n_", header[] = "cosim\t1\n";
    uint8_t bytes[700];
    for (int round = 0; round < 2000; round++) {
        size_t length = some_bytes(bytes, sizeof bytes, round % 2 ? 256 : sizeof letters - 1);
        for (size_t at = 0; round % 2 == 0 && at < length; at++)
            bytes[at] = (uint8_t)(at < 8 ? header[at] : letters[bytes[at]]);
        uint8_t *lent = lend_copy(first, bytes, length, side);
        uint8_t *out = lend(second, 644, !side);
        struct oorlichday_reading answer = oorlichday_read(lent, length, out, 644);
        EXPECT(answer.number == 0 || (answer.number >= 20 && answer.number <= 33));
        EXPECT(answer.number == 0 || answer.place <= length + 1);
        EXPECT(canaries(second, out, answer.number == 0 ? answer.place : 0));
        EXPECT(memcmp(lent, bytes, length) == 0 && canaries(first, lent, length));
    }
}

/* Each text cut short is refused and leaves the buffer; one changed byte is answered. */
static void cuts(int side)
{
    char changed[sizeof text];
    for (size_t length = 0; length + 1 < sizeof text - 1; length++) {
        uint8_t *lent = lend_copy(first, text, length, side);
        uint8_t *out = lend(second, 644, side);
        struct oorlichday_reading answer = oorlichday_read(lent, length, out, 644);
        EXPECT(answer.number >= 20 || length >= 18);
        EXPECT(answer.number == 0 || canaries(second, out, 0));
    }
    for (int round = 0; round < 3000; round++) {
        memcpy(changed, text, sizeof text);
        changed[some_number() % (sizeof text - 1)] = (char)some_number();
        uint8_t *lent = lend_copy(first, changed, sizeof text - 1, side);
        uint8_t *out = lend(second, 644, side);
        struct oorlichday_reading answer = oorlichday_read(lent, sizeof text - 1, out, 644);
        EXPECT(answer.number == 0 ? answer.place == 12 && canaries(second, out, 12)
                                  : answer.number >= 20 && answer.number <= 34 &&
                                        answer.place <= 10 && canaries(second, out, 0));
    }
}

int main(void)
{
    first = pages(), second = pages();
    run("refusals", refusals);
    run("sizes of text and buffer", sizes);
    run("the greatest texts", great);
    run("texts cut or changed", cuts);
    run("any bytes", any_bytes);
    return report();
}
