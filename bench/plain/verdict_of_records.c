/* The verdict on a list of records: each one's call number, judged in turn. */
#include <string.h>
#include "judge.h"

/* A record's call number; N, which is no call, where it has none. */
static unsigned number_of(const struct table *t, struct plain_record given)
{
    if (given.kind == 0 && given.number < t->units)
        return given.number;
    if (given.kind == 1 && given.number < t->outputs)
        return t->units + given.number;
    if (given.kind == 2 && given.number < t->inputs)
        return t->units + t->outputs + given.number;
    return calls_of(t);
}

uint32_t plain_verdict_of_records(const uint8_t *table, size_t table_len,
                                  const struct plain_record *records, size_t count)
{
    uint32_t answer = plain_check(table, table_len);
    unsigned char done[224];
    if (answer >= 256)
        return answer;
    struct table t = table_of(table);
    memset(done, 0, sizeof done);
    for (size_t place = 0; place < count; place++) {
        unsigned call = number_of(&t, records[place]), number = fault(&t, done, call);
        if (number != 0)
            return 256 * number + (uint32_t)place;
        done[call] = 1;
    }
    if (count < calls_of(&t))
        return 256 * 18 + (uint32_t)count;
    return answer;
}
