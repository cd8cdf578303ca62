/* The verdict on a given order, call by call. */
#include <string.h>
#include "judge.h"

uint32_t plain_verdict(const uint8_t *table, size_t table_len,
                       const uint8_t *order, size_t order_len)
{
    uint32_t answer = plain_check(table, table_len);
    unsigned char done[224];
    if (answer >= 256)
        return answer;
    struct table t = table_of(table);
    memset(done, 0, sizeof done);
    for (size_t place = 0; place < order_len; place++) {
        unsigned number = fault(&t, done, order[place]);
        if (number != 0)
            return 256 * number + (uint32_t)place;
        done[order[place]] = 1;
    }
    if (order_len < calls_of(&t))
        return 256 * 18 + (uint32_t)order_len;
    return answer;
}
