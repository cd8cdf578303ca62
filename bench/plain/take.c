/* One call of a judged run, which goes by value. */
#include "judge.h"

struct plain_taken plain_take(const uint8_t *table, size_t table_len,
                              struct plain_run run, size_t call)
{
    struct plain_taken taken = { run, 0 };
    uint32_t answer = plain_check(table, table_len);
    if (answer >= 256) {
        taken.number = (uint8_t)(answer / 256);
        return taken;
    }
    struct table t = table_of(table);
    if (call >= calls_of(&t)) {
        taken.number = 11;
        return taken;
    }
    taken.number = (uint8_t)fault(&t, (const unsigned char *)run.done, (unsigned)call);
    if (taken.number == 0)
        taken.run.done[call] = true;
    return taken;
}
