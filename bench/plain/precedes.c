/* Whether one call is a direct predecessor of another, by their kinds; no where the length is wrong. */
#include "table.h"

static bool is_feed(const struct table *t, unsigned input, unsigned output)
{
    for (unsigned k = 0; k < t->feeds; k++)
        if (t->feed[2 * k] == input && t->feed[2 * k + 1] == output)
            return true;
    return false;
}

static bool step_precedes(const struct table *t, unsigned unit, unsigned second)
{
    unsigned get = t->units, set = t->units + t->outputs;
    if (second < get)
        return false;
    if (second < set)
        return t->output_owner[second - get] == unit;
    return t->input_owner[second - set] == unit && t->kind[second - set] == 0;
}

static bool set_precedes(const struct table *t, unsigned input, unsigned second)
{
    unsigned get = t->units, set = t->units + t->outputs;
    if (second < get)
        return t->input_owner[input] == second && t->kind[input] == 1;
    return second < set && is_feed(t, input, second - get);
}

bool plain_precedes(const uint8_t *table, size_t table_len, size_t first, size_t second)
{
    if (table_len < 4)
        return false;
    struct table t = table_of(table);
    if (table_len != 4 + t.outputs + 3 * t.inputs + 2 * t.feeds)
        return false;
    unsigned get = t.units, set = t.units + t.outputs;
    if (first >= calls_of(&t) || second >= calls_of(&t))
        return false;
    if (first < get)
        return step_precedes(&t, (unsigned)first, (unsigned)second);
    if (first < set)
        return second >= set && t.source[second - set] == first - get;
    return set_precedes(&t, (unsigned)first - set, (unsigned)second);
}
