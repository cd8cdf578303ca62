/* The check of a packed table, one loop for each rule. */
#include "table.h"

static int all_below(const uint8_t *bytes, unsigned count, unsigned bound)
{
    for (unsigned i = 0; i < count; i++)
        if (bytes[i] >= bound)
            return 0;
    return 1;
}

static unsigned feeds_fault(const struct table *t)
{
    for (unsigned k = 0; k < t->feeds; k++) {
        unsigned input = t->feed[2 * k], output = t->feed[2 * k + 1];
        if (input >= t->inputs || output >= t->outputs ||
            t->input_owner[input] != t->output_owner[output])
            return 6;
        for (unsigned j = 0; j < k; j++)
            if (t->feed[2 * j] == input && t->feed[2 * j + 1] == output)
                return 7;
    }
    return 0;
}

uint32_t plain_check(const uint8_t *table, size_t table_len)
{
    if (table_len < 4)
        return 256 * 1;
    struct table t = table_of(table);
    if (t.units < 1 || t.units > 32 || t.outputs > 96 || t.inputs > 96 || t.feeds > 128)
        return 256 * 2;
    if (table_len != 4 + t.outputs + 3 * t.inputs + 2 * t.feeds)
        return 256 * 1;
    if (!all_below(t.output_owner, t.outputs, t.units) ||
        !all_below(t.input_owner, t.inputs, t.units))
        return 256 * 3;
    if (!all_below(t.kind, t.inputs, 2))
        return 256 * 4;
    if (!all_below(t.source, t.inputs, t.outputs))
        return 256 * 5;
    unsigned number = feeds_fault(&t);
    return number != 0 ? 256 * number : calls_of(&t);
}
