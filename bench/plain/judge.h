/* The conditions of one call where these calls are done, one after the other. */
#ifndef PLAIN_JUDGE_H
#define PLAIN_JUDGE_H

#include "table.h"

static inline unsigned step_fault(const struct table *t, const unsigned char *set, unsigned unit)
{
    for (unsigned i = 0; i < t->inputs; i++)
        if (t->input_owner[i] == unit && t->kind[i] == 0 && set[i])
            return 13;
    for (unsigned i = 0; i < t->inputs; i++)
        if (t->input_owner[i] == unit && t->kind[i] == 1 && !set[i])
            return 14;
    return 0;
}

static inline unsigned get_fault(const struct table *t, const unsigned char *done, unsigned output)
{
    const unsigned char *set = done + t->units + t->outputs;
    if (!done[t->output_owner[output]])
        return 15;
    for (unsigned k = 0; k < t->feeds; k++)
        if (t->feed[2 * k + 1] == output && !set[t->feed[2 * k]])
            return 16;
    return 0;
}

static inline unsigned fault(const struct table *t, const unsigned char *done, unsigned call)
{
    unsigned get = t->units, set = t->units + t->outputs;
    if (call >= calls_of(t))
        return 11;
    if (done[call])
        return 12;
    if (call < get)
        return step_fault(t, done + set, call);
    if (call < set)
        return get_fault(t, done, call - get);
    return done[get + t->source[call - set]] ? 0 : 17;
}

#endif
