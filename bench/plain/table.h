/* Where the parts of a packed table stand. */
#ifndef PLAIN_TABLE_H
#define PLAIN_TABLE_H

#include "plain.h"

struct table {
    unsigned units, outputs, inputs, feeds;
    const uint8_t *output_owner, *input_owner, *kind, *source, *feed;
};

static inline struct table table_of(const uint8_t *bytes)
{
    struct table t = { bytes[0], bytes[1], bytes[2], bytes[3], NULL, NULL, NULL, NULL, NULL };
    t.output_owner = bytes + 4;
    t.input_owner = t.output_owner + t.outputs;
    t.kind = t.input_owner + t.inputs;
    t.source = t.kind + t.inputs;
    t.feed = t.source + t.inputs;
    return t;
}

static inline unsigned calls_of(const struct table *t)
{
    return t->units + t->outputs + t->inputs;
}

#endif
