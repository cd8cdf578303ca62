/* The text reader: checks over the whole text, the fields of each line, the packed table. */
#include <string.h>
#include "names.h"

/* The fields of one line, at most FIELDS_MAX of them, and where the next line begins. */
static size_t split(const uint8_t *text, size_t at, struct field *f, unsigned *fields)
{
    size_t from = at;
    *fields = 0;
    for (;; at++)
        if (text[at] == '\t' || text[at] == '\n') {
            if (*fields < FIELDS_MAX)
                f[(*fields)++] = (struct field){ text + from, at - from };
            from = at + 1;
            if (text[at] == '\n')
                return at + 1;
        }
}

static int allowed(uint8_t b)
{
    return (b >= 'a' && b <= 'z') || (b >= '0' && b <= '9') || b == '_' || b == '\t' || b == '\n';
}

static struct plain_reading whole(const uint8_t *text, size_t text_len)
{
    size_t line = 1;
    if (text_len == 0 || text_len > TEXT_LIMIT)
        return (struct plain_reading){ 20, 0 };
    if (text[text_len - 1] != '\n') {
        for (size_t at = 0; at < text_len; at++)
            line += text[at] == '\n';
        return (struct plain_reading){ 21, line };
    }
    for (size_t at = 0; at < text_len; at++) {
        if (!allowed(text[at]))
            return (struct plain_reading){ 22, line };
        line += text[at] == '\n';
    }
    return (struct plain_reading){ 0, 0 };
}

struct plain_reading plain_names(const uint8_t *text, size_t text_len, struct names *names)
{
    struct plain_reading answer = whole(text, text_len);
    struct field f[FIELDS_MAX];
    unsigned fields, line = 2;
    if (answer.number != 0)
        return answer;
    names->units = names->outputs = names->inputs = names->feeds = 0;
    if (text_len < 8 || memcmp(text, "cosim\t1\n", 8) != 0)
        return (struct plain_reading){ 23, 1 };
    for (size_t at = 8; at < text_len; line++) {
        at = split(text, at, f, &fields);
        unsigned number = plain_line(names, f, fields, line);
        if (number != 0)
            return (struct plain_reading){ (uint8_t)number, line };
    }
    if (names->units == 0)
        return (struct plain_reading){ 33, 1 };
    for (unsigned i = 0; i < names->inputs; i++)
        if (!names->joined[i])
            return (struct plain_reading){ 31, names->input[i].line };
    return answer;
}

size_t plain_packed_length(const struct names *n)
{
    return 4 + n->outputs + 3 * (size_t)n->inputs + 2 * (size_t)n->feeds;
}

void plain_pack(const struct names *n, uint8_t *table)
{
    const uint8_t counts[4] = { (uint8_t)n->units, (uint8_t)n->outputs, (uint8_t)n->inputs,
                                (uint8_t)n->feeds };
    uint8_t *at = table + 4;
    memcpy(table, counts, 4);
    for (unsigned o = 0; o < n->outputs; o++)
        *at++ = (uint8_t)n->output[o].unit;
    for (unsigned i = 0; i < n->inputs; i++)
        *at++ = (uint8_t)n->input[i].unit;
    memcpy(at, n->kind, n->inputs);
    memcpy(at + n->inputs, n->source, n->inputs);
    memcpy(at + 2 * (size_t)n->inputs, n->feed, 2 * (size_t)n->feeds);
}

struct plain_reading plain_read(const uint8_t *text, size_t text_len,
                                uint8_t *table, size_t table_len)
{
    struct names names;
    struct plain_reading answer = plain_names(text, text_len, &names);
    if (answer.number != 0)
        return answer;
    answer.place = plain_packed_length(&names);
    if (answer.place > table_len)
        return (struct plain_reading){ 34, 0 };
    plain_pack(&names, table);
    return answer;
}
