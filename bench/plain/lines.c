/* One line of a text: its keyword, its names, then its own checks in the order written. */
#include <string.h>
#include "names.h"

static int same(struct field a, struct field b)
{
    return a.length == b.length && memcmp(a.bytes, b.bytes, a.length) == 0;
}

static int is_word(struct field a, const char *word)
{
    return a.length == strlen(word) && memcmp(a.bytes, word, a.length) == 0;
}

static int find_unit(const struct names *n, struct field name)
{
    for (unsigned u = 0; u < n->units; u++)
        if (same(n->unit[u], name))
            return (int)u;
    return -1;
}

static int find_port(const struct port *ports, unsigned count, int unit, struct field name)
{
    for (unsigned p = 0; p < count; p++)
        if ((int)ports[p].unit == unit && same(ports[p].name, name))
            return (int)p;
    return -1;
}

static unsigned unit_line(struct names *n, const struct field *f)
{
    if (find_unit(n, f[1]) >= 0)
        return 26;
    if (n->units == 32)
        return 29;
    n->unit[n->units++] = f[1];
    return 0;
}

/* One more port of the unit named by f[1], under the name f[2]. */
static unsigned port_line(const struct names *n, struct port *ports, unsigned *count,
                          const struct field *f, unsigned line)
{
    int unit = find_unit(n, f[1]);
    if (unit < 0)
        return 27;
    if (find_port(ports, *count, unit, f[2]) >= 0)
        return 26;
    if (*count == 96)
        return 29;
    ports[(*count)++] = (struct port){ f[2], (unsigned)unit, line };
    return 0;
}

static unsigned in_line(struct names *n, const struct field *f, unsigned line)
{
    int reactive = is_word(f[3], "reactive");
    if (!reactive && !is_word(f[3], "delayed"))
        return 28;
    unsigned input = n->inputs, number = port_line(n, n->input, &n->inputs, f, line);
    if (number != 0)
        return number;
    n->kind[input] = (uint8_t)reactive;
    n->joined[input] = 0;
    return 0;
}

static unsigned feed_line(struct names *n, const struct field *f)
{
    int unit = find_unit(n, f[1]);
    int input = unit < 0 ? -1 : find_port(n->input, n->inputs, unit, f[2]);
    int output = unit < 0 ? -1 : find_port(n->output, n->outputs, unit, f[3]);
    if (input < 0 || output < 0)
        return 27;
    for (unsigned k = 0; k < n->feeds; k++)
        if (n->feed[2 * k] == input && n->feed[2 * k + 1] == output)
            return 32;
    if (n->feeds == 128)
        return 29;
    n->feed[2 * n->feeds] = (uint8_t)input;
    n->feed[2 * n->feeds + 1] = (uint8_t)output;
    n->feeds++;
    return 0;
}

static unsigned join_line(struct names *n, const struct field *f)
{
    int from = find_unit(n, f[1]), to = find_unit(n, f[3]);
    int output = from < 0 ? -1 : find_port(n->output, n->outputs, from, f[2]);
    int input = to < 0 ? -1 : find_port(n->input, n->inputs, to, f[4]);
    if (output < 0 || input < 0)
        return 27;
    if (n->joined[input])
        return 30;
    n->joined[input] = 1;
    n->source[input] = (uint8_t)output;
    return 0;
}

static int names_fit(const struct field *f, unsigned count)
{
    for (unsigned k = 1; k <= count; k++)
        if (f[k].length < 1 || f[k].length > 16)
            return 0;
    return 1;
}

unsigned plain_line(struct names *n, const struct field *f, unsigned fields, unsigned line)
{
    if (is_word(f[0], "unit") && fields == 2)
        return names_fit(f, 1) ? unit_line(n, f) : 25;
    if (is_word(f[0], "out") && fields == 3)
        return names_fit(f, 2) ? port_line(n, n->output, &n->outputs, f, line) : 25;
    if (is_word(f[0], "in") && fields == 4)
        return names_fit(f, 2) ? in_line(n, f, line) : 25;
    if (is_word(f[0], "feed") && fields == 4)
        return names_fit(f, 3) ? feed_line(n, f) : 25;
    if (is_word(f[0], "join") && fields == 5)
        return names_fit(f, 4) ? join_line(n, f) : 25;
    return 24;
}
