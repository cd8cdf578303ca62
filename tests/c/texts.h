/* The text of the greatest table, under names of 16 bytes. */
#ifndef TEXTS_H
#define TEXTS_H

#include "test.h"

enum { GREATEST_TEXT = 22952 };

/* The text that reads as `greatest(table, reactive)`; it is the greatest where that is reactive. */
static inline size_t greatest_text(char *text, uint8_t *table, int reactive)
{
    static const char unit[] = "a_unit_number_";
    static const char output[] = "output_number_", input[] = "_input_number_";
    const uint8_t *outputs = table + 4, *inputs = outputs + 96, *sources = inputs + 192;
    const uint8_t *feeds = sources + 96;
    char *at = text;
    greatest(table, reactive);
    at += sprintf(at, "cosim\t1\n");
    for (int u = 0; u < 32; u++)
        at += sprintf(at, "unit\t%s%02d\n", unit, u);
    for (int o = 0; o < 96; o++)
        at += sprintf(at, "out\t%s%02d\t%s%02d\n", unit, outputs[o], output, o);
    for (int i = 0; i < 96; i++)
        at += sprintf(at, "in\t%s%02d\t%s%02d\t%s\n", unit, inputs[i], input, i,
                      reactive ? "reactive" : "delayed");
    for (int f = 0; f < 128; f++)
        at += sprintf(at, "feed\t%s%02d\t%s%02d\t%s%02d\n", unit, inputs[feeds[2 * f]], input,
                      feeds[2 * f], output, feeds[2 * f + 1]);
    for (int i = 0; i < 96; i++)
        at += sprintf(at, "join\t%s%02d\t%s%02d\t%s%02d\t%s%02d\n", unit, outputs[sources[i]],
                      output, sources[i], unit, inputs[i], input, i);
    return (size_t)(at - text);
}

#endif
