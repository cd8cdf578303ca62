/* The listing of a text: its order or cycle with the text's names, or its refusal. */
#include <string.h>
#include "names.h"

struct lines {
    size_t length;
    uint8_t bytes[16384];
};

static void put(struct lines *l, const void *bytes, size_t count)
{
    memcpy(l->bytes + l->length, bytes, count);
    l->length += count;
}

static void put_word(struct lines *l, const char *word)
{
    put(l, word, strlen(word));
}

static void put_number(struct lines *l, size_t number)
{
    char digits[20];
    size_t at = sizeof digits;
    do {
        digits[--at] = (char)('0' + number % 10);
        number /= 10;
    } while (number > 0);
    put(l, digits + at, sizeof digits - at);
}

static void put_call(struct lines *l, const struct names *n, unsigned call)
{
    unsigned unit = call;
    struct field port = { (const uint8_t *)"-", 1 };
    const char *word = "\tstep\t";
    if (call >= n->units + n->outputs) {
        const struct port *input = &n->input[call - n->units - n->outputs];
        word = "\tset\t", unit = input->unit, port = input->name;
    } else if (call >= n->units) {
        const struct port *output = &n->output[call - n->units];
        word = "\tget\t", unit = output->unit, port = output->name;
    }
    put_word(l, word);
    put(l, n->unit[unit].bytes, n->unit[unit].length);
    put_word(l, "\t");
    put(l, port.bytes, port.length);
    put_word(l, "\n");
}

static void put_calls(struct lines *l, const struct names *n)
{
    uint8_t table[644], order[224];
    plain_pack(n, table);
    uint32_t answer = plain_order(table, plain_packed_length(n), order, sizeof order);
    put_word(l, answer >= 256 ? "cycle\t" : "order\t");
    put_number(l, answer % 256);
    put_word(l, "\n");
    for (unsigned place = 0; place < answer % 256; place++) {
        put_number(l, place);
        put_call(l, n, order[place]);
    }
}

struct plain_reading plain_list(const uint8_t *text, size_t text_len, uint8_t *out, size_t out_len)
{
    struct names names;
    struct lines lines;
    struct plain_reading answer = plain_names(text, text_len, &names);
    lines.length = 0;
    if (answer.number != 0) {
        put_word(&lines, "refused\t");
        put_number(&lines, answer.number);
        put_word(&lines, "\t");
        put_number(&lines, answer.place);
        put_word(&lines, "\n");
    } else {
        put_calls(&lines, &names);
    }
    if (lines.length > out_len)
        return (struct plain_reading){ 34, 0 };
    memcpy(out, lines.bytes, lines.length);
    return (struct plain_reading){ 0, lines.length };
}
