/* A binary heap of calls, the lowest on top. */
#ifndef PLAIN_HEAP_H
#define PLAIN_HEAP_H

struct heap {
    unsigned count;
    unsigned *calls;
};

static inline void heap_push(struct heap *h, unsigned call)
{
    unsigned at = h->count++;
    while (at > 0 && h->calls[(at - 1) / 2] > call) {
        h->calls[at] = h->calls[(at - 1) / 2];
        at = (at - 1) / 2;
    }
    h->calls[at] = call;
}

static inline unsigned heap_pop(struct heap *h)
{
    unsigned lowest = h->calls[0], last = h->calls[--h->count], at = 0;
    for (;;) {
        unsigned child = 2 * at + 1;
        if (child >= h->count)
            break;
        if (child + 1 < h->count && h->calls[child + 1] < h->calls[child])
            child++;
        if (h->calls[child] >= last)
            break;
        h->calls[at] = h->calls[child];
        at = child;
    }
    h->calls[at] = last;
    return lowest;
}

#endif
