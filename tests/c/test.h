/* What the C tests share: a count of what held, and buffers beside pages without access. */
#ifndef TEST_H
#define TEST_H

#include <stdint.h>
#include <stdio.h>
#include <stdlib.h>
#include <string.h>
#include <sys/mman.h>

static unsigned passed, failed, broken;

/* One condition of a test; a test with a broken one has failed. */
#define EXPECT(condition)                                                        \
    do {                                                                         \
        if (!(condition) && broken++ < 5)                                        \
            printf("%s:%d: not so: %s\n", __FILE__, __LINE__, #condition);       \
    } while (0)

/* Runs one test with its first buffer at the end of its pages, then at their start. */
static inline void run(const char *name, void (*test)(int side))
{
    broken = 0;
    test(0);
    test(1);
    printf("%s ... %s\n", name, broken == 0 ? "ok" : "FAILED");
    if (broken == 0)
        passed++;
    else
        failed++;
}

static inline int report(void)
{
    printf("%u passed, %u failed\n", passed, failed);
    return failed != 0;
}

enum { PAGE = 4096, PAGES = 9, ROOM = PAGE * PAGES, CANARY = 0xa5 };

/* Pages of our own with a page without access on each side. */
static inline uint8_t *pages(void)
{
    uint8_t *start = mmap(NULL, ROOM + 2 * PAGE, PROT_READ | PROT_WRITE,
                          MAP_PRIVATE | MAP_ANONYMOUS, -1, 0);
    if (start == MAP_FAILED || mprotect(start, PAGE, PROT_NONE) != 0 ||
        mprotect(start + PAGE + ROOM, PAGE, PROT_NONE) != 0)
        abort();
    return start + PAGE;
}

/* A buffer of so many bytes that ends (side 0) or begins (side 1) at a page without access. */
static inline uint8_t *lend(uint8_t *pages, size_t length, int side)
{
    memset(pages, CANARY, ROOM);
    return side == 0 ? pages + ROOM - length : pages;
}

static inline uint8_t *lend_copy(uint8_t *pages, const void *bytes, size_t length, int side)
{
    uint8_t *at = lend(pages, length, side);
    memcpy(at, bytes, length);
    return at;
}

/* Is every byte of the pages outside the buffer's first `written` bytes a canary? */
static inline int canaries(const uint8_t *pages, const uint8_t *buffer, size_t written)
{
    for (const uint8_t *at = pages; at < pages + ROOM; at++)
        if ((at < buffer || at >= buffer + written) && *at != CANARY)
            return 0;
    return 1;
}

/* What an empty buffer may come with: a pointer to nothing that is not null. */
static uint8_t *const nowhere = (uint8_t *)1;

/* A number that looks random and is the same in every run. */
static inline uint32_t some_number(void)
{
    static uint64_t state = 88172645463325252u;
    state ^= state << 13;
    state ^= state >> 7;
    state ^= state << 17;
    return (uint32_t)(state >> 16);
}

/* Bytes below the bound, fewer than `most` of them; answers how many. */
static inline size_t some_bytes(uint8_t *bytes, size_t most, unsigned bound)
{
    size_t count = some_number() % most;
    for (size_t at = 0; at < count; at++)
        bytes[at] = (uint8_t)(some_number() % bound);
    return count;
}

/* A table of the greatest counts, 644 bytes and 224 calls; acyclic if its inputs are delayed. */
static inline size_t greatest(uint8_t *table, int reactive)
{
    uint8_t *at = table;
    const uint8_t counts[4] = { 32, 96, 96, 128 };
    memcpy(at, counts, 4), at += 4;
    for (int o = 0; o < 96; o++)
        *at++ = (uint8_t)(o / 3);
    for (int i = 0; i < 96; i++)
        *at++ = (uint8_t)(i / 3);
    for (int i = 0; i < 96; i++)
        *at++ = (uint8_t)reactive;
    for (int i = 0; i < 96; i++)
        *at++ = (uint8_t)(i < 3 ? 0 : i - 3);
    for (int k = 0; k < 128; k++) {
        int unit = k / 4, input = 3 * unit + k % 2, output = 3 * unit + 1 + k / 2 % 2;
        *at++ = (uint8_t)input, *at++ = (uint8_t)output;
    }
    return (size_t)(at - table);
}

#endif
