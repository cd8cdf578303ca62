/* order FILE: prints a packed table's first order. order FILE CALLS: nanoseconds of one call, by the
   quickest of many rounds of so many calls. */
#include <stdio.h>
#include <stdlib.h>
#include <time.h>
#include "../../include/oorlichday.h"

int main(int count, char **words)
{
    static uint8_t table[OORLICHDAY_TABLE_MAX], order[OORLICHDAY_ORDER_MAX];
    FILE *file = count > 1 ? fopen(words[1], "rb") : NULL;
    if (file == NULL)
        return 2;
    size_t length = fread(table, 1, sizeof table, file);
    uint32_t answer = oorlichday_order(table, length, order, sizeof order);
    if (count < 3) {
        for (uint32_t place = 0; place < answer; place++)
            printf("%d\n", order[place]);
        return answer >= 256;
    }
    long calls = atol(words[2]);
    double quickest = 1e18;
    for (int round = 0; round < 100; round++) {
        struct timespec from, to;
        clock_gettime(CLOCK_MONOTONIC, &from);
        for (long call = 0; call < calls; call++)
            answer += oorlichday_order(table, length, order, sizeof order);
        clock_gettime(CLOCK_MONOTONIC, &to);
        double spent = (double)(to.tv_sec - from.tv_sec) * 1e9 + (double)(to.tv_nsec - from.tv_nsec);
        if (spent < quickest)
            quickest = spent;
    }
    printf("%.1f %u\n", quickest / (double)calls, answer);
    return 0;
}
