/* How long mortarbee_where_sits takes for n = 10 where little follows and where much does (C-17: nothing behind n is looked at).
   usage: where [CALLS]. Built by ../build.sh. */
#include "../mortarbee.h"

#include <stdio.h>
#include <stdlib.h>
#include <string.h>
#include <time.h>

static double now(void) {
    struct timespec t;
    clock_gettime(CLOCK_MONOTONIC, &t);
    return (double)t.tv_sec + (double)t.tv_nsec / 1e9;
}

static double microseconds(const uint8_t *listing, size_t n, long calls) {
    double begin = now();
    for (long i = 0; i < calls; i++) {
        if (mortarbee_where_sits(listing, n, 10).address != 10) {
            puts("a wrong address");
            exit(1);
        }
    }
    return (now() - begin) / (double)calls * 1e6;
}

int main(int argc, char **argv) {
    static uint8_t listing[1024 * 5];
    long calls = argc > 1 ? atol(argv[1]) : 20000;
    for (size_t i = 0; i < 1024; i++) {
        memcpy(listing + 5 * i, "0143\n", 5);
    }
    double few = microseconds(listing, 11 * 5, calls), many = microseconds(listing, 1024 * 5, calls);
    printf("n = 10, %ld calls each: %.2f us a call in a listing of 11 statements, %.2f us in one of 1,024\n", calls, few, many);
    return 0;
}
