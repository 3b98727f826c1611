/* Lines of a text for people on standard input, the answer to each by itself on standard output, a line each: its frame in digits, 2, or 15 and the column.
   For tools/people. Built by ../build.sh. */
#include <stdio.h>
#include <stdlib.h>

#include "../mortarbee.h"

static void answer(const uint8_t *line, size_t n) {
    static uint8_t listing[MORTARBEE_READ_ROOM];
    struct mortarbee_reading r = mortarbee_read(line, n, listing, sizeof listing);
    if (r.number == 0) {
        fwrite(listing, 1, r.listing, stdout);
    } else if (r.number == 15) {
        printf("15 %lld\n", (long long)r.amount);
    } else {
        printf("%u\n", (unsigned)r.number);
    }
}

/* A line is handed over with its line feed; the last may lack it. */
int main(void) {
    char *line = NULL;
    size_t room = 0;
    ssize_t n;
    while ((n = getline(&line, &room, stdin)) > 0) {
        answer((const uint8_t *)line, (size_t)n);
    }
    free(line);
    return 0;
}
