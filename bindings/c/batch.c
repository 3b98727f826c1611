/* Many listings on standard input, the answer to each on standard output, as tools/oracle --batch --count prints it: the new listing,
   its 7F line and `IMAGE <hex>`, or the 7E line; then `==`. Comments are kept, as the Rust keeps them. Built by ../build.sh. */
#include <stdio.h>
#include <stdlib.h>
#include <string.h>

#include "../mortarbee.h"

static uint8_t out[MORTARBEE_LISTING_ROOM];
static uint8_t image[MORTARBEE_IMAGE_ROOM];

static void answer(const uint8_t *listing, size_t n, int assemble) {
    struct mortarbee_reply r;
    if (assemble) {
        r = mortarbee_assemble(listing, n, image, sizeof image);
    } else {
        r = mortarbee_optimize_jumps(1, 1, 1, listing, n, out, sizeof out, image, sizeof image);
    }
    if (r.number != 0) {
        printf("7E%02X%04X%02X%08X\n", (unsigned)r.number, (unsigned)r.place, (unsigned)r.argument, (unsigned)(uint32_t)r.amount);
    } else {
        fwrite(assemble ? listing : out, 1, assemble ? n : r.listing, stdout);
        printf("7F%04X%06X\nIMAGE ", (unsigned)r.rewrites, (unsigned)r.image);
        for (size_t i = 0; i < r.image; i++) {
            putchar("0123456789ABCDEF"[image[i] >> 4]);
            putchar("0123456789ABCDEF"[image[i] & 15]);
        }
        putchar('\n');
    }
    puts("==");
    fflush(stdout);
}

/* All of standard input, with a zero behind it. */
static uint8_t *read_all(size_t *n) {
    size_t room = 1 << 16;
    uint8_t *text = malloc(room + 1);
    *n = 0;
    for (;;) {
        size_t got = text ? fread(text + *n, 1, room - *n, stdin) : 0;
        *n += got;
        if (got == 0) {
            break;
        }
        if (*n == room) {
            room *= 2;
            text = realloc(text, room + 1);
        }
    }
    if (!text) {
        fprintf(stderr, "batch: out of memory\n");
        exit(2);
    }
    text[*n] = 0;
    return text;
}

/* Listings that lines `==` part; the last may lack it. */
static void parted(const uint8_t *text, size_t n, int assemble) {
    size_t start = 0, at = 0;
    int some = 0;
    while (at < n) {
        const uint8_t *feed = memchr(text + at, '\n', n - at);
        size_t next = feed ? (size_t)(feed - text) + 1 : n;
        if (next - at == 3 && text[at] == '=' && text[at + 1] == '=') {
            answer(text + start, at - start, assemble);
            start = next;
            some = 1;
        }
        at = next;
    }
    if (start < n || !some) {
        answer(text + start, n - start, assemble);
    }
}

/* Listings of any bytes, each after a line with its length in decimal. */
static void sized(const uint8_t *text, size_t n, int assemble) {
    size_t at = 0;
    while (at < n) {
        char *end;
        size_t length = strtoul((const char *)text + at, &end, 10);
        at = (size_t)((const uint8_t *)end - text) + 1;
        if (*end != '\n' || at > n || length > n - at) {
            fprintf(stderr, "batch: bad length\n");
            exit(2);
        }
        answer(text + at, length, assemble);
        at += length;
    }
}

int main(int argc, char **argv) {
    int assemble = 0, with_sizes = 0;
    for (int i = 1; i < argc; i++) {
        if (strcmp(argv[i], "--assemble") == 0) {
            assemble = 1;
        } else if (strcmp(argv[i], "--sized") == 0) {
            with_sizes = 1;
        } else {
            fprintf(stderr, "usage: batch [--assemble] [--sized] < LISTINGS\n");
            return 2;
        }
    }
    size_t n;
    uint8_t *text = read_all(&n);
    if (with_sizes) {
        sized(text, n, assemble);
    } else {
        parted(text, n, assemble);
    }
    free(text);
    return 0;
}
