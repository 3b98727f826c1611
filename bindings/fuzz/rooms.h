/* Lent rooms for fuzz.c, the calls it counts, and what ends a run that failed. */
#ifndef ROOMS_H
#define ROOMS_H

#include <fcntl.h>
#include <signal.h>
#include <stdint.h>
#include <stdio.h>
#include <stdlib.h>
#include <string.h>
#include <sys/mman.h>
#include <time.h>
#include <unistd.h>

#include "texts.h"

#define HANG 300 /* seconds for one call */

static struct text one, two, *text = &one, *before = &two;
static uint64_t calls;
static double longest;

/* A room that ends where a page begins that nobody may touch: a step beyond it is a crash. */
struct room {
    uint8_t *start, *end, *copy;
    size_t n;
};

static struct room listing_room, out_room, image_room, store_room;

static void make_room(struct room *r, size_t most) {
    size_t page = (size_t)sysconf(_SC_PAGESIZE), whole = (most + page - 1) / page * page;
    uint8_t *p = mmap(NULL, whole + page, PROT_READ | PROT_WRITE, MAP_PRIVATE | MAP_ANONYMOUS, -1, 0);
    if (p == MAP_FAILED || mprotect(p + whole, page, PROT_NONE) != 0) {
        perror("fuzz");
        exit(2);
    }
    r->end = p + whole;
    r->copy = malloc(most + 1);
}

static void lend(struct room *r, size_t n, uint64_t fill) {
    r->n = n;
    r->start = r->end - n;
    for (size_t i = 0; i < n; i++) {
        r->copy[i] = (uint8_t)(fill + i * 7);
    }
    memcpy(r->start, r->copy, n);
}

static int kept_from(const struct room *r, size_t at) { return memcmp(r->start + at, r->copy + at, r->n - at) == 0; }

static void say(const char *words) {
    if (write(2, words, strlen(words)) < 0) {
        _exit(1);
    }
}

static void say_number(uint64_t n) {
    char digits[21], *at = digits + 20;
    *at = 0;
    do {
        *--at = (char)('0' + n % 10);
        n /= 10;
    } while (n);
    say(at);
}

/* Ends the run. It may be called in a signal, so it only opens and writes. */
static void save(const char *what) {
    int file = open("fuzz.failed", O_WRONLY | O_CREAT | O_TRUNC, 0644);
    if (file < 0 || write(file, text->at, text->n) != (ssize_t)text->n) {
        say("fuzz.failed cannot be written\n");
    }
    say("FAILED after ");
    say_number(calls);
    say(" calls: ");
    say(what);
    say("; listing room ");
    say_number(out_room.n);
    say(", image room ");
    say_number(image_room.n);
    say(", store room ");
    say_number(store_room.n);
    say("; the text is in fuzz.failed\n");
    _exit(1);
}

static void on_signal(int number) { save(number == SIGALRM ? "a call did not end" : "a crash"); }

static void check(int good, const char *what) {
    if (!good) {
        save(what);
    }
}

static double now(void) {
    struct timespec t;
    clock_gettime(CLOCK_MONOTONIC, &t);
    return (double)t.tv_sec + (double)t.tv_nsec / 1e9;
}

/* Around each call: its time, and a signal if it does not end. */
static double call_began;

static void begin_call(void) {
    alarm(HANG);
    call_began = now();
}

static void end_call(void) {
    double took = now() - call_began;
    alarm(0);
    longest = took > longest ? took : longest;
    calls++;
}

/* A size: short of n, n, or more. */
static size_t about(size_t n) {
    switch (below(4)) {
    case 0:
        return n;
    case 1:
        return n + below(9);
    case 2:
        return n ? n - 1 : 0;
    default:
        return below(n + 1);
    }
}

#endif
