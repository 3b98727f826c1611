/* For fuzz.c: what the program prints, held to the run that was made by mortarbee_optimize_jumps; the count of 1 and 2 alone; and all positions in one call,
   held to mortarbee_where_sits. */
#ifndef PAGES_H
#define PAGES_H

#include "../mortarbee.h"
#include "places.h"
#include "rooms.h"

static uint64_t pages_printed, lines_printed, tables_filled;

static struct mortarbee_printed ask_page(unsigned set) {
    lend(&out_room, MORTARBEE_PAGE_ROOM, next());
    lend(&image_room, MORTARBEE_IMAGE_ROOM, next());
    begin_call();
    struct mortarbee_printed r = mortarbee_print_run(set & 1, set & 2, set & 4, listing_room.start, listing_room.n, out_room.start, image_room.start);
    end_call();
    check(memcmp(listing_room.start, text->at, text->n) == 0, "the listing was changed");
    check(kept_from(&out_room, r.page) && kept_from(&image_room, r.image), "a byte changed on refusal or behind the page");
    return r;
}

/* The 7E line is what printf makes of the four numbers, in a room that ends where a page begins. */
static void try_line(uint8_t number, uint16_t place, uint8_t argument, int32_t amount) {
    char line[MORTARBEE_LINE_ROOM + 1];
    snprintf(line, sizeof line, "7E%02X%04X%02X%08X\n", number, place, argument, (unsigned)amount);
    lend(&out_room, MORTARBEE_LINE_ROOM, next());
    begin_call();
    mortarbee_refusal_line(number, place, argument, amount, out_room.start);
    end_call();
    check(memcmp(out_room.start, line, MORTARBEE_LINE_ROOM) == 0, "another 7E line");
    lines_printed++;
}

/* `run` is the run of the text under the same settings; `listing` and `image` are what it wrote. */
static void try_page(unsigned set, struct mortarbee_reply run, const uint8_t *listing, const uint8_t *image) {
    struct mortarbee_printed r = ask_page(set);
    check(r.number == run.number && r.place == run.place && r.argument == run.argument && r.amount == run.amount, "printed and rewritten are not refused alike");
    check(r.listing == run.listing && r.rewrites == run.rewrites && r.image == run.image, "other numbers than the run's");
    if (r.number != 0) {
        check(r.page == 0, "a page with a refusal");
        try_line((uint8_t)r.number, (uint16_t)r.place, (uint8_t)r.argument, (int32_t)r.amount);
    } else {
        char last[14];
        snprintf(last, sizeof last, "7F%04X%06X\n", (unsigned)r.rewrites, (unsigned)r.image);
        check(r.page == r.listing + 13 && memcmp(out_room.start, listing, r.listing) == 0 && memcmp(out_room.start + r.listing, last, 13) == 0, "another page");
        check(memcmp(image_room.start, image, r.image) == 0, "another image beside the page");
        pages_printed++;
    }
    try_line((uint8_t)next(), (uint16_t)next(), (uint8_t)next(), (int32_t)next());
}

/* `whole` is what assembling says of the text: 1 and 2 are found alike, and nothing else is refused. */
static void try_check(struct mortarbee_reply whole) {
    begin_call();
    struct mortarbee_counted r = mortarbee_check(listing_room.start, listing_room.n);
    end_call();
    int form = whole.number == 1 || whole.number == 2;
    check(r.number == (form ? whole.number : 0) && r.place == (form ? whole.place : 0) && r.argument == 0 && r.amount == 0, "1 or 2 is not that of the listing");
    check(r.statements == (form ? 0 : statements()), "another count of statements");
}

static void try_positions(void) {
    size_t count = statements();
    struct mortarbee_sits end = where(count);
    lend_text();
    lend(&out_room, MORTARBEE_POSITIONS * sizeof(uint32_t), next());
    begin_call();
    struct mortarbee_counted r = mortarbee_positions(listing_room.start, listing_room.n, (uint32_t *)(void *)out_room.start);
    end_call();
    check(memcmp(listing_room.start, text->at, text->n) == 0, "the listing was changed");
    check(r.number == end.number && r.place == end.place && r.argument == 0 && r.amount == 0, "the end is refused otherwise");
    check(r.statements == (r.number ? 0 : count), "another count of statements");
    check(kept_from(&out_room, r.number ? 0 : (count + 1) * sizeof(uint32_t)), "an entry changed on refusal or behind the end");
    if (r.number == 0) {
        static uint32_t table[MORTARBEE_POSITIONS];
        memcpy(table, out_room.start, sizeof table);
        size_t n = below(count + 1);
        check(table[count] == end.address && table[n] == where(n).address, "a position that is not where the statement sits");
        tables_filled++;
    }
}

#endif
