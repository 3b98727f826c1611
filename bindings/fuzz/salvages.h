/* C-22 for fuzz.c: the text at hand and damaged copies of it, salvaged. What comes out is read, and comes out unchanged when it is salvaged again. */
#ifndef SALVAGES_H
#define SALVAGES_H

#include "../mortarbee.h"
#include "rooms.h"

static uint64_t salvaged_texts, replaced_lines, left_off;
static uint8_t damaged[TEXT_ROOM], saved[MORTARBEE_LISTING_ROOM];

static struct mortarbee_saved ask_salvage(const uint8_t *from, size_t n, size_t listing_n, size_t report_n) {
    lend(&listing_room, n, 0);
    memcpy(listing_room.start, from, n);
    lend(&out_room, listing_n, next());
    lend(&image_room, report_n, next());
    begin_call();
    struct mortarbee_saved r = mortarbee_salvage(listing_room.start, n, out_room.start, listing_n, image_room.start, report_n);
    end_call();
    check(memcmp(listing_room.start, from, n) == 0, "the text was changed");
    check(r.number == 0 || r.number == 12, "a refusal that salvaging does not give");
    check(kept_from(&out_room, r.number ? 0 : r.listing), "a byte changed on refusal or behind the listing");
    check(kept_from(&image_room, r.number ? 0 : r.report), "a byte changed on refusal or behind the report");
    check(r.argument == 0 && r.amount == 0 && (r.number || r.place == 0), "a number that salvaging does not give");
    return r;
}

/* 1 and 2 alone are looked for: nothing before statement n is refused so. */
static int reads(const uint8_t *from, size_t n) {
    struct mortarbee_sits r = mortarbee_where_sits(from, n, (size_t)-1);
    return r.number != 1 && r.number != 2;
}

static void try_salvage_of(const uint8_t *from, size_t n) {
    struct mortarbee_saved r = ask_salvage(from, n, MORTARBEE_SALVAGE_ROOM, MORTARBEE_REPORT_ROOM);
    check(r.number == 0, "12 in rooms that are never too short");
    size_t listing = r.listing, report = r.report;
    memcpy(saved, out_room.start, listing);
    int left = report % 9 == 7;
    check(report % 9 == 0 || left, "a report of another length");
    check(reads(saved, listing), "what was salvaged is refused 1 or 2");
    if (reads(from, n)) {
        check(report == 0 && listing == n && memcmp(saved, from, n) == 0, "a good listing came out changed");
    }
    salvaged_texts++;
    replaced_lines += report / 9;
    left_off += (uint64_t)left;
    if (listing > 0) {
        struct mortarbee_saved none = ask_salvage(from, n, listing - 1, report);
        check(none.number == 12 && none.place == r.statements, "a listing room that is too short, and no 12 with the count");
    }
    if (report > 0) {
        check(ask_salvage(from, n, listing, report - 1).number == 12, "a report room that is too short, and no 12");
    }
    check(ask_salvage(from, n, listing, report).number == 0, "rooms that are long enough, and a refusal");
    struct mortarbee_saved again = ask_salvage(saved, listing, listing, 0);
    check(again.number == 0 && again.statements == r.statements && memcmp(out_room.start, saved, listing) == 0, "what was salvaged came out changed");
}

static void try_salvage(void) {
    static const uint8_t chips[] = {'\n', '\n', '\r', '0', '4', '7', 'D', 'F', 'g', 0, 255};
    size_t n = text->n;
    memcpy(damaged, text->at, n);
    try_salvage_of(damaged, n);
    for (size_t k = n ? 1 + below(8) : 0; k > 0; k--) {
        damaged[below(n)] = chips[below(sizeof chips)];
    }
    try_salvage_of(damaged, n ? n - below(3) % n : 0);
}

#endif
