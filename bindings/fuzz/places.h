/* C-17 for fuzz.c: where statements sit, against what assembling says and against the sizes of single statements. */
#ifndef PLACES_H
#define PLACES_H

#include "../mortarbee.h"
#include "rooms.h"

static uint64_t addresses, without_address; /* how many places had one, and how many were refused */

/* How many statements the text has; its mark is none (C-20). */
static size_t statements(void) {
    size_t n = text->n && text->at[text->n - 1] != '\n';
    n -= is_marked(text->at, text->n);
    for (size_t i = 0; i < text->n; i++) {
        n += text->at[i] == '\n';
    }
    return n;
}

/* How many bytes come before statement n: its lines, and the mark. */
static size_t bytes_before(size_t n) {
    size_t at = n && is_marked(text->at, text->n) ? MARK_SIZE : 0;
    while (n > 0 && at < text->n) {
        n -= text->at[at++] == '\n';
    }
    return at;
}

/* The listing's first bytes, where the page behind them may not be touched. */
static struct mortarbee_sits ask_where(size_t bytes, size_t n) {
    lend(&listing_room, bytes, 0);
    memcpy(listing_room.start, text->at, bytes);
    begin_call();
    struct mortarbee_sits r = mortarbee_where_sits(listing_room.start, bytes, n);
    end_call();
    check(memcmp(listing_room.start, text->at, bytes) == 0, "the listing was changed");
    check(r.argument == 0 && r.amount == 0, "a number at fault with a place");
    check(r.address <= 65536, "an address beyond 65,536");
    if (r.number == 0) {
        check(r.place == 0, "a place without a refusal");
    } else {
        check(r.address == 0, "an address with a refusal");
        check(r.number == 14 ? r.place == 0 : (r.number == 1 || r.number == 2 || r.number == 5 || r.number == 6) && r.place < n,
              "a refusal that is none of C-17's");
    }
    return r;
}

/* The same with all of the text and with what comes before statement n alone. */
static struct mortarbee_sits where(size_t n) {
    struct mortarbee_sits r = ask_where(text->n, n), alone = ask_where(bytes_before(n), n);
    check(memcmp(&r, &alone, sizeof r) == 0, "what stands at n or behind it was looked at");
    addresses += r.number == 0;
    without_address += r.number != 0;
    return r;
}

static uint64_t digits(size_t at, size_t n) {
    uint64_t value = 0;
    for (; n > 0; n--, at++) {
        uint8_t c = at < text->n ? text->at[at] : '0';
        value = value * 16 + (uint64_t)(c <= '9' ? c - '0' : c - 'A' + 10);
    }
    return value;
}

/* Where the line of statement n begins, and its kind. */
static size_t line_of(size_t n) { return n ? bytes_before(n) : is_marked(text->at, text->n) ? MARK_SIZE : 0; }
static uint64_t kind_of(size_t n) { return digits(line_of(n), 2); }

/* Whether statement n of a good listing goes from one address to the next as its kind says. */
static int goes(size_t n, uint64_t from, uint64_t to) {
    size_t behind = line_of(n) + (is_marked(text->at, text->n) ? 10 : 2);
    switch (kind_of(n)) {
    case 1:
        return from < to && to <= from + 3;
    case 5:
        return to == digits(behind, 4);
    case 6:
        return to == from + digits(behind, 2);
    case 7:
        return to == from + 2 * digits(behind, 2);
    case 8: {
        uint64_t multiple = digits(behind + 2, 4);
        return multiple != 0 && to == (from + multiple - 1) / multiple * multiple + digits(behind, 2);
    }
    default:
        return to == from;
    }
}

/* All addresses of an accepted listing; its image ends behind the last statement that has bytes. */
static void try_all(size_t count, uint64_t image) {
    uint64_t from = 0, end = 0;
    for (size_t n = 0; n < count; n++) {
        uint64_t to = where(n + 1).address;
        check(goes(n, from, to), "a statement of another size");
        end = to != from && kind_of(n) != 5 ? to : end;
        from = to;
    }
    check(end == image, "an image that does not end behind the last statement with bytes");
}

/* `whole` is what assembling says of the text. Of the positions it tells nothing where a name is defined again. */
static void try_places(struct mortarbee_reply whole) {
    size_t count = statements(), n = below(count + 3);
    struct mortarbee_sits r = where(n);
    check(where(0).number == 0 && where(0).address == 0, "statement 0 is not at 0");
    if (whole.number == 1 || whole.number == 2) {
        check(n > whole.place ? r.number == whole.number && r.place == whole.place : r.number != 1 && r.number != 2, "1 or 2 is not that of the listing");
    } else if (whole.number == 5 || whole.number == 6) {
        check(n > whole.place ? r.number == whole.number && r.place == whole.place : r.number == 0, "5 or 6 is not that of the listing");
    } else if (whole.number != 3) {
        check(r.number == (n > count ? 14 : 0), "a statement is there and not found, or the other way");
        check(where((size_t)next() | (count + 1)).number == 14, "a place far behind is found");
        check(n >= count || goes(n, r.address, where(n + 1).address), "a statement of another size");
        if (whole.number == 0 && count < 40 && below(4) == 0) {
            try_all(count, whole.image);
        }
    }
}

#endif
