/* C-19 for fuzz.c: what the text at hand reads as for people is read back into the same listing; damaged, it is refused without a byte changed, or its listing
   is written and read again. */
#ifndef READS_H
#define READS_H

#include "../mortarbee.h"
#include "people.h"
#include "rooms.h"

static uint64_t texts_read, texts_unread, texts_over;
static uint8_t people_text[MORTARBEE_TEXT_ROOM + 16], read_once[MORTARBEE_READ_ROOM];

static struct mortarbee_reading ask_reading(const uint8_t *from, size_t n, size_t room) {
    lend(&people_room, n, 0);
    memcpy(people_room.start, from, n);
    lend(&out_room, room, next());
    begin_call();
    struct mortarbee_reading r = mortarbee_read(people_room.start, n, out_room.start, room);
    end_call();
    check(memcmp(people_room.start, from, n) == 0, "the text was changed");
    check(r.number == 0 || r.number == 2 || r.number == 12 || r.number == 15, "a refusal that reading does not give");
    check(kept_from(&out_room, r.number ? 0 : r.listing), "a byte changed on refusal or behind the listing");
    check(r.argument == 0 && (r.number == 15 || r.amount == 0) && (r.number || r.place == 0), "a number that reading does not give");
    return r;
}

/* The line at a place, and its length; none where the text has fewer. */
static const uint8_t *line_from(const uint8_t *from, size_t n, uint64_t place, size_t *length) {
    const uint8_t *end = from + n;
    while (place-- > 0 && from < end) {
        const uint8_t *feed = memchr(from, '\n', (size_t)(end - from));
        from = feed ? feed + 1 : end;
    }
    const uint8_t *feed = from < end ? memchr(from, '\n', (size_t)(end - from)) : NULL;
    *length = (size_t)((feed ? feed : end) - from);
    return from < end ? from : NULL;
}

/* 15: the line is there, and so is its column; cut off before the column, it is refused there or not at all. */
static void try_column(const uint8_t *from, size_t n, struct mortarbee_reading r) {
    static uint8_t cut[1025];
    size_t length;
    const uint8_t *line = line_from(from, n, r.place, &length);
    check(line != NULL && length <= 1024 && r.amount >= 0 && (uint64_t)r.amount <= length, "a column that is not there");
    size_t c = (size_t)r.amount;
    memcpy(cut, line, c);
    cut[c] = '\n';
    struct mortarbee_reading front = ask_reading(cut, c + 1, MORTARBEE_READ_ROOM);
    check(front.number != 15 || (size_t)front.amount == c, "a front that is refused before its end");
}

static void try_reading_of(const uint8_t *from, size_t n) {
    struct mortarbee_reading r = ask_reading(from, n, MORTARBEE_READ_ROOM);
    check(r.number != 12, "12 in a room that is never too short");
    texts_read += r.number == 0;
    texts_unread += r.number == 15;
    texts_over += r.number == 2;
    if (r.number == 15) {
        try_column(from, n, r);
    }
    if (r.number != 0) {
        return;
    }
    size_t length = r.listing;
    memcpy(read_once, out_room.start, length);
    if (length > 0) {
        uint64_t count = 0;
        for (size_t i = 0; i < length; i++) {
            count += read_once[i] == '\n';
        }
        r = ask_reading(from, n, length - 1);
        check(r.number == 12 && r.place == count, "a room that is too short, and no 12 with the statement count");
    }
    check(ask_reading(from, n, length).number == 0, "a room that is long enough, and a refusal");
    lend(&people_room, MORTARBEE_TEXT_ROOM, 0);
    struct mortarbee_reply written = mortarbee_text(read_once, length, people_room.start, MORTARBEE_TEXT_ROOM);
    check(written.number == 0, "a listing that was read cannot be written");
    static uint8_t again[MORTARBEE_TEXT_ROOM];
    memcpy(again, people_room.start, written.listing);
    r = ask_reading(again, written.listing, MORTARBEE_READ_ROOM);
    check(r.number == 0 && r.listing == length && memcmp(out_room.start, read_once, length) == 0, "what was read and written reads otherwise");
}

/* The text at hand is a good listing where it was written for people: that text is at `expected`. */
static void try_reading(int is_written) {
    static const char chips[] = " ()-+*/&^|<>#@,.:=g0123456789lrR\n\r\xff" "abx";
    static struct text old;
    size_t n = is_written ? (size_t)(expected_end - expected) : 0;
    if (is_written) {
        memcpy(people_text, expected, n);
        struct mortarbee_reading r = ask_reading(people_text, n, MORTARBEE_READ_ROOM);
        const struct text *bare = text;
        if (is_marked(text->at, text->n)) {
            take_lines(&old, text->at, text->n);
            bare = &old;
        }
        if (bare->n - statements() > 49152) {
            check(r.number == 2, "a listing over the total limit of the old form");
        } else {
            check(r.number == 0 && r.listing == bare->n && memcmp(out_room.start, bare->at, bare->n) == 0, "what was written reads as another listing");
        }
        try_reading_of(people_text, n);
    }
    for (size_t k = 1 + below(6); k > 0 && n > 0; k--) {
        people_text[below(n)] = (uint8_t)chips[below(sizeof chips - 1)];
    }
    if (n == 0) {
        n = below(60);
        for (size_t i = 0; i < n; i++) {
            people_text[i] = (uint8_t)chips[below(sizeof chips - 1)];
        }
    }
    try_reading_of(people_text, n);
}

#endif
