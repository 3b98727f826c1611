/* C-13 for fuzz.c: the list of stems of a run, and the differences of two texts, each held to other code: what is refused, the pairs, the text, and that
   applying it to the first listing gives the second. */
#ifndef DIFFERENCES_H
#define DIFFERENCES_H

#include "../mortarbee.h"
#include "rooms.h"

#define MOST_LINES 1024

static uint64_t lists_written, differences_told, differences_refused[14];
static struct room second_room, pairing_room, differences_room;
static uint8_t list[MORTARBEE_STEMS_ROOM];
static size_t list_size;

static void make_difference_rooms(void) {
    make_room(&second_room, TEXT_ROOM);
    make_room(&pairing_room, 2 * MORTARBEE_STEMS_ROOM);
    make_room(&differences_room, MORTARBEE_DIFFERENCES_ROOM + 16);
}

/* ---- the list of stems. `out` and `image` hold what mortarbee_optimize_jumps left for the same text and settings. */

static struct mortarbee_stemmed ask_stems(unsigned asked, size_t out_n, size_t image_n, size_t list_n) {
    lend(&out_room, out_n, next());
    lend(&image_room, image_n, next());
    lend(&pairing_room, list_n, next());
    begin_call();
    struct mortarbee_stemmed r = mortarbee_stems(asked & 1, asked >> 1 & 1, asked >> 2 & 1, listing_room.start, listing_room.n, out_room.start, out_n, image_room.start,
                                               image_n, pairing_room.start, list_n);
    end_call();
    check(memcmp(listing_room.start, text->at, text->n) == 0, "the listing was changed");
    check(kept_from(&out_room, r.listing) && kept_from(&image_room, r.image) && kept_from(&pairing_room, 2 * r.stems),
          "a byte changed on refusal or behind a result with stems");
    check(r.number == 0 || (r.listing == 0 && r.rewrites == 0 && r.image == 0 && r.stems == 0), "a refusal with sizes");
    return r;
}

static unsigned entry_at(const uint8_t *from, size_t k) { return from[2 * k] * 256u + from[2 * k + 1]; }

/* The list of the run that was rewritten as `plain` says: one entry a line, rising, below the statement count, and each line has its stem's kind. */
static void try_stems(unsigned asked, struct mortarbee_reply plain, const uint8_t *out, const uint8_t *image) {
    struct mortarbee_stemmed r = ask_stems(asked, MORTARBEE_LISTING_ROOM, MORTARBEE_IMAGE_ROOM, MORTARBEE_STEMS_ROOM);
    check(r.number == plain.number && r.place == plain.place && r.argument == plain.argument && r.amount == plain.amount, "refused otherwise with a list");
    list_size = 0;
    if (r.number != 0) {
        return;
    }
    check(r.listing == plain.listing && r.rewrites == plain.rewrites && r.image == plain.image, "other sizes with a list");
    check(memcmp(out_room.start, out, r.listing) == 0 && memcmp(image_room.start, image, r.image) == 0, "another listing or image with a list");
    list_size = 2 * (size_t)r.stems;
    memcpy(list, pairing_room.start, list_size);
    const uint8_t *at = text->at, *line = out, *behind = out + r.listing;
    if (is_marked(text->at, text->n)) {
        at += MARK_SIZE;
        line += MARK_SIZE;
    }
    size_t place = 0;
    for (size_t k = 0; k < r.stems; k++) {
        unsigned stem = entry_at(list, k);
        check(stem < statements() && (k == 0 || stem > entry_at(list, k - 1)), "stems that do not rise, or beyond the listing");
        for (; place < stem; place++) {
            at = (const uint8_t *)memchr(at, '\n', TEXT_ROOM) + 1;
        }
        check(line < behind && line[0] == at[0] && line[1] == at[1], "a line of another kind than its stem");
        line = (const uint8_t *)memchr(line, '\n', (size_t)(behind - line)) + 1;
    }
    check(line == behind, "a list that has not one entry a line");
    lists_written++;
    if (list_size > 0) {
        struct mortarbee_stemmed none = ask_stems(asked, r.listing, r.image, list_size - 1);
        check(none.number == 12 && none.place == statements(), "a list's room that is too short, and no 12 with the statement count");
    }
    check(ask_stems(asked, r.listing, r.image, list_size).number == 0, "rooms that are just long enough, and a refusal");
}

/* ---- the differences, by other code */

struct lines {
    size_t n;
    const uint8_t *at[MOST_LINES];
    size_t size[MOST_LINES];
};

struct wanted {
    unsigned number, whose;
    uint64_t place;
    size_t n;
    uint8_t at[MORTARBEE_DIFFERENCES_ROOM];
};

static struct lines first_lines, second_lines;
static struct wanted wanted;
static size_t pair_count, pair_first[MOST_LINES], pair_second[MOST_LINES];

static void split(struct lines *ls, const uint8_t *from, size_t n) {
    size_t at = is_marked(from, n) ? MARK_SIZE : 0;
    for (ls->n = 0; at < n; ls->n++) {
        const uint8_t *end = memchr(from + at, '\n', n - at);
        ls->at[ls->n] = from + at;
        ls->size[ls->n] = (size_t)(end - (from + at));
        at = (size_t)(end - from) + 1;
    }
}

static int same_line(size_t i, size_t j) {
    return first_lines.size[i] == second_lines.size[j] && memcmp(first_lines.at[i], second_lines.at[j], first_lines.size[i]) == 0;
}

static void pair_lines(size_t i, size_t j) {
    pair_first[pair_count] = i;
    pair_second[pair_count++] = j;
}

/* Without a list: what both begin with, then what the rest of both ends with. */
static void pair_alike(void) {
    size_t n = first_lines.n, m = second_lines.n, b = 0, e = 0;
    while (b < n && b < m && same_line(b, b)) {
        pair_lines(b, b);
        b++;
    }
    while (n - e > b && m - e > b && same_line(n - e - 1, m - e - 1)) {
        e++;
    }
    for (; e > 0; e--) {
        pair_lines(n - e, m - e);
    }
}

/* By a list; 13 and the entry's index where it is no good. */
static int pair_listed(const uint8_t *pairing, size_t size) {
    for (size_t k = 0; 2 * k < size; k++) {
        size_t i = 2 * k + 1 < size ? entry_at(pairing, k) : 65536;
        if (i >= first_lines.n || k >= second_lines.n || (k > 0 && i <= pair_first[k - 1])) {
            wanted.number = 13;
            wanted.place = k;
            return 0;
        }
        pair_lines(i, k);
    }
    return 1;
}

static void say_hex(unsigned long value, int digits) {
    while (digits-- > 0) {
        wanted.at[wanted.n++] = (uint8_t) "0123456789ABCDEF"[value >> 4 * digits & 15];
    }
}

static void say_line(const struct lines *ls, size_t i) {
    memcpy(wanted.at + wanted.n, ls->at[i], ls->size[i]);
    wanted.n += ls->size[i];
}

static void say_run(unsigned kind, const struct lines *ls, size_t from, size_t to) {
    for (; from < to; from++) {
        say_hex(kind, 2);
        say_hex(from, 4);
        say_line(ls, from);
        wanted.at[wanted.n++] = '\n';
    }
}

static void say_pair(size_t i, size_t j) {
    int alike = same_line(i, j);
    say_hex(alike ? 0x70 : 0x73, 2);
    say_hex(i, 4);
    say_hex(j, 4);
    if (!alike) {
        say_hex(first_lines.size[i] / 2, 2);
        say_line(&first_lines, i);
    }
    say_line(&second_lines, j);
    wanted.at[wanted.n++] = '\n';
}

/* 1 or 2 of a text, if it is refused so: asked of an entry that looks for these first. */
static int unread(const uint8_t *from, size_t n, unsigned whose) {
    struct mortarbee_sits r = mortarbee_where_sits(from, n, (size_t)-1);
    if (r.number != 1 && r.number != 2) {
        return 0;
    }
    wanted.number = (unsigned)r.number;
    wanted.place = r.place;
    wanted.whose = whose;
    return 1;
}

static void expect(const uint8_t *first, size_t n, const uint8_t *second, size_t m, int given, const uint8_t *pairing, size_t size) {
    wanted.number = wanted.whose = 0;
    wanted.place = wanted.n = pair_count = 0;
    if (unread(first, n, 1)) {
        return;
    }
    /* the second's form is judged before its own lines */
    if (is_marked(first, n) != is_marked(second, m)) {
        wanted.number = 1;
        wanted.whose = 2;
        return;
    }
    if (unread(second, m, 2)) {
        return;
    }
    split(&first_lines, first, n);
    split(&second_lines, second, m);
    if (!given) {
        pair_alike();
    } else if (!pair_listed(pairing, size)) {
        return;
    }
    size_t i = 0, j = 0;
    for (size_t k = 0; k < pair_count; k++) {
        say_run(0x71, &first_lines, i, pair_first[k]);
        say_run(0x72, &second_lines, j, pair_second[k]);
        say_pair(pair_first[k], pair_second[k]);
        i = pair_first[k] + 1;
        j = pair_second[k] + 1;
    }
    say_run(0x71, &first_lines, i, first_lines.n);
    say_run(0x72, &second_lines, j, second_lines.n);
}

/* ---- the differences that are told, applied to the first listing: the second, line by line */

static unsigned read_hex(const uint8_t *at, int digits) {
    unsigned value = 0;
    for (; digits-- > 0; at++) {
        value = value * 16 + (unsigned)(*at <= '9' ? *at - '0' : *at - 'A' + 10);
    }
    return value;
}

static int leads_to_second(const uint8_t *told, size_t n) {
    size_t i = 0, j = 0;
    for (size_t at = 0; at < n;) {
        size_t size = (size_t)((const uint8_t *)memchr(told + at, '\n', n - at) - (told + at));
        const uint8_t *line = told + at, *frame = line + 6;
        at += size + 1;
        unsigned kind = read_hex(line, 2);
        if (kind == 0x72 ? j >= second_lines.n : i >= first_lines.n) {
            return 0;
        }
        if (kind == 0x71) {
            i++;
            continue;
        }
        if (kind == 0x70) {
            frame = first_lines.at[i];
            size = first_lines.size[i];
            i++;
        } else if (kind == 0x73) {
            frame = line + 12 + 2 * read_hex(line + 10, 2);
            size -= (size_t)(frame - line);
            i++;
        } else {
            size -= 6;
        }
        if (j >= second_lines.n || size != second_lines.size[j] || memcmp(frame, second_lines.at[j], size) != 0) {
            return 0;
        }
        j++;
    }
    return i == first_lines.n && j == second_lines.n;
}

static struct mortarbee_differed ask_differences(int given, size_t room) {
    lend(&differences_room, room, next());
    begin_call();
    struct mortarbee_differed r = mortarbee_differences(listing_room.start, listing_room.n, second_room.start, second_room.n, (uint8_t)given, pairing_room.start,
                                                           pairing_room.n, differences_room.start, room);
    end_call();
    check(kept_from(&differences_room, r.text), "a byte changed on refusal or behind the differences");
    check(r.argument == 0 && r.amount == 0 && (r.number == 0 || r.text == 0), "a number that differences do not give");
    return r;
}

static void try_pair(const uint8_t *first, size_t n, const uint8_t *second, size_t m, int given, const uint8_t *pairing, size_t size) {
    lend(&listing_room, n, 0);
    memcpy(listing_room.start, first, n);
    lend(&second_room, m, 0);
    memcpy(second_room.start, second, m);
    lend(&pairing_room, size, 0);
    memcpy(pairing_room.start, pairing, size);
    expect(first, n, second, m, given, pairing, size);
    struct mortarbee_differed r = ask_differences(given, MORTARBEE_DIFFERENCES_ROOM);
    check(memcmp(listing_room.start, first, n) == 0 && memcmp(second_room.start, second, m) == 0, "a listing was changed");
    check(r.number == wanted.number && r.place == wanted.place && r.whose == wanted.whose, "differences that are refused otherwise");
    differences_refused[r.number]++;
    if (r.number != 0) {
        return;
    }
    differences_told++;
    check(r.text == wanted.n && memcmp(differences_room.start, wanted.at, wanted.n) == 0, "other differences");
    check(leads_to_second(differences_room.start, r.text), "differences that do not lead to the second listing");
    if (r.text > 0) {
        struct mortarbee_differed none = ask_differences(given, r.text - 1);
        check(none.number == 12 && none.place == first_lines.n && none.whose == 0, "a room that is too short, and no 12 with the first's count");
    }
    check(ask_differences(given, r.text).number == 0, "a room that is just long enough, and a refusal");
}

/* The text at hand, its output (`n` bytes of `out`) and the text before it, with the run's own list, a damaged one, and none. */
static void try_differences(const uint8_t *out, size_t n) {
    static uint8_t damaged_list[2 * MORTARBEE_STEMS_ROOM];
    try_pair(text->at, text->n, before->at, before->n, 0, list, 0);
    try_pair(text->at, text->n, text->at, text->n, 0, list, list_size);
    if (n > 0 || list_size > 0) {
        try_pair(text->at, text->n, out, n, 1, list, list_size);
        try_pair(text->at, text->n, out, n, 0, list, 0);
        try_pair(out, n, text->at, text->n, 0, list, 0);
        size_t size = about(list_size);
        size = size > sizeof damaged_list ? sizeof damaged_list : size;
        memset(damaged_list, 0, sizeof damaged_list);
        memcpy(damaged_list, list, size < list_size ? size : list_size);
        if (size > 0 && below(2)) {
            damaged_list[below(size)] = (uint8_t)below(6);
        }
        try_pair(text->at, text->n, out, n, 1, damaged_list, size);
    }
    lend_text();
}

#endif
