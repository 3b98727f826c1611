/* For fuzz.c: the image of a run is held against its own listing, whole and damaged, the rewrites are counted, the lines of the targets are looked
   at, and why something stays is asked. */
#ifndef ANSWERS_H
#define ANSWERS_H

#include "../mortarbee.h"
#include "rooms.h"

static uint64_t audits, told_rewrites, told_targets, told_reasons, told_rows;
static uint8_t run_image[MORTARBEE_IMAGE_ROOM], shipped_bytes[MORTARBEE_IMAGE_ROOM + 1];

/* The settings by number: 1 keeps comments, 2 lets Callf shrink, 4 lets folds run. */
static struct mortarbee_audited ask_audit(unsigned set, const uint8_t *from, size_t n, size_t shipped_n) {
    lend(&listing_room, n, 0);
    memcpy(listing_room.start, from, n);
    lend(&image_room, shipped_n, 0);
    memcpy(image_room.start, shipped_bytes, shipped_n);
    begin_call();
    struct mortarbee_audited r = mortarbee_audit(set & 1, set & 2, set & 4, listing_room.start, n, image_room.start, shipped_n);
    end_call();
    check(memcmp(listing_room.start, from, n) == 0 && memcmp(image_room.start, shipped_bytes, shipped_n) == 0, "an audit changed what it was lent");
    audits++;
    return r;
}

static struct mortarbee_told ask_steps(unsigned set, const uint8_t *from, size_t n, size_t room) {
    lend(&listing_room, n, 0);
    memcpy(listing_room.start, from, n);
    lend(&out_room, room, next());
    begin_call();
    struct mortarbee_told r = mortarbee_steps(set & 1, set & 2, set & 4, listing_room.start, n, out_room.start, room);
    end_call();
    check(memcmp(listing_room.start, from, n) == 0, "the listing was changed");
    check(kept_from(&out_room, r.number ? 0 : r.lines), "a byte changed on refusal or behind the lines");
    return r;
}

static struct mortarbee_aimed ask_targets(unsigned set, const uint8_t *from, size_t n, size_t room) {
    lend(&listing_room, n, 0);
    memcpy(listing_room.start, from, n);
    lend(&out_room, room, next());
    begin_call();
    struct mortarbee_aimed r = mortarbee_targets(set & 1, set & 2, set & 4, listing_room.start, n, out_room.start, room);
    end_call();
    check(memcmp(listing_room.start, from, n) == 0, "the listing was changed");
    check(kept_from(&out_room, r.number ? 0 : r.lines), "a byte changed on refusal or behind the lines of the targets");
    return r;
}

/* A line is not marked where place and offset are the same and the place is not FFFF. */
static void try_targets(unsigned set, const uint8_t *from, size_t n) {
    struct mortarbee_aimed r = ask_targets(set, from, n, MORTARBEE_TARGETS_ROOM);
    check(r.number == 0 && r.lines == 45 * r.transfers && r.marked <= r.transfers, "the counts of the targets");
    uint64_t marked = 0;
    for (uint64_t i = 0; i < r.transfers; i++) {
        const uint8_t *line = out_room.start + 45 * i;
        int same = memcmp(line + 20, line + 36, 8) == 0 && memcmp(line + 20, "FFFF", 4) != 0;
        check(memcmp(line, same ? "7400" : "7401", 4) == 0 && line[44] == '\n', "a target is marked, or is not, against its numbers");
        marked += !same;
    }
    check(marked == r.marked, "the count of the marked targets");
    if (r.transfers > 0) {
        check(ask_targets(set, from, n, r.lines - 1).number == 12, "a room that is too short for the targets, and no 12");
    }
    told_targets += r.transfers;
}

static struct mortarbee_mapped ask_map(unsigned set, const uint8_t *from, size_t n, size_t room) {
    lend(&listing_room, n, 0);
    memcpy(listing_room.start, from, n);
    lend(&out_room, room, next());
    begin_call();
    struct mortarbee_mapped r = mortarbee_map(set & 1, set & 2, set & 4, listing_room.start, n, out_room.start, room);
    end_call();
    check(memcmp(listing_room.start, from, n) == 0, "the listing was changed");
    check(kept_from(&out_room, r.number ? 0 : r.lines), "a byte changed on refusal or behind the rows");
    return r;
}

static uint64_t address_in(const uint8_t *digits) {
    uint64_t a = 0;
    for (int i = 0; i < 8; i++) {
        a = 16 * a + (digits[i] <= '9' ? digits[i] - '0' : digits[i] - 'A' + 10);
    }
    return a;
}

/* Rows rise in both images, a dropped one has no byte in the short one, and what no row holds of the run's image is zero. */
static void try_map(unsigned set, const uint8_t *from, size_t n, size_t image_n) {
    struct mortarbee_mapped r = ask_map(set, from, n, MORTARBEE_MAP_ROOM);
    check(r.number == 0 && r.lines == 37 * r.rows, "the count of the rows");
    uint64_t long_end = 0, short_end = 0;
    for (uint64_t i = 0; i < r.rows; i++) {
        const uint8_t *line = out_room.start + 37 * i;
        int dropped = line[1] == '9';
        uint64_t a = address_in(line + 4), b = address_in(line + 12), c = address_in(line + 20), d = address_in(line + 28);
        check(line[0] == '7' && (dropped || line[1] == '8') && line[36] == '\n', "a row is no line");
        check(long_end <= a && a < b && short_end <= c && (dropped ? c == d : c < d && d <= image_n), "a row against its neighbours");
        for (uint64_t at = short_end; at < c && at < image_n; at++) {
            check(run_image[at] == 0, "a byte that no row holds, and no zero");
        }
        long_end = b, short_end = d;
    }
    for (uint64_t at = short_end; at < image_n; at++) {
        check(run_image[at] == 0, "a byte behind the last row, and no zero");
    }
    if (r.rows > 0) {
        check(ask_map(set, from, n, r.lines - 1).number == 12, "a room that is too short for the rows, and no 12");
    }
    told_rows += r.rows;
}

static struct mortarbee_told ask_why(unsigned set, const uint8_t *from, size_t n, size_t room) {
    lend(&listing_room, n, 0);
    memcpy(listing_room.start, from, n);
    lend(&out_room, room, next());
    begin_call();
    struct mortarbee_told r = mortarbee_why(set & 1, set & 2, set & 4, listing_room.start, n, out_room.start, room);
    end_call();
    check(memcmp(listing_room.start, from, n) == 0, "the listing was changed");
    check(kept_from(&out_room, r.number ? 0 : r.lines), "a byte changed on refusal or behind the lines");
    return r;
}

/* Each line has a reason; a room that holds the lines exactly is enough, and one byte less is not. */
static void try_why(unsigned set, const uint8_t *from, size_t n, uint64_t rewrites) {
    struct mortarbee_told r = ask_why(set, from, n, MORTARBEE_WHY_ROOM);
    check(r.number == 0 && r.lines % 27 == 0 && r.rewrites == rewrites, "no reasons, or other rewrites than the run's");
    for (uint64_t at = 0; at < r.lines; at += 27) {
        const uint8_t *line = out_room.start + at;
        check(line[0] == '7' && line[1] == '5' && line[26] == 10, "a reason is no line");
        check(line[8] == '0' && line[9] > '0' && line[9] < '6', "a line without a reason: a rewrite remains");
    }
    told_reasons += r.lines / 27;
    if (r.lines > 0) {
        check(ask_why(set, from, n, r.lines).number == 0, "a room that is just enough for the reasons, and 12");
        check(ask_why(set, from, n, r.lines - 1).number == 12, "a room that is too short for the reasons, and no 12");
    }
}

static void try_audit(unsigned set, const uint8_t *from, size_t n, size_t image_n) {
    memcpy(shipped_bytes, run_image, image_n);
    struct mortarbee_audited r = ask_audit(set, from, n, image_n);
    check(r.number == 0 && r.finding == 0, "the run's own image is not the same");
    if (image_n > 0) {
        size_t at = next() % image_n;
        r = ask_audit(set, from, n, at);
        check(r.finding == 2 && r.address == at, "an image that ends early is not found");
        shipped_bytes[at] ^= 1;
        r = ask_audit(set, from, n, image_n);
        check(r.finding == 1 && r.address == at && r.shipped == shipped_bytes[at] && r.wanted == run_image[at], "a changed byte is not found");
        shipped_bytes[at] ^= 1;
    }
    shipped_bytes[image_n] = 0;
    r = ask_audit(set, from, n, image_n + 1);
    check(r.finding == 3 && r.address == image_n, "an image that goes on is not found");
}

static void try_answers(unsigned set, const uint8_t *from, size_t n) {
    lend(&listing_room, n, 0);
    memcpy(listing_room.start, from, n);
    lend(&out_room, MORTARBEE_LISTING_ROOM, 0);
    lend(&image_room, MORTARBEE_IMAGE_ROOM, 0);
    struct mortarbee_reply run = mortarbee_optimize_jumps(set & 1, set & 2, set & 4, listing_room.start, n, out_room.start, MORTARBEE_LISTING_ROOM, image_room.start,
                                                          MORTARBEE_IMAGE_ROOM);
    memcpy(run_image, image_room.start, run.number ? 0 : run.image);
    if (run.number) {
        struct mortarbee_audited r = ask_audit(set, from, n, 0);
        struct mortarbee_told t = ask_steps(set, from, n, 0);
        check(r.number == run.number && r.place == run.place && r.argument == run.argument && r.amount == run.amount, "an audit refused otherwise than the run");
        struct mortarbee_aimed a = ask_targets(set, from, n, 0);
        check(a.number == run.number && a.place == run.place && a.argument == run.argument && a.amount == run.amount, "the targets refused otherwise than the run");
        check(t.number == run.number && t.place == run.place && t.argument == run.argument && t.amount == run.amount, "the rewrites refused otherwise than the run");
        struct mortarbee_mapped m = ask_map(set, from, n, 0);
        check(m.number == run.number && m.place == run.place && m.argument == run.argument && m.amount == run.amount, "the map refused otherwise than the run");
        struct mortarbee_told w = ask_why(set, from, n, 0);
        check(w.number == run.number && w.place == run.place && w.argument == run.argument && w.amount == run.amount, "why refused otherwise than the run");
        return;
    }
    try_audit(set, from, n, run.image);
    try_targets(set, from, n);
    try_map(set, from, n, run.image);
    struct mortarbee_told t = ask_steps(set, from, n, 21 * run.rewrites);
    check(t.number == 0 && t.rewrites == run.rewrites && t.lines == 21 * run.rewrites, "other rewrites than the run's");
    if (run.rewrites > 0) {
        check(ask_steps(set, from, n, 21 * run.rewrites - 1).number == 12, "a room that is too short for the rewrites, and no 12");
    }
    told_rewrites += run.rewrites;
    try_why(set, from, n, run.rewrites);
}

#endif
