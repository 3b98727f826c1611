/* Hands arbitrary bytes to each entry for a time, and looks for a crash, a byte changed on refusal or behind a result, a hang, source lines that alter an
   answer, and pages, addresses, editions, runs under an edition, images read back, texts, texts read, lists of stems and differences that are not what C-17, C-24,
   C-21, C-16, C-19 and C-13 say.
   usage: fuzz [--seed N] [--seconds N]. What failed is written to fuzz.failed. Built by ../build.sh. */
#include "../mortarbee.h"
#include "rooms.h"
#include "texts.h"
#include "places.h"
#include "stores.h"
#include "images.h"
#include "people.h"
#include "reads.h"
#include "salvages.h"
#include "answers.h"

static void lend_text(void);
#include "differences.h"
#include "pages.h"

static uint64_t done, refusals[13], marked, compared, under_runs;
static unsigned asked; /* the settings, by number: 1 keeps comments, 2 lets Callf shrink, 4 lets folds run */

static struct mortarbee_reply call(int rewrite, size_t out_n, size_t image_n, uint64_t fill) {
    struct mortarbee_reply r;
    lend(&out_room, rewrite ? out_n : 0, fill);
    lend(&image_room, image_n, fill + 1);
    begin_call();
    r = rewrite ? mortarbee_optimize_jumps(asked & 1, asked >> 1 & 1, asked >> 2 & 1, listing_room.start, listing_room.n, out_room.start, out_n, image_room.start, image_n)
                : mortarbee_assemble(listing_room.start, listing_room.n, image_room.start, image_n);
    end_call();
    check(memcmp(listing_room.start, text->at, text->n) == 0, "the listing was changed");
    check(r.number <= 12, "a refusal above 12");
    if (r.number != 0) {
        check(kept_from(&out_room, 0) && kept_from(&image_room, 0), "a byte changed on refusal");
        check(r.listing == 0 && r.rewrites == 0 && r.image == 0, "a refusal with sizes");
        check((r.number >= 8 && r.number <= 11) || (r.argument == 0 && r.amount == 0), "a number at fault with another refusal");
        check(r.argument < 16 && r.amount >= INT32_MIN && r.amount <= INT32_MAX, "an argument or a number at fault out of range");
    } else {
        check(r.listing <= out_room.n && r.image <= image_room.n, "a result larger than its room");
        check(kept_from(&out_room, r.listing) && kept_from(&image_room, r.image), "a byte changed behind the result");
        check(r.place == 0 && r.argument == 0 && r.amount == 0, "a place without a refusal");
    }
    return r;
}

static int same(struct mortarbee_reply a, struct mortarbee_reply b) { return memcmp(&a, &b, sizeof a) == 0; }

static uint8_t out[MORTARBEE_LISTING_ROOM], image[MORTARBEE_IMAGE_ROOM];

/* One entry on the text at hand: rooms that are enough, then rooms about the size of the result. The result stays in `out` and `image`. */
static struct mortarbee_reply try_entry(int rewrite) {
    struct mortarbee_reply r = call(rewrite, MORTARBEE_LISTING_ROOM, MORTARBEE_IMAGE_ROOM, next());
    check(r.number < 12, "12 in rooms that are never too short");
    refusals[r.number]++;
    done += r.number == 0;
    if (r.number == 0) {
        memcpy(out, out_room.start, r.listing);
        memcpy(image, image_room.start, r.image);
    }
    size_t out_n = about(r.listing), image_n = about(r.image);
    struct mortarbee_reply again = call(rewrite, out_n, image_n, next());
    if (r.number == 0 && ((rewrite && out_n < r.listing) || image_n < r.image)) {
        check(again.number == 12 && again.place == statements(), "a room that is too short, and no 12 with the statement count");
        refusals[12]++;
    } else {
        check(same(r, again), "another answer to the same text");
        check(memcmp(out, out_room.start, again.listing) == 0, "another listing for the same text");
        check(memcmp(image, image_room.start, again.image) == 0, "another image for the same text");
    }
    return r;
}

static void lend_text(void) {
    lend(&listing_room, text->n, 0);
    memcpy(listing_room.start, text->at, text->n);
}

/* Whether each line of the new listing begins as one of the text does, kind and source line, in the same order. */
static int in_order(size_t n) {
    size_t from = MARK_SIZE;
    for (size_t i = MARK_SIZE; i < n; i++) {
        if (out[i - 1] == '\n') {
            while (from + 10 <= text->n && (text->at[from - 1] != '\n' || memcmp(out + i, text->at + from, 10) != 0)) {
                from++;
            }
            if (from++ + 10 > text->n) {
                return 0;
            }
        }
    }
    return 1;
}

/* C-20: in the old form the same text has the same answer, limits apart, and the same listing but for the source lines. */
static void without_lines(struct mortarbee_reply r) {
    static struct text old, bare;
    struct text *given = text;
    if (!take_lines(&old, text->at, text->n) || is_marked(old.at, old.n)) {
        return; /* a line has no source line, or the first is 7D, a source line and 02 */
    }
    text = &old;
    lend_text();
    struct mortarbee_reply other = call(1, MORTARBEE_LISTING_ROOM, MORTARBEE_IMAGE_ROOM, next());
    text = given;
    if (r.number == 2 || other.number == 2) {
        return;
    }
    compared++;
    check(r.number != 0 || (is_marked(out, r.listing) && take_lines(&bare, out, r.listing)), "a new listing of another form");
    check(r.number != 0 || in_order(r.listing), "a source line that was not there");
    r.listing = r.number ? 0 : bare.n;
    check(same(r, other), "source lines altered the answer");
    check(memcmp(bare.at, out_room.start, r.listing) == 0, "source lines altered the new listing");
    check(memcmp(image, image_room.start, r.image) == 0, "source lines altered the image");
}

/* A run under an edition of the store at hand, or under a newest: as it is under the settings that are found there. `out` and `image` hold that run. */
static void try_under(void) {
    size_t k = below(PLACES), out_n = about(MORTARBEE_LISTING_ROOM), image_n = about(MORTARBEE_IMAGE_ROOM);
    int held = below(4) != 0;
    unsigned family = held ? family_at(k) : any_family(), edition = held && below(3) ? edition_at(k) : any_edition();
    unsigned expected = expected_of(family, edition, 1, &k);
    struct mortarbee_reply plain = {0}, r;
    if (expected == 0) {
        asked = switches_at(k);
        plain = call(1, out_n, image_n, next());
        memcpy(out, out_room.start, plain.listing);
        memcpy(image, image_room.start, plain.image);
    }
    lend(&out_room, out_n, next());
    lend(&image_room, image_n, next());
    lend_store();
    r = mortarbee_optimize_jumps_under(store_room.start, store.n, (uint16_t)family, (uint16_t)edition, listing_room.start, listing_room.n, out_room.start, out_n,
                                       image_room.start, image_n);
    end_store(expected ? r.number : 0, expected);
    under_runs += r.number == 0;
    plain.number = expected ? expected : plain.number;
    check(same(plain, r), "another answer under an edition");
    check(memcmp(listing_room.start, text->at, text->n) == 0, "the listing was changed");
    check(memcmp(out, out_room.start, r.listing) == 0 && kept_from(&out_room, r.listing), "another listing under an edition");
    check(memcmp(image, image_room.start, r.image) == 0 && kept_from(&image_room, r.image), "another image under an edition");
}

static void hand_over(uint64_t number) {
    asked = number % 8;
    lend_text();
    struct mortarbee_reply plain = try_entry(0);
    try_check(plain);
    try_places(plain);
    try_positions();
    lend_text();
    try_people(plain);
    try_reading(plain.number != 1 && plain.number != 2);
    struct mortarbee_reply rewritten = try_entry(1);
    size_t written = rewritten.number ? 0 : rewritten.listing;
    static uint8_t new_listing[MORTARBEE_LISTING_ROOM];
    memcpy(new_listing, out, written);
    lend_text();
    try_page(asked, rewritten, out, image);
    try_stems(asked, rewritten, out, image);
    check(plain.number == rewritten.number && plain.place == rewritten.place && plain.argument == rewritten.argument && plain.amount == rewritten.amount,
          "assembled and rewritten are not refused alike");
    check(plain.number != 0 || rewritten.image <= plain.image, "a rewritten image that is longer");
    if (is_marked(text->at, text->n)) {
        marked++;
        without_lines(rewritten);
    }
    for (int i = 0; i < 8; i++) {
        try_store();
    }
    lend_text();
    try_under();
    try_images();
    try_salvage();
    try_differences(new_listing, written);
    try_answers(number % 8, text->at, text->n);
}

int main(int argc, char **argv) {
    unsigned long seed = 1, seconds = 600;
    for (int i = 1; i + 1 < argc; i += 2) {
        if (strcmp(argv[i], "--seed") == 0) {
            seed = strtoul(argv[i + 1], NULL, 10);
        } else if (strcmp(argv[i], "--seconds") == 0) {
            seconds = strtoul(argv[i + 1], NULL, 10);
        }
    }
    state = seed * 0x9E3779B97F4A7C15u + 1;
    int watched[] = {SIGALRM, SIGSEGV, SIGBUS, SIGILL, SIGFPE, SIGABRT};
    for (size_t i = 0; i < sizeof watched / sizeof *watched; i++) {
        signal(watched[i], on_signal);
    }
    make_room(&listing_room, TEXT_ROOM);
    make_room(&out_room, MORTARBEE_LISTING_ROOM + 16);
    make_room(&image_room, MORTARBEE_IMAGE_ROOM + 16);
    make_room(&store_room, STORE_MOST);
    make_room(&people_room, MORTARBEE_TEXT_ROOM);
    make_difference_rooms();
    zeros();
    double end = now() + (double)seconds;
    uint64_t texts = 0;
    while (now() < end) {
        make(text, before);
        hand_over(texts);
        texts++;
        struct text *swap = before;
        before = text;
        text = swap;
    }
    printf("seed %lu, %lu s: %llu texts, %llu calls, %llu accepted, the longest call %.3f s; refused:", seed, seconds,
           (unsigned long long)texts, (unsigned long long)calls, (unsigned long long)done, longest);
    for (int i = 1; i <= 12; i++) {
        printf(" %d: %llu%s", i, (unsigned long long)refusals[i], i < 12 ? "," : "");
    }
    printf("; with source lines: %llu texts, %llu compared with the same in the old form", (unsigned long long)marked, (unsigned long long)compared);
    printf("; places: %llu with an address, %llu refused", (unsigned long long)addresses, (unsigned long long)without_address);
    printf("; pages: %llu, lines 7E: %llu, tables of positions: %llu", (unsigned long long)pages_printed, (unsigned long long)lines_printed,
           (unsigned long long)tables_filled);
    printf("; images: %llu read back, %llu refused", (unsigned long long)read_back_done, (unsigned long long)read_back_refused);
    printf("; texts for people: %llu of %llu bytes", (unsigned long long)texts_written, (unsigned long long)text_bytes);
    printf("; texts read: %llu, refused 15: %llu, 2: %llu", (unsigned long long)texts_read, (unsigned long long)texts_unread, (unsigned long long)texts_over);
    printf("; salvaged: %llu texts, %llu lines replaced, %llu times lines left off", (unsigned long long)salvaged_texts,
           (unsigned long long)replaced_lines, (unsigned long long)left_off);
    printf("; lists of stems: %llu; differences: %llu told, refused 1: %llu, 2: %llu, 13: %llu", (unsigned long long)lists_written,
           (unsigned long long)differences_told, (unsigned long long)differences_refused[1], (unsigned long long)differences_refused[2],
           (unsigned long long)differences_refused[13]);
    printf("; audits: %llu, rewrites told: %llu, targets: %llu, rows: %llu, reasons: %llu", (unsigned long long)audits,
           (unsigned long long)told_rewrites, (unsigned long long)told_targets, (unsigned long long)told_rows, (unsigned long long)told_reasons);
    printf("; stores: %llu calls, %llu accepted runs under an edition; refused:", (unsigned long long)store_calls, (unsigned long long)under_runs);
    for (int i = 12; i <= 19; i++) {
        if (i == 12 || i >= 17) {
            printf(" %d: %llu%s", i, (unsigned long long)store_refusals[i], i < 19 ? "," : "\n");
        }
    }
    return 0;
}
