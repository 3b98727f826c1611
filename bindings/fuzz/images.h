/* C-21 for fuzz.c: images of any bytes, and the image of the text at hand, read back and assembled again. */
#ifndef IMAGES_H
#define IMAGES_H

#include "../mortarbee.h"
#include "rooms.h"

#define BACK_ROOM 50176
#define IMAGE_MOST (MORTARBEE_IMAGE_ROOM + 2)

static uint64_t read_back_done, read_back_refused;
static uint8_t back[IMAGE_MOST];

static struct mortarbee_reply ask_back(size_t n, size_t start, size_t room) {
    lend(&image_room, n, 0);
    memcpy(image_room.start, back, n);
    lend(&out_room, room, next());
    begin_call();
    struct mortarbee_reply r = mortarbee_read_back(image_room.start, n, start, out_room.start, room);
    end_call();
    check(memcmp(image_room.start, back, n) == 0, "the image was changed");
    check(kept_from(&out_room, r.number ? 0 : r.listing), "a byte changed on refusal or behind what was read back");
    check(r.rewrites == 0 && r.image == 0 && r.argument == 0 && r.amount == 0, "a number that reading back does not give");
    return r;
}

/* What comes out assembles to zeros up to the start and the same bytes from there on. */
static void assembles_again(size_t n, size_t start, struct mortarbee_reply r) {
    static uint8_t listing[BACK_ROOM];
    memcpy(listing, out_room.start, r.listing);
    lend(&image_room, MORTARBEE_IMAGE_ROOM, next());
    begin_call();
    struct mortarbee_reply again = mortarbee_assemble(listing, r.listing, image_room.start, MORTARBEE_IMAGE_ROOM);
    end_call();
    check(again.number == 0, "what was read back does not assemble");
    check(again.image == (start == n ? 0 : n), "an image of another length");
    check(start == n || memcmp(image_room.start + start, back + start, n - start) == 0, "other bytes than were read back");
}

static void try_image(size_t n) {
    size_t start = below(8) == 0 ? n + below(3) : below(3) == 0 ? below(n + 1) : n > 3000 ? n - below(3000) : 0;
    struct mortarbee_reply r = ask_back(n, start, BACK_ROOM);
    check(r.number == (start > n ? 16 : n > MORTARBEE_IMAGE_ROOM ? 2 : r.number), "16, then 2");
    check(r.number == 0 || r.number == 2 || r.number == 16, "a refusal that reading back does not give");
    read_back_done += r.number == 0;
    read_back_refused += r.number != 0;
    if (r.number == 0) {
        size_t listing = r.listing;
        assembles_again(n, start, r);
        if (listing > 0) {
            check(ask_back(n, start, listing - 1).number == 12, "a room that is too short, and no 12");
            check(ask_back(n, start, listing).number == 0, "a room that is long enough, and a refusal");
        }
    }
}

static void try_images(void) {
    size_t n = below(4) ? below(3100) : below(40) == 0 ? MORTARBEE_IMAGE_ROOM - 1 + below(3) : below(600);
    for (size_t i = 0; i < n; i++) {
        back[i] = (uint8_t)next();
    }
    try_image(n);
}

#endif
