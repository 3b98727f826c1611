/* C-24 for fuzz.c: rooms that begin with zeros, and damaged ones. Each answer is held to a store that is read from the bytes by other code. */
#ifndef STORES_H
#define STORES_H

#include "../mortarbee.h"
#include "rooms.h"

#define PLACES 32
#define STORE_MOST (MORTARBEE_STORE_ROOM + 40)

static uint64_t store_calls, store_refusals[20];
static struct {
    size_t n;
    int damaged;
    uint8_t at[STORE_MOST];
} store;

static unsigned two_at(size_t at) { return store.at[at] * 256u + store.at[at + 1]; }
static unsigned family_at(size_t k) { return two_at(5 * k); }
static unsigned edition_at(size_t k) { return two_at(5 * k + 2); }
static unsigned switches_at(size_t k) { return store.at[5 * k + 4]; }
static int free_at(size_t k) { return family_at(k) == 0 && edition_at(k) == 0 && switches_at(k) == 0; }

static void put_place(size_t k, unsigned family, unsigned edition, unsigned switches) {
    uint8_t bytes[5] = {(uint8_t)(family >> 8), (uint8_t)family, (uint8_t)(edition >> 8), (uint8_t)edition, (uint8_t)switches};
    memcpy(store.at + 5 * k, bytes, 5);
}

/* 12, 19 or 0. */
static unsigned judged(void) {
    if (store.n < MORTARBEE_STORE_ROOM) {
        return 12;
    }
    for (size_t k = 0; k < PLACES; k++) {
        if (!free_at(k) && (edition_at(k) == 0 || switches_at(k) > 7)) {
            return 19;
        }
        for (size_t j = 0; j < k; j++) {
            if (!free_at(k) && family_at(j) == family_at(k) && edition_at(j) == edition_at(k)) {
                return 19;
            }
        }
    }
    return 0;
}

/* The place of an edition of a family, of its newest for 0, or the first free one; PLACES where there is none. */
static size_t place_of(unsigned family, unsigned edition) {
    size_t found = PLACES;
    for (size_t k = 0; k < PLACES; k++) {
        if (edition_at(k) != 0 && family_at(k) == family && (edition ? edition_at(k) == edition : found == PLACES || edition_at(k) > edition_at(found))) {
            found = k;
        }
    }
    return found;
}

static size_t free_place(void) {
    size_t k = 0;
    while (k < PLACES && !free_at(k)) {
        k++;
    }
    return k;
}

/* ---- the entries, each against the store as it should be before and after */

static void lend_store(void) {
    lend(&store_room, store.n, 0);
    memcpy(store_room.start, store.at, store.n);
    begin_call();
}

static void end_store(uint64_t number, uint64_t expected) {
    end_call();
    store_calls++;
    check(number == expected, "another refusal of the store");
    check(number != 19 || store.damaged, "19 after adding and dropping alone");
    check(memcmp(store_room.start, store.at, store.n) == 0, "the store is not what it should be");
    store_refusals[number]++;
}

static void add(unsigned family, unsigned switches) {
    uint64_t expected = judged(), edition = 0;
    lend_store();
    struct mortarbee_numbered r = mortarbee_add_edition(store_room.start, store.n, (uint16_t)family, switches & 1 ? (uint8_t)(1 + below(255)) : 0,
                                                        switches >> 1 & 1, switches >> 2 & 1);
    if (expected == 0) {
        size_t newest = place_of(family, 0), k = free_place();
        edition = newest < PLACES ? edition_at(newest) + 1 : 1;
        expected = k == PLACES || edition > 65535 ? 18 : 0;
        if (expected == 0) {
            put_place(k, family, (unsigned)edition, switches);
        }
    }
    end_store(r.number, expected);
    check(r.place == 0 && r.argument == 0 && r.amount == 0 && r.edition == (expected ? 0 : edition), "another number of the edition added");
}

static void drop(unsigned family) {
    uint64_t expected = judged(), edition = 0;
    lend_store();
    struct mortarbee_numbered r = mortarbee_drop_old(store_room.start, store.n, (uint16_t)family);
    if (expected == 0) {
        size_t newest = place_of(family, 0);
        expected = newest == PLACES ? 17 : 0;
        edition = newest == PLACES ? 0 : edition_at(newest);
        for (size_t k = 0; k < PLACES; k++) {
            if (newest < PLACES && k != newest && family_at(k) == family && edition_at(k) != 0) {
                put_place(k, 0, 0, 0);
            }
        }
    }
    end_store(r.number, expected);
    check(r.place == 0 && r.argument == 0 && r.amount == 0 && r.edition == (expected ? 0 : edition), "another number of the edition that stays");
}

/* What is to be found: a refusal, or the place. Edition 0 is the newest if `newest`, else it is unknown. */
static unsigned expected_of(unsigned family, unsigned edition, int newest, size_t *k) {
    unsigned expected = judged();
    *k = expected ? PLACES : edition || newest ? place_of(family, edition) : PLACES;
    return expected ? expected : *k == PLACES ? 17 : 0;
}

static void get(unsigned family, unsigned edition, int newest) {
    size_t k;
    unsigned expected = expected_of(family, newest ? 0 : edition, newest, &k);
    lend_store();
    struct mortarbee_found r = newest ? mortarbee_get_newest(store_room.start, store.n, (uint16_t)family)
                                      : mortarbee_get_edition(store_room.start, store.n, (uint16_t)family, (uint16_t)edition);
    end_store(r.number, expected);
    check(r.place == 0 && r.argument == 0 && r.amount == 0, "a place or a number at fault with an edition");
    check(r.edition == (expected ? 0 : edition_at(k)), "another edition was found");
    check(r.comments <= 1 && r.callf <= 1 && r.folds <= 1 && r.comments + 2 * r.callf + 4 * r.folds == (expected ? 0 : switches_at(k)), "other settings were found");
}

/* A place by itself: what it holds, or that it is free, as it is from PLACES on. */
static void show(size_t k) {
    unsigned expected = judged();
    lend_store();
    struct mortarbee_shown r = mortarbee_show_place(store_room.start, store.n, k);
    end_store(r.number, expected);
    int held = expected == 0 && k < PLACES && !free_at(k);
    check(r.place == 0 && r.argument == 0 && r.amount == 0, "a place or a number at fault with a place of the store");
    check(r.held == (uint64_t)held && r.family == (held ? family_at(k) : 0) && r.edition == (held ? edition_at(k) : 0), "another edition is shown");
    check(r.comments <= 1 && r.callf <= 1 && r.folds <= 1 && r.comments + 2 * r.callf + 4 * r.folds == (held ? switches_at(k) : 0), "other settings are shown");
}

/* ---- which store, and what is asked of it */

static unsigned any_family(void) { return below(9) ? (unsigned)below(4) : below(3) ? (unsigned)below(65536) : 65535; }
static unsigned any_edition(void) { return below(9) ? (unsigned)below(12) : below(3) ? (unsigned)below(65536) : 65535; }

static void zeros(void) {
    store.n = MORTARBEE_STORE_ROOM + below(sizeof store.at - MORTARBEE_STORE_ROOM + 1);
    store.damaged = 0;
    for (size_t i = 0; i < sizeof store.at; i++) {
        store.at[i] = i < MORTARBEE_STORE_ROOM ? 0 : (uint8_t)next();
    }
}

/* A byte, a place, all of it, or its end. */
static void damage_store(void) {
    store.damaged = 1;
    switch (below(4)) {
    case 0:
        store.at[below(MORTARBEE_STORE_ROOM)] = below(2) ? (uint8_t)next() : (uint8_t)below(9);
        break;
    case 1:
        put_place(below(PLACES), any_family(), below(2) ? any_edition() : 65533 + (unsigned)below(3), (unsigned)below(9));
        break;
    case 2:
        for (size_t i = 0; i < MORTARBEE_STORE_ROOM && below(4) == 0; i++) {
            store.at[i] = (uint8_t)next();
        }
        break;
    default:
        store.n = about(MORTARBEE_STORE_ROOM);
    }
}

static void try_store(void) {
    if (below(200) == 0) {
        zeros();
    } else if (below(200) == 0) {
        damage_store();
    }
    switch (below(6)) {
    case 0:
    case 1:
        add(any_family(), (unsigned)below(8));
        break;
    case 2:
        get(any_family(), any_edition(), 0);
        break;
    case 3:
        get(any_family(), 0, 1);
        break;
    case 4:
        show(below(8) ? below(PLACES) : PLACES - 1 + (size_t)(next() >> below(64)) % (SIZE_MAX - PLACES));
        break;
    default:
        if (below(4) == 0) {
            drop(any_family());
        }
    }
}

#endif
