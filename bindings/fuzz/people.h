/* C-16 for fuzz.c: the text at hand as a listing for people, against a writer of other code. */
#ifndef PEOPLE_H
#define PEOPLE_H

#include "../mortarbee.h"
#include "places.h"
#include "rooms.h"

static uint64_t texts_written, text_bytes;
static struct room people_room;
static char expected[MORTARBEE_TEXT_ROOM + 400], *expected_end;

/* Mnemonics and kinds by form: # an immediate, R a register, a dot anything else. */
static const char *const PEOPLE[70] = {
    "add #",    "add .",   "add R",   "addc #",  "addc .", "addc R", "sub #",  "sub .",   "sub R",   "subc #",  "subc .", "subc R", "inc .",   "inc R",
    "dec .",    "dec R",   "mul",     "div",     "and #",  "and .",  "and R",  "or #",    "or .",    "or R",    "xor #",  "xor .",  "xor R",   "rol",
    "rolc",     "ror",     "rorc",    "ld .",    "ld R",   "st .",   "st R",   "mov #.",  "mov #R",  "ldc",     "push .", "pop .",  "xch .",   "xch R",
    "jmp .",    "jmpf .",  "br .",    "brf .",   "bz .",   "bnz .",  "bp ...", "bpc ...", "bn ...",  "dbnz ..", "dbnz R.", "be #.", "be ..",   "be R#.",
    "bne #.",   "bne ..",  "bne R#.", "call .",  "callf .", "callr .", "ret",  "reti",    "clr1 ..", "set1 ..", "not1 ..", "nop",   "ldf",     "stf"};

static void write_name(uint64_t n) { expected_end += sprintf(expected_end, n < 0x8000 ? "g%05u" : ".l%05u", (unsigned)(n & 0x7FFF)); }

static int is_leaf(size_t at) { return digits(at, 2) < 2; }

/* The expression whose digits begin at a place; where they end. */
static size_t write_expression(size_t at) {
    uint64_t tag = digits(at, 2);
    if (tag == 0) {
        expected_end += sprintf(expected_end, "%d", (int)(int32_t)digits(at + 2, 8));
        return at + 10;
    }
    if (tag == 1) {
        write_name(digits(at + 2, 4));
        return at + 6;
    }
    if (tag >= 0x20) {
        expected_end += sprintf(expected_end, "%c(", "-><"[tag - 0x20]);
        at = write_expression(at + 2);
        *expected_end++ = ')';
        return at;
    }
    at += 2;
    for (int side = 0; side < 2; side++) {
        int leaf = is_leaf(at);
        expected_end += sprintf(expected_end, "%s", leaf ? "" : "(");
        at = write_expression(at);
        expected_end += sprintf(expected_end, "%s", leaf ? "" : ")");
        if (side == 0) {
            *expected_end++ = "+-*/^&|"[tag - 0x10];
        }
    }
    return at;
}

static void write_instruction(size_t at) {
    const char *form = PEOPLE[digits(at, 2)], *kinds = strchr(form, ' ');
    expected_end += sprintf(expected_end, "%.*s", (int)(kinds ? kinds - form : (long)strlen(form)), form);
    at += 2;
    for (const char *k = kinds ? kinds + 1 : ""; *k; k++) {
        *expected_end++ = k == kinds + 1 ? ' ' : ',';
        if (*k == 'R') {
            expected_end += sprintf(expected_end, "@R%u", (unsigned)digits(at, 2));
            at += 2;
        } else {
            expected_end += sprintf(expected_end, "%s", *k == '#' ? "#" : "");
            at = write_expression(at);
        }
    }
}

static void write_data(const char *word, size_t at) {
    uint64_t n = digits(at, 2);
    expected_end += sprintf(expected_end, "%s", word);
    at += 2;
    for (uint64_t i = 0; i < n; i++) {
        *expected_end++ = i ? ',' : ' ';
        at = write_expression(at);
    }
}

/* The line of statement n of a good listing. */
static void write_line(size_t n) {
    size_t at = line_of(n) + (is_marked(text->at, text->n) ? 10 : 2);
    switch (kind_of(n)) {
    case 1:
        write_instruction(at);
        break;
    case 2:
        write_name(digits(at, 4));
        *expected_end++ = ':';
        break;
    case 3:
        write_name(digits(at, 4));
        *expected_end++ = '=';
        write_expression(at + 4);
        break;
    case 4:
        expected_end += sprintf(expected_end, "%s", text->at[at] == '\n' ? ".comment" : ".comment ");
        while (text->at[at] != '\n') {
            *expected_end++ = (char)text->at[at++];
        }
        break;
    case 5:
        expected_end += sprintf(expected_end, ".org %u", (unsigned)digits(at, 4));
        break;
    case 8:
        expected_end += sprintf(expected_end, ".align %u,%u", (unsigned)digits(at, 2), (unsigned)digits(at + 2, 4));
        break;
    default:
        write_data(kind_of(n) == 6 ? ".byte" : ".word", at);
    }
    *expected_end++ = '\n';
}

static struct mortarbee_reply ask_people(size_t room) {
    lend(&people_room, room, next());
    begin_call();
    struct mortarbee_reply r = mortarbee_text(listing_room.start, listing_room.n, people_room.start, room);
    end_call();
    check(memcmp(listing_room.start, text->at, text->n) == 0, "the listing was changed");
    check(kept_from(&people_room, r.number ? 0 : r.listing), "a byte changed on refusal or behind the text");
    check(r.rewrites == 0 && r.image == 0 && r.argument == 0 && r.amount == 0, "a number that a text does not give");
    return r;
}

/* `whole` is what assembling says of the text: a text for people is refused 1 and 2 alike, and nothing else. */
static void try_people(struct mortarbee_reply whole) {
    struct mortarbee_reply r = ask_people(MORTARBEE_TEXT_ROOM);
    int unread = whole.number == 1 || whole.number == 2;
    check(unread ? r.number == whole.number && r.place == whole.place : r.number == 0, "1 and 2 as for any listing, and no 12 in a room that is never too short");
    if (unread) {
        return;
    }
    size_t count = statements(), n = r.listing;
    expected_end = expected;
    for (size_t i = 0; i < count; i++) {
        write_line(i);
    }
    check(n == (size_t)(expected_end - expected) && memcmp(people_room.start, expected, n) == 0, "another text");
    texts_written++;
    text_bytes += n;
    if (n > 0) {
        r = ask_people(n - 1);
        check(r.number == 12 && r.place == count, "a room that is too short, and no 12 with the statement count");
        check(ask_people(n).number == 0, "a room that is long enough, and a refusal");
    }
}

#endif
