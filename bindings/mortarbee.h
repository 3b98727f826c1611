/* The entries of Mortarbee for C, as the archive of `bindings/archive.sh border` has them (x86-64 Linux, the C calling convention). Those that say "core" stand in
   the smaller archive of `bindings/archive.sh border_core` too; a program links one of the two.
   The toolchain writes no header: this one says its rules, and fuzz/fuzz.c and the tests of rust/ hold it to the archive. */
#ifndef MORTARBEE_H
#define MORTARBEE_H

#include <stddef.h>
#include <stdint.h>

/* How the border is crossed:
   - A slice is two arguments, its first byte and its length. The pointer is never null, not even with length 0.
   - An array is one argument, its first element: it has exactly as many as its comment says.
   - A room that is lent to be written overlaps neither the listing nor another room.
   - An enum does not cross it, so an answer is a struct, which is returned by value (in memory, as five numbers and more are). Each begins with
     the same four numbers; what follows them is 0 on a refusal.
   Nothing else is asked: any bytes may be handed over, and each call ends. */
struct mortarbee_reply {
    uint64_t number;   /* 0: done; 1 to 12: the refusal of document 01, and no lent byte has changed; of a run under an edition also 17 and 19 */
    uint64_t place;    /* of the statement refused, from 0; for 12 the statement count; 0 when done */
    uint64_t argument; /* for 8 to 11 the place of the argument or data item, from 0; else 0 */
    int64_t amount;    /* for 8, 9 and 11 its value, for 10 the difference; else 0 */
    uint64_t listing;  /* bytes written to the listing room */
    uint64_t rewrites; /* how many rewrites were made */
    uint64_t image;    /* bytes written to the image room; what lies behind is unchanged */
};

/* Core. Judges a listing as it stands, and writes its image. `listing` and `rewrites` are 0. */
struct mortarbee_reply mortarbee_assemble(const uint8_t *listing, size_t listing_len, uint8_t *image, size_t image_len);

/* Core. Rewrites a listing until nothing can be folded or shrunk, and writes the new listing (without the line 7F) and its image. Of the first three 0 is no and any
   other number yes: whether comments are kept in the new listing, whether Callf is tried as Call, whether folds are tried. */
struct mortarbee_reply mortarbee_optimize_jumps(uint8_t comments, uint8_t callf, uint8_t folds, const uint8_t *listing, size_t listing_len, uint8_t *out, size_t out_len,
                                                uint8_t *image, size_t image_len);

/* Rooms that are never too short: 57,344 characters, four more for each of 1,024 transfers, 1,024 line feeds and the first line of five, and 65,536 bytes. */
#define MORTARBEE_LISTING_ROOM 62469
#define MORTARBEE_IMAGE_ROOM 65536

/* ---- Core. What document 01's program prints: the new listing and the line 7F on one page. 12 is never given, and a refusal changes no byte: the program
   then prints the line of mortarbee_refusal_line. */

#define MORTARBEE_PAGE_ROOM 62482
#define MORTARBEE_LINE_ROOM 19

struct mortarbee_printed {
    uint64_t number;   /* as of mortarbee_optimize_jumps */
    uint64_t place;
    uint64_t argument;
    int64_t amount;
    uint64_t page;     /* bytes of the page that are printed; what lies behind is unchanged */
    uint64_t listing;  /* how many of them are the listing; the 13 behind it are the line 7F */
    uint64_t rewrites;
    uint64_t image;    /* bytes written to the image room */
};

/* `page` has MORTARBEE_PAGE_ROOM bytes, `image` MORTARBEE_IMAGE_ROOM. */
struct mortarbee_printed mortarbee_print_run(uint8_t comments, uint8_t callf, uint8_t folds, const uint8_t *listing, size_t listing_len, uint8_t *page,
                                             uint8_t *image);

/* The line 7E of an answer's four numbers, its line feed included; `line` has MORTARBEE_LINE_ROOM bytes. The numbers of a run fit. */
void mortarbee_refusal_line(uint8_t number, uint16_t place, uint8_t argument, int32_t amount, uint8_t *line);

/* ---- Core. Whether a text keeps the form of a listing: 1 and 2 alone. */

struct mortarbee_counted {
    uint64_t number;     /* 0: it does; mortarbee_check: 1 and 2; mortarbee_positions: 1, 2, 5 and 6 */
    uint64_t place;      /* of the statement refused */
    uint64_t argument;   /* 0 */
    int64_t amount;      /* 0 */
    uint64_t statements; /* how many it has */
};

struct mortarbee_counted mortarbee_check(const uint8_t *listing, size_t listing_len);

/* ---- C-17: where does statement n sit? */

struct mortarbee_sits {
    uint64_t number;   /* 0: it is there; 1, 2, 5 and 6 for the statements before n; 14: n is above the statement count */
    uint64_t place;    /* for 1, 2, 5 and 6 that of the statement refused */
    uint64_t argument; /* 0 */
    int64_t amount;    /* 0 */
    uint64_t address;  /* the position before the statement's own org or pad; where n is the statement count, the end position */
};

/* Core. Answers from the statements before n alone; what stands at n or behind is not looked at. */
struct mortarbee_sits mortarbee_where_sits(const uint8_t *listing, size_t listing_len, size_t n);

/* Core. The same of all statements at once: positions[n] for each n up to the statement count. `positions` has MORTARBEE_POSITIONS numbers; those
   behind are unchanged, and all of them on a refusal, 1, 2, 5 or 6 of the whole listing. */
#define MORTARBEE_POSITIONS 1025
struct mortarbee_counted mortarbee_positions(const uint8_t *listing, size_t listing_len, uint32_t *positions);

/* ---- C-21: the listing of an image, from the address `start` on, in the old form; it assembles to the same bytes. `rewrites` and `image` are 0. Refusals: 16
   for a start beyond the end of the image, 2, then 12 with the count of statements that would come out. A room of 50,176 bytes is never too short. */
struct mortarbee_reply mortarbee_read_back(const uint8_t *image, size_t image_len, size_t start, uint8_t *listing, size_t listing_len);

/* ---- Core. C-16: a listing as text for people, one line a statement; the line 7D02 has none. `listing` is the text's length; `rewrites` and `image` are 0.
   Refusals: 1 and 2 of the listing, then 12 with the statement count. */
struct mortarbee_reply mortarbee_text(const uint8_t *listing, size_t listing_len, uint8_t *text, size_t text_len);

/* A room that is never too short. */
#define MORTARBEE_TEXT_ROOM 86016

/* ---- C-19: the listing of a text for people, in the old form: what mortarbee_text writes reads back as the same statements, unless these pass the old form's
   total of 49,152 characters without their source lines: then it is 2. Any text is taken. The reader calls itself at each parenthesis: a line of 1,024 bytes may
   take 1.5 MB of stack. */

struct mortarbee_reading {
    uint64_t number;   /* 0: done; 2: a limit is passed; 15: no line of such a text; 12: the room is too short; then no byte has changed */
    uint64_t place;    /* of the line refused, from 0; for 12 the statement count */
    uint64_t argument; /* 0 */
    int64_t amount;    /* for 15 the column, from 0, of the first byte that no good line could have there, or of the line's end; else 0 */
    uint64_t listing;  /* bytes written to the listing room; what lies behind is unchanged */
};

struct mortarbee_reading mortarbee_read(const uint8_t *text, size_t text_len, uint8_t *listing, size_t listing_len);

/* A room that is never too short: 49,152 characters and 1,024 line feeds. */
#define MORTARBEE_READ_ROOM 50176

/* ---- C-22: a damaged listing salvaged. Any text is taken. Lines that are no good frames by themselves come out as comments, and the report has a line for each:
   7B, 1 or 2, the place; where lines are left off, a last line 7C and the place of the first. What comes out is never refused 1 or 2. */

/* Rooms that are never too short: 57,344 characters, 1,024 line feeds and the first line of five; 1,024 lines of nine characters and one of seven. */
#define MORTARBEE_SALVAGE_ROOM 58373
#define MORTARBEE_REPORT_ROOM 9223

struct mortarbee_saved {
    uint64_t number;     /* 0: done; 12: a room is too short, and no byte has changed */
    uint64_t place;      /* for 12 the count of statements that would come out */
    uint64_t argument;   /* 0 */
    int64_t amount;      /* 0 */
    uint64_t statements; /* how many come out */
    uint64_t listing;    /* bytes of listing and of report */
    uint64_t report;
};

struct mortarbee_saved mortarbee_salvage(const uint8_t *text, size_t text_len, uint8_t *listing, size_t listing_len, uint8_t *report, size_t report_len);

/* ---- C-13: what did it do to my code? */

/* Rooms that are never too short: two bytes for each of 1,024 statements; twice 57,344 characters, and seven more for each of twice 1,024 statements. */
#define MORTARBEE_STEMS_ROOM 2048
#define MORTARBEE_DIFFERENCES_ROOM 129024

struct mortarbee_stemmed {
    uint64_t number;   /* as of mortarbee_optimize_jumps; 12 also where the list's room is too short */
    uint64_t place;
    uint64_t argument;
    int64_t amount;
    uint64_t listing;  /* as of mortarbee_optimize_jumps */
    uint64_t rewrites;
    uint64_t image;
    uint64_t stems;    /* entries of the list, one for each statement that came out; two bytes each, high byte first */
};

/* Core. mortarbee_optimize_jumps that hands out, in `list`, the place that each statement of the new listing stems from. Ask for comments where the differences
   are to be of what was rewritten alone. */
struct mortarbee_stemmed mortarbee_stems(uint8_t comments, uint8_t callf, uint8_t folds, const uint8_t *listing, size_t listing_len, uint8_t *out, size_t out_len,
                                       uint8_t *image, size_t image_len, uint8_t *list, size_t list_len);

struct mortarbee_differed {
    uint64_t number;   /* 0: told; 1 and 2 of a listing, the first one first; 13: a pairing out of order, repeated or beyond a listing; 12; then no byte has changed */
    uint64_t place;    /* for 1 and 2 that of the statement, for 13 the entry's index, for 12 the first listing's statement count */
    uint64_t argument; /* 0 */
    int64_t amount;    /* 0 */
    uint64_t whose;    /* for 1 and 2 the listing, 1 or 2; else 0 */
    uint64_t text;     /* bytes of text */
};

/* The differences of two listings as lines: 70 kept, place, place, frame; 71 removed, place, frame; 72 added, place, frame; 73 changed, place, place, the
   count of the old frame's bytes, old frame, new frame. Where `given` is not 0, entry i of the pairing (two bytes, high byte first) is the place of the first
   listing that statement i of the second is paired with; else what both begin and end with is paired. */
struct mortarbee_differed mortarbee_differences(const uint8_t *first, size_t first_len, const uint8_t *second, size_t second_len, uint8_t given,
                                                   const uint8_t *pairing, size_t pairing_len, uint8_t *out, size_t out_len);
/* ---- What is this image? A shipped image is held against what its long listing shrinks to under the three settings. No room is lent, so 12 is never
   given; any other refusal is the one that `mortarbee_optimize_jumps` gives. */
struct mortarbee_audited {
    uint64_t number;    /* 0: held; else the listing's refusal, and zeros from `finding` on */
    uint64_t place;
    uint64_t argument;
    int64_t amount;
    uint64_t finding;   /* 0: the same; 1: another byte at the address; 2: the shipped image ends there; 3: only the shipped image goes on there */
    uint64_t address;   /* the first that differs; 0 where the images are the same */
    uint64_t wanted;    /* for 1: the byte that the listing shrinks to, and the shipped one */
    uint64_t shipped;
    uint64_t owned;     /* for 1 and 2: 1 where the wanted byte belongs to a statement; 0 in a gap that an org leaves */
    uint64_t statement; /* its place in the listing, from 0, and the byte's offset in what became of it */
    uint64_t offset;
};

struct mortarbee_audited mortarbee_audit(uint8_t comments, uint8_t callf, uint8_t folds, const uint8_t *listing, size_t listing_len, const uint8_t *shipped,
                                         size_t shipped_len);

/* ---- The rewrites in order, a line of 21 characters each: 76, the rule (1 an inverted fold, 2 a trampoline, 3 a shrink), the place in two bytes, and what
   stood there and what stands there now: the form, and in two bytes the place whose target it carries. Refusals: the listing's, then 12 with the count. */
struct mortarbee_told {
    uint64_t number;
    uint64_t place;
    uint64_t argument;
    int64_t amount;
    uint64_t lines;    /* bytes written to the room: 21 a rewrite */
    uint64_t rewrites; /* as many as the run makes */
};

struct mortarbee_told mortarbee_steps(uint8_t comments, uint8_t callf, uint8_t folds, const uint8_t *listing, size_t listing_len, uint8_t *out, size_t out_len);

/* A room that is never too short: 3,072 lines. */
#define MORTARBEE_STEPS_ROOM 64512

/* ---- Core. What each transfer of the output names, a line of 45 characters each: 74, 00 where its target names the byte that it named in the input or 01 where
   it needs eyes, its place and the place whose target it carries in two bytes each, and for the input and then the output the value in four bytes, the
   place of the statement that has the byte in two (FFFF: none has), and the byte's offset in it in two. Refusals: the listing's, then 12 with the count. */
struct mortarbee_aimed {
    uint64_t number;
    uint64_t place;
    uint64_t argument;
    int64_t amount;
    uint64_t lines;     /* bytes written to the room: 45 a transfer */
    uint64_t transfers; /* of the output */
    uint64_t marked;    /* how many of them need eyes */
};

struct mortarbee_aimed mortarbee_targets(uint8_t comments, uint8_t callf, uint8_t folds, const uint8_t *listing, size_t listing_len, uint8_t *out,
                                         size_t out_len);

/* A room that is never too short: 1,024 lines. */
#define MORTARBEE_TARGETS_ROOM 46080

/* ---- Where each instruction and each piece of data of the listing stands, a line of 37 characters each, by place: 78, or 79 for what was dropped; 00 for an
   instruction, 01 for data; then in four bytes each the address of its first byte and the one behind its last in the listing's own image, and both in the
   image of the output (the same address twice where it was dropped). What no line holds is zero: a gap of an org, or a pad. Refusals: the listing's,
   then 12 with the count. */
struct mortarbee_mapped {
    uint64_t number;
    uint64_t place;
    uint64_t argument;
    int64_t amount;
    uint64_t lines; /* bytes written to the room: 37 a row */
    uint64_t rows;
};

struct mortarbee_mapped mortarbee_map(uint8_t comments, uint8_t callf, uint8_t folds, const uint8_t *listing, size_t listing_len, uint8_t *out, size_t out_len);

/* A room that is never too short: 1,024 lines. */
#define MORTARBEE_MAP_ROOM 37888

/* ---- Why something stays: for each form or pattern that is tried on the end form, by place, a line of 27 characters: 75, what is tried (a form; 0x80 and up a
   pattern by its place in rule 3's order), the place in two bytes, the reason (1 a change jump, 2 an inner label inside, 3 one between the pattern's
   statements, 4 an offset beyond a pad, 5 the candidate is refused), and for 5 the refusal's number, place (two bytes), argument and amount (four bytes).
   `lines` are 27 bytes a reason; `rewrites` are as many as the run makes. Refusals: the listing's, then 12 with the count. */
struct mortarbee_told mortarbee_why(uint8_t comments, uint8_t callf, uint8_t folds, const uint8_t *listing, size_t listing_len, uint8_t *out, size_t out_len);

/* A room that is never too short: two lines for each of 1,024 statements. */
#define MORTARBEE_WHY_ROOM 55296

/* ---- C-24: settings kept by edition. A store is the first 160 bytes of the room: 32 places of five, the family and the edition in two bytes each, high
   byte first, and the switches (1 comments, 2 Callf, 4 folds). Zeros are an empty store. What lies behind the 160 bytes never changes. */

#define MORTARBEE_STORE_ROOM 160

struct mortarbee_numbered {
    uint64_t number;   /* 0: done; 12: the room is short; 17: unknown family; 18: full; 19: a setting held twice or out of range; then no byte has changed */
    uint64_t place;    /* 0 */
    uint64_t argument; /* 0 */
    int64_t amount;    /* 0 */
    uint64_t edition;  /* the number of the edition, from 1 */
};

struct mortarbee_found {
    uint64_t number;   /* 0: found; 12: the room is short; 17: unknown family or edition; 19: a setting held twice or out of range */
    uint64_t place;    /* 0 */
    uint64_t argument; /* 0 */
    int64_t amount;    /* 0 */
    uint64_t edition;  /* the number of the edition */
    uint64_t comments; /* its settings: 1 yes, 0 no */
    uint64_t callf;
    uint64_t folds;
};

struct mortarbee_shown {
    uint64_t number;   /* 0: good; 12: the room is short; 19: a setting held twice or out of range */
    uint64_t place;    /* 0 */
    uint64_t argument; /* 0 */
    int64_t amount;    /* 0 */
    uint64_t held;     /* 1: the place holds an edition; 0: it is free, and zeros follow */
    uint64_t family;
    uint64_t edition;
    uint64_t comments; /* its settings: 1 yes, 0 no */
    uint64_t callf;
    uint64_t folds;
};

/* What place k of the store holds, from 0; there is nothing from 32 on. */
struct mortarbee_shown mortarbee_show_place(const uint8_t *room, size_t room_len, size_t k);

/* Adds an edition of a family, numbered one above its newest from 1 on. The settings are given as to mortarbee_optimize_jumps. */
struct mortarbee_numbered mortarbee_add_edition(uint8_t *room, size_t room_len, uint16_t family, uint8_t comments, uint8_t callf, uint8_t folds);

/* The settings of an edition, and of the newest one of a family. */
struct mortarbee_found mortarbee_get_edition(const uint8_t *room, size_t room_len, uint16_t family, uint16_t edition);
struct mortarbee_found mortarbee_get_newest(const uint8_t *room, size_t room_len, uint16_t family);

/* Drops the old editions of a family. The newest stays, and its number is given. */
struct mortarbee_numbered mortarbee_drop_old(uint8_t *room, size_t room_len, uint16_t family);

/* mortarbee_optimize_jumps under the settings of an edition, 0 for the newest one of the family. 12 (with place 0), 19 and 17 of the store come first. */
struct mortarbee_reply mortarbee_optimize_jumps_under(const uint8_t *store, size_t store_len, uint16_t family, uint16_t edition, const uint8_t *listing,
                                                      size_t listing_len, uint8_t *out, size_t out_len, uint8_t *image, size_t image_len);

#endif
