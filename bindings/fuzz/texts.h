/* Texts for fuzz.c, from a xorshift generator: listings of sound frames in both forms, damage to them, and plain noise. */
#ifndef TEXTS_H
#define TEXTS_H

#include <stddef.h>
#include <stdint.h>
#include <string.h>

#define TEXT_ROOM (1 << 17)
#define MARK "7D02\n" /* the first line of a listing with source lines (C-20) */
#define MARK_SIZE 5

static uint64_t state;

static uint64_t next(void) {
    state ^= state << 13;
    state ^= state >> 7;
    state ^= state << 17;
    return state * 0x2545F4914F6CDD1Du;
}

static uint64_t below(uint64_t n) { return (next() >> 11) % n; }

struct text {
    size_t n;
    uint8_t at[TEXT_ROOM];
};

static void put(struct text *t, uint8_t c) {
    if (t->n < TEXT_ROOM) {
        t->at[t->n++] = c;
    }
}

static void put_byte(struct text *t, unsigned b) {
    put(t, "0123456789ABCDEF"[b >> 4 & 15]);
    put(t, "0123456789ABCDEF"[b & 15]);
}

static void put_two(struct text *t, unsigned v) {
    put_byte(t, v >> 8 & 255);
    put_byte(t, v & 255);
}

/* Operands by form: e an expression, r a register; the last of a transfer is a target, t. */
static const char *const FORMS[70] = {
    "e", "e", "r", "e", "e", "r", "e", "e", "r", "e", "e", "r", "e", "r", "e", "r", "",   "",   "e",   "e",   "r",   "e",  "e",  "r",
    "e", "e", "r", "",  "",  "",  "",  "e", "r", "e", "r", "ee", "er", "", "e", "e", "e", "r", "t", "t", "t", "t", "t", "t", "eet", "eet",
    "eet", "et", "rt", "et", "et", "ret", "et", "et", "ret", "t", "t", "t", "", "", "ee", "ee", "ee", "", "", "",
};
static const uint8_t JUMPY[] = {0x2A, 0x2B, 0x2B, 0x2B, 0x2C, 0x2E, 0x2F, 0x30, 0x31, 0x32, 0x33, 0x34, 0x35, 0x36,
                                0x37, 0x38, 0x39, 0x3A, 0x3B, 0x3C, 0x3C, 0x3D, 0x42, 0x43, 0x43};
static const int32_t EDGES[] = {0,   1,     2,      3,     7,     8,  127,  128,        255,            256, 0x10D,
                                511, 0xFFF, 0x1000, 65535, 65536, -1, -128, 2147483647, -2147483647 - 1};

static void put_number(struct text *t, uint32_t v) {
    put_byte(t, 0);
    put_two(t, v >> 16);
    put_two(t, v);
}

static void put_name(struct text *t) {
    put_byte(t, 1);
    put_two(t, below(3) ? 0x8000 + (unsigned)below(6) : 1 + (unsigned)below(3));
}

static void put_expression(struct text *t, int depth) {
    if (depth > 0 && below(3) == 0) {
        int two = below(2) == 0;
        put_byte(t, two ? 0x10 + (unsigned)below(7) : 0x20 + (unsigned)below(3));
        put_expression(t, depth - 1);
        if (two) {
            put_expression(t, depth - 1);
        }
    } else if (below(6) == 0) {
        put_name(t);
    } else {
        put_number(t, below(8) ? (uint32_t)below(8) : (uint32_t)EDGES[below(sizeof EDGES / sizeof *EDGES)]);
    }
}

static void put_target(struct text *t) {
    if (below(8) == 0) {
        put_expression(t, 2);
    } else if (below(4) == 0) {
        put_number(t, (uint32_t)below(60));
    } else {
        put_name(t);
    }
}

static void put_instruction(struct text *t) {
    unsigned form = below(3) ? JUMPY[below(sizeof JUMPY)] : (unsigned)below(70);
    put_byte(t, 1);
    put_byte(t, form);
    for (const char *kind = FORMS[form]; *kind; kind++) {
        if (*kind == 'r') {
            put_byte(t, (unsigned)below(4));
        } else if (*kind == 't') {
            put_target(t);
        } else {
            put_expression(t, below(4) ? 0 : 3);
        }
    }
}

static void put_data(struct text *t) {
    unsigned count = below(6) ? 1 + (unsigned)below(3) : (unsigned)below(18);
    put_byte(t, 6 + (unsigned)below(2));
    put_byte(t, count);
    while (count-- > 0) {
        put_expression(t, below(3) ? 0 : 3);
    }
}

static void put_label(struct text *t, unsigned name) {
    put_byte(t, 2);
    put_two(t, name);
}

/* C-11: what is added, and the multiple. */
static void put_pad(struct text *t) {
    put_byte(t, 8);
    put_byte(t, below(3) ? (unsigned)below(4) : (unsigned)below(256));
    put_two(t, below(3) ? 1 + (unsigned)below(8) : (unsigned)below(258));
}

/* One sound line; `fresh` counts the labels up, so that most are defined once. */
static void put_line(struct text *t, unsigned *fresh) {
    switch (below(14)) {
    case 0:
    case 1:
        put_label(t, *fresh < 6 ? 0x8000 + (*fresh)++ : below(8) ? 0x9000 + (unsigned)below(999) : (unsigned)below(30));
        break;
    case 2:
        if (below(3) == 0) {
            put_pad(t);
        } else {
            put_byte(t, 4);
        }
        break;
    case 3:
        put_data(t);
        break;
    case 4:
        if (below(4) == 0) {
            put_byte(t, 5);
            put_two(t, below(3) ? (unsigned)below(200) : below(3) ? (unsigned)below(65536) : 65536 - (unsigned)below(20) - 1);
            break;
        }
        /* fall through */
    case 5:
        if (below(4) == 0) {
            put_byte(t, 3);
            put_two(t, 0x100 + (unsigned)below(999));
            put_expression(t, 2);
            break;
        }
        /* fall through */
    default:
        put_instruction(t);
    }
    put(t, '\n');
}

/* A listing that mostly defines what it names: 1 to 3 are variables, 8000 to 8005 labels. */
static void sound(struct text *t) {
    unsigned fresh = 0;
    uint64_t lines = below(200) == 0 ? below(1100) : below(30);
    t->n = 0;
    for (unsigned name = 1; name <= 3 && below(20); name++) {
        put_byte(t, 3);
        put_two(t, name);
        put_number(t, (uint32_t)below(5));
        put(t, '\n');
    }
    while (lines-- > 0) {
        put_line(t, &fresh);
    }
    while (fresh < 6 && below(40)) {
        put_label(t, 0x8000 + fresh++);
        put(t, '\n');
    }
}

static int is_marked(const uint8_t *at, size_t n) { return n >= MARK_SIZE && memcmp(at, MARK, MARK_SIZE) == 0; }

static void put_mark(struct text *t) {
    for (const char *c = MARK; *c; c++) {
        put(t, (uint8_t)*c);
    }
}

/* A source line: 0, the highest, one more than the last, or any. */
static uint32_t source_line(uint64_t kind, uint32_t last) { return kind == 0 ? 0 : kind == 1 ? UINT32_MAX : kind == 2 ? last + 1 : (uint32_t)next(); }

/* C-20: behind the kind of each frame the line of the source that it comes from. */
static void put_lines(struct text *t) {
    static struct text old;
    uint64_t kind = below(5), column = 0;
    uint32_t line = below(2) ? 0 : (uint32_t)next();
    old.n = t->n;
    memcpy(old.at, t->at, t->n);
    t->n = 0;
    put_mark(t);
    for (size_t i = 0; i < old.n; i++) {
        put(t, old.at[i]);
        column = old.at[i] == '\n' ? 0 : column + 1;
        if (column == 2) {
            line = source_line(kind < 4 ? kind : below(4), line);
            put_two(t, line >> 16);
            put_two(t, line);
        }
    }
}

/* The same listing in the old form: the mark and the source lines go. 0 if a line has none. */
static int take_lines(struct text *t, const uint8_t *at, size_t n) {
    size_t column = 0;
    t->n = 0;
    for (size_t i = MARK_SIZE; i < n; i++) {
        if (at[i] == '\n' && column < 10) {
            return 0;
        }
        column = at[i] == '\n' ? 0 : column + 1;
        if (column < 3 || column > 10) {
            put(t, at[i]);
        } else if (!strchr("0123456789ABCDEF", at[i] ? at[i] : 'x')) {
            return 0;
        }
    }
    return column == 0 || column >= 10;
}

static void noise(struct text *t) {
    static const char digits[] = "0123456789ABCDEF\n\n000102\r=";
    uint64_t n = below(50) == 0 ? below(TEXT_ROOM) : below(400), kind = below(3);
    t->n = 0;
    if (below(4) == 0) {
        put_mark(t);
    }
    while (n-- > 0) {
        put(t, kind == 0 ? (uint8_t)next() : (uint8_t)digits[below(kind == 1 ? 18 : sizeof digits - 1)]);
    }
}

/* Room for n bytes at a place, or n bytes taken out. */
static void open_up(struct text *t, size_t at, size_t n) {
    if (t->n + n <= TEXT_ROOM) {
        memmove(t->at + at + n, t->at + at, t->n - at);
        t->n += n;
    }
}

static void close_up(struct text *t, size_t at, size_t n) {
    n = n < t->n - at ? n : t->n - at;
    memmove(t->at + at, t->at + at + n, t->n - at - n);
    t->n -= n;
}

static void damage(struct text *t, const struct text *other) {
    size_t at = t->n ? below(t->n) : 0;
    size_t n = 1 + below(8);
    switch (t->n ? below(8) : 7) {
    case 0:
        t->at[at] = (uint8_t)next();
        break;
    case 1:
        t->at[at] = (uint8_t) "0123456789ABCDEF\n"[below(17)];
        break;
    case 2:
        close_up(t, at, n);
        break;
    case 3:
        open_up(t, at, n);
        break;
    case 4:
        t->n = at;
        break;
    case 5:
        if (other->n) {
            size_t from = below(other->n), m = below(other->n - from + 1);
            if (t->n + m <= TEXT_ROOM) {
                open_up(t, at, m);
                memcpy(t->at + at, other->at + from, m);
            }
        }
        break;
    case 6:
        if (t->n + MARK_SIZE <= TEXT_ROOM) {
            open_up(t, at, MARK_SIZE);
            memcpy(t->at + at, MARK, MARK_SIZE);
        }
        break;
    default:
        put(t, '\n');
    }
}

/* The next text: sound in one of both forms, damaged, or noise. `other` is the text before. */
static void make(struct text *t, const struct text *other) {
    if (below(12) == 0) {
        noise(t);
        return;
    }
    sound(t);
    if (below(3) == 0) {
        put_lines(t);
    }
    for (uint64_t times = below(3) ? 0 : 1 + below(4); times > 0; times--) {
        damage(t, other);
    }
}

#endif
