/* Cases for a driver of the C interface: see cases.h. */
#include "cases.h"

/* The few functions of the C library, declared here so that no header of it is needed. */
long read(int descriptor, void *to, size_t count);
long write(int descriptor, const void *from, size_t count);
void *memcpy(void *to, const void *from, size_t count);
void *memset(void *to, int byte, size_t count);
size_t strlen(const char *text);

enum {
    GUARD = 64, /* bytes before and behind each room */
    GUARD_BYTE = 0x5B,
    ARENA = 2097152, /* bytes of all rooms of a case, with their guards */
    TOLD = 10        /* cases that are named, at most */
};

static uint8_t body[BODY_ROOM];
static uint8_t arena[ARENA];
static size_t arena_end;
static struct room rooms[MOST_ROOMS]; /* `at` of an empty one too: where its guards are */
static size_t room_count;
static uint64_t case_number;

/* ---- Reading and telling. */

/* Reads so many bytes, or up to the end of the input. */
static size_t read_full(uint8_t *to, size_t count) {
    size_t got = 0;
    while (got < count) {
        long n = read(0, to + got, count - got);
        if (n <= 0) break;
        got += (size_t)n;
    }
    return got;
}

static void say(int descriptor, const char *text, size_t count) {
    while (count > 0) {
        long n = write(descriptor, text, count);
        if (n <= 0) return;
        text += n;
        count -= (size_t)n;
    }
}

static void print(const char *text) { say(1, text, strlen(text)); }

void complain(const char *text) { say(2, text, strlen(text)); }

static void print_number(uint64_t n) {
    char digits[20];
    size_t at = sizeof digits;
    do {
        digits[--at] = (char)('0' + n % 10);
        n /= 10;
    } while (n > 0);
    say(1, digits + at, sizeof digits - at);
}

/* ---- Columns of a body. */

static uint64_t big_endian(const uint8_t *bytes, size_t width) {
    uint64_t n = 0;
    for (size_t i = 0; i < width; i++) n = n << 8 | bytes[i];
    return n;
}

static uint64_t column_element(const struct column *c, size_t i) { return big_endian(c->bytes + i * c->width, c->width); }

/* The column at the cursor, if it is whole and of this width. */
static bool take(size_t length, size_t *at, unsigned width, struct column *c) {
    if (length - *at < 5) return false;
    uint64_t count = big_endian(body + *at, 4);
    if (body[*at + 4] != width || length - *at - 5 < count * width) return false;
    *c = (struct column){body + *at + 5, (size_t)count, width};
    *at += 5 + (size_t)count * width;
    return true;
}

static bool fits(const struct column *c, const struct form *form) {
    if (c->count < form->least || form->most < c->count) return false;
    for (size_t i = 0; form->flags && i < c->count; i++)
        if (column_element(c, i) > 1) return false;
    return true;
}

/* All columns of a body of this length: those that go in, then those that come out. */
static bool take_all(const struct program *p, size_t length, struct column *in, struct column *out) {
    size_t at = 0;
    for (size_t i = 0; i < p->in_count; i++)
        if (!take(length, &at, p->in[i].width, &in[i]) || !fits(&in[i], &p->in[i])) return false;
    for (size_t i = 0; i < p->out_count; i++)
        if (!take(length, &at, p->out[i], &out[i])) return false;
    return at == length;
}

/* ---- Lent memory. */

/* A room with guards directly before and behind it. It is aligned for its elements and for nothing larger, so that code that
 * counts on more shows. */
static struct room lend(unsigned width, size_t count) {
    size_t start = arena_end + GUARD;
    while (((uintptr_t)(arena + start)) % (2 * width) != width % (2 * width)) start++;
    size_t end = start + count * width;
    if (room_count == MOST_ROOMS || ARENA < end + GUARD) {
        complain("driver: out of room\n");
        __builtin_trap();
    }
    memset(arena + arena_end, GUARD_BYTE, start - arena_end);
    memset(arena + end, GUARD_BYTE, GUARD);
    arena_end = end + GUARD;
    rooms[room_count] = (struct room){arena + start, count, width};
    return rooms[room_count++];
}

/* A column that goes in. One without elements is NULL at every other case. */
static struct room lend_column(const struct column *c) {
    struct room r = lend(c->width, c->count);
    for (size_t i = 0; i < c->count; i++) {
        uint32_t n = (uint32_t)column_element(c, i);
        uint16_t half = (uint16_t)n;
        uint8_t byte = (uint8_t)n;
        const void *from = c->width == 4 ? (const void *)&n : c->width == 2 ? (const void *)&half : (const void *)&byte;
        memcpy((uint8_t *)r.at + i * c->width, from, c->width);
    }
    if (r.count == 0 && case_number % 2 == 0) r.at = NULL;
    return r;
}

struct room answer(unsigned width, size_t count) {
    struct room r = lend(width, count);
    memset(r.at, FILLING, count * width);
    return r;
}

uint64_t element(struct room from, size_t i) {
    const uint8_t *at = (const uint8_t *)from.at + i * from.width;
    uint64_t n8;
    uint32_t n4;
    uint16_t n2;
    switch (from.width) {
    case 1: return *at;
    case 2: memcpy(&n2, at, 2); return n2;
    case 4: memcpy(&n4, at, 4); return n4;
    default: memcpy(&n8, at, 8); return n8;
    }
}

static bool guarded(const struct room *r) {
    const uint8_t *at = r->at, *end = at + r->count * r->width;
    for (size_t i = 0; i < GUARD; i++)
        if (at[-1 - (ptrdiff_t)i] != GUARD_BYTE || end[i] != GUARD_BYTE) return false;
    return true;
}

static bool all_guarded(void) {
    bool ok = true;
    for (size_t i = 0; i < room_count; i++) ok &= guarded(&rooms[i]);
    if (!ok) complain("driver: a byte outside the lent memory was written\n");
    return ok;
}

/* ---- Answers as the columns that come out. */

static struct room narrowed(struct room from, size_t count, unsigned width, uint64_t last) {
    struct room to = lend(width, count);
    for (size_t i = 0; i < count; i++) {
        uint64_t n = element(from, i);
        uint32_t number = (uint32_t)(n < last ? n : last);
        uint8_t byte = (uint8_t)number;
        memcpy((uint8_t *)to.at + i * width, width == 4 ? (const void *)&number : (const void *)&byte, width);
    }
    return to;
}

struct room as_bytes(struct room from, size_t count) { return narrowed(from, count, 1, 0xFF); }

struct room as_numbers(struct room from, size_t count) { return narrowed(from, count, 4, 0xFFFFFFFF); }

struct room one_byte(uint8_t number) {
    struct room r = lend(1, 1);
    put_byte(r, 0, number);
    return r;
}

void put_byte(struct room to, size_t i, uint8_t number) { ((uint8_t *)to.at)[i] = number; }

bool zeros_from(struct room from, size_t start) {
    for (size_t i = start; i < from.count; i++)
        if (element(from, i) != 0) return false;
    return true;
}

uint8_t yes_or_no(struct room flags, size_t i) { return element(flags, i) == 0 ? 0 : (uint8_t)(1 + case_number % 255); }

/* ---- Cases. */

static bool same(const struct column *c, struct room r) {
    if (c->count != r.count || c->width != r.width) return false;
    for (size_t i = 0; i < c->count; i++)
        if (column_element(c, i) != element(r, i)) return false;
    return true;
}

/* A column that goes in and does not come out again is as it was. */
static bool kept(const struct program *p, const struct column *c, struct room r, const struct room *out) {
    for (size_t i = 0; i < p->out_count; i++)
        if (r.at != NULL && out[i].at == r.at) return true;
    return same(c, r);
}

static enum outcome replay(const struct program *p, size_t length) {
    struct column in[MOST_COLUMNS], expected[MOST_COLUMNS];
    struct room lent[MOST_COLUMNS], out[MOST_COLUMNS];
    if (!take_all(p, length, in, expected)) return UNREADABLE;
    arena_end = 0;
    room_count = 0;
    for (size_t i = 0; i < p->in_count; i++) lent[i] = lend_column(&in[i]);
    bool ok = p->call(lent, out);
    for (size_t i = 0; i < p->out_count; i++) ok &= same(&expected[i], out[i]);
    for (size_t i = 0; i < p->in_count; i++) ok &= kept(p, &in[i], lent[i], out);
    return all_guarded() && ok ? SAME : DIFFERS;
}

static enum outcome next_case(const struct program *p) {
    size_t got = read_full(body, 4);
    if (got == 0) return END;
    if (got < 4) return UNREADABLE;
    uint64_t length = big_endian(body, 4);
    if (p->body_room < length || read_full(body, (size_t)length) < length) return UNREADABLE;
    return replay(p, (size_t)length);
}

bool replay_all(const struct program *p) {
    uint64_t differ = 0;
    enum outcome what;
    for (case_number = 0; (what = next_case(p)) == SAME || what == DIFFERS; case_number++) {
        if (what == SAME) continue;
        if (differ++ >= TOLD) continue;
        print("case ");
        print_number(case_number);
        print(" differs\n");
    }
    print("replay_");
    print(p->name);
    print(what == UNREADABLE ? ": unreadable at case " : ": ");
    print_number(case_number);
    if (what == END) {
        print(" cases, ");
        print_number(differ);
        print(" differ");
    }
    print("\n");
    return what == END && differ == 0;
}
