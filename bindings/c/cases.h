/*
 * Cases for a driver of the C interface: bodies read from standard input, columns taken from them, memory lent with guard bytes around
 * it, comparing and telling. The form of a case is in oracle/README.md.
 */
#ifndef CASES_H
#define CASES_H

#include <stdbool.h>
#include <stddef.h>
#include <stdint.h>

enum {
    MOST_COLUMNS = 32,  /* of a case */
    MOST_ROOMS = 64,    /* lent at a time */
    BODY_ROOM = 704512, /* bytes of the longest body of any program */
    FILLING = 0xA5      /* what an answer holds before the call */
};

/* What a column that goes in has to be. */
struct form {
    unsigned width; /* bytes of an element: 1, 2 or 4 */
    size_t least;   /* elements, at least and at most */
    size_t most;
    bool flags; /* each is 0 or 1 */
};

/* A column as it lies in a body: big-endian. */
struct column {
    const uint8_t *bytes;
    size_t count;
    unsigned width;
};

/* Memory that is lent: elements in the machine's own order. `at` is NULL for some of those without elements. */
struct room {
    void *at;
    size_t count;
    unsigned width;
};

enum outcome { SAME, DIFFERS, END, UNREADABLE };

/* A program: how its cases are read, and the call that it makes. */
struct program {
    const char *name;
    size_t body_room;
    const struct form *in;
    size_t in_count;
    const unsigned *out; /* the widths of the columns that come out */
    size_t out_count;
    /* Makes the call with the columns that go in. Puts what has to be the columns that come out into `out`, in their order; answers
     * whether what those do not show is as it has to be. */
    bool (*call)(const struct room *in, struct room *out);
};

/* Reads and replays all cases, and tells what differs as the program replay_NAME does. Whether all are the same. */
bool replay_all(const struct program *program);

/* Room for an answer of so many elements, filled with what no call leaves there. */
struct room answer(unsigned width, size_t count);

/* The number that an element is. */
uint64_t element(struct room from, size_t i);

/* The answer as a column of bytes, or of 32-bit numbers: a number past those becomes the last. */
struct room as_bytes(struct room from, size_t count);
struct room as_numbers(struct room from, size_t count);

/* A byte that an answer was, as a column. */
struct room one_byte(uint8_t number);

/* A byte that an answer was, as an element of a column of them. */
void put_byte(struct room to, size_t i, uint8_t number);

/* Elements from a place on are zeros. */
bool zeros_from(struct room from, size_t start);

/* A yes as a byte of some kind, another at each case, and a no as 0. */
uint8_t yes_or_no(struct room flags, size_t i);

/* Says a text on standard error. */
void complain(const char *text);

#endif
