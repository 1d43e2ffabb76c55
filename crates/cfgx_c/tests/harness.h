/* What the tests of the calls share: rows, texts in blocks of exactly their length, buffers with
 * guards, and growths that are refused. A test is linked with harness.c and with
 * -Wl,--wrap=malloc,--wrap=realloc,--wrap=free. */
#ifndef HARNESS_H
#define HARNESS_H

#include "cfgx.h"

#define COUNT(table) (sizeof(table) / sizeof((table)[0]))

/* The bytes of a text, which may hold zero bytes. */
struct text {
    const char *bytes;
    size_t length;
};

#define TEXT(literal) {literal, sizeof(literal) - 1}

/* Texts, such as words or facts. */
struct list {
    const struct text *texts;
    size_t count;
};

#define LIST(...)                                                                                  \
    {(const struct text[]){__VA_ARGS__}, sizeof((const struct text[]){__VA_ARGS__})                \
                                             / sizeof(struct text)}
#define NO_TEXTS {NULL, 0}

/* The texts of a list as a call takes them. Each array is a block of exactly its length. */
struct joined {
    char *bytes;
    size_t length;
    size_t *ends;
    size_t count;
};

/* A kind of items. */
struct kind {
    size_t size;
    int (*is_same)(const void *found, const void *wanted);
    void (*print)(const void *items, size_t count);
};

extern const struct kind BYTES, FAULTS, PREDICATES, STEPS, TOKENS;

/* The faults of an item: none, that of bytes that are not UTF-8, and those with a reason. */
#define NO_FAULT {0, 0, 0, 0, 0, 0, 0}
#define BYTE(item, start) {item, 0, start, (start) + 1, 0, CFGX_REASON_NONE, 0}
#define FAULT(item, offset, start, end, reason)                                                    \
    {item, offset, start, end, 0, CFGX_REASON_##reason, 0}
#define MEMBERS(item, offset, start, end, members)                                                 \
    {item, offset, start, end, members, CFGX_REASON_INVALID_NOT, 0}
#define TERMS(item, offset, start, end, terms)                                                     \
    {item, offset, start, end, 0, CFGX_REASON_UNEXPECTED, CFGX_TERMS_##terms}

#define NO_PREDICATE {0, 0, 0, 0, 0, 0, 0, 0}

/* A buffer with guards behind it. */
struct buffer {
    const struct kind *kind;
    unsigned char *bytes;
    size_t room;
};

/* Makes one call for a row, with buffers of `room` items, and checks what it returns and writes.
 * The status that is wanted is that of the row, or CFGX_STATUS_OUT_OF_MEMORY. */
typedef void call_of_row(const void *row, size_t room, uint32_t status);

/* Returns a copy in a block of exactly its length. An empty text becomes a null pointer and a block
 * of no bytes in turn. */
void *block_of(struct text text);
void free_block(void *block);

/* Returns the texts as a call takes them. Those of an empty list are null pointers. */
struct joined join(struct list list);
void free_joined(struct joined joined);

/* Calls `test` with ends that are wrong in each way: an end is less than the one before it or more
 * than the number of bytes, or the last one is not that number. The bytes are `a`, `ab` and so
 * on. */
void test_bad_ends(void (*test)(struct joined joined));

/* Returns a buffer for `room` items. No byte of it is 0. */
struct buffer make_buffer(const struct kind *kind, size_t room);

/* Expects that the buffer begins with the items if it has room for all, and that all its other
 * bytes and the guards are as they were. Frees the buffer. */
void expect_filled(struct buffer buffer, const void *items, size_t count);

/* Expects the fault in a buffer for one if the status is about a text or a fact, and else zeros.
 * Frees the buffer. */
void expect_fault(struct buffer fault, const struct cfgx_fault *wanted, uint32_t status);

/* Expects the value in a buffer for one if the status is CFGX_STATUS_DONE, and else
 * CFGX_VALUE_UNKNOWN. Frees the buffer. */
void expect_value(struct buffer value, uint8_t wanted, uint32_t status);

void expect_number(const char *what, size_t found, size_t wanted);

/* Begins a row. A failure is printed with the number of the row, from 1 on, and with its texts,
 * which have to stay until the next row begins. */
void begin_row(struct text text);
void begin_row_of(struct list texts);

/* Tests the row that was begun: with each room up to one more than `needed`, and then with each
 * growth refused in turn. Returns the number of growths in a call. */
size_t test_rooms(call_of_row *call, const void *row, size_t needed, uint32_t status);

/* Begins a row with this text, and tests it. */
void test_row(call_of_row *call, const void *row, struct text text, size_t needed,
              uint32_t status);

/* Tests the row that was begun with this room and with each growth refused in turn. Returns the
 * number of growths in a call. */
size_t test_growths(call_of_row *call, const void *row, size_t room, uint32_t status);

/* Prints what was tested, and returns the status of the program. No growth at all is a failure if
 * the call takes memory. */
int finish(const char *call, int takes_memory);

#endif
