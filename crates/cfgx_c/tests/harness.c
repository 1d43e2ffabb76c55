/* See harness.h. */
#include "harness.h"

#include <stdio.h>
#include <stdlib.h>
#include <string.h>

#define NONE SIZE_MAX
#define GUARDS 64
#define UNTOUCHED '#'

/* A row with more items than this is tested only with rooms about 0 and about their number. */
#define MOST_ROOMS 400

static size_t rows = 0, refusals = 0, failures = 0;
static struct text row_text;
static struct list row_texts;

/* The number of growths in a call, the one that is refused, and the blocks that are not freed. The
 * compiler for Windows takes memory for a variable of a thread, so by the functions below. There
 * only the thread of `main` refuses and expects. */
#ifdef _WIN32
static size_t growths = 0, refused = NONE, blocks = 0;
#else
static _Thread_local size_t growths = 0, refused = NONE, blocks = 0;
#endif

void *__real_malloc(size_t size);
void *__real_realloc(void *block, size_t size);
void __real_free(void *block);

void *__wrap_malloc(size_t size)
{
    void *block = growths++ == refused ? NULL : __real_malloc(size);
    blocks += block != NULL;
    return block;
}

void *__wrap_realloc(void *block, size_t size)
{
    void *grown = growths++ == refused ? NULL : __real_realloc(block, size);
    blocks += block == NULL && grown != NULL;
    return grown;
}

void __wrap_free(void *block)
{
    blocks -= block != NULL;
    __real_free(block);
}

/* Returns a block of the test, which is not counted. */
static void *new_block(size_t size)
{
    void *block = __real_malloc(size);
    if (block == NULL) {
        printf("the test is out of memory\n");
        exit(1);
    }
    return block;
}

void *block_of(struct text text)
{
    static int is_null = 0;
    if (text.length == 0 && (is_null = !is_null)) {
        return NULL;
    }
    void *block = new_block(text.length);
    if (text.length > 0) {
        memcpy(block, text.bytes, text.length);
    }
    return block;
}

void free_block(void *block)
{
    __real_free(block);
}

struct joined join(struct list list)
{
    struct joined joined = {NULL, 0, NULL, list.count};
    if (list.count == 0) {
        return joined;
    }
    joined.ends = new_block(list.count * sizeof(size_t));
    for (size_t i = 0; i < list.count; i++) {
        joined.length += list.texts[i].length;
        joined.ends[i] = joined.length;
    }
    joined.bytes = new_block(joined.length);
    for (size_t i = 0; i < list.count; i++) {
        struct text text = list.texts[i];
        memcpy(joined.bytes + joined.ends[i] - text.length, text.bytes, text.length);
    }
    return joined;
}

void free_joined(struct joined joined)
{
    free_block(joined.bytes);
    free_block(joined.ends);
}

/* Texts of one letter, and ends that are wrong for them. */
struct bad_ends {
    size_t length;
    size_t count;
    size_t ends[4];
};

static const struct bad_ends bad_ends[] = {
    /* no end, though there are bytes */
    {1, 0, {0}},
    /* the last end is not the number of bytes */
    {2, 1, {1}},
    {2, 2, {0, 1}},
    {0, 1, {1}},
    {2, 2, {1, 3}},
    {2, 1, {SIZE_MAX}},
    /* an end is less than the one before it */
    {2, 2, {2, 1}},
    {2, 3, {2, 1, 2}},
    {3, 4, {1, 3, 2, 3}},
    /* an end before the last one is greater than the number of bytes */
    {2, 2, {3, 2}},
    {2, 3, {1, SIZE_MAX, 2}},
};

void test_bad_ends(void (*test)(struct joined joined))
{
    for (size_t i = 0; i < COUNT(bad_ends); i++) {
        struct text ends = {(const char *)bad_ends[i].ends, bad_ends[i].count * sizeof(size_t)};
        struct text bytes = {"abcd", bad_ends[i].length};
        struct joined joined = {block_of(bytes), bytes.length, block_of(ends), bad_ends[i].count};
        begin_row(ends);
        test(joined);
        free_joined(joined);
    }
}

static void print_bytes(const void *items, size_t count)
{
    const unsigned char *bytes = items;
    putchar('"');
    for (size_t i = 0; i < count; i++) {
        int is_plain = bytes[i] >= ' ' && bytes[i] < 127 && bytes[i] != '"' && bytes[i] != '\\';
        printf(is_plain ? "%c" : "\\x%02x", bytes[i]);
    }
    printf("\" (%zu bytes)", count);
}

static int is_same_byte(const void *found, const void *wanted)
{
    return memcmp(found, wanted, 1) == 0;
}

static void print_faults(const void *items, size_t count)
{
    const struct cfgx_fault *fault = items;
    for (size_t i = 0; i < count; i++) {
        printf("{item %zu, offset %zu, span %zu..%zu, members %zu, reason %u, terms %u} ",
               fault[i].item, fault[i].offset, fault[i].start, fault[i].end, fault[i].members,
               (unsigned)fault[i].reason, (unsigned)fault[i].terms);
    }
}

static int is_same_fault(const void *found, const void *wanted)
{
    return memcmp(found, wanted, sizeof(struct cfgx_fault)) == 0;
}

static void print_predicates(const void *items, size_t count)
{
    const struct cfgx_predicate *predicate = items;
    for (size_t i = 0; i < count; i++) {
        printf("{kind %u, number %u, span %zu..%zu, key %zu..%zu, value %zu..%zu} ",
               (unsigned)predicate[i].kind, (unsigned)predicate[i].number, predicate[i].start,
               predicate[i].end, predicate[i].key_start, predicate[i].key_end,
               predicate[i].value_start, predicate[i].value_end);
    }
}

static int is_same_predicate(const void *found, const void *wanted)
{
    return memcmp(found, wanted, sizeof(struct cfgx_predicate)) == 0;
}

static void print_steps(const void *items, size_t count)
{
    const struct cfgx_step *step = items;
    for (size_t i = 0; i < count; i++) {
        printf("{kind %u, number %zu} ", (unsigned)step[i].kind, step[i].number);
    }
}

/* A step has bytes that belong to no field. */
static int is_same_step(const void *found, const void *wanted)
{
    const struct cfgx_step *one = found, *other = wanted;
    return one->kind == other->kind && one->number == other->number;
}

static void print_tokens(const void *items, size_t count)
{
    const struct cfgx_token *token = items;
    for (size_t i = 0; i < count; i++) {
        printf("{kind %u, span %zu..%zu} ", (unsigned)token[i].kind, token[i].start, token[i].end);
    }
}

/* A token has bytes that belong to no field. */
static int is_same_token(const void *found, const void *wanted)
{
    const struct cfgx_token *one = found, *other = wanted;
    return one->kind == other->kind && one->start == other->start && one->end == other->end;
}

const struct kind BYTES = {1, is_same_byte, print_bytes};
const struct kind FAULTS = {sizeof(struct cfgx_fault), is_same_fault, print_faults};
const struct kind PREDICATES = {sizeof(struct cfgx_predicate), is_same_predicate, print_predicates};
const struct kind STEPS = {sizeof(struct cfgx_step), is_same_step, print_steps};
const struct kind TOKENS = {sizeof(struct cfgx_token), is_same_token, print_tokens};

/* Counts a failure, and prints what it is about. */
static void begin_failure(const char *what)
{
    failures++;
    printf("FAILED: row %zu", rows);
    for (size_t i = 0; i < row_texts.count; i++) {
        printf(", ");
        print_bytes(row_texts.texts[i].bytes, row_texts.texts[i].length);
    }
    if (refused != NONE) {
        printf(", growth %zu refused", refused);
    }
    printf(": %s\n", what);
}

void expect_number(const char *what, size_t found, size_t wanted)
{
    if (found != wanted) {
        begin_failure(what);
        printf("  wanted %zu\n  found %zu\n", wanted, found);
    }
}

struct buffer make_buffer(const struct kind *kind, size_t room)
{
    struct buffer buffer = {kind, new_block(room * kind->size + GUARDS), room};
    memset(buffer.bytes, UNTOUCHED, room * kind->size + GUARDS);
    return buffer;
}

/* Returns whether the items are the same, one by one. */
static int are_same(const struct kind *kind, const unsigned char *found, const void *wanted,
                    size_t count)
{
    size_t i = 0;
    while (i < count && kind->is_same(found + i * kind->size,
                                      (const unsigned char *)wanted + i * kind->size)) {
        i++;
    }
    return i == count;
}

/* Returns whether no byte from `from` up to `to` was written. */
static int is_untouched(const unsigned char *bytes, size_t from, size_t to)
{
    while (from < to && bytes[from] == UNTOUCHED) {
        from++;
    }
    return from == to;
}

void expect_filled(struct buffer buffer, const void *items, size_t count)
{
    const struct kind *kind = buffer.kind;
    size_t shown = count <= buffer.room ? count : 0, size = buffer.room * kind->size;
    if (!are_same(kind, buffer.bytes, items, shown)) {
        begin_failure("the items in the buffer");
        printf("  wanted ");
        kind->print(items, shown);
        printf("\n  found  ");
        kind->print(buffer.bytes, shown);
        printf("\n");
    }
    if (!is_untouched(buffer.bytes, shown * kind->size, size + GUARDS)) {
        begin_failure("bytes behind the items, or a buffer that is too small, were written");
        printf("  room for %zu, needed %zu, found ", buffer.room, count);
        print_bytes(buffer.bytes, size + GUARDS);
        printf("\n");
    }
    free_block(buffer.bytes);
}

void expect_fault(struct buffer fault, const struct cfgx_fault *wanted, uint32_t status)
{
    static const struct cfgx_fault none = NO_FAULT;
    int is_told = status == CFGX_STATUS_FAULTY || status == CFGX_STATUS_NOT_UTF8
        || status == CFGX_STATUS_FAULTY_FACT;
    expect_filled(fault, is_told ? wanted : &none, 1);
}

void expect_value(struct buffer value, uint8_t wanted, uint32_t status)
{
    uint8_t told = status == CFGX_STATUS_DONE ? wanted : CFGX_VALUE_UNKNOWN;
    expect_filled(value, &told, 1);
}

void begin_row_of(struct list texts)
{
    rows++;
    row_texts = texts;
}

void begin_row(struct text text)
{
    struct list texts = {&row_text, 1};
    row_text = text;
    begin_row_of(texts);
}

/* Makes one call with the growth of this number refused. */
static void call_once(call_of_row *call, const void *row, size_t room, uint32_t status,
                      size_t number)
{
    /* What runs before `main` may have taken blocks. */
    growths = blocks = 0;
    refused = number;
    call(row, room, status);
    expect_number("the number of blocks that are left behind", blocks, 0);
    refused = NONE;
}

size_t test_growths(call_of_row *call, const void *row, size_t room, uint32_t status)
{
    call_once(call, row, room, status, NONE);
    size_t count = growths;
    for (size_t number = 0; number < count; number++) {
        call_once(call, row, room, CFGX_STATUS_OUT_OF_MEMORY, number);
    }
    refusals += count;
    return count;
}

size_t test_rooms(call_of_row *call, const void *row, size_t needed, uint32_t status)
{
    for (size_t room = 0; room <= needed + 1; room++) {
        if (room < 2 || room + 1 >= needed || needed < MOST_ROOMS) {
            call_once(call, row, room, status, NONE);
        }
    }
    return test_growths(call, row, needed, status);
}

void test_row(call_of_row *call, const void *row, struct text text, size_t needed,
              uint32_t status)
{
    begin_row(text);
    test_rooms(call, row, needed, status);
}

int finish(const char *call, int takes_memory)
{
    if (takes_memory && refusals == 0) {
        failures++;
        printf("FAILED: %s: no growth was counted, so none was refused\n", call);
    }
    printf("%s: %zu rows, %zu growths refused, %zu failures\n", call, rows, refusals, failures);
    return failures == 0 ? 0 : 1;
}
