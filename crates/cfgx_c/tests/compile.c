/* Tests `cfgx_compile`, and that the steps and the predicates of a condition have its tree. */
#include "harness.h"

#include <string.h>

#define MOST 12

/* The predicates of a row are those that `cfgx_predicates` lists, or flags of one letter. */
struct row {
    struct text text;
    uint32_t status;
    size_t step_count;
    struct cfgx_step steps[MOST];
    size_t predicate_count;
    struct cfgx_predicate predicates[MOST];
    struct cfgx_fault fault;
};

#define REFUSED(literal, status, fault)                                                            \
    {TEXT(literal), CFGX_STATUS_##status, 0, {{0, 0}}, 0, {NO_PREDICATE}, fault}
#define COMPILED(literal, step_count, steps, predicate_count, predicates)                          \
    {TEXT(literal), CFGX_STATUS_DONE, step_count, {UNPACKED steps}, predicate_count,               \
     {UNPACKED predicates}, NO_FAULT}
#define UNPACKED(...) __VA_ARGS__
#define FALSE {CFGX_STEP_FALSE, 0}
#define TRUE {CFGX_STEP_TRUE, 0}
#define ASK(number) {CFGX_STEP_ASK, number}
#define NOT {CFGX_STEP_NOT, 1}
#define ALL(number) {CFGX_STEP_ALL, number}
#define ANY(number) {CFGX_STEP_ANY, number}
#define FLAG(start) {CFGX_PREDICATE_FLAG, 0, start, start + 1, start, start + 1, 0, 0}

static const struct row rows[] = {
    REFUSED("all(a, b", FAULTY, FAULT(0, 0, 3, 8, UNCLOSED_PARENS)),
    REFUSED("", FAULTY, FAULT(0, 0, 0, 0, EMPTY)),
    REFUSED("unix\0unix", FAULTY, TERMS(0, 0, 4, 5, START)),
    REFUSED("cfg(unix\0unix)", FAULTY, TERMS(0, 4, 4, 5, START)),
    REFUSED("a = \"\xff\"", NOT_UTF8, BYTE(0, 5)),

    COMPILED("a", 1, (ASK(0)), 1, (FLAG(0))),
    COMPILED("cfg(a)", 1, (ASK(0)), 1, (FLAG(4))),
    COMPILED("true", 1, (TRUE), 0, (NO_PREDICATE)),
    COMPILED("false", 1, (FALSE), 0, (NO_PREDICATE)),
    COMPILED("all()", 1, (ALL(0)), 0, (NO_PREDICATE)),
    COMPILED("any()", 1, (ANY(0)), 0, (NO_PREDICATE)),
    COMPILED("not(not(a))", 3, (NOT, NOT, ASK(0)), 1, (FLAG(8))),
    COMPILED("all(unix, k = \"\xc3\xa9\")", 3, (ALL(2), ASK(0), ASK(1)), 2,
             ({CFGX_PREDICATE_FAMILY, 0, 4, 8, 0, 0, 4, 8},
              {CFGX_PREDICATE_KEY_VALUE, 0, 10, 18, 10, 11, 15, 17})),

    /* Steps stand as in the text. In each list the predicates of its functions have the lower
     * numbers, and then its own. */
    COMPILED("all(a, any(b), c)", 5, (ALL(3), ASK(1), ANY(1), ASK(0), ASK(2)), 3,
             (FLAG(11), FLAG(4), FLAG(15))),
    COMPILED("cfg(any(a, true, not(b), false, all(c, d)))", 9,
             (ANY(5), ASK(3), TRUE, NOT, ASK(0), FALSE, ALL(2), ASK(1), ASK(2)), 4,
             (FLAG(21), FLAG(36), FLAG(39), FLAG(8))),
    COMPILED("all(a, any(b, not(c)), d, not(e))", 9,
             (ALL(4), ASK(3), ANY(2), ASK(1), NOT, ASK(0), ASK(4), NOT, ASK(2)), 5,
             (FLAG(18), FLAG(11), FLAG(30), FLAG(4), FLAG(23))),
    COMPILED("any(a, all(a), not(a))", 6, (ANY(3), ASK(2), ALL(1), ASK(0), NOT, ASK(1)), 3,
             (FLAG(11), FLAG(19), FLAG(4))),
    COMPILED("not(any(all(), true, not(false)))", 6,
             (NOT, ANY(3), ALL(0), TRUE, NOT, FALSE), 0, (NO_PREDICATE)),
};

/* Returns the number of pairs of rooms: each up to one more than is needed. */
static size_t rooms_of(const struct row *row)
{
    return (row->step_count + 2) * (row->predicate_count + 2);
}

/* `pair` is the number of a pair of rooms. */
static void call(const void *item, size_t pair, uint32_t status)
{
    const struct row *row = item;
    size_t step_room = pair / (row->predicate_count + 2);
    size_t predicate_room = pair % (row->predicate_count + 2);
    char *text = block_of(row->text);
    struct buffer steps = make_buffer(&STEPS, step_room);
    struct buffer predicates = make_buffer(&PREDICATES, predicate_room);
    struct buffer fault = make_buffer(&FAULTS, 1);
    size_t steps_needed = 12345, predicates_needed = 12345;
    uint32_t found = cfgx_compile(text, row->text.length, (struct cfgx_step *)steps.bytes,
                                  step_room, &steps_needed,
                                  (struct cfgx_predicate *)predicates.bytes, predicate_room,
                                  &predicates_needed, (struct cfgx_fault *)fault.bytes);
    int is_done = status == CFGX_STATUS_DONE;
    int fits = step_room >= row->step_count && predicate_room >= row->predicate_count;
    free_block(text);
    expect_number("the status", found, status);
    expect_number("the number of steps", steps_needed, is_done ? row->step_count : 0);
    expect_number("the number of predicates", predicates_needed,
                  is_done ? row->predicate_count : 0);
    expect_filled(steps, row->steps, is_done && fits ? row->step_count : 0);
    expect_filled(predicates, row->predicates, is_done && fits ? row->predicate_count : 0);
    expect_fault(fault, &row->fault, status);
}

/* What a condition was compiled to. */
struct compiled {
    const char *text;
    struct cfgx_step steps[MOST];
    size_t step_count;
    struct cfgx_predicate predicates[MOST];
    size_t predicate_count;
};

/* A text that is written anew. */
struct written {
    char bytes[8 * MOST];
    size_t length;
};

static void put(struct written *written, const char *bytes, size_t length)
{
    if (length <= sizeof written->bytes - written->length) {
        memcpy(written->bytes + written->length, bytes, length);
        written->length += length;
    }
}

/* Writes what stands at a step: a condition. Returns the place behind its steps. */
static size_t write_condition(struct written *written, const struct compiled *compiled, size_t at)
{
    static const char *const words[] = {"false", "true", "", "not", "all", "any"};
    if (at >= compiled->step_count) {
        return at;
    }
    struct cfgx_step step = compiled->steps[at++];
    if (step.kind == CFGX_STEP_ASK && step.number < compiled->predicate_count) {
        const struct cfgx_predicate *asked = &compiled->predicates[step.number];
        put(written, compiled->text + asked->start, asked->end - asked->start);
    } else if (step.kind <= CFGX_STEP_ANY) {
        put(written, words[step.kind], strlen(words[step.kind]));
    }
    if (step.kind > CFGX_STEP_ASK) {
        put(written, "(", 1);
        for (size_t i = 0; i < step.number && at < compiled->step_count; i++) {
            put(written, ", ", i > 0 ? 2 : 0);
            at = write_condition(written, compiled, at);
        }
        put(written, ")", 1);
    }
    return at;
}

/* Returns the stripped text of a row. */
static struct text stripped(struct text text)
{
    if (strncmp(text.bytes, "cfg(", 4) == 0) {
        text.bytes += 4;
        text.length -= 5;
    }
    return text;
}

/* Expects that the steps and the predicates of a row write its stripped text anew. */
static void test_tree(const struct row *row)
{
    struct compiled compiled = {row->text.bytes, {{0, 0}}, 0, {NO_PREDICATE}, 0};
    struct written written = {"", 0};
    struct text text = stripped(row->text);
    uint32_t status = cfgx_compile(row->text.bytes, row->text.length, compiled.steps, MOST,
                                   &compiled.step_count, compiled.predicates, MOST,
                                   &compiled.predicate_count, NULL);
    expect_number("the status", status, CFGX_STATUS_DONE);
    expect_number("the number of steps that are written", write_condition(&written, &compiled, 0),
                  compiled.step_count);
    expect_number("the length of what is written", written.length, text.length);
    expect_number("whether it is the text",
                  strncmp(written.bytes, text.bytes, written.length) == 0, 1);
}

int main(void)
{
    for (size_t i = 0; i < COUNT(rows); i++) {
        test_row(call, &rows[i], rows[i].text, rooms_of(&rows[i]) - 2, rows[i].status);
        if (rows[i].status == CFGX_STATUS_DONE) {
            test_tree(&rows[i]);
        }
    }
    return finish("cfgx_compile", 1);
}
