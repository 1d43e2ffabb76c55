/* Tests `cfgx_apply`: rows, steps with each byte changed, steps at random, and the many steps that
 * `cfgx_compile` gives for long conditions. */
#include "harness.h"

#include <stdio.h>
#include <string.h>

#define MOST 64

/* The most steps, and the most answers, that take no memory. */
#define INLINE 33

struct row {
    size_t step_count;
    struct cfgx_step steps[MOST];
    struct text answers;
    uint32_t status;
    uint8_t value;
};

#define FALSE {CFGX_STEP_FALSE, 0}
#define TRUE {CFGX_STEP_TRUE, 0}
#define ASK(number) {CFGX_STEP_ASK, number}
#define NOT {CFGX_STEP_NOT, 1}
#define ALL(number) {CFGX_STEP_ALL, number}
#define ANY(number) {CFGX_STEP_ANY, number}
#define ASK_4(number) ASK(number), ASK(number + 1), ASK(number + 2), ASK(number + 3)
#define ASK_32 ASK_4(0), ASK_4(4), ASK_4(8), ASK_4(12), ASK_4(16), ASK_4(20), ASK_4(24), ASK_4(28)
#define NOT_8 NOT, NOT, NOT, NOT, NOT, NOT, NOT, NOT
#define VALUE(value) CFGX_STATUS_DONE, CFGX_VALUE_##value
#define MISCOUNTED CFGX_STATUS_MISCOUNTED, 0
#define NO_VALUE CFGX_STATUS_NO_VALUE, 0

static const struct row rows[] = {
    {1, {TRUE}, TEXT(""), VALUE(TRUE)},
    {1, {FALSE}, TEXT(""), VALUE(FALSE)},
    {1, {ALL(0)}, TEXT(""), VALUE(TRUE)},
    {1, {ANY(0)}, TEXT(""), VALUE(FALSE)},
    {1, {ASK(0)}, TEXT("\0"), VALUE(FALSE)},
    {1, {ASK(0)}, TEXT("\1"), VALUE(TRUE)},
    {1, {ASK(0)}, TEXT("\2"), VALUE(UNKNOWN)},
    {1, {ASK(0)}, TEXT("\3"), VALUE(UNKNOWN)},
    {2, {NOT, ASK(0)}, TEXT("\x80"), VALUE(UNKNOWN)},
    {2, {NOT, ASK(0)}, TEXT("\xff"), VALUE(UNKNOWN)},
    {3, {ALL(2), ASK(0), ASK(1)}, TEXT("\1\1"), VALUE(TRUE)},
    {3, {ALL(2), ASK(0), ASK(1)}, TEXT("\xff\0"), VALUE(FALSE)},
    {3, {ANY(2), ASK(0), ASK(1)}, TEXT("\xff\0"), VALUE(UNKNOWN)},
    {3, {ANY(2), ASK(0), ASK(1)}, TEXT("\xff\1"), VALUE(TRUE)},
    {4, {ALL(2), NOT, ASK(0), ASK(1)}, TEXT("\0\1"), VALUE(TRUE)},
    {4, {ALL(2), NOT, ASK(0), ASK(1)}, TEXT("\1\0"), VALUE(FALSE)},
    {33, {ALL(32), ASK_32},
     TEXT("\1\1\1\1\1\1\1\1\1\1\1\1\1\1\1\1\1\1\1\1\1\1\1\1\1\1\1\1\1\1\1\0"), VALUE(FALSE)},
    {34, {ALL(33), ASK_32, ASK(32)},
     TEXT("\1\1\1\1\1\1\1\1\1\1\1\1\1\1\1\1\1\1\1\1\1\1\1\1\1\1\1\1\1\1\1\1\2"), VALUE(UNKNOWN)},
    {42, {NOT_8, NOT_8, NOT_8, NOT_8, NOT_8, NOT, ASK(0)}, TEXT("\0"), VALUE(TRUE)},

    {1, {ASK(0)}, TEXT(""), MISCOUNTED},
    {1, {ASK(0)}, TEXT("\1\1"), MISCOUNTED},
    {1, {TRUE}, TEXT("\1"), MISCOUNTED},
    {3, {ALL(2), ASK(0), ASK(1)}, TEXT("\1"), MISCOUNTED},
    {1, {ASK(0)},
     TEXT("\1\1\1\1\1\1\1\1\1\1\1\1\1\1\1\1\1\1\1\1\1\1\1\1\1\1\1\1\1\1\1\1\1"), MISCOUNTED},
    {1, {ASK(0)},
     TEXT("\1\1\1\1\1\1\1\1\1\1\1\1\1\1\1\1\1\1\1\1\1\1\1\1\1\1\1\1\1\1\1\1\1\1"), MISCOUNTED},
    {33, {ALL(32), ASK_32},
     TEXT("\1\1\1\1\1\1\1\1\1\1\1\1\1\1\1\1\1\1\1\1\1\1\1\1\1\1\1\1\1\1\1\1\1"), MISCOUNTED},

    {0, {TRUE}, TEXT(""), NO_VALUE},
    {2, {TRUE, TRUE}, TEXT(""), NO_VALUE},
    {2, {ASK(0), ASK(1)}, TEXT("\1\1"), NO_VALUE},
    {1, {NOT}, TEXT(""), NO_VALUE},
    {2, {ALL(2), ASK(0)}, TEXT("\1"), NO_VALUE},
    {2, {ALL(SIZE_MAX), ASK(0)}, TEXT("\1"), NO_VALUE},
    {2, {ANY(SIZE_MAX / 16 + 2), TRUE}, TEXT(""), NO_VALUE},
    {2, {{CFGX_STEP_NOT, 0}, ASK(0)}, TEXT("\1"), NO_VALUE},
    {3, {{CFGX_STEP_NOT, 2}, ASK(0), ASK(1)}, TEXT("\1\1"), NO_VALUE},
    {1, {ASK(1)}, TEXT("\1"), NO_VALUE},
    {1, {{CFGX_STEP_TRUE, 1}}, TEXT(""), NO_VALUE},
    {1, {{CFGX_STEP_FALSE, SIZE_MAX}}, TEXT(""), NO_VALUE},
    {1, {{6, 0}}, TEXT(""), NO_VALUE},
    {2, {{UINT32_MAX, 1}, ASK(0)}, TEXT("\1"), NO_VALUE},
    /* The number of answers comes first, also if the steps are not those of one tree. */
    {2, {ASK(0), ASK(1)}, TEXT("\1"), MISCOUNTED},
    /* In a condition, the predicates of the functions of a list have the lower numbers. */
    {4, {ALL(2), ASK(0), NOT, ASK(1)}, TEXT("\1\1"), VALUE(FALSE)},
    {3, {ANY(2), TRUE, ALL(0)}, TEXT(""), VALUE(TRUE)},
    {5, {ANY(4), ALL(0), TRUE, ALL(0), ASK(0)}, TEXT("\1"), VALUE(TRUE)},
    {4, {ALL(2), ASK(0), NOT, ASK(1)}, TEXT("\1"), MISCOUNTED},

    /* A step takes the answer with its number, wherever it stands. */
    {4, {ALL(2), NOT, ASK(1), ASK(0)}, TEXT("\1\0"), VALUE(TRUE)},
    {4, {ALL(2), NOT, ASK(1), ASK(0)}, TEXT("\0\1"), VALUE(FALSE)},
    {3, {ALL(2), ASK(1), ASK(1)}, TEXT("\0\1"), VALUE(TRUE)},
    {3, {ANY(2), ASK(0), ASK(0)}, TEXT("\0\1"), VALUE(FALSE)},

    /* An answer that is not there, also where another member decides the value. */
    {2, {NOT, ASK(1)}, TEXT("\1"), NO_VALUE},
    {3, {ALL(2), ASK(0), ASK(2)}, TEXT("\0\1"), NO_VALUE},
    {3, {ANY(2), TRUE, ASK(SIZE_MAX)}, TEXT("\1"), NO_VALUE},

    /* Too few members behind a function, too many, and two trees. */
    {3, {ALL(3), ASK(0), ASK(1)}, TEXT("\1\1"), NO_VALUE},
    {3, {ALL(2), NOT, ASK(0)}, TEXT("\1"), NO_VALUE},
    {2, {ASK(0), NOT}, TEXT("\1"), NO_VALUE},
    {3, {ALL(1), ASK(0), ASK(1)}, TEXT("\1\1"), NO_VALUE},
    {3, {NOT, ASK(0), ASK(1)}, TEXT("\1\1"), NO_VALUE},
    {2, {ALL(0), ALL(0)}, TEXT(""), NO_VALUE},

    /* The steps of version 2 of the calls, in which a function stood behind its members: those of
     * `all(a, b)`, `all(not(a), b)`, `all(a, any(b), c)` and `any(all())`. */
    {3, {ASK(0), ASK(0), ALL(2)}, TEXT("\1\1"), NO_VALUE},
    {4, {ASK(0), NOT, ASK(0), ALL(2)}, TEXT("\0\1"), NO_VALUE},
    {5, {ASK(0), ANY(1), ASK(0), ASK(0), ALL(3)}, TEXT("\1\1\1"), NO_VALUE},
    {2, {ALL(0), ANY(1)}, TEXT(""), NO_VALUE},

    /* Whatever else is wrong, the number of answers comes first. */
    {0, {TRUE}, TEXT("\1"), MISCOUNTED},
    {2, {TRUE, TRUE}, TEXT("\1"), MISCOUNTED},
    {1, {{6, 0}}, TEXT("\1"), MISCOUNTED},
    {1, {{CFGX_STEP_FALSE, 1}}, TEXT("\1"), MISCOUNTED},
    {1, {ASK(1)}, TEXT(""), MISCOUNTED},
    {1, {ASK(1)}, TEXT("\1\1"), MISCOUNTED},
    {2, {{CFGX_STEP_NOT, 2}, ASK(0)}, TEXT(""), MISCOUNTED},
    {3, {ASK(0), ASK(0), ALL(2)}, TEXT("\1"), MISCOUNTED},
};

static struct text steps_of(const struct row *row)
{
    struct text steps = {(const char *)row->steps, row->step_count * sizeof(struct cfgx_step)};
    return steps;
}

static void call(const void *item, size_t room, uint32_t status)
{
    const struct row *row = item;
    struct cfgx_step *steps = block_of(steps_of(row));
    uint8_t *answers = block_of(row->answers);
    struct buffer value = make_buffer(&BYTES, 1);
    uint32_t found = cfgx_apply(steps, row->step_count, answers, row->answers.length, value.bytes);
    (void)room;
    free_block(steps);
    free_block(answers);
    expect_number("the status", found, status);
    expect_value(value, row->value, status);
}

/* Returns the value of `all` or `any` over the values. */
static uint8_t list_value(uint32_t kind, const uint8_t *values, size_t count)
{
    uint8_t deciding = kind == CFGX_STEP_ALL ? CFGX_VALUE_FALSE : CFGX_VALUE_TRUE;
    uint8_t value = !deciding;
    for (size_t i = 0; i < count; i++) {
        if (values[i] == deciding) {
            return deciding;
        }
        if (values[i] == CFGX_VALUE_UNKNOWN) {
            value = CFGX_VALUE_UNKNOWN;
        }
    }
    return value;
}

/* Returns the value of a function over the values. */
static uint8_t function_value(uint32_t kind, const uint8_t *values, size_t count)
{
    if (kind != CFGX_STEP_NOT) {
        return list_value(kind, values, count);
    }
    return *values == CFGX_VALUE_UNKNOWN ? CFGX_VALUE_UNKNOWN : !*values;
}

/* Returns whether the number suits the kind, and the values that the step pops or pushes are
 * there. */
static int can_run(struct cfgx_step step, size_t depth, size_t answer_count)
{
    switch (step.kind) {
    case CFGX_STEP_FALSE:
    case CFGX_STEP_TRUE:
        return step.number == 0;
    case CFGX_STEP_ASK:
        return step.number < answer_count;
    case CFGX_STEP_NOT:
        return step.number == 1 && depth > 0;
    case CFGX_STEP_ALL:
    case CFGX_STEP_ANY:
        return step.number <= depth;
    default:
        return 0;
    }
}

/* Runs the steps of a row from the last to the first, as far as they can be run. Returns how many
 * values are left, or 0 if not all steps were run. */
static size_t run(const struct row *row, uint8_t *stack)
{
    size_t depth = 0;
    for (size_t i = row->step_count; i-- > 0;) {
        struct cfgx_step step = row->steps[i];
        uint8_t value = (uint8_t)step.kind;
        if (!can_run(step, depth, row->answers.length)) {
            return 0;
        }
        if (step.kind == CFGX_STEP_ASK) {
            value = (uint8_t)row->answers.bytes[step.number];
            value = value <= CFGX_VALUE_TRUE ? value : CFGX_VALUE_UNKNOWN;
        } else if (step.kind > CFGX_STEP_ASK) {
            depth -= step.number;
            value = function_value(step.kind, stack + depth, step.number);
        }
        stack[depth++] = value;
    }
    return depth;
}

/* Returns how many steps of a row ask. */
static size_t count_asks(const struct row *row)
{
    size_t asks = 0;
    for (size_t i = 0; i < row->step_count; i++) {
        asks += row->steps[i].kind == CFGX_STEP_ASK;
    }
    return asks;
}

/* Sets the status and the value that the row has, by a stack of its own. */
static void evaluate(struct row *row)
{
    uint8_t stack[MOST];
    if (count_asks(row) != row->answers.length) {
        row->status = CFGX_STATUS_MISCOUNTED;
    } else if (run(row, stack) != 1) {
        row->status = CFGX_STATUS_NO_VALUE;
    } else {
        row->status = CFGX_STATUS_DONE;
        row->value = stack[0];
    }
}

/* Expects that a short row takes no memory, and that a longer one takes some. A longer row without
 * a value may end before it takes any. */
static void expect_growths(const struct row *row, size_t growths)
{
    if (row->step_count <= INLINE && row->answers.length <= INLINE) {
        expect_number("the number of growths", growths, 0);
    } else if (row->status == CFGX_STATUS_DONE) {
        expect_number("whether a growth was counted", growths > 0, 1);
    }
}

/* Tests the row, for which this test computes status and value. Returns whether it has a value. */
static size_t test_computed(struct row *row)
{
    struct list name = LIST(steps_of(row), row->answers);
    evaluate(row);
    begin_row_of(name);
    expect_growths(row, test_growths(call, row, 1, row->status));
    return row->status == CFGX_STATUS_DONE;
}

/* Tests the steps of a row with each byte changed to each other byte. */
static void test_bytes(const struct row *row)
{
    for (size_t at = 0; at < row->step_count * sizeof(struct cfgx_step); at++) {
        struct row changed = *row;
        for (unsigned byte = 0; byte < 256; byte++) {
            ((unsigned char *)changed.steps)[at] = (unsigned char)byte;
            test_computed(&changed);
        }
    }
}

/* Returns a number below `limit`, from a sequence that is the same in every run. */
static size_t random_below(size_t limit)
{
    static uint64_t state = 88172645463325252u;
    state ^= state << 13;
    state ^= state >> 7;
    state ^= state << 17;
    return (size_t)(state >> 33) % limit;
}

/* Returns a step at random, mostly one that a stack of this depth has values for. */
static struct cfgx_step random_step(size_t depth)
{
    struct cfgx_step step = {(uint32_t)random_below(7), 0};
    if (step.kind > CFGX_STEP_ASK) {
        step.number = step.kind == CFGX_STEP_NOT ? 1 : random_below(depth + 1);
    }
    if (random_below(24) == 0) {
        step.number = random_below(2) ? random_below(4) : SIZE_MAX - random_below(3);
    }
    return step;
}

/* Sets the steps of a row at random, from the last to the first. Most of those that ask get the
 * number of an answer, if there are as many answers as asks. */
static void set_steps(struct row *row)
{
    size_t depth = 0, asks;
    for (size_t i = row->step_count; i-- > 0;) {
        struct cfgx_step step = random_step(depth);
        size_t popped = step.kind > CFGX_STEP_ASK ? step.number : 0;
        depth = popped > depth ? 1 : depth - popped + 1;
        row->steps[i] = step;
    }
    asks = count_asks(row);
    for (size_t i = 0; i < row->step_count; i++) {
        if (row->steps[i].kind == CFGX_STEP_ASK && random_below(24) > 0) {
            row->steps[i].number = random_below(asks);
        }
    }
}

/* Tests lists of steps at random, a few of them long. */
static void test_random(size_t lists)
{
    char answers[MOST];
    size_t values = 0;
    for (size_t i = 0; i < MOST; i++) {
        answers[i] = (char)random_below(4);
    }
    for (size_t list = 0; list < lists; list++) {
        size_t most = random_below(16) ? 8 : MOST;
        struct row row = {1 + random_below(most), {TRUE}, {answers, 0}, 0, 0};
        set_steps(&row);
        row.answers.length = random_below(8) ? count_asks(&row) : random_below(MOST);
        values += test_computed(&row);
    }
    struct text name = TEXT("lists at random");
    begin_row(name);
    printf("cfgx_apply: %zu of %zu lists at random have a value\n", values, lists);
    expect_number("whether a twentieth of these lists has a value", values * 20 >= lists, 1);
}

#define MANY 50000

/* Compiles a condition of MANY predicates, which are all true, and tests its value. */
static void test_long(const char *open, const char *member, const char *close, uint8_t value)
{
    static char text[8 * MANY];
    static struct cfgx_step steps[2 * MANY + 1];
    static struct cfgx_predicate predicates[MANY];
    static uint8_t answers[MANY];
    struct text name = {open, strlen(open)};
    size_t length = strlen(open), step_count, predicate_count;
    uint8_t found = 77;
    memcpy(text, open, length);
    for (size_t i = 0; i < MANY; i++) {
        memcpy(text + length, member, strlen(member));
        length += strlen(member);
    }
    memcpy(text + length, close, strlen(close));
    memset(answers, CFGX_VALUE_TRUE, MANY);
    begin_row(name);
    uint32_t status = cfgx_compile(text, length + strlen(close), steps, COUNT(steps), &step_count,
                                   predicates, COUNT(predicates), &predicate_count, NULL);
    expect_number("the status of cfgx_compile", status, CFGX_STATUS_DONE);
    expect_number("the number of predicates", predicate_count, MANY);
    status = cfgx_apply(steps, step_count, answers, predicate_count, &found);
    expect_number("the status", status, CFGX_STATUS_DONE);
    expect_number("the value", found, value);
}

int main(void)
{
    for (size_t i = 0; i < COUNT(rows); i++) {
        struct list name = LIST(steps_of(&rows[i]), rows[i].answers);
        begin_row_of(name);
        expect_growths(&rows[i], test_rooms(call, &rows[i], 1, rows[i].status));
    }
    for (size_t i = 0; i < COUNT(rows); i++) {
        if (rows[i].status == CFGX_STATUS_DONE && rows[i].step_count / 3 == 1) {
            test_bytes(&rows[i]);
        }
    }
    test_random(100000);
    test_long("all(", "a,", ")", CFGX_VALUE_TRUE);
    test_long("any(", "not(a),", ")", CFGX_VALUE_FALSE);
    return finish("cfgx_apply", 1);
}
