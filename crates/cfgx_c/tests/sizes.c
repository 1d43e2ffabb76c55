/* Tests every call over each size from 0 on, one by one, and over some larger ones: the members,
 * the depth and the bytes of a condition, its answers and steps, facts, targets, texts, words, and
 * the lines and bytes of an input. No call is out of memory, and each result is known from what the
 * call means. A word on the command line is the most size that is tested. */
#include "harness.h"

#include <stdio.h>
#include <stdlib.h>
#include <string.h>

/* Up to this size each one is tested. */
#define ONE_BY_ONE 2050
#define MOST 65537

static const size_t larger[] = {3000, 4095, 4096, 4097, 9999, 10000, 65535, 65536, MOST};

/* A condition of a size: `start`, `piece` as often as the size says, `middle`, `closing` as often,
 * and `end`. */
struct shape {
    const char *name;
    const char *start, *piece, *middle, *closing, *end;
    /* the numbers of predicates, steps and tokens: so many for each piece, and so many more */
    size_t predicates_each, predicates_more, steps_each, steps_more, tokens_each, tokens_more;
    /* The value is that of `any` or `all` over the answers, each of which may be negated, and is
     * then negated once for each piece. */
    int is_any, negates_answers, negates_pieces;
    /* what answers all its predicates, or NULL if the text itself does */
    const char *fact;
};

static const struct shape shapes[] = {
    {"members of all", "all(", "a,", "", "", ")", 1, 0, 1, 1, 2, 3, 0, 0, 0, "a"},
    {"members of any", "any(", "a,", "", "", ")", 1, 0, 1, 1, 2, 3, 1, 0, 0, "a"},
    {"members that are functions", "any(", "not(a),", "", "", ")", 1, 0, 2, 1, 5, 3, 1, 1, 0, "a"},
    {"members that are lists", "all(", "any(a),", "", "", ")", 1, 0, 2, 1, 5, 3, 0, 0, 0, "a"},
    {"members that are literals", "all(", "true,", "", "", ")", 0, 0, 1, 1, 2, 3, 0, 0, 0, "a"},
    {"members with a value", "all(", "k=\"v\",", "", "", ")",
     1, 0, 1, 1, 4, 3, 0, 0, 0, "k = \"v\""},
    {"the depth of not", "", "not(", "a", ")", "", 0, 1, 1, 1, 3, 1, 0, 0, 1, "a"},
    {"the depth of lists", "", "all(", "a", ")", "", 0, 1, 1, 1, 3, 1, 0, 0, 0, "a"},
    {"the depth of lists with members", "", "all(a,", "a", ")", "", 1, 1, 2, 1, 5, 1, 0, 0, 0, "a"},
    {"bytes of a key", "k", "k", "", "", "", 0, 1, 0, 1, 0, 1, 0, 0, 0, NULL},
    {"bytes of a value", "k = \"", "v", "\"", "", "", 0, 1, 0, 1, 0, 3, 0, 0, 0, NULL},
    {"blanks", "", " ", "a", "", "", 0, 1, 0, 1, 0, 1, 0, 0, 0, "a"},
};

/* What the tests make and pass: a condition, texts with their ends, and answers. */
static char text[16 * MOST], texts[16 * MOST], wanted[16 * MOST];
static size_t ends[MOST + 2], target_ends[MOST];
static uint8_t answers[MOST + 1], values[MOST];

/* Writes a piece many times, and returns where it ends. */
static char *repeat(char *at, const char *piece, size_t count)
{
    size_t length = strlen(piece);
    for (size_t i = 0; i < count; i++) {
        memcpy(at, piece, length);
        at += length;
    }
    return at;
}

/* Writes the condition of a size, and returns its length. */
static size_t make_text(const struct shape *shape, size_t size)
{
    char *at = repeat(text, shape->start, 1);
    at = repeat(at, shape->piece, size);
    at = repeat(at, shape->middle, 1);
    at = repeat(at, shape->closing, size);
    return (size_t)(repeat(at, shape->end, 1) - text);
}

static uint8_t negated(uint8_t value)
{
    return value == CFGX_VALUE_UNKNOWN ? value : !value;
}

/* Returns the value of a condition over answers. */
static uint8_t value_of(const struct shape *shape, size_t size, const uint8_t *given, size_t count)
{
    uint8_t deciding = shape->is_any ? CFGX_VALUE_TRUE : CFGX_VALUE_FALSE, value = !deciding;
    for (size_t i = 0; i < count; i++) {
        uint8_t answer = shape->negates_answers ? negated(given[i]) : given[i];
        if (answer == deciding || value == deciding) {
            value = deciding;
        } else if (answer == CFGX_VALUE_UNKNOWN) {
            value = answer;
        }
    }
    return shape->negates_pieces && size % 2 == 1 ? negated(value) : value;
}

/* A condition of a size, and what is known of it. */
struct condition {
    const struct shape *shape;
    size_t size;
    size_t length;
    size_t predicate_count;
    size_t step_count;
    size_t token_count;
    struct text fact;
};

/* Returns how many of the tokens stand in order, with only blanks between them. */
static size_t count_in_order(const struct cfgx_token *tokens, size_t count)
{
    size_t end = 0, i = 0;
    while (i < count && tokens[i].start == end + strspn(text + end, " ")
           && tokens[i].start < tokens[i].end) {
        end = tokens[i++].end;
    }
    return i;
}

static void test_tokens(const struct condition *condition)
{
    size_t count = condition->token_count, needed = 12345, offset = 12345;
    struct buffer buffer = make_buffer(&TOKENS, count);
    const struct cfgx_token *tokens = (const struct cfgx_token *)buffer.bytes;
    uint32_t status = cfgx_tokens(text, condition->length, (struct cfgx_token *)buffer.bytes, count,
                                  &needed, &offset, NULL);
    expect_number("the status of cfgx_tokens", status, CFGX_STATUS_DONE);
    expect_number("the number of tokens", needed, count);
    expect_number("the offset", offset, 0);
    expect_number("the tokens in order", count_in_order(tokens, count), count);
    expect_number("the end of the last token", tokens[count - 1].end, condition->length);
    free_block(buffer.bytes);
}

/* The calls that take no answers. */
static void test_reading(const struct condition *condition)
{
    size_t length = condition->length, count = condition->predicate_count, needed = 12345;
    struct buffer predicates = make_buffer(&PREDICATES, count);
    struct cfgx_fault fault;
    expect_number("the status of cfgx_check", cfgx_check(text, length, &fault), CFGX_STATUS_DONE);
    expect_number("the status of cfgx_explain", cfgx_explain(text, length, NULL, 0, &needed, NULL),
                  CFGX_STATUS_DONE);
    expect_number("the bytes of its message", needed, 0);
    uint32_t status = cfgx_predicates(text, length, (struct cfgx_predicate *)predicates.bytes,
                                      count, &needed, NULL);
    expect_number("the status of cfgx_predicates", status, CFGX_STATUS_DONE);
    expect_number("the number of predicates", needed, count);
    free_block(predicates.bytes);
    test_tokens(condition);
}

/* Tests that a filling keeps the known answers, and leads to a value. */
static void test_filling(const struct condition *condition, const uint8_t *filling, uint8_t value)
{
    size_t right = 0;
    for (size_t i = 0; i < condition->predicate_count; i++) {
        int is_kept = answers[i] == CFGX_VALUE_UNKNOWN || filling[i] == answers[i];
        right += filling[i] <= CFGX_VALUE_TRUE && is_kept;
    }
    expect_number("the answers of a filling", right, condition->predicate_count);
    expect_number("the value over a filling",
                  value_of(condition->shape, condition->size, filling, right), value);
}

static void test_decide(const struct condition *condition, uint8_t value)
{
    size_t count = condition->predicate_count, needed = 12345;
    uint8_t found = 77, *fillings = make_buffer(&BYTES, 2 * count).bytes;
    uint32_t status = cfgx_decide(text, condition->length, answers, count, fillings, 2 * count,
                                  &needed, &found, NULL);
    expect_number("the status of cfgx_decide", status, CFGX_STATUS_DONE);
    expect_number("its value", found, value);
    expect_number("the bytes of its fillings", needed,
                  value == CFGX_VALUE_UNKNOWN ? 2 * count : 0);
    if (value == CFGX_VALUE_UNKNOWN) {
        test_filling(condition, fillings, CFGX_VALUE_TRUE);
        test_filling(condition, fillings + count, CFGX_VALUE_FALSE);
    }
    free_block(fillings);
}

/* The calls that take answers: all are the same. */
static void test_answered(const struct condition *condition, const struct cfgx_step *steps,
                          uint8_t answer)
{
    size_t count = condition->predicate_count;
    uint8_t found = 77;
    memset(answers, answer, count);
    uint8_t value = value_of(condition->shape, condition->size, answers, count);
    uint32_t status = cfgx_value(text, condition->length, answers, count, &found, NULL);
    expect_number("the status of cfgx_value", status, CFGX_STATUS_DONE);
    expect_number("its value", found, value);
    found = 77;
    status = cfgx_apply(steps, condition->step_count, answers, count, &found);
    expect_number("the status of cfgx_apply", status, CFGX_STATUS_DONE);
    expect_number("its value", found, value);
    test_decide(condition, value);
}

static void test_compile(const struct condition *condition)
{
    size_t needed = 12345, predicates_needed = 12345, count = condition->predicate_count;
    struct buffer steps = make_buffer(&STEPS, condition->step_count);
    struct buffer predicates = make_buffer(&PREDICATES, count);
    uint32_t status = cfgx_compile(text, condition->length, (struct cfgx_step *)steps.bytes,
                                   condition->step_count, &needed,
                                   (struct cfgx_predicate *)predicates.bytes, count,
                                   &predicates_needed, NULL);
    expect_number("the status of cfgx_compile", status, CFGX_STATUS_DONE);
    expect_number("the number of steps", needed, condition->step_count);
    expect_number("the number of predicates", predicates_needed, count);
    for (uint8_t answer = CFGX_VALUE_FALSE; answer <= CFGX_VALUE_UNKNOWN; answer++) {
        test_answered(condition, (const struct cfgx_step *)steps.bytes, answer);
    }
    free_block(steps.bytes);
    free_block(predicates.bytes);
}

/* Returns the value of the condition if all answers are the same. */
static uint8_t value_over(const struct condition *condition, uint8_t answer)
{
    memset(answers, answer, condition->predicate_count);
    return value_of(condition->shape, condition->size, answers, condition->predicate_count);
}

/* The calls that take facts: one that answers all predicates, or none. */
static void test_facts(const struct condition *condition, size_t fact_count)
{
    size_t count = condition->predicate_count, needed = 12345;
    size_t length = fact_count * condition->fact.length;
    struct buffer found = make_buffer(&BYTES, count), found_value = make_buffer(&BYTES, 1);
    uint8_t value = value_over(condition, fact_count > 0 ? CFGX_VALUE_TRUE : CFGX_VALUE_UNKNOWN);
    uint32_t status = cfgx_answers(text, condition->length, condition->fact.bytes, length, &length,
                                   fact_count, 1, found.bytes, count, &needed, NULL);
    expect_number("the status of cfgx_answers", status, CFGX_STATUS_DONE);
    expect_number("the number of answers", needed, count);
    expect_filled(found, answers, count);
    status = cfgx_audit(text, condition->length, &condition->length, 1, condition->fact.bytes,
                        length, &length, fact_count, &fact_count, 1, 1, found_value.bytes, 1,
                        &needed, NULL);
    expect_number("the status of cfgx_audit", status, CFGX_STATUS_DONE);
    expect_number("the number of values", needed, 1);
    expect_filled(found_value, &value, 1);
}

/* Runs the program with the words that are in `texts`, and expects an output. */
static void test_run(size_t word_count, const char *input, size_t input_length, const char *output,
                     size_t length)
{
    struct buffer found = make_buffer(&BYTES, length);
    size_t needed = 12345;
    uint32_t status = cfgx_run(texts, ends[word_count - 1], ends, word_count, input, input_length,
                               (char *)found.bytes, length, &needed);
    expect_number("the status of cfgx_run", status, CFGX_STATUS_DONE);
    expect_number("the bytes of its output", needed, length);
    expect_filled(found, output, length);
}

/* Sets a word behind those before it in `texts`. */
static void set_word(size_t place, const char *bytes, size_t length)
{
    size_t start = place > 0 ? ends[place - 1] : 0;
    memcpy(texts + start, bytes, length);
    ends[place] = start + length;
}

static void test_program(const struct condition *condition)
{
    const char *value = value_over(condition, CFGX_VALUE_TRUE) ? "true\n" : "false\n";
    char *at = wanted;
    for (size_t i = 0; i < condition->predicate_count; i++) {
        memcpy(at, condition->fact.bytes, condition->fact.length);
        at += condition->fact.length;
        *at++ = '\n';
    }
    set_word(0, "parse", 5);
    set_word(1, text, condition->length);
    test_run(2, NULL, 0, wanted, (size_t)(at - wanted));
    set_word(0, "eval", 4);
    set_word(1, text, condition->length);
    set_word(2, condition->fact.bytes, condition->fact.length);
    test_run(3, NULL, 0, value, strlen(value));
}

/* Tests a condition of a size with all calls that take a text. */
static void test_shape(const struct shape *shape, size_t size)
{
    size_t length = make_text(shape, size);
    struct condition condition = {
        shape,
        size,
        length,
        shape->predicates_each * size + shape->predicates_more,
        shape->steps_each * size + shape->steps_more,
        shape->tokens_each * size + shape->tokens_more,
        {shape->fact == NULL ? text : shape->fact, shape->fact == NULL ? length : 0},
    };
    condition.fact.length += shape->fact == NULL ? 0 : strlen(shape->fact);
    test_reading(&condition);
    test_compile(&condition);
    test_facts(&condition, 0);
    test_facts(&condition, 1);
    test_program(&condition);
}

/* Tests the fault of a `not` with as many members. */
static void test_fault(size_t size)
{
    char *end = repeat(repeat(repeat(text, "not(", 1), "a,", size), ")", 1);
    size_t length = (size_t)(end - text), needed = 12345;
    struct cfgx_fault found = {0, 0, 0, 0, size + 1, 0, 0};
    uint32_t wanted_status = size == 1 ? CFGX_STATUS_DONE : CFGX_STATUS_FAULTY;
    memcpy(wanted, text, length);
    char *at = repeat(repeat(wanted + length, "\n", 1), "^", length);
    at += sprintf(at, " not() takes 1 predicate, found %zu", size);
    size_t wanted_length = size == 1 ? 0 : (size_t)(at - wanted);
    struct buffer message = make_buffer(&BYTES, wanted_length);
    expect_number("the status of cfgx_check", cfgx_check(text, length, &found), wanted_status);
    expect_number("the members at fault", found.members, size == 1 ? 0 : size);
    uint32_t status = cfgx_explain(text, length, (char *)message.bytes, wanted_length, &needed,
                                   NULL);
    expect_number("the status of cfgx_explain", status, wanted_status);
    expect_number("the bytes of its message", needed, wanted_length);
    expect_filled(message, wanted, wanted_length);
}

/* Tests as many answers to a condition that takes one. */
static void test_miscounted(size_t size)
{
    const struct cfgx_step ask = {CFGX_STEP_ASK, 0};
    uint32_t wanted_status = size == 1 ? CFGX_STATUS_DONE : CFGX_STATUS_MISCOUNTED;
    uint8_t value = 77;
    size_t needed = 12345;
    memset(answers, CFGX_VALUE_TRUE, size);
    expect_number("the status of cfgx_value", cfgx_value("a", 1, answers, size, &value, NULL),
                  wanted_status);
    expect_number("the status of cfgx_decide",
                  cfgx_decide("a", 1, answers, size, NULL, 0, &needed, &value, NULL),
                  wanted_status);
    expect_number("the status of cfgx_apply", cfgx_apply(&ask, 1, answers, size, &value),
                  wanted_status);
}

/* Tests as many facts of one target. The last one says `a`, and the others `b`. */
static void test_many_facts(size_t size)
{
    const uint8_t found_answers[] = {size > 0, size > 1, 0};
    const char *condition = "all(a, b, not(c))";
    size_t length = strlen(condition), needed = 12345;
    struct buffer found = make_buffer(&BYTES, 3), value = make_buffer(&BYTES, 1);
    for (size_t i = 0; i < size; i++) {
        texts[i] = i + 1 < size ? 'b' : 'a';
        ends[i] = i + 1;
    }
    /* The functions of a list are asked first. */
    const uint8_t wanted_answers[] = {found_answers[2], found_answers[0], found_answers[1]};
    uint32_t status = cfgx_answers(condition, length, texts, size, ends, size, 0, found.bytes, 3,
                                   &needed, NULL);
    expect_number("the status of cfgx_answers", status, CFGX_STATUS_DONE);
    expect_filled(found, wanted_answers, 3);
    status = cfgx_audit(condition, length, &length, 1, texts, size, ends, size, &size, 1, 0,
                        value.bytes, 1, &needed, NULL);
    expect_number("the status of cfgx_audit", status, CFGX_STATUS_DONE);
    expect_filled(value, &found_answers[1], 1);
}

/* Tests as many targets. Each has one fact, `a` and `b` in turn. */
static void test_targets(size_t size)
{
    struct buffer found = make_buffer(&BYTES, size);
    size_t needed = 12345, one = 1;
    for (size_t i = 0; i < size; i++) {
        texts[i] = "ab"[i % 2];
        ends[i] = target_ends[i] = i + 1;
        values[i] = i % 2 == 0;
    }
    uint32_t status = cfgx_audit("a", 1, &one, 1, texts, size, ends, size, target_ends, size, 0,
                                 found.bytes, size, &needed, NULL);
    expect_number("the status of cfgx_audit", status, CFGX_STATUS_DONE);
    expect_number("the number of values", needed, size);
    expect_filled(found, values, size);
}

/* Tests as many conditions, `a` and `b` in turn, on a target with the fact `a`. */
static void test_texts(size_t size)
{
    struct buffer found = make_buffer(&BYTES, size);
    size_t needed = 12345, one = 1;
    for (size_t i = 0; i < size; i++) {
        texts[i] = "ab"[i % 2];
        ends[i] = i + 1;
        values[i] = i % 2 == 0;
    }
    uint32_t status = cfgx_audit(texts, size, ends, size, "a", 1, &one, 1, &one, 1, 0, found.bytes,
                                 size, &needed, NULL);
    expect_number("the status of cfgx_audit", status, CFGX_STATUS_DONE);
    expect_number("the number of values", needed, size);
    expect_filled(found, values, size);
}

/* Tests `eval` with as many flags. The last one says `a`, and the others `b`. */
static void test_words(size_t size)
{
    set_word(0, "eval", 4);
    set_word(1, "a", 1);
    for (size_t i = 0; i < size; i++) {
        set_word(i + 2, i + 1 < size ? "b" : "a", 1);
    }
    test_run(size + 2, NULL, 0, size > 0 ? "true\n" : "false\n", size > 0 ? 5 : 6);
}

/* Sets the words of `pick`. */
static void set_pick(void)
{
    set_word(0, "pick", 4);
    set_word(1, "aarch64-apple-ios-sim", 21);
}

/* Tests an input of as many lines. */
static void test_lines(size_t size)
{
    set_pick();
    size_t length = (size_t)(repeat(text, "x\tunix\n", size) - text);
    size_t wanted_length = (size_t)(repeat(wanted, "x\tyes\n", size) - wanted);
    test_run(2, text, length, wanted, wanted_length);
}

/* Tests an input of one line, whose name has as many bytes. */
static void test_name(size_t size)
{
    set_pick();
    size_t length = (size_t)(repeat(repeat(text, "x", size), "\twindows", 1) - text);
    size_t wanted_length = (size_t)(repeat(repeat(wanted, "x", size), "\tno\n", 1) - wanted);
    test_run(2, text, length, wanted, wanted_length);
}

static const struct dimension {
    const char *name;
    void (*test)(size_t size);
} dimensions[] = {
    {"members of a faulty not", test_fault}, {"answers to one predicate", test_miscounted},
    {"facts of a target", test_many_facts},  {"targets", test_targets},
    {"texts", test_texts},                   {"words", test_words},
    {"lines of an input", test_lines},       {"bytes of a name", test_name},
};

/* Tests all calls with a size. */
static void test_size(size_t size)
{
    char name[80];
    struct text row = {name, 0};
    for (size_t i = 0; i < COUNT(shapes) + COUNT(dimensions); i++) {
        int is_shape = i < COUNT(shapes);
        const struct dimension *dimension = is_shape ? NULL : &dimensions[i - COUNT(shapes)];
        row.length = (size_t)snprintf(name, sizeof name, "%zu: %s", size,
                                      is_shape ? shapes[i].name : dimension->name);
        begin_row(row);
        if (is_shape) {
            test_shape(&shapes[i], size);
        } else {
            dimension->test(size);
        }
    }
}

int main(int count, char **words)
{
    size_t most = count > 1 ? strtoul(words[1], NULL, 10) : MOST;
    for (size_t i = 0; i <= ONE_BY_ONE + COUNT(larger); i++) {
        size_t size = i <= ONE_BY_ONE ? i : larger[i - ONE_BY_ONE - 1];
        if (size <= most) {
            test_size(size);
        }
    }
    return finish("sizes", 0);
}
