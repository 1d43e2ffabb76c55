/* Decides a condition by facts, such as `unix` and `feature = "x"`. A fact that begins with `?` is
 * unknown, and what no fact names is false. If the value is unknown, prints a filling of the
 * answers that makes it true and one that makes it false, with a digit for each predicate.
 *
 * usage: decide TEXT FACT.. */
#include "support.h"

#include <string.h>

static const char *const values[] = {"false", "true", "unknown"};

/* The answers to the predicates of a text, and two fillings. */
struct answers {
    uint8_t *bytes;
    size_t count;
    uint8_t *fillings;
};

/* Answers the predicates by the facts. Returns the status of the call. */
static uint32_t answer(const char *text, char **fact, size_t count, struct answers *answers)
{
    size_t length = 0, *ends = new_block(count, sizeof *ends);
    for (size_t i = 0; i < count; i++) {
        length += strlen(fact[i]);
        ends[i] = length;
    }
    char *facts = new_block(length, 1);
    for (size_t i = 0; i < count; i++) {
        size_t size = strlen(fact[i]);
        memcpy(facts + ends[i] - size, fact[i], size);
    }
    uint32_t status = cfgx_answers(text, strlen(text), facts, length, ends, count,
                                   CFGX_VALUE_FALSE, NULL, 0, &answers->count, NULL);
    answers->bytes = new_block(answers->count, 1);
    if (status == CFGX_STATUS_DONE) {
        status = cfgx_answers(text, strlen(text), facts, length, ends, count, CFGX_VALUE_FALSE,
                              answers->bytes, answers->count, &answers->count, NULL);
    }
    free(ends);
    free(facts);
    return status;
}

/* Prints a filling of the answers. */
static void print_filling(const char *value, const uint8_t *filling, size_t count)
{
    printf("%s with ", value);
    for (size_t i = 0; i < count; i++) {
        printf("%u", (unsigned)filling[i]);
    }
    printf("\n");
}

/* Prints the value over the answers. Returns the status of the call. */
static uint32_t decide(const char *text, struct answers *answers)
{
    uint8_t value;
    size_t needed;
    answers->fillings = new_block(answers->count, 2);
    uint32_t status = cfgx_decide(text, strlen(text), answers->bytes, answers->count,
                                  answers->fillings, 2 * answers->count, &needed, &value,
                                  NULL);
    if (status == CFGX_STATUS_DONE) {
        printf("%s\n", values[value]);
    }
    if (needed > 0) {
        print_filling("true", answers->fillings, answers->count);
        print_filling("false", answers->fillings + answers->count, answers->count);
    }
    return status;
}

int main(int count, char **word)
{
    if (count < 2) {
        fputs("usage: decide TEXT FACT..\n", stderr);
        return CFGX_STATUS_WRONG_USE;
    }
    struct answers answers = {0};
    expect_version();
    word = utf8_words(word);
    uint32_t status = answer(word[1], word + 2, (size_t)count - 2, &answers);
    if (status == CFGX_STATUS_DONE) {
        status = decide(word[1], &answers);
    }
    free(answers.bytes);
    free(answers.fillings);
    return finish(report(status));
}
