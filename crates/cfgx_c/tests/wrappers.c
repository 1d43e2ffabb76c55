/* Tests the functions of the header that stand for the calls, in C and in C++. The calls behind
 * them are stubs here, which record what they are passed: a pointer to some item in place of a null
 * pointer whose count is 0 and in place of a null `fault`, and everything else as it was. */
#include "cfgx.h"

#include <stdio.h>
#include <string.h>

#define MOST 16

/* An argument: a pointer or a number. */
struct argument {
    const void *pointer;
    size_t number;
};

/* What a function is passed, and what the call behind it is passed. */
static struct argument given[MOST], passed[MOST];
static size_t passed_count;

#define POINTER(type, place) ((type *)(uintptr_t)given[place].pointer)
#define TEXT(place) POINTER(char, place), given[place + 1].number
#define ANSWERS(place) POINTER(uint8_t, place), given[place + 1].number
#define ENDS(place) POINTER(size_t, place), given[place + 1].number
#define PREDICATES(place) POINTER(struct cfgx_predicate, place), given[place + 1].number
#define STEPS(place) POINTER(struct cfgx_step, place), given[place + 1].number
#define TOKENS(place) POINTER(struct cfgx_token, place), given[place + 1].number
#define NEEDED(place) POINTER(size_t, place)
#define FAULT(place) POINTER(struct cfgx_fault, place)
#define BYTE(place) (uint8_t)given[place].number

static uint32_t pass_check(void)
{
    return cfgx_check(TEXT(0), FAULT(2));
}

static uint32_t pass_explain(void)
{
    return cfgx_explain(TEXT(0), TEXT(2), NEEDED(4), FAULT(5));
}

static uint32_t pass_predicates(void)
{
    return cfgx_predicates(TEXT(0), PREDICATES(2), NEEDED(4), FAULT(5));
}

static uint32_t pass_value(void)
{
    return cfgx_value(TEXT(0), ANSWERS(2), POINTER(uint8_t, 4), FAULT(5));
}

static uint32_t pass_decide(void)
{
    return cfgx_decide(TEXT(0), ANSWERS(2), ANSWERS(4), NEEDED(6), POINTER(uint8_t, 7),
                       FAULT(8));
}

static uint32_t pass_answers(void)
{
    return cfgx_answers(TEXT(0), TEXT(2), ENDS(4), BYTE(6), ANSWERS(7), NEEDED(9),
                        FAULT(10));
}

static uint32_t pass_compile(void)
{
    return cfgx_compile(TEXT(0), STEPS(2), NEEDED(4), PREDICATES(5), NEEDED(7), FAULT(8));
}

static uint32_t pass_apply(void)
{
    return cfgx_apply(STEPS(0), ANSWERS(2), POINTER(uint8_t, 4));
}

static uint32_t pass_audit(void)
{
    return cfgx_audit(TEXT(0), ENDS(2), TEXT(4), ENDS(6), ENDS(8), BYTE(10), ANSWERS(11),
                      NEEDED(13), FAULT(14));
}

static uint32_t pass_tokens(void)
{
    return cfgx_tokens(TEXT(0), TOKENS(2), NEEDED(4), POINTER(size_t, 5), FAULT(6));
}

static uint32_t pass_run(void)
{
    return cfgx_run(TEXT(0), ENDS(2), TEXT(4), TEXT(6), NEEDED(8));
}

/* A function of the header, and what each of its arguments is: `c` a pointer with its count behind
 * it, `f` one to a fault, `p` another pointer, and `b` a byte. */
static const struct function {
    const char *name;
    uint32_t (*pass)(void);
    const char *arguments;
} functions[] = {
    {"check", pass_check, "cf"},
    {"explain", pass_explain, "ccpf"},
    {"predicates", pass_predicates, "ccpf"},
    {"value", pass_value, "ccpf"},
    {"decide", pass_decide, "cccppf"},
    {"answers", pass_answers, "cccbcpf"},
    {"compile", pass_compile, "ccpcpf"},
    {"apply", pass_apply, "ccp"},
    {"audit", pass_audit, "cccccbcpf"},
    {"tokens", pass_tokens, "ccppf"},
    {"run", pass_run, "ccccp"},
};

#define FUNCTIONS (sizeof functions / sizeof functions[0])

/* The status that the call behind a function returns. */
static uint32_t status;

static uint32_t record(const struct argument *arguments, size_t count)
{
    memcpy(passed, arguments, count * sizeof *arguments);
    passed_count = count;
    return status;
}

/* The calls have their own names below. */
#include "calls.h"

#define RECORD(...)                                                                                \
    const struct argument arguments[] = {__VA_ARGS__};                                             \
    return record(arguments, sizeof arguments / sizeof arguments[0])
#define P(argument) {argument, 0}
#define N(argument) {NULL, argument}

uint32_t cfgx_check(const char *text, size_t text_length, struct cfgx_fault *fault)
{
    RECORD(P(text), N(text_length), P(fault));
}

uint32_t cfgx_explain(const char *text, size_t text_length, char *message, size_t room,
                      size_t *needed, struct cfgx_fault *fault)
{
    RECORD(P(text), N(text_length), P(message), N(room), P(needed), P(fault));
}

uint32_t cfgx_predicates(const char *text, size_t text_length, struct cfgx_predicate *predicates,
                         size_t room, size_t *needed, struct cfgx_fault *fault)
{
    RECORD(P(text), N(text_length), P(predicates), N(room), P(needed), P(fault));
}

uint32_t cfgx_value(const char *text, size_t text_length, const uint8_t *answers,
                    size_t answer_count, uint8_t *value, struct cfgx_fault *fault)
{
    RECORD(P(text), N(text_length), P(answers), N(answer_count), P(value), P(fault));
}

uint32_t cfgx_decide(const char *text, size_t text_length, const uint8_t *answers,
                     size_t answer_count, uint8_t *fillings, size_t room, size_t *needed,
                     uint8_t *value, struct cfgx_fault *fault)
{
    RECORD(P(text), N(text_length), P(answers), N(answer_count), P(fillings), N(room), P(needed),
           P(value), P(fault));
}

uint32_t cfgx_answers(const char *text, size_t text_length, const char *facts, size_t facts_length,
                      const size_t *fact_ends, size_t fact_count, uint8_t otherwise,
                      uint8_t *answers, size_t room, size_t *needed, struct cfgx_fault *fault)
{
    RECORD(P(text), N(text_length), P(facts), N(facts_length), P(fact_ends), N(fact_count),
           N(otherwise), P(answers), N(room), P(needed), P(fault));
}

uint32_t cfgx_compile(const char *text, size_t text_length, struct cfgx_step *steps,
                      size_t step_room, size_t *steps_needed, struct cfgx_predicate *predicates,
                      size_t predicate_room, size_t *predicates_needed, struct cfgx_fault *fault)
{
    RECORD(P(text), N(text_length), P(steps), N(step_room), P(steps_needed), P(predicates),
           N(predicate_room), P(predicates_needed), P(fault));
}

uint32_t cfgx_apply(const struct cfgx_step *steps, size_t step_count, const uint8_t *answers,
                    size_t answer_count, uint8_t *value)
{
    RECORD(P(steps), N(step_count), P(answers), N(answer_count), P(value));
}

uint32_t cfgx_audit(const char *texts, size_t texts_length, const size_t *text_ends,
                    size_t text_count, const char *facts, size_t facts_length,
                    const size_t *fact_ends, size_t fact_count, const size_t *target_ends,
                    size_t target_count, uint8_t otherwise, uint8_t *values, size_t room,
                    size_t *needed, struct cfgx_fault *fault)
{
    RECORD(P(texts), N(texts_length), P(text_ends), N(text_count), P(facts), N(facts_length),
           P(fact_ends), N(fact_count), P(target_ends), N(target_count), N(otherwise), P(values),
           N(room), P(needed), P(fault));
}

uint32_t cfgx_tokens(const char *text, size_t text_length, struct cfgx_token *tokens, size_t room,
                     size_t *needed, size_t *offset, struct cfgx_fault *fault)
{
    RECORD(P(text), N(text_length), P(tokens), N(room), P(needed), P(offset), P(fault));
}

uint32_t cfgx_run(const char *words, size_t words_length, const size_t *word_ends,
                  size_t word_count, const char *input, size_t input_length, char *output,
                  size_t room, size_t *needed)
{
    RECORD(P(words), N(words_length), P(word_ends), N(word_count), P(input), N(input_length),
           P(output), N(room), P(needed));
}

/* The kinds of a pointer with its count: null or not, with no item, one, or more than 32 bits can
 * count. A pointer to a fault is null or not. */
static size_t kinds_of(char argument)
{
    return argument == 'c' ? 6 : argument == 'f' ? 2 : 1;
}

/* What the pointers that are not null point to. No function reads it. */
static struct cfgx_predicate items[MOST];

/* Sets an argument, of which `kind` is the kind, and returns how many places it takes. */
static size_t give(char argument, size_t place, size_t kind)
{
    const size_t counts[] = {0, 1, ((size_t)1 << 40) + place};
    given[place].pointer = argument == 'b' || kind % 2 ? NULL : &items[place];
    given[place].number = argument == 'b' ? 200 + kind : 0;
    if (argument != 'c') {
        return 1;
    }
    given[place + 1].pointer = NULL;
    given[place + 1].number = counts[kind / 2];
    return 2;
}

/* Sets the arguments of a function, whose kinds `kinds` counts. Returns the number of arguments. */
static size_t give_all(const char *arguments, size_t kinds)
{
    size_t place = 0;
    for (; *arguments != 0; arguments++) {
        place += give(*arguments, place, kinds % kinds_of(*arguments));
        kinds /= kinds_of(*arguments);
    }
    return place;
}

/* Returns the number of kinds of all arguments. */
static size_t all_kinds_of(const char *arguments)
{
    size_t kinds = 1;
    for (; *arguments != 0; arguments++) {
        kinds *= kinds_of(*arguments);
    }
    return kinds;
}

/* Returns whether an argument was passed on as it has to be. */
static int is_right(char argument, size_t place)
{
    int is_empty = argument == 'c' && given[place + 1].number == 0;
    int is_none = (is_empty || argument == 'f') && given[place].pointer == NULL;
    int is_same = passed[place].pointer == given[place].pointer;
    int is_passed = is_none ? passed[place].pointer != NULL : is_same;
    int is_counted = argument != 'c' || passed[place + 1].number == given[place + 1].number;
    return is_passed && is_counted && passed[place].number == given[place].number;
}

/* Returns how many arguments of the function were passed on wrongly. */
static size_t count_wrong(const char *arguments)
{
    size_t place = 0, wrong = 0;
    for (; *arguments != 0; arguments++) {
        wrong += !is_right(*arguments, place);
        place += *arguments == 'c' ? 2 : 1;
    }
    return wrong;
}

/* Passes arguments of all kinds to a function, and returns the number of failures. */
static size_t test_function(const struct function *function)
{
    size_t failures = 0;
    for (size_t kinds = 0; kinds < all_kinds_of(function->arguments); kinds++) {
        size_t count = give_all(function->arguments, kinds);
        status = (uint32_t)(kinds % 10);
        uint32_t found = function->pass();
        if (found != status || passed_count != count || count_wrong(function->arguments) > 0) {
            failures++;
        }
    }
    if (failures > 0) {
        printf("FAILED: cfgx_%s does not pass on %zu of %zu lists of arguments\n", function->name,
               failures, all_kinds_of(function->arguments));
    }
    return failures;
}

int main(void)
{
    size_t failures = 0;
    for (size_t i = 0; i < FUNCTIONS; i++) {
        failures += test_function(&functions[i]);
    }
    printf("the functions of the header: %zu functions, %zu failures\n", FUNCTIONS, failures);
    return failures == 0 ? 0 : 1;
}
