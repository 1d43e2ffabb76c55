/* Makes each call with each text of a file that generated.py wrote, and writes to another file what
 * it returns and fills. By such files two platforms are compared. Each number has four bytes, the
 * lowest first. */
#include "cfgx.h"

#include <stdio.h>
#include <stdlib.h>

/* A text has no more bytes, and a result no more items. */
#define MOST 65536

static FILE *results;
static char text[MOST], before[MOST], bytes[16 * MOST];
static uint8_t answers[MOST], fillings[2 * MOST];
static struct cfgx_token tokens[MOST];
static struct cfgx_step steps[MOST];
static struct cfgx_predicate predicates[MOST];

static void put(size_t number)
{
    unsigned char four[4];
    for (size_t i = 0; i < 4; i++) {
        four[i] = (unsigned char)(number >> 8 * i);
    }
    fwrite(four, 1, 4, results);
}

static void put_bytes(const void *items, size_t count)
{
    put(count);
    fwrite(items, 1, count, results);
}

static void put_fault(const struct cfgx_fault *fault)
{
    put(fault->item);
    put(fault->offset);
    put(fault->start);
    put(fault->end);
    put(fault->members);
    put(fault->reason);
    put(fault->terms);
}

static void put_predicates(size_t count)
{
    put(count);
    for (const struct cfgx_predicate *one = predicates; one < predicates + count; one++) {
        put(one->kind);
        put(one->number);
        put(one->start);
        put(one->end);
        put(one->key_start);
        put(one->key_end);
        put(one->value_start);
        put(one->value_end);
    }
}

static void put_steps(size_t count)
{
    put(count);
    for (size_t i = 0; i < count; i++) {
        put(steps[i].kind);
        put(steps[i].number);
    }
}

static void put_tokens(size_t count)
{
    put(count);
    for (size_t i = 0; i < count; i++) {
        put(tokens[i].kind);
        put(tokens[i].start);
        put(tokens[i].end);
    }
}

/* The calls that say what is wrong with a text. */
static void read_text(size_t length)
{
    struct cfgx_fault fault;
    size_t needed, offset;
    put(cfgx_check(text, length, &fault));
    put_fault(&fault);
    put(cfgx_explain(text, length, bytes, sizeof bytes, &needed, &fault));
    put_bytes(bytes, needed);
    put_fault(&fault);
    put(cfgx_tokens(text, length, tokens, MOST, &needed, &offset, &fault));
    put_tokens(needed);
    put(offset);
    put_fault(&fault);
}

/* The calls that say what a condition asks, and its value over answers. */
static void evaluate(size_t length)
{
    struct cfgx_fault fault;
    size_t step_count, count, needed;
    uint8_t value;
    put(cfgx_predicates(text, length, predicates, MOST, &count, &fault));
    put_predicates(count);
    put(cfgx_compile(text, length, steps, MOST, &step_count, predicates, MOST, &count, &fault));
    put_steps(step_count);
    put_predicates(count);
    for (size_t i = 0; i < count; i++) {
        answers[i] = (uint8_t)((7 * i + length) % 3);
    }
    put(cfgx_value(text, length, answers, count, &value, &fault));
    put(value);
    put(cfgx_decide(text, length, answers, count, fillings, sizeof fillings, &needed, &value,
                    &fault));
    put(value);
    put_bytes(fillings, needed);
    put(cfgx_apply(steps, step_count, answers, count, &value));
    put(value);
}

/* The calls over facts: `unix`, `?feature = "x"`, and the text before this one. */
static void ask_facts(size_t length, size_t before_length)
{
    static const char known[] = "unix?feature = \"x\"";
    struct cfgx_fault fault;
    size_t needed, known_length = sizeof known - 1;
    size_t ends[] = {4, known_length, known_length + before_length}, targets[] = {1, 3};
    size_t length_of_facts = 0;
    for (; length_of_facts < known_length; length_of_facts++) {
        bytes[length_of_facts] = known[length_of_facts];
    }
    for (size_t i = 0; i < before_length; i++) {
        bytes[length_of_facts++] = before[i];
    }
    put(cfgx_answers(text, length, bytes, length_of_facts, ends, 3, length % 2, answers, MOST,
                     &needed, &fault));
    put_bytes(answers, needed);
    put_fault(&fault);
    put(cfgx_audit(text, length, &length, 1, bytes, length_of_facts, ends, 3, targets, 2,
                   length % 2, answers, MOST, &needed, &fault));
    put_bytes(answers, needed);
    put_fault(&fault);
}

/* Runs `parse` and `eval` with the text and a flag. */
static void run(size_t length)
{
    size_t needed;
    for (size_t command = 0; command < 2; command++) {
        const char *name = command == 0 ? "parse" : "eval";
        size_t place = 0;
        for (; name[place] != 0; place++) {
            bytes[place] = name[place];
        }
        size_t ends[] = {place, place + length, place + length + 1};
        for (size_t i = 0; i < length; i++) {
            bytes[place++] = text[i];
        }
        bytes[place] = 'a';
        put(cfgx_run(bytes, ends[1 + command], ends, 2 + command, NULL, 0, bytes + 2 * MOST,
                     14 * MOST, &needed));
        put_bytes(bytes + 2 * MOST, needed);
    }
}

/* Reads the length of the next text. Returns whether there is one. */
static int read_length(FILE *texts, size_t *length)
{
    unsigned char four[4];
    if (fread(four, 1, 4, texts) != 4) {
        return 0;
    }
    *length = (size_t)four[0] | (size_t)four[1] << 8 | (size_t)four[2] << 16
        | (size_t)four[3] << 24;
    return *length < MOST;
}

/* Makes the calls with each text. Returns how many there are. */
static size_t make_calls(FILE *texts)
{
    size_t count = 0, length, before_length = 0;
    while (read_length(texts, &length) && fread(text, 1, length, texts) == length) {
        read_text(length);
        evaluate(length);
        ask_facts(length, before_length);
        run(length);
        for (size_t i = 0; i < length; i++) {
            before[i] = text[i];
        }
        before_length = length;
        count++;
    }
    return count;
}

int main(int count, char **words)
{
    FILE *texts = count == 3 ? fopen(words[1], "rb") : NULL;
    results = count == 3 ? fopen(words[2], "wb") : NULL;
    if (texts == NULL || results == NULL) {
        fprintf(stderr, "usage: generated TEXTS RESULTS\n");
        return 2;
    }
    printf("%zu texts\n", make_calls(texts));
    return fclose(texts) == 0 && fclose(results) == 0 ? 0 : 1;
}
