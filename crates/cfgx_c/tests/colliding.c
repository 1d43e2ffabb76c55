/* Tests that facts that somebody chose take no longer than as many others: `cfgx_answers`, and
 * `cfgx_audit` on one target and on many. The chosen ones are of a family that all collide in a
 * table whose hash is known, such as that of an earlier version, where 16,000 of them took more
 * than a hundred times as long. A time is the least of several, in seconds of the processor. A word
 * on the command line is the number of facts; times are not compared then. */
#include "harness.h"

#include <stdio.h>
#include <stdlib.h>
#include <string.h>
#include <time.h>

#define MOST 80000
#define TARGETS 80
#define ROUNDS 5
#define LENGTH (sizeof "feature = \"kxdxw2p8tf2wmki2VgO?ZL4Q00000000tailtailtailtail\"" - 1)

/* The facts with their numbers, and where they end. All are of one length. */
struct family {
    const char *name;
    const char *format;
    char bytes[MOST * LENGTH + 1];
};

static struct family colliding = {
    "facts that collide", "feature = \"kxdxw2p8tf2wmki2VgO?ZL4Q%08zutailtailtailtail\"", {0}};
static struct family others = {
    "other facts", "feature = \"%08zukxdxw2p8tf2wmki2VgO?ZL4Qtailtailtailtail\"", {0}};

static size_t ends[MOST], target_ends[TARGETS];

static void make_facts(struct family *family, size_t count)
{
    for (size_t i = 0; i < count; i++) {
        sprintf(family->bytes + i * LENGTH, family->format, i);
        ends[i] = (i + 1) * LENGTH;
    }
}

/* The answer to the last fact is true. */
static void answer(const struct family *family, size_t count)
{
    uint8_t found = 77;
    size_t needed = 12345;
    uint32_t status = cfgx_answers(family->bytes + (count - 1) * LENGTH, LENGTH, family->bytes,
                                   count * LENGTH, ends, count, 1, &found, 1, &needed, NULL);
    expect_number("the status of cfgx_answers", status, CFGX_STATUS_DONE);
    expect_number("the answer", found, CFGX_VALUE_TRUE);
}

/* The targets have equally many of the facts. The last fact is true on the last one of them, and
 * unknown on the others. */
static void audit(const struct family *family, size_t count, size_t targets)
{
    uint8_t values[TARGETS];
    size_t needed = 12345, length = LENGTH;
    for (size_t j = 0; j < targets; j++) {
        target_ends[j] = count * (j + 1) / targets;
    }
    uint32_t status = cfgx_audit(family->bytes + (count - 1) * LENGTH, LENGTH, &length, 1,
                                 family->bytes, count * LENGTH, ends, count, target_ends, targets,
                                 1, values, targets, &needed, NULL);
    expect_number("the status of cfgx_audit", status, CFGX_STATUS_DONE);
    for (size_t j = 0; j < targets; j++) {
        expect_number("the value", values[j],
                      j + 1 == targets ? CFGX_VALUE_TRUE : CFGX_VALUE_UNKNOWN);
    }
}

static void audit_one(const struct family *family, size_t count)
{
    audit(family, count, 1);
}

static void audit_many(const struct family *family, size_t count)
{
    audit(family, count, TARGETS);
}

static const struct {
    const char *name;
    void (*make)(const struct family *family, size_t count);
} calls[] = {
    {"cfgx_answers", answer},
    {"cfgx_audit on one target", audit_one},
    {"cfgx_audit on many targets", audit_many},
};

/* Makes a call, and returns the lesser of its time and of the least one so far. */
static double best_of(size_t call, const struct family *family, size_t count, double least)
{
    clock_t start = clock();
    calls[call].make(family, count);
    double seconds = (double)(clock() - start) / CLOCKS_PER_SEC;
    return seconds < least ? seconds : least;
}

/* Tests a call with as many facts of each family. */
static void test_call(size_t call, size_t count, int compares)
{
    struct text name = {calls[call].name, strlen(calls[call].name)};
    double chosen = 1e9, other = 1e9;
    begin_row(name);
    for (int round = 0; round < ROUNDS; round++) {
        chosen = best_of(call, &colliding, count, chosen);
        other = best_of(call, &others, count, other);
    }
    if (compares) {
        printf("%s, %zu facts: %.3f s, and %.3f s for others\n", calls[call].name, count, chosen,
               other);
        expect_number("whether they take at most twice the time of others", chosen <= 2 * other, 1);
    }
}

static void test_count(size_t count, int compares)
{
    make_facts(&colliding, count);
    make_facts(&others, count);
    for (size_t call = 0; call < sizeof calls / sizeof calls[0]; call++) {
        test_call(call, count, compares);
    }
}

int main(int count, char **words)
{
    if (count > 1) {
        test_count(strtoul(words[1], NULL, 10), 0);
    } else {
        test_count(16000, 1);
        test_count(MOST, 1);
    }
    return finish("colliding facts", 0);
}
