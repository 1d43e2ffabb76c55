/* Reads the steps of a condition in three ways. A function prints the condition's tree as it was
 * written. `cfgx_apply` tells its value if no answer is known. A loop over the steps, with costs as
 * values, tells how many predicates at least have to be true so that the condition is true.
 *
 * usage: apply TEXT */
#include "support.h"

#include <string.h>

#define NEVER SIZE_MAX

/* How many predicates at least have to be true so that a condition is true, or is false. */
struct cost {
    size_t if_true;
    size_t if_false;
};

static size_t sum(size_t a, size_t b)
{
    return a < NEVER - b ? a + b : NEVER;
}

static size_t least(size_t a, size_t b)
{
    return a < b ? a : b;
}

/* Prints the condition whose steps begin with the one at `i`, and returns the place behind its
 * steps. Calls itself once for each level of nesting. */
static size_t print_tree(const char *text, const struct cfgx_step *steps,
                         const struct cfgx_predicate *predicates, size_t i)
{
    static const char *const words[] = {"false", "true", "", "not(", "all(", "any("};
    const struct cfgx_step *step = &steps[i++];
    fputs(words[step->kind], stdout);
    if (step->kind == CFGX_STEP_ASK) {
        const struct cfgx_predicate *asked = &predicates[step->number];
        fwrite(text + asked->start, 1, asked->end - asked->start, stdout);
    } else if (step->kind >= CFGX_STEP_NOT) {
        for (size_t member = 0; member < step->number; member++) {
            fputs(member > 0 ? ", " : "", stdout);
            i = print_tree(text, steps, predicates, i);
        }
        putchar(')');
    }
    return i;
}

/* Returns the value of an `all` or an `any` of these values. */
static struct cost joined(uint32_t kind, const struct cost *values, size_t count)
{
    struct cost all = {0, NEVER}, any = {NEVER, 0};
    for (size_t i = 0; i < count; i++) {
        all.if_true = sum(all.if_true, values[i].if_true);
        all.if_false = least(all.if_false, values[i].if_false);
        any.if_true = least(any.if_true, values[i].if_true);
        any.if_false = sum(any.if_false, values[i].if_false);
    }
    return kind == CFGX_STEP_ALL ? all : any;
}

/* Returns the value that a step pushes, from those that it pops. */
static struct cost pushed(const struct cfgx_step *step, const struct cost *popped)
{
    switch (step->kind) {
    case CFGX_STEP_FALSE:
        return (struct cost){NEVER, 0};
    case CFGX_STEP_TRUE:
        return (struct cost){0, NEVER};
    case CFGX_STEP_ASK:
        return (struct cost){1, 0};
    case CFGX_STEP_NOT:
        return (struct cost){popped->if_false, popped->if_true};
    default:
        return joined(step->kind, popped, step->number);
    }
}

/* Returns the value of a condition from its steps. The stack has room for one value a step. */
static struct cost evaluate(const struct cfgx_step *steps, size_t count, struct cost *stack)
{
    size_t height = 0;
    for (size_t i = count; i-- > 0;) {
        height -= steps[i].kind >= CFGX_STEP_NOT ? steps[i].number : 0;
        stack[height] = pushed(&steps[i], &stack[height]);
        height++;
    }
    return stack[0];
}

/* Prints the value of the steps over unknown answers, and their cost. Returns the status. */
static uint32_t print_values(const struct cfgx_step *steps, size_t count, size_t asked)
{
    static const char *const values[] = {"false", "true", "unknown"};
    uint8_t value, *answers = new_block(asked, 1);
    memset(answers, CFGX_VALUE_UNKNOWN, asked);
    uint32_t status = cfgx_apply(steps, count, answers, asked, &value);
    if (status == CFGX_STATUS_DONE) {
        struct cost *stack = new_block(count, sizeof *stack);
        size_t cost = evaluate(steps, count, stack).if_true;
        printf("%s\n", values[value]);
        if (cost == NEVER) {
            printf("never true\n");
        } else {
            printf("true with %zu true predicates\n", cost);
        }
        free(stack);
    }
    free(answers);
    return status;
}

int main(int count, char **word)
{
    if (count != 2) {
        fputs("usage: apply TEXT\n", stderr);
        return CFGX_STATUS_WRONG_USE;
    }
    expect_version();
    word = utf8_words(word);
    size_t step_count, asked, length = strlen(word[1]);
    uint32_t status = cfgx_compile(word[1], length, NULL, 0, &step_count, NULL, 0, &asked, NULL);
    struct cfgx_step *steps = new_block(step_count, sizeof *steps);
    struct cfgx_predicate *predicates = new_block(asked, sizeof *predicates);
    if (status == CFGX_STATUS_DONE) {
        status = cfgx_compile(word[1], length, steps, step_count, &step_count, predicates, asked,
                              &asked, NULL);
    }
    if (status == CFGX_STATUS_DONE) {
        print_tree(word[1], steps, predicates, 0);
        putchar('\n');
        status = print_values(steps, step_count, asked);
    }
    free(predicates);
    free(steps);
    return finish(report(status));
}
