/* Lists the predicates of a condition, or prints what is wrong with it.
 *
 * usage: predicates TEXT */
#include "support.h"

#include <string.h>

/* The names of the kinds, from 1 on. */
static const char *const kinds[] = {
    "", "flag", "key_value", "test", "debug_assertions", "proc_macro", "feature",
    "target_feature", "abi", "arch", "endian", "env", "family", "has_atomic", "os", "panic",
    "pointer_width", "vendor",
};

/* Prints a space and the bytes from `start` up to `end`, if there are any. */
static void print_span(const char *text, size_t start, size_t end)
{
    if (start < end) {
        putchar(' ');
        fwrite(text + start, 1, end - start, stdout);
    }
}

/* Prints the byte order or the width if the predicate has one. */
static void print_number(const struct cfgx_predicate *predicate)
{
    if (predicate->kind == CFGX_PREDICATE_ENDIAN) {
        printf(" %s", predicate->number == CFGX_ENDIAN_BIG ? "big" : "little");
    } else if (predicate->number == CFGX_ATOMIC_POINTER) {
        printf(" ptr");
    } else if (predicate->kind == CFGX_PREDICATE_HAS_ATOMIC
               || predicate->kind == CFGX_PREDICATE_POINTER_WIDTH) {
        printf(" %u", (unsigned)predicate->number);
    }
}

/* Prints the name of the kind, and then the key, the value and the number if there is one. */
static void print_predicate(const char *text, const struct cfgx_predicate *predicate)
{
    printf("%s", kinds[predicate->kind]);
    print_span(text, predicate->key_start, predicate->key_end);
    print_span(text, predicate->value_start, predicate->value_end);
    print_number(predicate);
    printf("\n");
}

/* Prints each predicate. Returns the status of the call. */
static uint32_t print_predicates(const char *text, size_t length)
{
    size_t count;
    uint32_t status = cfgx_predicates(text, length, NULL, 0, &count, NULL);
    struct cfgx_predicate *predicates = new_block(count, sizeof *predicates);
    if (status == CFGX_STATUS_DONE) {
        status = cfgx_predicates(text, length, predicates, count, &count, NULL);
    }
    /* With every other status `count` is 0. */
    for (size_t i = 0; i < count; i++) {
        print_predicate(text, &predicates[i]);
    }
    free(predicates);
    return status;
}

/* Prints what is wrong with a text. Returns the status of the call. */
static uint32_t print_fault(const char *text, size_t length)
{
    size_t needed;
    uint32_t status = cfgx_explain(text, length, NULL, 0, &needed, NULL);
    char *message = new_block(needed, 1);
    if (status == CFGX_STATUS_FAULTY) {
        status = cfgx_explain(text, length, message, needed, &needed, NULL);
    }
    if (status == CFGX_STATUS_FAULTY) {
        fwrite(message, 1, needed, stderr);
        fputc('\n', stderr);
    } else {
        report(status);
    }
    free(message);
    return status;
}

int main(int count, char **word)
{
    if (count != 2) {
        fputs("usage: predicates TEXT\n", stderr);
        return CFGX_STATUS_WRONG_USE;
    }
    expect_version();
    word = utf8_words(word);
    size_t length = strlen(word[1]);
    uint32_t status = print_predicates(word[1], length);
    if (status == CFGX_STATUS_FAULTY) {
        return finish(print_fault(word[1], length));
    }
    return finish(report(status));
}
