/* Prints the values of conditions on targets. Each line of the first file is a condition. Each
 * other file is what `rustc --print cfg --target TRIPLE` prints of a target. A line of the output
 * has a value for each target, and the condition. Needs POSIX.
 *
 * usage: table CONDITIONS CFG.. */
#include "support.h"

#include <string.h>

/* Texts, one behind the other, and their ends. */
struct list {
    char *bytes;
    size_t length;
    size_t *ends;
    size_t count;
};

static const char *const values[] = {"no", "yes", "unknown"};

/* Returns the block with room for `count` items, and for one more. */
static void *grown(void *block, size_t count, size_t size)
{
    block = count < SIZE_MAX / size ? realloc(block, (count + 1) * size) : NULL;
    if (block == NULL) {
        fail("out of memory");
    }
    return block;
}

/* Adds a text to the end of the list. */
static void add_text(struct list *list, const char *bytes, size_t length)
{
    list->bytes = grown(list->bytes, list->length + length, 1);
    memcpy(list->bytes + list->length, bytes, length);
    list->length += length;
    list->ends = grown(list->ends, list->count, sizeof *list->ends);
    list->ends[list->count++] = list->length;
}

/* Adds each line of a file, without its line feed. */
static void add_lines(struct list *list, const char *path)
{
    FILE *file = fopen(path, "rb");
    char *line = NULL;
    size_t room = 0;
    ssize_t length;
    if (file == NULL) {
        perror(path);
        exit(CFGX_STATUS_WRONG_USE);
    }
    /* Lines end at line feeds and nowhere else. */
    while ((length = getline(&line, &room, file)) > 0) {
        add_text(list, line, (size_t)length - (line[length - 1] == '\n'));
    }
    /* A read that fails, or memory that is refused, also ends the loop. */
    if (ferror(file) || !feof(file)) {
        fail("a file cannot be read");
    }
    free(line);
    fclose(file);
}

static void free_list(struct list *list)
{
    free(list->bytes);
    free(list->ends);
}

/* Prints a line for each condition. */
static void print_table(const struct list *conditions, const uint8_t *value, size_t targets)
{
    for (size_t i = 0; i < conditions->count; i++) {
        size_t start = i > 0 ? conditions->ends[i - 1] : 0;
        for (size_t target = 0; target < targets; target++) {
            printf("%s\t", values[*value++]);
        }
        fwrite(conditions->bytes + start, 1, conditions->ends[i] - start, stdout);
        putchar('\n');
    }
}

/* Prints a status, and which text or fact it is about. */
static void print_failure(uint32_t status, const struct cfgx_fault *fault)
{
    /* Every other status is about none. */
    if (status == CFGX_STATUS_FAULTY || status == CFGX_STATUS_NOT_UTF8
        || status == CFGX_STATUS_FAULTY_FACT) {
        fprintf(stderr, "%s, number %zu\n", meaning(status), fault->item);
    } else {
        report(status);
    }
}

int main(int count, char **word)
{
    if (count < 2) {
        fputs("usage: table CONDITIONS CFG..\n", stderr);
        return CFGX_STATUS_WRONG_USE;
    }
    expect_version();
    struct list conditions = {0}, facts = {0};
    size_t targets = (size_t)count - 2, *target_ends = new_block(targets, sizeof *target_ends);
    add_lines(&conditions, word[1]);
    for (size_t target = 0; target < targets; target++) {
        add_lines(&facts, word[target + 2]);
        target_ends[target] = facts.count;
    }
    /* The block is refused if the product does not fit in a size_t. */
    uint8_t *found = new_block(conditions.count, targets);
    struct cfgx_fault fault;
    size_t needed, room = conditions.count * targets;
    uint32_t status = cfgx_audit(conditions.bytes, conditions.length, conditions.ends,
                                 conditions.count, facts.bytes, facts.length, facts.ends,
                                 facts.count, target_ends, targets, CFGX_VALUE_UNKNOWN, found,
                                 room, &needed, &fault);
    if (status == CFGX_STATUS_DONE) {
        print_table(&conditions, found, targets);
    } else {
        print_failure(status, &fault);
    }
    free_list(&conditions);
    free_list(&facts);
    free(target_ends);
    free(found);
    return finish(status);
}
