/* Tests how many blocks of the heap a call takes for a short condition. */
#include "harness.h"

#define ROOM 16

struct row;
typedef uint32_t call_of_text(const struct row *row, struct text text);

struct row {
    const char *name;
    struct text text;
    call_of_text *call;
    /* answers to the predicates of the text */
    struct text answers;
    /* the call takes no more blocks than this */
    size_t most;
};

static struct cfgx_predicate predicates[ROOM];
static struct cfgx_step steps[ROOM];
static uint8_t bytes[ROOM];

static uint32_t check(const struct row *row, struct text text)
{
    (void)row;
    return cfgx_check(text.bytes, text.length, NULL);
}

static uint32_t list(const struct row *row, struct text text)
{
    size_t needed;
    (void)row;
    return cfgx_predicates(text.bytes, text.length, predicates, ROOM, &needed, NULL);
}

static uint32_t compile(const struct row *row, struct text text)
{
    size_t needed, count;
    (void)row;
    return cfgx_compile(text.bytes, text.length, steps, ROOM, &needed, predicates, ROOM, &count,
                        NULL);
}

static uint32_t value(const struct row *row, struct text text)
{
    return cfgx_value(text.bytes, text.length, (const uint8_t *)row->answers.bytes,
                      row->answers.length, bytes, NULL);
}

static uint32_t tokens(const struct row *row, struct text text)
{
    static struct cfgx_token tokens[ROOM];
    size_t needed, offset;
    (void)row;
    return cfgx_tokens(text.bytes, text.length, tokens, ROOM, &needed, &offset, NULL);
}

static uint32_t count_tokens(const struct row *row, struct text text)
{
    size_t needed, offset;
    (void)row;
    return cfgx_tokens(text.bytes, text.length, NULL, 0, &needed, &offset, NULL);
}

static uint32_t decide_without_room(const struct row *row, struct text text)
{
    size_t needed;
    uint8_t found;
    return cfgx_decide(text.bytes, text.length, (const uint8_t *)row->answers.bytes,
                       row->answers.length, NULL, 0, &needed, &found, NULL);
}

static uint32_t decide(const struct row *row, struct text text)
{
    size_t needed;
    uint8_t found;
    return cfgx_decide(text.bytes, text.length, (const uint8_t *)row->answers.bytes,
                       row->answers.length, bytes, ROOM, &needed, &found, NULL);
}

#define UNIX TEXT("unix")
#define BOTH TEXT("all(unix, feature = \"x\")")

static const struct row rows[] = {
    {"check unix", UNIX, check, TEXT("\2"), 0},
    {"predicates unix", UNIX, list, TEXT("\2"), 0},
    {"compile unix", UNIX, compile, TEXT("\2"), 0},
    {"value unix", UNIX, value, TEXT("\2"), 0},
    {"decide unix, known", UNIX, decide, TEXT("\1"), 0},
    {"decide unix, unknown", UNIX, decide, TEXT("\2"), 0},
    {"decide unix, unknown, without room", UNIX, decide_without_room, TEXT("\2"), 0},
    {"tokens unix", UNIX, tokens, TEXT("\2"), 0},
    {"count the tokens of unix", UNIX, count_tokens, TEXT("\2"), 0},
    {"check both", BOTH, check, TEXT("\2\2"), 3},
    {"predicates both", BOTH, list, TEXT("\2\2"), 3},
    {"compile both", BOTH, compile, TEXT("\2\2"), 3},
    {"value both", BOTH, value, TEXT("\2\2"), 3},
    {"decide both", BOTH, decide, TEXT("\2\2"), 3},
    {"decide both without room", BOTH, decide_without_room, TEXT("\2\2"), 3},
    {"tokens both", BOTH, tokens, TEXT("\2\2"), 0},
    {"count the tokens of both", BOTH, count_tokens, TEXT("\2\2"), 0},
};

static void call(const void *item, size_t room, uint32_t status)
{
    const struct row *row = item;
    char *text = block_of(row->text);
    struct text copy = {text, row->text.length};
    (void)room;
    expect_number("the status", row->call(row, copy), status);
    free_block(text);
}

int main(void)
{
    for (size_t i = 0; i < COUNT(rows); i++) {
        struct text name = {rows[i].name, 0};
        while (name.bytes[name.length] != 0) {
            name.length++;
        }
        begin_row(name);
        size_t growths = test_growths(call, &rows[i], ROOM, CFGX_STATUS_DONE);
        expect_number("the growths beyond those that it may take",
                      growths > rows[i].most ? growths - rows[i].most : 0, 0);
    }
    return finish("growths for short conditions", 0);
}
