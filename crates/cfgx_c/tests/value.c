/* Tests `cfgx_value`. */
#include "harness.h"

/* The answers are bytes. */
struct row {
    struct text text;
    struct text answers;
    uint32_t status;
    uint8_t value;
    struct cfgx_fault fault;
};

#define VALUE(literal, answers, value)                                                             \
    {TEXT(literal), TEXT(answers), CFGX_STATUS_DONE, CFGX_VALUE_##value, NO_FAULT}
#define NO_VALUE(literal, answers, status, fault)                                                  \
    {TEXT(literal), TEXT(answers), CFGX_STATUS_##status, 0, fault}

static const struct row rows[] = {
    VALUE("all(unix, feature = \"x\")", "\1\1", TRUE),
    VALUE("all(unix, feature = \"x\")", "\1\0", FALSE),
    VALUE("all(unix, feature = \"x\")", "\1\2", UNKNOWN),
    VALUE("all(unix, feature = \"x\")", "\0\2", FALSE),
    VALUE("cfg(any(unix, feature = \"x\"))", "\2\1", TRUE),
    /* Each byte but 0 and 1 is unknown. */
    VALUE("a", "\3", UNKNOWN),
    VALUE("a", "\x80", UNKNOWN),
    VALUE("a", "\xff", UNKNOWN),
    VALUE("not(a)", "\3", UNKNOWN),
    VALUE("not(a)", "\x80", UNKNOWN),
    VALUE("not(a)", "\xff", UNKNOWN),
    VALUE("any(a, b)", "\xff\1", TRUE),
    VALUE("all(a, b)", "\x80\1", UNKNOWN),
    VALUE("all(a, b)", "\x80\0", FALSE),
    /* The predicate below `not` is asked first. */
    VALUE("all(a, not(b))", "\0\1", TRUE),
    VALUE("all(a, not(b))", "\1\0", FALSE),
    VALUE("all(a, not(b))", "\2\1", UNKNOWN),
    VALUE("any(a, a, not(a), all(b, true), not(any(c, false)))", "\1\0\1\0\0", FALSE),
    VALUE("any(a, a, not(a), all(b, true), not(any(c, false)))", "\1\0\0\0\0", TRUE),
    VALUE("true", "", TRUE),
    VALUE("any()", "", FALSE),
    VALUE("key = \"a\0\xc3\xa9\"", "\1", TRUE),

    NO_VALUE("all(a, b)", "", MISCOUNTED, NO_FAULT),
    NO_VALUE("all(a, b)", "\1", MISCOUNTED, NO_FAULT),
    NO_VALUE("all(a, b)", "\1\1\1", MISCOUNTED, NO_FAULT),
    NO_VALUE("true", "\1", MISCOUNTED, NO_FAULT),
    NO_VALUE("all(a, b", "\1\1", FAULTY, FAULT(0, 0, 3, 8, UNCLOSED_PARENS)),
    NO_VALUE("", "", FAULTY, FAULT(0, 0, 0, 0, EMPTY)),
    NO_VALUE("unix\0unix", "\1\1", FAULTY, TERMS(0, 0, 4, 5, START)),
    NO_VALUE("cfg(not())", "", FAULTY, MEMBERS(0, 4, 0, 5, 0)),
    NO_VALUE("a = \"\xff\"", "\1", NOT_UTF8, BYTE(0, 5)),
    NO_VALUE("all(a, \xc3\xa9\xff", "\1\1", NOT_UTF8, BYTE(0, 9)),
};

static void call(const void *item, size_t room, uint32_t status)
{
    const struct row *row = item;
    char *text = block_of(row->text);
    uint8_t *answers = block_of(row->answers);
    struct buffer value = make_buffer(&BYTES, 1), fault = make_buffer(&FAULTS, 1);
    uint32_t found = cfgx_value(text, row->text.length, answers, row->answers.length, value.bytes,
                                (struct cfgx_fault *)fault.bytes);
    (void)room;
    free_block(text);
    free_block(answers);
    expect_number("the status", found, status);
    expect_value(value, row->value, status);
    expect_fault(fault, &row->fault, status);
}

/* Tests that the name of the call is that of a function in the header: its address takes null
 * pointers, it evaluates each argument once, and a comma may stand in braces. */
static void test_name(void)
{
    static const struct text text = TEXT("all(a, b)");
    uint32_t (*address)(const char *, size_t, const uint8_t *, size_t, uint8_t *,
                        struct cfgx_fault *) = &cfgx_value;
    const char *bytes = text.bytes;
    uint8_t value = CFGX_VALUE_FALSE;
    begin_row(text);
    expect_number("the status of no text", address(NULL, 0, NULL, 0, &value, NULL),
                  CFGX_STATUS_FAULTY);
    expect_number("the value of no text", value, CFGX_VALUE_UNKNOWN);
    expect_number("the status",
                  cfgx_value(bytes++, text.length, (uint8_t[]){1, 1}, 2, &value, NULL),
                  CFGX_STATUS_DONE);
    expect_number("the value", value, CFGX_VALUE_TRUE);
    expect_number("how often the text was evaluated", (size_t)(bytes - text.bytes), 1);
}

int main(void)
{
    for (size_t i = 0; i < COUNT(rows); i++) {
        struct list name = LIST(rows[i].text, rows[i].answers);
        begin_row_of(name);
        test_rooms(call, &rows[i], 1, rows[i].status);
    }
    test_name();
    return finish("cfgx_value", 1);
}
