/* Tests `cfgx_decide`. */
#include "harness.h"

/* The answers and the fillings are bytes. */
struct row {
    struct text text;
    struct text answers;
    uint32_t status;
    uint8_t value;
    struct text fillings;
    struct cfgx_fault fault;
};

#define KNOWN(literal, answers, value)                                                             \
    {TEXT(literal), TEXT(answers), CFGX_STATUS_DONE, CFGX_VALUE_##value, TEXT(""),         \
     NO_FAULT}
#define UNKNOWN(literal, answers, fillings)                                                        \
    {TEXT(literal), TEXT(answers), CFGX_STATUS_DONE, CFGX_VALUE_UNKNOWN, TEXT(fillings),   \
     NO_FAULT}
#define NO_VALUE(literal, answers, status, fault)                                                  \
    {TEXT(literal), TEXT(answers), CFGX_STATUS_##status, 0, TEXT(""), fault}

static const struct row rows[] = {
    KNOWN("true", "", TRUE),
    KNOWN("all(a, b)", "\1\1", TRUE),
    KNOWN("all(a, b)", "\0\2", FALSE),
    KNOWN("any(not(a), false, b)", "\0\xff", TRUE),
    UNKNOWN("a", "\2", "\1\0"),
    UNKNOWN("a", "\3", "\1\0"),
    UNKNOWN("a", "\x80", "\1\0"),
    UNKNOWN("a", "\xff", "\1\0"),
    UNKNOWN("not(a)", "\2", "\0\1"),
    UNKNOWN("not(not(a))", "\2", "\1\0"),
    UNKNOWN("all(a, b)", "\1\2", "\1\1\1\0"),
    UNKNOWN("any(a, not(a))", "\1\2", "\1\1\1\0"),
    UNKNOWN("any(a, not(a))", "\xff\x80", "\0\1\1\0"),
    UNKNOWN("cfg(not(all(a, not(b))))", "\2\2", "\1\0\0\1"),
    UNKNOWN("any(c, all(a, not(b), true), false)", "\2\1\0", "\0\1\0\1\1\0"),

    NO_VALUE("all(a, b)", "\1", MISCOUNTED, NO_FAULT),
    NO_VALUE("all(a, b)", "\2\2\2", MISCOUNTED, NO_FAULT),
    NO_VALUE("all(a, b", "\2\2", FAULTY, FAULT(0, 0, 3, 8, UNCLOSED_PARENS)),
    NO_VALUE("", "", FAULTY, FAULT(0, 0, 0, 0, EMPTY)),
    NO_VALUE("cfg()", "", FAULTY, FAULT(0, 4, 0, 0, EMPTY)),
    NO_VALUE("a = \"\xff\"", "\2", NOT_UTF8, BYTE(0, 5)),
};

static void call(const void *item, size_t room, uint32_t status)
{
    const struct row *row = item;
    char *text = block_of(row->text);
    uint8_t *answers = block_of(row->answers);
    struct buffer fillings = make_buffer(&BYTES, room), value = make_buffer(&BYTES, 1);
    struct buffer fault = make_buffer(&FAULTS, 1);
    size_t needed = 12345, wanted = status == CFGX_STATUS_DONE ? row->fillings.length : 0;
    uint32_t found = cfgx_decide(text, row->text.length, answers, row->answers.length,
                                 fillings.bytes, room, &needed, value.bytes,
                                 (struct cfgx_fault *)fault.bytes);
    free_block(text);
    free_block(answers);
    expect_number("the status", found, status);
    expect_number("the number of bytes that are needed", needed, wanted);
    expect_filled(fillings, row->fillings.bytes, wanted);
    expect_value(value, row->value, status);
    expect_fault(fault, &row->fault, status);
}

int main(void)
{
    for (size_t i = 0; i < COUNT(rows); i++) {
        struct list name = LIST(rows[i].text, rows[i].answers);
        begin_row_of(name);
        test_rooms(call, &rows[i], rows[i].fillings.length, rows[i].status);
    }
    return finish("cfgx_decide", 1);
}
