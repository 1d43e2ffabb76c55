/* Tests `cfgx_check`. */
#include "harness.h"

struct row {
    struct text text;
    uint32_t status;
    struct cfgx_fault fault;
};

#define GOOD(literal) {TEXT(literal), CFGX_STATUS_DONE, NO_FAULT}
#define NOT_UTF8(literal, start) {TEXT(literal), CFGX_STATUS_NOT_UTF8, BYTE(0, start)}
#define FAULTY(literal, fault) {TEXT(literal), CFGX_STATUS_FAULTY, fault}

static const struct row rows[] = {
    GOOD("cfg(all(unix, not(windows)))"),
    GOOD("all()"),
    GOOD("key = \"\""),
    GOOD("key = \"a\0b\""),
    GOOD("key = \"\xc3\xa9\xe2\x82\xac\xf0\x9f\xa6\x80\""),
    GOOD("\xe3\x80\x80key\xe3\x80\x80"),

    NOT_UTF8("a = \"\xff\"", 5),
    NOT_UTF8("a = \"\xc3\"", 5),
    NOT_UTF8("8 \xc3", 2),
    NOT_UTF8("\0\x80", 1),
    /* Nothing is stripped of such a text. */
    NOT_UTF8("cfg(\xff)", 4),
    NOT_UTF8("key = \"\xc3\xa9\xe2\x82\"", 9),

    FAULTY("not()", MEMBERS(0, 0, 0, 5, 0)),
    FAULTY("not() \"", MEMBERS(0, 0, 0, 5, 0)),
    FAULTY("not(a, b, c)", MEMBERS(0, 0, 0, 12, 3)),
    FAULTY("cfg(not(all(a, b), c))", MEMBERS(0, 4, 0, 17, 2)),
    FAULTY("all(any(a)", FAULT(0, 0, 3, 10, UNCLOSED_PARENS)),
    FAULTY("cfg(all(a)", FAULT(0, 4, 3, 5, UNCLOSED_PARENS)),
    FAULTY("feature)", FAULT(0, 0, 7, 8, UNOPENED_PARENS)),
    FAULTY("key = \"open", FAULT(0, 0, 6, 11, UNCLOSED_QUOTES)),
    FAULTY("", FAULT(0, 0, 0, 0, EMPTY)),
    FAULTY("cfg()", FAULT(0, 4, 0, 0, EMPTY)),
    FAULTY("cfg( \xc2\xa0)", FAULT(0, 4, 0, 3, EMPTY)),
    FAULTY("target_endian = \"Big\"", FAULT(0, 0, 17, 20, INVALID_INTEGER)),
    FAULTY("target_pointer_width = \"256\"", FAULT(0, 0, 24, 27, INVALID_INTEGER)),
    FAULTY("target_has_atomic = \"x\"", FAULT(0, 0, 21, 22, INVALID_HAS_ATOMIC)),
    FAULTY("all(), any()", FAULT(0, 0, 0, 12, MULTIPLE_ROOT_PREDICATES)),
    FAULTY("a 8", TERMS(0, 0, 2, 3, START)),
    FAULTY("cfg(a 8)", TERMS(0, 4, 2, 3, START)),
    FAULTY("any(,)", TERMS(0, 0, 4, 5, OPEN)),
    FAULTY("a, \"b\"", TERMS(0, 0, 3, 6, COMMA)),
    FAULTY("a b", TERMS(0, 0, 2, 3, KEY)),
    FAULTY("cfg(a) ", TERMS(0, 0, 3, 4, KEY)),
    FAULTY("cfg(cfg(a))", TERMS(0, 4, 3, 4, KEY)),
    FAULTY("a = b", TERMS(0, 0, 4, 5, EQUALS)),
    FAULTY("a = \"b\" c", TERMS(0, 0, 8, 9, VALUE)),
    FAULTY("not a", TERMS(0, 0, 4, 5, FUNCTION)),
    FAULTY("all(any", TERMS(0, 0, 4, 7, FUNCTION)),
    FAULTY("all() a", TERMS(0, 0, 6, 7, CLOSE)),
    FAULTY("unix = \"x\"", TERMS(0, 0, 8, 9, NONE)),
    FAULTY("feature", TERMS(0, 0, 0, 7, FEATURE_NAME)),
    FAULTY("panic", TERMS(0, 0, 0, 5, PANIC_STRATEGY)),
    FAULTY("a, target_os", TERMS(0, 0, 3, 12, TARGET_VALUE)),
    FAULTY("target_feature = \"\"", TERMS(0, 0, 18, 18, TARGET_FEATURE)),
    FAULTY("target_ = \"x\"", TERMS(0, 0, 0, 7, TARGET_KEY)),
    FAULTY("all(a =", TERMS(0, 0, 7, 7, END)),

    /* Spans count bytes, and the span of a character that begins no token is its first byte. */
    FAULTY("a = \"\xc3\xa9\xe2\x82\xac\" b", TERMS(0, 0, 12, 13, VALUE)),
    FAULTY("cfg(a = \"\xf0\x9f\xa6\x80\", \xc3\xa9)", TERMS(0, 4, 12, 13, START)),
    FAULTY("a = \"\xc3\xa9\", b = \"\xc3\xa9", FAULT(0, 0, 14, 17, UNCLOSED_QUOTES)),
    FAULTY("a = \"\xc3\xa9\", not()", MEMBERS(0, 0, 10, 15, 0)),
    /* A zero byte begins no token, and ends nothing. */
    FAULTY("a\0", TERMS(0, 0, 1, 2, START)),
    FAULTY("unix\0unix", TERMS(0, 0, 4, 5, START)),
    FAULTY("key = \"a\0b\" c", TERMS(0, 0, 12, 13, VALUE)),
};

static void call(const void *item, size_t room, uint32_t status)
{
    const struct row *row = item;
    char *text = block_of(row->text);
    struct buffer fault = make_buffer(&FAULTS, 1);
    uint32_t found = cfgx_check(text, row->text.length, (struct cfgx_fault *)fault.bytes);
    (void)room;
    free_block(text);
    expect_number("the status", found, status);
    expect_fault(fault, &row->fault, status);
}

int main(void)
{
    for (size_t i = 0; i < COUNT(rows); i++) {
        test_row(call, &rows[i], rows[i].text, 1, rows[i].status);
    }
    return finish("cfgx_check", 1);
}
