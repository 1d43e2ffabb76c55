/* Tests `cfgx_explain`. */
#include "harness.h"

struct row {
    struct text text;
    uint32_t status;
    struct text message;
    struct cfgx_fault fault;
};

#define FAULTY(literal, fault, message) {TEXT(literal), CFGX_STATUS_FAULTY, TEXT(message), fault}

static const struct row rows[] = {
    {TEXT("all(unix, not(windows))"), CFGX_STATUS_DONE, TEXT(""), NO_FAULT},
    {TEXT("cfg(a)"), CFGX_STATUS_DONE, TEXT(""), NO_FAULT},
    {TEXT("a = \"\xff\""), CFGX_STATUS_NOT_UTF8, TEXT(""), BYTE(0, 5)},
    FAULTY("", FAULT(0, 0, 0, 0, EMPTY), "\n empty expression"),
    FAULTY("cfg( )", FAULT(0, 4, 0, 1, EMPTY), " \n^ empty expression"),
    FAULTY("foo (", TERMS(0, 0, 4, 5, KEY), "foo (\n    ^ expected one of `=`, `,`, `)` here"),
    FAULTY("cfg(not(a, b))", MEMBERS(0, 4, 0, 9, 2),
           "not(a, b)\n^^^^^^^^^ not() takes 1 predicate, found 2"),
    FAULTY("key)", FAULT(0, 0, 3, 4, UNOPENED_PARENS), "key)\n   ^ unopened parens"),
    FAULTY("not(key", FAULT(0, 0, 3, 7, UNCLOSED_PARENS), "not(key\n   - unclosed parens"),
    FAULTY("key = \"abc", FAULT(0, 0, 6, 10, UNCLOSED_QUOTES),
           "key = \"abc\n      - unclosed quotes"),
    FAULTY("key =", TERMS(0, 0, 5, 5, END), "key =\n      expected a `\"<value>\"` here"),
    FAULTY("unix = \"x\"", TERMS(0, 0, 8, 9, NONE),
           "unix = \"x\"\n        ^ the term was not expected here"),
    FAULTY("target_endian = \"Big\"", FAULT(0, 0, 17, 20, INVALID_INTEGER),
           "target_endian = \"Big\"\n                 ^^^ invalid integer"),
    FAULTY("target_has_atomic = \"8x\"", FAULT(0, 0, 21, 23, INVALID_HAS_ATOMIC),
           "target_has_atomic = \"8x\"\n                     ^^ expected integer or \"ptr\""),
    FAULTY("all(), any()", FAULT(0, 0, 0, 12, MULTIPLE_ROOT_PREDICATES),
           "all(), any()\n^^^^^^^^^^^^ multiple root predicates"),
    FAULTY("target_ = \"x\"", TERMS(0, 0, 0, 7, TARGET_KEY),
           "target_ = \"x\"\n^^^^^^^ expected one of `target_arch`, "
           "`target_feature`, `target_os`, `target_family`, `target_env`, `target_endian`, "
           "`target_has_atomic`, `target_pointer_width`, `target_vendor` here"),
    FAULTY("a = \"\xc3\xa9\n\" b", TERMS(0, 0, 10, 11, VALUE),
           "a = \"\xc3\xa9\n\" b\n          ^ expected one of `,`, `)` here"),
    FAULTY("unix\0unix", TERMS(0, 0, 4, 5, START),
           "unix\0unix\n    ^ expected one of `<key>`, `all`, `any`, `not` here"),
};

static void call(const void *item, size_t room, uint32_t status)
{
    const struct row *row = item;
    char *text = block_of(row->text);
    struct buffer message = make_buffer(&BYTES, room), fault = make_buffer(&FAULTS, 1);
    size_t needed = 12345, wanted = status == CFGX_STATUS_FAULTY ? row->message.length : 0;
    uint32_t found = cfgx_explain(text, row->text.length, (char *)message.bytes, room, &needed,
                                  (struct cfgx_fault *)fault.bytes);
    free_block(text);
    expect_number("the status", found, status);
    expect_number("the number of bytes that are needed", needed, wanted);
    expect_filled(message, row->message.bytes, wanted);
    expect_fault(fault, &row->fault, status);
}

int main(void)
{
    for (size_t i = 0; i < COUNT(rows); i++) {
        test_row(call, &rows[i], rows[i].text, rows[i].message.length, rows[i].status);
    }
    return finish("cfgx_explain", 1);
}
