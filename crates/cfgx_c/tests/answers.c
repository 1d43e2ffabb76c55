/* Tests `cfgx_answers`. */
#include "harness.h"

/* The answers are bytes. */
struct row {
    struct text text;
    struct list facts;
    uint8_t otherwise;
    uint32_t status;
    struct text answers;
    struct cfgx_fault fault;
};

#define DONE(literal, facts, otherwise, answers)                                                   \
    {TEXT(literal), facts, otherwise, CFGX_STATUS_DONE, TEXT(answers), NO_FAULT}
#define REFUSED(literal, facts, status, fault)                                                     \
    {TEXT(literal), facts, CFGX_VALUE_FALSE, CFGX_STATUS_##status, TEXT(""), fault}

static const struct row rows[] = {
    DONE("true", NO_TEXTS, 0, ""),
    DONE("all(unix, feature = \"x\")", NO_TEXTS, 0, "\0\0"),
    /* Only what is not on the target is unknown. */
    DONE("all(unix, feature = \"x\")", NO_TEXTS, 2, "\0\2"),
    DONE("all(unix, feature = \"x\")", NO_TEXTS, 1, "\0\2"),
    DONE("all(unix, feature = \"x\")", NO_TEXTS, 0xff, "\0\2"),
    DONE("any(flag, k = \"v\", test, debug_assertions, proc_macro, target_feature = \"f\")",
         NO_TEXTS, 2, "\2\2\2\2\2\2"),
    DONE("any(panic = \"p\", target_abi = \"\", target_os = \"\", target_env = \"\")", NO_TEXTS, 2,
         "\0\0\0\0"),
    /* A fact is a text: it names what it asks, whatever its value. */
    DONE("cfg(all(a, any(b), c))", LIST(TEXT("b"), TEXT("cfg(not(c))")), 0, "\1\0\1"),
    DONE("unix", LIST(TEXT("target_family = \"unix\"")), 0, "\1"),
    DONE("target_has_atomic = \"+08\"", LIST(TEXT("target_has_atomic=\"8\"")), 0, "\1"),
    DONE("any(a, b)", LIST(TEXT("true"), TEXT("all()")), 0, "\0\0"),
    /* True wins over unknown, whichever comes first. */
    DONE("any(a, b, c, d)", LIST(TEXT("?a"), TEXT("b"), TEXT("?all(b, c)"), TEXT("a")), 0,
         "\1\1\2\0"),
    /* A fact ends at its end, and a value may hold a line feed, a zero byte and any character. */
    DONE("any(k = \"a\nb\", k = \"a\", b)", LIST(TEXT("k = \"a\nb\"")), 0, "\1\0\0"),
    DONE("any(k = \"a\0b\", b)", LIST(TEXT("k = \"a\0b\"")), 0, "\1\0"),
    DONE("any(k = \"\xc3\xa9\", k = \"\xc3\xa8\")", LIST(TEXT("k = \"\xc3\xa9\"")), 0, "\1\0"),
    DONE("any(ab, a, b)", LIST(TEXT("a"), TEXT("b")), 0, "\0\1\1"),
    /* What no condition can ask is passed over. */
    DONE("a", LIST(TEXT("target_new = \"x\""), TEXT("target_new"), TEXT("target_os"), TEXT("a")), 0,
         "\1"),
    DONE("a", LIST(TEXT("?target_new = \"x\""), TEXT("target_has_atomic"), TEXT("panic")), 0, "\0"),
    DONE("a", LIST(TEXT("target_thread_local"), TEXT("feature"), TEXT("?a")), 0, "\2"),
    /* A `?` and then an outer `cfg( )` are taken off first. */
    DONE("a", LIST(TEXT("?cfg(target_new)"), TEXT("cfg( target_new=\"x\" )")), 2, "\2"),

    REFUSED("all(a", NO_TEXTS, FAULTY, FAULT(0, 0, 3, 5, UNCLOSED_PARENS)),
    REFUSED("a = \"\xff\"", NO_TEXTS, NOT_UTF8, BYTE(0, 5)),
    REFUSED("a", LIST(TEXT("a"), TEXT("b)")), FAULTY_FACT, FAULT(1, 0, 1, 2, UNOPENED_PARENS)),
    REFUSED("a", LIST(TEXT("")), FAULTY_FACT, FAULT(0, 0, 0, 0, EMPTY)),
    REFUSED("a", LIST(TEXT("a\0b")), FAULTY_FACT, TERMS(0, 0, 1, 2, START)),
    REFUSED("a", LIST(TEXT("unix = \"x\"")), FAULTY_FACT, TERMS(0, 0, 8, 9, NONE)),
    REFUSED("a", LIST(TEXT("target_endian = \"middle\"")), FAULTY_FACT,
            FAULT(0, 0, 17, 23, INVALID_INTEGER)),
    REFUSED("a", LIST(TEXT("target_feature = \"\"")), FAULTY_FACT,
            TERMS(0, 0, 18, 18, TARGET_FEATURE)),
    REFUSED("a", LIST(TEXT("all(target_new = \"x\")")), FAULTY_FACT,
            TERMS(0, 0, 4, 14, TARGET_KEY)),
    REFUSED("a", LIST(TEXT("target_new 8")), FAULTY_FACT, TERMS(0, 0, 11, 12, START)),
    REFUSED("a", LIST(TEXT("target_new,")), FAULTY_FACT, TERMS(0, 0, 0, 10, TARGET_VALUE)),
    /* The `?` and what is stripped stand before the span. */
    REFUSED("a", LIST(TEXT("?")), FAULTY_FACT, FAULT(0, 1, 0, 0, EMPTY)),
    REFUSED("a", LIST(TEXT("??a")), FAULTY_FACT, TERMS(0, 1, 0, 1, START)),
    REFUSED("a", LIST(TEXT("?cfg(not(a, b))")), FAULTY_FACT, MEMBERS(0, 5, 0, 9, 2)),
    REFUSED("a", LIST(TEXT("cfg(?target_new)")), FAULTY_FACT, TERMS(0, 4, 0, 1, START)),
    REFUSED("a", LIST(TEXT("cfg(cfg(target_new))")), FAULTY_FACT, TERMS(0, 4, 3, 4, KEY)),
    REFUSED("a", LIST(TEXT("a"), TEXT("k = \"\xff\"")), FAULTY_FACT, BYTE(1, 5)),
    REFUSED("a", LIST(TEXT("?cfg(\xff)")), FAULTY_FACT, BYTE(0, 5)),
    /* The character is whole only if two facts are read as one. */
    REFUSED("a", LIST(TEXT("k = \"\xc3"), TEXT("\xa9\"")), FAULTY_FACT, BYTE(0, 5)),
    /* The facts come before the text. */
    REFUSED("all(a", LIST(TEXT("b)")), FAULTY_FACT, FAULT(0, 0, 1, 2, UNOPENED_PARENS)),
    REFUSED("a = \"\xff\"", LIST(TEXT("b"), TEXT("\xff")), FAULTY_FACT, BYTE(1, 0)),
    REFUSED("a = \"\xff\"", LIST(TEXT("b")), NOT_UTF8, BYTE(0, 5)),
};

static void call(const void *item, size_t room, uint32_t status)
{
    const struct row *row = item;
    char *text = block_of(row->text);
    struct joined facts = join(row->facts);
    struct buffer answers = make_buffer(&BYTES, room), fault = make_buffer(&FAULTS, 1);
    size_t needed = 12345, wanted = status == CFGX_STATUS_DONE ? row->answers.length : 0;
    uint32_t found = cfgx_answers(text, row->text.length, facts.bytes, facts.length, facts.ends,
                                  facts.count, row->otherwise, answers.bytes, room, &needed,
                                  (struct cfgx_fault *)fault.bytes);
    free_block(text);
    free_joined(facts);
    expect_number("the status", found, status);
    expect_number("the number of answers", needed, wanted);
    expect_filled(answers, row->answers.bytes, wanted);
    expect_fault(fault, &row->fault, status);
}

static void test_ends(struct joined facts)
{
    struct buffer answers = make_buffer(&BYTES, 1), fault = make_buffer(&FAULTS, 1);
    size_t needed = 12345;
    uint32_t found = cfgx_answers("a", 1, facts.bytes, facts.length, facts.ends, facts.count, 0,
                                  answers.bytes, 1, &needed, (struct cfgx_fault *)fault.bytes);
    expect_number("the status", found, CFGX_STATUS_BAD_ENDS);
    expect_number("the number of answers", needed, 0);
    expect_filled(answers, NULL, 0);
    expect_fault(fault, NULL, found);
}

int main(void)
{
    for (size_t i = 0; i < COUNT(rows); i++) {
        test_row(call, &rows[i], rows[i].text, rows[i].answers.length, rows[i].status);
    }
    test_bad_ends(test_ends);
    return finish("cfgx_answers", 1);
}
