/* Tests `cfgx_audit`. */
#include "harness.h"

#define MOST_TARGETS 3

/* The values are bytes. */
struct row {
    struct list texts;
    struct list facts;
    size_t target_count;
    size_t target_ends[MOST_TARGETS];
    uint8_t otherwise;
    uint32_t status;
    struct text values;
    struct cfgx_fault fault;
};

#define LINUX TEXT("unix"), TEXT("target_os = \"linux\""), TEXT("feature = \"x\"")
#define WINDOWS TEXT("windows"), TEXT("?feature = \"x\"")
#define FREE TEXT("target_os = \"none\"")
#define CONDITIONS TEXT("unix"), TEXT("any(windows, feature = \"x\")"), TEXT("cfg(not(flag))")
#define DONE(values) CFGX_STATUS_DONE, TEXT(values), NO_FAULT
#define REFUSED(status, fault) CFGX_STATUS_##status, TEXT(""), fault

static const struct row rows[] = {
    {NO_TEXTS, NO_TEXTS, 0, {0}, 0, DONE("")},
    {LIST(CONDITIONS), NO_TEXTS, 0, {0}, 0, DONE("")},
    {NO_TEXTS, LIST(LINUX), 1, {3}, 0, DONE("")},
    /* A target without facts, beside others and alone. */
    {LIST(TEXT("unix"), TEXT("a"), TEXT("true")), NO_TEXTS, 1, {0}, 2, DONE("\0\2\1")},
    {LIST(TEXT("unix"), TEXT("a")), LIST(TEXT("unix")), 3, {0, 1, 1}, 0, DONE("\0\1\0\0\0\0")},
    /* The values of a condition on all targets come before those of the next condition. */
    {LIST(CONDITIONS), LIST(LINUX, WINDOWS, FREE), 3, {3, 5, 6}, 0,
     DONE("\1\0\0\1\1\0\1\1\1")},
    {LIST(CONDITIONS), LIST(LINUX, WINDOWS, FREE), 3, {3, 5, 6}, 2,
     DONE("\1\0\0\1\1\2\2\2\2")},
    {LIST(CONDITIONS), LIST(WINDOWS, LINUX), 2, {2, 5}, 0, DONE("\0\1\1\1\1\1")},
    {LIST(TEXT("feature = \"x\""), TEXT("not(feature = \"x\")")), LIST(LINUX, WINDOWS, FREE), 3,
     {3, 5, 6}, 0, DONE("\1\2\0\0\2\1")},
    /* A text may hold line feeds, zero bytes and any character. */
    {LIST(TEXT("k = \"a\nb\0\xc3\xa9\"")),
     LIST(TEXT("k = \"a\nb\0\xc3\xa9\""), TEXT("k = \"a\"")), 2, {1, 2}, 0, DONE("\1\0")},
    /* What no condition can ask is passed over. */
    {LIST(TEXT("unix")), LIST(TEXT("target_new"), TEXT("unix"), TEXT("target_os")), 2, {2, 3}, 0,
     DONE("\1\0")},

    {LIST(TEXT("a"), TEXT("b)"), TEXT("c)")), LIST(LINUX), 1, {3}, 0,
     REFUSED(FAULTY, FAULT(1, 0, 1, 2, UNOPENED_PARENS))},
    {LIST(TEXT("a"), TEXT("")), NO_TEXTS, 0, {0}, 0, REFUSED(FAULTY, FAULT(1, 0, 0, 0, EMPTY))},
    {LIST(TEXT("a"), TEXT("b"), TEXT("cfg(not())")), LIST(LINUX), 1, {3}, 0,
     REFUSED(FAULTY, MEMBERS(2, 4, 0, 5, 0))},
    {LIST(TEXT("k = \"\xc3"), TEXT("\xa9\"")), NO_TEXTS, 0, {0}, 0, REFUSED(NOT_UTF8, BYTE(0, 5))},
    {LIST(TEXT("a"), TEXT("b"), TEXT("\xff")), LIST(LINUX), 1, {3}, 0,
     REFUSED(NOT_UTF8, BYTE(2, 0))},
    {LIST(TEXT("\xff"), TEXT("b)")), LIST(LINUX), 1, {3}, 0, REFUSED(NOT_UTF8, BYTE(0, 0))},
    /* All texts are tested for UTF-8 before one is read. An end may cut a character. */
    {LIST(TEXT("b)"), TEXT("\xff")), LIST(LINUX), 1, {3}, 0, REFUSED(NOT_UTF8, BYTE(1, 0))},
    {LIST(TEXT("a"), TEXT("k = \"\xc3"), TEXT("\xa9\""), TEXT("\xff")), NO_TEXTS, 0, {0}, 0,
     REFUSED(NOT_UTF8, BYTE(1, 5))},
    {LIST(TEXT("a"), TEXT(""), TEXT("\xe2\x82"), TEXT(""), TEXT("\xac")), NO_TEXTS, 0, {0}, 0,
     REFUSED(NOT_UTF8, BYTE(2, 0))},
    {LIST(TEXT("a"), TEXT("k = \"\xe2\x82")), NO_TEXTS, 0, {0}, 0, REFUSED(NOT_UTF8, BYTE(1, 5))},
    {LIST(TEXT("a")), LIST(LINUX, TEXT("a)"), TEXT("b)")), 2, {2, 5}, 0,
     REFUSED(FAULTY_FACT, FAULT(3, 0, 1, 2, UNOPENED_PARENS))},
    {LIST(TEXT("a")), LIST(LINUX, TEXT("?cfg(a))")), 2, {2, 4}, 0,
     REFUSED(FAULTY_FACT, FAULT(3, 5, 1, 2, UNOPENED_PARENS))},
    {LIST(TEXT("a")), LIST(LINUX, TEXT("a"), TEXT("\xff")), 2, {2, 5}, 0,
     REFUSED(FAULTY_FACT, BYTE(4, 0))},
    {LIST(TEXT("a")), LIST(LINUX, TEXT("a"), TEXT("k\xff")), 2, {2, 5}, 0,
     REFUSED(FAULTY_FACT, BYTE(4, 1))},
    {LIST(TEXT("a")), LIST(TEXT("unix = \"x\"")), 1, {1}, 0,
     REFUSED(FAULTY_FACT, TERMS(0, 0, 8, 9, NONE))},
    {NO_TEXTS, LIST(TEXT("a"), TEXT("a)")), 1, {2}, 0,
     REFUSED(FAULTY_FACT, FAULT(1, 0, 1, 2, UNOPENED_PARENS))},
    /* The facts come before the texts. All are tested for UTF-8 before one is read. */
    {LIST(TEXT("a"), TEXT("b)")), LIST(TEXT("a)")), 1, {1}, 0,
     REFUSED(FAULTY_FACT, FAULT(0, 0, 1, 2, UNOPENED_PARENS))},
    {LIST(TEXT("a"), TEXT("\xff")), LIST(TEXT("a"), TEXT("\xff")), 2, {1, 2}, 0,
     REFUSED(FAULTY_FACT, BYTE(1, 0))},
    {LIST(TEXT("\xff")), LIST(TEXT("a"), TEXT("a)")), 2, {1, 2}, 0,
     REFUSED(FAULTY_FACT, FAULT(1, 0, 1, 2, UNOPENED_PARENS))},
    {LIST(TEXT("a")), LIST(TEXT("a)"), TEXT("\xff")), 2, {1, 2}, 0,
     REFUSED(FAULTY_FACT, BYTE(1, 0))},
    {LIST(TEXT("a")), LIST(TEXT("a"), TEXT("k = \"\xc3"), TEXT("\xa9\"")), 1, {3}, 0,
     REFUSED(FAULTY_FACT, BYTE(1, 5))},
};

/* What a call is passed beside its buffer. */
struct passed {
    struct joined texts;
    struct joined facts;
    const size_t *target_ends;
    size_t target_count;
    uint8_t otherwise;
};

/* Makes a call, and checks the status and what is written. */
static void audit(const struct passed *passed, size_t room, uint32_t status, struct text values,
                  const struct cfgx_fault *wanted)
{
    struct buffer found_values = make_buffer(&BYTES, room), fault = make_buffer(&FAULTS, 1);
    size_t needed = 12345;
    uint32_t found = cfgx_audit(passed->texts.bytes, passed->texts.length, passed->texts.ends,
                                passed->texts.count, passed->facts.bytes, passed->facts.length,
                                passed->facts.ends, passed->facts.count, passed->target_ends,
                                passed->target_count, passed->otherwise, found_values.bytes, room,
                                &needed, (struct cfgx_fault *)fault.bytes);
    expect_number("the status", found, status);
    expect_number("the number of values", needed, values.length);
    expect_filled(found_values, values.bytes, values.length);
    expect_fault(fault, wanted, status);
}

static void call(const void *item, size_t room, uint32_t status)
{
    static const struct text none = TEXT("");
    const struct row *row = item;
    struct text ends = {(const char *)row->target_ends, row->target_count * sizeof(size_t)};
    size_t *target_ends = block_of(ends);
    struct passed passed = {join(row->texts), join(row->facts), target_ends, row->target_count,
                            row->otherwise};
    audit(&passed, room, status, status == CFGX_STATUS_DONE ? row->values : none, &row->fault);
    free_joined(passed.texts);
    free_joined(passed.facts);
    free_block(target_ends);
}

/* Tests bad ends of the texts, of the facts, and of the targets over as many facts. */
static void test_ends(struct joined bad)
{
    static const struct text none = TEXT(""), empty = TEXT("a");
    struct list facts = {NULL, 0}, texts = {&empty, 1};
    struct joined no_facts = join(facts), one_text = join(texts);
    struct passed passed[] = {
        {bad, no_facts, NULL, 0, 0},
        {one_text, bad, &bad.count, 1, 0},
    };
    for (size_t i = 0; i < COUNT(passed); i++) {
        audit(&passed[i], 4, CFGX_STATUS_BAD_ENDS, none, NULL);
    }
    free_joined(no_facts);
    free_joined(one_text);
}

/* Tests bad ends of targets. The facts have one letter each. */
static void test_target_ends(struct joined bad)
{
    static const struct text none = TEXT("");
    static const struct text letters[] = {TEXT("a"), TEXT("b"), TEXT("c"), TEXT("d")};
    struct list facts = {letters, bad.length}, texts = {letters, 1};
    struct passed passed = {join(texts), join(facts), bad.ends, bad.count, 0};
    audit(&passed, 4, CFGX_STATUS_BAD_ENDS, none, NULL);
    free_joined(passed.texts);
    free_joined(passed.facts);
}

int main(void)
{
    for (size_t i = 0; i < COUNT(rows); i++) {
        begin_row_of(rows[i].texts);
        test_rooms(call, &rows[i], rows[i].values.length, rows[i].status);
    }
    test_bad_ends(test_ends);
    test_bad_ends(test_target_ends);
    return finish("cfgx_audit", 1);
}
