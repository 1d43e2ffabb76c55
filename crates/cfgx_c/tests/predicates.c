/* Tests `cfgx_predicates`. */
#include "harness.h"

#define MOST 8

struct row {
    struct text text;
    uint32_t status;
    size_t count;
    struct cfgx_predicate predicates[MOST];
    struct cfgx_fault fault;
};

#define NONE(literal) {TEXT(literal), CFGX_STATUS_DONE, 0, {NO_PREDICATE}, NO_FAULT}
#define REFUSED(literal, status, fault)                                                            \
    {TEXT(literal), CFGX_STATUS_##status, 0, {NO_PREDICATE}, fault}
#define ONE(literal, kind, number, start, end, key_start, key_end, value_start, value_end)         \
    {TEXT(literal), CFGX_STATUS_DONE, 1,                                                           \
     {{CFGX_PREDICATE_##kind, number, start, end, key_start, key_end, value_start, value_end}},    \
     NO_FAULT}

#define FLAG(start, end) {CFGX_PREDICATE_FLAG, 0, start, end, start, end, 0, 0}

static const struct row rows[] = {
    NONE("true"),
    NONE("all(any(), not(false))"),
    REFUSED("all(a, b", FAULTY, FAULT(0, 0, 3, 8, UNCLOSED_PARENS)),
    REFUSED("", FAULTY, FAULT(0, 0, 0, 0, EMPTY)),
    REFUSED("unix\0unix", FAULTY, TERMS(0, 0, 4, 5, START)),
    REFUSED("cfg(unix\0unix)", FAULTY, TERMS(0, 4, 4, 5, START)),
    REFUSED("a = \"\xff\"", NOT_UTF8, BYTE(0, 5)),

    ONE("key", FLAG, 0, 0, 3, 0, 3, 0, 0),
    ONE("key = \"v\"", KEY_VALUE, 0, 0, 9, 0, 3, 7, 8),
    ONE("key=\"\"", KEY_VALUE, 0, 0, 6, 0, 3, 5, 5),
    ONE("test", TEST, 0, 0, 4, 0, 0, 0, 0),
    ONE("debug_assertions", DEBUG_ASSERTIONS, 0, 0, 16, 0, 0, 0, 0),
    ONE("proc_macro", PROC_MACRO, 0, 0, 10, 0, 0, 0, 0),
    ONE("feature = \"x\"", FEATURE, 0, 0, 13, 0, 0, 11, 12),
    ONE("feature = \"\"", FEATURE, 0, 0, 12, 0, 0, 11, 11),
    ONE("target_feature = \"sse2\"", TARGET_FEATURE, 0, 0, 23, 0, 0, 18, 22),
    ONE("target_abi = \"sim\"", ABI, 0, 0, 18, 0, 0, 14, 17),
    ONE("target_arch = \"x86\"", ARCH, 0, 0, 19, 0, 0, 15, 18),
    ONE("target_endian = \"big\"", ENDIAN, CFGX_ENDIAN_BIG, 0, 21, 0, 0, 0, 0),
    ONE("target_endian = \"little\"", ENDIAN, CFGX_ENDIAN_LITTLE, 0, 24, 0, 0, 0, 0),
    ONE("target_env = \"gnu\"", ENV, 0, 0, 18, 0, 0, 14, 17),
    ONE("target_family = \"unix\"", FAMILY, 0, 0, 22, 0, 0, 17, 21),
    ONE("unix", FAMILY, 0, 0, 4, 0, 0, 0, 4),
    ONE("windows", FAMILY, 0, 0, 7, 0, 0, 0, 7),
    ONE("target_has_atomic = \"+08\"", HAS_ATOMIC, 8, 0, 25, 0, 0, 0, 0),
    ONE("target_has_atomic = \"65535\"", HAS_ATOMIC, 65535, 0, 27, 0, 0, 0, 0),
    ONE("target_has_atomic = \"ptr\"", HAS_ATOMIC, CFGX_ATOMIC_POINTER, 0, 25, 0, 0, 0, 0),
    ONE("target_os = \"linux\"", OS, 0, 0, 19, 0, 0, 13, 18),
    ONE("panic = \"abort\"", PANIC, 0, 0, 15, 0, 0, 9, 14),
    ONE("target_pointer_width = \"255\"", POINTER_WIDTH, 255, 0, 28, 0, 0, 0, 0),
    ONE("target_vendor = \"pc\"", VENDOR, 0, 0, 20, 0, 0, 17, 19),

    /* Spans are in the text as it was passed, and count bytes. */
    ONE("cfg(unix)", FAMILY, 0, 4, 8, 0, 0, 4, 8),
    ONE("cfg( key\t= \"v\" , )", KEY_VALUE, 0, 5, 14, 5, 8, 12, 13),
    ONE("cfg = \"(\"", KEY_VALUE, 0, 0, 9, 0, 3, 7, 8),
    ONE("\xe3\x80\x80key = \"\xc3\xa9\"", KEY_VALUE, 0, 3, 13, 3, 6, 10, 12),
    ONE("key = \"a\0b\"", KEY_VALUE, 0, 0, 11, 0, 3, 7, 10),
    {TEXT("cfg(all(a = \"\xf0\x9f\xa6\x80\", unix))"), CFGX_STATUS_DONE, 2,
     {{CFGX_PREDICATE_KEY_VALUE, 0, 8, 18, 8, 9, 13, 17},
      {CFGX_PREDICATE_FAMILY, 0, 20, 24, 0, 0, 20, 24}}, NO_FAULT},

    /* Those of functions come first, and one that stands twice comes twice. */
    {TEXT("all(a, any(b), c)"), CFGX_STATUS_DONE, 3, {FLAG(11, 12), FLAG(4, 5), FLAG(15, 16)},
     NO_FAULT},
    {TEXT("cfg(any(a, true, a))"), CFGX_STATUS_DONE, 2, {FLAG(8, 9), FLAG(17, 18)}, NO_FAULT},
    {TEXT("all(a, any(b, not(c)), feature = \"d\", not(e))"), CFGX_STATUS_DONE, 5,
     {FLAG(18, 19), FLAG(11, 12), FLAG(42, 43), FLAG(4, 5),
      {CFGX_PREDICATE_FEATURE, 0, 23, 36, 0, 0, 34, 35}},
     NO_FAULT},
};

static void call(const void *item, size_t room, uint32_t status)
{
    const struct row *row = item;
    char *text = block_of(row->text);
    struct buffer predicates = make_buffer(&PREDICATES, room), fault = make_buffer(&FAULTS, 1);
    size_t needed = 12345, wanted = status == CFGX_STATUS_DONE ? row->count : 0;
    uint32_t found = cfgx_predicates(text, row->text.length,
                                     (struct cfgx_predicate *)predicates.bytes, room, &needed,
                                     (struct cfgx_fault *)fault.bytes);
    free_block(text);
    expect_number("the status", found, status);
    expect_number("the number of predicates", needed, wanted);
    expect_filled(predicates, row->predicates, wanted);
    expect_fault(fault, &row->fault, status);
}

int main(void)
{
    for (size_t i = 0; i < COUNT(rows); i++) {
        test_row(call, &rows[i], rows[i].text, rows[i].count, rows[i].status);
    }
    return finish("cfgx_predicates", 1);
}
