/* Tests `cfgx_tokens`. */
#include "harness.h"

#define MOST 12

struct row {
    struct text text;
    uint32_t status;
    size_t offset;
    size_t count;
    struct cfgx_token tokens[MOST];
    struct cfgx_fault fault;
};

#define UNPACKED(...) __VA_ARGS__
#define NONE(literal, offset) {TEXT(literal), CFGX_STATUS_DONE, offset, 0, {{0, 0, 0}}, NO_FAULT}
#define ONE(literal, kind, end)                                                                    \
    {TEXT(literal), CFGX_STATUS_DONE, 0, 1, {{CFGX_TOKEN_##kind, 0, end}}, NO_FAULT}
#define LISTED(literal, offset, count, tokens)                                                     \
    {TEXT(literal), CFGX_STATUS_DONE, offset, count, {UNPACKED tokens}, NO_FAULT}
#define FAULTY(literal, offset, count, tokens, fault)                                              \
    {TEXT(literal), CFGX_STATUS_FAULTY, offset, count, {UNPACKED tokens}, fault}
#define NOTHING ({0, 0, 0})
#define NOT_UTF8(literal, start)                                                                   \
    {TEXT(literal), CFGX_STATUS_NOT_UTF8, 0, 0, {{0, 0, 0}}, BYTE(0, start)}

#define KEY(start, end) {CFGX_TOKEN_KEY, start, end}
#define VALUE(start, end) {CFGX_TOKEN_VALUE, start, end}
#define EQUALS(start) {CFGX_TOKEN_EQUALS, start, (start) + 1}
#define ALL(start) {CFGX_TOKEN_ALL, start, (start) + 3}
#define ANY(start) {CFGX_TOKEN_ANY, start, (start) + 3}
#define NOT(start) {CFGX_TOKEN_NOT, start, (start) + 3}
#define OPEN(start) {CFGX_TOKEN_OPEN_PAREN, start, (start) + 1}
#define CLOSE(start) {CFGX_TOKEN_CLOSE_PAREN, start, (start) + 1}
#define COMMA(start) {CFGX_TOKEN_COMMA, start, (start) + 1}

static const struct row rows[] = {
    /* no token */
    NONE("", 0),
    NONE(" \t\n\v\f\r", 0),
    NONE("\xc2\x85\xc2\xa0\xe1\x9a\x80\xe2\x80\xa8\xe3\x80\x80", 0),
    NONE("cfg()", 4),
    NONE("cfg( )", 4),

    /* each kind */
    ONE("unix", KEY, 4),
    ONE("\"x\"", VALUE, 3),
    ONE("\"\"", VALUE, 2),
    ONE("=", EQUALS, 1),
    ONE("all", ALL, 3),
    ONE("any", ANY, 3),
    ONE("not", NOT, 3),
    ONE("(", OPEN_PAREN, 1),
    ONE(")", CLOSE_PAREN, 1),
    ONE(",", COMMA, 1),

    /* a word is as long as it can be */
    ONE("allx", KEY, 4),
    ONE("notall", KEY, 6),
    ONE("xany", KEY, 4),
    ONE("all_", KEY, 4),
    ONE("any1", KEY, 4),
    ONE("All", KEY, 3),
    ONE("true", KEY, 4),
    ONE("_", KEY, 1),
    ONE("_9z_A", KEY, 5),
    LISTED("all any\tnot\nall_any", 0, 4, (ALL(0), ANY(4), NOT(8), KEY(12, 19))),

    /* tokens in any order, with and without white space between them */
    LISTED("all(not(a))", 0, 7, (ALL(0), OPEN(3), NOT(4), OPEN(7), KEY(8, 9), CLOSE(9), CLOSE(10))),
    LISTED("))((,,==", 0, 8, (CLOSE(0), CLOSE(1), OPEN(2), OPEN(3), COMMA(4), COMMA(5), EQUALS(6),
                              EQUALS(7))),
    LISTED("a\"b\"c\"\"\"d\"", 0, 5,
           (KEY(0, 1), VALUE(1, 4), KEY(4, 5), VALUE(5, 7), VALUE(7, 10))),
    LISTED("\xe3\x80\x80" "a\xc2\xa0=\xe2\x80\xa8\"\xc2\x85\"\xc2\x85", 0, 3,
           (KEY(3, 4), EQUALS(6), VALUE(10, 14))),

    /* any characters but a quote stand in a value */
    LISTED("key=\"\xc3\xa9\xf0\x9f\xa6\x80\"", 0, 3, (KEY(0, 3), EQUALS(3), VALUE(4, 12))),
    LISTED("k\"a\0b\"", 0, 2, (KEY(0, 1), VALUE(1, 6))),
    LISTED("\"8 all(\\ \n\"_8", 0, 2, (VALUE(0, 11), KEY(11, 13))),

    /* Spans are in the text as it was passed, also if it is stripped. */
    LISTED("cfg(all(unix, feature = \"x\"))", 4, 8,
           (ALL(4), OPEN(7), KEY(8, 12), COMMA(12), KEY(14, 21), EQUALS(22), VALUE(24, 27),
            CLOSE(27))),
    LISTED("cfg(\xe3\x80\x80k )", 4, 1, (KEY(7, 8))),
    LISTED("cfg(cfg(a))", 4, 4, (KEY(4, 7), OPEN(7), KEY(8, 9), CLOSE(9))),
    LISTED("cfg(a) ", 0, 4, (KEY(0, 3), OPEN(3), KEY(4, 5), CLOSE(5))),
    LISTED(" cfg(a)", 0, 4, (KEY(1, 4), OPEN(4), KEY(5, 6), CLOSE(6))),
    LISTED("cfg(a", 0, 3, (KEY(0, 3), OPEN(3), KEY(4, 5))),
    LISTED("cfg", 0, 1, (KEY(0, 3))),

    /* a character with which no token can start */
    FAULTY("8", 0, 0, NOTHING, TERMS(0, 0, 0, 1, START)),
    FAULTY("\xc3\xa9", 0, 0, NOTHING, TERMS(0, 0, 0, 1, START)),
    FAULTY("\xef\xbb\xbf" "a", 0, 0, NOTHING, TERMS(0, 0, 0, 1, START)),
    FAULTY("a 8 b", 0, 1, (KEY(0, 1)), TERMS(0, 0, 2, 3, START)),
    FAULTY("a\xe2\x80\x8b", 0, 1, (KEY(0, 1)), TERMS(0, 0, 1, 2, START)),
    FAULTY("unix\0unix", 0, 1, (KEY(0, 4)), TERMS(0, 0, 4, 5, START)),
    FAULTY("a-b", 0, 1, (KEY(0, 1)), TERMS(0, 0, 1, 2, START)),
    FAULTY("not 1x", 0, 1, (NOT(0)), TERMS(0, 0, 4, 5, START)),
    FAULTY("all(a, \"b\" 8", 0, 5, (ALL(0), OPEN(3), KEY(4, 5), COMMA(5), VALUE(7, 10)),
           TERMS(0, 0, 11, 12, START)),
    FAULTY("cfg(a, 8)", 4, 2, (KEY(4, 5), COMMA(5)), TERMS(0, 4, 3, 4, START)),

    /* a quote that is never closed */
    FAULTY("\"", 0, 0, NOTHING, FAULT(0, 0, 0, 1, UNCLOSED_QUOTES)),
    FAULTY("\"\"\"", 0, 1, (VALUE(0, 2)), FAULT(0, 0, 2, 3, UNCLOSED_QUOTES)),
    FAULTY("all(a, \"b", 0, 4, (ALL(0), OPEN(3), KEY(4, 5), COMMA(5)),
           FAULT(0, 0, 7, 9, UNCLOSED_QUOTES)),
    FAULTY("k = \"a\" \" 8", 0, 3, (KEY(0, 1), EQUALS(2), VALUE(4, 7)),
           FAULT(0, 0, 8, 11, UNCLOSED_QUOTES)),
    FAULTY("cfg(\"a)", 4, 0, NOTHING, FAULT(0, 4, 0, 2, UNCLOSED_QUOTES)),
    FAULTY("cfg(any(\"\xc3\xa9)", 4, 2, (ANY(4), OPEN(7)), FAULT(0, 4, 4, 7, UNCLOSED_QUOTES)),

    NOT_UTF8("a = \"\xff\"", 5),
    NOT_UTF8("a\xc3", 1),
    NOT_UTF8("8 \xc3 \"", 2),
    NOT_UTF8("cfg(a, \xc3)", 7),
};

static void call(const void *item, size_t room, uint32_t status)
{
    const struct row *row = item;
    char *text = block_of(row->text);
    struct buffer tokens = make_buffer(&TOKENS, room), fault = make_buffer(&FAULTS, 1);
    size_t needed = 12345, offset = 12345;
    size_t wanted = status == CFGX_STATUS_OUT_OF_MEMORY ? 0 : row->count;
    uint32_t found = cfgx_tokens(text, row->text.length, (struct cfgx_token *)tokens.bytes, room,
                                 &needed, &offset, (struct cfgx_fault *)fault.bytes);
    free_block(text);
    expect_number("the status", found, status);
    expect_number("the number of tokens", needed, wanted);
    expect_number("the offset", offset, row->offset);
    expect_filled(tokens, row->tokens, wanted);
    expect_fault(fault, &row->fault, status);
}

int main(void)
{
    for (size_t i = 0; i < COUNT(rows); i++) {
        test_row(call, &rows[i], rows[i].text, rows[i].count, rows[i].status);
    }
    return finish("cfgx_tokens", 1);
}
