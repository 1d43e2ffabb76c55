/* Tests `cfgx_run`. */
#include "harness.h"

struct row {
    struct list words;
    struct text input;
    uint32_t status;
    struct text output;
};

#define RUN(words, status, output) {words, TEXT(""), CFGX_STATUS_##status, TEXT(output)}
#define PICK(input, status, output)                                                                \
    {LIST(TEXT("pick"), TEXT(SIM)), TEXT(input), CFGX_STATUS_##status, TEXT(output)}
#define SIM "aarch64-apple-ios-sim"
#define USAGE "usage: cfgx parse TEXT | eval TEXT FLAG.. | target TRIPLE TEXT | pick TRIPLE\n"
#define AND "all(unix, feature = \"x\")"

static const struct row rows[] = {
    RUN(LIST(TEXT("parse"), TEXT("all(a, any(b), c)")), DONE, "b\na\nc\n"),
    RUN(LIST(TEXT("parse"), TEXT("cfg(key = \"two\nlines\")")), DONE, "key = \"two\nlines\"\n"),
    RUN(LIST(TEXT("parse"), TEXT("all()")), DONE, ""),
    RUN(LIST(TEXT("parse"), TEXT("foo (")), FAULTY,
        "foo (\n    ^ expected one of `=`, `,`, `)` here\n"),
    RUN(LIST(TEXT("parse"), TEXT("")), FAULTY, "\n empty expression\n"),
    RUN(LIST(TEXT("eval"), TEXT(AND), TEXT("unix")), DONE, "false\n"),
    RUN(LIST(TEXT("eval"), TEXT(AND), TEXT("unix"), TEXT("feature = \"x\"")), DONE, "true\n"),
    RUN(LIST(TEXT("eval"), TEXT(AND), TEXT("unix"), TEXT("?feature = \"x\"")), DONE, "unknown\n"),
    RUN(LIST(TEXT("eval"), TEXT("unix"), TEXT("?a)")), FAULTY, "a)\n ^ unopened parens\n"),
    RUN(LIST(TEXT("eval"), TEXT("unix"), TEXT("target_new")), FAULTY,
        "target_new\n^^^^^^^^^^ expected a `= \"<target_cfg_value>\"` here\n"),
    RUN(LIST(TEXT("target"), TEXT(SIM), TEXT("all(unix, target_abi = \"sim\")")), DONE, "true\n"),
    RUN(LIST(TEXT("target"), TEXT(SIM), TEXT("any(windows, test)")), DONE, "unknown\n"),
    RUN(LIST(TEXT("target"), TEXT("nowhere"), TEXT("unix)")), WRONG_USE, "unknown triple\n"),
    RUN(LIST(TEXT("pick"), TEXT("nowhere")), WRONG_USE, "unknown triple\n"),

    /* A text stays one word, whatever bytes it holds. */
    RUN(LIST(TEXT("eval"), TEXT("unix\0unix")), FAULTY,
        "unix\0unix\n    ^ expected one of `<key>`, `all`, `any`, `not` here\n"),
    RUN(LIST(TEXT("eval"), TEXT("k = \"\0\""), TEXT("k = \"\0\"")), DONE, "true\n"),
    RUN(LIST(TEXT("parse"), TEXT("k = \"a\0b\"")), DONE, "k = \"a\0b\"\n"),
    RUN(LIST(TEXT("eval\0unix")), WRONG_USE, USAGE),
    RUN(LIST(TEXT("parse"), TEXT("k = \"\xc3\xa9\"")), DONE, "k = \"\xc3\xa9\"\n"),
    RUN(LIST(TEXT("parse"), TEXT("k = \"\xc3\xa9\" 8")), FAULTY,
        "k = \"\xc3\xa9\" 8\n         ^ expected one of `<key>`, `all`, `any`, `not` here\n"),

    RUN(NO_TEXTS, WRONG_USE, USAGE),
    RUN(LIST(TEXT("")), WRONG_USE, USAGE),
    RUN(LIST(TEXT("parse")), WRONG_USE, USAGE),
    RUN(LIST(TEXT("parse"), TEXT("a"), TEXT("")), WRONG_USE, USAGE),
    RUN(LIST(TEXT("\xff")), NOT_UTF8, ""),
    RUN(LIST(TEXT("parse"), TEXT("key = \"\xc3\"")), NOT_UTF8, ""),
    RUN(LIST(TEXT("parse"), TEXT("k = \"\xc3"), TEXT("\xa9\"")), NOT_UTF8, ""),

    PICK("", DONE, ""),
    PICK("\n\n", DONE, ""),
    PICK("a\tcfg(target_abi = \"sim\")\nb\tany(windows, feature = \"x\")", DONE,
         "a\tyes\nb\tunknown\n\ttrue with 01\n\tfalse with 00\n"),
    PICK("x\ttrue\r\n\r\n\tall(windows, test)", DONE, "x\tyes\n\tno\n"),
    PICK("\0\tk = \"\0\"\n", DONE, "\0\tunknown\n\ttrue with 1\n\tfalse with 0\n"),
    PICK("a\tunix\n\nb\tkey)\nc", FAULTY, "line 3:\nkey)\n   ^ unopened parens\n"),
    PICK("a\n", FAULTY, "line 1: no tab\n"),
    PICK("a\tkey)\nx\n\xff", FAULTY, "input is not UTF-8\n"),
};

/* Makes a call, and checks the status and what is written. */
static void run(struct joined words, struct text input, size_t room, uint32_t status,
                struct text wanted)
{
    char *bytes = block_of(input);
    struct buffer output = make_buffer(&BYTES, room);
    size_t needed = 12345;
    uint32_t found = cfgx_run(words.bytes, words.length, words.ends, words.count, bytes,
                              input.length, (char *)output.bytes, room, &needed);
    free_block(bytes);
    expect_number("the status", found, status);
    expect_number("the number of bytes that are needed", needed, wanted.length);
    expect_filled(output, wanted.bytes, wanted.length);
}

static const struct text none = TEXT("");

static void call(const void *item, size_t room, uint32_t status)
{
    const struct row *row = item;
    struct joined words = join(row->words);
    run(words, row->input, room, status, status == CFGX_STATUS_OUT_OF_MEMORY ? none : row->output);
    free_joined(words);
}

static void test_ends(struct joined words)
{
    run(words, none, 100, CFGX_STATUS_BAD_ENDS, none);
}

int main(void)
{
    for (size_t i = 0; i < COUNT(rows); i++) {
        begin_row_of(rows[i].words);
        test_rooms(call, &rows[i], rows[i].output.length, rows[i].status);
    }
    test_bad_ends(test_ends);
    return finish("cfgx_run", 1);
}
