/* Tests long texts, many words, and inputs of 16 MiB and of one byte more. The calls are
 * `cfgx_check`, `cfgx_value` and `cfgx_run`. All but the runs with many words are also tested out
 * of memory. Such a run takes memory for each word. */
#include "harness.h"

#include <string.h>

#define MANY 50000
#define MOST_INPUT ((size_t)1 << 24)

static char long_text[4 * MANY], long_output[MOST_INPUT + 1], input[MOST_INPUT + 1];
static uint8_t answers[MANY];
static struct text words[MANY + 2];

/* Writes the start of a text, a piece many times and the end, and returns the text. */
static struct text repeat(char *bytes, const char *start, const char *piece, const char *end)
{
    size_t length = strlen(start), size = strlen(piece);
    memcpy(bytes, start, length);
    for (size_t i = 0; i < MANY; i++) {
        memcpy(bytes + length, piece, size);
        length += size;
    }
    memcpy(bytes + length, end, strlen(end));
    struct text text = {bytes, length + strlen(end)};
    return text;
}

struct check {
    struct text text;
    struct cfgx_fault fault;
};

static void check(const void *item, size_t room, uint32_t status)
{
    const struct check *row = item;
    char *text = block_of(row->text);
    struct buffer fault = make_buffer(&FAULTS, 1);
    uint32_t found = cfgx_check(text, row->text.length, (struct cfgx_fault *)fault.bytes);
    (void)room;
    free_block(text);
    expect_number("the status", found, status);
    expect_fault(fault, &row->fault, status);
}

static void test_checks(void)
{
    struct check row = {repeat(long_text, "cfg(not(", "a,", "))"), {0, 4, 0, 0, MANY, 1, 0}};
    struct text not = {"not(a,a..)", 10};
    row.fault.end = row.text.length - 5;
    begin_row(not);
    test_growths(check, &row, 0, CFGX_STATUS_FAULTY);
    struct check open = {repeat(long_text, "all(", "a,", ""), {0, 0, 3, 0, 0, 3, 0}};
    struct text all = {"all(a,a..", 9};
    open.fault.end = open.text.length;
    begin_row(all);
    test_growths(check, &open, 0, CFGX_STATUS_FAULTY);
}

struct value {
    struct text text;
    size_t answer_count;
    uint8_t value;
};

static void value(const void *item, size_t room, uint32_t status)
{
    const struct value *row = item;
    struct text bytes = {(const char *)answers, row->answer_count};
    char *text = block_of(row->text);
    uint8_t *block = block_of(bytes);
    struct buffer found_value = make_buffer(&BYTES, 1);
    uint32_t found = cfgx_value(text, row->text.length, block, bytes.length, found_value.bytes,
                                NULL);
    (void)room;
    free_block(text);
    free_block(block);
    expect_number("the status", found, status);
    expect_value(found_value, row->value, status);
}

static void test_values(void)
{
    struct value row = {repeat(long_text, "all(", "a,", ")"), MANY, CFGX_VALUE_TRUE};
    struct text name = {"all(a,a..)", 10};
    memset(answers, CFGX_VALUE_TRUE, MANY);
    begin_row(name);
    test_growths(value, &row, 0, CFGX_STATUS_DONE);
    row.answer_count--;
    test_growths(value, &row, 0, CFGX_STATUS_MISCOUNTED);
    row.answer_count++;
    row.value = CFGX_VALUE_UNKNOWN;
    answers[MANY - 1] = CFGX_VALUE_UNKNOWN;
    test_growths(value, &row, 0, CFGX_STATUS_DONE);
    row.value = CFGX_VALUE_FALSE;
    answers[0] = CFGX_VALUE_FALSE;
    test_growths(value, &row, 0, CFGX_STATUS_DONE);
}

struct run {
    struct list words;
    struct text input;
    uint32_t status;
    struct text output;
};

static void run(const void *item, size_t room, uint32_t status)
{
    const struct run *row = item;
    struct joined joined = join(row->words);
    struct buffer output = make_buffer(&BYTES, room);
    size_t needed = 12345, wanted = status == row->status ? row->output.length : 0;
    uint32_t found = cfgx_run(joined.bytes, joined.length, joined.ends, joined.count,
                              row->input.bytes, row->input.length, (char *)output.bytes, room,
                              &needed);
    free_joined(joined);
    expect_number("the status", found, status);
    expect_number("the number of bytes that are needed", needed, wanted);
    expect_filled(output, row->output.bytes, wanted);
}

/* Tests one long word, and many words. */
static void test_words(void)
{
    struct text parse = TEXT("parse"), eval = TEXT("eval"), last = TEXT("b"), other = TEXT("a");
    struct run long_word = {{words, 2}, TEXT(""), CFGX_STATUS_DONE, TEXT("")};
    words[0] = parse;
    words[1] = repeat(long_text, "all(", "a,", ")");
    long_word.output = repeat(long_output, "", "a\n", "");
    begin_row(parse);
    test_growths(run, &long_word, long_word.output.length, CFGX_STATUS_DONE);
    struct run many_words = {{words, MANY}, TEXT(""), CFGX_STATUS_DONE, TEXT("false\n")};
    words[0] = eval;
    words[1] = last;
    for (size_t i = 2; i < MANY; i++) {
        words[i] = other;
    }
    begin_row(eval);
    run(&many_words, 10, CFGX_STATUS_DONE);
    struct run with_last = {{words, MANY + 1}, TEXT(""), CFGX_STATUS_DONE, TEXT("true\n")};
    words[MANY] = last;
    run(&with_last, 10, CFGX_STATUS_DONE);
}

/* Tests 16 sections that fill an input, and one byte more. Each has a name of 2^20 - 6 bytes. */
static void test_input(void)
{
    struct text pick[] = {TEXT("pick"), TEXT("aarch64-apple-ios-sim")};
    struct text output = {long_output, 16 * (((size_t)1 << 20) - 1)};
    for (size_t line = 0; line < 16; line++) {
        char *at = input + (line << 20), *shown = long_output + line * (((size_t)1 << 20) - 1);
        memset(at, 'n', (size_t)1 << 20);
        memcpy(at + ((size_t)1 << 20) - 6, "\tunix\n", 6);
        memset(shown, 'n', ((size_t)1 << 20) - 6);
        memcpy(shown + ((size_t)1 << 20) - 6, "\tyes\n", 5);
    }
    input[MOST_INPUT] = '\n';
    struct run row = {{pick, 2}, {input, MOST_INPUT}, CFGX_STATUS_DONE, output};
    begin_row(pick[0]);
    test_growths(run, &row, output.length, CFGX_STATUS_DONE);
    struct run more = {{pick, 2}, {input, MOST_INPUT + 1}, CFGX_STATUS_FAULTY,
                       TEXT("input too long\n")};
    test_growths(run, &more, 100, CFGX_STATUS_FAULTY);
}

int main(void)
{
    test_checks();
    test_values();
    test_words();
    test_input();
    return finish("long texts and inputs", 1);
}
