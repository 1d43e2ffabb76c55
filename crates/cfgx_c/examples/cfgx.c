/* The program cfgx, over the call `cfgx_run`. Needs POSIX, or on Windows MinGW-w64. */
#include "support.h"

#include <string.h>
#include <unistd.h>

/* As much input as is read: one byte more than `pick` takes. */
#define MOST_INPUT (((size_t)1 << 24) + 1)

/* What the call is passed, and what it fills. */
struct run {
    char *words;
    size_t words_length;
    size_t *word_ends;
    size_t word_count;
    char *input;
    size_t input_length;
    char *output;
    size_t output_length;
};

/* Takes the words after the program's name. Returns whether there was memory. */
static int take_words(struct run *run, char **word, size_t count)
{
    size_t length = 0;
    for (size_t i = 0; i < count; i++) {
        length += strlen(word[i]);
    }
    run->words = malloc(length + 1);
    run->word_ends = calloc(count + 1, sizeof *run->word_ends);
    if (run->words == NULL || run->word_ends == NULL) {
        return 0;
    }
    for (size_t i = 0; i < count; i++) {
        length = strlen(word[i]);
        memcpy(run->words + run->words_length, word[i], length);
        run->words_length += length;
        run->word_ends[i] = run->words_length;
    }
    run->word_count = count;
    return 1;
}

/* Reads to the end of standard input, or as much as is needed of it. Returns whether each read
 * succeeded and there was memory. */
static int read_input(struct run *run)
{
    run->input = malloc(MOST_INPUT);
    if (run->input == NULL) {
        return 0;
    }
    ssize_t count = 1;
    while (count > 0 && run->input_length < MOST_INPUT) {
        count = read(STDIN_FILENO, run->input + run->input_length, MOST_INPUT - run->input_length);
        run->input_length += count > 0 ? (size_t)count : 0;
    }
    return count >= 0;
}

/* Runs cfgx, and once more if the output needs more room. Returns the status. */
static uint32_t fill_output(struct run *run)
{
    size_t room;
    uint32_t status;
    do {
        room = run->output_length;
        free(run->output);
        run->output = malloc(room + 1);
        if (run->output == NULL) {
            return CFGX_STATUS_OUT_OF_MEMORY;
        }
        status = cfgx_run(run->words, run->words_length, run->word_ends, run->word_count,
                          run->input, run->input_length, run->output, room,
                          &run->output_length);
    } while (run->output_length > room);
    return status;
}

/* Writes the output. Returns whether each write succeeded. */
static int write_output(const struct run *run)
{
    size_t written = 0;
    ssize_t count = 1;
    while (count > 0 && written < run->output_length) {
        count = write(STDOUT_FILENO, run->output + written, run->output_length - written);
        written += count > 0 ? (size_t)count : 0;
    }
    return count > 0;
}

/* Runs cfgx without an input, and then with one if the words ask for it: `pick` with a triple that
 * is built in. Returns the status. */
static uint32_t status_of(struct run *run, char **word, size_t count)
{
    if (!take_words(run, word, count)) {
        return CFGX_STATUS_OUT_OF_MEMORY;
    }
    uint32_t status = fill_output(run);
    if (status == CFGX_STATUS_DONE && strcmp(word[0], "pick") == 0) {
        status = read_input(run) ? fill_output(run) : CFGX_STATUS_OUT_OF_MEMORY;
    }
    /* The program ends alike if it is out of memory, if a stream fails and if a word is wrong. */
    int is_written = status < CFGX_STATUS_OUT_OF_MEMORY && write_output(run);
    return is_written ? status : CFGX_STATUS_OUT_OF_MEMORY;
}

int main(int count, char **word)
{
    expect_version();
    word = utf8_words(word);
    struct run run = {0};
    uint32_t status = status_of(&run, word + 1, count > 0 ? (size_t)count - 1 : 0);
    free(run.words);
    free(run.word_ends);
    free(run.input);
    free(run.output);
    return (int)status;
}
