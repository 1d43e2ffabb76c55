/* What the examples in C share. */
#ifndef SUPPORT_H
#define SUPPORT_H

#include "cfgx.h"

#include <stdio.h>
#include <stdlib.h>
#ifdef _WIN32
#include <fcntl.h>
#include <io.h>
#include <windows.h>
#include <shellapi.h>
#endif

/* Prints a message and ends the program, as cfgx ends if memory is refused or a write fails. */
static inline void fail(const char *message)
{
    fprintf(stderr, "%s\n", message);
    exit(3);
}

/* Ends the program unless the library suits the header. */
static inline void expect_version(void)
{
    uint32_t version = cfgx_version();
    if (version / 1000 != CFGX_VERSION / 1000 || version < CFGX_VERSION) {
        fail("the library has another version than the header");
    }
}

/* Returns a block for `count` items, at least one, which is not null. */
static inline void *new_block(size_t count, size_t size)
{
    /* calloc refuses a product that does not fit. */
    void *block = calloc(count > 0 ? count : 1, size > 0 ? size : 1);
    if (block == NULL) {
        fail("out of memory");
    }
    return block;
}

#ifdef _WIN32
/* Returns a word in UTF-8. */
static inline char *utf8_of(const wchar_t *wide)
{
    int size = WideCharToMultiByte(CP_UTF8, 0, wide, -1, NULL, 0, NULL, NULL);
    char *word = new_block((size_t)size, 1);
    WideCharToMultiByte(CP_UTF8, 0, wide, -1, word, size, NULL, NULL);
    return word;
}
#endif

/* Returns the words of `main` in UTF-8, and lets the standard streams pass on bytes as they are.
 * Both are so but on Windows, where the words stay to the end of the program. */
static inline char **utf8_words(char **words)
{
#ifdef _WIN32
    int count;
    wchar_t **wide = CommandLineToArgvW(GetCommandLineW(), &count);
    if (wide == NULL) {
        fail("out of memory");
    }
    words = new_block((size_t)count + 1, sizeof *words);
    for (int i = 0; i < count; i++) {
        words[i] = utf8_of(wide[i]);
    }
    for (int stream = 0; stream <= 2; stream++) {
        _setmode(stream, _O_BINARY);
    }
#endif
    return words;
}

/* Returns what a status means. */
static inline const char *meaning(uint32_t status)
{
    static const char *const meanings[] = {
        "done", "a faulty text", "wrong use", "out of memory", "not UTF-8", "miscounted answers",
        "bad ends", "steps without a value", "too many values", "a faulty fact",
    };
    return meanings[status];
}

/* Prints a status other than CFGX_STATUS_DONE. Returns the status. */
static inline uint32_t report(uint32_t status)
{
    if (status != CFGX_STATUS_DONE) {
        fprintf(stderr, "%s\n", meaning(status));
    }
    return status;
}

/* Ends the output. Returns the status with which the program ends. */
static inline int finish(uint32_t status)
{
    if (fflush(stdout) != 0 || ferror(stdout)) {
        fail("the output cannot be written");
    }
    return (int)status;
}

#endif
