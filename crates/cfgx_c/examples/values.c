/* Prints the value of each of its arguments on a target with two facts:
 *
 * $ cc -o values values.c $(pkg-config --cflags --libs cfgx)
 * $ ./values 'cfg(not(unix))' 'any(windows, test)' 'cfg(foo ()'
 * false
 * unknown
 * status 1, byte 8
 */
#include <cfgx.h>
#include <stdio.h>
#include <string.h>

#define ROOM 64

static void print_value(const char *text)
{
    static const char facts[] = "unixtarget_os = \"linux\"";
    static const size_t ends[] = {4, sizeof facts - 1};
    static const char *const values[] = {"false", "true", "unknown"};
    size_t length = strlen(text), needed;
    uint8_t answers[ROOM], value;
    struct cfgx_fault fault;

    uint32_t status = cfgx_answers(text, length, facts, ends[1], ends, 2,
                                   CFGX_VALUE_UNKNOWN, answers, ROOM,
                                   &needed, &fault);
    if (needed > ROOM) {
        printf("%zu predicates\n", needed);
        return;
    }
    if (status == CFGX_STATUS_DONE) {
        status = cfgx_value(text, length, answers, needed, &value,
                            &fault);
    }
    if (status == CFGX_STATUS_DONE) {
        printf("%s\n", values[value]);
    } else {
        printf("status %d, byte %zu\n", (int)status,
               fault.offset + fault.start);
    }
}

int main(int count, char **word)
{
    for (int i = 1; i < count; i++) {
        print_value(word[i]);
    }
    return 0;
}
