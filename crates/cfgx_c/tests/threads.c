/* Tests calls of two threads at once, each with memory of its own. */
#include "harness.h"

#include <pthread.h>
#include <string.h>

#define TURNS 2000
#define ROOM 100

/* What a thread asks, and what its calls have to return. */
struct task {
    struct text text;
    struct text answers;
    uint8_t value;
    struct text faulty;
    struct text message;
};

/* A task, and what the last calls for it returned. */
struct run {
    const struct task *task;
    uint8_t value;
    size_t needed;
    struct buffer message;
};

static const struct task tasks[] = {
    {TEXT("all(a, any(b, not(c)), d)"), TEXT("\0\0\1\1"), CFGX_VALUE_TRUE, TEXT("not(a, b)"),
     TEXT("not(a, b)\n^^^^^^^^^ not() takes 1 predicate, found 2")},
    {TEXT("cfg(any(unix, not(windows)))"), TEXT("\2\0"), CFGX_VALUE_UNKNOWN, TEXT("cfg(key))"),
     TEXT("key)\n   ^ unopened parens")},
};

/* Makes the calls. Returns whether all results are right. */
static int make_calls(struct run *run)
{
    const struct task *task = run->task;
    run->value = 77;
    run->needed = 0;
    uint32_t valued = cfgx_value(task->text.bytes, task->text.length,
                                 (const uint8_t *)task->answers.bytes, task->answers.length,
                                 &run->value, NULL);
    uint32_t explained = cfgx_explain(task->faulty.bytes, task->faulty.length,
                                      (char *)run->message.bytes, ROOM, &run->needed, NULL);
    return valued == CFGX_STATUS_DONE && explained == CFGX_STATUS_FAULTY
        && run->value == task->value && run->needed == task->message.length
        && memcmp(run->message.bytes, task->message.bytes, run->needed) == 0;
}

/* Makes the calls many times, but stops if a result is wrong. */
static void *make_turns(void *run)
{
    size_t turn = 0;
    while (turn < TURNS && make_calls(run)) {
        turn++;
    }
    return NULL;
}

int main(void)
{
    pthread_t threads[COUNT(tasks)];
    struct run runs[COUNT(tasks)];
    for (size_t i = 0; i < COUNT(tasks); i++) {
        struct run run = {&tasks[i], 0, 0, make_buffer(&BYTES, ROOM)};
        runs[i] = run;
        expect_number("a thread", pthread_create(&threads[i], NULL, make_turns, &runs[i]), 0);
    }
    for (size_t i = 0; i < COUNT(tasks); i++) {
        begin_row(tasks[i].text);
        expect_number("a thread", pthread_join(threads[i], NULL), 0);
        expect_number("the value", runs[i].value, tasks[i].value);
        expect_number("the number of bytes that are needed", runs[i].needed,
                      tasks[i].message.length);
        expect_filled(runs[i].message, tasks[i].message.bytes, tasks[i].message.length);
    }
    return finish("two threads", 0);
}
