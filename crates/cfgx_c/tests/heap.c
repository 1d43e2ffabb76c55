/* Tests the heap of release/runtime, which the libraries for other platforms than x86-64 Linux have
 * inside, over functions that stand for malloc, realloc and free. */
#include <stdint.h>
#include <stdio.h>
#include <stdlib.h>

/* What both functions return: 1 and the address of a block, or 0 and one that is not null. */
struct answer {
    uint64_t is_there;
    char *address;
};

struct answer rattle_alloc(size_t size, size_t alignment);
struct answer rattle_realloc(void *block, size_t kept, size_t size, size_t alignment);
void rattle_dealloc(void *block);

/* What was asked for last, and what is answered. */
static char memory[64], other[64];
static void *answered, *passed, *freed;
static size_t asked, calls;
static int failures = 0;

void *__wrap_malloc(size_t size)
{
    calls++;
    asked = size;
    return answered;
}

void *__wrap_realloc(void *block, size_t size)
{
    calls++;
    passed = block;
    asked = size;
    return answered;
}

void __wrap_free(void *block)
{
    calls++;
    freed = block;
}

static void expect(const char *what, int is_so)
{
    if (!is_so) {
        failures++;
        printf("FAILED: %s\n", what);
    }
}

/* Expects that one call asked for so many bytes, and that its answer was told. */
static void expect_answer(const char *what, struct answer found, size_t size)
{
    expect(what, calls == 1 && asked == size && found.is_there == (answered != NULL)
                     && found.address != NULL
                     && (answered == NULL || found.address == answered));
    calls = 0;
}

static void test_new(void)
{
    answered = memory;
    expect_answer("a block of 24 bytes", rattle_alloc(24, 8), 24);
    expect_answer("a block of 3 bytes", rattle_alloc(3, 1), 3);
    expect_answer("a block of no bytes", rattle_alloc(0, 8), 8);
    expect_answer("a block of no bytes, aligned to 1", rattle_alloc(0, 1), 1);
    expect_answer("a large block", rattle_alloc(SIZE_MAX / 2, 1), SIZE_MAX / 2);
    answered = NULL;
    expect_answer("a block that is refused", rattle_alloc(24, 8), 24);
}

static void test_grown(void)
{
    answered = other;
    expect_answer("a block that grows", rattle_realloc(memory, 8, 40, 8), 40);
    expect("which block grows", passed == memory);
    expect_answer("a block that shrinks", rattle_realloc(other, 40, 16, 8), 16);
    expect("which block shrinks", passed == other);
    expect_answer("a block that becomes empty", rattle_realloc(other, 0, 0, 4), 4);
    answered = NULL;
    expect_answer("a growth that is refused", rattle_realloc(memory, 8, 48, 8), 48);
}

int main(void)
{
    test_new();
    test_grown();
    rattle_dealloc(other);
    expect("which block is given back", calls == 1 && freed == other);
    printf("the heap: %d failures\n", failures);
    return failures == 0 ? 0 : 1;
}
