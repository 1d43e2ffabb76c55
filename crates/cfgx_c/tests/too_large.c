/* Tests CFGX_STATUS_TOO_LARGE: 2^32 texts on 2^32 targets have 2^64 values. The arrays of ends are
 * one mapping of zeros, which takes address space and hardly any memory. */
#define _DEFAULT_SOURCE
#ifdef _WIN32
#include <windows.h>
/* A macro of the tests has this name. */
#undef TEXT
#else
#include <sys/mman.h>
#endif

#include "harness.h"

#include <stdio.h>
#include <stdlib.h>

#define ENDS ((size_t)1 << 32)

/* Returns zeros that the system maps, or NULL if it refuses. */
static const void *map_zeros(size_t size)
{
#ifdef _WIN32
    return VirtualAlloc(NULL, size, MEM_RESERVE | MEM_COMMIT, PAGE_READONLY);
#else
    void *zeros = mmap(NULL, size, PROT_READ, MAP_PRIVATE | MAP_ANONYMOUS | MAP_NORESERVE, -1, 0);
    if (zeros == MAP_FAILED) {
        return NULL;
    }
    /* Large pages make the test faster. It does not need them. */
    madvise(zeros, size, MADV_HUGEPAGE);
    return zeros;
#endif
}

/* Returns ENDS ends that are 0. Ends the test if the system refuses the mapping. */
static const size_t *map_ends(void)
{
    const size_t *ends = map_zeros(ENDS * sizeof(size_t));
    if (ends == NULL) {
        printf("FAILED: too many values: the system refuses a mapping of 32 GiB\n");
        exit(1);
    }
    return ends;
}

int main(void)
{
    struct text name = TEXT("2^32 texts on 2^32 targets");
    const size_t *ends = map_ends();
    struct buffer values = make_buffer(&BYTES, 4), fault = make_buffer(&FAULTS, 1);
    size_t needed = 12345;
    begin_row(name);
    uint32_t status = cfgx_audit(NULL, 0, ends, ENDS, NULL, 0, NULL, 0, ends, ENDS, 0,
                                 values.bytes, values.room, &needed,
                                 (struct cfgx_fault *)fault.bytes);
    expect_number("the status", status, CFGX_STATUS_TOO_LARGE);
    expect_number("the number of values", needed, 0);
    expect_filled(values, NULL, 0);
    expect_fault(fault, NULL, status);
    return finish("too many values", 0);
}
