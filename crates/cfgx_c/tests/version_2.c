/* A loop over steps as programs over version 2 of the calls have it. A compiler has to refuse it,
 * since the steps mean something else now: a step has no `count`. It compiles with
 * -Dcount=number. */
#include "cfgx.h"

/* Returns how many values the steps of version 2 left on a stack. */
size_t values_left(const struct cfgx_step *steps, size_t step_count)
{
    size_t height = 0;
    for (size_t i = 0; i < step_count; i++) {
        height = height - steps[i].count + 1;
    }
    return height;
}
