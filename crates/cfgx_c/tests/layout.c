/* The layout of the structs, as the engine reads and fills them on each platform. It is compiled
 * for each, and never linked. */
#include "cfgx.h"

#define EXPECT_SIZE(type, size) _Static_assert(sizeof(type) == (size), #type)
#define EXPECT_PLACE(type, member, place)                                                          \
    _Static_assert(offsetof(struct type, member) == (place), #type "." #member)

EXPECT_SIZE(size_t, 8);
EXPECT_SIZE(void *, 8);

EXPECT_SIZE(struct cfgx_fault, 48);
EXPECT_PLACE(cfgx_fault, item, 0);
EXPECT_PLACE(cfgx_fault, offset, 8);
EXPECT_PLACE(cfgx_fault, start, 16);
EXPECT_PLACE(cfgx_fault, end, 24);
EXPECT_PLACE(cfgx_fault, members, 32);
EXPECT_PLACE(cfgx_fault, reason, 40);
EXPECT_PLACE(cfgx_fault, terms, 44);

EXPECT_SIZE(struct cfgx_predicate, 56);
EXPECT_PLACE(cfgx_predicate, kind, 0);
EXPECT_PLACE(cfgx_predicate, number, 4);
EXPECT_PLACE(cfgx_predicate, start, 8);
EXPECT_PLACE(cfgx_predicate, end, 16);
EXPECT_PLACE(cfgx_predicate, key_start, 24);
EXPECT_PLACE(cfgx_predicate, key_end, 32);
EXPECT_PLACE(cfgx_predicate, value_start, 40);
EXPECT_PLACE(cfgx_predicate, value_end, 48);

EXPECT_SIZE(struct cfgx_step, 16);
EXPECT_PLACE(cfgx_step, kind, 0);
EXPECT_PLACE(cfgx_step, number, 8);

EXPECT_SIZE(struct cfgx_token, 24);
EXPECT_PLACE(cfgx_token, kind, 0);
EXPECT_PLACE(cfgx_token, start, 8);
EXPECT_PLACE(cfgx_token, end, 16);
