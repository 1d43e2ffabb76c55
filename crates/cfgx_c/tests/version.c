/* Tests `cfgx_version`, and the sizes and offsets of the structs. */
#include "harness.h"

#define SIZE(type, bytes) _Static_assert(sizeof(struct type) == (bytes), "the size of a struct")
#define OFFSET(type, field, bytes)                                                                 \
    _Static_assert(offsetof(struct type, field) == (bytes), "the offset of a field")

SIZE(cfgx_fault, 48);
OFFSET(cfgx_fault, item, 0);
OFFSET(cfgx_fault, offset, 8);
OFFSET(cfgx_fault, start, 16);
OFFSET(cfgx_fault, end, 24);
OFFSET(cfgx_fault, members, 32);
OFFSET(cfgx_fault, reason, 40);
OFFSET(cfgx_fault, terms, 44);

SIZE(cfgx_predicate, 56);
OFFSET(cfgx_predicate, kind, 0);
OFFSET(cfgx_predicate, number, 4);
OFFSET(cfgx_predicate, start, 8);
OFFSET(cfgx_predicate, end, 16);
OFFSET(cfgx_predicate, key_start, 24);
OFFSET(cfgx_predicate, key_end, 32);
OFFSET(cfgx_predicate, value_start, 40);
OFFSET(cfgx_predicate, value_end, 48);

SIZE(cfgx_step, 16);
OFFSET(cfgx_step, kind, 0);
OFFSET(cfgx_step, number, 8);

SIZE(cfgx_token, 24);
OFFSET(cfgx_token, kind, 0);
OFFSET(cfgx_token, start, 8);
OFFSET(cfgx_token, end, 16);

int main(void)
{
    struct text name = TEXT("CFGX_VERSION");
    begin_row(name);
    expect_number("the version of the header", CFGX_VERSION, 2003000);
    expect_number("the version of the library", cfgx_version(), CFGX_VERSION);
    return finish("cfgx_version", 0);
}
