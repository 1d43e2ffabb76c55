/* The example of docs/README.md. The answers are in the order of cfgx_predicates. */
#include "cfgx.h"

#include <assert.h>
#include <string.h>

int main(void)
{
    const char *text = "any(unix, feature = \"x\")";
    const uint8_t answers[] = {CFGX_VALUE_UNKNOWN, CFGX_VALUE_TRUE};
    uint8_t value;
    uint32_t status = cfgx_value(text, strlen(text), answers, 2, &value, NULL);
    assert(status == CFGX_STATUS_DONE && value == CFGX_VALUE_TRUE);
    return 0;
}
