/* Uses nothing of what the calls return. With -Werror=unused-result a compiler has to refuse each
 * of them: with CALLS the calls themselves, and else the functions of the header for them. */
#include "cfgx.h"

#ifdef CALLS
#include "calls.h"
#endif

/* What the calls are passed. Nothing runs them. */
static const char *text;
static const size_t *ends;
static const uint8_t *answers;
static char *message;
static uint8_t *values;
static struct cfgx_predicate *predicates;
static struct cfgx_step *steps;
static struct cfgx_token *tokens;
static size_t *needed;
static struct cfgx_fault *fault;

void use_nothing(void)
{
    cfgx_check(text, 0, fault);
    cfgx_explain(text, 0, message, 0, needed, fault);
    cfgx_predicates(text, 0, predicates, 0, needed, fault);
    cfgx_value(text, 0, answers, 0, values, fault);
    cfgx_decide(text, 0, answers, 0, values, 0, needed, values, fault);
    cfgx_answers(text, 0, text, 0, ends, 0, 0, values, 0, needed, fault);
    cfgx_compile(text, 0, steps, 0, needed, predicates, 0, needed, fault);
    cfgx_apply(steps, 0, answers, 0, values);
    cfgx_audit(text, 0, ends, 0, text, 0, ends, 0, ends, 0, 0, values, 0, needed, fault);
    cfgx_tokens(text, 0, tokens, 0, needed, needed, fault);
    cfgx_run(text, 0, ends, 0, text, 0, message, 0, needed);
}
