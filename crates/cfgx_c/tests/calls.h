/* Takes away the macros of the header, so that the names of the calls are the calls themselves. */
#undef cfgx_check
#undef cfgx_explain
#undef cfgx_predicates
#undef cfgx_value
#undef cfgx_decide
#undef cfgx_answers
#undef cfgx_compile
#undef cfgx_apply
#undef cfgx_audit
#undef cfgx_tokens
#undef cfgx_run
