/* The engine of cfgx for C and C++. A condition is a text such as `all(unix, feature = "x")`, whose
 * predicates are `unix` and `feature = "x"`. The calls check such texts, list their tokens and
 * predicates, and compute their values. The manual page cfgx(1) and docs/RULES.md in the repository
 * of cfgx have the rules of the language, and docs/C.md says how to link the library and what is
 * proved of it. This header needs C99 or C++11.
 *
 * Texts are UTF-8. Lengths, ends and spans count bytes. No byte is a terminator, so a text may
 * contain zero bytes. A condition has them only in its values. White space of Unicode, a line feed
 * too, may stand around each token. A value has no escapes: it ends at the next quote. Nesting has
 * no limit. Some conditions that rustc takes are faulty here, such as `target_os` without a value.
 *
 * If a text begins with `cfg(` and ends with `)`, the stripped text is what stands between;
 * otherwise it is the whole text. So pass `cfg(unix)` without white space around it: `cfg(unix) `
 * is faulty.
 *
 * A pointer before a length or a count points to that many items. A null pointer is allowed where
 * its count is 0. Every other pointer points to one item. It is not null, unless it is a `fault`.
 * In a language that does not read this header, pass no null pointer at all, since the functions at
 * its end are what allows them.
 *
 * A list of texts is passed as the bytes of all texts, one after another with nothing between
 * them, and an array of their ends: `ends[i]` is the number of bytes of the first i + 1 texts. An
 * empty list has no ends, and its length is 0. If an end cuts a character, the text in which the
 * character begins is not UTF-8.
 *
 * A buffer has a length `room`, in items, and a `*needed`. A call always writes `*needed`: the
 * number of items of the result, or 0 if there is no result. If `room` is at least `*needed`, the
 * result stands at the start of the buffer, and the items behind it stay as they were. Otherwise
 * the whole buffer stays as it was. A call with two buffers fills both or neither. Too little room
 * changes neither the status nor another result, so compare `*needed` with `room`: CFGX_STATUS_DONE
 * does not say that the buffer was filled. Such a call still reads and evaluates all that it is
 * passed. So pass a buffer that has room for most conditions, and call again for others. A condition
 * has no more steps than bytes, and a step for each predicate.
 *
 * A call always writes `*value`, `*needed`, `*offset` and `*fault`. Unless it says otherwise,
 * `*value` becomes CFGX_VALUE_UNKNOWN, `*needed` and `*offset` become 0, and each member of
 * `*fault` becomes 0. If the status is CFGX_STATUS_FAULTY, CFGX_STATUS_NOT_UTF8 or
 * CFGX_STATUS_FAULTY_FACT, a call with a `fault` writes to it which text or fact this is about, and
 * what is wrong with it.
 *
 * If several statuses apply, a call returns the first of these: CFGX_STATUS_BAD_ENDS;
 * CFGX_STATUS_TOO_LARGE; CFGX_STATUS_FAULTY_FACT, for a fact that is not UTF-8, and then for one
 * that is faulty; CFGX_STATUS_NOT_UTF8, for any text; CFGX_STATUS_FAULTY; CFGX_STATUS_MISCOUNTED;
 * CFGX_STATUS_NO_VALUE. The order of `cfgx_run` is: CFGX_STATUS_BAD_ENDS; CFGX_STATUS_NOT_UTF8,
 * for any word; CFGX_STATUS_WRONG_USE; CFGX_STATUS_FAULTY. A call may return
 * CFGX_STATUS_OUT_OF_MEMORY in place of every status but CFGX_STATUS_BAD_ENDS and
 * CFGX_STATUS_TOO_LARGE. But for that, the same arguments always have the same status.
 *
 * A call keeps no pointer and no memory. It takes memory from malloc and realloc, and returns it
 * to free. Several threads may call at once. Nothing checks these duties of a caller:
 *
 * - Pass no array of more than PTRDIFF_MAX bytes.
 * - Let nothing that a call writes overlap anything else that it is passed.
 * - During a call, let no other thread write what it reads, and none touch what it writes.
 * - Let malloc, realloc and free be one allocator, which aligns as the C standard asks.
 * - Do not call from a signal handler, nor from the child of a fork in a process with threads.
 */
#ifndef CFGX_H
#define CFGX_H

#include <stddef.h>
#include <stdint.h>

#ifdef __cplusplus
extern "C" {
#endif

/* Lets gcc and clang warn where what a call returns is not used. */
#ifdef __GNUC__
#define CFGX_USE_RESULT __attribute__((warn_unused_result))
#else
#define CFGX_USE_RESULT
#endif

/* The version of the language of conditions, and that of these calls. */
#define CFGX_VERSION_LANGUAGE 2
#define CFGX_VERSION_MAJOR 3
#define CFGX_VERSION_MINOR 0
#define CFGX_VERSION \
    (CFGX_VERSION_LANGUAGE * 1000000 + CFGX_VERSION_MAJOR * 1000 + CFGX_VERSION_MINOR)

/* Returns the CFGX_VERSION of the library. The library suits this header if it has the same
 * language and the same major version, and its minor version is not lower. For its version v, this
 * is `v / 1000 == CFGX_VERSION / 1000 && v >= CFGX_VERSION`.
 *
 * A new language may read a text differently, and may add kinds of predicates, reasons and lists of
 * terms. A new major version may change calls and structs. A new minor version only adds calls. */
uint32_t cfgx_version(void);

/* The statuses that calls return. A status means the same in all calls. */
#define CFGX_STATUS_DONE 0          /* success; a buffer that is too small stays as it was */
#define CFGX_STATUS_FAULTY 1        /* a text is no condition, or the input of cfgx_run is faulty */
#define CFGX_STATUS_WRONG_USE 2     /* cfgx_run: wrong words, or a triple that is not built in */
#define CFGX_STATUS_OUT_OF_MEMORY 3 /* memory was refused */
#define CFGX_STATUS_NOT_UTF8 4      /* a text or a word is not UTF-8 */
#define CFGX_STATUS_MISCOUNTED 5    /* there are more or fewer answers than predicates; of steps,
                                     * than steps that ask */
#define CFGX_STATUS_BAD_ENDS 6      /* ends decrease, or the last is not the number of bytes; for
                                     * the ends of targets, of facts */
#define CFGX_STATUS_NO_VALUE 7      /* the steps are not those of one tree, or one asks for an
                                     * answer that is not there */
#define CFGX_STATUS_TOO_LARGE 8     /* the number of values does not fit in a size_t */
#define CFGX_STATUS_FAULTY_FACT 9   /* a fact is faulty or not UTF-8 */

/* Answers and values. Every other number is an unknown answer too. */
#define CFGX_VALUE_FALSE 0
#define CFGX_VALUE_TRUE 1
#define CFGX_VALUE_UNKNOWN 2

/* The reasons of faults. docs/RULES.md says which reason a text has. */
#define CFGX_REASON_NONE 0                      /* no fault, or bytes that are not UTF-8 */
#define CFGX_REASON_INVALID_NOT 1               /* a `not` has no member, or several */
#define CFGX_REASON_INVALID_CHARACTERS 2        /* no text has this reason */
#define CFGX_REASON_UNCLOSED_PARENS 3           /* a `(` is never closed */
#define CFGX_REASON_UNOPENED_PARENS 4           /* a `)` closes nothing */
#define CFGX_REASON_UNCLOSED_QUOTES 5           /* a quote is never closed */
#define CFGX_REASON_UNOPENED_QUOTES 6           /* no text has this reason */
#define CFGX_REASON_EMPTY 7                     /* the stripped text is empty or white space */
#define CFGX_REASON_UNEXPECTED 8                /* `terms` is the list of those expected */
#define CFGX_REASON_INVALID_INTEGER 9           /* target_pointer_width is no number up to 255, or
                                                 * target_endian is neither big nor little */
#define CFGX_REASON_MULTIPLE_ROOT_PREDICATES 10 /* several conditions with commas between */
#define CFGX_REASON_INVALID_HAS_ATOMIC 11       /* target_has_atomic is neither a number up to 65535
                                                 * nor ptr */
#define CFGX_REASON_UNKNOWN_BUILTIN 12          /* no text has this reason */

/* The lists of expected terms, as messages name them. A list may lack terms that are accepted
 * there, and may have terms that are not. Those from CFGX_TERMS_OPEN to CFGX_TERMS_CLOSE have the
 * name of what stands before them. docs/RULES.md says where each list is named. */
#define CFGX_TERMS_NONE 1            /* no term */
#define CFGX_TERMS_START 2           /* `<key>` `all` `any` `not` */
#define CFGX_TERMS_OPEN 3            /* `<key>` `)` `all` `any` `not` */
#define CFGX_TERMS_COMMA 4           /* `)` `<key>` */
#define CFGX_TERMS_KEY 5             /* `=` `,` `)` */
#define CFGX_TERMS_EQUALS 6          /* `"` */
#define CFGX_TERMS_VALUE 7           /* `,` `)` */
#define CFGX_TERMS_FUNCTION 8        /* `(` */
#define CFGX_TERMS_CLOSE 9           /* `)` `,` */
#define CFGX_TERMS_END 10            /* `"<value>"` */
#define CFGX_TERMS_FEATURE_NAME 11   /* `= "<feature_name>"` */
#define CFGX_TERMS_PANIC_STRATEGY 12 /* `= "<panic_strategy>"` */
#define CFGX_TERMS_TARGET_VALUE 13   /* `= "<target_cfg_value>"` */
#define CFGX_TERMS_TARGET_FEATURE 14 /* `<feature>` */
#define CFGX_TERMS_TARGET_KEY 15     /* `target_arch` `target_feature` `target_os` `target_family`
                                      * `target_env` `target_endian` `target_has_atomic`
                                      * `target_pointer_width` `target_vendor` */

/* What is wrong with a text or a fact, and where. */
struct cfgx_fault {
    /* the number of the text among those of the call, or of the fact among all facts, from 0 on */
    size_t item;
    /* where the stripped text begins: at 4 if the text is in cfg( ), else at 0. A `?` at the start
     * of a fact is one byte more. It is 0 for bytes that are not UTF-8 */
    size_t offset;
    /* the bytes at fault, from `start` up to but not including `end` in the stripped text, so from
     * `offset + start` up to but not including `offset + end` in the text or the fact. The former
     * is at most the latter, and this at most the length of the text or the fact. `start` is `end`
     * if no byte is at fault, as in an empty text. If a parenthesis or a quote is never closed, all
     * that follows it is at fault too. Where no token can start, one byte is at fault, also of a
     * longer character. If the text or the fact is not UTF-8, this is the byte with which the first
     * wrong character begins */
    size_t start;
    size_t end;
    /* the number of members of the `not`, for CFGX_REASON_INVALID_NOT; 0 for every other reason */
    size_t members;
    /* one of CFGX_REASON_.. */
    uint32_t reason;
    /* one of CFGX_TERMS_.., for CFGX_REASON_UNEXPECTED; 0 for every other reason */
    uint32_t terms;
};

/* Checks whether a text is a condition. Returns CFGX_STATUS_DONE if it is, and otherwise
 * CFGX_STATUS_FAULTY, CFGX_STATUS_NOT_UTF8 or CFGX_STATUS_OUT_OF_MEMORY. */
CFGX_USE_RESULT
uint32_t cfgx_check(const char *text, size_t text_length, struct cfgx_fault *fault);

/* Explains what is wrong with a text. Returns CFGX_STATUS_DONE if the text is a condition. Returns
 * CFGX_STATUS_FAULTY if it is UTF-8 but no condition, and fills `message` with what cfgx prints:
 * the stripped text, a line feed, a space for each byte before the fault, marks, a space and the
 * reason. The marks are one `-` if a parenthesis or a quote is never closed, and otherwise a `^`
 * for each byte at fault, so none if there is none. They stand below it if each character before it
 * has one byte and one column, and none is a line feed. The message ends with neither a line feed
 * nor a zero byte, but has the zero bytes of the text. Otherwise returns CFGX_STATUS_NOT_UTF8 or
 * CFGX_STATUS_OUT_OF_MEMORY. With every status but CFGX_STATUS_FAULTY, `*needed` is 0. */
CFGX_USE_RESULT
uint32_t cfgx_explain(const char *text, size_t text_length,
                      char *message, size_t room, size_t *needed, struct cfgx_fault *fault);

/* The kinds of predicates. */
#define CFGX_PREDICATE_FLAG 1             /* a bare key without a meaning of its own */
#define CFGX_PREDICATE_KEY_VALUE 2        /* a key without a meaning of its own, and a value */
#define CFGX_PREDICATE_TEST 3             /* test */
#define CFGX_PREDICATE_DEBUG_ASSERTIONS 4 /* debug_assertions */
#define CFGX_PREDICATE_PROC_MACRO 5       /* proc_macro */
#define CFGX_PREDICATE_FEATURE 6          /* feature */
#define CFGX_PREDICATE_TARGET_FEATURE 7   /* target_feature, which a build may set: this kind does
                                           * not test the target */
#define CFGX_PREDICATE_ABI 8              /* target_abi; the kinds from 8 to 17 test the target */
#define CFGX_PREDICATE_ARCH 9             /* target_arch */
#define CFGX_PREDICATE_ENDIAN 10          /* target_endian */
#define CFGX_PREDICATE_ENV 11             /* target_env */
#define CFGX_PREDICATE_FAMILY 12          /* target_family, unix, windows */
#define CFGX_PREDICATE_HAS_ATOMIC 13      /* target_has_atomic */
#define CFGX_PREDICATE_OS 14              /* target_os */
#define CFGX_PREDICATE_PANIC 15           /* panic */
#define CFGX_PREDICATE_POINTER_WIDTH 16   /* target_pointer_width */
#define CFGX_PREDICATE_VENDOR 17          /* target_vendor */

/* The numbers of byte orders, and of the width `ptr` of an atomic. */
#define CFGX_ENDIAN_BIG 0
#define CFGX_ENDIAN_LITTLE 1
#define CFGX_ATOMIC_POINTER 65536

/* A predicate of a condition. Spans are those in the text as it was passed, from the start up to
 * but not including the end. Each start is at most its end, and each end at most the length of the
 * text. */
struct cfgx_predicate {
    /* one of CFGX_PREDICATE_.. */
    uint32_t kind;
    /* - CFGX_PREDICATE_POINTER_WIDTH: the number of bits
     * - CFGX_PREDICATE_HAS_ATOMIC: the number of bits, or CFGX_ATOMIC_POINTER
     * - CFGX_PREDICATE_ENDIAN: the number of a byte order
     * - every other kind: 0 */
    uint32_t number;
    /* the span of the whole predicate: from the start of its key to the end of its key, or to the
     * end of the closing quote if it has a value */
    size_t start;
    size_t end;
    /* the span of the key, if the kind is CFGX_PREDICATE_FLAG or CFGX_PREDICATE_KEY_VALUE; else 0
     * and 0 */
    size_t key_start;
    size_t key_end;
    /* the span of the value without its quotes, if the kind has one and `number` does not say it;
     * for `unix` and `windows` that of the word; else 0 and 0. The span of an empty value has equal
     * ends */
    size_t value_start;
    size_t value_end;
};

/* Lists the predicates of a condition in the order in which they are asked: in each list first
 * those of its functions, one function after another, and then its own. So `all(a, any(b), c)` asks
 * b, a and c. A predicate that stands twice is listed twice. The literals `true` and `false` are
 * neither asked nor listed. Returns CFGX_STATUS_DONE, CFGX_STATUS_FAULTY, CFGX_STATUS_NOT_UTF8 or
 * CFGX_STATUS_OUT_OF_MEMORY. */
CFGX_USE_RESULT
uint32_t cfgx_predicates(const char *text, size_t text_length,
                         struct cfgx_predicate *predicates, size_t room, size_t *needed,
                         struct cfgx_fault *fault);

/* Computes the value of a condition from the answers to its predicates, which are in the order of
 * `cfgx_predicates`. `all` is false if a member is false, else unknown if a member is unknown, else
 * true. `any` is true if a member is true, else unknown if a member is unknown, else false. `not`
 * of unknown is unknown. Two answers are independent, even those to equal predicates: with unknown
 * answers `any(a, not(a))` is unknown. Returns CFGX_STATUS_DONE, and writes the value to `*value`.
 * Otherwise returns CFGX_STATUS_FAULTY, CFGX_STATUS_NOT_UTF8, CFGX_STATUS_OUT_OF_MEMORY or
 * CFGX_STATUS_MISCOUNTED. */
CFGX_USE_RESULT
uint32_t cfgx_value(const char *text, size_t text_length,
                    const uint8_t *answers, size_t answer_count, uint8_t *value,
                    struct cfgx_fault *fault);

/* Decides a condition: computes its value as `cfgx_value` does and, if the value is unknown, fills
 * `fillings` with two fillings, one behind the other. A filling has CFGX_VALUE_FALSE or
 * CFGX_VALUE_TRUE for each answer, and keeps the known answers; it may give equal predicates
 * different values. The condition is true with the first filling and false with the second one. So
 * `*needed` is 2 * answer_count, or 0 if the value is known. Returns what `cfgx_value` returns. */
CFGX_USE_RESULT
uint32_t cfgx_decide(const char *text, size_t text_length,
                     const uint8_t *answers, size_t answer_count,
                     uint8_t *fillings, size_t room, size_t *needed, uint8_t *value,
                     struct cfgx_fault *fault);

/* Answers the predicates of a condition by the facts of a target: one answer for each predicate, in
 * the order of `cfgx_predicates`. A fact is a text such as a line of `rustc --print cfg`. The
 * predicates in it are true: a fact `all(x, not(y))` makes x and y true. If a fact begins with `?`,
 * the predicates in the rest of it are unknown, except those that another fact makes true. Two
 * predicates are the same if their kinds, keys, values and numbers are: `unix` is the same as
 * `target_family = "unix"`. A predicate that is in no fact is false, except that it is unknown if
 * `otherwise` is not 0 and its kind is less than CFGX_PREDICATE_ABI, which says that it does not
 * test the target. `otherwise` is a yes or a no, and none of CFGX_VALUE_..
 *
 * Some compilers print facts that no condition can ask, which are passed over. Take off a `?` at
 * the start, if there is one, and strip the rest: such a fact is a key alone that needs a value, as
 * `feature`, `panic` and each key that begins with `target_` do; or it is a key that begins with
 * `target_` and is not the key of a kind above, with a value. Every other fact that is no condition
 * is faulty. A blank line is, too.
 *
 * Returns CFGX_STATUS_DONE; CFGX_STATUS_FAULTY_FACT; CFGX_STATUS_NOT_UTF8 or CFGX_STATUS_FAULTY,
 * which are about the text; CFGX_STATUS_OUT_OF_MEMORY; or CFGX_STATUS_BAD_ENDS. */
CFGX_USE_RESULT
uint32_t cfgx_answers(const char *text, size_t text_length,
                      const char *facts, size_t facts_length,
                      const size_t *fact_ends, size_t fact_count, uint8_t otherwise,
                      uint8_t *answers, size_t room, size_t *needed, struct cfgx_fault *fault);

/* The kinds of steps. */
#define CFGX_STEP_FALSE 0 /* pushes false */
#define CFGX_STEP_TRUE 1  /* pushes true */
#define CFGX_STEP_ASK 2   /* pushes the answer with the number `number` */
#define CFGX_STEP_NOT 3   /* pops a value, and pushes its negation */
#define CFGX_STEP_ALL 4   /* pops `number` values, and pushes whether all are true */
#define CFGX_STEP_ANY 5   /* pops `number` values, and pushes whether any is true */

/* A step of the evaluation of a condition, which is a node of its tree. Steps stand as the nodes
 * stand in the text, each function in front of its members. They are read from the last to the
 * first, with a stack, and each one does what its kind says. The value that was pushed last is
 * popped first, so the value of the first member is on top. CFGX_STEP_ALL: acc = true; for each
 * popped value v, acc = acc and v; acc is pushed. CFGX_STEP_ANY: the same with false and or. At the
 * end the stack has one value, which is that of the condition. It never has more values than there
 * are steps.
 *
 * `all(a, any(b), c)` asks b, a and c, and has the steps ALL 3, ASK 1, ANY 1, ASK 0 and ASK 2. The
 * padding between the members may hold anything, so compare and store the members. */
struct cfgx_step {
    /* one of CFGX_STEP_.. */
    uint32_t kind;
    /* CFGX_STEP_ASK: the number of the predicate, counted from 0 in the order of `cfgx_predicates`
     * CFGX_STEP_ALL, CFGX_STEP_ANY: the number of members
     * CFGX_STEP_NOT: 1
     * CFGX_STEP_FALSE, CFGX_STEP_TRUE: 0 */
    size_t number;
};

/* Compiles a condition to its steps and its predicates. A program can keep both, and evaluate the
 * steps in any language, with values of any logic in which members may be joined in any order. It
 * can also build the condition's tree from them. The predicates are in the order of
 * `cfgx_predicates`. There are no more predicates than steps, and no more steps than bytes. To
 * write the steps takes no memory.
 *
 * Both buffers are filled, or neither. Returns CFGX_STATUS_DONE, CFGX_STATUS_FAULTY,
 * CFGX_STATUS_NOT_UTF8 or CFGX_STATUS_OUT_OF_MEMORY. */
CFGX_USE_RESULT
uint32_t cfgx_compile(const char *text, size_t text_length,
                      struct cfgx_step *steps, size_t step_room, size_t *steps_needed,
                      struct cfgx_predicate *predicates, size_t predicate_room,
                      size_t *predicates_needed, struct cfgx_fault *fault);

/* Computes the value of steps over answers, as `cfgx_step` describes it. Any steps may be passed,
 * such as those of a damaged file. Several steps may ask for the same answer. Two answers are
 * independent, as in `cfgx_value`.
 *
 * Returns CFGX_STATUS_DONE, and writes the value to `*value`. Returns CFGX_STATUS_MISCOUNTED if
 * there are more or fewer answers than steps of the kind CFGX_STEP_ASK. Returns
 * CFGX_STATUS_NO_VALUE if the steps are not those of one tree, or a step asks for an answer that is
 * not there: a kind is unknown, a number is none that its kind can have, a function has too few
 * members behind it, there are no steps, or not exactly one value is left. Otherwise returns
 * CFGX_STATUS_OUT_OF_MEMORY. Up to 33 steps and 33 answers need no memory. */
CFGX_USE_RESULT
uint32_t cfgx_apply(const struct cfgx_step *steps, size_t step_count,
                    const uint8_t *answers, size_t answer_count, uint8_t *value);

/* Evaluates many conditions on many targets. Reads each text once for all targets, and each fact
 * once for all conditions. There are no values if one of them is faulty. So leave out the faulty
 * texts, which `cfgx_check` finds, and the faulty facts, which `cfgx_answers` finds, for instance
 * with the text `true`.
 *
 * Numbering starts at 0. Target j has the facts from number `target_ends[j - 1]`, or from 0 for the
 * first target, up to but not including `target_ends[j]`, and answers by these and `otherwise` as
 * in `cfgx_answers`. Two answers are independent, as in `cfgx_value`. Item `i * target_count + j`
 * of `values` becomes the value of condition i on target j, so `*needed` is text_count *
 * target_count.
 *
 * Returns CFGX_STATUS_DONE. Returns CFGX_STATUS_FAULTY_FACT, and tells the fault of the first fact
 * that is not UTF-8, or if all are, of the first faulty one. Facts are counted over all targets.
 * Returns CFGX_STATUS_NOT_UTF8 or CFGX_STATUS_FAULTY, and tells the fault of the first such text.
 * Otherwise returns CFGX_STATUS_OUT_OF_MEMORY, CFGX_STATUS_BAD_ENDS or CFGX_STATUS_TOO_LARGE. */
CFGX_USE_RESULT
uint32_t cfgx_audit(const char *texts, size_t texts_length,
                    const size_t *text_ends, size_t text_count,
                    const char *facts, size_t facts_length,
                    const size_t *fact_ends, size_t fact_count,
                    const size_t *target_ends, size_t target_count, uint8_t otherwise,
                    uint8_t *values, size_t room, size_t *needed, struct cfgx_fault *fault);

/* The kinds of tokens. */
#define CFGX_TOKEN_KEY 1         /* any word but all, any and not */
#define CFGX_TOKEN_VALUE 2       /* a text between two quotes */
#define CFGX_TOKEN_EQUALS 3      /* = */
#define CFGX_TOKEN_ALL 4         /* all */
#define CFGX_TOKEN_ANY 5         /* any */
#define CFGX_TOKEN_NOT 6         /* not */
#define CFGX_TOKEN_OPEN_PAREN 7  /* ( */
#define CFGX_TOKEN_CLOSE_PAREN 8 /* ) */
#define CFGX_TOKEN_COMMA 9       /* , */

/* A token of a text. The padding behind `kind` may hold anything, so compare and store the
 * members. */
struct cfgx_token {
    /* one of CFGX_TOKEN_.. */
    uint32_t kind;
    /* the bytes that spell the token, with both quotes of a value: from `start` up to but not
     * including `end` in the text as it was passed */
    size_t start;
    size_t end;
};

/* Lists the tokens of the stripped text, one after another. The text need not be a condition: most
 * texts that `cfgx_check` refuses have all their tokens here, and an empty text has none. White
 * space stands between tokens and belongs to none. With each status but CFGX_STATUS_NOT_UTF8,
 * CFGX_STATUS_OUT_OF_MEMORY too, writes to `*offset` where the stripped text begins: at 4 if the
 * text is in cfg( ), else at 0. With CFGX_STATUS_NOT_UTF8 `*offset` becomes 0.
 *
 * Returns CFGX_STATUS_DONE if nothing but white space stands behind the last token. Returns
 * CFGX_STATUS_FAULTY at the first character with which no token can start, or at a quote that is
 * never closed. Then the result is the tokens before it, and `fault` tells this fault, before which
 * `cfgx_check` may find another one. Otherwise returns CFGX_STATUS_NOT_UTF8 or, of a text with such
 * a fault, CFGX_STATUS_OUT_OF_MEMORY.
 *
 * A first pass over the text counts the tokens, and a second one writes them. So a text without
 * such a fault takes no memory. */
CFGX_USE_RESULT
uint32_t cfgx_tokens(const char *text, size_t text_length,
                     struct cfgx_token *tokens, size_t room, size_t *needed, size_t *offset,
                     struct cfgx_fault *fault);

/* Runs the program cfgx with these words, which are the arguments after the program's name. `input`
 * is its standard input. Only `pick` reads it. An input that is not UTF-8, or has more than 16 MiB,
 * is faulty then. Fills `output` with what cfgx prints, and returns the status with which cfgx
 * ends: CFGX_STATUS_DONE, CFGX_STATUS_FAULTY, CFGX_STATUS_WRONG_USE or CFGX_STATUS_OUT_OF_MEMORY.
 * With the last of these there is no output.
 *
 * Returns CFGX_STATUS_BAD_ENDS if the ends are wrong, else CFGX_STATUS_NOT_UTF8 if a word is not
 * UTF-8, for which cfgx itself ends with 3. With both of these there is no output. */
CFGX_USE_RESULT
uint32_t cfgx_run(const char *words, size_t words_length,
                  const size_t *word_ends, size_t word_count,
                  const char *input, size_t input_length,
                  char *output, size_t room, size_t *needed);

/* The functions at the end of the header allow a null pointer where its count is 0, and as a
 * `fault`. The name of each call but `cfgx_version` becomes that of one of them, which is static.
 * It passes on what it is passed, with a pointer to some item in place of such a null pointer. A
 * null pointer with another count stays null. In C, a function of yours that is inline and not
 * static cannot call a static function: make it `static inline`. The names are macros, which rename
 * a member of a struct or a class too, so give no member the name of a call. */

static inline const char *cfgx_given_text(const char *text, size_t count) {
    static const char none = 0;
    return text || count ? text : &none;
}

static inline const size_t *cfgx_given_ends(const size_t *ends, size_t count) {
    static const size_t none = 0;
    return ends || count ? ends : &none;
}

static inline const uint8_t *cfgx_given_answers(const uint8_t *answers, size_t count) {
    static const uint8_t none = 0;
    return answers || count ? answers : &none;
}

static inline const struct cfgx_step *cfgx_given_steps(const struct cfgx_step *steps,
                                                       size_t count) {
    static const struct cfgx_step none = {0, 0};
    return steps || count ? steps : &none;
}

static inline char *cfgx_room_for_text(char *text, size_t count) {
    static char none;
    return text || count ? text : &none;
}

static inline uint8_t *cfgx_room_for_values(uint8_t *values, size_t count) {
    static uint8_t none;
    return values || count ? values : &none;
}

static inline struct cfgx_predicate *cfgx_room_for_predicates(struct cfgx_predicate *predicates,
                                                              size_t count) {
    static struct cfgx_predicate none;
    return predicates || count ? predicates : &none;
}

static inline struct cfgx_step *cfgx_room_for_steps(struct cfgx_step *steps, size_t count) {
    static struct cfgx_step none;
    return steps || count ? steps : &none;
}

static inline struct cfgx_token *cfgx_room_for_tokens(struct cfgx_token *tokens, size_t count) {
    static struct cfgx_token none;
    return tokens || count ? tokens : &none;
}

CFGX_USE_RESULT
static inline uint32_t cfgx_check_or_none(const char *text, size_t text_length,
                                          struct cfgx_fault *fault) {
    struct cfgx_fault untold;
    return cfgx_check(cfgx_given_text(text, text_length), text_length,
                      fault ? fault : &untold);
}

CFGX_USE_RESULT
static inline uint32_t cfgx_explain_or_none(const char *text, size_t text_length, char *message,
                                            size_t room, size_t *needed,
                                            struct cfgx_fault *fault) {
    struct cfgx_fault untold;
    return cfgx_explain(cfgx_given_text(text, text_length), text_length,
                        cfgx_room_for_text(message, room), room, needed,
                        fault ? fault : &untold);
}

CFGX_USE_RESULT
static inline uint32_t cfgx_predicates_or_none(const char *text, size_t text_length,
                                               struct cfgx_predicate *predicates, size_t room,
                                               size_t *needed, struct cfgx_fault *fault) {
    struct cfgx_fault untold;
    return cfgx_predicates(cfgx_given_text(text, text_length), text_length,
                           cfgx_room_for_predicates(predicates, room), room, needed,
                           fault ? fault : &untold);
}

CFGX_USE_RESULT
static inline uint32_t cfgx_value_or_none(const char *text, size_t text_length,
                                          const uint8_t *answers, size_t answer_count,
                                          uint8_t *value, struct cfgx_fault *fault) {
    struct cfgx_fault untold;
    return cfgx_value(cfgx_given_text(text, text_length), text_length,
                      cfgx_given_answers(answers, answer_count), answer_count, value,
                      fault ? fault : &untold);
}

CFGX_USE_RESULT
static inline uint32_t cfgx_decide_or_none(const char *text, size_t text_length,
                                           const uint8_t *answers, size_t answer_count,
                                           uint8_t *fillings, size_t room, size_t *needed,
                                           uint8_t *value, struct cfgx_fault *fault) {
    struct cfgx_fault untold;
    return cfgx_decide(cfgx_given_text(text, text_length), text_length,
                       cfgx_given_answers(answers, answer_count), answer_count,
                       cfgx_room_for_values(fillings, room), room, needed, value,
                       fault ? fault : &untold);
}

CFGX_USE_RESULT
static inline uint32_t cfgx_answers_or_none(const char *text, size_t text_length, const char *facts,
                                            size_t facts_length, const size_t *fact_ends,
                                            size_t fact_count, uint8_t otherwise, uint8_t *answers,
                                            size_t room, size_t *needed,
                                            struct cfgx_fault *fault) {
    struct cfgx_fault untold;
    return cfgx_answers(cfgx_given_text(text, text_length), text_length,
                        cfgx_given_text(facts, facts_length), facts_length,
                        cfgx_given_ends(fact_ends, fact_count), fact_count, otherwise,
                        cfgx_room_for_values(answers, room), room, needed,
                        fault ? fault : &untold);
}

CFGX_USE_RESULT
static inline uint32_t cfgx_compile_or_none(const char *text, size_t text_length,
                                            struct cfgx_step *steps, size_t step_room,
                                            size_t *steps_needed, struct cfgx_predicate *predicates,
                                            size_t predicate_room, size_t *predicates_needed,
                                            struct cfgx_fault *fault) {
    struct cfgx_fault untold;
    return cfgx_compile(cfgx_given_text(text, text_length), text_length,
                        cfgx_room_for_steps(steps, step_room), step_room, steps_needed,
                        cfgx_room_for_predicates(predicates, predicate_room), predicate_room,
                        predicates_needed, fault ? fault : &untold);
}

CFGX_USE_RESULT
static inline uint32_t cfgx_apply_or_none(const struct cfgx_step *steps, size_t step_count,
                                          const uint8_t *answers, size_t answer_count,
                                          uint8_t *value) {
    return cfgx_apply(cfgx_given_steps(steps, step_count), step_count,
                      cfgx_given_answers(answers, answer_count), answer_count, value);
}

CFGX_USE_RESULT
static inline uint32_t cfgx_audit_or_none(const char *texts, size_t texts_length,
                                          const size_t *text_ends, size_t text_count,
                                          const char *facts, size_t facts_length,
                                          const size_t *fact_ends, size_t fact_count,
                                          const size_t *target_ends, size_t target_count,
                                          uint8_t otherwise, uint8_t *values, size_t room,
                                          size_t *needed, struct cfgx_fault *fault) {
    struct cfgx_fault untold;
    return cfgx_audit(cfgx_given_text(texts, texts_length), texts_length,
                      cfgx_given_ends(text_ends, text_count), text_count,
                      cfgx_given_text(facts, facts_length), facts_length,
                      cfgx_given_ends(fact_ends, fact_count), fact_count,
                      cfgx_given_ends(target_ends, target_count), target_count, otherwise,
                      cfgx_room_for_values(values, room), room, needed,
                      fault ? fault : &untold);
}

CFGX_USE_RESULT
static inline uint32_t cfgx_tokens_or_none(const char *text, size_t text_length,
                                           struct cfgx_token *tokens, size_t room, size_t *needed,
                                           size_t *offset, struct cfgx_fault *fault) {
    struct cfgx_fault untold;
    return cfgx_tokens(cfgx_given_text(text, text_length), text_length,
                       cfgx_room_for_tokens(tokens, room), room, needed, offset,
                       fault ? fault : &untold);
}

CFGX_USE_RESULT
static inline uint32_t cfgx_run_or_none(const char *words, size_t words_length,
                                        const size_t *word_ends, size_t word_count,
                                        const char *input, size_t input_length, char *output,
                                        size_t room, size_t *needed) {
    return cfgx_run(cfgx_given_text(words, words_length), words_length,
                    cfgx_given_ends(word_ends, word_count), word_count,
                    cfgx_given_text(input, input_length), input_length,
                    cfgx_room_for_text(output, room), room, needed);
}

#define cfgx_check cfgx_check_or_none
#define cfgx_explain cfgx_explain_or_none
#define cfgx_predicates cfgx_predicates_or_none
#define cfgx_value cfgx_value_or_none
#define cfgx_decide cfgx_decide_or_none
#define cfgx_answers cfgx_answers_or_none
#define cfgx_compile cfgx_compile_or_none
#define cfgx_apply cfgx_apply_or_none
#define cfgx_audit cfgx_audit_or_none
#define cfgx_tokens cfgx_tokens_or_none
#define cfgx_run cfgx_run_or_none

#ifdef __cplusplus
}
#endif

#endif
