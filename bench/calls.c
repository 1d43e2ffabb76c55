/* Calls the library a number of times, so that a counter of instructions can tell what a call
 * takes:
 *
 *     calls CALL TIMES CONDITIONS FACTS
 *
 * CONDITIONS has a condition on each line. FACTS has a fact on each line, and an empty line behind
 * those of each target. `compile-flag` compiles one flag; `value`, `decide`, `compile`,
 * `predicates`, `apply` and `tokens` take one short condition. `apply-real` evaluates the steps of
 * each condition of the file over what the facts of the first target answer. `run` evaluates each
 * condition of the file with these facts as flags, and `audit` evaluates all conditions on all
 * targets. */
#include <cfgx.h>
#include <stdio.h>
#include <stdlib.h>
#include <string.h>

#define CONDITION "all(unix, feature = \"x\")"
#define LENGTH (sizeof CONDITION - 1)
#define FLAG "unix"

/* A list of texts, and how many of them each of its groups ends with. */
struct list {
    char *bytes;
    size_t length;
    size_t *ends;
    size_t count;
    size_t *group_ends;
    size_t groups;
};

static const uint8_t ANSWERS[] = {CFGX_VALUE_TRUE, CFGX_VALUE_FALSE};

static void *memory(void *old, size_t size) {
    void *found = realloc(old, size);
    if (found == NULL) {
        fputs("calls: out of memory\n", stderr);
        exit(3);
    }
    return found;
}

static void require(int holds, const char *what) {
    if (!holds) {
        fprintf(stderr, "calls: %s\n", what);
        exit(1);
    }
}

/* Reads a file of lines. An empty line ends a group. */
static struct list lines_of(const char *path) {
    struct list list = {memory(NULL, 1), 0, memory(NULL, sizeof(size_t)), 0,
                        memory(NULL, sizeof(size_t)), 0};
    char line[4096];
    FILE *file = fopen(path, "r");
    require(file != NULL, "a file cannot be read");
    while (fgets(line, sizeof line, file) != NULL) {
        size_t length = strcspn(line, "\n");
        if (length == 0) {
            list.group_ends = memory(list.group_ends, (list.groups + 1) * sizeof(size_t));
            list.group_ends[list.groups++] = list.count;
        } else {
            list.bytes = memory(list.bytes, list.length + length);
            memcpy(list.bytes + list.length, line, length);
            list.length += length;
            list.ends = memory(list.ends, (list.count + 1) * sizeof(size_t));
            list.ends[list.count++] = list.length;
        }
    }
    fclose(file);
    return list;
}

static void free_list(struct list list) {
    free(list.bytes);
    free(list.ends);
    free(list.group_ends);
}

static void value(size_t times) {
    uint8_t found;
    while (times-- > 0)
        require(cfgx_value(CONDITION, LENGTH, ANSWERS, 2, &found, NULL) == CFGX_STATUS_DONE,
                "value");
}

static void decide(size_t times) {
    const uint8_t unknown[] = {CFGX_VALUE_TRUE, CFGX_VALUE_UNKNOWN};
    uint8_t found;
    uint8_t fillings[4];
    size_t needed;
    while (times-- > 0)
        require(cfgx_decide(CONDITION, LENGTH, unknown, 2, fillings, 4, &needed, &found, NULL)
                    == CFGX_STATUS_DONE, "decide");
}

static size_t compile(const char *text, size_t length, size_t times, struct cfgx_step *steps) {
    struct cfgx_predicate predicates[2];
    size_t step_count = 0;
    size_t predicate_count;
    while (times-- > 0)
        require(cfgx_compile(text, length, steps, 3, &step_count, predicates, 2,
                             &predicate_count, NULL) == CFGX_STATUS_DONE, "compile");
    return step_count;
}

static void predicates(size_t times) {
    struct cfgx_predicate found[2];
    size_t count;
    while (times-- > 0)
        require(cfgx_predicates(CONDITION, LENGTH, found, 2, &count, NULL) == CFGX_STATUS_DONE,
                "predicates");
}

static void apply(size_t times) {
    struct cfgx_step steps[3];
    size_t count = compile(CONDITION, LENGTH, 1, steps);
    uint8_t found;
    while (times-- > 0)
        require(cfgx_apply(steps, count, ANSWERS, 2, &found) == CFGX_STATUS_DONE, "apply");
}

/* Evaluates the steps of a text over what the facts of the first target answer. */
static void apply_one(size_t times, const char *text, size_t length, struct list facts) {
    size_t flags = facts.group_ends[0];
    size_t count;
    size_t asked;
    uint8_t found;
    require(cfgx_compile(text, length, NULL, 0, &count, NULL, 0, &asked, NULL)
                == CFGX_STATUS_DONE, "compile");
    struct cfgx_step *steps = memory(NULL, count * sizeof *steps);
    struct cfgx_predicate *predicates = memory(NULL, (asked + 1) * sizeof *predicates);
    uint8_t *answers = memory(NULL, asked + 1);
    require(cfgx_compile(text, length, steps, count, &count, predicates, asked, &asked, NULL)
                == CFGX_STATUS_DONE, "compile");
    require(cfgx_answers(text, length, facts.bytes, facts.ends[flags - 1], facts.ends, flags, 0,
                         answers, asked, &asked, NULL) == CFGX_STATUS_DONE, "answers");
    while (times-- > 0)
        require(cfgx_apply(steps, count, answers, asked, &found) == CFGX_STATUS_DONE, "apply");
    free(steps);
    free(predicates);
    free(answers);
}

static void apply_real(size_t times, struct list conditions, struct list facts) {
    for (size_t i = 0; i < conditions.count; i++) {
        size_t begin = i == 0 ? 0 : conditions.ends[i - 1];
        apply_one(times, conditions.bytes + begin, conditions.ends[i] - begin, facts);
    }
}

static void tokens(size_t times) {
    struct cfgx_token found[8];
    size_t count;
    size_t offset;
    while (times-- > 0)
        require(cfgx_tokens(CONDITION, LENGTH, found, 8, &count, &offset, NULL)
                    == CFGX_STATUS_DONE, "tokens");
}

/* Evaluates the condition between two ends by the program's `eval`, with the facts as flags. */
static void run_one(struct list conditions, size_t begin, size_t end, struct list facts) {
    size_t flags = facts.group_ends[0];
    size_t *ends = memory(NULL, (flags + 2) * sizeof(size_t));
    size_t length = 4 + (end - begin) + facts.ends[flags - 1];
    char *words = memory(NULL, length);
    char output[64];
    size_t needed;
    memcpy(words, "eval", 4);
    memcpy(words + 4, conditions.bytes + begin, end - begin);
    memcpy(words + 4 + (end - begin), facts.bytes, facts.ends[flags - 1]);
    ends[0] = 4;
    ends[1] = 4 + (end - begin);
    for (size_t i = 0; i < flags; i++)
        ends[2 + i] = ends[1] + facts.ends[i];
    require(cfgx_run(words, length, ends, flags + 2, NULL, 0, output, sizeof output, &needed)
                == CFGX_STATUS_DONE, "run");
    free(words);
    free(ends);
}

static void run(size_t times, struct list conditions, struct list facts) {
    while (times-- > 0)
        for (size_t i = 0; i < conditions.count; i++)
            run_one(conditions, i == 0 ? 0 : conditions.ends[i - 1], conditions.ends[i], facts);
}

static void audit(size_t times, struct list conditions, struct list facts) {
    size_t room = conditions.count * facts.groups;
    uint8_t *values = memory(NULL, room);
    size_t needed;
    while (times-- > 0)
        require(cfgx_audit(conditions.bytes, conditions.length, conditions.ends, conditions.count,
                           facts.bytes, facts.length, facts.ends, facts.count, facts.group_ends,
                           facts.groups, 1, values, room, &needed, NULL)
                    == CFGX_STATUS_DONE, "audit");
    free(values);
}

int main(int count, char **words) {
    struct cfgx_step steps[3];
    require(count == 5, "calls CALL TIMES CONDITIONS FACTS");
    size_t times = strtoul(words[2], NULL, 10);
    struct list conditions = lines_of(words[3]);
    struct list facts = lines_of(words[4]);
    if (strcmp(words[1], "value") == 0)
        value(times);
    else if (strcmp(words[1], "decide") == 0)
        decide(times);
    else if (strcmp(words[1], "compile") == 0)
        compile(CONDITION, LENGTH, times, steps);
    else if (strcmp(words[1], "compile-flag") == 0)
        compile(FLAG, sizeof FLAG - 1, times, steps);
    else if (strcmp(words[1], "predicates") == 0)
        predicates(times);
    else if (strcmp(words[1], "apply") == 0)
        apply(times);
    else if (strcmp(words[1], "apply-real") == 0)
        apply_real(times, conditions, facts);
    else if (strcmp(words[1], "tokens") == 0)
        tokens(times);
    else if (strcmp(words[1], "run") == 0)
        run(times, conditions, facts);
    else if (strcmp(words[1], "audit") == 0)
        audit(times, conditions, facts);
    else
        require(0, "no such call");
    free_list(conditions);
    free_list(facts);
    return 0;
}
