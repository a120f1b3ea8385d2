/* Searches a sheet for its best plan from C: prints the plan's true variables, what is known of the least cost, and whether the
 * search has ended. Exits with 0 for an answer, 1 for a refusal, and 2 where it cannot tell.
 *
 * Build, at the repository's root, after `tools/staticlib`:
 *
 *     cc -std=c11 -O2 -Iinclude -o search bindings/c/search.c target/staticlib/libexports.a
 */
#include <errno.h>
#include <inttypes.h>
#include <stdio.h>
#include <stdlib.h>

#include "file.h"
#include "plan.h"

/* Reads a budget: digits alone. Returns 0 where it is something else. */
static int read_budget(const char *word, uint64_t *budget)
{
    char *end;
    errno = 0;
    *budget = strtoull(word, &end, 10);
    return word[0] >= '0' && word[0] <= '9' && *end == '\0' && errno == 0;
}

/* Returns a negative number where that cannot be written. */
static int print_plan(const uint64_t answer[7])
{
    int written;
    if (answer[PLAN_FOUND] == 0)
        return printf("no plan\n");
    written = printf("assign");
    for (int variable = 1; variable <= 64 && written >= 0; variable++)
        if (answer[PLAN_PLAN] >> (variable - 1) & 1)
            written = printf(" %d", variable);
    return written < 0 ? written : printf("\n");
}

/* No plan costs less than this, whether the search has ended or not. */
static int print_floor(const uint64_t answer[7])
{
    if (answer[PLAN_FLOOR] == PLAN_NONE)
        return printf("floor none\n");
    return printf("floor %" PRIu64 "\n", answer[PLAN_FLOOR]);
}

/* Returns 0 where the lines cannot be written. */
static int print_answer(const uint64_t answer[7])
{
    const char *ended = answer[PLAN_ENDED] != 0 ? "ended" : "not ended";
    if (answer[PLAN_NUMBER] != 0)
        return printf("refused %" PRIu64 " at %" PRIu64 "\n", answer[PLAN_NUMBER], answer[PLAN_PLACE]) >= 0;
    return print_plan(answer) >= 0 && print_floor(answer) >= 0 &&
           printf("%s after %" PRIu64 " choices\n", ended, answer[PLAN_CHOICES]) >= 0;
}

int main(int count, char **words)
{
    struct file sheet = {NULL, 0};
    uint64_t budget;
    int status = 2;
    if (count != 3 || !read_budget(words[2], &budget)) {
        fprintf(stderr, "usage: search SHEET BUDGET\n");
        return status;
    }
    if (read_file(words[1], &sheet)) {
        uint64_t answer[7];
        plan_search(sheet.bytes, sheet.len, budget, answer);
        if (print_answer(answer) && fflush(stdout) == 0)
            status = answer[PLAN_NUMBER] == 0 ? 0 : 1;
    }
    free(sheet.bytes);
    return status;
}
