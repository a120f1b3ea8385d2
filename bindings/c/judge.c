/* Judges a record from C: prints the answer's line; exits with 0 for an acceptance, which is `least` or `none`, 1 for a refusal,
 * 2 where it cannot tell, and 3 for `within`: a plan with a gap, neither accepted nor refused.
 *
 * Build, at the repository's root, after `tools/staticlib`:
 *
 *     cc -std=c11 -O2 -Iinclude -o judge bindings/c/judge.c target/staticlib/libexports.a
 */
#include <inttypes.h>
#include <stdio.h>
#include <stdlib.h>

#include "file.h"
#include "plan.h"

/* What the program exits with. The gap is looked at too: that the number is 0 says only that nothing is refused. */
static int exit_code(const uint64_t answer[6])
{
    if (answer[PLAN_NUMBER] != 0)
        return 1;
    return answer[PLAN_GAP] == 0 ? 0 : 3;
}

/* Returns 0 where the line cannot be written. */
static int print_line(const uint64_t answer[6])
{
    int written;
    if (answer[PLAN_NUMBER] != 0)
        written = printf("refused %" PRIu64 " at %" PRIu64 "\n", answer[PLAN_NUMBER], answer[PLAN_PLACE]);
    else if (answer[PLAN_GAP] != 0)
        written = printf("within %" PRIu64 " cost %" PRIu64 " open %" PRIu64 " steps %" PRIu64 "\n", answer[PLAN_GAP],
                         answer[PLAN_COST], answer[PLAN_OPEN_COUNT], answer[PLAN_STEP_COUNT]);
    else if (answer[PLAN_COST] == PLAN_NONE)
        written = printf("none open 0 steps %" PRIu64 "\n", answer[PLAN_STEP_COUNT]);
    else
        written = printf("least %" PRIu64 " open %" PRIu64 " steps %" PRIu64 "\n", answer[PLAN_COST],
                         answer[PLAN_OPEN_COUNT], answer[PLAN_STEP_COUNT]);
    return written >= 0 && fflush(stdout) == 0;
}

int main(int count, char **words)
{
    struct file sheet = {NULL, 0}, record = {NULL, 0};
    int status = 2;
    if (count != 3) {
        fprintf(stderr, "usage: judge SHEET RECORD\n");
        return status;
    }
    if (read_file(words[1], &sheet) && read_file(words[2], &record)) {
        uint64_t answer[6];
        plan_judge(sheet.bytes, sheet.len, record.bytes, record.len, answer);
        if (print_line(answer))
            status = exit_code(answer);
    }
    free(sheet.bytes);
    free(record.bytes);
    return status;
}
