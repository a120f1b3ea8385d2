/* Turns variables of a sheet from C, beginning with all of them false: prints how many clauses are broken then, and the number of
 * each. Exits with 0 for that answer, 1 for a refusal, and 2 where it cannot tell.
 *
 * Build, at the repository's root, after `tools/staticlib`:
 *
 *     cc -std=c11 -O2 -Iinclude -o turn bindings/c/turn.c target/staticlib/libexports.a
 */
#include <errno.h>
#include <inttypes.h>
#include <stdio.h>
#include <stdlib.h>

#include "file.h"
#include "plan.h"

/* Reads turns: digits alone, of numbers of 16 bits. Whether each is a variable is left to the call. Returns 0 where a word is
 * something else. */
static int read_turns(char **words, size_t count, uint16_t *turns)
{
    for (size_t place = 0; place < count; place++) {
        char *end;
        unsigned long number;
        errno = 0;
        number = strtoul(words[place], &end, 10);
        if (words[place][0] < '0' || words[place][0] > '9' || *end != '\0' || errno != 0 || number > UINT16_MAX)
            return 0;
        turns[place] = (uint16_t)number;
    }
    return 1;
}

/* Returns a negative number where that cannot be written. A sheet that is not refused has its clause count in these bytes. */
static int print_broken(const struct file *sheet, const uint8_t *counts, uint64_t total)
{
    size_t clause_count = sheet->bytes[2] + 256u * sheet->bytes[3];
    int written = printf("broken %" PRIu64 "\n", total);
    for (size_t clause = 1; clause <= clause_count && written >= 0; clause++)
        if (counts[2 * clause - 2] == 0 && counts[2 * clause - 1] == 0)
            written = printf("%zu\n", clause);
    return written;
}

/* What the program exits with once the call has answered. */
static int finish(const struct file *sheet, const uint64_t answer[3], const uint8_t *counts)
{
    int told;
    if (answer[PLAN_NUMBER] == 0)
        told = print_broken(sheet, counts, answer[PLAN_BROKEN]);
    else
        told = printf("refused %" PRIu64 " at %" PRIu64 "\n", answer[PLAN_NUMBER], answer[PLAN_PLACE]);
    if (told < 0 || fflush(stdout) != 0)
        return 2;
    return answer[PLAN_NUMBER] == 0 ? 0 : 1;
}

/* So many bytes of 0, and never NULL for none. */
static uint8_t *zeros(size_t len)
{
    return calloc(len > 0 ? len : 1, 1);
}

/* Lends an assignment and counts as long as the sheet, and an index twice as long, which are always enough. */
static int turn(const struct file *sheet, const uint16_t *turns, size_t count)
{
    size_t len = sheet->len;
    uint8_t *assignment = zeros(len), *index = zeros(2 * len), *counts = zeros(len);
    uint64_t answer[3];
    int status = 2;
    if (assignment != NULL && index != NULL && counts != NULL) {
        plan_turn(sheet->bytes, len, assignment, len, turns, count, index, 2 * len, counts, len, answer);
        status = finish(sheet, answer, counts);
    } else {
        fprintf(stderr, "no memory to turn in\n");
    }
    free(assignment);
    free(index);
    free(counts);
    return status;
}

int main(int count, char **words)
{
    struct file sheet = {NULL, 0};
    size_t turn_count = count > 2 ? (size_t)count - 2 : 0;
    uint16_t *turns = calloc(turn_count + 1, sizeof *turns);
    int status = 2;
    if (turns == NULL)
        fprintf(stderr, "no memory for the turns\n");
    else if (count < 2 || !read_turns(words + 2, turn_count, turns))
        fprintf(stderr, "usage: turn SHEET VARIABLE..\n");
    else if (read_file(words[1], &sheet))
        status = turn(&sheet, turns, turn_count);
    free(turns);
    free(sheet.bytes);
    return status;
}
