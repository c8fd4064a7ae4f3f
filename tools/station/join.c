/* Joins the rule v0 with the rules "not v0" and "v0", prints the joined words, then each joined statement's set, start and length. */
#include "planner.h"
#include <stdio.h>

static int32_t buffer[4096], place[3], work[16384];

int main(void) {
    const int32_t first[] = {1, 0, 1, 1, 11, 0};
    const int32_t second[] = {1, 0, 2, 1, 14, 11, 0, 1, 11, 0};
    int64_t n = join_sets(first, 6, second, 10, buffer, 4096, work, 16384);
    if (n < 0) {
        printf("refused %d\n", (int)-n);
        return 1;
    }
    for (int64_t i = 0; i < n; i++) printf("%d%c", buffer[i], i + 1 < n ? ' ' : ';');
    for (size_t k = 1; find_statement(first, 6, second, 10, place, 3, work, 16384, k) != 0; k++)
        printf(" %d:%d+%d", place[0], place[1], place[2]);
    putchar('\n');
    return 0;
}
