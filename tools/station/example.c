/* Compiles one rule over three Booleans, v0 <=> (v1 and v2), and prints the answer's words. */
#include "planner.h"
#include <stdio.h>

static int32_t out[64], work[PLANNER_WORK_WORDS];

int main(void) {
    const int32_t set[] = {3, 0, 1, 1, 16, 11, 0, 12, 2, 11, 1, 11, 2};
    int64_t n = compile_set(set, sizeof set / sizeof set[0], out, 64, work, PLANNER_WORK_WORDS);
    if (n == PLANNER_CONTRADICTION) {
        puts("contradiction");
        return 1;
    }
    if (n < 0) {
        printf("refused %d\n", (int)-n);
        return 1;
    }
    for (int64_t i = 0; i < n; i++) printf("%d%c", out[i], i + 1 < n ? ' ' : '\n');
    return 0;
}
