/* Tries what planner.h says: every constant by a smallest set, the slices after each call, NULL with length 0, the way out of
   PLANNER_SHORT_OUTPUT. Prints each claim that does not hold; status 1 if there is one. */
#include "planner.h"
#include <stdio.h>
#include <stdlib.h>
#include <string.h>

enum { OUT = 64, NOISE = 0x5A5A5A5A };

static int32_t out[OUT], work[PLANNER_WORK_WORDS], longest[PLANNER_SET_WORDS + 1];
static int failures;

static void claim(int holds, const char *what, long number) {
    if (holds) return;
    printf("does not hold: %s (%ld)\n", what, number);
    failures++;
}

static size_t zeros(const int32_t *words, size_t from, size_t count) {
    while (from < count && words[from] == 0) from++;
    return from == count;
}

/* A call with noise in both slices. Nothing is left dirty: behind the answer, after a refusal or a contradiction, in work. */
static int64_t call(const int32_t *set, size_t words, size_t out_len, size_t work_len) {
    for (size_t i = 0; i < OUT; i++) out[i] = NOISE;
    for (size_t i = 0; i < PLANNER_WORK_WORDS; i++) work[i] = NOISE;
    int64_t n = compile_set(set, words, out, out_len, work, work_len);
    claim(zeros(out, n > 0 ? (size_t)n : 0, out_len), "out is zero behind the answer", (long)n);
    claim(out_len == OUT || out[out_len] == NOISE, "nothing is written behind out", (long)n);
    claim(zeros(work, 0, work_len), "work is zero after the call", (long)n);
    claim(work_len == PLANNER_WORK_WORDS || work[work_len] == NOISE, "nothing is written behind work", (long)n);
    return n;
}

#define GIVES(number, ...)                                                                        \
    do {                                                                                          \
        const int32_t s[] = {__VA_ARGS__};                                                        \
        claim(call(s, sizeof s / sizeof *s, OUT, PLANNER_WORK_WORDS) == (number), #number, number); \
    } while (0)

static void numbers(void) {
    GIVES(3, 0, 0, 0);
    GIVES(PLANNER_CONTRADICTION, 0, 0, 1, 1, 10, 0);
    GIVES(PLANNER_SET_ENDS, 0, 0);
    GIVES(PLANNER_SET_ENDS, 0, 0, 0, 7);
    GIVES(PLANNER_OUT_OF_RANGE, 513, 0, 0);
    GIVES(PLANNER_UNKNOWN_CODE, 0, 0, 1, 9);
    GIVES(PLANNER_UNDECLARED, 1, 0, 1, 1, 11, 1);
    GIVES(PLANNER_BAD_DOMAIN, 0, 1, 0, 1, 0, 0);
    GIVES(PLANNER_TOO_HEAVY, 0, 0, 1, 1, 18, 0, 20, 1073741823, 20, 1);
    GIVES(PLANNER_WIDE_COLUMN, 0, 1, 0, 0, 4096, 1, 2, 1, 0, 21, 0);
    GIVES(PLANNER_UNKNOWN_CODE, 0, 0, 1, 4, 0);
    GIVES(3, 0, 0, 1, 3, 0);
    GIVES(PLANNER_OUT_OF_RANGE, 0, 0, 1, 3, -1);
    GIVES(PLANNER_TOO_HEAVY, 0, 0, 1, 3, 2, 20, 1073741823, 20, 1);
    GIVES(8, 0, 0, 1, 3, 2, 20, 1073741823, 20, 0);
    GIVES(4, 0, 1, 0, 0, 4096, 1, 3, 1, 21, 0);
    const int32_t p6[] = {0, 0, 0};
    claim(call(p6, 3, OUT, PLANNER_WORK_WORDS - 1) == PLANNER_SHORT_WORK, "PLANNER_SHORT_WORK", 0);
    claim(call(p6, 3, 2, PLANNER_WORK_WORDS) == PLANNER_SHORT_OUTPUT, "PLANNER_SHORT_OUTPUT", 0);
    claim(call(p6, 3, 3, PLANNER_WORK_WORDS) == 3, "an output of just the answer's length", 0);
    claim(call(longest, PLANNER_SET_WORDS + 1, OUT, PLANNER_WORK_WORDS) == PLANNER_LONG_SET, "PLANNER_LONG_SET", 0);
}

/* The answer's words with these choices, noise in both slices. */
static void answers(uint32_t choices, const int32_t *set, size_t words, const int32_t *expected, size_t count, const char *what) {
    for (size_t i = 0; i < OUT; i++) out[i] = NOISE;
    for (size_t i = 0; i < PLANNER_WORK_WORDS; i++) work[i] = NOISE;
    int64_t n = compile_set_with(set, words, out, OUT, work, PLANNER_WORK_WORDS, choices);
    claim(n == (int64_t)count && !memcmp(out, expected, count * sizeof *out), what, (long)n);
    claim(zeros(out, count, OUT), "out is zero behind the answer", (long)n);
    claim(zeros(work, 0, PLANNER_WORK_WORDS), "work is zero after compile_set_with", (long)n);
}

#define COUNTED(words) words, sizeof words / sizeof *words

static void choices(void) {
    const int32_t xor_tie[] = {2, 0, 1, 1, 15, 11, 0, 11, 1};
    const int32_t plain[] = {2, 2, 1, 2, 2, 0, 2, 2, 1, 2, 0, 2, -1, -2, 0};
    const int32_t merged[] = {2, 2, 1, -1, 1, 0, 2, 2, 1, -1, 0, 2, -1, 1, 0};
    answers(PLANNER_MERGE, COUNTED(xor_tie), COUNTED(merged), "a negated tie shows negative");
    answers(~(uint32_t)0, COUNTED(xor_tie), COUNTED(merged), "every other bit beside PLANNER_MERGE");
    answers(0, COUNTED(xor_tie), COUNTED(plain), "no choice");
    answers(~(uint32_t)PLANNER_MERGE, COUNTED(xor_tie), COUNTED(plain), "every other bit alone");
    const int32_t iff_self[] = {1, 0, 1, 1, 16, 11, 0, 11, 0}, iff_stays[] = {2, 1, 1, 0, 2, 2, 1, -1, 0, 2, -1, 1, 0};
    answers(PLANNER_MERGE, COUNTED(iff_self), COUNTED(iff_stays), "a variable tied to itself is passed over");
    const int32_t xor_self[] = {1, 0, 1, 1, 15, 11, 0, 11, 0}, xor_stays[] = {2, 1, 1, 0, 2, 2, 1, 1, 0, 2, -1, -1, 0};
    answers(PLANNER_MERGE, COUNTED(xor_self), COUNTED(xor_stays), "a variable tied to its negation is passed over");
    const int32_t classes[] = {4, 0, 3, 1, 16, 11, 0, 11, 1, 1, 16, 11, 2, 11, 3, 1, 16, 11, 1, 11, 2};
    const int32_t joined[] = {2, 2, 2, 2, 1, 1, 2, 2, 2, 0, 6, 2, 1, -1, 0, 2, -1, 1, 0, 2, 2, -2, 0, 2, -2, 2, 0, 2, 1, -2, 0, 2, -1, 2, 0};
    answers(PLANNER_MERGE, COUNTED(classes), COUNTED(joined), "two classes tied keep their numbers");
    const size_t all = PLANNER_WORK_WORDS;
    claim(compile_set_with(COUNTED(xor_tie), out, 14, work, all, PLANNER_MERGE) == PLANNER_SHORT_OUTPUT && zeros(out, 0, 14), "one word short, merged", 14);
    claim(compile_set_with(NULL, 0, NULL, 0, NULL, 0, PLANNER_MERGE) == PLANNER_SHORT_WORK, "all three NULL, merged", 0);
}

/* AllDifferent: a clause for the pair, then one for each value where the values are used up. */
static void different(void) {
    const int32_t used_up[] = {0, 2, 0, 0, 1, 1, 2, 0, 1, 1, 3, 2, 21, 0, 21, 1};
    const int32_t clauses[] = {1, 2, 0, 2, 0, 0, 1, 2, 0, 0, 1, 2, 3, 0, 1, 1, 0, 2, 0, 1, 1, -1,
                               0, 2, 0, 0, 1, 0, 1, 0, 0, 1, 1, 1, 0, 2, 0, -1, 1, 0, 1, 0, -1, 1, 1, 1};
    answers(0, COUNTED(used_up), COUNTED(clauses), "values used up by two variables");
    answers(PLANNER_MERGE, COUNTED(used_up), COUNTED(clauses), "AllDifferent with merging");
    const int32_t three_values[] = {0, 2, 0, 0, 2, 0, 0, 2, 1, 3, 2, 21, 0, 21, 1};
    const int32_t pair[] = {1, 2, 0, 2, 0, 0, 2, 3, 0, 0, 2, 3, 1, 0, 1, 1, 0, 2, 0, 1, 1, -1};
    answers(0, COUNTED(three_values), COUNTED(pair), "two variables of three values");
    const int32_t apart[] = {0, 1}, equal[] = {1, 1}, outside[] = {2, 0};
    const size_t all = PLANNER_WORK_WORDS;
    claim(check_roster(COUNTED(used_up), COUNTED(apart), work, all) == 0, "different values", 0);
    claim(check_roster(COUNTED(used_up), COUNTED(equal), work, all) == 1, "equal values", 1);
    claim(check_roster(COUNTED(used_up), COUNTED(outside), work, all) == PLANNER_OUTSIDE_DOMAIN, "PLANNER_OUTSIDE_DOMAIN", 2);
}

/* If: a record of kind 1 follows its literal; a condition is a Boolean expression; a known one picks its branch; a column's span. */
static void ifs(void) {
    const int32_t two_values[] = {1, 1, 0, 0, 9, 1, 1, 18, 0, 23, 11, 0, 20, 2, 20, 7, 21, 0};
    const int32_t record[] = {2, 1, 2, 1, 2, 1, -1, 2, 7, 0, 0, 9, 10, 1, 0, 1, 0, 0, 2, 0, 1, 1, -1};
    answers(0, COUNTED(two_values), COUNTED(record), "an If of two constants");
    answers(PLANNER_MERGE, COUNTED(two_values), COUNTED(record), "an If with merging");
    GIVES(8, 0, 0, 1, 1, 18, 0, 23, 10, 1, 20, 1, 20, 2, 20, 1);
    GIVES(PLANNER_UNKNOWN_CODE, 1, 0, 1, 1, 18, 0, 23, 20, 0, 20, 1, 20, 2, 20, 0);
    GIVES(PLANNER_WIDE_COLUMN, 1, 0, 1, 2, 1, 0, 23, 11, 0, 20, 0, 20, 4096);
    const int32_t yes[] = {1, 2}, no[] = {0, 2};
    claim(check_roster(COUNTED(two_values), COUNTED(yes), work, PLANNER_WORK_WORDS) == 0, "the first branch", 0);
    claim(check_roster(COUNTED(two_values), COUNTED(no), work, PLANNER_WORK_WORDS) == 1, "not the second branch", 1);
}

/* A roster of the set "v0 or v1; x is not 1", x among 0, 1 and 3. */
static int64_t check(size_t count, int32_t v0, int32_t v1, int32_t x, size_t work_len) {
    const int32_t set[] = {2, 1, 1, 3, 0, 1, 3, 2, 1, 13, 2, 11, 0, 11, 1, 1, 18, 1, 21, 0, 20, 1};
    const int32_t values[] = {v0, v1, x, 0};
    for (size_t i = 0; i < PLANNER_WORK_WORDS; i++) work[i] = NOISE;
    int64_t n = check_roster(set, sizeof set / sizeof *set, values, count, work, work_len);
    claim(zeros(work, 0, work_len), "work is zero after check_roster", (long)n);
    claim(work_len == PLANNER_WORK_WORDS || work[work_len] == NOISE, "nothing is written behind work", (long)n);
    return n;
}

static void rosters(void) {
    const size_t all = PLANNER_WORK_WORDS;
    claim(check(3, 1, 0, 3, all) == 0, "a roster that satisfies", 0);
    claim(check(3, 0, 0, 1, all) == 1, "the first broken statement", 1);
    claim(check(3, 0, 1, 1, all) == 2, "the second statement broken", 2);
    claim(check(2, 2, 0, 0, all) == PLANNER_OTHER_COUNT, "PLANNER_OTHER_COUNT", 2);
    claim(check(4, 1, 0, 0, all) == PLANNER_OTHER_COUNT, "PLANNER_OTHER_COUNT", 4);
    claim(check(3, 2, 0, 0, all) == PLANNER_OUTSIDE_DOMAIN, "PLANNER_OUTSIDE_DOMAIN", 2);
    claim(check(3, 1, 0, 2, all) == PLANNER_OUTSIDE_DOMAIN, "a gap of an enumerated domain", 2);
    claim(check(3, 1, 0, 3, all - 1) == PLANNER_SHORT_WORK, "PLANNER_SHORT_WORK", 1);
    const int32_t p6[] = {0, 0, 0};
    claim(check_roster(p6, 3, NULL, 0, work, all) == 0, "no variables, no values, NULL", 0);
}

/* The sheet of "v0 or not v1", one line of 81 bytes, in a slice of so many. */
static int64_t paper(size_t sheet_len, size_t out_len, size_t *bytes, size_t lent) {
    const int32_t set[] = {2, 0, 1, 1, 13, 2, 11, 0, 14, 11, 1};
    static uint8_t sheet[82];
    memset(sheet, '#', sizeof sheet);
    int64_t n = compile_sheet(set, sizeof set / sizeof *set, out, out_len, work, PLANNER_WORK_WORDS, sheet, sheet_len, bytes, lent);
    if (n > 0) {
        claim(!memcmp(sheet, "       1  1 -2 ", 15) && sheet[80] == '\n', "the sheet's line", (long)n);
        claim(sheet_len < 82 || sheet[81] == 0, "the sheet is zero behind its lines", (long)n);
    } else {
        for (size_t i = 0; i < sheet_len; i++) claim(sheet[i] == 0, "the sheet is zero after a refusal", (long)i);
    }
    claim(sheet_len == 82 || sheet[sheet_len] == '#', "nothing is written behind sheet", (long)n);
    return n;
}

static void sheets(void) {
    size_t bytes[2] = {7, 7};
    claim(paper(81, OUT, bytes, 2) == 11 && bytes[0] == 81 && bytes[1] == 7, "a sheet of 81 bytes", (long)bytes[0]);
    claim(paper(82, OUT, bytes, 1) == 11 && bytes[0] == 81, "a sheet in a longer slice", (long)bytes[0]);
    claim(paper(80, OUT, bytes, 1) == PLANNER_SHORT_SHEET && bytes[0] == 0, "PLANNER_SHORT_SHEET", (long)bytes[0]);
    claim(paper(0, 2, bytes, 1) == PLANNER_SHORT_OUTPUT, "PLANNER_SHORT_OUTPUT before PLANNER_SHORT_SHEET", 0);
    claim(paper(81, OUT, NULL, 0) == 11, "no word for the bytes", 0);
}

/* Sets that want some writing: 65 levels; 65 variables in one comparison, and in one pair of an AllDifferent; alone they are no pair. */
static void deep_and_many(void) {
    int32_t set[400] = {1, 0, 1, 1};
    size_t n = 4;
    for (int level = 1; level < 65; level++) set[n++] = 14;
    set[n++] = 11, set[n++] = 0;
    claim(call(set, n, OUT, PLANNER_WORK_WORDS) == PLANNER_TOO_DEEP, "PLANNER_TOO_DEEP", 0);
    n = 0;
    set[n++] = 0, set[n++] = 65;
    for (int i = 0; i < 65; i++) set[n++] = 0, set[n++] = 0, set[n++] = 1;
    set[n++] = 1, set[n++] = 1, set[n++] = 18, set[n++] = 0, set[n++] = 22, set[n++] = 65;
    for (int i = 0; i < 65; i++) set[n++] = 1, set[n++] = 21, set[n++] = i;
    set[n++] = 20, set[n++] = 0;
    claim(n <= 400, "the set has room", (long)n);
    claim(call(set, n, OUT, PLANNER_WORK_WORDS) == PLANNER_MANY_VARIABLES, "PLANNER_MANY_VARIABLES", 0);
    const size_t rule = 2 + 65 * 3 + 1; /* 1, 18, 0, the sum, 20, 0: the same sum and 0 as the expressions of statement 3 */
    set[rule] = 3, set[rule + 1] = 2;
    memmove(set + rule + 2, set + rule + 3, (n - rule - 3) * sizeof *set);
    claim(call(set, n - 1, OUT, PLANNER_WORK_WORDS) == PLANNER_MANY_VARIABLES, "PLANNER_MANY_VARIABLES of a pair", 0);
    set[rule + 1] = 1;
    claim(call(set, n - 3, OUT, PLANNER_WORK_WORDS) == PLANNER_SHORT_OUTPUT, "65 variables in one expression", 0);
}

static void null_with_length_0(void) {
    const int32_t p6[] = {0, 0, 0}, false_rule[] = {0, 0, 1, 1, 10, 0};
    claim(compile_set(NULL, 0, out, OUT, work, PLANNER_WORK_WORDS) == PLANNER_SET_ENDS, "a set that is NULL", 0);
    claim(compile_set(p6, 3, NULL, 0, work, PLANNER_WORK_WORDS) == PLANNER_SHORT_OUTPUT, "an output that is NULL", 0);
    claim(compile_set(false_rule, 6, NULL, 0, work, PLANNER_WORK_WORDS) == PLANNER_CONTRADICTION, "a test without output", 0);
    claim(compile_set(p6, 3, out, OUT, NULL, 0) == PLANNER_SHORT_WORK, "a work slice that is NULL", 0);
    claim(compile_set(NULL, 0, NULL, 0, NULL, 0) == PLANNER_SHORT_WORK, "all three NULL", 0);
}

/* n disjunctions of two conjunctions: an answer of some 31 words each, found by doubling the output. */
static void growing(void) {
    static int32_t set[PLANNER_SET_WORDS];
    size_t n = 0, words = 16;
    int64_t answer;
    set[n++] = 4, set[n++] = 0, set[n++] = 250;
    for (int i = 0; i < 250; i++) {
        const int32_t rule[] = {1, 13, 2, 12, 2, 11, 0, 11, 1, 12, 2, 11, 2, 11, 3};
        memcpy(set + n, rule, sizeof rule);
        n += sizeof rule / sizeof *rule;
    }
    for (;; words *= 2) {
        int32_t *grown = calloc(words, sizeof *grown);
        if (!grown) exit(2);
        answer = compile_set(set, n, grown, words, work, PLANNER_WORK_WORDS);
        free(grown);
        if (answer != PLANNER_SHORT_OUTPUT || words >= PLANNER_ANSWER_WORDS) break;
    }
    claim(answer > (int64_t)words / 2 && answer <= (int64_t)words, "doubling the output ends with the answer", (long)answer);
}

int main(void) {
    numbers();
    choices();
    different();
    ifs();
    rosters();
    sheets();
    deep_and_many();
    null_with_length_0();
    growing();
    puts(failures ? "planner.h does not say what the library does" : "planner.h: every claim tried holds");
    return failures != 0;
}
