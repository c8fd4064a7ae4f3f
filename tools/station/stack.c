/* How much stack a call takes: paints a thread's stack, calls compile_set on it, then compile_set_with, and looks how far the paint is gone.
   stack [SETS] [SEED]: nested expressions of 64 levels, SETS random ones beside the regular ones. Prints the most that was seen.
   An empty thread's own use is taken off. Status 1 if LIMIT is passed, the figure that planner.h tells stations to lend. */
#define _DEFAULT_SOURCE
#include "planner.h"
#include <pthread.h>
#include <stdio.h>
#include <stdlib.h>
#include <string.h>
#include <sys/mman.h>

enum { STACK = 1 << 20, LIMIT = 512 << 10, PAINT = 0xA5, OUT = 1 << 20, LEVELS = 64 };
enum { VAR = 11, AND, OR, NOT, XOR, IFF, IMP, CMP, CONSTANT = 20, INTEGER, SUM, IF };

static unsigned char *stack;
static int32_t set[PLANNER_SET_WORDS], out[OUT], work[PLANNER_WORK_WORDS];
static size_t words;
static int64_t answer;

static void put(int32_t word) {
    if (words < PLANNER_SET_WORDS) set[words] = word;
    words++;
}

static void *call(void *nothing) {
    answer = compile_set(set, words, out, OUT, work, PLANNER_WORK_WORDS);
    return nothing;
}

static void *merge(void *nothing) {
    answer = compile_set_with(set, words, out, OUT, work, PLANNER_WORK_WORDS, PLANNER_MERGE);
    return nothing;
}

static void *rest(void *nothing) { return nothing; }

/* Bytes of stack that a thread running f has touched. */
static size_t used_by(void *(*f)(void *)) {
    pthread_attr_t attributes;
    pthread_t thread;
    memset(stack, PAINT, STACK);
    pthread_attr_init(&attributes);
    if (pthread_attr_setstack(&attributes, stack, STACK) || pthread_create(&thread, &attributes, f, NULL)) {
        puts("no thread");
        exit(2);
    }
    pthread_join(thread, NULL);
    pthread_attr_destroy(&attributes);
    size_t clean = 0;
    while (clean < STACK && stack[clean] == PAINT) clean++;
    return STACK - clean;
}

/* A form of nesting: which operator at each level, and whether the nested part comes first. */
struct shape { unsigned char code[LEVELS], first[LEVELS], wide[LEVELS]; int bools; };

static int32_t next_variable(void) {
    static int32_t v;
    return v = (v + 1) % 64;
}

/* A part beside the nested one: a variable, or a conjunction, whose disjunction makes a new variable. */
static void put_beside(int wide) {
    if (wide) put(AND), put(2), put(VAR), put(next_variable());
    put(VAR), put(next_variable());
}

static void put_sum(int level) {
    if (level == LEVELS) {
        put(INTEGER), put(next_variable());
        return;
    }
    put(SUM), put(2), put(1), put(INTEGER), put(next_variable()), put(1);
    put_sum(level + 1);
}

static void put_nested(const struct shape *s, int level) {
    int code = s->code[level - 1], first = s->first[level - 1], wide = s->wide[level - 1];
    if (level >= s->bools) {
        if (level == LEVELS) {
            put(VAR), put(next_variable());
            return;
        }
        put(CMP), put(4);
        put_sum(level + 1);
        put(CONSTANT), put(1);
        return;
    }
    put(code);
    if (code == NOT) {
        put_nested(s, level + 1);
        return;
    }
    if (code == AND || code == OR) put(2);
    if (!first) put_beside(wide && level < LEVELS - 1);
    put_nested(s, level + 1);
    if (first) put_beside(wide && level < LEVELS - 1);
}

static void put_head(void) {
    words = 0;
    put(64), put(64);
    for (int i = 0; i < 64; i++) put(0), put(0), put(3);
    put(1);
}

static size_t most, least, used;
static long counted, compiled;

static void measure(const char *name) {
    size_t merged = used_by(merge) - least;
    used = used_by(call) - least;
    if (merged > used) used = merged;
    counted++, compiled += answer >= 0;
    if (used > most) {
        most = used;
        printf("%s: %zu bytes, answer %lld\n", name, used, (long long)answer);
    }
}

static size_t measure_shape(const struct shape *s, const char *name) {
    put_head();
    put(1);
    put_nested(s, 1);
    if (words > PLANNER_SET_WORDS) return 0;
    measure(name);
    return used;
}

/* One operator at every level, or two in turn, over comparisons whose sums take the levels left. */
static void measure_regular(void) {
    static const unsigned char codes[] = {AND, OR, NOT, XOR, IFF, IMP};
    for (int a = 0; a < 6; a++)
        for (int b = 0; b < 6; b++)
            for (int form = 0; form < 4; form++)
                for (int bools = 1; bools <= LEVELS; bools += bools < LEVELS - 3 ? 6 : 1) {
                    struct shape s = {.bools = bools};
                    char name[64];
                    for (int i = 0; i < LEVELS; i++)
                        s.code[i] = codes[i % 2 ? b : a], s.first[i] = form & 1, s.wide[i] = form >> 1;
                    snprintf(name, sizeof name, "operators %d and %d, form %d, sums from level %d", codes[a], codes[b], form, bools);
                    measure_shape(&s, name);
                }
}

/* Random forms, each second one the worst so far with two levels changed: a walk uphill. */
static void measure_random(long sets) {
    struct shape worst = {.bools = LEVELS - 2};
    size_t before = 0;
    memset(worst.code, OR, LEVELS), memset(worst.wide, 1, LEVELS);
    for (long n = 0; n < sets; n++) {
        struct shape s = worst;
        char name[32];
        if (n % 2) s.bools = 1 + rand() % LEVELS;
        for (int i = 0; i < LEVELS; i++)
            if (n % 2 || rand() % 32 == 0) s.code[i] = AND + rand() % 6, s.first[i] = rand() % 2, s.wide[i] = rand() % 2;
        snprintf(name, sizeof name, "random set %ld", n);
        if (measure_shape(&s, name) > before) worst = s, before = used;
    }
}

/* Tables: a column of nested sums, with and without a star, and many columns. */
static void measure_tables(void) {
    for (int star = 0; star < 2; star++) {
        put_head();
        put(2), put(1), put(2);
        put_sum(2);
        put(0), put(star ? INT32_MIN : 1);
        measure("a column of nested sums");
        put_head();
        put(2), put(900), put(1);
        for (int i = 0; i < 900; i++) put(INTEGER), put(i % 64);
        for (int i = 0; i < 900; i++) put(star ? INT32_MIN : 1);
        measure("a table of 900 columns");
    }
}

/* AllDifferent: nested sums of 64 levels, and as many variables as a set has room for. */
static void measure_different(void) {
    put_head();
    put(3), put(3);
    for (int i = 0; i < 3; i++) put_sum(1);
    measure("differing sums of 64 levels");
    put_head();
    put(3), put(1900);
    for (int i = 0; i < 1900; i++) put(INTEGER), put(i % 64);
    measure("1900 differing variables");
    words = 0;
    put(0), put(64);
    for (int i = 0; i < 64; i++) put(0), put(0), put(63);
    put(1), put(3), put(64);
    for (int i = 0; i < 64; i++) put(INTEGER), put(63 - i);
    measure("64 variables of 64 values");
}

/* An operator at each level; in the first levels each beside a comparison with an If whose condition goes on. */
static void put_ifs(int code, int ifs, int wide, int open, int level) {
    if (level > LEVELS - 3) {
        put(VAR), put(next_variable());
        return;
    }
    put(code);
    if (code == AND || code == OR) put(2);
    if (code != NOT) put_beside(wide);
    if (level > ifs) {
        put_ifs(code, ifs, wide, open, level + 1);
        return;
    }
    put(CMP), put(0), put(IF);
    put_ifs(code, ifs, wide, open, level + 3);
    put(open ? INTEGER : CONSTANT), put(open ? next_variable() : 1);
    put(CONSTANT), put(0), put(CONSTANT), put(0);
}

/* Ifs in the branches of Ifs, as many as one comparison and one column may have. */
static void put_branches(int level) {
    if (level == LEVELS - 1) {
        put(CONSTANT), put(1);
        return;
    }
    put(IF), put(VAR), put(next_variable()), put(INTEGER), put(0);
    put_branches(level + 1);
}

/* Ifs in conditions, all the way down or in the first levels, open and of constants, in a rule, a column and a pair; in branches. */
static void measure_ifs(void) {
    static const unsigned char codes[] = {AND, OR, NOT, XOR, IFF, IMP};
    for (int a = 0; a < 6; a++)
        for (int ifs = 1; ifs <= LEVELS; ifs += 9)
            for (int form = 0; form < 12; form++) {
                char name[64];
                put_head();
                if (form / 4 == 0) put(1), put(CMP), put(0);
                if (form / 4 == 1) put(2), put(1), put(0);
                if (form / 4 == 2) put(3), put(2);
                put(IF);
                put_ifs(codes[a], ifs, form & 1, form >> 1 & 1, 3);
                put(INTEGER), put(0), put(CONSTANT), put(2);
                if (form / 4 != 1) put(CONSTANT), put(1);
                if (words > PLANNER_SET_WORDS) continue;
                snprintf(name, sizeof name, "Ifs under operator %d to level %d, form %d", codes[a], ifs, form);
                measure(name);
            }
    put_head();
    put(1), put(CMP), put(0);
    put_branches(2);
    put(CONSTANT), put(1);
    measure("Ifs in branches");
    put_head();
    put(2), put(1), put(0);
    put_branches(2);
    measure("Ifs in a column's branches");
}

/* A chain that fixes one variable a pass, and one rule of many members. */
static void measure_wide(void) {
    words = 0;
    put(300), put(0), put(300);
    for (int i = 299; i > 0; i--) put(1), put(IMP), put(VAR), put(i - 1), put(VAR), put(i);
    put(1), put(VAR), put(0);
    measure("a chain of 300 passes");
    words = 0;
    put(512), put(0), put(682);
    for (int i = 0; i < 682; i++) put(1), put(XOR + i % 2), put(VAR), put(i % 512), put(VAR), put((i * 7 + 1) % 512);
    measure("682 ties");
    put_head();
    put(1), put(OR), put(1900);
    for (int i = 0; i < 1900; i++) put(VAR), put(i % 64);
    measure("an Or of 1900 members");
}

int main(int count, char **arguments) {
    long sets = count > 1 ? atol(arguments[1]) : 2000;
    srand(count > 2 ? (unsigned)atol(arguments[2]) : 1);
    stack = mmap(NULL, STACK, PROT_READ | PROT_WRITE, MAP_PRIVATE | MAP_ANONYMOUS, -1, 0);
    if (stack == MAP_FAILED) return puts("no memory"), 2;
    least = used_by(rest);
    measure_regular();
    measure_tables();
    measure_different();
    measure_ifs();
    measure_wide();
    measure_random(sets);
    printf("%ld sets, %ld compiled: at most %zu bytes of stack\n", counted, compiled, most);
    return most > LIMIT;
}
