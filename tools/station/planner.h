/* The normaliser for C and C++: link crates/station/out/libstation.a, which `rt lib` in crates/station makes
   (x86-64 Linux; the archive's only undefined symbols are memcpy, memmove and memset).

   For every entry below, whatever is lent:

   Slices      A slice is a pointer and a length in elements, lent for the time of the call. Any contents and any lengths may
               be lent, 0 included; NULL only with length 0. The slices of one call do not overlap, and int32_t and size_t are aligned.
   Memory      No heap, no globals, no files: an entry uses the lent slices and the stack, nothing else. So calls on different
               slices may run at once in any number of threads. Every call ends.
   Stack       Lend a thread 512 KiB. The most that compile_set or compile_set_with was seen to use is 261,176 bytes: stack.c beside this paints a
               thread's stack, calls with the deepest and widest sets (2,604 of them, with Ifs in conditions and branches), and
               looks how far down the paint is gone. This is measured, not proved.
   Work slice  PLANNER_WORK_WORDS words or more, else PLANNER_SHORT_WORK. What is in it does not matter; it is zero after
               every call.
   Words       of a set and of an answer: docs/FORMAT.md.

   What an entry returns and what it leaves in the slices is proved (crates/station/specs: Returned, Joined, Rosters,
   Sheets); tools/station/claims.c tries what is said here by calls from C. */
#ifndef PLANNER_H
#define PLANNER_H
#include <stddef.h>
#include <stdint.h>

#ifdef __cplusplus
extern "C" {
#endif

enum {
    PLANNER_WORK_WORDS = 16384,        /* the shortest work slice */
    PLANNER_SET_WORDS = 4096,          /* the longest set */
    PLANNER_ANSWER_WORDS = 16777216    /* the longest answer: an output slice needs no more */
};

/* What an entry returns for a contradiction, and its refusals: the number of document 01's table (13 to 17: document 02), negated. */
enum {
    PLANNER_CONTRADICTION = -100,      /* no assignment satisfies the set: folding alone shows it */
    PLANNER_SHORT_WORK = -1,           /* the work slice has fewer than 16384 words */
    PLANNER_LONG_SET = -2,             /* the set has more than 4096 words */
    PLANNER_SET_ENDS = -3,             /* the set ends early, or words follow the last statement */
    PLANNER_OUT_OF_RANGE = -4,         /* a count, value, operator or cell is out of range */
    PLANNER_UNKNOWN_CODE = -5,         /* an expression, statement or domain code is unknown at its place */
    PLANNER_UNDECLARED = -6,           /* a variable is not declared */
    PLANNER_BAD_DOMAIN = -7,           /* a domain is empty or its values do not rise */
    PLANNER_TOO_DEEP = -8,             /* an expression is deeper than 64 levels */
    PLANNER_TOO_HEAVY = -9,            /* a weight is over 1073741823 */
    PLANNER_MANY_VARIABLES = -10,      /* over 64 different integer variables in one comparison or in two expressions of one AllDifferent, or over 63 in one column or one branch of an If; each written If counts as one more */
    PLANNER_WIDE_COLUMN = -11,         /* a column's span is over 4096 */
    PLANNER_SHORT_OUTPUT = -12,        /* the answer is longer than the output slice, or than 16777216 words */
    PLANNER_SHORT_SHEET = -13,         /* compile_sheet: the sheet slice is shorter than the finished sheet */
    PLANNER_OTHER_COUNT = -14,         /* check_roster: the number of values is not that of the declared variables */
    PLANNER_OUTSIDE_DOMAIN = -15,      /* check_roster: a value is outside its domain, a Boolean's neither 0 nor 1 */
    PLANNER_DECLARATIONS_DIFFER = -16, /* of a join: the declarations differ word by word */
    PLANNER_LONG_JOIN = -17            /* the joined set is longer than 4096 words, or than the buffer */
};

/* compile_set: a set's words into an answer's.

   Returns the number of words written to out (3 or more), PLANNER_CONTRADICTION, or a refusal, -1 to -12.
   set      is only read.
   out      is zero behind the words written, and wholly so after a contradiction or a refusal. What it held does not matter.
            A record of an emitted integer has four words, its kind first: 0, lowest, highest, number of values; or 1, a literal,
            the value if that is false, the value if it is true (from Ifs of constants).
   out_len  The listing program lends 16384 words, enough for most sets; the answer of the worked example (docs/EXAMPLE.md) has
            318, that of a week of 34 blocks and 6 scorers (tools/rules/week 34 6) 3,313. Short sets can have long answers (nested
            Ifs of constants double at each level), so no length is enough for all. On PLANNER_SHORT_OUTPUT nothing is wrong with the set: call again with out twice as
            long, up to PLANNER_ANSWER_WORDS (64 MiB). If that is refused too, the rules have to be written in a shorter way.
            An output of 0 words tests a set: whatever is returned but PLANNER_SHORT_OUTPUT, any other output gives too. */
int64_t compile_set(const int32_t *set, size_t set_len, int32_t *out, size_t out_len, int32_t *work, size_t work_len);

/* The choices of compile_set_with: bits, to be added up. Every other bit is ignored. */
enum {
    PLANNER_MERGE = 1                  /* tied Booleans share one emitted number */
};

/* compile_set_with: compile_set with the caller's choices; with none of them it is compile_set.

   Returns what compile_set does, and leaves the slices as it does.
   choices  With PLANNER_MERGE a rule that is, after folding, Iff or Xor of two Boolean variables gives them one emitted number
            (docs/FORMAT.md, Choices). The rules are gone through in their order before any clause is made: of two variables
            without a number the left one gets the next, and the right one shares it; a variable with a number shares it with one
            that has none; where both have one, the clauses alone carry the tie. A variable tied to itself is passed over. A tie's
            own clauses stay. A word of the Boolean map may then be negative: the variable is that number's negation.
            The rosters that pass the answer are those that pass compile_set's. */
int64_t compile_set_with(const int32_t *set, size_t set_len, int32_t *out, size_t out_len, int32_t *work, size_t work_len, uint32_t choices);

/* join_sets: two sets with identical declarations as one: the declarations, the first set's statements, the second's.

   Returns the number of words written to buffer (3 or more), or a refusal: -1; the first set's, -2 to -11; the second's;
   PLANNER_DECLARATIONS_DIFFER; PLANNER_LONG_JOIN. PLANNER_SET_WORDS words of buffer are enough for all.
   first, second  are only read; they may be the same words.
   buffer         is zero behind the words written, and wholly so after a refusal. What it held does not matter.
   With the same work slice compile_set refuses no joined set by -1 to -11. */
int64_t join_sets(const int32_t *first, size_t first_len, const int32_t *second, size_t second_len, int32_t *buffer, size_t buffer_len, int32_t *work, size_t work_len);

/* find_statement: where a statement of the joined set stands, by its number from 1, without joining.

   Returns the set that it came from, 1 or 2, or 0 where no statement has the number or join_sets refuses the sets in any buffer.
   place    receives that number, the statement's start in that set's words and how many words it has (0, 0, 0 for none);
            lend three words. What lies behind them is zero; of fewer words, those are written that there is room for. */
int64_t find_statement(const int32_t *first, size_t first_len, const int32_t *second, size_t second_len, int32_t *place, size_t place_len, int32_t *work, size_t work_len, size_t number);

/* check_roster: a finished roster against a set's words.

   Returns 0 if the values satisfy every statement, the number of the first broken statement (from 1), or a refusal: -1 to -11
   of the set, then PLANNER_OTHER_COUNT, then PLANNER_OUTSIDE_DOMAIN. Where compile_set compiles the set, 0 is returned exactly
   for the rosters that pass its answer; where it returns PLANNER_CONTRADICTION, for none.
   set, values  are only read. One value for every declared variable, the Booleans first, as 0 or 1. */
int64_t check_roster(const int32_t *set, size_t set_len, const int32_t *values, size_t values_len, int32_t *work, size_t work_len);

/* compile_sheet: compile_set, and the clauses for paper: lines of 80 characters and a line feed (docs/FORMAT.md, The sheet).

   Returns what compile_set does, or PLANNER_SHORT_SHEET, which is tested last.
   sheet    is zero behind the sheet, and wholly so after a contradiction or a refusal. What it held does not matter.
            A sheet has at most 81 bytes for every two words of the answer: 81 * out_len / 2 bytes are enough.
   bytes    receives how many bytes the sheet has in its first word, 0 without an answer; lend one word. Nothing behind it is touched. */
int64_t compile_sheet(const int32_t *set, size_t set_len, int32_t *out, size_t out_len, int32_t *work, size_t work_len, uint8_t *sheet, size_t sheet_len, size_t *bytes, size_t bytes_len);

#ifdef __cplusplus
}
#endif

#endif
