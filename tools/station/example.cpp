// Compiles one rule over three Booleans, v0 <=> (v1 and v2), into an output that grows until the answer fits.
#include "planner.h"
#include <cstdio>
#include <vector>

// The answer's words, and compile_set's number: that of the words, of a contradiction or of a refusal.
static int64_t compile(const std::vector<int32_t> &set, std::vector<int32_t> &out) {
    std::vector<int32_t> work(PLANNER_WORK_WORDS);
    for (size_t words = 16;; words *= 2) {
        out.assign(words, 0);
        int64_t n = compile_set(set.data(), set.size(), out.data(), out.size(), work.data(), work.size());
        if (n != PLANNER_SHORT_OUTPUT || words >= PLANNER_ANSWER_WORDS) {
            out.resize(n > 0 ? n : 0);
            return n;
        }
    }
}

int main() {
    std::vector<int32_t> out;
    int64_t n = compile({3, 0, 1, 1, 16, 11, 0, 12, 2, 11, 1, 11, 2}, out);
    if (n < 0) {
        std::printf(n == PLANNER_CONTRADICTION ? "contradiction\n" : "refused %d\n", static_cast<int>(-n));
        return 1;
    }
    for (size_t i = 0; i < out.size(); i++) std::printf("%d%c", out[i], i + 1 < out.size() ? ' ' : '\n');
    return 0;
}
