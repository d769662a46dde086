// Random markings, with their looks and those that a try adds.
#pragma once

#include "looks.hpp"
#include "random_samples.hpp"

namespace tests {

inline LineMarks random_marks(Random& random, const Pattern& pattern) {
    uint64_t marked = random.below(60);
    LineMarks marks;
    marks.fill(unmarked);
    for (int line = 0; line < pattern.lines(); ++line)
        if (random.chance(marked)) marks[line] = Mark(random.below(3));
    // Most markings of many lines are not valid: take marks off that clash.
    if (random.chance(70))
        for (int nonzero = 0; nonzero < pattern.nonzeros; ++nonzero)
            if (marks[pattern.row[nonzero]] + marks[pattern.column[nonzero]] == 1)
                marks[pattern.column[nonzero]] = unmarked;
    return marks;
}

// By line, bit p: unmarked, with nonzeros taken by part p.
inline std::vector<int> takings(const Pattern& pattern, const LineMarks& marks) {
    std::vector<int> taken(pattern.lines(), 0);
    for (int nonzero = 0; nonzero < pattern.nonzeros; ++nonzero) {
        int row = pattern.row[nonzero], column = pattern.column[nonzero];
        for (auto [line, other] : {std::pair{row, column}, {column, row}})
            if (marks[line] == unmarked && marks[other] <= mark_1) taken[line] |= 1 << marks[other];
    }
    return taken;
}

// The columns of each row's conflicts in a valid marking.
inline Conflicts conflicts_of(const Pattern& pattern, const LineMarks& marks) {
    std::vector<int> taken = takings(pattern, marks);
    Conflicts conflicts(pattern.rows);
    for (int nonzero = 0; nonzero < pattern.nonzeros; ++nonzero) {
        int row = pattern.row[nonzero], column = pattern.column[nonzero];
        bool conflict = (taken[row] == 1 && taken[column] == 2) ||
                        (taken[row] == 2 && taken[column] == 1);
        if (conflict) conflicts[row].push_back(uint64_t(column - pattern.rows));
    }
    return conflicts;
}

// Equal looks: at least one for each of the R conflict rows, and at most R * E.
inline void check_looks_of(const Pattern& pattern, const LineMarks& marks, const Evaluation& a,
                    const Evaluation& b) {
    uint64_t rows = 0, all = 0;
    for (const Numbers& columns : conflicts_of(pattern, marks)) {
        rows += !columns.empty();
        all += columns.size();
    }
    check(a.looks == b.looks && rows <= a.looks && a.looks <= rows * all,
          "looks: " + std::to_string(a.looks) + " and " + std::to_string(b.looks) + " with " +
              std::to_string(rows) + " rows and " + std::to_string(all) + " conflicts");
}

// Markings of any set of lines.
inline void check_random_bounds(int patterns) {
    Random random(3);
    for (int at = 0; at < patterns; ++at) {
        Sample sample = random_sample(random, at % 3 == 0 ? most_side : 12, most_nonzeros);
        Pattern pattern = take_apart(sample.list());
        LineMarks marks = random_marks(random, pattern);
        Evaluation a = plain().evaluate(pattern, sample.caps, marks);
        Evaluation b = incremental().evaluate(pattern, sample.caps, marks);
        check(a.valid == b.valid && (!a.valid || described(a) == described(b)),
              "bounds: " + described(a) + " and " + described(b));
        if (a.valid) check_looks_of(pattern, marks, a, b);
    }
}

// What a try adds to a record's looks: those of a valid trail, standing or not.
inline uint64_t looks_of_try(const Pattern& pattern, const Record& record) {
    LineMarks marks;
    marks.fill(unmarked);
    for (size_t at = 0; at < record.trail.size(); ++at)
        marks[pattern.order[at]] = record.trail[at];
    Evaluation found = plain().evaluate(pattern, record.caps, marks);
    return found.valid ? found.looks : 0;
}

// One try at a time; says how many tries had looks.
inline int check_growth(const Sample& sample, int tries) {
    Pattern pattern = take_apart(sample.list());
    State states[2] = {opened(sample), opened(sample)};
    int with_looks = 0;
    for (; tries > 0 && !states[0].record.complete; --tries) {
        uint64_t before = states[0].record.looks;
        uint64_t more = looks_of_try(pattern, states[0].record);
        with_looks += more > 0;
        for (int way = 0; way < 2; ++way) {
            run(*walks[way], sample.list(), states[way].record, 1);
            check(states[way].record.looks == before + more, "looks that a try adds");
        }
    }
    return with_looks;
}

inline void check_random_growth(int patterns) {
    Random random(8);
    int with_looks = 0;
    for (int at = 0; at < patterns; ++at)
        with_looks += check_growth(sparse_sample(random, random.between(6, 30)), 300);
    check(with_looks > 5 * patterns, "enough tries have looks");
}

}  // namespace tests
