// The plain walk: each try is evaluated afresh over plain arrays, in
// O(N + m + n) steps and a matching over the conflicts.
#include "walk.hpp"

#include <algorithm>

namespace baseline {

namespace {

enum Condition : uint8_t { leaning_0, leaning_1, torn, untouched, marked };

using Count = uint16_t;   // of nonzeros or of lines

// Everything one evaluation works with, by line number.
class Evaluator {
public:
    Evaluator(const Pattern& pattern, const Caps& caps, const LineMarks& marks)
        : pattern(pattern), cap{int(caps[0]), int(caps[1])}, marks(marks) {}

    Evaluation evaluate() {
        result.valid = count_taken();
        if (!result.valid) return result;
        find_conditions();
        look_at_untaken();
        result.l3 = strikes(0) + strikes(1);
        result.l4 = matching();
        return result;
    }

private:
    bool has_mark(int nonzero, Mark mark) const {
        return marks[pattern.row[nonzero]] == mark || marks[pattern.column[nonzero]] == mark;
    }

    // Fills D0, D1 and the taken nonzeros of each line; says if it is valid.
    bool count_taken() {
        bool apart = true;
        for (int nonzero = 0; nonzero < pattern.nonzeros; ++nonzero) {
            bool by_0 = has_mark(nonzero, mark_0), by_1 = has_mark(nonzero, mark_1);
            apart = apart && !(by_0 && by_1);
            if (by_0) add_taken(nonzero, 0);
            if (by_1) add_taken(nonzero, 1);
        }
        return apart && result.taken[0] <= cap[0] && result.taken[1] <= cap[1];
    }

    void add_taken(int nonzero, int part) {
        ++result.taken[part];
        ++taken[part][pattern.row[nonzero]];
        ++taken[part][pattern.column[nonzero]];
    }

    Condition find_condition(int line) const {
        if (marks[line] != unmarked) return marked;
        bool by_0 = taken[0][line] > 0, by_1 = taken[1][line] > 0;
        if (by_0 && by_1) return torn;
        return by_0 ? leaning_0 : by_1 ? leaning_1 : untouched;
    }

    void find_conditions() {
        for (int line = 0; line < pattern.lines(); ++line) {
            condition[line] = find_condition(line);
            result.l1 += marks[line] == mark_cut;
            result.l2 += condition[line] == torn;
        }
    }

    // Counts what L3 needs and gathers the conflicts of each row.
    void look_at_untaken() {
        for (int nonzero = 0; nonzero < pattern.nonzeros; ++nonzero) {
            if (has_mark(nonzero, mark_0) || has_mark(nonzero, mark_1)) continue;
            int row = pattern.row[nonzero], column = pattern.column[nonzero];
            ++untaken[row];
            ++untaken[column];
            bool to_0 = condition[row] == leaning_0 || condition[column] == leaning_0;
            bool to_1 = condition[row] == leaning_1 || condition[column] == leaning_1;
            leaning_nonzeros[0] += to_0;
            leaning_nonzeros[1] += to_1;
            if (to_0 && to_1) add_conflict(row, column);
        }
    }

    // Nonzeros come by row, so the conflicts of a row stand side by side.
    void add_conflict(int row, int column) {
        if (first_conflict[row] == last_conflict[row]) first_conflict[row] = conflicts;
        conflict_column[conflicts++] = column;
        last_conflict[row] = conflicts;
    }

    // Lines leaning to `part` that must be struck out, most untaken first.
    int strikes(int part) const {
        std::array<Count, most_side + 1> lines_with{};
        for (int line = 0; line < pattern.lines(); ++line)
            if (condition[line] == part) ++lines_with[untaken[line]];
        int excess = leaning_nonzeros[part] - (cap[part] - result.taken[part]);
        int struck = 0;
        for (int size = std::max(pattern.rows, pattern.columns); size > 0; --size)
            for (int line = 0; line < lines_with[size] && excess > 0; ++line) {
                excess -= size;
                ++struck;
            }
        return struck;
    }

    // The most conflicts no two of which share a line: from each row that has
    // some, ascending. Counts the looks.
    int matching() {
        matched_row.fill(-1);
        int size = 0;
        for (int row = 0; row < pattern.rows; ++row) {
            if (first_conflict[row] == last_conflict[row]) continue;
            entered.fill(false);
            size += visit_row(row);
        }
        return size;
    }

    // Through the row's conflict columns, ascending and depth first, until an
    // unmatched one; each conflict met is a look.
    bool visit_row(int row) {
        for (int at = first_conflict[row]; at < last_conflict[row]; ++at) {
            int column = conflict_column[at];
            ++result.looks;
            if (entered[column]) continue;
            entered[column] = true;
            if (matched_row[column] < 0 || visit_row(matched_row[column])) {
                matched_row[column] = row;
                return true;
            }
        }
        return false;
    }

    const Pattern& pattern;
    std::array<int, 2> cap;   // by part
    const LineMarks& marks;
    Evaluation result;
    std::array<std::array<Count, most_lines>, 2> taken{};
    std::array<Condition, most_lines> condition;
    std::array<Count, most_lines> untaken{};
    std::array<int, 2> leaning_nonzeros = {0, 0};
    std::array<Count, most_side> first_conflict{}, last_conflict{};
    std::array<int, most_nonzeros> conflict_column;
    Count conflicts = 0;
    std::array<int, most_lines> matched_row;
    std::array<bool, most_lines> entered;
};

Evaluation evaluate_trail(const Pattern& pattern, const Caps& caps, const Marking& trail) {
    LineMarks marks;
    marks.fill(unmarked);
    for (size_t at = 0; at < trail.size(); ++at) marks[pattern.order[at]] = trail[at];
    return Evaluator(pattern, caps, marks).evaluate();
}

// Whether the last mark may be 1: with equal caps only after an earlier 0 or 1.
bool one_allowed(const Caps& caps, const Marking& trail) {
    return caps[0] != caps[1] ||
           std::any_of(trail.begin(), trail.end() - 1,
                       [](Mark mark) { return mark != mark_cut; });
}

// Puts the last mark one allowed step later; false if it is cut already.
bool put_later(const Caps& caps, Marking& trail) {
    Mark last = trail.back();
    if (last == mark_cut) return false;
    trail.back() = last == mark_0 && one_allowed(caps, trail) ? mark_1 : mark_cut;
    return true;
}

void advance(Record& record) {
    while (!record.trail.empty() && !put_later(record.caps, record.trail))
        record.trail.pop_back();
    record.complete = record.trail.empty();
}

void try_once(const Pattern& pattern, Record& record) {
    ++record.tries;
    Evaluation found = evaluate_trail(pattern, record.caps, record.trail);
    if (found.valid) record.looks += found.looks;
    bool stands = found.valid && uint64_t(found.bound()) < record.best_count;
    if (stands && record.trail.size() < pattern.depth()) {
        record.trail.push_back(mark_0);
        return;
    }
    if (stands) {
        record.has_best = true;
        record.best = record.trail;
        record.best_count = found.l1;
    }
    advance(record);
}

class Plain : public Walk {
public:
    void make_tries(const Pattern& pattern, Record& record, uint64_t budget) const override {
        for (; budget > 0 && !record.complete; --budget) try_once(pattern, record);
    }

    uint64_t floor(const Pattern& pattern, const Record& record) const override {
        uint64_t least = record.best_count;
        auto look_at = [&](const Marking& open) {
            Evaluation found = evaluate_trail(pattern, record.caps, open);
            if (found.valid) least = std::min(least, uint64_t(found.bound()));
        };
        if (record.complete) return least;
        look_at(record.trail);
        for (size_t length = 1; length <= record.trail.size(); ++length) {
            Marking open(record.trail.begin(), record.trail.begin() + length);
            while (put_later(record.caps, open)) look_at(open);
        }
        return least;
    }

    Evaluation evaluate(const Pattern& pattern, const Caps& caps,
                        const LineMarks& marks) const override {
        return Evaluator(pattern, caps, marks).evaluate();
    }
};

}  // namespace

const Walk& plain() {
    static const Plain walk;
    return walk;
}

}  // namespace baseline
