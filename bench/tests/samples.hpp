// Samples of document 01 and of its warnings, and small patterns under unequal caps,
// counted from 0.
#pragma once

#include "checking.hpp"

namespace tests {

inline void check_samples() {
    check_end(sample_of(1, 1, 1, {0, 0}), 0, 5, 0, "one nonzero, cap 1");
    check_opening(sample_of(1, 1, 0, {0, 0}), no_split, 0, "one nonzero, cap 0");
    Sample diagonal = sample_of(2, 2, 1, {0, 0, 1, 1});
    check_end(diagonal, 0, 11, 0, "2 by 2 diagonal");
    Sample full = sample_of(2, 2, 2, {0, 0, 0, 1, 1, 0, 1, 1});
    for (const Walk* walk : walks) {
        State state = after(*walk, diagonal, 3);
        check(state.shown.none_yet && state.shown.floor == 0, "diagonal after 3 tries");
        check(after(*walk, full, 0).shown.floor == 1, "full 2 by 2: fresh floor");
    }
    check_least(full, 2, "full 2 by 2");
    Sample row = sample_of(1, 3, 2, {0, 0, 0, 1, 0, 2});
    check_least(row, 1, "full 1 by 3");
    row.caps = {1, 1};
    check_opening(row, no_split, 0, "full 1 by 3, cap 1");
    check_end(sample_of(2, 3, 0, {}), 0, 0, 0, "2 by 3 without nonzeros");
    check_least(sample_of(3, 4, 7, {0, 2, 0, 3, 1, 1, 1, 2, 1, 3, 2, 0, 2, 2, 2, 3}), 1,
                "counting a nonzero twice in s");
    check_least(sample_of(4, 4, 5, {0, 2, 1, 2, 1, 3, 2, 1, 2, 2, 2, 3, 3, 0, 3, 1, 3, 3}), 2,
                "L3 + L4");
    check_least(sample_of(3, 3, 3, {0, 2, 1, 0, 1, 1, 2, 0, 2, 1, 2, 2}), 2,
                "free nonzeros against part 0");
    check_least(sample_of(1, 2, 1, {0, 0, 0, 1}), 1, "first line never cut");
}

inline void check_sample_bound() {
    Sample sample = sample_of(2, 2, 2, {0, 0, 0, 1, 1, 1});
    LineMarks marks;
    marks.fill(unmarked);
    marks[2] = mark_0;
    marks[1] = mark_1;
    for (const Walk* walk : walks) {
        Evaluation found = walk->evaluate(take_apart(sample.list()), sample.caps, marks);
        check(found.valid && found.l3 == 0 && found.l4 == 1 && found.looks == 1,
              "the sample of L3 and L4");
    }
}

// The end of a search that meets no conflict, and the split that it shows.
inline void check_shown(const Sample& sample, uint64_t volume, uint64_t tries,
                 std::vector<uint8_t> parts, const char* what) {
    check_end(sample, volume, tries, 0, what);
    for (const Walk* walk : walks) {
        State state = after(*walk, sample, tries);
        state.parts.resize(sample.nonzeros());
        check(state.parts == parts, what);
    }
}

inline void check_unequal_samples() {
    check_shown(sample_of(1, 1, {0, 1}, {0, 0}), 0, 6, {1}, "one nonzero, caps 0 and 1");
    check_shown(sample_of(1, 1, {1, 0}, {0, 0}), 0, 6, {0}, "one nonzero, caps 1 and 0");
    check_opening(sample_of(1, 1, {0, 0}, {0, 0}), no_split, 0, "one nonzero, caps 0 and 0");
    Sample row = sample_of(1, 3, {0, 3}, {0, 0, 0, 1, 0, 2});
    check_shown(row, 0, 12, {1, 1, 1}, "full 1 by 3, caps 0 and 3");
    row.caps = {1, 2};
    check_shown(row, 1, 12, {0, 1, 1}, "full 1 by 3, caps 1 and 2");
    row.caps = {2, 1};
    check_shown(row, 1, 12, {0, 0, 1}, "full 1 by 3, caps 2 and 1");
    row.caps = {0, 2};
    check_opening(row, no_split, 0, "full 1 by 3, caps 0 and 2");
    Sample apart = sample_of(2, 4, {3, 1}, {0, 0, 0, 1, 0, 2, 1, 3});
    check_shown(apart, 0, 18, {0, 0, 0, 1}, "three in a row and one apart, caps 3 and 1");
    apart.caps = {2, 2};
    check_shown(apart, 1, 16, {0, 1, 1, 0}, "three in a row and one apart, caps 2 and 2");
    apart.caps = {1, 3};
    check_shown(apart, 0, 18, {1, 1, 1, 0}, "three in a row and one apart, caps 1 and 3");
    check_end(sample_of(2, 3, {0, 7}, {}), 0, 0, 0, "2 by 3 without nonzeros, caps 0 and 7");
}

}  // namespace tests
