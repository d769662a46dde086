// Openings that are refused, and those at the limits.
#pragma once

#include "checking.hpp"

namespace tests {

inline void expect_opening(List list, const Bytes& bytes, Caps caps, Answer expected) {
    Record record;
    list.bytes = bytes.data();
    list.length = bytes.size();
    Answer answer = open(list, caps, record);
    check(answer.number == expected.number && answer.place == expected.place,
          "an opening's answer: " + std::to_string(answer.number) + " at " +
              std::to_string(answer.place));
    check(!answer.refused() || record == Record(), "a refused opening leaves the record");
}

inline void check_refused_openings() {
    auto expect = [](uint64_t m, uint64_t n, uint64_t nonzeros, const Numbers& numbers,
                     uint64_t cap, uint64_t number, uint64_t place) {
        expect_opening({m, n, nonzeros, nullptr, 0}, list_of(numbers), equal_caps(cap),
                       {number, place});
    };
    expect(0, 1, 0, {}, 9999, too_big, 0);
    expect(1, 0, 0, {}, 9999, too_big, 0);
    expect(301, 1, 0, {}, 9999, too_big, 0);
    expect(1, 301, 0, {}, 9999, too_big, 0);
    expect(512, 1, 0, {}, 9999, too_big, 0);
    expect(65536 + 1, 1, 0, {}, 9999, too_big, 0);
    expect(1, 65536 + 300, 0, {}, 9999, too_big, 0);
    expect(300, 300, 4001, {}, 9999, too_big, 0);
    expect(300, 300, 65536 + 1, {}, 9999, too_big, 0);
    expect(2, 2, 5, {}, 9999, too_big, 0);
    expect(13, 300, 3901, {}, 9999, too_big, 0);
    expect(uint64_t(1) << 63, 2, 1, {}, 9999, too_big, 0);
    expect(2, 2, uint64_t(1) << 63, {}, 9999, too_big, 0);
    expect(2, 2, 2, {9, 9}, 9999, short_buffer, 0);
    expect(2, 2, 2, {0, 0, 2, 0}, 9999, off_matrix, 1);
    expect(2, 2, 2, {0, 2, 0, 0}, 9999, off_matrix, 0);
    expect(2, 2, 2, {0, 1, 0, 0}, 9999, order, 1);
    expect(2, 2, 2, {0, 1, 0, 1}, 9999, order, 1);
    expect(2, 2, 3, {0, 1, 0, 0, 5, 5}, 9999, order, 1);
    expect(2, 2, 2, {1, 1, 0, 2}, 9999, off_matrix, 1);
    expect(2, 2, 2, {0, 0, 0, 1}, 4001, cap_range, 0);
    expect(2, 2, 2, {0, 0, 0, 1}, UINT64_MAX, cap_range, 0);
    expect(2, 2, 2, {0, 0, 0, 1}, 0, no_split, 0);
    expect(2, 2, 2, {0, 0, 0, 1, 9, 9}, 4000, 0, 0);
    expect(300, 300, 0, {}, 0, 0, 0);
    expect(300, 1, 1, {299, 0}, 1, 0, 0);
    expect(1, 300, 1, {0, 299}, 1, 0, 0);
    expect(300, 300, 1, {299, 299}, 1, 0, 0);
}

// The most nonzeros, under the least caps that they open with and a little less.
inline void check_largest_openings() {
    for (Caps caps : {Caps{2000, 2000}, {0, 4000}, {4000, 0}, {4000, 4000}, {1, 3999}})
        check(opened(row_by_row(4000, caps)).record.nonzeros == 4000, "4,000 nonzeros");
    for (Caps caps : {Caps{1999, 2000}, {0, 3999}, {3999, 0}})
        check_opening(row_by_row(4000, caps), no_split, 0, "4,000 nonzeros, caps too low");
    for (Caps caps : {Caps{4001, 4000}, {4000, 4001}})
        check_opening(row_by_row(4000, caps), cap_range, 0, "4,000 nonzeros, a cap too high");
}

// A row of two nonzeros under caps in and out of their range.
inline void check_refused_caps() {
    auto expect = [](Caps caps, uint64_t number) {
        expect_opening({2, 2, 2, nullptr, 0}, list_of({0, 0, 0, 1}), caps, {number, 0});
    };
    for (uint64_t over : {uint64_t(4001), uint64_t(1) << 32, uint64_t(1) << 63, UINT64_MAX})
        for (uint64_t other : {uint64_t(0), uint64_t(2), uint64_t(4000), over}) {
            expect({over, other}, cap_range);
            expect({other, over}, cap_range);
        }
    for (Caps caps : {Caps{0, 0}, {0, 1}, {1, 0}}) expect(caps, no_split);
    for (Caps caps : {Caps{1, 1}, {0, 2}, {2, 0}, {0, 4000}, {4000, 0}, {4000, 4000}})
        expect(caps, 0);
}

}  // namespace tests
