// Lists, as every call that takes one checks them.
#pragma once

#include "openings.hpp"

namespace tests {

// A slice of fewer than four bytes an entry is too short, whatever it holds.
inline void check_short_lists() {
    Sample sample = row_by_row(4000, {4000, 4000});
    for (uint64_t nonzeros : {1, 2, 63, 64, 65, 2000, 3999, 4000})
        for (uint64_t bytes : {uint64_t(0), 2 * nonzeros, 3 * nonzeros, 4 * nonzeros - 1,
                               4 * nonzeros}) {
            Bytes slice(sample.bytes.begin(), sample.bytes.begin() + long(bytes));
            bool enough = bytes == 4 * nonzeros;
            Answer expected{enough ? 0 : uint64_t(short_buffer), 0};
            expect_opening({300, 300, nonzeros, nullptr, 0}, slice, sample.caps, expected);
            if (bytes == 0) continue;
            std::fill(slice.begin(), slice.end(), 255);
            if (enough) expected = {split_number, 0};
            expect_opening({300, 300, nonzeros, nullptr, 0}, slice, sample.caps, expected);
        }
}

// What the writer answers, with part 0 for each nonzero but one.
inline Answer written(const List& list, uint64_t other, uint8_t its_part) {
    Bytes parts(list.nonzeros, 0), out(longest_text);
    size_t length = 0;
    if (other < parts.size()) parts[other] = its_part;
    return write_text(list, parts.data(), parts.size(), {}, out.data(), out.size(), length);
}

// The writer checks the part of a nonzero last, and of the nonzeros before it first.
inline void check_written(const List& list, Answer expected) {
    auto same = [](Answer a, Answer b) { return a.number == b.number && a.place == b.place; };
    check(same(written(list, 0, 1), expected), "the writer's answer to a list");
    if (!expected.refused()) return;
    check(same(written(list, expected.place, 2), expected), "the writer: 17, 5 and 10 before 8");
    check(same(written(list, expected.place + 1, 2), expected), "the writer: 8 of a later nonzero");
    if (expected.place == 0) return;
    Answer earlier{part, expected.place - 1};
    check(same(written(list, expected.place - 1, 2), earlier), "the writer: 8 of an earlier one");
}

// The function for C, with caps and a budget out of range if the list is refused.
inline void check_called(bipartition_function* function, const List& list, Answer expected) {
    Bytes parts(list.nonzeros), figures(32);
    uint64_t wrong = expected.refused() ? UINT64_MAX : most_cap;
    uint64_t answer = function(list.rows, list.columns, list.nonzeros, list.bytes, list.length,
                               wrong, wrong, expected.refused() ? wrong : 0, parts.data(),
                               parts.size(), figures.data(), figures.size());
    uint64_t refusal = expected.number + 256 * expected.place;
    check(answer == (expected.refused() ? refusal : 255), "C: the answer to a list");
}

// A run and a showing, of a search without a record of its own if the list is refused.
inline void check_run_and_shown(const Walk& walk, const List& list, Answer expected) {
    Record record;
    Shown shown;
    Bytes parts(list.nonzeros);
    open(list, equal_caps(most_cap), record);
    Answer ran = run(walk, list, record, expected.refused() ? UINT64_MAX : 0);
    Answer showed = show(walk, list, record, parts.data(), parts.size(), shown);
    for (Answer answer : {ran, showed})
        check(answer.number == expected.number && answer.place == expected.place,
              "the answer of a run or a showing to a list");
}

// Every call's answer to a list with at least one nonzero.
inline void expect_list(uint64_t m, uint64_t n, const Numbers& numbers, Answer expected) {
    Bytes bytes = list_of(numbers);
    List list{m, n, numbers.size() / 2, bytes.data(), bytes.size()};
    expect_opening(list, bytes, equal_caps(expected.refused() ? 9999 : most_cap), expected);
    for (const Walk* walk : walks) check_run_and_shown(*walk, list, expected);
    check_called(plain_bipartition, list, expected);
    check_called(incremental_bipartition, list, expected);
    check_written(list, expected);
}

// Numbers at both sides of a byte.
inline void check_wide_numbers() {
    auto accepted = [](uint64_t m, uint64_t n, const Numbers& numbers) {
        expect_list(m, n, numbers, {});
    };
    accepted(300, 300, {254, 0, 255, 0, 256, 0, 257, 0, 299, 299});
    accepted(300, 300, {0, 254, 0, 255, 0, 256, 0, 257, 0, 299});
    accepted(300, 300, {0, 299, 1, 256, 255, 299, 256, 0, 256, 255, 256, 256, 299, 1});
    accepted(256, 256, {255, 255});
    accepted(257, 257, {255, 256, 256, 255, 256, 256});
    expect_list(256, 257, {255, 255, 256, 0}, {off_matrix, 1});
    expect_list(257, 256, {256, 255, 256, 256}, {off_matrix, 1});
    expect_list(300, 300, {256, 0, 255, 0}, {order, 1});
    expect_list(300, 300, {0, 256, 0, 255}, {order, 1});
    expect_list(300, 300, {1, 0, 256, 0, 2, 0}, {order, 2});
    expect_list(300, 300, {0, 1, 0, 256, 0, 2}, {order, 2});
    expect_list(300, 300, {256, 256, 256, 256}, {order, 1});
    expect_list(300, 300, {299, 299, 299, 298}, {order, 1});
}

// One number off the matrix or split, in the row and in the column, at the first
// nonzero, at one between and at the last.
inline void check_split_numbers() {
    for (uint64_t side : {1, 2, 44, 255, 256, 257, 300})
        for (uint64_t number : {256, 257, 300, 301, 510, 511, 512, 513, 767, 768, 4096, 65279, 65535}) {
            Answer expected{number > 511 ? split_number : off_matrix, 0};
            if (number < side) continue;
            expect_list(side, 300, {number, 0}, expected);
            expect_list(300, side, {0, number}, expected);
            expect_list(side, 300, {number, 299}, expected);
            expect_list(side, side, {number, number}, expected);
            expected.place = 1;
            expect_list(300, side, {0, 0, 1, number, 2, 0}, expected);
            expect_list(300, side, {0, 0, 1, number}, expected);
        }
}

// Per nonzero 17 before 5 before 10; an earlier nonzero before all of these.
inline void check_list_order() {
    const Numbers split_row = {512, 7}, split_column = {7, 512}, off = {7, 300}, low = {0, 0};
    const Numbers fine = {6, 6};
    auto expect = [](std::initializer_list<Numbers> entries, uint64_t number, uint64_t place) {
        Numbers numbers;
        for (const Numbers& entry : entries) numbers.insert(numbers.end(), entry.begin(), entry.end());
        expect_list(300, 300, numbers, {number, place});
    };
    for (const Numbers& split : {split_row, split_column, Numbers{512, 300}, Numbers{300, 512},
                                 Numbers{0, 512}, Numbers{65535, 65535}}) {
        expect({split}, split_number, 0);
        expect({fine, split}, split_number, 1);
        expect({fine, split, off, low}, split_number, 1);
        expect({fine, split, low, off}, split_number, 1);
        expect({fine, off, split}, off_matrix, 1);
        expect({fine, low, split}, order, 1);
        expect({split, off}, split_number, 0);
        expect({off, split}, off_matrix, 0);
        expect({split, split_row}, split_number, 0);
    }
    expect({fine, {0, 300}}, off_matrix, 1);
    expect({fine, {300, 0}}, off_matrix, 1);
    expect({fine, low, off}, order, 1);
    expect({fine, off, low}, off_matrix, 1);
}

// The last of the most nonzeros, and entries past the last, which are not looked at.
inline void check_last_entries() {
    Sample sample = row_by_row(4000, {4000, 4000});
    auto expect = [&](uint64_t row, uint64_t column, Answer expected) {
        put_cell(sample.bytes.data(), 3999, {row, column});
        expect_opening({300, 300, 4000, nullptr, 0}, sample.bytes, sample.caps, expected);
        expect_opening({300, 300, 3999, nullptr, 0}, sample.bytes, sample.caps, {});
    };
    expect(299, 299, {});
    expect(511, 299, {off_matrix, 3999});
    expect(299, 512, {split_number, 3999});
    expect(512, 0, {split_number, 3999});
    expect(0, 0, {order, 3999});
}

inline void check_lists() {
    check_short_lists();
    check_wide_numbers();
    check_split_numbers();
    check_list_order();
    check_last_entries();
}

}  // namespace tests
