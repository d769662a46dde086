// Looks counted by hand.
#pragma once

#include "checking.hpp"
#include "../paths.hpp"

namespace tests {

// By row, the columns of its conflicts.
using Conflicts = std::vector<Numbers>;

// A pattern in which all rows but the last have these nonzeros and one in the
// last column, and the last row has one in each column but the last.
inline Sample sample_with(const Conflicts& conflicts, uint64_t columns) {
    uint64_t rows = conflicts.size();
    Sample sample = sample_of(rows + 1, columns + 1, most_cap, {});
    for (uint64_t row = 0; row < rows; ++row) {
        for (uint64_t column : conflicts[row]) add_cell(sample.bytes, {row, column});
        add_cell(sample.bytes, {row, columns});
    }
    for (uint64_t column = 0; column < columns; ++column) add_cell(sample.bytes, {rows, column});
    return sample;
}

// The last column marked with one part and the last row with the other: then the
// other rows lean to the one and the other columns to the other.
inline void check_looks(const Conflicts& conflicts, uint64_t columns, int l4, uint64_t looks,
                 const char* what) {
    Sample sample = sample_with(conflicts, columns);
    Pattern pattern = take_apart(sample.list());
    for (const Walk* walk : walks)
        for (Mark part : {mark_0, mark_1}) {
            LineMarks marks;
            marks.fill(unmarked);
            marks[pattern.lines() - 1] = part;
            marks[pattern.rows - 1] = Mark(1 - part);
            Evaluation found = walk->evaluate(pattern, sample.caps, marks);
            check(found.valid && found.l4 == l4 && found.looks == looks, what);
        }
}

inline void check_looks_samples() {
    check_looks({{}}, 1, 0, 0, "no conflict");
    check_looks({{0}}, 1, 1, 1, "one conflict");
    check_looks({{0, 1, 2}}, 3, 1, 1, "a start ends at an unmatched column");
    check_looks({{2}, {}, {1}, {0}}, 3, 3, 3, "each start ends at once");
    // Row 1 comes by column 0 to row 0, which meets column 0 again, then column 1.
    check_looks({{0, 1}, {0}}, 2, 2, 1 + 3, "a path of length three");
    // Row 2 comes by column 0 to row 0 and by column 1 to row 1.
    check_looks({{0, 1}, {1, 2}, {0}}, 3, 3, 1 + 1 + 5, "a path of length five");
    // Row 1 comes to row 0, which leads nowhere, and goes on to column 1.
    check_looks({{0}, {0, 1}}, 2, 2, 1 + 3, "back from a dead end");
    // Row 2 meets both columns, and so do rows 1 and 0, to which it comes.
    check_looks({{0, 1}, {0, 1}, {0, 1}}, 2, 2, 1 + 3 + 6, "columns met again and again");
    check_looks({{0}, {0}, {0}}, 1, 1, 1 + 2 + 2, "a column left to its row");
    // From the last row up it would be 6.
    check_looks({{0}, {0, 1}, {1}}, 2, 2, 1 + 3 + 4, "rows ascending");
    // With columns descending it would be 1 + 1 + 1.
    check_looks({{0, 2}, {0, 1}, {0}}, 3, 3, 1 + 3 + 3, "columns ascending");
}

// Each row has the column of its own number and the next, but the last row only
// column 0. Each start but the last ends at once; the last comes by column 0 to
// row 0, by column 1 to row 1 and so on, through all rows, each of which first meets
// the column that led to it again.
inline void check_long_paths() {
    for (uint64_t rows : {2, 3, 64, 65, 128, 129, 255, 256, 257, 258, 298, 299}) {
        Conflicts conflicts(rows, Numbers{0});
        for (uint64_t row = 0; row + 1 < rows; ++row) conflicts[row] = {row, row + 1};
        uint64_t looks = (rows - 1) + 1 + 2 * (rows - 1);
        check_looks(conflicts, rows, int(rows), looks, "a path through all rows");
    }
}

// The same in a search, whose third try is the first that has conflicts.
inline void check_long_path_tries() {
    Random random(11);
    for (uint64_t side : {5, 65, 128, 129, 256, 257, 300}) {
        Sample sample{side, side, {0, 0}, path_list(side, 2)};
        sample.caps = path_caps(random, side, sample.nonzeros());
        for (const Walk* walk : walks) {
            check(after(*walk, sample, 2).record.looks == 0, "before the long path");
            check(after(*walk, sample, 3).record.looks == 3 * (side - 1) - 2, "the long path");
        }
    }
}

// All rows have all columns: the start from row i comes to the i rows before it, the
// last first, and of these i + 1 rows the first meets one column, the next two and so
// on. 62 rows and columns are the most for which there are nonzeros enough.
inline void check_full_conflicts() {
    for (uint64_t rows : {1, 2, 3, 10, 62}) {
        Numbers columns(rows);
        for (uint64_t column = 0; column < rows; ++column) columns[column] = column;
        uint64_t looks = 0;
        for (uint64_t row = 0; row < rows; ++row) looks += (row + 1) * (row + 2) / 2;
        check_looks(Conflicts(rows, columns), rows, int(rows), looks, "all rows with all columns");
    }
}

// Rows 0 and 2 lean to 0 and columns 0 and 2 to 1; rows 1 and 3 lean to 1 and
// columns 1 and 3 to 0. Nonzero 0,1 has two lines that lean to 0.
inline void check_looks_both_ways() {
    Sample sample = sample_of(6, 6, most_cap, {0, 0, 0, 1, 0, 2, 0, 4, 1, 1, 1, 3, 1, 5, 2, 0,
                                           2, 4, 3, 1, 3, 3, 3, 5, 4, 0, 4, 2, 5, 1, 5, 3});
    LineMarks marks;
    marks.fill(unmarked);
    marks[4] = marks[6 + 5] = mark_1;
    marks[5] = marks[6 + 4] = mark_0;
    for (const Walk* walk : walks) {
        Evaluation found = walk->evaluate(take_apart(sample.list()), sample.caps, marks);
        check(found.valid && found.l4 == 4 && found.looks == 4 + 4, "conflicts of both kinds");
    }
}

}  // namespace tests
