// The walk of document 01 (exact bipartitioning of a sparse pattern), with the
// two caps, the looks and the limits of document 02, twice, behind one interface.
// walk.cpp holds what both share: the checks with their refusals, the opening, the
// showing and the C functions. plain.cpp and incremental.cpp each hold one way of
// making tries, counting looks and finding the floor.
#pragma once

#include "list.hpp"

#include <array>
#include <cstddef>
#include <cstdint>
#include <vector>

namespace baseline {

constexpr uint64_t most_side = 300;           // rows, and columns
constexpr uint64_t most_nonzeros = 4000;
constexpr uint64_t most_cap = 4000;
constexpr uint64_t most_percent = 100;
constexpr uint64_t most_budget = 1000000;     // a call
constexpr uint64_t most_tries = 10000000000000;  // a search; so that looks fit eight bytes
constexpr size_t most_lines = 2 * most_side;

// A refusal's number and place. Number 0: accepted.
struct Answer {
    uint64_t number = 0;
    uint64_t place = 0;
    bool refused() const { return number != 0; }
};

enum : uint64_t {
    banner = 1, size_line, entry_form, too_big, off_matrix, repeated, count,
    part, short_buffer, order, cap_range, no_split, budget_range, state,
    not_square, above_diagonal, split_number
};

// Marks of lines. A marking of a trail holds only the first three.
using Mark = uint8_t;
constexpr Mark mark_0 = 0, mark_1 = 1, mark_cut = 2, unmarked = 3;
using Marking = std::vector<Mark>;

// By part: the most nonzeros it may have. If the caps are unequal, mark 1 is
// allowed before any 0.
using Caps = std::array<uint64_t, 2>;
inline Caps equal_caps(uint64_t cap) { return {cap, cap}; }

// A checked list taken apart. Row i is line i, column j is line rows + j.
struct Pattern {
    int rows = 0, columns = 0, nonzeros = 0;
    std::vector<int> row, column;   // by nonzero: its two lines
    std::vector<int> size;          // by line: its number of nonzeros
    std::vector<int> order;         // the lines with nonzeros, as they are marked
    int lines() const { return rows + columns; }
    size_t depth() const { return order.size(); }
};

// The running search.
struct Record {
    uint64_t rows = 0, columns = 0, nonzeros = 0;
    Caps caps = {0, 0};
    uint64_t tries = 0;
    uint64_t looks = 0;             // of the matching, over all tries on a valid trail
    uint64_t best_count = 0;
    bool has_best = false;
    Marking best;
    bool complete = false;
    Marking trail;
};

bool operator==(const Record& a, const Record& b);

struct Shown {
    bool none_yet = false;   // then volume means nothing
    uint64_t volume = 0;
    uint64_t floor = 0;
};

// What document 01 says of one marking of any set of lines, and the looks of
// document 02. The five numbers under the bound have no meaning if the marking
// is not valid.
struct Evaluation {
    bool valid = false;
    std::array<int, 2> taken = {0, 0};
    int l1 = 0, l2 = 0, l3 = 0, l4 = 0;
    uint64_t looks = 0;             // of the search for L4's matching
    int bound() const { return l1 + l2 + (l3 > l4 ? l3 : l4); }
};

using LineMarks = std::array<Mark, most_lines>;   // by line number

// One way of walking. Both functions expect a record that was accepted.
class Walk {
public:
    virtual ~Walk() = default;
    // Makes exactly `budget` tries, or fewer only because it became complete.
    virtual void make_tries(const Pattern&, Record&, uint64_t budget) const = 0;
    virtual uint64_t floor(const Pattern&, const Record&) const = 0;
    // For tests; an invalid marking may come back with only `valid` set.
    virtual Evaluation evaluate(const Pattern&, const Caps&, const LineMarks&) const = 0;
};

const Walk& plain();
const Walk& incremental();

// The cap of both parts from a percentage and the rest that was cut off:
// (100 + percent) * ceiling(nonzeros / 2) = 100 * cap + rest, rest under 100.
struct Capped {
    uint64_t cap = 0, rest = 0;
};

// Checks 4, then 11. The cap is at least half of the nonzeros, so an opening
// with it for both parts is never refused 12.
Answer cap_from_percent(uint64_t nonzeros, uint64_t percent, Capped&);

// Checks 4, 9, then per nonzero 17, 5 and 10.
Answer check_list(const List&);
Pattern take_apart(const List& checked);

// The three calls. What is refused changes nothing.
Answer open(const List&, const Caps&, Record&);
Answer run(const Walk&, const List&, Record&, uint64_t budget);
Answer show(const Walk&, const List&, const Record&, uint8_t* parts,
            size_t parts_length, Shown&);

// The number of cut lines of a split given by its part bytes.
uint64_t volume(const Pattern&, const uint8_t* parts);

// The function for a host written in C, with either walk.
uint64_t bipartition(const Walk&, const List&, const Caps&, uint64_t budget,
                     uint8_t* parts, size_t parts_length, uint8_t* figures,
                     size_t figures_length);

}  // namespace baseline

extern "C" {

using bipartition_function = uint64_t(uint64_t m, uint64_t n, uint64_t nonzeros,
                                      const uint8_t* list, size_t list_len,
                                      uint64_t cap0, uint64_t cap1, uint64_t budget,
                                      uint8_t* parts, size_t parts_len,
                                      uint8_t* figures, size_t figures_len);

bipartition_function plain_bipartition;
bipartition_function incremental_bipartition;

}
