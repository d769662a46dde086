// Patterns on which the search for the matching takes long paths, which random
// patterns hardly ever do.
#pragma once

#include "random.hpp"

// A square pattern of 2 or more lines on a side, in which the last row crosses all
// other columns and the last column all other rows: once the one is marked 0 and the
// other 1, each nonzero in neither of them is a conflict. Row i has `width` columns
// from column i on, as far as there are others than the last, and the last row but one
// has column 0 alone. So each row is matched with the column of its number, until that
// row leads by column 0 to row 0, by column 1 to row 1 and so on, through all of them.
inline std::vector<uint8_t> path_list(uint64_t side, uint64_t width) {
    std::vector<uint8_t> list;
    uint64_t last = side - 1;
    auto add_row = [&](uint64_t row, uint64_t first, uint64_t end) {
        for (uint64_t column = first; column < end; ++column) baseline::add_cell(list, {row, column});
        if (row < last) baseline::add_cell(list, {row, last});
    };
    for (uint64_t row = 0; row + 1 < last; ++row) add_row(row, row, std::min(row + width, last));
    add_row(last - 1, 0, 1);
    add_row(last, 0, last);
    return list;
}

// Caps of which the first admits the last row, but not the last column with it: if
// these have the most nonzeros, the third try marks the one 0 and the other 1.
inline baseline::Caps path_caps(Random& random, uint64_t side, uint64_t nonzeros) {
    uint64_t cap0 = side - 1 + random.below(side - 1);
    uint64_t least = std::max(side - 1, nonzeros - std::min(nonzeros, cap0));
    return {cap0, random.between(least, baseline::most_cap)};
}

// Takes some of the nonzeros out.
inline std::vector<uint8_t> thinned(Random& random, const std::vector<uint8_t>& list,
                                    uint64_t percent) {
    std::vector<uint8_t> result;
    for (uint64_t at = 0; at < list.size() / baseline::entry_size; ++at)
        if (!random.chance(percent)) baseline::add_cell(result, baseline::cell_at(list.data(), at));
    return result;
}

// A random one with its caps, of up to 60 lines on a side, or of more than a byte
// counts; of half of the small ones some nonzeros are missing.
struct Path {
    uint64_t side, nonzeros;
    baseline::Caps caps;
    std::vector<uint8_t> list;
    Path(Random& random, bool large)
        : side(large ? random.between(258, baseline::most_side) : random.between(5, 60)),
          list(path_list(side, random.between(2, 11))) {
        if (!large && random.chance(50)) list = thinned(random, list, 2);
        nonzeros = list.size() / baseline::entry_size;
        caps = path_caps(random, side, nonzeros);
    }
};
