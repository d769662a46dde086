// Random patterns with caps that open them.
#pragma once

#include "checking.hpp"
#include "../random.hpp"

namespace tests {

inline Sample random_cells(Random& random, uint64_t rows, uint64_t columns, uint64_t nonzeros) {
    Bytes bytes = random_list(random, rows, columns, nonzeros);
    return {rows, columns, random_accepted_caps(random, nonzeros), std::move(bytes)};
}

inline Sample random_sample(Random& random, uint64_t side, uint64_t most) {
    uint64_t rows = random.between(1, side), columns = random.between(1, side);
    uint64_t nonzeros = random.below(std::min(rows * columns, most) + 1);
    return random_cells(random, rows, columns, nonzeros);
}

// About twice to five times as many nonzeros as lines on a side: there conflicts
// are frequent.
inline Sample sparse_sample(Random& random, uint64_t side) {
    uint64_t rows = random.between(side / 2, side), columns = random.between(side / 2, side);
    uint64_t most = std::min(rows * columns, 5 * side);
    uint64_t nonzeros = random.between(std::min(most, 2 * side), most);
    return random_cells(random, rows, columns, nonzeros);
}

inline Sample full_sample(Random& random) {
    Full full(random);
    return {full.rows, full.columns, random_accepted_caps(random, full.rows * full.columns), full.list};
}

}  // namespace tests
