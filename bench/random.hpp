// Random patterns and caps from a fixed seed, the same on every machine.
#pragma once

#include "baseline/walk.hpp"

#include <algorithm>
#include <cstdint>
#include <random>
#include <vector>

class Random {
public:
    explicit Random(uint64_t seed) : engine(seed) {}
    uint64_t any() { return engine(); }
    uint64_t below(uint64_t limit) { return engine() % limit; }
    uint64_t between(uint64_t least, uint64_t most) { return least + below(most - least + 1); }
    bool chance(uint64_t percent) { return below(100) < percent; }

private:
    std::mt19937_64 engine;
};

// `nonzeros` distinct cells, each choice equally likely, in rising order.
inline std::vector<uint8_t> random_list(Random& random, uint64_t rows, uint64_t columns,
                                        uint64_t nonzeros) {
    std::vector<uint8_t> list;
    uint64_t wanted = nonzeros, left = rows * columns;
    for (uint64_t row = 0; row < rows; ++row)
        for (uint64_t column = 0; column < columns; ++column, --left)
            if (random.below(left) < wanted) {
                baseline::add_cell(list, {row, column});
                --wanted;
            }
    return list;
}

// All cells of a few lines that cross more lines than a byte counts: the latter have
// equally many nonzeros.
struct Full {
    uint64_t rows, columns;
    std::vector<uint8_t> list;
    explicit Full(Random& random) {
        rows = random.between(1, baseline::most_nonzeros / baseline::most_side);
        columns = random.between(257, baseline::most_side);
        if (random.chance(50)) std::swap(rows, columns);
        list = random_list(random, rows, columns, rows * columns);
    }
};

// Caps that meet no refusal; most are barely enough.
inline baseline::Caps random_equal_caps(Random& random, uint64_t nonzeros) {
    uint64_t half = (nonzeros + 1) / 2;
    return baseline::equal_caps(half + random.below(random.chance(70) ? 3 : nonzeros - half + 2));
}

inline baseline::Caps random_unequal_caps(Random& random, uint64_t nonzeros) {
    uint64_t one = random.below(nonzeros + 1);
    uint64_t more = random.below(random.chance(70) ? 3 : nonzeros + 2);
    uint64_t other = std::min(nonzeros - one + more, baseline::most_cap);
    if (one == other) other = other < baseline::most_cap ? other + 1 : other - 1;
    return random.chance(50) ? baseline::Caps{one, other} : baseline::Caps{other, one};
}

// Half of them equal.
inline baseline::Caps random_accepted_caps(Random& random, uint64_t nonzeros) {
    return random.chance(50) ? random_equal_caps(random, nonzeros)
                             : random_unequal_caps(random, nonzeros);
}
