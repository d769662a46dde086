// Searches run in pieces by both walks.
#pragma once

#include "random_samples.hpp"
#include "../paths.hpp"

namespace tests {

// Both walks, the same budgets in pieces: equal after each piece, and in the end
// as after one run of all of them.
inline void check_in_pieces(const Sample& sample, Random& random, State start, int pieces) {
    State states[2] = {start, start};
    uint64_t largest = uint64_t(1) << random.between(1, 9), spent = 0;
    for (int piece = 0; piece < pieces; ++piece) {
        uint64_t budget = random.below(largest);
        spent += budget;
        for (int way = 0; way < 2; ++way) {
            run(*walks[way], sample.list(), states[way].record, budget);
            show_state(*walks[way], sample, states[way]);
        }
        check(same_state(states[0], states[1]),
              "in pieces: " + described(states[0]) + "\n     and: " + described(states[1]));
        if (states[0].record.complete && random.chance(80)) break;
    }
    run(plain(), sample.list(), start.record, spent);
    check(start.record == states[0].record, "in one run: " + described(states[0]));
}

inline void check_random_walks(int patterns) {
    Random random(1);
    for (int at = 0; at < patterns; ++at) {
        uint64_t side = at % 20 == 0 ? 40 : at % 5 == 0 ? 14 : 7;
        Sample sample = at % 3 == 0 ? sparse_sample(random, side) : random_sample(random, side, 400);
        check_in_pieces(sample, random, opened(sample), 6);
    }
}

// Patterns of up to 300 rows and columns, a third of them with few nonzeros and a
// third with all cells of a few lines.
inline void check_large_walks(int patterns) {
    Random random(9);
    for (int at = 0; at < patterns; ++at) {
        Sample sample = at % 3 == 0   ? sparse_sample(random, most_side)
                        : at % 3 == 1 ? full_sample(random)
                                      : random_sample(random, most_side, most_nonzeros);
        check_in_pieces(sample, random, opened(sample), 3);
    }
}

// Patterns on which the search for the matching takes long paths.
inline void check_path_walks(int patterns) {
    Random random(12);
    for (int at = 0; at < patterns; ++at) {
        Path path(random, at % 50 == 0);
        Sample sample{path.side, path.side, path.caps, path.list};
        check_in_pieces(sample, random, opened(sample), 4);
    }
}

// So many numbers of those below 300, in rising order.
inline Numbers rising_numbers(Random& random, uint64_t wanted) {
    Numbers numbers;
    for (uint64_t number = 0; number < most_side; ++number)
        if (random.below(most_side - number) < wanted - numbers.size()) numbers.push_back(number);
    return numbers;
}

// The same nonzeros in 300 rows and columns, most of them empty, in the same order.
inline Sample spread(Random& random, const Sample& sample) {
    Numbers rows = rising_numbers(random, sample.rows);
    Numbers columns = rising_numbers(random, sample.columns);
    Sample result = sample_of(most_side, most_side, sample.caps, {});
    for (uint64_t at = 0; at < sample.nonzeros(); ++at) {
        auto [row, column] = cell_at(sample.bytes.data(), at);
        add_cell(result.bytes, {rows[row], columns[column]});
    }
    return result;
}

// Empty lines change nothing of a search but its numbers of rows and columns.
inline void check_spread_walks(int patterns) {
    Random random(10);
    for (int at = 0; at < patterns; ++at) {
        Sample sample = at % 2 == 0 ? sparse_sample(random, 20) : random_sample(random, 9, 60);
        Sample wide = spread(random, sample);
        uint64_t budget = random.below(400);
        for (const Walk* walk : walks) {
            State expected = after(*walk, sample, budget), found = after(*walk, wide, budget);
            expected.record.rows = expected.record.columns = most_side;
            check(same_state(found, expected), "spread over 300 rows and columns");
        }
    }
}

// Records that no walk need reach, but that 14 accepts.
inline void check_crafted_walks(int patterns) {
    Random random(2);
    int accepted = 0;
    for (int at = 0; at < patterns; ++at) {
        Sample sample = random_sample(random, 8, 60);
        size_t depth = take_apart(sample.list()).depth();
        if (depth == 0) continue;
        State state = opened(sample);
        state.record.trail.resize(random.between(1, depth));
        for (Mark& mark : state.record.trail) mark = Mark(random.chance(60) ? 2 : random.below(2));
        if (random.chance(50)) {
            state.record.has_best = true;
            state.record.best.assign(depth, mark_cut);
            for (size_t line = 0; line < depth; line += random.between(1, depth))
                state.record.best[line] = Mark(random.below(3));
            state.record.best_count = uint64_t(
                std::count(state.record.best.begin(), state.record.best.end(), mark_cut));
        }
        if (run(plain(), sample.list(), state.record, 0).refused()) continue;
        ++accepted;
        check_in_pieces(sample, random, state, 4);
    }
    check(accepted > patterns / 20, "enough crafted states are accepted");
}

}  // namespace tests
