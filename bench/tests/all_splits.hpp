// Small patterns against all their splits, one try at a time.
#pragma once

#include "markings.hpp"

#include <map>

namespace tests {

// By the number of nonzeros in part 0: the least volume of all those splits.
inline std::vector<uint64_t> least_volumes(const Pattern& pattern) {
    std::vector<uint64_t> least(pattern.nonzeros + 1, UINT64_MAX);
    std::vector<uint8_t> parts(pattern.nonzeros);
    for (uint64_t split = 0; split < uint64_t(1) << pattern.nonzeros; ++split) {
        for (int at = 0; at < pattern.nonzeros; ++at) parts[at] = split >> at & 1;
        uint64_t& lowest = least[std::count(parts.begin(), parts.end(), 0)];
        lowest = std::min(lowest, volume(pattern, parts.data()));
    }
    return least;
}

inline bool meets(const Caps& caps, uint64_t nonzeros, uint64_t in_part_0) {
    return in_part_0 <= caps[0] && nonzeros - in_part_0 <= caps[1];
}

// The least volume of a split that meets both caps.
inline uint64_t least_volume(const std::vector<uint64_t>& volumes, const Caps& caps) {
    uint64_t least = UINT64_MAX, nonzeros = volumes.size() - 1;
    for (uint64_t in_part_0 = 0; in_part_0 <= nonzeros; ++in_part_0)
        if (meets(caps, nonzeros, in_part_0)) least = std::min(least, volumes[in_part_0]);
    return least;
}

// A complete search shows a split that meets both caps, of the least volume.
inline void check_complete(const Sample& sample, const State& state, uint64_t least) {
    check(state.record.complete && state.shown.volume == least &&
              state.record.best_count == least && state.shown.floor == least,
          "the least volume of all splits");
    auto parts = state.parts.begin();
    uint64_t in_part_0 = std::count(parts, parts + long(sample.nonzeros()), 0);
    check(meets(sample.caps, sample.nonzeros(), in_part_0), "both caps are met");
}

inline void check_brute_force(int patterns) {
    Random random(4);
    for (int at = 0; at < patterns; ++at) {
        Sample sample = random_sample(random, 6, 10);
        uint64_t least = least_volume(least_volumes(take_apart(sample.list())), sample.caps);
        for (const Walk* walk : walks)
            check_complete(sample, after(*walk, sample, most_budget), least);
    }
}

inline bool begins_with_1(const Marking& trail) {
    auto first = std::find_if(trail.begin(), trail.end(),
                              [](Mark mark) { return mark != mark_cut; });
    return first != trail.end() && *first == mark_1;
}

// Both walks, one try at a time: equal states, and no floor above the least
// volume. A trail whose first mark other than cut is 1 comes exactly if the
// caps are unequal. Gives the volume at the end.
inline uint64_t check_each_try(const Sample& sample, uint64_t least) {
    Pattern pattern = take_apart(sample.list());
    State states[2] = {opened(sample), opened(sample)};
    bool one_first = false, accepted = true;
    while (accepted) {
        for (int way = 0; way < 2; ++way) show_state(*walks[way], sample, states[way]);
        check(same_state(states[0], states[1]), "each try: both walks");
        check(states[0].shown.floor <= least, "each try: the floor");
        one_first = one_first || begins_with_1(states[0].record.trail);
        if (states[0].record.complete) break;
        uint64_t looks = states[0].record.looks + looks_of_try(pattern, states[0].record);
        for (int way = 0; way < 2; ++way)
            accepted = !run(*walks[way], sample.list(), states[way].record, 1).refused() && accepted;
        check(states[0].record.looks == looks, "each try: looks");
    }
    check(accepted, "each try: accepted");
    check(one_first == (sample.unequal() && sample.nonzeros() > 0), "mark 1 before any 0");
    check_complete(sample, states[0], least);
    return states[0].shown.volume;
}

// Every pair of caps up to one more than the nonzeros; exchanged caps end at the
// same volume.
inline void check_pairs_of_caps(Sample sample) {
    uint64_t nonzeros = sample.nonzeros();
    std::vector<uint64_t> volumes = least_volumes(take_apart(sample.list()));
    std::map<Caps, uint64_t> shown;
    for (uint64_t cap0 = 0; cap0 <= nonzeros + 1; ++cap0)
        for (uint64_t cap1 = 0; cap1 <= nonzeros + 1; ++cap1) {
            sample.caps = {cap0, cap1};
            if (cap0 + cap1 < nonzeros) check_opening(sample, no_split, 0, "caps too low");
            else shown[sample.caps] = check_each_try(sample, least_volume(volumes, sample.caps));
        }
    for (auto [caps, volume] : shown)
        check(volume == shown[{caps[1], caps[0]}], "exchanged caps");
}

// All patterns of 1 to 3 rows and columns.
inline void check_all_patterns() {
    for (uint64_t rows = 1; rows <= 3; ++rows)
        for (uint64_t columns = 1; columns <= 3; ++columns)
            for (uint64_t cells = 0; cells < uint64_t(1) << (rows * columns); ++cells) {
                Sample sample = sample_of(rows, columns, 0, {});
                for (uint64_t cell = 0; cell < rows * columns; ++cell)
                    if (cells >> cell & 1)
                        add_cell(sample.bytes, {cell / columns, cell % columns});
                check_pairs_of_caps(sample);
            }
}

inline void check_random_tries(int patterns) {
    Random random(7);
    for (int at = 0; at < patterns; ++at) {
        Sample sample = random_sample(random, 5, 9);
        check_each_try(sample, least_volume(least_volumes(take_apart(sample.list())), sample.caps));
    }
}

}  // namespace tests
