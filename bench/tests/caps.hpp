// Caps from a percentage.
#pragma once

#include "checking.hpp"

namespace tests {

inline void check_percent(uint64_t nonzeros, uint64_t percent, uint64_t number, Capped expected) {
    Capped found;
    Answer answer = cap_from_percent(nonzeros, percent, found);
    check(answer.number == number && answer.place == 0 && found.cap == expected.cap &&
              found.rest == expected.rest, "cap from a percentage");
}

inline void check_percents() {
    check_percent(4, 0, 0, {2, 0});
    check_percent(233, 3, 0, {120, 51});
    check_percent(156, 3, 0, {80, 34});
    check_percent(225, 3, 0, {116, 39});
    check_percent(1, 0, 0, {1, 0});
    check_percent(1, 99, 0, {1, 99});
    check_percent(1, 100, 0, {2, 0});
    check_percent(3, 0, 0, {2, 0});
    check_percent(3, 49, 0, {2, 98});
    check_percent(3, 50, 0, {3, 0});
    check_percent(5, 50, 0, {4, 50});
    check_percent(2001, 0, 0, {1001, 0});
    check_percent(2001, 100, 0, {2002, 0});
    check_percent(3997, 99, 0, {3978, 1});
    check_percent(3999, 0, 0, {2000, 0});
    check_percent(3999, 100, 0, {4000, 0});
    check_percent(4000, 100, 0, {4000, 0});
    for (uint64_t percent = 0; percent <= most_percent; ++percent) check_percent(0, percent, 0, {0, 0});
    check_percent(4001, 0, too_big, {});
    check_percent(4001, 101, too_big, {});
    check_percent(4000, 101, cap_range, {});
    check_percent(3999, 101, cap_range, {});
    check_percent(0, 101, cap_range, {});
    check_percent(UINT64_MAX, UINT64_MAX, too_big, {});
}

// The cap and rest, or a cap out of its range if it is refused.
inline Capped capped_at(uint64_t nonzeros, uint64_t percent) {
    Capped capped;
    bool refused = cap_from_percent(nonzeros, percent, capped).refused();
    return refused ? Capped{most_cap + 1, 0} : capped;
}

// Cap and rest are quotient and remainder; the cap is in range, enough for half
// of the nonzeros and no less than the caps of fewer nonzeros and of less
// percent; for even N it is also the whole part of (100 + e) * N / 200.
inline void check_cap(uint64_t nonzeros, uint64_t percent) {
    auto [cap, rest] = capped_at(nonzeros, percent);
    uint64_t half = nonzeros - nonzeros / 2;
    bool whole = (100 + percent) * half == 100 * cap + rest && rest < 100;
    bool enough = half <= cap && nonzeros <= 2 * cap && cap <= most_cap;
    bool rises = (nonzeros == 0 || capped_at(nonzeros - 1, percent).cap <= cap) &&
                 (percent == 0 || capped_at(nonzeros, percent - 1).cap <= cap);
    bool even = nonzeros % 2 == 1 || cap == (100 + percent) * nonzeros / 200;
    check(whole && enough && rises && even,
          "cap from " + std::to_string(nonzeros) + " at " + std::to_string(percent));
}

// Every N and every percentage. For each N the least cap, the greatest and one
// between open a pattern of N nonzeros, row by row in rows of 300.
inline void check_all_caps() {
    Sample sample = sample_of(300, 300, 0, {});
    for (uint64_t nonzeros = 0; nonzeros <= most_nonzeros; ++nonzeros) {
        for (uint64_t percent = 0; percent <= most_percent; ++percent) check_cap(nonzeros, percent);
        for (uint64_t percent : {uint64_t(0), nonzeros % 101, most_percent}) {
            sample.caps = equal_caps(capped_at(nonzeros, percent).cap);
            opened(sample);
        }
        add_cell(sample.bytes, {nonzeros / 300, nonzeros % 300});
    }
}

}  // namespace tests
