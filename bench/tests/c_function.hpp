// The function for C.
#pragma once

#include "checking.hpp"

namespace tests {

inline void check_c_function(bipartition_function* function) {
    Bytes list = list_of({0, 0, 1, 1}), parts(4, 77), figures(40, 77);
    auto call = [&](uint64_t m, Caps caps, uint64_t budget, size_t list_length,
                    size_t parts_length, size_t figures_length) {
        return function(m, 2, 2, list.data(), list_length, caps[0], caps[1], budget,
                        parts.data(), parts_length, figures.data(), figures_length);
    };
    const uint64_t over = 1000001;
    check(call(0, {0, 0}, over, 0, 0, 0) == too_big, "C: 4");
    check(call(2, {0, 0}, over, 7, 0, 0) == short_buffer, "C: 9 for the list");
    check(call(1, {0, 0}, over, 8, 0, 0) == off_matrix + 256, "C: 5 at 1");
    check(call(2, {4001, 0}, over, 8, 0, 0) == cap_range, "C: 11 for cap 0");
    check(call(2, {0, 4001}, over, 8, 0, 0) == cap_range, "C: 11 for cap 1");
    check(call(2, {1, 0}, over, 8, 0, 0) == no_split, "C: 12");
    check(call(2, {0, 1}, over, 8, 0, 0) == no_split, "C: 12, exchanged");
    check(call(2, {2, 0}, over, 8, 0, 0) == budget_range, "C: 13");
    check(call(2, {1, 1}, 3, 8, 1, 40) == short_buffer, "C: 9 for parts");
    check(call(2, {1, 1}, 3, 8, 4, 31) == short_buffer, "C: 9 for figures");
    check(call(2, {1, 1}, 3, 8, 4, 40) == 255, "C: none yet");
    check(parts == Bytes(4, 77), "C: parts stay");
    check(figures == Bytes(40, 77), "C: figures stay");
    auto expect = [&](Caps caps, uint8_t tries, const Bytes& split) {
        check(call(2, caps, 1000000, 8, 4, 40) == 0, "C: found");
        Bytes wanted(40, 77);
        std::fill(wanted.begin(), wanted.begin() + 32, uint8_t(0));
        wanted[8] = tries;
        wanted[24] = 1;
        check(parts == split && figures == wanted, "C: output");
    };
    expect({1, 1}, 11, {0, 1, 77, 77});
    expect({0, 2}, 12, {1, 1, 77, 77});
    expect({1, 2}, 12, {0, 1, 77, 77});
}

}  // namespace tests
