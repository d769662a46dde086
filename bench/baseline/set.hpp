// Sets of small numbers as words of bits.
#pragma once

#include <array>
#include <cstdint>

namespace baseline {

// The number of ones in each group of eight bits.
inline uint64_t ones_by_eight(uint64_t word) {
    word -= word >> 1 & 0x5555555555555555;
    word = (word & 0x3333333333333333) + (word >> 2 & 0x3333333333333333);
    return (word + (word >> 4)) & 0x0f0f0f0f0f0f0f0f;
}

constexpr int word_bits = 64;

// A set of numbers below 64 times `words`.
template <int words>
struct SetOf {
    std::array<uint64_t, words> word{};

    static uint64_t bit(int number) { return uint64_t(1) << number % word_bits; }
    bool has(int number) const { return word[number / word_bits] & bit(number); }
    void add(int number) { word[number / word_bits] |= bit(number); }
    void remove(int number) { word[number / word_bits] &= ~bit(number); }

    bool empty() const {
        uint64_t any = 0;
#pragma GCC unroll 8
        for (int at = 0; at < words; ++at) any |= word[at];
        return any == 0;
    }

    int size() const {
        uint64_t eights = 0;   // each at most 8 * words
#pragma GCC unroll 8
        for (int at = 0; at < words; ++at) eights += ones_by_eight(word[at]);
        uint64_t sixteens = (eights & 0x00ff00ff00ff00ff) + (eights >> 8 & 0x00ff00ff00ff00ff);
        return int(sixteens * 0x0001000100010001 >> 48);
    }

    // Of a set that is not empty.
    int first() const {
        int at = 0;
        while (word[at] == 0) ++at;
        return word_bits * at + __builtin_ctzll(word[at]);
    }

    // Those above a number below 64 times `words`.
    SetOf above(int number) const {
        SetOf result = *this;
        int at = number / word_bits;
        result.word[at] &= ~uint64_t(1) << number % word_bits;
        while (at > 0) result.word[--at] = 0;
        return result;
    }
};

template <int words, class Join>
SetOf<words> joined(const SetOf<words>& a, const SetOf<words>& b, Join join) {
    SetOf<words> result;
#pragma GCC unroll 8
    for (int at = 0; at < words; ++at) result.word[at] = join(a.word[at], b.word[at]);
    return result;
}

template <int words>
SetOf<words> both(const SetOf<words>& a, const SetOf<words>& b) {
    return joined(a, b, [](uint64_t of_a, uint64_t of_b) { return of_a & of_b; });
}

template <int words>
SetOf<words> either(const SetOf<words>& a, const SetOf<words>& b) {
    return joined(a, b, [](uint64_t of_a, uint64_t of_b) { return of_a | of_b; });
}

template <int words>
SetOf<words> without(const SetOf<words>& a, const SetOf<words>& b) {
    return joined(a, b, [](uint64_t of_a, uint64_t of_b) { return of_a & ~of_b; });
}

template <int words, class Visit>
void for_each(const SetOf<words>& set, Visit visit) {
    for (int at = 0; at < words; ++at)
        for (uint64_t left = set.word[at]; left; left &= left - 1)
            visit(word_bits * at + __builtin_ctzll(left));
}

}  // namespace baseline
