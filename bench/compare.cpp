// Calls two implementations of the C function on copies of the same random
// input and compares their answers and every output byte, the bytes behind
// the output slices included. Input that is refused, and "none yet", must leave
// the output as it was.
//
// Usage: compare [CASES [SEED [FIRST SECOND]]]; FIRST and SECOND are names of
// implementations, plain and incremental if left out. The last line is
// "N compared, 0 differ".
#include "implementations.hpp"
#include "paths.hpp"
#include "random.hpp"

#include <algorithm>
#include <cstdlib>
#include <cstring>
#include <iostream>
#include <map>

using namespace baseline;

namespace {

constexpr uint64_t huge[] = {UINT64_MAX, uint64_t(1) << 63, uint64_t(1) << 32,
                             (uint64_t(1) << 32) + 1, uint64_t(1) << 16,
                             (uint64_t(1) << 16) + 1, 512, 256, 257};

struct Input {
    uint64_t m = 0, n = 0, nonzeros = 0, budget = 0;
    Caps caps = {0, 0};
    std::vector<uint8_t> list;   // its length is the length lent
    size_t parts_length = 0, figures_length = 0;
    uint8_t filling = 0;         // what the output holds before the call
};

struct Outcome {
    uint64_t answer = 0;
    std::vector<uint8_t> list, parts, figures;
    bool operator==(const Outcome& other) const {
        return answer == other.answer && list == other.list && parts == other.parts &&
               figures == other.figures;
    }
};

constexpr size_t guard = 24;   // bytes behind each output slice, which must stay

std::vector<uint8_t> filled(size_t length, uint8_t byte) {
    return std::vector<uint8_t>(length + guard, byte);
}

Outcome call(bipartition_function* function, const Input& input) {
    Outcome outcome;
    outcome.list.reserve(std::max<size_t>(input.list.size(), 1));   // never a null slice
    outcome.list.assign(input.list.begin(), input.list.end());
    outcome.parts = filled(input.parts_length, input.filling);
    outcome.figures = filled(input.figures_length, uint8_t(~input.filling));
    outcome.answer = function(input.m, input.n, input.nonzeros, outcome.list.data(),
                              input.list.size(), input.caps[0], input.caps[1],
                              input.budget, outcome.parts.data(), input.parts_length,
                              outcome.figures.data(), input.figures_length);
    return outcome;
}

// Whether the bytes that must stay did: all output unless the answer is 0,
// and always the list and what lies behind the results.
bool stays(const Input& input, const Outcome& outcome) {
    size_t parts = outcome.answer == 0 ? input.nonzeros : 0;
    size_t figures = outcome.answer == 0 ? 32 : 0;
    auto still = [](const std::vector<uint8_t>& bytes, size_t from, uint8_t byte) {
        return std::all_of(bytes.begin() + long(from), bytes.end(),
                           [&](uint8_t found) { return found == byte; });
    };
    return outcome.list == input.list && still(outcome.parts, parts, input.filling) &&
           still(outcome.figures, figures, uint8_t(~input.filling));
}

// ---- random input

uint64_t random_cap(Random& random, uint64_t nonzeros) {
    uint64_t half = (nonzeros + 1) / 2;
    switch (random.below(4)) {
    case 0: return half;
    case 1: return (100 + random.below(101)) * half / 100;   // from a percentage
    case 2: return half + random.below(nonzeros - half + 1);
    default: return random.below(most_cap + 1);
    }
}

// Caps that sum to the nonzeros, or to one or two less or more.
Caps barely_enough(Random& random, uint64_t nonzeros) {
    uint64_t sum = nonzeros + random.below(5);
    sum -= std::min<uint64_t>(sum, 2);
    uint64_t first = random.below(sum + 1);
    return {first, sum - first};
}

// Half of them equal; of the others some have all nonzeros in one part.
Caps random_caps(Random& random, uint64_t nonzeros) {
    if (random.chance(50)) return equal_caps(random_cap(random, nonzeros));
    switch (random.below(5)) {
    case 0: return {0, nonzeros};
    case 1: return {nonzeros, 0};
    case 2: return {random_cap(random, nonzeros), random_cap(random, nonzeros)};
    default: return barely_enough(random, nonzeros);
    }
}

// Up to `side` rows and columns; of the largest patterns one in four has all of
// them, and half of these have the most nonzeros, or nearly so.
void draw_sizes(Random& random, uint64_t side, Input& input) {
    bool all_lines = side == most_side && random.chance(25);
    uint64_t least = all_lines ? side : 1;
    input.m = random.between(least, side);
    input.n = random.chance(30) ? input.m : random.between(least, side);
    uint64_t most = std::min(most_nonzeros, input.m * input.n);
    uint64_t few = std::min(most, 3 * (input.m + input.n));
    input.nonzeros = random.below((random.chance(50) ? few : most) + 1);
    if (all_lines && random.chance(50)) input.nonzeros = most - random.below(3);
}

// A pattern with random caps, which may be too low.
Input random_pattern(Random& random, uint64_t side) {
    Input input;
    draw_sizes(random, side, input);
    input.list = random_list(random, input.m, input.n, input.nonzeros);
    input.caps = random_caps(random, input.nonzeros);
    return input;
}

// One in which many lines have equally many nonzeros.
Input full_pattern(Random& random) {
    Full full(random);
    Input input;
    input.m = full.rows;
    input.n = full.columns;
    input.nonzeros = full.rows * full.columns;
    input.list = full.list;
    input.caps = random_caps(random, input.nonzeros);
    return input;
}

// One on which the search for the matching takes long paths.
Input path_pattern(Random& random) {
    Path path(random, random.chance(30));
    Input input;
    input.m = input.n = path.side;
    input.nonzeros = path.nonzeros;
    input.list = path.list;
    input.caps = path.caps;
    return input;
}

// A size or number that may be out of range.
uint64_t strange(Random& random, uint64_t around) {
    switch (random.below(5)) {
    case 0: return huge[random.below(std::size(huge))];
    case 1: return random.any();
    case 2: return 0;
    default: return around + random.below(3);
    }
}

// A number where `lines` is the first off the matrix: on it, off it or split.
uint64_t strange_number(Random& random, uint64_t lines) {
    const uint64_t others[] = {lines - 1, lines, lines + 256, 255, 256, 511, 512, 65535};
    if (random.chance(30)) return others[random.below(std::size(others))];
    uint64_t low = random.below(random.chance(50) ? 256 : std::min(lines, most_side) + 1);
    return low % 256 + 256 * random.below(random.chance(70) ? 4 : 256);
}

// Puts another number in place of an entry's row, of its column or of both.
void spoil_numbers(Random& random, const Input& input, uint8_t* entry) {
    uint64_t which = random.below(3);
    if (which != 0) put_number(entry, strange_number(random, input.m));
    if (which != 1) put_number(entry + number_size, strange_number(random, input.n));
}

void spoil_entry(Random& random, Input& input) {
    size_t entries = input.list.size() / entry_size;   // a last part of one is left alone
    if (entries == 0) return;
    uint8_t* entry = &input.list[entry_size * random.below(entries)];
    uint8_t* other = &input.list[entry_size * random.below(entries)];
    switch (random.below(6)) {
    case 0: entry[random.below(entry_size)] = uint8_t(random.any()); break;
    case 1: std::swap_ranges(entry, entry + entry_size, other); break;
    case 2: std::memmove(entry, other, entry_size); break;
    default: spoil_numbers(random, input, entry); break;
    }
}

// Most often one entry, or two or three.
void spoil_list(Random& random, Input& input) {
    for (uint64_t left = random.chance(60) ? 1 : random.between(2, 3); left > 0; --left)
        spoil_entry(random, input);
}

// One cap or both: about the most that a cap may be, or about half of the nonzeros.
void spoil_caps(Random& random, Input& input) {
    uint64_t middle = random.chance(50) ? most_cap - 1 : input.nonzeros / 2;
    uint64_t which = random.below(3);
    for (uint64_t part = 0; part < 2; ++part)
        if (which != part) input.caps[part] = strange(random, middle);
}

// Some bytes more or less, or half of them.
void resize_list(Random& random, Input& input) {
    size_t size = input.list.size();
    switch (random.below(5)) {
    case 0: input.list.resize(size / 2); break;
    case 1:
    case 2: input.list.resize(size - std::min<size_t>(size, random.between(1, 5))); break;
    default: input.list.resize(size + random.below(9), uint8_t(random.any())); break;
    }
}

size_t around(Random& random, size_t length) {
    switch (random.below(4)) {
    case 0: return 0;
    case 1: return length - std::min<size_t>(length, random.between(1, 4));
    default: return length + random.below(20);
    }
}

// Makes one thing strange; the input may still be accepted.
void spoil(Random& random, Input& input) {
    uint64_t few = std::min(input.nonzeros + 1, most_nonzeros - 1);
    switch (random.below(11)) {
    case 0: input.m = strange(random, most_side); break;
    case 1: input.n = strange(random, most_side); break;
    case 2: input.nonzeros = strange(random, random.chance(80) ? few : most_nonzeros - 1); break;
    case 3: spoil_caps(random, input); break;
    case 4: input.budget = strange(random, most_budget + 1); break;
    case 5: input.parts_length = around(random, input.nonzeros % (most_nonzeros + 2)); break;
    case 6: input.figures_length = around(random, 32); break;
    case 7: resize_list(random, input); break;
    default: spoil_list(random, input); break;
    }
}

// One of the kinds of patterns, with a budget. The conflicts of a large path are met
// within the first tries, and more of these take long.
Input random_kind(Random& random, uint64_t number) {
    bool large = number % 50 == 0, middling = number % 10 == 0;
    uint64_t budget = number % 500 == 0 ? 20000 : random.chance(50) ? 2000 : 60;
    Input input = number % 100 == 25   ? path_pattern(random)
                  : number % 100 == 75 ? full_pattern(random)
                                       : random_pattern(random, large ? most_side : middling ? 30 : 8);
    input.budget = random.below(number % 100 == 25 && input.m > 60 ? 6 : budget + 1);
    return input;
}

Input random_input(Random& random, uint64_t number) {
    Input input = random_kind(random, number);
    input.parts_length = input.nonzeros;
    input.figures_length = 32;
    input.filling = uint8_t(random.any());
    if (random.chance(50)) return input;
    for (uint64_t left = random.between(1, 3); left > 0; --left) spoil(random, input);
    return input;
}

// ---- the comparison

struct Tally {
    uint64_t compared = 0, differing = 0;
    std::map<uint64_t, uint64_t> answers;   // by 0, 255 or refusal number
};

void describe(const Input& input, const Outcome& a, const Outcome& b) {
    std::cout << "differs: m " << input.m << " n " << input.n << " nonzeros " << input.nonzeros
              << " list bytes " << input.list.size() << " caps " << input.caps[0] << " "
              << input.caps[1] << " budget " << input.budget << " parts bytes "
              << input.parts_length << " figures bytes " << input.figures_length
              << ": answers " << a.answer << " and " << b.answer << "\n  list";
    for (size_t at = 0; at < std::min<size_t>(input.list.size(), 60); ++at)
        std::cout << " " << int(input.list[at]);
    std::cout << "\n";
}

void compare(const Implementation& first, const Implementation& second, const Input& input,
             Tally& tally) {
    Outcome a = call(first.function, input), b = call(second.function, input);
    ++tally.compared;
    ++tally.answers[a.answer == 255 ? 255 : a.answer % 256];
    if (a == b && stays(input, a) && stays(input, b)) return;
    if (++tally.differing <= 10) describe(input, a, b);
}

void print(const Tally& tally) {
    for (auto [answer, times] : tally.answers) {
        if (answer == 0) std::cout << "shown";
        else if (answer == 255) std::cout << "none yet";
        else std::cout << "refusal " << answer;
        std::cout << ": " << times << "\n";
    }
    std::cout << tally.compared << " compared, " << tally.differing << " differ\n";
}

const Implementation* named(const std::vector<Implementation>& all, const std::string& name) {
    for (const Implementation& one : all)
        if (one.name == name) return &one;
    std::cout << "no implementation is called " << name << "\n";
    return nullptr;
}

}  // namespace

int main(int count, char** words) {
    uint64_t cases = count > 1 ? std::strtoull(words[1], nullptr, 10) : 100000;
    uint64_t seed = count > 2 ? std::strtoull(words[2], nullptr, 10) : 1;
    std::vector<Implementation> all = implementations();
    const Implementation* first = named(all, count > 4 ? words[3] : "plain");
    const Implementation* second = named(all, count > 4 ? words[4] : "incremental");
    if (first == nullptr || second == nullptr) return 2;
    std::cout << first->name << " against " << second->name << ", seed " << seed << "\n";
    Random random(seed);
    Tally tally;
    for (uint64_t number = 0; number < cases; ++number)
        compare(*first, *second, random_input(random, number), tally);
    print(tally);
    return tally.differing == 0 ? 0 : 1;
}
