// What the tests share: the count of what was checked, patterns with their own bytes, and
// states of a search that are shown.
#pragma once

#include "../baseline/text.hpp"

#include <iostream>
#include <sstream>

namespace tests {

using namespace baseline;

inline uint64_t checked = 0, differing = 0;

inline void check(bool same, const std::string& what) {
    ++checked;
    if (same) return;
    if (++differing <= 20) std::cout << "differs: " << what << "\n";
}

inline void part_done(const std::string& name) {
    std::cout << name << ": " << checked << " checked so far, " << differing << " differ\n";
}

inline const Walk* const walks[] = {&plain(), &incremental()};
inline const char* const walk_names[] = {"plain", "incremental"};

// A pattern with its own bytes.
struct Sample {
    uint64_t rows = 0, columns = 0;
    Caps caps = {0, 0};
    std::vector<uint8_t> bytes;
    uint64_t nonzeros() const { return bytes.size() / entry_size; }
    bool unequal() const { return caps[0] != caps[1]; }
    List list() const { return {rows, columns, nonzeros(), bytes.data(), bytes.size()}; }
};

struct State {
    Record record;
    Shown shown;
    std::vector<uint8_t> parts;
};

inline bool looks_in_range(const Record& record) {
    using Wide = unsigned __int128;
    return record.looks <= Wide(record.tries) * record.rows * record.nonzeros;
}

inline void show_state(const Walk& walk, const Sample& sample, State& state) {
    state.parts.assign(sample.nonzeros() + 3, 77);
    Answer answer = show(walk, sample.list(), state.record, state.parts.data(),
                         state.parts.size(), state.shown);
    check(!answer.refused(), "a showing is accepted");
    check(looks_in_range(state.record), "looks are at most tries * m * N");
}

inline State opened(const Sample& sample) {
    State state;
    bool accepted = !open(sample.list(), sample.caps, state.record).refused();
    check(accepted && state.record.looks == 0, "an opening is accepted");
    return state;
}

inline State after(const Walk& walk, const Sample& sample, uint64_t budget) {
    State state = opened(sample);
    check(!run(walk, sample.list(), state.record, budget).refused(), "a run is accepted");
    show_state(walk, sample, state);
    return state;
}

inline bool same_state(const State& a, const State& b) {
    return a.record == b.record && a.shown.none_yet == b.shown.none_yet &&
           a.shown.floor == b.shown.floor && a.parts == b.parts &&
           (a.shown.none_yet || a.shown.volume == b.shown.volume);
}

inline std::string letters_of(const Marking& marking) {
    std::string letters;
    for (Mark mark : marking) letters += mark == mark_cut ? 'c' : char('0' + mark);
    return letters.empty() ? "." : letters;
}

inline std::string described(const Evaluation& found) {
    std::ostringstream text;
    text << "valid " << found.valid << " D0 " << found.taken[0] << " D1 " << found.taken[1];
    if (found.valid)
        text << " L1 " << found.l1 << " L2 " << found.l2 << " L3 " << found.l3 << " L4 "
             << found.l4 << " bound " << found.bound();
    return text.str();
}

inline std::string described(const State& state, bool with_looks = true) {
    const Record& record = state.record;
    std::ostringstream text;
    text << "tries " << record.tries;
    if (with_looks) text << " looks " << record.looks;
    text << " best " << record.best_count << " bestmarking "
         << (record.has_best ? letters_of(record.best) : "-")
         << (record.complete ? " complete" : " open") << " trail " << letters_of(record.trail)
         << " floor " << state.shown.floor;
    if (state.shown.none_yet) return text.str() + " none yet";
    text << " volume " << state.shown.volume << " split ";
    for (uint64_t at = 0; at < record.nonzeros; ++at) text << int(state.parts[at]);
    return text.str() + (record.nonzeros == 0 ? "." : "");
}

// Rows and columns in turn.
using Numbers = std::vector<uint64_t>;
using Bytes = std::vector<uint8_t>;

inline Bytes list_of(const Numbers& numbers) {
    Bytes bytes;
    for (size_t at = 0; at + 1 < numbers.size(); at += 2)
        add_cell(bytes, {numbers[at], numbers[at + 1]});
    return bytes;
}

inline Sample sample_of(uint64_t rows, uint64_t columns, Caps caps, const Numbers& numbers) {
    return {rows, columns, caps, list_of(numbers)};
}

// The same cap for both parts.
inline Sample sample_of(uint64_t rows, uint64_t columns, uint64_t cap, const Numbers& numbers) {
    return sample_of(rows, columns, equal_caps(cap), numbers);
}

// So many nonzeros, row by row in rows of 300.
inline Sample row_by_row(uint64_t nonzeros, Caps caps) {
    Sample sample = sample_of(300, 300, caps, {});
    for (uint64_t at = 0; at < nonzeros; ++at) add_cell(sample.bytes, {at / 300, at % 300});
    return sample;
}

inline void check_end(const Sample& sample, uint64_t volume, uint64_t tries, uint64_t looks,
               const char* what) {
    for (const Walk* walk : walks) {
        State state = after(*walk, sample, most_budget);
        check(state.record.complete && state.shown.volume == volume &&
                  state.shown.floor == volume && state.record.tries == tries &&
                  state.record.looks == looks, what);
    }
}

inline void check_least(const Sample& sample, uint64_t volume, const char* what) {
    for (const Walk* walk : walks) {
        State state = after(*walk, sample, most_budget);
        check(state.record.complete && state.shown.volume == volume, what);
    }
}

inline void check_opening(const Sample& sample, uint64_t number, uint64_t place, const char* what) {
    Record record;
    Answer answer = open(sample.list(), sample.caps, record);
    check(answer.number == number && answer.place == place && record == Record(), what);
}

}  // namespace tests
