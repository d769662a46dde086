// Vectors of another model.
#pragma once

#include "checking.hpp"

#include <fstream>

namespace tests {

inline bool next_filled(std::istream& file, std::string& line) {
    while (std::getline(file, line))
        if (!line.empty() && line[0] != '#') return true;
    return false;
}

// The two lines of a pattern: its numbers, then its nonzeros. The word "cap" has
// one number, which is the cap of both parts, and "caps" has two.
inline Sample read_sample(std::istream& file, const std::string& first_line) {
    Sample sample;
    std::string word;
    uint64_t nonzeros;
    std::istringstream first(first_line);
    first >> word >> sample.rows >> sample.columns >> nonzeros >> word >> sample.caps[0];
    if (word == "caps") first >> sample.caps[1];
    else sample.caps[1] = sample.caps[0];
    std::string line;
    if (nonzeros == 0) return sample;
    std::getline(file, line);
    std::istringstream second(line);
    for (unsigned row, column; second >> row; ) {
        second.ignore(1);
        second >> column;
        add_cell(sample.bytes, {row, column});
    }
    check(sample.nonzeros() == nonzeros, "vector file: number of nonzeros");
    return sample;
}

inline Mark mark_of(char letter) {
    return letter == '0' ? mark_0 : letter == '1' ? mark_1 : letter == 'c' ? mark_cut : unmarked;
}

inline void check_bounds_line(const Sample& sample, const std::string& line) {
    std::istringstream words(line);
    std::string letters, rest;
    words >> letters >> std::ws;
    std::getline(words, rest);
    LineMarks marks;
    marks.fill(unmarked);
    for (size_t at = 0; at < letters.size(); ++at) marks[at] = mark_of(letters[at]);
    Pattern pattern = take_apart(sample.list());
    Evaluation found = plain().evaluate(pattern, sample.caps, marks);
    check(described(found) == rest, "plain, bounds: " + line);
    Evaluation again = incremental().evaluate(pattern, sample.caps, marks);
    bool same = found.valid ? described(again) == rest : !again.valid;
    check(same, "incremental, bounds: " + line);
}

inline void check_bounds(const std::string& name) {
    std::ifstream file(name);
    std::string line;
    Sample sample;
    int lines = 0;
    for (; next_filled(file, line); ++lines)
        if (line.rfind("pattern", 0) == 0) sample = read_sample(file, line);
        else check_bounds_line(sample, line);
    check(lines > 100, name + " is there");
}

inline void check_walks(const std::string& name) {
    std::ifstream file(name);
    std::string line, words;
    Sample sample;
    State states[2];
    int lines = 0;
    for (; next_filled(file, line); ++lines) {
        if (line.rfind("pattern", 0) == 0) {
            sample = read_sample(file, line);
            for (State& state : states) state = opened(sample);
            continue;
        }
        uint64_t tries;
        std::istringstream(line) >> words >> tries;
        bool with_looks = line.find(" looks ") != std::string::npos;
        for (int way = 0; way < 2; ++way) {
            State& state = states[way];
            run(*walks[way], sample.list(), state.record, tries - state.record.tries);
            show_state(*walks[way], sample, state);
            std::string found = described(state, with_looks);
            check("  " + found == line, std::string(walk_names[way]) + ": " + line +
                                            "\n  found:   " + found);
        }
    }
    check(lines > 100, name + " is there");
}

}  // namespace tests
