// Matrices of the collection.
#pragma once

#include "caps.hpp"

#include <fstream>
#include <iterator>

namespace tests {

inline std::string file_bytes(const std::string& name) {
    std::ifstream file(name, std::ios::binary);
    return {std::istreambuf_iterator<char>(file), {}};
}

inline Sample read_matrix(const std::string& name) {
    Sample sample;
    sample.bytes.resize(entry_size * most_nonzeros);
    TextContent content;
    Answer answer = read_text(file_bytes(name), sample.bytes.data(), sample.bytes.size(),
                              nullptr, 0, content);
    check(!answer.refused(), name + " is read");
    sample.rows = content.rows;
    sample.columns = content.columns;
    sample.bytes.resize(entry_size * content.nonzeros);
    sample.caps = equal_caps(capped_at(content.nonzeros, 3).cap);
    return sample;
}

inline void check_matrix(const std::string& name, uint64_t nonzeros, uint64_t cap, uint64_t budget) {
    Sample sample = read_matrix(name);
    check(sample.nonzeros() == nonzeros && sample.caps == equal_caps(cap),
          name + ": nonzeros and cap");
    State a = after(plain(), sample, budget), b = after(incremental(), sample, budget);
    check(same_state(a, b), name + ": both walks");
}

inline void check_matrices(const std::string& data) {
    Sample karate = read_matrix(data + "/karate.mtx");
    check(karate.caps == equal_caps(80), "karate: cap 80");
    check_end(karate, 8, 24934, 11273, "karate: volume 8, complete after 24,934 tries");
    karate.caps = {52, 104};
    check_end(karate, 7, 10587, 9071, "karate: volume 7 with a third of the nonzeros in part 0");
    karate.caps = {104, 52};
    check_end(karate, 7, 211260, 6325, "karate: volume 7 with a third of the nonzeros in part 1");
    Sample divorce = read_matrix(data + "/divorce.mtx");
    check(divorce.nonzeros() == 225 && divorce.caps == equal_caps(116), "divorce: cap 116");
    check_end(divorce, 8, 3933, 0, "divorce: volume 8, complete after 3,933 tries");
    Sample cage5 = read_matrix(data + "/cage5.mtx");
    check(cage5.nonzeros() == 233 && cage5.caps == equal_caps(120), "cage5: cap 120");
    check_end(cage5, 14, 744337, 648674, "cage5: volume 14, complete after 744,337 tries");
    check_matrix(data + "/karate.mtx", 156, 80, 10000);
    check_matrix(data + "/chesapeake.mtx", 340, 175, 100000);
    check_matrix(data + "/steam3.mtx", 928, 477, 50000);
}

}  // namespace tests
