// The patterns whose speed is measured: matrices of data/ and random ones, with the
// cap at 3 percent for both parts.
#pragma once

#include "baseline/text.hpp"
#include "random.hpp"

#include <fstream>
#include <iterator>
#include <string>
#include <vector>

struct Subject {
    std::string name;
    uint64_t rows = 0, columns = 0;
    uint64_t cap = 0;            // of both parts
    std::vector<uint8_t> list;
    uint64_t nonzeros() const { return list.size() / baseline::entry_size; }
};

inline uint64_t cap_at_3_percent(uint64_t nonzeros) {
    baseline::Capped capped;
    baseline::cap_from_percent(nonzeros, 3, capped);
    return capped.cap;
}

inline Subject matrix(const std::string& data, const std::string& name) {
    std::ifstream file(data + "/" + name + ".mtx", std::ios::binary);
    std::string text{std::istreambuf_iterator<char>(file), {}};
    Subject subject;
    subject.list.resize(baseline::entry_size * baseline::most_nonzeros);
    baseline::TextContent content;
    baseline::read_text(text, subject.list.data(), subject.list.size(), nullptr, 0, content);
    subject.name = name;
    subject.rows = content.rows;
    subject.columns = content.columns;
    subject.list.resize(baseline::entry_size * content.nonzeros);
    subject.cap = cap_at_3_percent(subject.nonzeros());
    return subject;
}

inline Subject random_subject(uint64_t rows, uint64_t columns, uint64_t nonzeros, uint64_t seed) {
    Random random(seed);
    Subject subject;
    subject.name = std::to_string(rows) + " by " + std::to_string(columns) + " random";
    subject.rows = rows;
    subject.columns = columns;
    subject.list = random_list(random, rows, columns, nonzeros);
    subject.cap = cap_at_3_percent(subject.nonzeros());
    return subject;
}

inline std::vector<Subject> all_subjects(const std::string& data) {
    std::vector<Subject> all;
    for (const char* name : {"karate", "chesapeake", "steam3", "cage5"})
        all.push_back(matrix(data, name));
    all.push_back(random_subject(30, 30, 200, 1));
    all.push_back(random_subject(100, 100, 1500, 1));
    all.push_back(random_subject(300, 300, 4000, 1));
    return all;
}
