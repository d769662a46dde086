// Lists of nonzeros as callers lend them: an entry is its row and its column,
// each counted from 0, in two bytes, lowest first.
#pragma once

#include <cstddef>
#include <cstdint>
#include <utility>
#include <vector>

namespace baseline {

constexpr size_t number_size = 2;
constexpr size_t entry_size = 2 * number_size;
constexpr uint64_t highest_byte = 1;   // a high byte above it is refusal 17

// A list of which nothing is known yet.
struct List {
    uint64_t rows, columns, nonzeros;
    const uint8_t* bytes;
    size_t length;
};

// A nonzero's row and column: in this order, cells are in the list's.
using Cell = std::pair<uint64_t, uint64_t>;

inline uint64_t number_at(const uint8_t* bytes) { return bytes[0] + 256 * uint64_t(bytes[1]); }

inline Cell cell_at(const uint8_t* list, uint64_t nonzero) {
    const uint8_t* entry = list + entry_size * nonzero;
    return {number_at(entry), number_at(entry + number_size)};
}

inline void put_number(uint8_t* bytes, uint64_t number) {
    bytes[0] = uint8_t(number);
    bytes[1] = uint8_t(number >> 8);
}

inline void put_cell(uint8_t* list, uint64_t nonzero, Cell cell) {
    uint8_t* entry = list + entry_size * nonzero;
    put_number(entry, cell.first);
    put_number(entry + number_size, cell.second);
}

// Adds an entry at the end of a list that has whole entries.
inline void add_cell(std::vector<uint8_t>& list, Cell cell) {
    size_t nonzeros = list.size() / entry_size;
    list.resize(list.size() + entry_size);
    put_cell(list.data(), nonzeros, cell);
}

}  // namespace baseline
