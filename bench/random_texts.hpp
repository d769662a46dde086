// Random input for `split` from a fixed seed: a first line and a text, plain,
// in an odd layout that is still accepted, with something amiss, or damaged.
#pragma once

#include "baseline/text.hpp"
#include "random.hpp"

#include <algorithm>
#include <string>
#include <string_view>
#include <utility>
#include <vector>

// ---- drafts of texts

struct DraftEntry {
    uint64_t row, column;   // counted from 1
    std::string value;      // its part, a real value, or nothing
};

// A text before it is laid out.
struct Draft {
    std::string field, shape;   // the last two words of the banner
    uint64_t rows = 0, columns = 0, counted = 0;
    std::vector<DraftEntry> entries;
};

inline std::string sign(Random& random) {
    static constexpr std::string_view signs[] = {"", "", "+", "-"};
    return std::string(signs[random.below(std::size(signs))]);
}

inline std::string digits(Random& random, uint64_t least) {
    uint64_t length = random.between(least, random.chance(5) ? 40 : 4);
    bool zeros = random.chance(20);
    std::string found;
    for (; length > 0; --length) found += zeros ? '0' : char('0' + random.below(10));
    return found;
}

inline std::string real_value(Random& random) {
    std::string value = sign(random), whole = digits(random, 0);
    value += whole;
    if (whole.empty() || random.chance(60)) value += "." + digits(random, whole.empty() ? 1 : 0);
    if (random.chance(60)) return value;
    value += random.chance(50) ? "e" : "E";
    value += sign(random);
    return value + digits(random, 1);
}

inline std::string value_of(Random& random, const std::string& field) {
    if (field == "pattern") return "";
    if (field == "integer") return random.chance(50) ? "1" : "2";
    return real_value(random);
}

template <class Item>
void shuffle(Random& random, std::vector<Item>& items) {
    for (size_t left = items.size(); left > 1; --left)
        std::swap(items[left - 1], items[random.below(left)]);
}

using Cells = std::vector<std::pair<uint64_t, uint64_t>>;   // counted from 1

// Puts `wanted` of the cells into the draft, each choice equally likely.
inline void draw(Random& random, Draft& draft, Cells cells, uint64_t wanted) {
    shuffle(random, cells);
    cells.resize(wanted);
    for (auto [row, column] : cells)
        draft.entries.push_back({row, column, value_of(random, draft.field)});
}

inline void draw_general(Random& random, Draft& draft, uint64_t side) {
    draft.rows = random.between(1, side);
    draft.columns = random.between(1, side);
    uint64_t most = std::min(baseline::most_nonzeros, draft.rows * draft.columns);
    uint64_t wanted = random.below(std::min(most, 4 * (draft.rows + draft.columns)) + 1);
    if (side == baseline::most_side && random.chance(20)) wanted = most;
    Cells cells;
    for (uint64_t row = 1; row <= draft.rows; ++row)
        for (uint64_t column = 1; column <= draft.columns; ++column)
            cells.push_back({row, column});
    draw(random, draft, cells, wanted);
}

// Some large ones open out to the most nonzeros, or to a few less or more: these
// have enough cells below the diagonal from 64 rows on.
inline void draw_symmetric(Random& random, Draft& draft, uint64_t side) {
    bool near_limit = side == baseline::most_side && random.chance(50);
    draft.rows = draft.columns = random.between(near_limit ? 64 : 1, side);
    Cells on, below;
    for (uint64_t row = 1; row <= draft.rows; ++row) {
        on.push_back({row, row});
        for (uint64_t column = 1; column < row; ++column) below.push_back({row, column});
    }
    uint64_t wanted_on = random.below(on.size() + 1);
    uint64_t wanted_below = random.below(std::min(below.size(), 4 * on.size()) + 1);
    if (near_limit) wanted_below = (baseline::most_nonzeros - 2 + random.below(6) - wanted_on) / 2;
    draw(random, draft, on, wanted_on);
    draw(random, draft, below, wanted_below);
    shuffle(random, draft.entries);
}

inline Draft random_draft(Random& random, uint64_t side, bool symmetric) {
    static const std::string fields[] = {"pattern", "integer", "real"};
    Draft draft;
    draft.field = fields[random.below(std::size(fields))];
    draft.shape = symmetric ? "symmetric" : "general";
    if (symmetric) draw_symmetric(random, draft, side);
    else draw_general(random, draft, side);
    draft.counted = draft.entries.size();
    return draft;
}

// ---- drafts with something amiss

// One of the entries, the first of them more often.
inline DraftEntry& some_entry(Random& random, Draft& draft) {
    return draft.entries[random.chance(50) ? 0 : random.below(draft.entries.size())];
}

inline void miss_word(Random& random, Draft& draft) {
    static const std::string others[] = {
        "general", "symmetric", "symetric", "symmetrical", "skew-symmetric", "hermitian",
        "pattern", "integer", "real", "reals", "rea", "complex", "array", ""};
    const std::string& other = others[random.below(std::size(others))];
    (random.chance(50) ? draft.field : draft.shape) = other;
}

inline void miss_part(Random& random, Draft& draft) {
    static const std::string others[] = {"0", "3", "12", "257", "999999999"};
    some_entry(random, draft).value = others[random.below(std::size(others))];
}

// A value that is almost real.
inline void miss_value(Random& random, Draft& draft) {
    static const std::string others[] = {
        "", ".", "+", "-", "+.", "e5", ".e3", "-.e3", "1e", "1E", "1e+", "1.5e-", "1e.5", "1e5.",
        "1e5e5", "1e+-3", "1e 5", "1.2.3", "..5", "1..", "--1", "+-1", "1-", "1+2", "- 1", "1 2",
        "0x1", "1x", "nan", "inf", "1d5", "1,5", "1_0", "1%", "1\r", "00000000001"};
    some_entry(random, draft).value = others[random.below(std::size(others))];
}

// Turns an entry about, puts it off the matrix, or on the cell of another.
inline void miss_cell(Random& random, Draft& draft) {
    DraftEntry& entry = some_entry(random, draft);
    const DraftEntry& other = draft.entries[random.below(draft.entries.size())];
    switch (random.below(8)) {
    case 0: entry.row = draft.rows + 1; break;
    case 1: entry.column = random.chance(50) ? 0 : draft.columns + 1; break;
    case 2:
        entry.row = other.row;
        entry.column = other.column;
        break;
    default: std::swap(entry.row, entry.column); break;
    }
}

inline void miss_side(Random& random, Draft& draft) {
    uint64_t& lines = random.chance(50) ? draft.rows : draft.columns;
    const uint64_t others[] = {std::max<uint64_t>(lines, 1) - 1, lines + 1, baseline::most_side,
                               baseline::most_side + 1};
    lines = others[random.below(std::size(others))];
}

inline void miss_count(Random& random, Draft& draft) {
    const uint64_t others[] = {draft.counted + 1, std::max<uint64_t>(draft.counted, 1) - 1,
                               draft.counted + draft.counted, baseline::most_nonzeros,
                               baseline::most_nonzeros + 1, 999999999};
    draft.counted = others[random.below(std::size(others))];
}

inline void miss(Random& random, Draft& draft) {
    switch (random.below(draft.entries.empty() ? 3 : 10)) {
    case 0: miss_word(random, draft); break;
    case 1: miss_side(random, draft); break;
    case 2: miss_count(random, draft); break;
    case 3: miss_part(random, draft); break;
    case 4:
    case 5: miss_value(random, draft); break;
    default: miss_cell(random, draft); break;
    }
}

// ---- layout

// How freely a text is laid out.
struct Layout {
    Random& random;
    uint64_t oddity;   // the chance of something odd at each place, in percent
    bool odd() { return random.chance(oddity); }
};

inline std::string blanks(Layout& layout, uint64_t least) {
    std::string found(least, ' ');
    if (!layout.odd()) return found;
    static constexpr std::string_view some[] = {" ", "\t", "  ", " \t ", "\t\t"};
    return std::string(some[layout.random.below(std::size(some))]);
}

// Zeros may precede what begins with a digit; they keep a number within nine.
inline std::string padded(Layout& layout, const std::string& digits) {
    if (!layout.odd() || digits.size() > 9) return digits;
    return std::string(layout.random.below(10 - digits.size()), '0') + digits;
}

inline std::string number(Layout& layout, uint64_t value) {
    return padded(layout, std::to_string(value));
}

inline std::string line_end(Layout& layout) {
    std::string end = blanks(layout, 0);
    end += layout.odd() ? "\r\n" : "\n";
    if (layout.odd()) end += blanks(layout, 0) + "\n";
    return end;
}

inline std::string word(Layout& layout, std::string letters) {
    if (!layout.odd()) return letters;
    for (char& letter : letters)
        if (letter >= 'a' && layout.random.chance(50)) letter = char(letter & ~0x20);
    return letters;
}

inline std::string banner_line(Layout& layout, const Draft& draft) {
    std::string line = "%%MatrixMarket";
    for (const std::string& name : {std::string("matrix"), std::string("coordinate"),
                                    draft.field, draft.shape}) {
        line += blanks(layout, 1);
        line += word(layout, name);
    }
    line += blanks(layout, 0);
    return line + (layout.odd() ? "\r\n" : "\n");
}

// A comment of any bytes but LF.
inline std::string comment(Random& random) {
    std::string line = "%";
    for (uint64_t left = random.below(12); left > 0; --left) {
        char byte = char(random.any());
        line += byte == '\n' ? '%' : byte;
    }
    return line + "\n";
}

inline std::string words_line(Layout& layout, const std::vector<std::string>& words) {
    std::string line = blanks(layout, 0);
    for (size_t at = 0; at < words.size(); ++at) {
        if (at > 0) line += blanks(layout, 1);
        line += words[at];
    }
    return line + line_end(layout);
}

inline std::string entry_line(Layout& layout, const DraftEntry& entry) {
    std::vector<std::string> words = {number(layout, entry.row), number(layout, entry.column)};
    const std::string& value = entry.value;
    bool pads = !value.empty() && value[0] >= '0' && value[0] <= '9';
    if (!value.empty()) words.push_back(pads ? padded(layout, value) : value);
    return words_line(layout, words);
}

inline std::string laid_out(Layout& layout, const Draft& draft) {
    Random& random = layout.random;
    std::string text = banner_line(layout, draft);
    for (uint64_t left = layout.odd() ? random.between(1, 3) : 0; left > 0; --left)
        text += random.chance(30) ? blanks(layout, 0) + "\n" : comment(random);
    text += words_line(layout, {number(layout, draft.rows), number(layout, draft.columns),
                                number(layout, draft.counted)});
    for (const DraftEntry& entry : draft.entries) text += entry_line(layout, entry);
    if (layout.odd()) text.erase(text.find_last_not_of(" \t\r\n") + 1);
    return text;
}

inline std::string first_line(Layout& layout) {
    Random& random = layout.random;
    uint64_t percent = random.chance(20) ? random.below(103) : random.below(40);
    uint64_t budget = random.below(random.chance(50) ? 3000 : 30);
    if (random.chance(2)) budget = random.between(999999, 1000002);
    std::string line = "percent " + number(layout, percent);
    line += " budget " + number(layout, budget);
    return line + "\n";
}

// ---- damage

inline std::string joined(const std::vector<std::string>& lines) {
    std::string text;
    for (const std::string& line : lines) text += line;
    return text;
}

// A place, more often near the front, where the first lines are.
inline size_t place(Random& random, const std::string& input) {
    size_t limit = random.chance(20) ? std::min<size_t>(input.size(), 90) : input.size();
    return limit == 0 ? 0 : random.below(limit);
}

inline std::vector<std::string> lines_of(const std::string& input) {
    std::vector<std::string> lines;
    for (size_t from = 0; from < input.size();) {
        size_t end = std::min(input.find('\n', from), input.size() - 1) + 1;
        lines.push_back(input.substr(from, end - from));
        from = end;
    }
    return lines;
}

// Swaps two lines, drops one, doubles one or puts a line between.
inline void damage_lines(Random& random, std::string& input) {
    static const std::string others[] = {"\n",    " \t\n",  "% x\n",    " % x\n",   "\r\n",
                                         "x\n",   "1 1\n",  "1 2\n",    "2 1\n",    "1 1 1\n",
                                         "1 2 2\n", "1 1 .5\n", "1 2 -1e3\n"};
    std::vector<std::string> lines = lines_of(input);
    if (lines.empty()) return;
    size_t at = random.below(lines.size());
    switch (random.below(4)) {
    case 0: std::swap(lines[at], lines[random.below(lines.size())]); break;
    case 1: lines.erase(lines.begin() + long(at)); break;
    case 2: lines.insert(lines.begin() + long(at), lines[random.below(lines.size())]); break;
    default: lines.insert(lines.begin() + long(at), others[random.below(std::size(others))]); break;
    }
    input = joined(lines);
}

// Puts another number in place of one.
inline void damage_number(Random& random, std::string& input) {
    static constexpr std::string_view others[] = {
        "0", "1", "2", "3", "9", "100", "101", "255", "256", "257", "300", "301", "511", "512",
        "513", "4000", "4001", "65536", "65537", "1000000", "1000001", "999999999", "0000000001",
        "1000000000", "4294967297", "18446744073709551617", "-1", "+1", "1.0", "1e5", "x", ""};
    size_t from = input.find_first_of("0123456789", place(random, input));
    if (from == std::string::npos) return;
    size_t end = std::min(input.find_first_not_of("0123456789", from), input.size());
    input.replace(from, end - from, others[random.below(std::size(others))]);
}

// Changes, drops or doubles a byte, or puts one in.
inline void damage_byte(Random& random, std::string& input) {
    static constexpr std::string_view some("019 \t\n\r%xXeE+-.\0\v\xff", 18);
    size_t at = place(random, input);
    if (input.empty()) return;
    char byte = random.chance(30) ? char(random.any()) : some[random.below(some.size())];
    switch (random.below(4)) {
    case 0: input[at] = byte; break;
    case 1: input.erase(at, 1); break;
    case 2: input.insert(at, 1, input[at]); break;
    default: input.insert(at, 1, byte); break;
    }
}

// Cuts the end off, takes a piece out, or gives lines CR LF.
inline void damage_stretch(Random& random, std::string& input) {
    size_t at = place(random, input);
    switch (random.below(3)) {
    case 0: input.resize(at); break;
    case 1: input.erase(at, random.between(1, 20)); break;
    default:
        while ((at = input.find('\n', at)) != std::string::npos) {
            input.insert(at, "\r");
            at += 2;
        }
    }
}

inline void damage(Random& random, std::string& input) {
    switch (random.below(5)) {
    case 0: damage_lines(random, input); break;
    case 1:
    case 2: damage_number(random, input); break;
    case 3: damage_stretch(random, input); break;
    default: damage_byte(random, input); break;
    }
}

// Blanks at the end that bring the text to its greatest length, or near it.
inline void lengthen(Random& random, std::string& input) {
    size_t text = input.find('\n') + 1;
    size_t length = baseline::longest_text - 1 + random.below(4);
    if (random.chance(20)) length += 100;
    input.resize(std::max(input.size(), text + length), random.chance(50) ? ' ' : '\n');
}

// Half of all input has something amiss or is damaged.
inline std::string random_request(Random& random, uint64_t number) {
    bool large = number % 50 == 0, middling = number % 10 == 0;
    bool spoilt = random.chance(50), damaged = spoilt && random.chance(50);
    Layout layout{random, random.chance(50) ? random.between(2, 30) : 0};
    std::string input = first_line(layout);
    uint64_t side = large ? baseline::most_side : middling ? 30 : 8;
    Draft draft = random_draft(random, side, random.chance(50));
    for (uint64_t left = spoilt && !damaged ? random.between(1, 2) : 0; left > 0; --left)
        miss(random, draft);
    input += laid_out(layout, draft);
    if (number % 50 == 7) lengthen(random, input);
    for (uint64_t left = damaged ? random.between(1, 3) : 0; left > 0; --left)
        damage(random, input);
    return input;
}
