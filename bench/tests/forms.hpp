// Symmetric and valued texts.
#pragma once

#include "splits.hpp"
#include "../random_texts.hpp"

namespace tests {

inline void check_forms() {
    for (const char* field : {"pattern", "Integer", "REAL"})
        for (const char* shape : {"general", "Symmetric", "SYMMETRIC \t", "symmetric\r"})
            check_body(banner_of(field, shape), "1 1 0\n", 0, 0);
    for (const char* field : {"complex", "reals", "rea", "pattern real", "", "r-eal", "double"})
        for (const char* shape : {"general", "symmetric"})
            check_text(banner_of(field, shape) + "1 1 0\n", banner, 0);
    for (const char* shape : {"skew-symmetric", "hermitian", "symetric", "symmetrical", "",
                              "symmetric general", "general symmetric", "symmetric\r\r", "-"})
        for (const char* field : {"pattern", "integer", "real"})
            check_text(banner_of(field, shape) + "1 1 0\n", banner, 0);
    check_text("%%MatrixMarket matrix array real general\n1 1\n0.5\n", banner, 0);
    check_text("%%MatrixMarket matrix coordinate realgeneral\n1 1 0\n", banner, 0);
    check_text("%%MatrixMarket matrix coordinate real general", size_line, 45);
}

inline void check_real_values() {
    const std::string many(30, '7');
    const std::vector<std::string> real = {
        "7", "7.", ".5", "0.25", "+7", "-7.", "+.5", "-0", "0", "0.0e0", "1e5", "1E5", "5.e3",
        ".5E+3", "-1.25e-10", "1e0000000000", many, "-." + many, many + "." + many + "E-" + many};
    const std::vector<std::string> almost = {
        "", ".", "+", "-", "+.", "e5", ".e3", "-.e3", "1e", "1E", "1e+", "1.5e-", "1e.5", "1e5.",
        "1e5e5", "1e+-3", "1e 5", "1e5 .", "1.2.3", "..5", "1..", "--1", "+-1", "1-", "1+2",
        "- 1", "1 2", "0x1", "1x", "nan", "inf", "1d5", "1,5", "1_0", "1%", "1\r\r", "1\v", "%"};
    for (const std::string& banner : {real_banner, symmetric_real_banner}) {
        for (const std::string& value : real)
            for (const char* end : {"", "\n", " \t\n", "\r\n", "\n\n"})
                check_body(banner, "2 2 1\n2\t1 \t" + value + end, 0, 0);
        for (const std::string& value : almost) {
            check_body(banner, "2 2 1\n2 1 " + value + "\n", entry_form, 6);
            check_body(banner, "2 2 2\n1 1 1\n2 1 " + value + "\n", entry_form, 12);
        }
    }
}

inline void check_real_entries() {
    check_body(real_banner, "2 2 1\n1 1-5\n", entry_form, 6);
    check_body(real_banner, "2 2 1\n1 1.5\n", entry_form, 6);
    check_body(real_banner, "2 2 1\n1. 1 5\n", entry_form, 6);
    check_body(real_banner, "2 2 1\n1 1 5\r", entry_form, 6);
    check_body(real_banner, "2 2 1\n3 1 1e\n", entry_form, 6);
    check_body(real_banner, "2 2 1\n3 1 1e1\n", off_matrix, 6);
    check_body(real_banner, "2 2 2\n1 1 1.5\n1 1 -2\n", repeated, 14);
    check_body(real_banner, "2 2 2\n1 1 1.5\n1 2 0\n", 0, 0);
    check_body(real_banner, "2 2 1\n1 1 1\n1 2 1\n", count, 12);
    check_body(real_banner, "2 2 2\n1 1 1\n", count, at_end);
    check_body(real_banner, "2 2 5\n", too_big, 0);
    check_body(pattern_banner, "2 2 1\n1 1 1.5\n", entry_form, 6);
    check_body(integer_banner, "2 2 1\n1 1 1.\n", entry_form, 6);
    check_body(integer_banner, "2 2 1\n1 1 +1\n", entry_form, 6);
    check_body(integer_banner, "2 2 1\n1 1 -7\n", entry_form, 6);
}

inline void check_symmetric_sizes() {
    auto expect = [](const std::string& body, uint64_t number, uint64_t place) {
        check_body(symmetric_banner, body, number, place);
    };
    expect("", size_line, at_end);
    expect("2 3\n", size_line, 0);
    expect("2 2 1000000000\n", size_line, 0);
    expect("301 301 0\n", too_big, 0);
    expect("301 3 0\n", too_big, 0);
    expect("3 301 999999999\n", too_big, 0);
    expect("0 1 0\n", too_big, 0);
    expect("1 0 0\n", too_big, 0);
    expect("2 3 0\n", not_square, 0);
    expect("300 299 999999999\n", not_square, 0);
    expect("%c\n\n 2 1 1\nx\n", not_square, 4);
    expect("2 1 1\n", not_square, 0);
    expect("300 300 0\n", 0, 0);
    expect("2 2 5\n", count, at_end);
    expect("2 2 5\n1 1\n2 1\n2 2\n", count, at_end);
    expect("300 300 4001\n1 1\n", count, at_end);
    expect("2 2 999999999\n1 1\n", count, at_end);
    expect("2 2 999999999\n1 1\n1 1\n", repeated, 18);
    expect("2 2 999999999\n1 1\n1 3\n", off_matrix, 18);
    check_text(symmetric_banner + "2 3 0" + std::string(longest_text, '\n'), too_big, 0);
    check_text(banner_of("pattern", "symetric") + "2 3 0\n", banner, 0);
}

inline void check_symmetric_entries() {
    auto expect = [](const std::string& body, uint64_t number, uint64_t place) {
        check_body(symmetric_banner, body, number, place);
    };
    expect("2 2 1\n1 2\n", above_diagonal, 6);
    expect("2 2 1\n\n 1 2\n", above_diagonal, 7);
    expect("2 2 1\n1 2 1\n", entry_form, 6);
    expect("2 2 1\n1 3\n", off_matrix, 6);
    expect("2 2 1\n0 1\n", off_matrix, 6);
    expect("2 2 1\n3 1\n", off_matrix, 6);
    expect("2 2 2\n2 1\n2 1\n", repeated, 10);
    expect("2 2 2\n2 1\n1 2\n", above_diagonal, 10);
    expect("2 2 2\n1 2\n3 3\n", above_diagonal, 6);
    expect("2 2 1\n2 1\n1 2\n", count, 10);
    expect("2 2 1\n2 1\nx\n", count, 10);
    expect("2 2 2\n2 1\n", count, at_end);
    expect("2 2 0\n1 2\n", count, 6);
    expect("2 2 3\n2 1\n2 2\n1 1\n", 0, 0);
    const std::string& integer = symmetric_integer_banner;
    check_body(integer, "2 2 1\n1 2\n", entry_form, 6);
    check_body(integer, "2 2 1\n1 3 3\n", off_matrix, 6);
    check_body(integer, "2 2 1\n1 2 3\n", above_diagonal, 6);
    check_body(integer, "2 2 1\n2 1 3\n", part, 6);
    check_body(integer, "2 2 1\n2 2 0\n", part, 6);
    check_body(integer, "2 2 2\n2 1 1\n2 1 3\n", part, 12);
    check_body(integer, "2 2 2\n2 1 1\n2 1 2\n", repeated, 12);
    check_body(integer, "2 2 2\n2 1 1\n1 2 1\n", above_diagonal, 12);
    check_body(symmetric_real_banner, "2 2 1\n1 2 1e\n", entry_form, 6);
    check_body(symmetric_real_banner, "2 2 1\n1 2 1e5\n", above_diagonal, 6);
    check_body(symmetric_real_banner, "2 2 1\n2 1\n", entry_form, 6);
}

// The lines of `on` entries on the diagonal and `below` entries below it.
inline std::string triangle(uint64_t on, uint64_t below, const std::string& value) {
    std::string lines;
    for (uint64_t row = 1; row <= on; ++row)
        lines += std::to_string(row) + " " + std::to_string(row) + value + "\n";
    for (uint64_t row = 2; below > 0; ++row)
        for (uint64_t column = 1; column < row && below > 0; ++column, --below)
            lines += std::to_string(row) + " " + std::to_string(column) + value + "\n";
    return lines;
}

inline void check_opened_limit() {
    auto expect = [](uint64_t on, uint64_t below, uint64_t number) {
        std::string size = "%c\n\n300 300 " + std::to_string(on + below) + "\n";
        check_body(symmetric_banner, size + triangle(on, below, ""), number, 4);
        check_body(symmetric_integer_banner, size + triangle(on, below, " 2"), number, 4);
        check_body(symmetric_real_banner, size + triangle(on, below, " -.5E1"), number, 4);
    };
    expect(0, 2000, 0);
    expect(1, 1999, 0);
    expect(2, 1999, 0);
    expect(300, 1850, 0);
    expect(1, 2000, too_big);
    expect(0, 2001, too_big);
    expect(300, 1851, too_big);
    expect(0, 4000, too_big);
    const std::string over = triangle(0, 2001, "");
    check_body(symmetric_banner, "64 64 2001\n" + over, too_big, 0);
    check_body(symmetric_banner, "64 64 2002\n" + over, count, at_end);
    check_body(symmetric_banner, "64 64 2001\n" + over + "x\n", count, 11 + over.size());
    check_body(symmetric_banner, "64 64 2002\n" + over + "1 2\n", above_diagonal,
               11 + over.size());
    check_body(symmetric_banner, "120 120 7260\n" + triangle(120, 7140, ""), too_big, 0);
}

inline void check_opened_room() {
    const std::string three = "3 3 3\n3 1 2\n2 2 1\n3 2 2\n";   // opened: 5 nonzeros
    auto number = [](const std::string& text, size_t list_length, size_t parts_length) {
        ReadText read(text, list_length, parts_length);
        check(!read.answer.refused() || (read.list == std::vector<uint8_t>(list_length, 77) &&
                                         read.parts == std::vector<uint8_t>(parts_length, 77)),
              "slices stay");
        check(read.answer.number != short_buffer || read.answer.place == 0, "9 has place 0");
        return read.answer.number;
    };
    check(number(symmetric_integer_banner + three, 19, 5) == short_buffer, "list too short");
    check(number(symmetric_integer_banner + three, 20, 4) == short_buffer, "parts too short");
    check(number(symmetric_real_banner + three, 19, 0) == short_buffer, "real: list too short");
    check(number(symmetric_real_banner + three, 20, 0) == 0, "real without parts");
    check(number(symmetric_real_banner + "2 3 0\n", 0, 0) == not_square, "15 before 9");
    check(number(symmetric_banner + "2 2 1\n1 2\n", 0, 0) == above_diagonal, "16 before 9");
    check(number(symmetric_banner + "2 2 2\n1 1\n", 0, 0) == count, "7 before 9");
    check(number(symmetric_banner + "64 64 2001\n" + triangle(0, 2001, ""), 0, 0) == too_big,
          "4 for the opened N before 9");
    check(number(symmetric_banner + "1 1 0\n", 0, 0) == 0, "nothing to hold");
    check(number(real_banner + three, 11, 0) == short_buffer, "general: list too short");
    check(number(real_banner + "2 2 1\n1 1 x\n", 0, 0) == short_buffer, "general: 9 before 3");
    ReadText read(symmetric_integer_banner + three, 21, 6);
    check(!read.answer.refused() && read.content.nonzeros == 5, "opened out");
    Bytes opened = list_of({0, 2, 1, 1, 1, 2, 2, 0, 2, 1});
    opened.push_back(77);
    check(read.list == opened, "opened: list");
    check(read.parts == Bytes{1, 0, 1, 1, 1, 77}, "opened: parts");
}

inline Draft opened_out(Draft draft) {
    draft.shape = "general";
    for (size_t at = 0; at < draft.counted; ++at) {
        DraftEntry entry = draft.entries[at];
        std::swap(entry.row, entry.column);
        if (entry.row != entry.column) draft.entries.push_back(entry);
    }
    draft.counted = draft.entries.size();
    return draft;
}

inline Draft without_values(Draft draft) {
    draft.field = "pattern";
    for (DraftEntry& entry : draft.entries) entry.value.clear();
    return draft;
}

// The general text, without values if it would be too long with them.
inline std::string general_text(Random& random, const Draft& draft) {
    Layout bare{random, 0};
    std::string text = laid_out(bare, draft);
    bool too_long = draft.field == "real" && text.size() > longest_text;
    return too_long ? laid_out(bare, without_values(draft)) : text;
}

// A symmetric text reads as its opened form, a real one as without its values.
inline void check_random_forms(int texts) {
    Random random(6);
    Layout bare{random, 0};
    for (int at = 0; at < texts; ++at) {
        Layout layout{random, random.below(10)};
        bool symmetric = at % 4 != 0;
        Draft draft = random_draft(random, at % 50 < 2 ? most_side : at % 5 == 0 ? 30 : 8, symmetric);
        Draft opened = symmetric ? opened_out(draft) : draft;
        std::string text = laid_out(layout, draft), general = general_text(random, opened);
        if (text.size() > longest_text) text = general;
        ReadText read(text);
        bool over = opened.counted > most_nonzeros;
        check(over ? read.answer.number == too_big : !read.answer.refused(), "a random text");
        check(over || read.content.nonzeros == opened.counted, "N of a random text");
        check(same_reading(read, ReadText(general)), "read as the opened text");
        if (draft.field == "real")
            check(same_reading(read, ReadText(laid_out(bare, without_values(draft)))),
                  "read as the text without values");
        const std::string request = "percent 10 budget 100\n";
        if (at % 10 == 1 && !over)
            check_split(request + text, split_with_both(request + general));
    }
}

}  // namespace tests
