// Texts: first line, size line and entries, refusals with their places, lengths.
#pragma once

#include "checking.hpp"

namespace tests {

inline std::string banner_of(const std::string& field, const std::string& shape) {
    return "%%MatrixMarket matrix coordinate " + field + " " + shape + "\n";
}

inline const std::string pattern_banner = banner_of("pattern", "general");
inline const std::string integer_banner = banner_of("integer", "general");
inline const std::string real_banner = banner_of("real", "general");
inline const std::string symmetric_banner = banner_of("pattern", "symmetric");
inline const std::string symmetric_integer_banner = banner_of("integer", "symmetric");
inline const std::string symmetric_real_banner = banner_of("real", "symmetric");

// A text read into slices that were filled before.
struct ReadText {
    std::vector<uint8_t> list, parts;
    TextContent content;
    Answer answer;
    ReadText(const std::string& text, size_t list_length, size_t parts_length)
        : list(list_length, 77), parts(parts_length, 77),
          answer(read_text(text, list.data(), list_length, parts.data(), parts_length, content)) {}
    explicit ReadText(const std::string& text)
        : ReadText(text, entry_size * most_nonzeros, most_nonzeros) {}
};

inline bool same_reading(const ReadText& a, const ReadText& b) {
    return a.answer.number == b.answer.number && a.list == b.list && a.parts == b.parts &&
           a.content.rows == b.content.rows && a.content.columns == b.content.columns &&
           a.content.nonzeros == b.content.nonzeros;
}

inline void check_text(const std::string& text, uint64_t number, uint64_t place) {
    Bytes list(entry_size * most_nonzeros, 77), parts(most_nonzeros, 77);
    Bytes list_before = list, parts_before = parts;
    TextContent content;
    Answer answer = read_text(text, list.data(), list.size(), parts.data(), parts.size(), content);
    check(answer.number == number && answer.place == place,
          "text refused " + std::to_string(answer.number) + " at " +
              std::to_string(answer.place) + ":\n" + text.substr(0, 200));
    if (number != 0) check(list == list_before && parts == parts_before, "buffers stay");
}

inline void check_banners() {
    const std::string rest = "1 1 1\n1 1\n";
    check_text("", banner, 0);
    check_text("\n" + pattern_banner + rest, banner, 0);
    check_text(" " + pattern_banner + rest, banner, 0);
    check_text("%%matrixmarket matrix coordinate pattern general\n" + rest, banner, 0);
    check_text("%%MatrixMarket MATRIX\tCoordinate  PaTTern GENERAL \t\n" + rest, 0, 0);
    check_text("%%MatrixMarket matrix coordinate pattern general\r\n" + rest, 0, 0);
    check_text("%%MatrixMarket matrix coordinate pattern general\r\r\n" + rest, banner, 0);
    check_text("%%MatrixMarket matrix coordinate pattern general\r", banner, 0);
    check_text("%%MatrixMarket matrix array pattern general\n" + rest, banner, 0);
    check_text("%%MatrixMarket matrix coordinate pattern general more\n" + rest, banner, 0);
    check_text("%%MatrixMarket matrix coordinate pattern generals\n" + rest, banner, 0);
    check_text("%%MatrixMarketmatrix coordinate pattern general\n" + rest, banner, 0);
    check_text("%%MatrixMarket matrix coordinatepattern general\n" + rest, banner, 0);
    check_text("%%MatrixMarket matrix coordinate pattern\n" + rest, banner, 0);
    check_text("%%MatrixMarket\nmatrix coordinate pattern general\n" + rest, banner, 0);
}

// `body` follows the banner; a place counts from behind it, except that
// `at_end` stands for the text's length.
constexpr uint64_t at_end = UINT64_MAX;

inline void check_body(const std::string& banner, const std::string& body, uint64_t number,
                uint64_t place) {
    std::string text = banner + body;
    check_text(text, number, number == 0 ? 0 : place == at_end ? text.size()
                                                               : banner.size() + place);
}

inline void check_body(const std::string& body, uint64_t number, uint64_t place) {
    check_body(pattern_banner, body, number, place);
}

inline void check_size_lines() {
    check_text(pattern_banner.substr(0, pattern_banner.size() - 1), size_line,
               pattern_banner.size() - 1);
    check_body("", size_line, at_end);
    check_body("\n  \n\t\r\n", size_line, at_end);
    check_body("% only a comment", size_line, at_end);
    check_body("1 1\n", size_line, 0);
    check_body("1 1 1 1\n", size_line, 0);
    check_body("1 1 x\n", size_line, 0);
    check_body("1 1 -1\n", size_line, 0);
    check_body("1 1 1x\n", size_line, 0);
    check_body("1 1 1\r", size_line, 0);
    check_body("\n % no comment\n1 1 0\n", size_line, 1);
    check_body("1 1 0000000001\n1 1\n", size_line, 0);
    check_body("1 1 000000001\n1 1\n", 0, 0);
    check_body("%\xff\x01 any \r bytes\n%\n\n \t1\t 1 1 \n1 1", 0, 0);
    check_body("0 1 0\n", too_big, 0);
    check_body("1 0 0\n", too_big, 0);
    check_body("301 1 0\n", too_big, 0);
    check_body("1 301 0\n", too_big, 0);
    check_body("300 300 4001\n", too_big, 0);
    check_body("65537 1 0\n", too_big, 0);
    check_body("2 3 7\n", too_big, 0);
    check_body("999999999 999999999 999999999\n", too_big, 0);
    check_body("300 300 0\n", 0, 0);
    check_body("300 300 0", 0, 0);
    check_body("%c\n% d\n\n 2 2 5\n", too_big, 8);
}

inline void check_entries() {
    check_body("2 2 1\n", count, at_end);
    check_body("2 2 2\n1 1\n", count, at_end);
    check_body("2 2 2\n1 1\n\n \n", count, at_end);
    check_body("2 2 1\n1\n", entry_form, 6);
    check_body("2 2 1\n1 1 1\n", entry_form, 6);
    check_body("2 2 1\n1 1x\n", entry_form, 6);
    check_body("2 2 1\n1 +1\n", entry_form, 6);
    check_body("2 2 1\n%c\n1 1\n", entry_form, 6);
    check_body("2 2 1\n\n  x\n", entry_form, 7);
    check_body("2 2 1\n1 1\r", entry_form, 6);
    check_body("2 2 1\n1 0000000001\n", entry_form, 6);
    check_body("2 2 1\n  1 \t 1  \r\n", 0, 0);
    check_body("2 2 1\n3 1\n", off_matrix, 6);
    check_body("2 2 1\n1 3\n", off_matrix, 6);
    check_body("2 2 1\n0 1\n", off_matrix, 6);
    check_body("2 2 1\n1 0\n", off_matrix, 6);
    check_body("2 2 2\n1 1\n1 1\n", repeated, 10);
    check_body("2 2 2\n1 1\n01 001\n", repeated, 10);
    check_body("2 2 2\n2 2\n1 1\n", 0, 0);
    check_body("2 2 1\n1 1\nx\n", count, 10);
    check_body("2 2 1\n1 1\n%\n", count, 10);
    check_body("2 2 1\n1 1\n\n2 2\n", count, 11);
    check_body("2 2 1\n1 1\n\r", count, 10);
    check_body("2 2 1\n1 1\n\r\n", 0, 0);
    check_body("2 2 0\n1 1\n", count, 6);
    check_text(integer_banner + "2 2 1\n1 1\n", entry_form, 55);
    check_text(integer_banner + "2 2 1\n1 1 0\n", part, 55);
    check_text(integer_banner + "2 2 1\n1 1 3\n", part, 55);
    check_text(integer_banner + "2 2 1\n3 1 3\n", off_matrix, 55);
    check_text(integer_banner + "2 2 2\n1 1 1\n1 1 3\n", part, 61);
    check_text(integer_banner + "2 2 2\n1 1 1\n1 1 2\n", repeated, 61);
    check_text(integer_banner + "2 2 2\n2 1 2\n1 1 1\n", 0, 0);
}

// Numbers past a byte. A text has no split numbers.
inline void check_wide_entries() {
    check_body("2 2 1\n257 1\n", off_matrix, 6);
    check_body("2 2 1\n513 65537\n", off_matrix, 6);
    check_body("300 300 1\n301 1\n", off_matrix, 10);
    check_body("300 300 1\n1 301\n", off_matrix, 10);
    check_body("300 300 1\n65536 513\n", off_matrix, 10);
    check_body("300 300 3\n300 300\n300 44\n44 300\n", 0, 0);
    check_body("300 300 2\n300 44\n300 44\n", repeated, 17);
    check_body("257 256 2\n257 256\n1 256\n", 0, 0);
}

inline void check_text_lengths() {
    std::string text = pattern_banner + "1 1 1\n1 1\n";
    check_text(text + std::string(longest_text - text.size(), '\n'), 0, 0);
    check_text(text + std::string(longest_text - text.size() + 1, '\n'), too_big, 0);
    check_text(std::string(longest_text + 1, 'x'), too_big, 0);
    Bytes list(8, 77), parts(2, 77);
    TextContent content;
    std::string two = "2 2 2\n2 2 1\n1 1 2\n";
    auto read = [&](const std::string& given, size_t list_length, size_t parts_length) {
        return read_text(given, list.data(), list_length, parts.data(), parts_length, content)
            .number;
    };
    check(read(integer_banner + two, 7, 2) == short_buffer, "list too short");
    check(read(integer_banner + two, 4, 2) == short_buffer, "half a list");
    check(read(integer_banner + two, 8, 1) == short_buffer, "parts too short");
    check(read(integer_banner + "2 2 5\n", 0, 0) == too_big, "4 before 9");
    check(read(integer_banner + "2 2 2\nx", 0, 0) == short_buffer, "9 before 3");
    check(list == Bytes(8, 77), "the list stays");
    check(read(integer_banner + two, 8, 2) == 0, "long enough");
    check(list == Bytes{0, 0, 0, 0, 1, 0, 1, 0} && parts == Bytes{1, 0}, "sorted");
    parts.assign(2, 77);
    check(read(pattern_banner + "2 2 2\n2 2\n1 2\n", 8, 0) == 0, "pattern without parts");
    check(list == Bytes{0, 0, 1, 0, 1, 0, 1, 0} && parts == Bytes{77, 77}, "stay");
    check(read(pattern_banner + "300 300 2\n300 257\n257 256\n", 8, 0) == 0, "past a byte");
    check(list == Bytes{0, 1, 255, 0, 43, 1, 0, 1}, "past a byte, lowest first");
}

}  // namespace tests
