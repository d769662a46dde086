// The writer, and its texts read back.
#pragma once

#include "random_samples.hpp"
#include "texts.hpp"

namespace tests {

inline void check_writer() {
    Bytes parts = {0, 1}, out(300, 77);
    CommentFigures figures{0, {1, 20}, 3, 11, 0, 1};
    auto write = [&](List list, size_t parts_length, size_t out_length) {
        size_t length = 0;
        Answer answer = write_text(list, parts.data(), parts_length, figures, out.data(),
                                   out_length, length);
        return answer.refused() ? answer.number + 256 * answer.place : 1000 + length;
    };
    Bytes bytes = list_of({0, 0, 1, 1});
    const std::string wanted = integer_banner + "% volume 0 caps 1 20 rest 3 tries 11 floor 0 complete\n"
                                                "2 2 2\n1 1 1\n2 2 2\n";
    check(write({3, 2, 7, bytes.data(), 8}, 0, 0) == too_big, "writer: 4");
    check(write({2, 2, 2, bytes.data(), 7}, 2, 300) == short_buffer, "writer: 9 for the list");
    check(write({2, 1, 2, bytes.data(), 8}, 1, 300) == short_buffer, "writer: 9 for parts");
    check(write({2, 1, 2, bytes.data(), 8}, 2, 0) == off_matrix + 256, "writer: 5");
    check(write({2, 2, 2, bytes.data(), 8}, 2, wanted.size() - 1) == short_buffer, "writer: 9");
    check(out == Bytes(300, 77), "writer: output stays");
    check(write({2, 2, 2, bytes.data(), 8}, 2, 300) == 1000 + wanted.size(), "writer: length");
    check(std::string(out.begin(), out.begin() + long(wanted.size())) == wanted, "writer: text");
    check(out[wanted.size()] == 77, "writer: bytes past the text stay");
    bytes = list_of({0, 0, 0, 0});
    check(write({2, 2, 2, bytes.data(), 8}, 2, 0) == order + 256, "writer: 10");
    parts = {0, 2};
    check(write({2, 2, 2, bytes.data(), 8}, 2, 0) == order + 256, "writer: 10 before 8");
    parts = {2, 2};
    check(write({2, 2, 2, bytes.data(), 8}, 2, 0) == part, "writer: 8 of an earlier nonzero");
    constexpr uint64_t most = UINT64_MAX;
    figures = {most, {most, most}, most, most, most, 0};
    parts = {0, 0};
    const std::string bare = integer_banner + "% volume  caps   rest  tries  floor  stopped\n1 1 0\n";
    check(write({1, 1, 0, nullptr, 0}, 0, 300) == 1000 + bare.size() + 6 * 20, "writer: widest");
}

// 4,000 nonzeros in rows and columns of three digits, with the widest figures.
inline void check_longest_writing() {
    constexpr uint64_t most = UINT64_MAX;
    CommentFigures figures{most, {most, most}, most, most, most, 1};
    Bytes list, parts(4000, 1), out(longest_text);
    for (uint64_t at = 0; at < 4000; ++at) add_cell(list, {99 + at / 200, 100 + at % 200});
    size_t length = 0, expected = integer_banner.size() + 6 * 20 + 4000 * 10;
    expected += std::string("% volume  caps   rest  tries  floor  complete\n300 300 4000\n").size();
    Answer answer = write_text({300, 300, 4000, list.data(), list.size()}, parts.data(),
                               parts.size(), figures, out.data(), out.size(), length);
    check(!answer.refused() && length == expected && length <= longest_text, "the longest text");
    std::string text(out.begin(), out.begin() + long(length));
    check(text.find("\n100 300 2\n101 101 2\n") != std::string::npos, "entries of ten bytes");
    ReadText read(text);
    check(!read.answer.refused() && read.list == list && read.parts == parts, "read back");
}

inline void check_round_trips(int patterns) {
    Random random(5);
    for (int at = 0; at < patterns; ++at) {
        Sample sample = random_sample(random, at % 4 == 0 ? most_side : 6, most_nonzeros);
        Bytes parts(sample.nonzeros()), list_back(entry_size * most_nonzeros);
        Bytes parts_back(most_nonzeros), out(longest_text);
        for (uint8_t& byte : parts) byte = uint8_t(random.below(2));
        size_t length = 0;
        Answer answer = write_text(sample.list(), parts.data(), parts.size(),
                                   {1, {2, 3}, 4, 5, 6, 7}, out.data(), out.size(), length);
        TextContent content;
        Answer back = read_text({reinterpret_cast<char*>(out.data()), length}, list_back.data(),
                                list_back.size(), parts_back.data(), parts_back.size(), content);
        list_back.resize(sample.bytes.size());
        parts_back.resize(parts.size());
        check(!answer.refused() && !back.refused() && list_back == sample.bytes &&
                  parts_back == parts && content.rows == sample.rows &&
                  content.columns == sample.columns, "a text read back");
    }
}

}  // namespace tests
