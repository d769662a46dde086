// The program `split`.
#pragma once

#include "matrices.hpp"
#include "texts.hpp"

namespace tests {

inline std::string split_with_both(const std::string& input) {
    std::string a = split(plain(), input), b = split(incremental(), input);
    check(a == b, "split with both walks");
    return a;
}

inline void check_split(const std::string& input, const std::string& output) {
    std::string found = split_with_both(input);
    check(found == output, "split of:\n" + input.substr(0, 200) + "\ngives: " + found);
}

// An odd number of nonzeros: at 0 percent the cap is half of them, rounded up.
inline void check_odd_splits() {
    auto solved = [](const std::string& figures, const std::string& body) {
        return integer_banner + "% " + figures + " complete\n" + body;
    };
    const std::string one = pattern_banner + "1 1 1\n1 1\n";
    const std::string row = pattern_banner + "1 3 3\n1 3\n1 1\n1 2\n";
    const std::string column = pattern_banner + "3 1 3\n3 1\n1 1\n2 1\n";
    check_split("percent 0 budget 100\n" + one,
                solved("volume 0 caps 1 1 rest 0 tries 5 floor 0", "1 1 1\n1 1 1\n"));
    check_split("percent 100 budget 100\n" + one,
                solved("volume 0 caps 2 2 rest 0 tries 5 floor 0", "1 1 1\n1 1 1\n"));
    check_split("percent 0 budget 1000001\n" + one, "refused 13 at 0\n");
    check_split("percent 101 budget 1000001\n" + one, "refused 11 at 0\n");
    for (auto [percent, rest] : {std::pair{"0", "0"}, {"33", "66"}, {"49", "98"}}) {
        const std::string capped = "caps 2 2 rest " + std::string(rest);
        const std::string command = "percent " + std::string(percent);
        check_split(command + " budget 100\n" + row,
                    solved("volume 1 " + capped + " tries 10 floor 1", "1 3 3\n1 1 1\n1 2 1\n1 3 2\n"));
        check_split(command + " budget 0\n" + row, "none yet " + capped + " tries 0 floor 1\n");
    }
    check_split("percent 0 budget 100\n" + column,
                solved("volume 1 caps 2 2 rest 0 tries 10 floor 1", "3 1 3\n1 1 1\n2 1 1\n3 1 2\n"));
    check_split("percent 100 budget 100\n" + row,
                solved("volume 0 caps 4 4 rest 0 tries 11 floor 0", "1 3 3\n1 1 1\n1 2 1\n1 3 1\n"));
    check_split("percent 0 budget 100\n" + symmetric_banner + "2 2 2\n2 1\n2 2\n",
                solved("volume 1 caps 2 2 rest 0 tries 11 floor 1", "2 2 3\n1 2 2\n2 1 1\n2 2 1\n"));
}

inline void check_splits(const std::string& data) {
    const std::string two = pattern_banner + "2 2 2\n2 2\n1 1\n";
    const std::string solved = integer_banner + "% volume 0 caps 1 1 rest 0 tries 11 floor 0 complete\n"
                                                "2 2 2\n1 1 1\n2 2 2\n";
    check_split("percent 0 budget 100\n" + two, solved);
    check_split("percent 000 budget 000000100\n" + two, solved);
    check_split("percent 0 budget 3\n" + two, "none yet caps 1 1 rest 0 tries 3 floor 0\n");
    check_split("percent 0 budget 0\n" + two, "none yet caps 1 1 rest 0 tries 0 floor 0\n");
    for (const char* line : {"", "percent 0 budget 100", "percent 0 budget 100\r\n",
                             "percent  0 budget 100\n", "percent 0 budget 100 \n",
                             " percent 0 budget 100\n", "Percent 0 budget 100\n",
                             "percent 0000000000 budget 1\n", "percent 0 budget 1000000000\n",
                             "percent -1 budget 1\n", "percent  budget 1\n", "percent 0\n",
                             "percent 0 budget \n", "\n"})
        check_split(line + two, "refused 3 at 0\n");
    check_split("percent 101 budget 1000001\n" + two, "refused 11 at 0\n");
    check_split("percent 0 budget 1000001\n" + two, "refused 13 at 0\n");
    check_split("percent 999999999 budget 999999999\n" + two + "1", "refused 7 at 63\n");
    check_odd_splits();
    check_split("percent 0 budget 1\n", "refused 1 at 0\n");
    check_split("percent 0 budget 1\n" + std::string(longest_text + 1, ' '), "refused 4 at 0\n");
    check_split("percent 0 budget 5\n" + pattern_banner + "2 3 0\n",
                integer_banner + "% volume 0 caps 0 0 rest 0 tries 0 floor 0 complete\n2 3 0\n");
    const std::string start = "percent 0 budget 100\n";
    check_split(start + symmetric_real_banner + "2 2 2\n2 2 0\n1 1 -1e3\n", solved);
    check_split(start + symmetric_integer_banner + "2 2 2\n2 2 1\n1 1 1\n", solved);
    check_split(start + real_banner + "2 2 2\n2 2 .5\n1 1 7.\n", solved);
    check_split(start + symmetric_banner + "2 3 0\n", "refused 15 at 51\n");
    check_split(start + symmetric_banner + "2 2 1\n1 2\n", "refused 16 at 57\n");
    check_split("percent 101 budget 0\n" + symmetric_banner + "2 2 1\n2 1\n", "refused 11 at 0\n");
    check_split(start + pattern_banner + "300 300 2\n300 300\n256 257\n",
                integer_banner + "% volume 0 caps 1 1 rest 0 tries 11 floor 0 complete\n"
                                 "300 300 2\n256 257 1\n300 300 2\n");
    check_split(start + pattern_banner + "301 300 0\n", "refused 4 at 49\n");
    check_split(start + pattern_banner + "300 300 1\n513 1\n", "refused 5 at 59\n");
    check_split("percent 0 budget 0\n" + symmetric_banner + "2 2 2\n2 1\n1 1\n",
                "none yet caps 2 2 rest 0 tries 0 floor 1\n");
    const std::string all = "percent 3 budget 1000000\n";
    std::string karate = split_with_both(all + file_bytes(data + "/karate.mtx"));
    check(karate.find("% volume 8 caps 80 80 rest 34 tries 24934 floor 8 complete\n34 34 156\n") ==
              integer_banner.size(), "split of karate");
    check(split_with_both(all + karate) == karate, "parts are unused");
}

}  // namespace tests
