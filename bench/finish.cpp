// Runs a search to its end, a million tries a call, and says how it ended and how
// many looks its matchings took.
// Usage: finish PERCENT [plain | incremental], with a pattern text on
// standard input.
#include "baseline/text.hpp"

#include <cstdio>
#include <cstdlib>
#include <ctime>
#include <iostream>
#include <iterator>

using namespace baseline;

int main(int count, char** words) {
    if (count < 2) {
        std::printf("usage: finish PERCENT [plain | incremental]\n");
        return 2;
    }
    const Walk& walk = count > 2 && std::string_view(words[2]) == "plain" ? plain() : incremental();
    std::string text{std::istreambuf_iterator<char>(std::cin), {}};
    std::vector<uint8_t> bytes(entry_size * most_nonzeros), parts(most_nonzeros);
    TextContent content;
    Record record;
    Capped capped;
    Answer answer = read_text(text, bytes.data(), bytes.size(), parts.data(), parts.size(), content);
    List list{content.rows, content.columns, content.nonzeros, bytes.data(), bytes.size()};
    uint64_t percent = std::strtoull(words[1], nullptr, 10);
    if (!answer.refused()) answer = cap_from_percent(content.nonzeros, percent, capped);
    if (!answer.refused()) answer = open(list, equal_caps(capped.cap), record);
    while (!answer.refused() && !record.complete) answer = run(walk, list, record, most_budget);
    Shown shown;
    if (!answer.refused()) answer = show(walk, list, record, parts.data(), parts.size(), shown);
    if (answer.refused()) {
        std::printf("refused %llu at %llu\n", (unsigned long long)answer.number,
                    (unsigned long long)answer.place);
        return 1;
    }
    CommentFigures figures{shown.volume, record.caps, capped.rest, record.tries, shown.floor, 1};
    std::printf("volume %llu %s complete, looks %llu, %.2f processor seconds\n",
                (unsigned long long)shown.volume, written_figures(figures).c_str(),
                (unsigned long long)record.looks, double(std::clock()) / CLOCKS_PER_SEC);
}
