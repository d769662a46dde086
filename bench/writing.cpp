// Times a listing of 2,000 nonzeros with the largest figures, written by the
// program `listing` of one revision and by that of another, and one of 4,000
// nonzeros written by the other alone, and compares every byte that they print
// with the writer of baseline/text.hpp: of the earlier revision every byte but
// those of the comment, which had other figures.
//
// Usage: writing BEFORE AFTER [LISTINGS], with 5,000 listings a run if left
// out. The programs run in turn. Times are processor time; the quickest of nine
// runs counts, and the slowest is given as well.
#include "baseline/text.hpp"
#include "running.hpp"

#include <algorithm>
#include <vector>

namespace {

constexpr int rounds = 9;

// A square pattern: so many nonzeros in each row, one in each stretch of columns.
struct Shape {
    uint64_t side, nonzeros, in_row, stretch;
};

constexpr Shape at_earlier_limits = {120, 2000, 17, 7};
constexpr Shape at_limits = {baseline::most_side, baseline::most_nonzeros, 14, 21};

// Columns and parts follow no short period, so that their digits are not easily
// guessed from those before.
std::string listing_with(const Shape& shape, uint64_t figure) {
    std::vector<uint8_t> bytes, parts;
    for (uint64_t at = 0; at < shape.nonzeros; ++at) {
        uint64_t odd = at * at / 8, column = shape.stretch * (at % shape.in_row);
        baseline::add_cell(bytes, {at / shape.in_row, column + odd % shape.stretch});
        parts.push_back(uint8_t(odd % 2));
    }
    baseline::List list{shape.side, shape.side, shape.nonzeros, bytes.data(), bytes.size()};
    return baseline::written_text(list, parts.data(),
                                  {figure, {figure, figure}, figure, figure, figure, true});
}

// The input of `listing`: a number of seven digits on a line, and a text.
std::string order(const Shape& shape, uint64_t listings) {
    std::string number = std::to_string(listings);
    return std::string(7 - number.size(), '0') + number + "\n" + listing_with(shape, 0);
}

// A text without its second line.
std::string without_comment(const std::string& text) {
    size_t first = text.find('\n') + 1, second = text.find('\n', first) + 1;
    return text.substr(0, first) + text.substr(second);
}

// A program with a listing for it to write.
struct Writer {
    const char* name;
    char* path;
    bool earlier;
    const Shape& shape;
    std::string input, expected;
    std::vector<double> seconds;
    Writer(const char* name, char* path, bool earlier, const Shape& shape, uint64_t listings)
        : name(name), path(path), earlier(earlier), shape(shape), input(order(shape, listings)),
          expected(listing_with(shape, UINT64_MAX)) {}
    double quickest() const { return *std::min_element(seconds.begin(), seconds.end()); }
    double slowest() const { return *std::max_element(seconds.begin(), seconds.end()); }
};

// One run; says if it printed what it should.
bool run_once(Run& run, Writer& writer) {
    start(run, writer.path, writer.input);
    std::string printed = finish(run);
    writer.seconds.push_back(run.seconds);
    return writer.earlier ? without_comment(printed) == without_comment(writer.expected)
                          : printed == writer.expected;
}

void print(const std::vector<Writer>& writers, double listings) {
    std::printf("| writer | nonzeros | bytes | microseconds a listing | slowest | times before |\n"
                "|---|---|---|---|---|---|\n");
    for (const Writer& writer : writers)
        std::printf("| %s | %llu | %zu | %.1f | %.1f | %.2f |\n", writer.name,
                    (unsigned long long)writer.shape.nonzeros, writer.expected.size(),
                    1e6 * writer.quickest() / listings, 1e6 * writer.slowest() / listings,
                    writer.quickest() / writers[0].quickest());
}

}  // namespace

int main(int count, char** words) {
    uint64_t listings = count > 3 ? std::strtoull(words[3], nullptr, 10) : 5000;
    if (count < 3 || listings < 1 || listings > 9999999) {
        std::printf("usage: writing BEFORE AFTER [LISTINGS], with 1 to 9,999,999 listings\n");
        return 2;
    }
    std::vector<Writer> writers = {{"before", words[1], true, at_earlier_limits, listings},
                                   {"after", words[2], false, at_earlier_limits, listings},
                                   {"after", words[2], false, at_limits, listings}};
    Run run;
    int compared = 0, differing = 0;
    for (; compared < rounds * int(writers.size()); ++compared)
        differing += !run_once(run, writers[size_t(compared) % writers.size()]);
    print(writers, double(listings));
    std::printf("%d texts compared, %d differ\n", compared, differing);
    return differing == 0 ? 0 : 1;
}
