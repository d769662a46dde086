// Gives the program `split` and the function `split` of baseline/text.hpp the
// same random input and compares every byte of their answers.
//
// Usage: compare_texts PROGRAM [CASES [SEED]]. The last line is
// "N compared, 0 differ".
#include "random_texts.hpp"
#include "running.hpp"

#include <iostream>
#include <map>

namespace {

constexpr size_t runs_at_once = 8;

struct Tally {
    uint64_t compared = 0, differing = 0;
    std::map<std::string, uint64_t> answers;   // by kind
};

std::string kind(const std::string& answer) {
    if (answer.compare(0, 8, "refused ") == 0) return answer.substr(0, answer.find(" at"));
    if (answer.compare(0, 8, "none yet") == 0) return "none yet";
    return answer.find("complete\n") == std::string::npos ? "stopped" : "complete";
}

// The first bytes, each as it is or by number.
void describe(const std::string& bytes) {
    for (char byte : bytes.substr(0, 400))
        if (byte == '\n' || (byte >= ' ' && byte <= '~')) std::cout << byte;
        else std::cout << "\\" << int(uint8_t(byte)) << ";";
    std::cout << "\n";
}

void compare(const std::string& input, const std::string& found, Tally& tally) {
    std::string expected = baseline::split(baseline::incremental(), input);
    ++tally.compared;
    ++tally.answers[kind(expected)];
    if (found == expected || ++tally.differing > 10) return;
    std::cout << "differs, input of " << input.size() << " bytes:\n";
    describe(input);
    std::cout << "the program answers:\n";
    describe(found);
    std::cout << "expected:\n";
    describe(expected);
}

void start_all(std::vector<Run>& runs, char* program, const std::vector<std::string>& inputs) {
    for (size_t at = 0; at < inputs.size(); ++at) start(runs[at], program, inputs[at]);
}

void compare_all(std::vector<Run>& runs, const std::vector<std::string>& inputs, Tally& tally) {
    for (size_t at = 0; at < inputs.size(); ++at) compare(inputs[at], finish(runs[at]), tally);
}

void print(const Tally& tally) {
    for (const auto& [answer, times] : tally.answers) std::cout << answer << ": " << times << "\n";
    std::cout << tally.compared << " compared, " << tally.differing << " differ\n";
}

}  // namespace

int main(int count, char** words) {
    if (count < 2) {
        std::cout << "usage: compare_texts PROGRAM [CASES [SEED]]\n";
        return 2;
    }
    uint64_t cases = count > 2 ? std::strtoull(words[2], nullptr, 10) : 20000;
    uint64_t seed = count > 3 ? std::strtoull(words[3], nullptr, 10) : 1;
    Random random(seed);
    std::vector<Run> runs(runs_at_once);
    std::vector<std::string> inputs;
    Tally tally;
    for (uint64_t number = 0; number < cases; ++number) {
        inputs.push_back(random_request(random, number));
        if (inputs.size() < runs_at_once && number + 1 < cases) continue;
        start_all(runs, words[1], inputs);
        compare_all(runs, inputs, tally);
        inputs.clear();
    }
    print(tally);
    return tally.differing == 0 ? 0 : 1;
}
