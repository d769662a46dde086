// The program `split` over either walk: split [plain | incremental]
#include "baseline/text.hpp"

#include <iostream>
#include <iterator>

int main(int count, char** words) {
    bool plainly = count > 1 && std::string_view(words[1]) == "plain";
    std::string input{std::istreambuf_iterator<char>(std::cin), {}};
    std::cout << baseline::split(plainly ? baseline::plain() : baseline::incremental(), input);
}
