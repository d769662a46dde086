// Gives the program `search_tests` random searches, each to be run in pieces, and
// compares every byte that it prints, the answer of each run and the record and
// showing after each piece, with what both walks say.
//
// Usage: compare_walks PROGRAM [SEARCHES [SEED]]. The last line is
// "N searches in pieces compared, 0 differ".
#include "paths.hpp"
#include "random.hpp"
#include "running.hpp"

#include <iostream>
#include <map>
#include <sstream>

using namespace baseline;

namespace {

constexpr size_t runs_at_once = 4;
constexpr size_t most_input = 65536;   // bytes that the program reads

// A run of a budget, or a number or the trail replaced.
struct Piece {
    enum Kind { ran, tries_put, looks_put, trail_put } kind;
    uint64_t number = 0;
    Marking trail = {};
};

// A pattern with caps that open it, and what its search goes through.
struct Search {
    uint64_t rows = 0, columns = 0;
    Caps caps = {0, 0};
    std::vector<uint8_t> bytes;
    std::vector<Piece> pieces;
    uint64_t nonzeros() const { return bytes.size() / entry_size; }
    List list() const { return {rows, columns, nonzeros(), bytes.data(), bytes.size()}; }
};

std::string letters_of(const Marking& marking) {
    std::string letters;
    for (Mark mark : marking) letters += mark == mark_cut ? 'c' : char('0' + mark);
    return letters;
}

// ---- random searches

// The most lines on a side of a pattern: small, middling and large ones. In those
// of less than 6 lines on a side conflicts are rare.
uint64_t random_side(Random& random, uint64_t number) {
    if (number % 1000 == 500) return most_side;
    if (number % 400 == 0) return 120;
    if (number % 10 == 0) return 30;
    return random.chance(20) ? random.between(1, 5) : random.between(6, 16);
}

// Of the largest patterns, the rows, the columns or both have numbers past a byte.
void draw_sizes(Random& random, uint64_t side, bool sparse, Search& search) {
    uint64_t least = sparse ? (side + 1) / 2 : 1, past_byte = random.below(3);
    auto lines = [&](bool past) { return random.between(past ? 257 : least, side); };
    search.rows = lines(side == most_side && past_byte != 0);
    search.columns = lines(side == most_side && past_byte != 1);
}

// Most have twice to five times as many nonzeros as lines on a side: there
// conflicts are frequent.
void draw_pattern(Random& random, uint64_t side, Search& search) {
    bool sparse = random.chance(75);
    draw_sizes(random, side, sparse, search);
    uint64_t most = std::min(search.rows * search.columns, most_nonzeros);
    uint64_t nonzeros = random.below(most + 1);
    if (sparse) nonzeros = std::min(most, random.between(2 * side, 5 * side));
    search.bytes = random_list(random, search.rows, search.columns, nonzeros);
    search.caps = random_accepted_caps(random, nonzeros);
}

// Small patterns may be run to their end in one piece; the conflicts of a large path
// are met within the first tries, and more of these take long.
uint64_t random_budget(Random& random, uint64_t side, bool large_path) {
    if (random.chance(3)) return random.chance(50) ? most_budget + 1 : UINT64_MAX;
    if (large_path) return random.below(4);
    if (side <= 6 && random.chance(10)) return most_budget;
    switch (random.below(8)) {
    case 0: return 0;
    case 1:
    case 2: return 1;
    case 3:
    case 4: return random.below(20);
    case 5: return random.below(120);
    default: return random.below(500);
    }
}

// A mark for one line more of a marking, with which it stays valid unless it is
// careless. With equal caps the first mark other than cut is 0.
Mark random_mark(Random& random, const Pattern& pattern, const Caps& caps, LineMarks& marks,
                 int line, bool first) {
    Mark& mark = marks[line];
    bool careless = random.chance(1);
    mark = Mark(random.chance(40) ? 2 : random.below(2));
    if (careless) return mark;
    if (first && mark == mark_1 && caps[0] == caps[1]) mark = mark_0;
    if (!plain().evaluate(pattern, caps, marks).valid) mark = mark_cut;
    return mark;
}

// The first lines marked; at most the 16 that a case can hold.
Piece random_trail(Random& random, const Pattern& pattern, const Caps& caps) {
    Piece piece{Piece::trail_put};
    LineMarks marks;
    marks.fill(unmarked);
    uint64_t length = random.between(1, std::min<size_t>(pattern.depth(), 16));
    bool first = true;
    for (uint64_t at = 0; at < length; ++at) {
        Mark mark = random_mark(random, pattern, caps, marks, pattern.order[at], first);
        first = first && mark == mark_cut;
        piece.trail.push_back(mark);
    }
    return piece;
}

// Tries about their limit, with the most looks that 14 allows for them, or one more.
void draw_limits(Random& random, Search& search) {
    uint64_t tries = random.chance(50) ? most_tries - 20 + random.below(22) : random.below(1000);
    uint64_t looks = tries * search.rows * search.nonzeros();
    search.pieces.push_back({Piece::tries_put, tries});
    search.pieces.push_back({Piece::looks_put, looks + random.below(2)});
}

// A pattern on which the search for the matching takes long paths.
void draw_path(Random& random, bool large, Search& search) {
    Path path(random, large);
    search.rows = search.columns = path.side;
    search.bytes = path.list;
    search.caps = path.caps;
}

// One in which many lines have equally many nonzeros.
void draw_full(Random& random, Search& search) {
    Full full(random);
    search.rows = full.rows;
    search.columns = full.columns;
    search.bytes = full.list;
    search.caps = random_accepted_caps(random, search.nonzeros());
}

Search random_search(Random& random, uint64_t number) {
    Search search;
    uint64_t side = random_side(random, number);
    bool large_path = number % 1000 == 250;
    if (number % 500 == 250) draw_path(random, large_path, search);
    else if (number % 1000 == 125) draw_full(random, search);
    else draw_pattern(random, side, search);
    Pattern pattern = take_apart(search.list());
    if (pattern.depth() > 0 && random.chance(30))
        search.pieces.push_back(random_trail(random, pattern, search.caps));
    if (random.chance(3)) draw_limits(random, search);
    for (uint64_t left = random.between(1, 7); left > 0; --left)
        search.pieces.push_back({Piece::ran, random_budget(random, side, large_path)});
    return search;
}

// ---- the program's input, and what it must print

void write_fresh(std::ostream& text, const Search& search) {
    text << "fresh|" << search.rows << "|" << search.columns << "|" << search.nonzeros() << "|"
         << search.caps[0] << "|" << search.caps[1] << "|";
    for (uint64_t at = 0; at < search.nonzeros(); ++at) {
        auto [row, column] = cell_at(search.bytes.data(), at);
        text << (at == 0 ? "" : " ") << row << "," << column;
    }
    text << "\nshown\n";
}

std::string cases_of(const Search& search) {
    std::ostringstream text;
    write_fresh(text, search);
    for (const Piece& piece : search.pieces) {
        switch (piece.kind) {
        case Piece::ran: text << "run|" << piece.number; break;
        case Piece::tries_put: text << "put|tries|" << piece.number << "|"; break;
        case Piece::looks_put: text << "put|looks|" << piece.number << "|"; break;
        case Piece::trail_put:
            text << "put|trail|" << piece.trail.size() << "|" << letters_of(piece.trail);
        }
        text << "\nshown\n";
    }
    return text.str();
}

void write_refusal(std::ostream& text, const Answer& answer) {
    text << " refused " << answer.number << " at " << answer.place;
}

void write_record(std::ostream& text, const Record& record) {
    text << "  tries " << record.tries << " looks " << record.looks << " best "
         << record.best_count << " bestmarking ";
    if (!record.has_best) text << "-";
    else text << (record.best.empty() ? "." : letters_of(record.best));
    text << (record.complete ? " complete" : " open") << " trail "
         << (record.trail.empty() ? "." : letters_of(record.trail));
}

void write_showing(std::ostream& text, const Walk& walk, const Search& search,
                   const Record& record) {
    std::vector<uint8_t> parts(search.nonzeros());
    Shown shown;
    Answer answer = show(walk, search.list(), record, parts.data(), parts.size(), shown);
    if (answer.refused()) return write_refusal(text, answer);
    text << " floor " << shown.floor;
    if (shown.none_yet) {
        text << " none yet";
        return;
    }
    text << " volume " << shown.volume << " split ";
    for (uint8_t part : parts) text << int(part);
}

void write_run(std::ostream& text, const Walk& walk, const Search& search, Record& record,
               uint64_t budget) {
    text << "  run " << budget;
    Answer answer = run(walk, search.list(), record, budget);
    if (answer.refused()) write_refusal(text, answer);
    else text << (record.complete ? " complete" : " stopped") << " looks " << record.looks;
    text << " tries " << record.tries << "\n";
}

void go_through(std::ostream& text, const Walk& walk, const Search& search, const Piece& piece,
                Record& record) {
    switch (piece.kind) {
    case Piece::ran: return write_run(text, walk, search, record, piece.number);
    case Piece::tries_put: record.tries = piece.number; break;
    case Piece::looks_put: record.looks = piece.number; break;
    case Piece::trail_put: record.trail = piece.trail;
    }
}

std::string said_by(const Walk& walk, const Search& search) {
    std::ostringstream text;
    Record record;
    if (open(search.list(), search.caps, record).refused()) return "an opening is refused\n";
    auto write_shown = [&] {
        write_record(text, record);
        write_showing(text, walk, search, record);
        text << "\n";
    };
    write_shown();
    for (const Piece& piece : search.pieces) {
        go_through(text, walk, search, piece, record);
        write_shown();
    }
    return text.str();
}

// ---- the comparison

// Searches for one start of the program.
struct Batch {
    std::string input;
    std::vector<Search> searches;
};

struct Tally {
    uint64_t compared = 0, differing = 0;
    std::map<std::string, uint64_t> answers;   // of runs, by kind
    uint64_t with_looks = 0;                   // searches
};

size_t lines_in(const std::string& text) {
    return size_t(std::count(text.begin(), text.end(), '\n'));
}

// So many lines of a text from a place on.
std::string lines_at(const std::string& text, size_t at, size_t lines) {
    size_t end = at;
    for (; lines > 0 && end < text.size(); --lines)
        end = std::min(text.find('\n', end), text.size() - 1) + 1;
    return text.substr(at, end - at);
}

void count_answers(const std::string& said, Tally& tally) {
    std::istringstream lines(said);
    bool with_looks = false;
    for (std::string line; std::getline(lines, line); ) {
        std::istringstream words(line);
        std::string first, kind, number;
        words >> first >> number >> kind >> number;
        if (first == "run") ++tally.answers[kind == "refused" ? kind + " " + number : kind];
        else with_looks = with_looks || number != "0";
    }
    tally.with_looks += with_looks;
}

void describe(const Search& search, const std::string& found, const std::string& expected) {
    std::cout << "differs:\n" << cases_of(search) << "the program prints:\n" << found
              << "expected:\n" << expected;
}

// Looks at the program's lines for one search; gives the place after them.
size_t compare(const Search& search, const std::string& printed, size_t at, Tally& tally) {
    std::string expected = said_by(incremental(), search);
    std::string found = lines_at(printed, at, lines_in(expected));
    count_answers(expected, tally);
    ++tally.compared;
    bool same = found == expected && said_by(plain(), search) == expected;
    if (!same && ++tally.differing <= 5) describe(search, found, expected);
    return at + found.size();
}

void compare_all(std::vector<Run>& runs, const std::vector<Batch>& batches, char* program,
                 Tally& tally) {
    for (size_t at = 0; at < batches.size(); ++at) start(runs[at], program, batches[at].input);
    for (size_t at = 0; at < batches.size(); ++at) {
        std::string printed = finish(runs[at]);
        size_t place = 0;
        for (const Search& search : batches[at].searches)
            place = compare(search, printed, place, tally);
        if (place == printed.size()) continue;
        ++tally.differing;
        std::cout << "differs: " << printed.size() - place << " bytes past the last search\n";
    }
}

void print(const Tally& tally) {
    for (const auto& [answer, times] : tally.answers)
        std::cout << "runs " << answer << ": " << times << "\n";
    std::cout << "searches with looks: " << tally.with_looks << "\n";
    std::cout << tally.compared << " searches in pieces compared, " << tally.differing
              << " differ\n";
}

}  // namespace

int main(int count, char** words) {
    if (count < 2) {
        std::cout << "usage: compare_walks PROGRAM [SEARCHES [SEED]]\n";
        return 2;
    }
    uint64_t searches = count > 2 ? std::strtoull(words[2], nullptr, 10) : 100000;
    uint64_t seed = count > 3 ? std::strtoull(words[3], nullptr, 10) : 1;
    Random random(seed);
    std::vector<Run> runs(runs_at_once);
    std::vector<Batch> batches(1);
    Tally tally;
    for (uint64_t number = 0; number < searches; ++number) {
        Search search = random_search(random, number);
        std::string cases = cases_of(search);
        if (batches.back().input.size() + cases.size() > most_input) {
            if (batches.size() == runs_at_once) {
                compare_all(runs, batches, words[1], tally);
                batches.clear();
            }
            batches.emplace_back();
        }
        batches.back().input += cases;
        batches.back().searches.push_back(std::move(search));
    }
    compare_all(runs, batches, words[1], tally);
    print(tally);
    return tally.differing == 0 ? 0 : 1;
}
