// Times that the C function does not show apart, measured by the program `resuming`:
// of one showing, and of what a run costs beside its tries (its own costs: checks,
// tables, and the marks of its trail placed anew).
//
// A time is that of a process which does a thing so often that it takes a tenth of a
// second and twice the time of all that comes before it, less that of a process which
// does not do it. The own costs of a run are found from the tries of a round, made in
// many short runs and made in one run: the difference is the own costs of all runs but
// one. Short runs are taken since the tries of long ones would hide that difference; a
// run of 1,000 tries is reckoned as its own costs and so many tries at the rate of the
// one run. Times are processor time. The processes of a row run in turn, so that a slow
// spell of the machine meets all of them alike, and the quickest of five counts.
#pragma once

#include "running.hpp"
#include "subjects.hpp"

#include <algorithm>

namespace resuming {

constexpr int processes = 5;
constexpr double least_time = 0.1;             // seconds for what is timed
constexpr uint64_t pieces = 200, piece = 100;  // runs of a round, and tries of each
constexpr double run_shown = 1000;             // tries of the run whose share is shown

// What the program is asked: tries in one run; then rounds, each of so many runs of a
// budget from the search after those tries; then showings.
struct Order {
    uint64_t tries = 0, rounds = 0, runs = 0, budget = 0, showings = 0;
};

inline std::string input_of(const Subject& subject, const Order& order) {
    std::string text;
    for (uint64_t number : {subject.rows, subject.columns, subject.nonzeros(), subject.cap, subject.cap})
        text += std::to_string(number) + "|";
    for (uint64_t at = 0; at < subject.nonzeros(); ++at) {
        baseline::Cell cell = baseline::cell_at(subject.list.data(), at);
        text += (at > 0 ? " " : "") + std::to_string(cell.first) + "," + std::to_string(cell.second);
    }
    text += "\n";
    for (uint64_t number : {order.tries, order.rounds, order.runs, order.budget, order.showings})
        text += std::to_string(number) + "|";
    return text;
}

// One process of the program.
struct Process {
    double seconds;
    std::string printed;
};

inline Process process(char* program, const Subject& subject, const Order& order) {
    static Run run;
    start(run, program, input_of(subject, order));
    std::string printed = finish(run);
    if (printed.compare(0, 6, "tries ") != 0) {
        std::printf("%s: %s", program, printed.c_str());
        std::exit(2);
    }
    return {run.seconds, printed};
}

// A thing that is timed: an order in which one number says how often it is done.
struct Thing {
    Order order;
    uint64_t Order::*often;
    double seconds = 0;                        // of the quickest process
    double each(const Thing& idle) const { return (seconds - idle.seconds) / double(order.*often); }
};

// Has a thing done so often that it takes long enough.
inline void lengthen(char* program, const Subject& subject, Thing& thing, double idle) {
    double enough = std::max(least_time, 2 * idle), took = 0;
    thing.order.*thing.often = 1;
    while ((took = process(program, subject, thing.order).seconds - idle) < enough)
        thing.order.*thing.often *= took < enough / 8 ? 4 : 2;
}

// Times some things in turn; the first is idle, and every other is lengthened.
inline void time_all(char* program, const Subject& subject, std::vector<Thing>& things) {
    double idle = process(program, subject, things[0].order).seconds;
    for (size_t at = 1; at < things.size(); ++at) lengthen(program, subject, things[at], idle);
    for (int again = 0; again < processes; ++again)
        for (Thing& thing : things) {
            double seconds = process(program, subject, thing.order).seconds;
            thing.seconds = again == 0 ? seconds : std::min(thing.seconds, seconds);
        }
}

// Seconds a try, in one run of so many from the fresh search or fewer as it ends.
inline double try_from_fresh(char* program, const Subject& subject, uint64_t tries) {
    std::vector<Thing> things = {{{}, &Order::rounds}, {{0, 1, 1, tries, 0}, &Order::rounds}};
    time_all(program, subject, things);
    std::string printed = process(program, subject, {tries, 0, 0, 0, 0}).printed;
    return things[1].each(things[0]) / double(std::strtoull(printed.c_str() + 6, nullptr, 10));
}

inline void print_runs(const Thing& idle, const Thing& short_runs, const Thing& one_run) {
    double own = (short_runs.each(idle) - one_run.each(idle)) / double(pieces - 1);
    double each_try = (one_run.each(idle) - own) / double(pieces * piece);
    double run = own + run_shown * each_try;
    std::printf(" %.1f | %.1f | %.1f | %.0f%% |\n", 1e9 * each_try, 1e6 * own, 1e6 * run, 100 * own / run);
}

inline bool completes(char* program, const Subject& subject, const Order& order) {
    return process(program, subject, order).printed.find(" complete") != std::string::npos;
}

// A row: the search after so many tries. Runs are timed where a round leaves it open.
inline void print_row(char* program, const Subject& subject, uint64_t tries, double fresh_try) {
    Order idle = {tries, 0, 0, 0, 0}, showings = {tries, 0, 0, 0, 1};
    Order short_runs = {tries, 1, pieces, piece, 0}, one_run = {tries, 1, 1, pieces * piece, 0};
    bool complete = completes(program, subject, idle), ends = completes(program, subject, one_run);
    std::vector<Thing> things = {{idle, &Order::showings}, {showings, &Order::showings}};
    if (!ends) {
        things.push_back({short_runs, &Order::rounds});
        things.push_back({one_run, &Order::rounds});
    }
    time_all(program, subject, things);
    double showing = things[1].each(things[0]);
    std::printf("| %s | %llu | %llu | %s | %.1f | %.0f |", subject.name.c_str(), (unsigned long long)subject.nonzeros(),
                (unsigned long long)tries, complete ? "complete" : "open", 1e6 * showing, showing / fresh_try);
    if (ends) std::printf(" | | | |\n");
    else print_runs(things[0], things[2], things[3]);
    std::fflush(stdout);
}

inline void print(char* program, const std::vector<Subject>& subjects, uint64_t tries) {
    std::printf("\nShowings and own costs of runs, of the fresh search and after one run of %llu tries. A showing in tries: by those "
                "of that run. The next columns: %llu tries from there on, and a run of %.0f of them\n\n",
                (unsigned long long)tries, (unsigned long long)(pieces * piece), run_shown);
    std::printf("| pattern | N | tries before | search | us a showing | in tries | ns a try | us own costs of a run "
                "| us a run of %.0f | own costs |\n|---|---|---|---|---|---|---|---|---|---|\n", run_shown);
    for (const Subject& subject : subjects) {
        double fresh_try = try_from_fresh(program, subject, tries);
        print_row(program, subject, 0, fresh_try);
        print_row(program, subject, tries, fresh_try);
    }
}

}  // namespace resuming
