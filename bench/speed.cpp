// Measures tries per second of each implementation of the C function, how the
// cost of a try grows with the number of nonzeros, and peak memory; and, by the
// proved program `resuming`, the time of a showing and the own costs of a run.
//
// Usage: speed DATA-DIRECTORY [BUDGET [RESUMING]], with a budget of at most
// 1,000,000 tries a call, 1,000,000 if left out, and the path of `resuming`,
// without which its table is left out. Times are processor time, so that other
// work on the machine counts little. Each measurement runs in a process of its
// own, so that its peak memory is its own; the quickest of three counts, and
// the table gives the slowest as well. A call is repeated until it has taken a
// fifth of a second; opening and showing are part of its time.
//
// Compiled with -DBEFORE_LIBRARY and linked with an earlier library, it measures
// that as well.
#include "implementations.hpp"
#include "resuming.hpp"
#include "subjects.hpp"
#ifdef BEFORE_LIBRARY
#include "before.hpp"
#endif

#include <sys/resource.h>
#include <sys/wait.h>
#include <unistd.h>

#include <cstdio>
#include <cstdlib>
#include <ctime>

namespace {

struct Measure {
    uint64_t tries = 0;          // of one call
    uint64_t volume = 0;
    bool none_yet = false, complete = false;
    double seconds = 0;          // of one call
    double slowest = 0;          // the same, in the slowest process
    long kilobytes = 0;          // peak memory of the process
    double rate() const { return double(tries) / seconds; }
    double nanoseconds() const { return 1e9 * seconds / double(tries); }
    double slowest_nanoseconds() const { return 1e9 * slowest / double(tries); }
};

uint64_t figure(const std::vector<uint8_t>& figures, size_t at) {
    uint64_t value = 0;
    for (size_t byte = 8; byte > 0; --byte) value = 256 * value + figures[8 * at + byte - 1];
    return value;
}

std::vector<Implementation> all_implementations() {
    std::vector<Implementation> all = implementations();
#ifdef BEFORE_LIBRARY
    all.push_back(before());
#endif
    return all;
}

// One call; without a split the whole budget was spent.
Measure call(bipartition_function* function, const Subject& subject, uint64_t budget) {
    std::vector<uint8_t> parts(subject.nonzeros()), figures(32);
    uint64_t answer = function(subject.rows, subject.columns, subject.nonzeros(),
                               subject.list.data(), subject.list.size(), subject.cap,
                               subject.cap, budget, parts.data(), parts.size(),
                               figures.data(), figures.size());
    Measure measure;
    measure.none_yet = answer == 255;
    measure.tries = measure.none_yet ? budget : figure(figures, 1);
    measure.volume = figure(figures, 0);
    measure.complete = figure(figures, 3) == 1;
    if (answer != 0 && answer != 255) std::printf("refused %llu\n", (unsigned long long)answer);
    return measure;
}

Measure repeated_call(bipartition_function* function, const Subject& subject, uint64_t budget) {
    Measure measure;
    std::clock_t start = std::clock();
    double passed = 0;
    for (int calls = 1; passed < 0.2; ++calls) {
        measure = call(function, subject, budget);
        passed = double(std::clock() - start) / CLOCKS_PER_SEC;
        measure.seconds = passed / calls;
    }
    return measure;
}

// The same in a process of its own.
Measure measured_apart(bipartition_function* function, const Subject& subject, uint64_t budget) {
    int ends[2];
    Measure measure;
    if (pipe(ends) != 0) return measure;
    std::fflush(stdout);
    pid_t child = fork();
    if (child == 0) {
        measure = repeated_call(function, subject, budget);
        bool sent = write(ends[1], &measure, sizeof measure) == long(sizeof measure);
        std::fflush(stdout);
        _exit(sent ? 0 : 1);
    }
    rusage usage{};
    if (read(ends[0], &measure, sizeof measure) != long(sizeof measure)) measure = Measure();
    wait4(child, nullptr, 0, &usage);
    close(ends[0]);
    close(ends[1]);
    measure.kilobytes = usage.ru_maxrss;
    return measure;
}

Measure measured(bipartition_function* function, const Subject& subject, uint64_t budget) {
    Measure best = measured_apart(function, subject, budget);
    double slowest = best.seconds;
    for (int again = 0; again < 2; ++again) {
        Measure next = measured_apart(function, subject, budget);
        slowest = std::max(slowest, next.seconds);
        if (next.seconds < best.seconds) best = next;
    }
    best.slowest = slowest;
    return best;
}

std::string outcome(const Measure& measure) {
    if (measure.none_yet) return "none yet";
    return "volume " + std::to_string(measure.volume) + (measure.complete ? "" : ", stopped");
}

// ---- tables

void print_row(const Subject& subject, const Implementation& one, const Measure& found,
               double plain_rate, double incremental_rate) {
    std::printf("| %s | %llu | %llu | %s | %s | %llu | %.0f | %.0f (%.0f) | %.1f | %.3f | %ld |\n",
                subject.name.c_str(), (unsigned long long)subject.nonzeros(),
                (unsigned long long)subject.cap, one.name.c_str(), outcome(found).c_str(),
                (unsigned long long)found.tries, found.rate(), found.nanoseconds(),
                found.slowest_nanoseconds(), found.rate() / plain_rate,
                found.rate() / incremental_rate, found.kilobytes);
}

// One row for each implementation; ratios to the first two, plain and incremental.
void print_subject(const Subject& subject, uint64_t budget) {
    std::vector<Implementation> all = all_implementations();
    std::vector<Measure> found;
    for (const Implementation& one : all)
        found.push_back(measured(one.function, subject, budget));
    for (size_t at = 0; at < all.size(); ++at)
        print_row(subject, all[at], found[at], found[0].rate(), found[1].rate());
}

void print_speed(const std::vector<Subject>& subjects, uint64_t budget) {
    std::printf("Speed, at 3 percent, one call with a budget of %llu\n\n",
                (unsigned long long)budget);
    std::printf("| pattern | N | cap | implementation | result | tries | tries a second "
                "| ns a try (slowest) | times plain | of incremental | peak kB |\n"
                "|---|---|---|---|---|---|---|---|---|---|---|\n");
    for (const Subject& subject : subjects) print_subject(subject, budget);
}

void print_growth_row(uint64_t side, uint64_t nonzeros, uint64_t budget) {
    Subject subject = random_subject(side, side, nonzeros, 2);
    std::printf("| %llu by %llu | %llu |", (unsigned long long)side, (unsigned long long)side,
                (unsigned long long)nonzeros);
    for (const Implementation& one : all_implementations())
        std::printf(" %.0f |", measured(one.function, subject, budget).nanoseconds());
    std::printf("\n");
}

// How the cost of a try grows: two shapes, more and more nonzeros.
void print_growth(uint64_t budget) {
    std::printf("\nNanoseconds a try by N, random patterns, budget %llu\n\n| pattern | N |",
                (unsigned long long)budget);
    for (const Implementation& one : all_implementations()) std::printf(" %s |", one.name.c_str());
    std::printf("\n|---|---|");
    for (size_t at = 0; at < all_implementations().size(); ++at) std::printf("---|");
    std::printf("\n");
    for (uint64_t nonzeros : {125, 250, 500, 1000, 1500, 2000})
        print_growth_row(120, nonzeros, budget);
    for (uint64_t nonzeros : {500, 1000, 2000, 3000, 4000})
        print_growth_row(300, nonzeros, budget);
}

}  // namespace

int main(int count, char** words) {
    if (count < 2) {
        std::printf("usage: speed DATA-DIRECTORY [BUDGET [RESUMING]]\n");
        return 2;
    }
    uint64_t budget = count > 2 ? std::strtoull(words[2], nullptr, 10) : baseline::most_budget;
    std::vector<Subject> subjects = all_subjects(words[1]);
    print_speed(subjects, budget);
    print_growth(std::min<uint64_t>(budget, 100000));
    if (count > 3) resuming::print(words[3], subjects, budget);
}
