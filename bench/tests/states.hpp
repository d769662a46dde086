// Records as states: which are refused, and the limits of a search.
#pragma once

#include "checking.hpp"

namespace tests {

// Alters an accepted record; a run and a showing must then be refused with 14.
template <class Alter>
void check_state(const Sample& sample, uint64_t tries, Alter alter, const char* what) {
    for (const Walk* walk : walks) {
        State state = after(*walk, sample, tries);
        alter(state.record);
        Record before = state.record;
        std::vector<uint8_t> parts(sample.nonzeros(), 77), parts_before = parts;
        Shown shown;
        Answer ran = run(*walk, sample.list(), state.record, UINT64_MAX);
        Answer showed = show(*walk, sample.list(), state.record, parts.data(), 0, shown);
        check(ran.number == baseline::state && ran.place == 0 && state.record == before, what);
        check(showed.number == baseline::state && parts == parts_before, what);
    }
}

inline void check_states() {
    Sample sample = sample_of(2, 2, 1, {0, 0, 1, 1});   // k = 4; 11 tries to the end
    auto refused = [&](uint64_t tries, auto alter, const char* what) {
        check_state(sample, tries, alter, what);
    };
    refused(3, [](Record& r) { r.rows = 3; }, "other rows");
    refused(3, [](Record& r) { r.columns = 3; }, "other columns");
    refused(3, [](Record& r) { r.nonzeros = 1; }, "other nonzeros");
    refused(3, [](Record& r) { r.caps = {0, 0}; }, "caps too low");
    refused(3, [](Record& r) { r.caps = {4001, 4001}; }, "caps too high");
    refused(3, [](Record& r) { r.tries = 10000000000001; }, "too many tries");
    refused(3, [](Record& r) { r.tries = UINT64_MAX; }, "far too many tries");
    refused(3, [](Record& r) { r.looks = 3 * 2 * 2 + 1; }, "looks over tries * m * N");
    refused(0, [](Record& r) { r.looks = 1; }, "looks without a try");
    refused(11, [](Record& r) { r.looks = UINT64_MAX; }, "far too many looks");
    refused(3, [](Record& r) { r.trail.clear(); }, "no trail, not complete");
    refused(3, [](Record& r) { r.trail = {0, 0, 0, 0, 0}; }, "trail too long");
    refused(3, [](Record& r) { r.trail = {0, 3}; }, "no legal mark");
    refused(3, [](Record& r) { r.trail = {1}; }, "first mark 1");
    refused(3, [](Record& r) { r.trail = {2, 1}; }, "first mark other than cut is 1");
    refused(3, [](Record& r) { r.trail = {0, 0, 0}; }, "a proper beginning is not valid");
    refused(3, [](Record& r) { r.best_count = 4; }, "no best marking, best count not k + 1");
    refused(3, [](Record& r) { r.complete = true; }, "complete with a trail");
    refused(3, [](Record& r) { r.complete = true; r.trail.clear(); }, "complete without a best");
    refused(11, [](Record& r) { r.complete = false; }, "not complete, no trail");
    refused(11, [](Record& r) { r.best.pop_back(); }, "best marking not full");
    refused(11, [](Record& r) { r.best.push_back(2); }, "best marking too long");
    refused(11, [](Record& r) { r.best_count = 1; }, "best count of another marking");
    refused(11, [](Record& r) { r.best = {0, 0, 0, 0}; }, "best marking not valid");
    refused(11, [](Record& r) { r.best = {0, 1, 0, 3}; }, "best marking with no legal mark");
}

// With unequal caps the first mark other than cut may be 1, and each part is
// held against its own cap.
inline void check_unequal_states() {
    Sample sample = sample_of(2, 2, {0, 2}, {0, 0, 1, 1});   // k = 4; 12 tries to the end
    auto refused = [&](uint64_t tries, auto alter, const char* what) {
        check_state(sample, tries, alter, what);
    };
    refused(3, [](Record& r) { r.caps = {0, 1}; }, "caps too low");
    refused(3, [](Record& r) { r.caps = {1, 0}; }, "caps too low, exchanged");
    refused(3, [](Record& r) { r.caps = {4001, 2}; }, "cap 0 too high");
    refused(3, [](Record& r) { r.caps = {0, 4001}; }, "cap 1 too high");
    refused(3, [](Record& r) { r.caps = {UINT64_MAX, 3}; }, "cap 0 far too high");
    refused(3, [](Record& r) { r.caps = {3, UINT64_MAX}; }, "cap 1 far too high");
    refused(3, [](Record& r) { r.trail = {0, 1}; }, "a proper beginning over cap 0");
    refused(3, [](Record& r) { r.caps = {2, 0}; r.trail = {1, 0}; }, "one over cap 1");
    refused(3, [](Record& r) { r.caps = {2, 2}; r.trail = {1}; }, "equal caps, first mark 1");
    refused(3, [](Record& r) { r.caps = {2, 2}; r.trail = {2, 1}; }, "equal caps, 1 after cut");
    refused(12, [](Record& r) { r.best = {0, 0, 0, 0}; }, "best marking over cap 0");
    refused(12, [](Record& r) { r.caps = {2, 0}; }, "best marking over cap 1");
    for (const Walk* walk : walks)
        for (const Marking& trail : {Marking{0}, {1}, {2, 1}, {1, 1, 0}, {2, 2, 2, 1}}) {
            State state = opened(sample);
            state.record.trail = trail;
            check(!run(*walk, sample.list(), state.record, 1).refused(), "a trail with 1 first");
        }
}

inline void check_accepted_states() {
    Sample sample = sample_of(1, 1, 1, {0, 0});
    Sample diagonal = sample_of(2, 2, 1, {0, 0, 1, 1});
    for (const Walk* walk : walks) {
        State crafted = after(*walk, sample, 5);
        crafted.record.best = {2, 2};
        crafted.record.best_count = 2;
        show_state(*walk, sample, crafted);
        check(crafted.shown.volume == 0 && crafted.shown.floor == 2, "crafted: all cut");
        State invalid = opened(diagonal);   // the trail itself may be invalid
        invalid.record.trail = {0, 0};
        check(!run(*walk, diagonal.list(), invalid.record, 1).refused(), "an invalid trail");
        check(invalid.record.trail == Marking{0, 1}, "an invalid trail advances");
    }
}

inline void check_budgets() {
    Sample sample = sample_of(1, 1, 1, {0, 0});
    for (const Walk* walk : walks) {
        State state = opened(sample);
        auto answer = [&](uint64_t budget) {
            return run(*walk, sample.list(), state.record, budget).number;
        };
        check(answer(1000001) == budget_range && state.record == opened(sample).record, "budget");
        check(answer(UINT64_MAX) == budget_range, "the greatest budget");
        check(answer(1000000) == 0 && state.record.tries == 5, "budget 1,000,000");
        check(answer(1000001) == budget_range, "budget on a complete search");
        state.record.tries = 9999999999997;
        check(answer(4) == budget_range && answer(3) == 0, "tries + budget");
        state.record.tries = 10000000000000;
        check(answer(1) == budget_range && answer(0) == 0, "no budget left");
        Shown shown;
        Answer short_parts = show(*walk, sample.list(), state.record, nullptr, 0, shown);
        check(short_parts.number == short_buffer && short_parts.place == 0, "short parts");
    }
}

// A search with this many tries, the most looks that these allow, and then one more.
inline void check_most_looks(const Walk& walk, const Sample& sample, uint64_t tries) {
    State state = opened(sample);
    state.record.tries = tries;
    state.record.looks = tries * sample.rows * sample.nonzeros();
    Record before = state.record;
    Answer next = run(walk, sample.list(), state.record, 1);
    bool spent = tries == 10000000000000;
    check(next.number == (spent ? uint64_t(budget_range) : 0), "the most looks, one try");
    check(spent ? state.record == before : looks_in_range(state.record), "looks after it");
    check(!run(walk, sample.list(), state.record, 0).refused(), "the most looks, no try");
    show_state(walk, sample, state);
    check_state(sample, 0, [&](Record& r) { r = before; ++r.looks; }, "one look more");
}

inline void check_looks_states() {
    Sample full = sample_of(2, 2, 2, {0, 0, 0, 1, 1, 0, 1, 1});
    Sample wide = sample_of(1, 3, {1, 2}, {0, 0, 0, 1, 0, 2});
    Sample largest = row_by_row(4000, {2000, 2000});
    for (const Walk* walk : walks)
        for (uint64_t tries : {uint64_t(0), uint64_t(1), uint64_t(77), uint64_t(9999999999999),
                               uint64_t(10000000000000)}) {
            check_most_looks(*walk, full, tries);
            check_most_looks(*walk, wide, tries);
            check_most_looks(*walk, largest, tries);
        }
    Sample empty = sample_of(2, 3, 0, {});
    check_state(empty, 0, [](Record& r) { r.tries = 5; r.looks = 1; }, "looks without nonzeros");
}

}  // namespace tests
