// The incremental walk: everything that a try needs is kept while the trail
// grows and shrinks. Validity, L1, L2 and the leaning lines of a marking with one
// more mark are known before that mark is placed; over these, as sets, the
// matching of L4 is searched and its looks are counted; L3 comes from kept counts.
// The sets have two words, or five where a pattern has more than 128 lines on a side.
#include "set.hpp"
#include "walk.hpp"

#include <algorithm>

namespace baseline {

namespace {

// Here a line's number is its side (0 for rows, 1 for columns) times a stride,
// which is more than any place, plus its place on that side.
using LineNumber = uint16_t;

template <int words>
constexpr int stride = word_bits * words;

template <int words>
struct LineOf {
    SetOf<words> crossing;       // the lines of the other side it has nonzeros in
    uint16_t size = 0;
    uint16_t taken[2] = {0, 0};  // by part; stands still while the line is marked
    Mark mark = unmarked;
};

template <int words>
using LinesOf = std::array<LineOf<words>, 2 * stride<words>>;

template <int words>
using LeaningOf = std::array<std::array<SetOf<words>, 2>, 2>;   // by side and part

struct Matched {
    int size = 0;
    uint64_t looks = 0;
};

// The search for the matching of L4, to the letter of document 02.
template <int words>
class Matching {
public:
    using Set = SetOf<words>;
    using Lines = LinesOf<words>;
    using Leaning = LeaningOf<words>;

    explicit Matching(const Lines& lines) : lines(lines) {}

    // Rows leaning to one part share no conflict column with rows leaning to the
    // other, so the starts of either go their own way.
    Matched search(const Leaning& leaning) {
        found = {};
        for (int part = 0; part < 2; ++part) search(leaning[0][part], leaning[1][1 - part]);
        return found;
    }

private:
    // A row that a start has come to: the column that it entered last, and its
    // conflicts not met yet.
    struct Visit {
        LineNumber row, column;
        Set left;
    };

    Set conflicts_of(int row) const { return both(lines[row].crossing, conflict_columns); }

    // A start from each of these rows that has conflicts with these columns.
    void search(const Set& rows, const Set& columns) {
        if (columns.empty()) return;
        conflict_columns = columns;
        matched = {};
        for_each(rows, [&](int row) {
            if (!conflicts_of(row).empty()) found.size += start(row);
        });
    }

    // Depth first until an unmatched column; says if it came to one.
    bool start(int row) {
        Set fresh = conflict_columns;
        int depth = 0;
        path[0] = {LineNumber(row), 0, conflicts_of(row)};
        while (depth >= 0) {
            Visit& visit = path[depth];
            Set open = both(visit.left, fresh);
            if (open.empty()) {
                found.looks += uint64_t(visit.left.size());
                --depth;
                continue;
            }
            enter(visit, open.first());
            fresh.remove(visit.column);
            if (!matched.has(visit.column)) return pair_along(depth);
            LineNumber next = row_of[visit.column];
            path[++depth] = {next, 0, conflicts_of(next)};
        }
        return false;
    }

    // Meets the conflicts of a row up to that with a fresh column, all but this
    // with columns entered before.
    void enter(Visit& visit, int column) {
        Set later = visit.left.above(column);
        found.looks += uint64_t(without(visit.left, later).size());
        visit.left = later;
        visit.column = LineNumber(column);
    }

    // Each row of the path gets the column that it entered last.
    bool pair_along(int depth) {
        matched.add(path[depth].column);
        for (; depth >= 0; --depth) row_of[path[depth].column] = path[depth].row;
        return true;
    }

    const Lines& lines;
    Matched found;
    Set conflict_columns, matched;
    std::array<LineNumber, stride<words>> row_of;   // by matched column
    std::array<Visit, stride<words> + 1> path;
};

// A valid marking with all that follows from it. Marks are lifted in the
// reverse of the order in which they were placed.
template <int words>
class Live {
public:
    using Set = SetOf<words>;
    using Line = LineOf<words>;
    using Lines = LinesOf<words>;
    using Leaning = LeaningOf<words>;

    Live(const Live&) = delete;
    Live(const Pattern& pattern, const Caps& caps)
        : cap{int(caps[0]), int(caps[1])}, matching(lines) {
        for (int nonzero = 0; nonzero < pattern.nonzeros; ++nonzero) {
            int row = pattern.row[nonzero], column = pattern.column[nonzero] - pattern.rows;
            lines[number(0, row)].crossing.add(column);
            lines[number(1, column)].crossing.add(row);
        }
        for (int row = 0; row < pattern.rows; ++row) set_up(number(0, row));
        for (int column = 0; column < pattern.columns; ++column) set_up(number(1, column));
    }

    // The number here of a line of the pattern.
    static int number_of(const Pattern& pattern, int line) {
        return line < pattern.rows ? number(0, line) : number(1, line - pattern.rows);
    }

    Mark mark(int line) const { return lines[line].mark; }
    int cut_lines() const { return cut; }

    // Whether the marking stays valid with `line` marked.
    bool fits(int line, Mark mark) const {
        if (mark == mark_cut) return true;
        const Line& it = lines[line];
        return it.taken[1 - mark] == 0 &&
               taken[mark] + it.size - it.taken[mark] <= cap[mark];
    }

    // L1 + L2 with `line` marked, if that fits.
    int cut_and_torn_with(int line, Mark mark) const {
        const Line& it = lines[line];
        if (mark == mark_cut) return cut + torn + 1 - (it.taken[0] > 0 && it.taken[1] > 0);
        return cut + torn + both(it.crossing, leaning[1 - side_of(line)][1 - mark]).size();
    }

    // The matching with `line` marked, if that fits.
    Matched matching_with(int line, Mark mark) {
        Leaning with = leaning;
        int side = side_of(line), other_side = 1 - side;
        for (Set& to_part : with[side]) to_part.remove(place_of(line));
        if (mark != mark_cut) {
            const Set& crossing = lines[line].crossing;
            Set& to_mark = with[other_side][mark];
            Set& to_other = with[other_side][1 - mark];
            to_mark = either(to_mark, both(crossing, untouched[other_side]));
            to_other = without(to_other, crossing);
        }
        return matching.search(with);
    }

    void place(int line, Mark mark) {
        Line& it = lines[line];
        leave_condition(line);
        it.mark = mark;
        unmarked_lines[side_of(line)].remove(place_of(line));
        if (mark == mark_cut) {
            ++cut;
            return;
        }
        taken[mark] += it.size - it.taken[mark];
        int other_side = 1 - side_of(line);
        for_each(both(it.crossing, unmarked_lines[other_side]),
                 [&](int place) { take(number(other_side, place), mark); });
    }

    void lift(int line) {
        Line& it = lines[line];
        if (it.mark == mark_cut) {
            --cut;
        } else {
            int other_side = 1 - side_of(line);
            for_each(both(it.crossing, unmarked_lines[other_side]),
                     [&](int place) { give_back(number(other_side, place), it.mark); });
            taken[it.mark] -= it.size - it.taken[it.mark];
        }
        it.mark = unmarked;
        unmarked_lines[side_of(line)].add(place_of(line));
        enter_condition(line);
    }

    // L3 if it is below `limit`; otherwise some number not below it.
    int l3_below(int limit) const {
        int struck = strikes(0, limit);
        return struck < limit ? struck + strikes(1, limit - struck) : struck;
    }

    // All at once, for tests.
    Evaluation evaluation() {
        constexpr int no_limit = 1 << 20;
        Evaluation result;
        result.valid = true;
        result.taken = {taken[0], taken[1]};
        result.l1 = cut;
        result.l2 = torn;
        result.l3 = l3_below(no_limit);
        Matched matched = matching.search(leaning);
        result.l4 = matched.size;
        result.looks = matched.looks;
        return result;
    }

private:
    static int number(int side, int place) { return side * stride<words> + place; }
    static int side_of(int line) { return line / stride<words>; }
    static int place_of(int line) { return line % stride<words>; }

    void set_up(int line) {
        lines[line].size = uint16_t(lines[line].crossing.size());
        widest = std::max(widest, int(lines[line].size));
        unmarked_lines[side_of(line)].add(place_of(line));
        untouched[side_of(line)].add(place_of(line));
    }

    // An unmarked line enters the condition that its taken counts give it.
    void enter_condition(int line) {
        const Line& it = lines[line];
        if (it.taken[0] > 0 && it.taken[1] > 0) ++torn;
        else if (it.taken[0] > 0) lean(line, 0);
        else if (it.taken[1] > 0) lean(line, 1);
        else untouched[side_of(line)].add(place_of(line));
    }

    void leave_condition(int line) {
        const Line& it = lines[line];
        if (it.taken[0] > 0 && it.taken[1] > 0) --torn;
        else if (it.taken[0] > 0) unlean(line, 0);
        else if (it.taken[1] > 0) unlean(line, 1);
        else untouched[side_of(line)].remove(place_of(line));
    }

    void lean(int line, int part) {
        const Line& it = lines[line];
        int side = side_of(line), untaken = it.size - it.taken[part];
        leaning[side][part].add(place_of(line));
        ++lines_with[part][untaken];
        leaning_sum[part] += untaken - both(it.crossing, leaning[1 - side][part]).size();
    }

    void unlean(int line, int part) {
        const Line& it = lines[line];
        int side = side_of(line), untaken = it.size - it.taken[part];
        leaning[side][part].remove(place_of(line));
        --lines_with[part][untaken];
        leaning_sum[part] -= untaken - both(it.crossing, leaning[1 - side][part]).size();
    }

    // An untaken nonzero of an unmarked line becomes taken by `part`.
    void take(int line, int part) {
        Line& it = lines[line];
        if (it.taken[1 - part] == 0 && it.taken[part] > 0) {
            int untaken = it.size - it.taken[part]++;
            --lines_with[part][untaken];
            ++lines_with[part][untaken - 1];
            --leaning_sum[part];
        } else if (it.taken[part] > 0) {
            ++it.taken[part];
        } else {
            leave_condition(line);
            ++it.taken[part];
            enter_condition(line);
        }
    }

    void give_back(int line, int part) {
        Line& it = lines[line];
        if (it.taken[1 - part] == 0 && it.taken[part] > 1) {
            int untaken = it.size - it.taken[part]--;
            --lines_with[part][untaken];
            ++lines_with[part][untaken + 1];
            ++leaning_sum[part];
        } else if (it.taken[part] > 1) {
            --it.taken[part];
        } else {
            leave_condition(line);
            --it.taken[part];
            enter_condition(line);
        }
    }

    // Lines leaning to `part` to be struck out, most untaken first; once
    // `enough` are struck, some number not below it.
    int strikes(int part, int enough) const {
        int excess = leaning_sum[part] - (cap[part] - taken[part]);
        int struck = 0;
        for (int size = widest; excess > 0 && struck < enough; --size) {
            int with = lines_with[part][size];
            if (with == 0) continue;
            if (with * size >= excess) return struck + (excess + size - 1) / size;
            struck += with;
            excess -= with * size;
        }
        return struck;
    }

    std::array<int, 2> cap;                        // by part
    int widest = 0;                                // the size of the largest line
    Lines lines;
    std::array<Set, 2> unmarked_lines, untouched;  // by side
    Leaning leaning;
    std::array<int, 2> taken = {0, 0};             // D0, D1
    int cut = 0, torn = 0;                         // L1, L2
    std::array<int, 2> leaning_sum = {0, 0};       // s of each part
    std::array<std::array<uint16_t, stride<words> + 1>, 2> lines_with{};  // by part, untaken
    Matching<words> matching;
};

// The walk with a live marking: all marks of the trail but the last are placed.
template <int words>
class Search {
public:
    Search(const Pattern& pattern, const Record& record)
        : live(pattern, record.caps), unequal(record.caps[0] != record.caps[1]),
          depth(int(pattern.depth())), best_count(int(record.best_count)),
          complete(record.complete) {
        for (int at = 0; at < depth; ++at)
            order[at] = LineNumber(Live<words>::number_of(pattern, pattern.order[at]));
        if (complete) return;
        for (; placed + 1 < int(record.trail.size()); ++placed)
            live.place(order[placed], record.trail[placed]);
        last = record.trail.back();
    }

    void run(Record& record, uint64_t budget) {
        uint64_t left = budget;
        for (; left > 0 && !complete; --left) {
            if (!last_stands()) {
                advance();
            } else if (placed + 1 < depth) {
                ++placed;
                last = mark_0;
            } else {
                keep_best(record);
                live.lift(order[placed]);
                advance();
            }
        }
        record.tries += budget - left;
        record.looks += looks;
        record.complete = complete;
        record.trail = marks();
        if (!complete) record.trail.push_back(last);
    }

    // Uses the search up: lifts the whole trail.
    int floor() {
        int least = best_count;
        if (complete) return least;
        look_at(last, least);
        while (true) {
            while (put_later()) look_at(last, least);
            if (placed == 0) return least;
            step_back();
        }
    }

private:
    // Whether the trail stands; if so, its last mark is placed. Counts the looks
    // of a valid trail, whether or not it stands.
    bool last_stands() {
        int line = order[placed];
        if (!live.fits(line, last)) return false;
        Matched matched = live.matching_with(line, last);
        looks += matched.looks;
        int room = best_count - live.cut_and_torn_with(line, last);
        if (matched.size >= room) return false;
        live.place(line, last);
        if (live.l3_below(room) < room) return true;
        live.lift(line);
        return false;
    }

    // Puts the last mark one allowed step later; false if it is cut already.
    bool put_later() {
        if (last == mark_cut) return false;
        bool one_allowed = unequal || live.cut_lines() < placed;   // an earlier 0 or 1
        last = last == mark_0 && one_allowed ? mark_1 : mark_cut;
        return true;
    }

    void step_back() {
        --placed;
        last = live.mark(order[placed]);
        live.lift(order[placed]);
    }

    void advance() {
        while (!put_later()) {
            if (placed == 0) {
                complete = true;
                return;
            }
            step_back();
        }
    }

    void look_at(Mark mark, int& least) {
        int line = order[placed];
        if (!live.fits(line, mark)) return;
        int base = live.cut_and_torn_with(line, mark);
        if (base >= least) return;
        int l4 = live.matching_with(line, mark).size;
        live.place(line, mark);
        least = std::min(least, base + std::max(l4, live.l3_below(least - base)));
        live.lift(line);
    }

    Marking marks() const {
        Marking result(placed);
        for (int at = 0; at < placed; ++at) result[at] = live.mark(order[at]);
        return result;
    }

    void keep_best(Record& record) {
        best_count = live.cut_lines();
        record.best_count = uint64_t(best_count);
        record.has_best = true;
        record.best = marks();
        record.best.push_back(last);
    }

    Live<words> live;
    std::array<LineNumber, most_lines> order;
    bool unequal;          // the caps: mark 1 is allowed before any 0
    int depth;
    int placed = 0;        // marks of the trail that are placed
    Mark last = mark_0;    // the mark after them
    uint64_t looks = 0;    // of the tries made here
    int best_count;
    bool complete;
};

template <int words>
Evaluation evaluated(const Pattern& pattern, const Caps& caps, const LineMarks& marks) {
    Live<words> live(pattern, caps);
    for (int line = 0; line < pattern.lines(); ++line) {
        if (marks[line] == unmarked) continue;
        int number = Live<words>::number_of(pattern, line);
        if (!live.fits(number, marks[line])) return {};
        live.place(number, marks[line]);
    }
    return live.evaluation();
}

constexpr int narrow = 2;                                        // words of a set
constexpr int wide = (most_side + word_bits - 1) / word_bits;

bool is_narrow(const Pattern& pattern) {
    return std::max(pattern.rows, pattern.columns) <= stride<narrow>;
}

class Incremental : public Walk {
public:
    void make_tries(const Pattern& pattern, Record& record, uint64_t budget) const override {
        if (is_narrow(pattern)) Search<narrow>(pattern, record).run(record, budget);
        else Search<wide>(pattern, record).run(record, budget);
    }

    uint64_t floor(const Pattern& pattern, const Record& record) const override {
        return uint64_t(is_narrow(pattern) ? Search<narrow>(pattern, record).floor()
                                           : Search<wide>(pattern, record).floor());
    }

    Evaluation evaluate(const Pattern& pattern, const Caps& caps,
                        const LineMarks& marks) const override {
        return is_narrow(pattern) ? evaluated<narrow>(pattern, caps, marks)
                                  : evaluated<wide>(pattern, caps, marks);
    }
};

}  // namespace

const Walk& incremental() {
    static const Incremental walk;
    return walk;
}

}  // namespace baseline
