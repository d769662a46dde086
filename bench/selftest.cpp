// Checks both walks and the texts against each other, against vectors from
// another model, against the samples of documents 01 and 02 and, on small
// patterns, against all splits, with equal and unequal caps; looks against counts
// by hand and their bounds; symmetric and valued texts against plain ones; and
// patterns spread over many lines against those without empty lines.
// Usage: selftest DATA-DIRECTORY. The last line is "N checked, 0 differ".
#include "tests/all_splits.hpp"
#include "tests/c_function.hpp"
#include "tests/caps.hpp"
#include "tests/checking.hpp"
#include "tests/forms.hpp"
#include "tests/lists.hpp"
#include "tests/looks.hpp"
#include "tests/markings.hpp"
#include "tests/matrices.hpp"
#include "tests/openings.hpp"
#include "tests/pieces.hpp"
#include "tests/random_samples.hpp"
#include "tests/samples.hpp"
#include "tests/splits.hpp"
#include "tests/states.hpp"
#include "tests/texts.hpp"
#include "tests/vectors.hpp"
#include "tests/writer.hpp"

using namespace tests;

namespace {

void check_texts(const std::string& data) {
    check_banners();
    check_size_lines();
    check_entries();
    check_wide_entries();
    check_text_lengths();
    check_forms();
    check_real_values();
    check_real_entries();
    check_symmetric_sizes();
    check_symmetric_entries();
    check_opened_limit();
    check_opened_room();
    check_random_forms(8000);
    check_writer();
    check_longest_writing();
    check_round_trips(500);
    check_splits(data);
}

void check_calls() {
    check_samples();
    check_sample_bound();
    check_unequal_samples();
    check_looks_samples();
    check_looks_both_ways();
    check_long_paths();
    check_long_path_tries();
    check_full_conflicts();
    check_refused_openings();
    check_largest_openings();
    check_refused_caps();
    check_lists();
    check_states();
    check_unequal_states();
    check_accepted_states();
    check_budgets();
    check_looks_states();
    check_c_function(plain_bipartition);
    check_c_function(incremental_bipartition);
}

}  // namespace

int main(int arguments, char** words) {
    if (arguments != 2) {
        std::cout << "usage: selftest DATA-DIRECTORY\n";
        return 2;
    }
    const std::string data = words[1];
    for (const char* caps : {"", "_unequal"}) {
        check_bounds(data + "/bounds" + caps + ".txt");
        check_walks(data + "/walks" + caps + ".txt");
    }
    check_walks(data + "/walks_looks.txt");
    part_done("vectors");
    check_percents();
    check_all_caps();
    part_done("caps from a percentage");
    check_calls();
    part_done("samples and refusals");
    check_texts(data);
    part_done("texts");
    check_random_walks(30000);
    check_large_walks(90);
    check_path_walks(300);
    check_spread_walks(2000);
    check_crafted_walks(10000);
    part_done("random walks in pieces");
    check_random_bounds(20000);
    part_done("random markings");
    check_random_growth(2000);
    part_done("looks, one try at a time");
    check_brute_force(4000);
    part_done("brute force");
    check_all_patterns();
    check_random_tries(2000);
    part_done("small patterns, one try at a time");
    check_matrices(data);
    part_done("matrices");
    std::cout << checked << " checked, " << differing << " differ\n";
    return differing == 0 ? 0 : 1;
}
