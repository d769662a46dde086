// The implementations that the drivers know: the two walks here and, compiled
// with -DWITH_LIBRARY and linked with it, the proved library.
#pragma once

#include "baseline/walk.hpp"

#include <string>
#include <vector>

#ifdef WITH_LIBRARY
extern "C" bipartition_function gulzoreno_bipartition;
#endif

struct Implementation {
    std::string name;
    bipartition_function* function;
};

inline std::vector<Implementation> implementations() {
    return {
        {"plain", plain_bipartition},
        {"incremental", incremental_bipartition},
#ifdef WITH_LIBRARY
        {"library", gulzoreno_bipartition},
#endif
    };
}
