// The library of an earlier landing, for a comparison of speed: its archive is linked
// with its function renamed to gulzoreno_before. It takes the arguments of the present
// one, as every library has since numbers take two bytes.
#pragma once

#include "implementations.hpp"

extern "C" bipartition_function gulzoreno_before;

inline Implementation before() { return {"before", gulzoreno_before}; }
