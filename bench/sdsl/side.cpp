// The second peer: sdsl-lite's sd_vector (Okanohara and Sadakane's sdarray, with Vigna's select supports), behind three functions for the bench.
// bench/run builds it where Debian's package libsdsl-dev is installed.
#include <algorithm>
#include <cstddef>
#include <cstdint>
#include <iterator>

#include <sdsl/sd_vector.hpp>

namespace {
struct Side {
    sdsl::sd_vector<> bits;
    sdsl::select_support_sd<1> select;
    sdsl::rank_support_sd<1> rank;

    // An iterator of std, and not a pointer: the header calls `is_sorted` with no name in front.
    Side(const uint64_t *times, std::size_t n)
        : bits(std::make_move_iterator(times), std::make_move_iterator(times + n)), select(&bits), rank(&bits) {}
};
}  // namespace

// The vector of strictly rising times in bulk, with both select supports.
extern "C" void *sdsl_build(const uint64_t *times, std::size_t n) {
    return new Side(times, n);
}

extern "C" void sdsl_drop(void *side) {
    delete static_cast<Side *>(side);
}

// The time with each number, counted from 0.
extern "C" void sdsl_selects(const void *side, const uint64_t *ks, std::size_t n, uint64_t *out) {
    const Side &s = *static_cast<const Side *>(side);
    for (std::size_t i = 0; i < n; i++) {
        out[i] = s.select(ks[i] + 1);
    }
}

// How many times are below each value.
extern "C" void sdsl_ranks(const void *side, const uint64_t *values, std::size_t n, uint64_t *out) {
    const Side &s = *static_cast<const Side *>(side);
    for (std::size_t i = 0; i < n; i++) {
        out[i] = s.rank(values[i]);
    }
}
