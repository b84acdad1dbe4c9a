// The vertices' numbers: the ids that the text names, ascending, are numbered from 0 on without a gap.
#pragma once

#include <algorithm>
#include <boost/mpi/communicator.hpp>
#include <cstdint>
#include <vector>

namespace beyond {

/// Vertices dealt out to processes in blocks: the first processes have one more where they don't go up evenly. It is
/// the rule of the library's `boost::parallel::block`.
class Blocks {
public:
    Blocks(std::uint64_t vertices, int processes)
        : small_(vertices / processes), large_blocks_(vertices % processes) {}

    std::uint64_t begin_of(int process) const {
        return small_ * process + std::min<std::uint64_t>(process, large_blocks_);
    }

    int owner_of(std::uint64_t number) const {
        const std::uint64_t in_large = large_blocks_ * (small_ + 1);
        const std::uint64_t owner =
            number < in_large ? number / (small_ + 1) : large_blocks_ + (number - in_large) / small_;
        return static_cast<int>(owner);
    }

private:
    std::uint64_t small_;
    std::uint64_t large_blocks_;
};

struct Numbering {
    /// the vertices of all processes
    std::uint64_t vertices;
    Blocks blocks;
    /// the numbers of this process's ids, in the order in which they were given
    std::vector<std::uint64_t> numbers;
    /// the ids of the vertices in this process's block, ascending
    std::vector<std::uint64_t> own_ids;
};

/// Numbers the ids that any process has, each of which it has once. No process holds all of them.
Numbering number_ids(const boost::mpi::communicator& world, const std::vector<std::uint64_t>& ids);

}  // namespace beyond
