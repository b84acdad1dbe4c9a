// The printed lines.
#pragma once

#include <boost/mpi/communicator.hpp>
#include <cstdint>
#include <vector>

#include "words.hpp"

namespace beyond {

/// Ids from this on are past those of `fg`, which prints a line for each number below the greatest.
constexpr std::uint64_t FG_IDS = std::uint64_t{1} << 24;

/// Vertices with their values, the ids ascending over all processes.
struct Valued {
    std::vector<std::uint64_t> ids;
    std::vector<std::uint64_t> values;
};

/// Prints the line of each vertex, ascending, or the sum of the values where the job is quiet. Where the greatest id is
/// below `FG_IDS` each number up to it is a vertex, and else those that are named, by an edge or as the source.
/// The first process prints for all. Throws the refusal without a line where the output fails.
void print_values(const boost::mpi::communicator& world, const Job& job, Valued valued, std::uint64_t greatest);

}  // namespace beyond
