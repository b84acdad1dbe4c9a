// The programs, each by the library's algorithm.
#pragma once

#include <boost/mpi/communicator.hpp>
#include <cstdint>
#include <optional>
#include <vector>

#include "edge_text.hpp"
#include "numbering.hpp"
#include "words.hpp"

namespace beyond {

/// The value of a vertex that no walk reaches.
constexpr std::uint64_t ABSENT = UINT64_MAX;

/// With more of them the library couldn't tell vertices apart.
int most_processes();

/// The values of the vertices in this process's block: the least length of a walk from the job's source (`bfs`), the
/// least weight of one (`sssp`), or the least id in the vertex's weak component (`wcc`). `source` is the number of the
/// job's source, none where no edge names it. Takes the edges away.
std::vector<std::uint64_t> values_of(const boost::mpi::communicator& world, const Job& job, ReadEdges& edges,
                                     const Numbering& numbering, std::optional<std::uint64_t> source);

}  // namespace beyond
