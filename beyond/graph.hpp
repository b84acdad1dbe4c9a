// The library's distributed graph, and how it is made of the edges that the processes read.
#pragma once

#include <boost/graph/use_mpi.hpp>
// behind the one that turns MPI on
#include <boost/graph/distributed/compressed_sparse_row_graph.hpp>
#include <boost/graph/distributed/mpi_process_group.hpp>
#include <boost/mpi/communicator.hpp>
#include <cstdint>
#include <vector>

#include "edge_text.hpp"
#include "numbering.hpp"

namespace beyond {

using ProcessGroup = boost::graph::distributed::mpi_process_group;

struct Cost {
    std::uint32_t weight;
};

/// Out-lists, each at the process that owns its vertex: without weights 8 bytes an entry, with them 12.
template <typename EntryProperty>
using Lists = boost::compressed_sparse_row_graph<boost::directedS, boost::no_property, EntryProperty,
                                                 boost::no_property, boost::distributedS<ProcessGroup>>;
using PlainGraph = Lists<boost::no_property>;
using WeightedGraph = Lists<Cost>;

/// The library writes a vertex's process in this many of its bits.
constexpr int MOST_PROCESSES = 1 << boost::processor_bits;

/// An edge at the process that owns its source.
struct OwnedEdge {
    std::uint64_t target;
    /// the source's place in the owner's block
    std::uint32_t source;
    std::uint32_t weight;
};

/// Sends each edge to its source's owner, and where `both_ways` holds its reverse to its target's, a loop once. Takes
/// the chunks away as it goes.
std::vector<OwnedEdge> dealt_out(const boost::mpi::communicator& world, ReadEdges& edges, const Numbering& numbering,
                                 bool both_ways);

PlainGraph plain_graph(const ProcessGroup& group, std::vector<OwnedEdge> edges, const Numbering& numbering);
WeightedGraph weighted_graph(const ProcessGroup& group, std::vector<OwnedEdge> edges, const Numbering& numbering);

}  // namespace beyond
