#include "graph.hpp"

#include <boost/iterator/transform_iterator.hpp>
#include <boost/mpi/collectives.hpp>
#include <functional>
#include <numeric>

#include "exchange.hpp"

namespace mpi = boost::mpi;

namespace beyond {
namespace {

constexpr std::size_t CHUNKS_A_ROUND = 4;

struct NumberedEdge {
    std::uint64_t source;
    std::uint64_t target;
    std::uint32_t weight;
};

/// Calls `each` with the edge by its vertices' numbers, and with its reverse.
template <typename Each>
void directions_of(const ReadEdge& edge, const Numbering& numbering, bool both_ways, Each each) {
    const std::uint64_t source = numbering.numbers[edge.source], target = numbering.numbers[edge.target];
    each(NumberedEdge{source, target, edge.weight});
    if (both_ways && source != target) each(NumberedEdge{target, source, edge.weight});
}

/// How many edges come to this process.
std::uint64_t coming(const mpi::communicator& world, const ReadEdges& edges, const Numbering& numbering,
                     bool both_ways) {
    std::vector<std::uint64_t> counts(world.size(), 0), came;
    for (const auto& chunk : edges.chunks)
        for (const ReadEdge& edge : chunk)
            directions_of(edge, numbering, both_ways, [&](const NumberedEdge& directed) {
                ++counts[numbering.blocks.owner_of(directed.source)];
            });
    mpi::all_to_all(world, counts, came);
    return std::accumulate(came.begin(), came.end(), std::uint64_t{0});
}

/// The edges of some chunks, which are taken away.
std::vector<NumberedEdge> next_round(ReadEdges& edges, const Numbering& numbering, bool both_ways) {
    std::vector<NumberedEdge> round;
    for (std::size_t chunk = 0; chunk < CHUNKS_A_ROUND && !edges.chunks.empty(); ++chunk) {
        for (const ReadEdge& edge : edges.chunks.front())
            directions_of(edge, numbering, both_ways, [&](const NumberedEdge& directed) { round.push_back(directed); });
        edges.chunks.pop_front();
    }
    return round;
}

/// The edge as the library takes it.
struct Ends {
    std::uint64_t begin;
    std::pair<std::size_t, std::size_t> operator()(const OwnedEdge& edge) const {
        return {begin + edge.source, edge.target};
    }
};

struct CostOf {
    Cost operator()(const OwnedEdge& edge) const { return {edge.weight}; }
};

}  // namespace

std::vector<OwnedEdge> dealt_out(const mpi::communicator& world, ReadEdges& edges, const Numbering& numbering,
                                 bool both_ways) {
    std::vector<OwnedEdge> owned;
    owned.reserve(coming(world, edges, numbering, both_ways));
    const std::uint64_t begin = numbering.blocks.begin_of(world.rank());
    while (mpi::all_reduce(world, !edges.chunks.empty(), std::logical_or<bool>())) {
        const auto came = exchange(world, grouped<NumberedEdge>(
            world.size(), next_round(edges, numbering, both_ways),
            [&numbering](const NumberedEdge& edge) { return numbering.blocks.owner_of(edge.source); }));
        for (const NumberedEdge& edge : came.items)
            owned.push_back({edge.target, static_cast<std::uint32_t>(edge.source - begin), edge.weight});
    }
    return owned;
}

PlainGraph plain_graph(const ProcessGroup& group, std::vector<OwnedEdge> edges, const Numbering& numbering) {
    const Ends ends{numbering.blocks.begin_of(process_id(group))};
    return PlainGraph(boost::edges_are_unsorted_multi_pass, boost::make_transform_iterator(edges.cbegin(), ends),
                      boost::make_transform_iterator(edges.cend(), ends), numbering.vertices, group);
}

WeightedGraph weighted_graph(const ProcessGroup& group, std::vector<OwnedEdge> edges, const Numbering& numbering) {
    const Ends ends{numbering.blocks.begin_of(process_id(group))};
    return WeightedGraph(boost::edges_are_unsorted_multi_pass, boost::make_transform_iterator(edges.cbegin(), ends),
                         boost::make_transform_iterator(edges.cend(), ends),
                         boost::make_transform_iterator(edges.cbegin(), CostOf()), numbering.vertices, group);
}

}  // namespace beyond
