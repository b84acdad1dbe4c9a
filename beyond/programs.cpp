#include "programs.hpp"

#include "graph.hpp"

#include <algorithm>
// behind the one that turns MPI on
#include <boost/graph/breadth_first_search.hpp>
#include <boost/graph/connected_components.hpp>
#include <boost/graph/distributed/delta_stepping_shortest_paths.hpp>
#include <boost/property_map/parallel/distributed_property_map.hpp>

#include "exchange.hpp"
#include "reductions.hpp"

namespace mpi = boost::mpi;

namespace beyond {
namespace {

using Values = std::vector<std::uint64_t>;
using Vertex = PlainGraph::vertex_descriptor;

/// The weights of entries, in the width of their sums.
struct WideWeights {
    using key_type = WeightedGraph::edge_descriptor;
    using value_type = std::uint64_t;
    using reference = value_type;
    using category = boost::readable_property_map_tag;

    const WeightedGraph::base_type* lists;

    friend value_type get(const WideWeights& weights, const key_type& entry) { return (*weights.lists)[entry].weight; }
};

template <typename Graph, typename Value>
auto property_map(std::vector<Value>& values, const Graph& graph) {
    return boost::make_iterator_property_map(values.begin(), get(boost::vertex_index, graph));
}

Values levels(const ProcessGroup& group, std::vector<OwnedEdge> edges, const Numbering& numbering,
              std::uint64_t source) {
    const PlainGraph graph = plain_graph(group, std::move(edges), numbering);
    const Vertex begin = vertex(source, graph);
    Values values(num_vertices(graph), ABSENT);
    auto lengths = property_map(values, graph);
    set_property_map_role(boost::vertex_distance, lengths);
    if (get(get(boost::vertex_owner, graph), begin) == process_id(group)) put(lengths, begin, 0);
    const auto recorder = boost::make_bfs_visitor(boost::record_distances(lengths, boost::on_tree_edge()));
    breadth_first_search(graph, begin, boost::visitor(recorder));
    synchronize(lengths);
    return values;
}

/// The width of the buckets of weights in which the library works: the greatest weight, shared out over the entries of
/// a vertex as there are on average.
std::uint64_t bucket_width(const mpi::communicator& world, const std::vector<OwnedEdge>& edges,
                           std::uint64_t vertices) {
    std::uint64_t greatest = 0;
    for (const OwnedEdge& edge : edges) greatest = std::max<std::uint64_t>(greatest, edge.weight);
    const std::uint64_t entries = sum_of(world, edges.size());
    return std::max<std::uint64_t>(1, greatest_of(world, greatest) / std::max<std::uint64_t>(1, entries / vertices));
}

Values least_weights(const mpi::communicator& world, const ProcessGroup& group, std::vector<OwnedEdge> edges,
                     const Numbering& numbering, std::uint64_t source) {
    const std::uint64_t width = bucket_width(world, edges, numbering.vertices);
    const WeightedGraph graph = weighted_graph(group, std::move(edges), numbering);
    Values values(num_vertices(graph));
    boost::graph::distributed::delta_stepping_shortest_paths(
        graph, vertex(source, graph), boost::dummy_property_map(), property_map(values, graph),
        WideWeights{&graph.base()}, width);
    return values;
}

struct RootLeast {
    std::uint64_t root;
    std::uint64_t least;
};

/// The least id below each of the roots that this process's vertices have, ascending by root.
std::vector<RootLeast> least_here(const std::vector<Vertex>& roots, const Values& own_ids) {
    std::vector<RootLeast> found;
    for (std::size_t at = 0; at < roots.size(); ++at) found.push_back({roots[at], own_ids[at]});
    // ids ascend, so the first of a root has its least
    const auto is_before = [](const RootLeast& one, const RootLeast& other) { return one.root < other.root; };
    const auto is_same = [](const RootLeast& one, const RootLeast& other) { return one.root == other.root; };
    std::stable_sort(found.begin(), found.end(), is_before);
    found.erase(std::unique(found.begin(), found.end(), is_same), found.end());
    return found;
}

/// The least id in the component of each of this process's vertices, by the root that it shares with the component.
Values least_of_components(const mpi::communicator& world, const PlainGraph& graph, const std::vector<Vertex>& roots,
                           const Values& own_ids) {
    const auto owner = get(boost::vertex_owner, graph);
    const auto local = get(boost::vertex_local, graph);
    auto sent = grouped<RootLeast>(world.size(), least_here(roots, own_ids),
                                   [&](const RootLeast& item) { return get(owner, item.root); });
    auto came = exchange(world, sent);
    Values least(roots.size(), ABSENT);
    for (const RootLeast& item : came.items) {
        auto& of_root = least[get(local, item.root)];
        of_root = std::min(of_root, item.least);
    }
    for (RootLeast& item : came.items) item.least = least[get(local, item.root)];
    sent = exchange(world, came);

    // the roots' owners ascend with the roots, so the answers stand in the order of the roots
    Values values(roots.size());
    const auto is_before = [](const RootLeast& item, Vertex root) { return item.root < root; };
    for (std::size_t at = 0; at < roots.size(); ++at)
        values[at] = std::lower_bound(sent.items.begin(), sent.items.end(), roots[at], is_before)->least;
    return values;
}

/// The edges stand there both ways.
Values components(const mpi::communicator& world, const ProcessGroup& group, std::vector<OwnedEdge> edges,
                  const Numbering& numbering) {
    const PlainGraph graph = plain_graph(group, std::move(edges), numbering);
    std::vector<Vertex> roots(num_vertices(graph));
    boost::graph::distributed::connected_components(graph, boost::dummy_property_map(), property_map(roots, graph));
    return least_of_components(world, graph, roots, numbering.own_ids);
}

}  // namespace

int most_processes() { return MOST_PROCESSES; }

std::vector<std::uint64_t> values_of(const mpi::communicator& world, const Job& job, ReadEdges& edges,
                                     const Numbering& numbering, std::optional<std::uint64_t> source) {
    if (job.program != Program::Wcc && !source) return Values(numbering.own_ids.size(), ABSENT);
    if (numbering.vertices == 0) return {};
    auto owned = dealt_out(world, edges, numbering, job.undirected || job.program == Program::Wcc);
    const ProcessGroup group(world);
    switch (job.program) {
        case Program::Bfs: return levels(group, std::move(owned), numbering, *source);
        case Program::Sssp: return least_weights(world, group, std::move(owned), numbering, *source);
        case Program::Wcc: return components(world, group, std::move(owned), numbering);
    }
    return {};
}

}  // namespace beyond
