// Levels, least weights and components of an edge text, over several processes.
#include <malloc.h>
#include <unistd.h>

#include <algorithm>
#include <boost/mpi/communicator.hpp>
#include <boost/mpi/environment.hpp>
#include <cstdio>
#include <new>
#include <optional>

#include "edge_text.hpp"
#include "numbering.hpp"
#include "programs.hpp"
#include "reductions.hpp"
#include "refusal.hpp"
#include "value_lines.hpp"
#include "words.hpp"

namespace mpi = boost::mpi;

namespace beyond {
namespace {

/// The greatest id that an edge names; none without an edge.
std::optional<std::uint64_t> greatest_id(const mpi::communicator& world, const std::vector<std::uint64_t>& own_ids) {
    const bool has_any = sum_of(world, own_ids.size()) != 0;
    const std::uint64_t greatest = greatest_of(world, own_ids.empty() ? 0 : own_ids.back());
    return has_any ? std::optional(greatest) : std::nullopt;
}

void refuse_source(const Job& job, std::optional<std::uint64_t> greatest) {
    if (job.program == Program::Wcc || (greatest && job.source <= *greatest)) return;
    const std::string below = std::to_string(greatest ? *greatest + 1 : 0);
    throw refused(BadSource, "source " + std::to_string(job.source) + " not below " + below);
}

/// The number of the vertex with this id, where it is named.
std::optional<std::uint64_t> number_of(const mpi::communicator& world, const Numbering& numbering, std::uint64_t id) {
    const auto& ids = numbering.own_ids;
    const auto place = std::lower_bound(ids.begin(), ids.end(), id);
    const bool is_here = place != ids.end() && *place == id;
    // one more than the number, so that 0 says that it isn't here
    const std::uint64_t mine = is_here ? numbering.blocks.begin_of(world.rank()) + (place - ids.begin()) + 1 : 0;
    const std::uint64_t found = greatest_of(world, mine);
    return found != 0 ? std::optional(found - 1) : std::nullopt;
}

void run(const mpi::communicator& world, const std::vector<std::string>& words) {
    const Job job = job_of(words);
    if (world.size() > most_processes())
        throw refused(BadWords, "more than " + std::to_string(most_processes()) + " processes");
    ReadEdges edges = read_edges(world, job.input);
    Numbering numbering = number_ids(world, edges.ids.ids());
    edges.ids = IdTable();
    const auto greatest = greatest_id(world, numbering.own_ids);
    refuse_source(job, greatest);
    const auto source = number_of(world, numbering, job.source);
    std::vector<std::uint64_t> values = values_of(world, job, edges, numbering, source);
    print_values(world, job, {std::move(numbering.own_ids), std::move(values)}, greatest.value_or(0));
}

int status_of(const mpi::communicator& world, const std::vector<std::string>& words) {
    try {
        run(world, words);
        return 0;
    } catch (const Refusal& refusal) {
        if (world.rank() != 0 || refusal.line.empty()) return refusal.status;
        const bool is_said = std::puts(refusal.line.c_str()) >= 0 && std::fflush(stdout) == 0;
        return is_said ? refusal.status : OutputFailed;
    } catch (const std::bad_alloc&) {
        // the others don't know of it, and may be waiting
        constexpr char LINE[] = "refused: memory\n";
        static_cast<void>(!::write(STDOUT_FILENO, LINE, sizeof LINE - 1));
        mpi::environment::abort(WantOfMemory);
        return WantOfMemory;
    }
}

}  // namespace
}  // namespace beyond

int main(int count, char** words) {
    // what is freed goes back to the system: with a threshold that rises by itself, chunks of edges wouldn't
    mallopt(M_MMAP_THRESHOLD, 1 << 19);
    const mpi::environment environment(count, words);
    return beyond::status_of(mpi::communicator(), {words + 1, words + count});
}
