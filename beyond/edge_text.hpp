// The edge text, of which each process reads its own part.
#pragma once

#include <boost/mpi/communicator.hpp>
#include <cstdint>
#include <deque>
#include <string>
#include <vector>

#include "id_table.hpp"

namespace beyond {

/// An edge between two ids of a process's table, by their places there.
struct ReadEdge {
    std::uint32_t source;
    std::uint32_t target;
    std::uint32_t weight;
};

/// The edges of the lines that begin in a process's part of the text. They stand in chunks, so that who takes them away
/// gives their memory back chunk by chunk.
struct ReadEdges {
    std::deque<std::vector<ReadEdge>> chunks;
    IdTable ids;
};

/// Reads this process's part of the file. Throws the refusal of an input that fails or isn't a plain file, and that of
/// the text's first refused line, whichever comes first in the text, in all processes.
ReadEdges read_edges(const boost::mpi::communicator& world, const std::string& path);

}  // namespace beyond
