// The words of the command line.
#pragma once

#include <cstdint>
#include <string>
#include <vector>

namespace beyond {

enum class Program { Bfs, Sssp, Wcc };

struct Job {
    Program program;
    /// where the walks begin, 0 for a program that has no source
    std::uint64_t source;
    std::string input;
    bool undirected;
    bool quiet;
};

/// The job that the words behind the program's name say; throws the refusal of words that say none.
Job job_of(const std::vector<std::string>& words);

}  // namespace beyond
