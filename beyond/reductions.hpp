// Numbers that all processes put together.
#pragma once

#include <mpi.h>

#include <boost/mpi/communicator.hpp>
#include <cstdint>

namespace beyond {

inline std::uint64_t reduced(const boost::mpi::communicator& world, std::uint64_t mine, MPI_Op operation) {
    std::uint64_t all = 0;
    MPI_Allreduce(&mine, &all, 1, MPI_UINT64_T, operation, world);
    return all;
}

// Boost's own reduction takes the extremes of 64-bit numbers as if they had a sign.
inline std::uint64_t greatest_of(const boost::mpi::communicator& world, std::uint64_t mine) {
    return reduced(world, mine, MPI_MAX);
}

inline std::uint64_t least_of(const boost::mpi::communicator& world, std::uint64_t mine) {
    return reduced(world, mine, MPI_MIN);
}

inline std::uint64_t sum_of(const boost::mpi::communicator& world, std::uint64_t mine) {
    return reduced(world, mine, MPI_SUM);
}

}  // namespace beyond
