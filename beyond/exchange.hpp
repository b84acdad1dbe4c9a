// Items that every process sends to every other.
#pragma once

#include <mpi.h>

#include <boost/mpi/communicator.hpp>
#include <climits>
#include <new>
#include <type_traits>
#include <vector>

namespace beyond {

/// Items side by side, grouped by the process that they go to or come from, and how many each has.
template <typename Item>
struct Parcels {
    std::vector<Item> items;
    std::vector<int> counts;
};

/// The places where the groups begin, and behind them that of the end.
inline std::vector<int> starts_of(const std::vector<int>& counts) {
    std::vector<int> starts(counts.size() + 1, 0);
    for (std::size_t group = 0; group < counts.size(); ++group)
        if (__builtin_add_overflow(starts[group], counts[group], &starts[group + 1])) throw std::bad_alloc();
    return starts;
}

/// Sends all parcels, and gives those that came, by sender. All processes call it together.
template <typename Item>
Parcels<Item> exchange(const boost::mpi::communicator& world, const Parcels<Item>& sent) {
    static_assert(std::is_trivially_copyable_v<Item>);
    Parcels<Item> came{{}, std::vector<int>(world.size())};
    MPI_Alltoall(sent.counts.data(), 1, MPI_INT, came.counts.data(), 1, MPI_INT, world);
    const std::vector<int> from = starts_of(sent.counts), to = starts_of(came.counts);
    came.items.resize(to.back());
    MPI_Datatype type;
    MPI_Type_contiguous(sizeof(Item), MPI_BYTE, &type);
    MPI_Type_commit(&type);
    MPI_Alltoallv(sent.items.data(), sent.counts.data(), from.data(), type, came.items.data(), came.counts.data(),
                  to.data(), type, world);
    MPI_Type_free(&type);
    return came;
}

/// Groups items by the process that each goes to.
template <typename Item, typename Items, typename Owner>
Parcels<Item> grouped(int processes, const Items& items, Owner owner_of) {
    Parcels<Item> parcels{std::vector<Item>(items.size()), std::vector<int>(processes, 0)};
    for (const Item& item : items) ++parcels.counts[owner_of(item)];
    std::vector<int> next = starts_of(parcels.counts);
    for (const Item& item : items) parcels.items[next[owner_of(item)]++] = item;
    return parcels;
}

}  // namespace beyond
