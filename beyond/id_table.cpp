#include "id_table.hpp"

#include <new>

namespace beyond {

std::uint32_t& IdTable::slot_of(std::uint64_t id) {
    // Fibonacci hashing: the product's high bits depend on all bits of the id
    std::size_t slot = (id * 0x9E3779B97F4A7C15u) >> 20;
    for (slot &= slots_.size() - 1; slots_[slot] != FREE && ids_[slots_[slot]] != id;)
        slot = (slot + 1) & (slots_.size() - 1);
    return slots_[slot];
}

std::uint32_t IdTable::place_of(std::uint64_t id) {
    std::uint32_t& slot = slot_of(id);
    if (slot != FREE) return slot;
    if (ids_.size() == FREE) throw std::bad_alloc();
    const auto place = static_cast<std::uint32_t>(ids_.size());
    slot = place;
    ids_.push_back(id);
    if (ids_.size() * 2 > slots_.size()) grow();
    return place;
}

void IdTable::grow() {
    slots_.assign(slots_.size() * 2, FREE);
    for (std::uint32_t place = 0; place < ids_.size(); ++place) slot_of(ids_[place]) = place;
}

}  // namespace beyond
