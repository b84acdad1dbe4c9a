// Which ids a process met, and where.
#pragma once

#include <cstdint>
#include <vector>

namespace beyond {

/// Ids of up to 64 bits, each once, in the order in which they came. It takes 16 to 24 bytes for each.
class IdTable {
public:
    IdTable() : slots_(1 << 10, FREE) {}

    /// The place of the id in `ids`, where it is put if it wasn't there. Fewer than 2^32 - 1 fit.
    std::uint32_t place_of(std::uint64_t id);

    const std::vector<std::uint64_t>& ids() const { return ids_; }

private:
    static constexpr std::uint32_t FREE = UINT32_MAX;

    std::uint32_t& slot_of(std::uint64_t id);
    void grow();

    // an open-addressed table of places, at most half full, its size a power of two
    std::vector<std::uint32_t> slots_;
    std::vector<std::uint64_t> ids_;
};

}  // namespace beyond
