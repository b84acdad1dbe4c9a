#include "value_lines.hpp"

#include <algorithm>
#include <boost/mpi/collectives.hpp>
#include <charconv>
#include <cstdio>
#include <optional>
#include <string>

#include "programs.hpp"
#include "refusal.hpp"

namespace mpi = boost::mpi;

namespace beyond {
namespace {

using Sum = unsigned __int128;

constexpr std::size_t PIECE_BYTES = 1 << 20;
constexpr std::size_t NUMBER_BYTES = 20;
constexpr int TEXT_TAG = 1;

/// The ids of which one process has the lines, both ends among them.
struct Range {
    std::uint64_t first;
    std::uint64_t last;
};

/// From this process's first vertex, or from 0, up to the next process's; none where it has no vertex.
std::optional<Range> range_of(const mpi::communicator& world, const std::vector<std::uint64_t>& ids,
                              std::uint64_t greatest) {
    std::vector<std::uint64_t> counts, firsts;
    mpi::all_gather(world, std::uint64_t{ids.size()}, counts);
    mpi::all_gather(world, ids.empty() ? 0 : ids.front(), firsts);
    if (ids.empty()) return std::nullopt;
    const int me = world.rank(), next = me + 1;
    const bool is_last = next == world.size() || counts[next] == 0;
    return Range{me == 0 ? 0 : ids.front(), is_last ? greatest : firsts[next] - 1};
}

/// The value of a vertex without an edge.
std::uint64_t lone_value(const Job& job, std::uint64_t id) {
    if (job.program == Program::Wcc) return id;
    return id == job.source ? 0 : ABSENT;
}

/// Calls `each` with every number of the range and its value.
template <typename Each>
void for_each_number(const Job& job, const Valued& valued, const Range& range, Each each) {
    std::size_t at = 0;
    for (std::uint64_t id = range.first; id <= range.last; ++id) {
        const bool is_named = at < valued.ids.size() && valued.ids[at] == id;
        each(id, is_named ? valued.values[at++] : lone_value(job, id));
    }
}

/// Calls `each` with every vertex that is named.
template <typename Each>
void for_each_named(const Job& job, Valued& valued, const Range& range, Each each) {
    const auto place = std::lower_bound(valued.ids.begin(), valued.ids.end(), job.source);
    const bool is_here = range.first <= job.source && job.source <= range.last;
    if (job.program != Program::Wcc && is_here && (place == valued.ids.end() || *place != job.source)) {
        valued.values.insert(valued.values.begin() + (place - valued.ids.begin()), 0);
        valued.ids.insert(place, job.source);
    }
    for (std::size_t at = 0; at < valued.ids.size(); ++at) each(valued.ids[at], valued.values[at]);
}

/// Where a process's text goes: to the output, or to the process that prints.
class TextSink {
public:
    explicit TextSink(const mpi::communicator& world) : world_(world) { text_.reserve(PIECE_BYTES); }

    void put_line(std::uint64_t id, std::uint64_t value) {
        char line[2 * NUMBER_BYTES + 2];
        char* end = std::to_chars(line, line + NUMBER_BYTES, id).ptr;
        *end++ = ' ';
        if (value == ABSENT)
            *end++ = '-';
        else
            end = std::to_chars(end, end + NUMBER_BYTES, value).ptr;
        *end++ = '\n';
        if (text_.size() + (end - line) > PIECE_BYTES) hand_on();
        text_.append(line, end);
    }

    void put(const std::string& line) { text_ += line; }

    /// Hands the rest on, and behind it what the other processes have; answers whether all was printed.
    bool finish() {
        hand_on();
        if (world_.rank() != 0) {
            // an empty piece is the end
            hand_on();
        } else {
            for (int process = 1; process < world_.size(); ++process) print_of(process);
            failed_ |= std::fflush(stdout) != 0;
        }
        mpi::broadcast(world_, failed_, 0);
        return !failed_;
    }

private:
    void hand_on() {
        if (world_.rank() != 0)
            world_.send(0, TEXT_TAG, text_.data(), static_cast<int>(text_.size()));
        else
            print();
        text_.clear();
    }

    void print() { failed_ |= std::fwrite(text_.data(), 1, text_.size(), stdout) != text_.size(); }

    void print_of(int process) {
        int count = 0;
        do {
            text_.resize(PIECE_BYTES);
            count = *world_.recv(process, TEXT_TAG, text_.data(), PIECE_BYTES).count<char>();
            text_.resize(count);
            print();
        } while (count != 0);
    }

    const mpi::communicator& world_;
    std::string text_;
    bool failed_ = false;
};

std::string decimal(Sum sum) {
    std::string digits;
    do {
        digits.insert(digits.begin(), static_cast<char>('0' + static_cast<int>(sum % 10)));
        sum /= 10;
    } while (sum != 0);
    return digits;
}

/// The sum over all processes, at the first.
Sum total(const mpi::communicator& world, Sum mine) {
    std::vector<std::uint64_t> highs, lows;
    mpi::gather(world, static_cast<std::uint64_t>(mine >> 64), highs, 0);
    mpi::gather(world, static_cast<std::uint64_t>(mine), lows, 0);
    Sum sum = 0;
    for (std::size_t process = 0; process < lows.size(); ++process) sum += (Sum{highs[process]} << 64) + lows[process];
    return sum;
}

}  // namespace

void print_values(const mpi::communicator& world, const Job& job, Valued valued, std::uint64_t greatest) {
    const std::optional<Range> range = range_of(world, valued.ids, greatest);
    const auto for_each_value = [&](auto each) {
        if (!range) return;
        if (greatest < FG_IDS)
            for_each_number(job, valued, *range, each);
        else
            for_each_named(job, valued, *range, each);
    };
    TextSink sink(world);
    if (job.quiet) {
        Sum mine = 0;
        for_each_value([&mine](std::uint64_t, std::uint64_t value) { mine += value == ABSENT ? 0 : value; });
        const Sum sum = total(world, mine);
        if (world.rank() == 0) sink.put("sum " + decimal(sum) + '\n');
    } else {
        for_each_value([&sink](std::uint64_t id, std::uint64_t value) { sink.put_line(id, value); });
    }
    if (!sink.finish()) throw Refusal{OutputFailed, ""};
}

}  // namespace beyond
