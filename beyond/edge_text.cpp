#include "edge_text.hpp"

#include <fcntl.h>
#include <sys/stat.h>
#include <unistd.h>

#include <algorithm>
#include <boost/mpi/collectives.hpp>
#include <cerrno>
#include <memory>

#include "edge_line.hpp"
#include "reductions.hpp"
#include "refusal.hpp"

namespace mpi = boost::mpi;

namespace beyond {
namespace {

constexpr std::size_t CHUNK_EDGES = 1 << 16;
constexpr std::size_t BUFFER_BYTES = 1 << 20;
constexpr std::uint64_t NO_FILE = UINT64_MAX;

Refusal input_failed() { return refused(InputFailed, "input failed"); }

/// A plain file that is read by place.
class PlainFile {
public:
    explicit PlainFile(const std::string& path) : descriptor_(::open(path.c_str(), O_RDONLY | O_CLOEXEC)) {}
    PlainFile(const PlainFile&) = delete;
    PlainFile& operator=(const PlainFile&) = delete;
    ~PlainFile() {
        if (descriptor_ >= 0) ::close(descriptor_);
    }

    /// Its bytes, or `NO_FILE`.
    std::uint64_t size() const {
        struct stat said;
        const bool is_plain = descriptor_ >= 0 && ::fstat(descriptor_, &said) == 0 && S_ISREG(said.st_mode);
        return is_plain ? static_cast<std::uint64_t>(said.st_size) : NO_FILE;
    }

    /// Reads some bytes from this place on; false where it fails or ends there.
    bool read(std::uint64_t place, std::size_t most, char* bytes, std::size_t& count) const {
        ssize_t got = 0;
        do got = ::pread(descriptor_, bytes, most, static_cast<off_t>(place));
        while (got < 0 && errno == EINTR);
        count = got > 0 ? static_cast<std::size_t>(got) : 0;
        return got > 0;
    }

private:
    int descriptor_;
};

/// How a process's part ends: whether it is cut short, and by what, and its lines up to there.
struct PartEnd {
    enum Cause : std::uint64_t { None, Input, NotAnEdge, IdTooLarge };
    std::uint64_t cause = None;
    std::uint64_t lines = 0;
};

/// Takes the lines that begin in one part of the text.
class PartReader {
public:
    PartReader(ReadEdges& edges, std::uint64_t begin, std::uint64_t end)
        : edges_(edges), end_(end), place_(begin == 0 ? 0 : begin - 1), is_in_part_(begin == 0) {}

    /// Where the next byte is read.
    std::uint64_t place() const { return place_; }

    /// No line of the part is left, or one is refused.
    bool is_done() const {
        return (is_in_part_ && !line_.is_begun() && place_ >= end_) || said_.cause != PartEnd::None;
    }

    void take(const char* bytes, std::size_t count) {
        for (std::size_t at = 0; at < count && !is_done(); ++at, ++place_) {
            if (bytes[at] != '\n') {
                if (is_in_part_) line_.take(bytes[at]);
            } else if (is_in_part_) {
                end_line();
            } else {
                is_in_part_ = true;
            }
        }
    }

    /// The text ends here.
    PartEnd end() {
        if (is_in_part_ && line_.is_begun() && said_.cause == PartEnd::None) end_line();
        return said_;
    }

    PartEnd fail() {
        said_.cause = PartEnd::Input;
        return said_;
    }

private:
    void end_line() {
        ++said_.lines;
        switch (line_.kind()) {
            case EdgeLine::Kind::Skipped: break;
            case EdgeLine::Kind::Edge: add(); break;
            case EdgeLine::Kind::NotAnEdge: said_.cause = PartEnd::NotAnEdge; break;
            case EdgeLine::Kind::IdTooLarge: said_.cause = PartEnd::IdTooLarge; break;
        }
        line_ = EdgeLine();
    }

    void add() {
        auto& chunks = edges_.chunks;
        if (chunks.empty() || chunks.back().size() == CHUNK_EDGES) chunks.emplace_back().reserve(CHUNK_EDGES);
        const std::uint32_t source = edges_.ids.place_of(line_.source());
        chunks.back().push_back({source, edges_.ids.place_of(line_.target()), line_.weight()});
    }

    ReadEdges& edges_;
    std::uint64_t end_;
    std::uint64_t place_;
    // it is behind the line that began in an earlier part
    bool is_in_part_;
    EdgeLine line_;
    PartEnd said_;
};

PartEnd read_part(const PlainFile& file, std::uint64_t size, std::uint64_t begin, std::uint64_t end, ReadEdges& edges) {
    PartReader reader(edges, begin, end);
    if (begin == end) return reader.end();
    const auto buffer = std::make_unique<char[]>(BUFFER_BYTES);
    while (!reader.is_done() && reader.place() < size) {
        const std::size_t most = std::min<std::uint64_t>(BUFFER_BYTES, size - reader.place());
        std::size_t count = 0;
        if (!file.read(reader.place(), most, buffer.get(), count)) return reader.fail();
        reader.take(buffer.get(), count);
    }
    return reader.end();
}

/// The size that all processes see.
std::uint64_t common_size(const mpi::communicator& world, const PlainFile& file) {
    const std::uint64_t size = file.size();
    // all throw alike, also those that see the file
    if (least_of(world, size) != greatest_of(world, size) || size == NO_FILE) throw input_failed();
    return size;
}

/// Throws the refusal of the first part that is cut short. The parts before it are whole, so their lines are all there.
void refuse_first(const mpi::communicator& world, const PartEnd& mine) {
    std::vector<std::uint64_t> causes, lines;
    mpi::all_gather(world, mine.cause, causes);
    mpi::all_gather(world, mine.lines, lines);
    std::uint64_t line = 0;
    for (int part = 0; part < world.size(); ++part) {
        line += lines[part];
        if (causes[part] == PartEnd::Input) throw input_failed();
        if (causes[part] == PartEnd::None) continue;
        const char* what = causes[part] == PartEnd::NotAnEdge ? " not an edge" : " id too large";
        throw refused(BadText, "line " + std::to_string(line) + what);
    }
}

}  // namespace

ReadEdges read_edges(const mpi::communicator& world, const std::string& path) {
    const PlainFile file(path);
    const std::uint64_t size = common_size(world, file);
    const auto begin_of = [&](int part) {
        return static_cast<std::uint64_t>(static_cast<unsigned __int128>(size) * part / world.size());
    };
    ReadEdges edges;
    refuse_first(world, read_part(file, size, begin_of(world.rank()), begin_of(world.rank() + 1), edges));
    return edges;
}

}  // namespace beyond
