// What ends the work without its answer.
#pragma once

#include <string>
#include <utility>

namespace beyond {

enum Status { WantOfMemory = 1, BadWords = 2, InputFailed = 3, OutputFailed = 4, BadText = 6, BadSource = 8 };

/// A status and the line that tells why, empty where there is none. Each is thrown by all processes alike, so that none
/// waits for another that has ended.
struct Refusal {
    Status status;
    std::string line;
};

inline Refusal refused(Status status, const std::string& what) { return {status, "refused: " + what}; }

}  // namespace beyond
