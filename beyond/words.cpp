#include "words.hpp"

#include <algorithm>
#include <charconv>
#include <map>
#include <optional>
#include <string_view>

#include "refusal.hpp"

namespace beyond {
namespace {

struct Option {
    std::string_view name;
    bool is_flag;
};

// All options of `fg`, in its order, in which the first wrong one is named. `drive` is a word in no option's place.
constexpr Option OPTIONS[] = {
    {"program", false}, {"source", false}, {"max", false}, {"cut", false}, {"each", true}, {"quiet", true},
    {"workers", false}, {"sets", false}, {"ways", false}, {"depth", false}, {"shift", false}, {"helpers", true},
    {"stats", true}, {"unit", false}, {"number", false}, {"undirected", true}, {"input", false}, {"start", false},
    {"nodes", false}, {"edges", false}, {"drives", false}, {"drive", false}};

constexpr std::string_view DRIVE = "drive";

using Given = std::map<std::string_view, std::string>;

Refusal refused_words(std::string_view what, std::string_view name = {}) {
    std::string line = "words " + std::string(what);
    return refused(BadWords, name.empty() ? line : line + ' ' + std::string(name));
}

bool begins_with_dash(std::string_view word) { return word.size() > 1 && word.front() == '-'; }

const Option& option_named(std::string_view name) {
    const auto found = std::find_if(std::begin(OPTIONS), std::end(OPTIONS), [name](const Option& option) {
        return option.name == name && name != DRIVE;
    });
    if (found == std::end(OPTIONS)) throw refused_words("parse");
    return *found;
}

/// Reads the option at `place`, `--NAME`, `--NAME VALUE` or `--NAME=VALUE`, and leaves `place` at its last word.
void read_option(const std::vector<std::string>& words, std::size_t& place, Given& given) {
    const std::string_view word = words[place];
    if (word.substr(0, 2) != "--") throw refused_words("parse");
    const std::size_t equals = word.find('=');
    const bool has_value = equals != word.npos;
    const Option& option = option_named(word.substr(2, has_value ? equals - 2 : word.npos));
    std::string value;
    if (has_value) {
        if (option.is_flag) throw refused_words("parse");
        value = word.substr(equals + 1);
    } else if (!option.is_flag) {
        if (++place == words.size() || begins_with_dash(words[place])) throw refused_words("parse");
        value = words[place];
    }
    if (!given.emplace(option.name, value).second) throw refused_words("parse");
}

Given read(const std::vector<std::string>& words) {
    Given given;
    bool is_behind_options = false;
    for (std::size_t place = 0; place < words.size(); ++place) {
        if (!is_behind_options && words[place] == "--")
            is_behind_options = true;
        else if (!is_behind_options && begins_with_dash(words[place]))
            read_option(words, place, given);
        else
            given.emplace(DRIVE, words[place]);
    }
    return given;
}

/// One to twenty digits, below 2^64.
std::optional<std::uint64_t> number_of(std::string_view word) {
    std::uint64_t number = 0;
    const char* behind = word.data() + word.size();
    const auto [end, error] = std::from_chars(word.data(), behind, number);
    const bool is_number = word.size() <= 20 && error == std::errc() && end == behind;
    return is_number ? std::optional(number) : std::nullopt;
}

std::optional<Program> program_of(std::string_view name) {
    if (name == "bfs") return Program::Bfs;
    if (name == "sssp") return Program::Sssp;
    if (name == "wcc") return Program::Wcc;
    return std::nullopt;
}

bool is_of_fg_alone(std::string_view name) { return name == "core" || name == "rank"; }

}  // namespace

Job job_of(const std::vector<std::string>& words) {
    const Given given = read(words);
    const auto is_given = [&given](std::string_view name) { return given.count(name) != 0; };
    const std::string name = is_given("program") ? given.at("program") : "";
    const std::optional<Program> program = program_of(name);
    const bool has_source = program && *program != Program::Wcc;

    for (const auto& [option, is_flag] : OPTIONS) {
        const bool is_taken = option == "program" || option == "quiet" || option == "undirected" || option == "input";
        const bool depends = option == "source" || option == "cut";
        const bool may_be = is_taken || (depends && !program) || (option == "source" && has_source);
        if (!may_be && is_given(option)) throw refused_words("extra", option);
    }
    if (!is_given("program")) throw refused_words("missing", "program");
    if (has_source && !is_given("source")) throw refused_words("missing", "source");
    if (!is_given("input")) throw refused_words("missing", "input");
    if (is_of_fg_alone(name)) throw refused(BadWords, "program " + name + " not on this engine");
    if (!program) throw refused_words("range", "program");
    const auto source = has_source ? number_of(given.at("source")) : 0;
    if (!source) throw refused_words("range", "source");
    return {*program, *source, given.at("input"), is_given("undirected"), is_given("quiet")};
}

}  // namespace beyond
