// One line of an edge text.
#pragma once

#include <array>
#include <cstdint>

namespace beyond {

/// A line that is taken byte by byte, so that its length takes no memory.
class EdgeLine {
public:
    enum class Kind { Skipped, Edge, NotAnEdge, IdTooLarge };

    /// The next byte, which isn't LF.
    void take(char byte) {
        const unsigned digit = static_cast<unsigned char>(byte) - unsigned{'0'};
        if (digit < 10)
            take_digit(digit);
        else
            take_other(byte);
        is_begun_ = true;
    }

    bool is_begun() const { return is_begun_; }

    /// What the line is, once its last byte was taken.
    Kind kind() const;

    std::uint64_t source() const { return fields_[0].number; }
    std::uint64_t target() const { return fields_[1].number; }
    /// the third field, or 1
    std::uint32_t weight() const { return count_ == 3 ? static_cast<std::uint32_t>(fields_[2].number) : 1; }

private:
    struct Field {
        std::uint64_t number = 0;
        /// it is 2^64 or above
        bool is_large = false;
    };

    void take_digit(unsigned digit) {
        if (is_return_last_) is_broken_ = true;
        if (!is_in_field_ && count_++ == fields_.size()) is_broken_ = true;
        is_in_field_ = true;
        if (is_broken_ || is_comment_) return;
        Field& field = fields_[count_ - 1];
        field.is_large |= __builtin_mul_overflow(field.number, 10u, &field.number);
        field.is_large |= __builtin_add_overflow(field.number, digit, &field.number);
    }

    void take_other(char byte) {
        if (byte == '#' && !is_begun_) is_comment_ = true;
        // a CR is dropped at the line's end alone
        if (is_return_last_ || (byte != ' ' && byte != '\t' && byte != '\r')) is_broken_ = true;
        is_return_last_ = byte == '\r';
        is_in_field_ = false;
    }

    std::array<Field, 3> fields_;
    std::size_t count_ = 0;
    bool is_begun_ = false;
    bool is_comment_ = false;
    bool is_broken_ = false;
    bool is_in_field_ = false;
    bool is_return_last_ = false;
};

inline EdgeLine::Kind EdgeLine::kind() const {
    if (is_comment_) return Kind::Skipped;
    if (is_broken_) return Kind::NotAnEdge;
    if (count_ == 0) return Kind::Skipped;
    if (count_ == 1) return Kind::NotAnEdge;
    if (count_ == 3 && (fields_[2].is_large || fields_[2].number > UINT32_MAX)) return Kind::NotAnEdge;
    return fields_[0].is_large || fields_[1].is_large ? Kind::IdTooLarge : Kind::Edge;
}

}  // namespace beyond
