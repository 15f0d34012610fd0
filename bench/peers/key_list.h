// The data of a List's answer.
#pragma once

#include <cstddef>
#include <cstdint>
#include <string>
#include <string_view>

#include "wire.h"

namespace peers {

/// A count, and then keys, each after its length in two bytes and filled with zeros to a multiple
/// of four bytes: as many as a buffer of `room` bytes holds.
class KeyList {
  public:
    explicit KeyList(std::size_t room) : room_(room), bytes_(sizeof(std::uint32_t), '\0') {}

    /// Appends a key; false, and nothing is appended, if it does not fit.
    bool append(std::string_view key) {
        const auto needed = (2 + key.size() + 3) / 4 * 4;
        const auto at = bytes_.size();
        if (at + needed > room_) return false;
        bytes_.resize(at + needed, '\0');
        bytes_[at] = static_cast<char>(key.size());
        key.copy(&bytes_[at + 2], key.size());
        write_u32(bytes_.data(), ++count_);
        return true;
    }

    const std::string& bytes() const { return bytes_; }

  private:
    std::size_t room_;
    std::uint32_t count_ = 0;
    std::string bytes_;
};

}  // namespace peers
