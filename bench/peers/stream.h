// Standard input and output of a server, in large pieces.
#pragma once

#include <cstddef>
#include <string>
#include <string_view>
#include <vector>

namespace peers {

/// Standard input, read as far as it is available.
class Input {
  public:
    /// The next `count` bytes, which are valid until the next call; null at the end of the input.
    /// `before_waiting` runs before each read.
    template <class Action>
    const char* take(std::size_t count, Action before_waiting) {
        while (end_ - at_ < count) {
            before_waiting();
            if (!read_more(count)) return nullptr;
        }
        const char* bytes = buffer_.data() + at_;
        at_ += count;
        return bytes;
    }

  private:
    /// Reads once, with room for `count` bytes from the next one on; false at the end.
    bool read_more(std::size_t count);

    std::vector<char> buffer_;
    std::size_t at_ = 0;
    std::size_t end_ = 0;
};

/// Standard output, gathered.
class Output {
  public:
    void append(std::string_view bytes) { gathered_.append(bytes); }
    void send();
    /// Sends what is gathered if that is 64 KiB or more.
    void send_if_large();

  private:
    std::string gathered_;
};

}  // namespace peers
