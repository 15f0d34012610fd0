#include "stream.h"

#include <unistd.h>

#include <algorithm>
#include <cerrno>
#include <system_error>

namespace peers {

namespace {

constexpr std::size_t piece_bytes = 256u << 10;
constexpr std::size_t large_bytes = 64u << 10;

[[noreturn]] void fail(const char* what) {
    throw std::system_error(errno, std::generic_category(), what);
}

}  // namespace

bool Input::read_more(std::size_t count) {
    std::copy(buffer_.begin() + static_cast<std::ptrdiff_t>(at_),
              buffer_.begin() + static_cast<std::ptrdiff_t>(end_), buffer_.begin());
    end_ -= at_;
    at_ = 0;
    buffer_.resize(std::max({buffer_.size(), end_ + piece_bytes, count}));
    const auto got = ::read(STDIN_FILENO, &buffer_[end_], buffer_.size() - end_);
    if (got < 0) fail("read");
    end_ += static_cast<std::size_t>(got);
    return got > 0;
}

void Output::send() {
    for (std::string_view rest = gathered_; !rest.empty();) {
        const auto sent = ::write(STDOUT_FILENO, rest.data(), rest.size());
        if (sent < 0) fail("write");
        rest.remove_prefix(static_cast<std::size_t>(sent));
    }
    gathered_.clear();
}

void Output::send_if_large() {
    if (gathered_.size() >= large_bytes) send();
}

}  // namespace peers
