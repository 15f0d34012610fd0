#include "conversation.h"

#include <poll.h>
#include <unistd.h>

#include <algorithm>
#include <cerrno>
#include <stdexcept>
#include <system_error>

namespace peers {

namespace {

constexpr std::size_t piece_bytes = 1u << 20;
constexpr int milliseconds = 1000;

[[noreturn]] void fail(const char* what) {
    throw std::system_error(errno, std::generic_category(), what);
}

bool would_block() { return errno == EAGAIN || errno == EINTR; }

}  // namespace

std::size_t Conversation::exchange(std::string_view bytes, std::size_t count, const Take& take) {
    std::size_t taken = hand_on(count, take);
    while (taken < count) {
        const bool sends = !bytes.empty() && !refuses_;
        wait(sends);
        if (sends) bytes.remove_prefix(send(bytes));
        if (!receive()) break;
        taken += hand_on(count - taken, take);
    }
    return taken;
}

std::size_t Conversation::drain() {
    do {
        wait(false);
    } while (receive());
    return end_ - at_;
}

void Conversation::wait(bool sends) const {
    pollfd ends[] = {{from_, POLLIN, 0}, {to_, POLLOUT, 0}};
    const int ready = ::poll(ends, sends ? 2 : 1, patience_ * milliseconds);
    if (ready == 0) throw std::runtime_error("the server is silent");
    if (ready < 0 && errno != EINTR) fail("poll");
}

std::size_t Conversation::send(std::string_view bytes) {
    const auto sent = ::write(to_, bytes.data(), std::min(bytes.size(), piece_bytes));
    if (sent >= 0) return static_cast<std::size_t>(sent);
    if (would_block()) return 0;
    if (errno != EPIPE) fail("write to the server");
    refuses_ = true;
    return 0;
}

bool Conversation::receive() {
    if (at_ == end_) at_ = end_ = 0;
    if (received_.size() < end_ + piece_bytes) {
        std::copy(received_.begin() + static_cast<std::ptrdiff_t>(at_),
                  received_.begin() + static_cast<std::ptrdiff_t>(end_), received_.begin());
        end_ -= at_;
        at_ = 0;
        received_.resize(std::max(received_.size(), end_ + 2 * piece_bytes));
    }
    const auto got = ::read(from_, received_.data() + end_, piece_bytes);
    if (got < 0 && !would_block()) fail("read from the server");
    if (got > 0) end_ += static_cast<std::size_t>(got);
    return got != 0;
}

std::size_t Conversation::hand_on(std::size_t count, const Take& take) {
    std::size_t taken = 0;
    while (taken < count && end_ - at_ >= head_bytes) {
        const auto head = read_head(received_.data() + at_);
        if (end_ - at_ < head_bytes + head.length) break;
        take(head, {received_.data() + at_ + head_bytes, head.length});
        at_ += head_bytes + head.length;
        ++taken;
    }
    return taken;
}

}  // namespace peers
