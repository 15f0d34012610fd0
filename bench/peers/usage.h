// What a process has used, as the system reports it.
#pragma once

#include <sys/types.h>

#include <cstdint>

namespace peers {

struct Usage {
    /// Seconds of a clock that only rises.
    double clock = 0;
    /// Seconds of processor time, user and system, of all threads.
    double processor = 0;
    /// Bytes handed to write calls.
    std::uint64_t written = 0;
    /// Bytes of anonymous memory: what is mapped from files is not in it.
    std::uint64_t anonymous = 0;
};

Usage usage_of(pid_t process);

/// Waits until a process uses next to no processor time: until its background work is done.
void wait_until_idle(pid_t process);

}  // namespace peers
