#include "usage.h"

#include <time.h>

#include <chrono>
#include <fstream>
#include <string>
#include <system_error>
#include <thread>

namespace peers {

namespace {

constexpr std::uint64_t kibibyte = 1024;

double seconds_of(clockid_t clock) {
    timespec time{};
    if (::clock_gettime(clock, &time) != 0) return 0;
    return static_cast<double>(time.tv_sec) + static_cast<double>(time.tv_nsec) * 1e-9;
}

double processor_seconds(pid_t process) {
    clockid_t clock;
    const int code = ::clock_getcpuclockid(process, &clock);
    if (code != 0) throw std::system_error(code, std::generic_category(), "clock of a process");
    return seconds_of(clock);
}

/// The number after a name in a file of /proc/PROCESS; 0 if it is not there.
std::uint64_t number_in(pid_t process, const char* file, const std::string& name) {
    std::ifstream lines("/proc/" + std::to_string(process) + "/" + file);
    std::string word;
    while (lines >> word) {
        if (word != name + ":") continue;
        std::uint64_t number = 0;
        lines >> number;
        return number;
    }
    return 0;
}

}  // namespace

Usage usage_of(pid_t process) {
    Usage usage;
    usage.clock = seconds_of(CLOCK_MONOTONIC);
    usage.processor = processor_seconds(process);
    usage.written = number_in(process, "io", "wchar");
    usage.anonymous = number_in(process, "status", "RssAnon") * kibibyte;
    return usage;
}

void wait_until_idle(pid_t process) {
    constexpr std::chrono::milliseconds interval(25);
    constexpr double little = 0.0005;
    constexpr int quiet_intervals = 5;
    constexpr int most_intervals = 4000;
    double before = processor_seconds(process);
    for (int quiet = 0, passed = 0; quiet < quiet_intervals && passed < most_intervals; ++passed) {
        std::this_thread::sleep_for(interval);
        const double now = processor_seconds(process);
        quiet = now - before < little ? quiet + 1 : 0;
        before = now;
    }
}

}  // namespace peers
