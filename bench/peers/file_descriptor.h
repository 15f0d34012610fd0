// A file descriptor that is closed when it goes.
#pragma once

#include <unistd.h>

#include <utility>

namespace peers {

class FileDescriptor {
  public:
    FileDescriptor() = default;
    explicit FileDescriptor(int number) : number_(number) {}
    FileDescriptor(FileDescriptor&& other) noexcept : number_(std::exchange(other.number_, none)) {}
    FileDescriptor& operator=(FileDescriptor&& other) noexcept {
        close();
        number_ = std::exchange(other.number_, none);
        return *this;
    }
    ~FileDescriptor() { close(); }

    int number() const { return number_; }

    void close() {
        if (number_ != none) ::close(std::exchange(number_, none));
    }

  private:
    static constexpr int none = -1;
    int number_ = none;
};

}  // namespace peers
