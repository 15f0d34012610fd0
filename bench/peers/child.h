// A program that runs with pipes for its standard input and output.
#pragma once

#include <sys/types.h>

#include "file_descriptor.h"

namespace peers {

class Child {
  public:
    /// Starts the program of `command`, a list of words that ends with null.
    explicit Child(char* const* command);
    /// Kills the program if `wait` was not called.
    ~Child();
    Child(const Child&) = delete;
    Child& operator=(const Child&) = delete;

    pid_t process() const { return process_; }
    /// The end of its input that is written, which does not block.
    int input() const { return input_.number(); }
    /// The end of its output that is read, which does not block.
    int output() const { return output_.number(); }

    void end_input() { input_.close(); }
    /// Waits until it ends: its exit status, or 128 and the signal's number.
    int wait();

  private:
    pid_t process_ = 0;
    FileDescriptor input_;
    FileDescriptor output_;
};

}  // namespace peers
