#include "child.h"

#include <fcntl.h>
#include <signal.h>
#include <spawn.h>
#include <sys/wait.h>

#include <cerrno>
#include <system_error>

namespace peers {

namespace {

constexpr int pipe_bytes = 1 << 20;
constexpr int signal_base = 128;

void check(int code, const char* what) {
    if (code != 0) throw std::system_error(code, std::generic_category(), what);
}

struct Pipe {
    FileDescriptor reading;
    FileDescriptor writing;
};

/// A pipe of 1 MiB, which programs that are started do not inherit.
Pipe make_pipe() {
    int ends[2];
    if (::pipe2(ends, O_CLOEXEC) != 0) check(errno, "pipe");
    Pipe made{FileDescriptor(ends[0]), FileDescriptor(ends[1])};
    if (::fcntl(ends[1], F_SETPIPE_SZ, pipe_bytes) < 0) check(errno, "size of a pipe");
    return made;
}

void set_nonblocking(const FileDescriptor& end) {
    if (::fcntl(end.number(), F_SETFL, O_NONBLOCK) != 0) check(errno, "non-blocking pipe");
}

/// What posix_spawn does before the program begins.
class Actions {
  public:
    Actions() { check(posix_spawn_file_actions_init(&actions_), "actions"); }
    ~Actions() { posix_spawn_file_actions_destroy(&actions_); }
    Actions(const Actions&) = delete;
    Actions& operator=(const Actions&) = delete;

    void duplicate(const FileDescriptor& from, int to) {
        check(posix_spawn_file_actions_adddup2(&actions_, from.number(), to), "actions");
    }
    const posix_spawn_file_actions_t* get() const { return &actions_; }

  private:
    posix_spawn_file_actions_t actions_;
};

}  // namespace

Child::Child(char* const* command) {
    auto to_child = make_pipe();
    auto from_child = make_pipe();
    Actions actions;
    actions.duplicate(to_child.reading, STDIN_FILENO);
    actions.duplicate(from_child.writing, STDOUT_FILENO);
    check(posix_spawnp(&process_, command[0], actions.get(), nullptr, command, environ),
          command[0]);
    input_ = std::move(to_child.writing);
    output_ = std::move(from_child.reading);
    set_nonblocking(input_);
    set_nonblocking(output_);
}

Child::~Child() {
    if (process_ == 0) return;
    ::kill(process_, SIGKILL);
    ::waitpid(process_, nullptr, 0);
}

int Child::wait() {
    int status = 0;
    if (::waitpid(process_, &status, 0) < 0) check(errno, "wait");
    process_ = 0;
    return WIFEXITED(status) ? WEXITSTATUS(status) : signal_base + WTERMSIG(status);
}

}  // namespace peers
