// Starts a server, feeds it the phases of a workload, compares each answer with a map's and
// measures each phase from outside. A phase is a file of entries that ends with a Flush. Prints a
// line of JSON for the opening, for each phase and for the end; ends with 1 if an answer differed
// or the server failed.
//
//   feeder [--cpu N] [--patience SECONDS] [--probe KEY] [--waits] [--before FILE ..]
//          [--phase FILE ..] -- COMMAND ..
//
// --before: a script that the store has served in an earlier session; --probe: the key of the
// Retrieve that ends the opening; --waits: what follows a Flush is sent when the Flush is answered.

#include <getopt.h>
#include <sched.h>
#include <signal.h>

#include <cstdio>
#include <cstdlib>
#include <filesystem>
#include <fstream>
#include <iterator>
#include <stdexcept>
#include <string>
#include <system_error>
#include <vector>

#include "child.h"
#include "conversation.h"
#include "model.h"
#include "usage.h"

namespace {

using namespace peers;

constexpr int usage_status = 2;
constexpr std::uint32_t probe_bytes = 4096;

struct Plan {
    int cpu = -1;
    int patience = 120;
    bool waits = false;
    std::string probe = "probe";
    std::vector<std::string> before;
    std::vector<std::string> phases;
    char** command = nullptr;
};

/// What the records of a phase come to.
struct Tally {
    std::size_t differences = 0;
    std::uint64_t record_bytes = 0;
    std::uint64_t reads = 0;
};

/// The commands of a phase, and the bytes of values that it stores. A Flush is no command of the
/// workload: it only ends a group.
struct Work {
    std::size_t commands = 0;
    std::uint64_t stored = 0;
};

std::string content_of(const std::string& path) {
    std::ifstream file(path, std::ios::binary);
    if (!file) throw std::runtime_error("no file " + path);
    return {std::istreambuf_iterator<char>(file), std::istreambuf_iterator<char>()};
}

void stay_on(int cpu) {
    if (cpu < 0) return;
    cpu_set_t set;
    CPU_ZERO(&set);
    CPU_SET(static_cast<std::size_t>(cpu), &set);
    if (::sched_setaffinity(0, sizeof set, &set) != 0) {
        throw std::system_error(errno, std::generic_category(), "processor");
    }
}

Work work_of(const std::vector<Answer>& answers) {
    Work work;
    for (const auto& answer : answers) {
        if (answer.entry.opcode != Opcode::flush) ++work.commands;
        if (answer.entry.opcode == Opcode::store) work.stored += answer.entry.size;
    }
    return work;
}

/// A session with a server.
class Session {
  public:
    Session(Model& model, const Plan& plan)
        : model_(model),
          start_(usage_of(::getpid()).clock),
          child_(plan.command),
          conversation_(child_.input(), child_.output(), plan.patience),
          waits_(plan.waits) {}

    bool agrees() const { return agrees_; }

    /// Has a key retrieved: the server has opened its store when the answer comes.
    void open(const std::string& key) {
        const auto entry = bytes_of(make_entry(Opcode::retrieve, 0, key, probe_bytes));
        const auto answers = model_.serve({entry.data(), entry.size()});
        Tally tally;
        const auto answered = feed(answers, tally);
        if (answered < answers.size()) return;
        const auto now = usage_of(child_.process());
        std::printf("{\"phase\":\"open\",\"clock\":%.6f,\"processor\":%.6f,\"differences\":%zu}\n",
                    now.clock - start_, now.processor, tally.differences);
    }

    void run(const std::string& path) {
        const auto answers = model_.serve(content_of(path));
        const auto work = work_of(answers);
        const auto name = std::filesystem::path(path).stem().string();
        Tally tally;
        const auto before = usage_of(child_.process());
        const auto answered = feed(answers, tally);
        if (answered < answers.size()) {
            std::fprintf(stderr, "feeder: the server ended at entry %zu of %s\n", answered,
                         name.c_str());
            return;
        }
        const auto after = usage_of(child_.process());
        wait_until_idle(child_.process());
        const auto settled = usage_of(child_.process());
        std::printf("{\"phase\":\"%s\",\"commands\":%zu,\"stored\":%lu,\"differences\":%zu,"
                    "\"clock\":%.6f,\"processor\":%.6f,\"settled\":%.6f,\"written\":%lu,"
                    "\"reads\":%lu,\"memory\":%lu}\n",
                    name.c_str(), work.commands, work.stored, tally.differences,
                    after.clock - before.clock, after.processor - before.processor,
                    settled.processor - before.processor,
                    settled.written - before.written - tally.record_bytes, tally.reads,
                    settled.anonymous);
    }

    /// Ends the input: the server is to send nothing more, and to end with 0.
    void close() {
        child_.end_input();
        const auto extra = conversation_.drain();
        if (extra > 0) std::fprintf(stderr, "feeder: %zu bytes after the last answer\n", extra);
        const int status = child_.wait();
        if (extra > 0 || status != 0) agrees_ = false;
        std::printf("{\"phase\":\"close\",\"status\":%d}\n", status);
    }

  private:
    /// Sends the script that the model served last; how many of its entries were answered.
    std::size_t feed(const std::vector<Answer>& answers, Tally& tally) {
        std::size_t next = 0;
        const auto take = [&](const Head& head, std::string_view data) {
            const auto& wanted = answers[next];
            tally.record_bytes += head_bytes + data.size();
            tally.reads += head.reads;
            if (!equal(wanted, head, data)) report(next, wanted, head, data, tally);
            ++next;
        };
        const auto script = model_.last_script();
        const auto answered = waits_ ? feed_each(script, answers, take)
                                     : conversation_.exchange(script, answers.size(), take);
        if (answered < answers.size() || tally.differences > 0) agrees_ = false;
        return answered;
    }

    /// Sends the entries of the script up to the next Flush when all before them were answered.
    std::size_t feed_each(std::string_view script, const std::vector<Answer>& answers,
                          const Conversation::Take& take) {
        std::size_t answered = 0, size = 0;
        for (std::size_t sent = 0; sent < answers.size();) {
            const auto& entry = answers[sent++].entry;
            size += entry_bytes + (entry.opcode == Opcode::store ? entry.size : 0);
            if (entry.opcode != Opcode::flush && sent < answers.size()) continue;
            answered += conversation_.exchange(script.substr(0, size), sent - answered, take);
            if (answered < sent) break;
            script.remove_prefix(size);
            size = 0;
        }
        return answered;
    }

    static bool equal(const Answer& wanted, const Head& head, std::string_view data) {
        return head.identifier == wanted.entry.identifier && head.status == wanted.status &&
               head.result == wanted.result && data == wanted.data;
    }

    /// Counts a difference, and prints the first of a phase.
    static void report(std::size_t place, const Answer& wanted, const Head& head,
                       std::string_view data, Tally& tally) {
        if (++tally.differences > 1) return;
        std::fprintf(stderr,
                     "feeder: entry %zu, opcode %02xh, key %.*s: identifier %u, status %02xh, "
                     "result %u, %zu bytes; a map answers %u, %02xh, %u, %zu bytes%s\n",
                     place, static_cast<unsigned>(wanted.entry.opcode), wanted.entry.key_length,
                     wanted.entry.key_bytes.data(), head.identifier,
                     static_cast<unsigned>(head.status), head.result, data.size(),
                     wanted.entry.identifier, static_cast<unsigned>(wanted.status), wanted.result,
                     wanted.data.size(), data == wanted.data ? "" : ", and others");
    }

    Model& model_;
    double start_;
    Child child_;
    Conversation conversation_;
    bool waits_;
    bool agrees_ = true;
};

[[noreturn]] void refuse(const char* why) {
    std::fprintf(stderr, "feeder: %s\n", why);
    std::exit(usage_status);
}

Plan plan_of(int count, char** words) {
    const option names[] = {{"cpu", required_argument, nullptr, 'c'},
                            {"patience", required_argument, nullptr, 'w'},
                            {"probe", required_argument, nullptr, 'k'},
                            {"waits", no_argument, nullptr, 'o'},
                            {"before", required_argument, nullptr, 'b'},
                            {"phase", required_argument, nullptr, 'p'},
                            {nullptr, 0, nullptr, 0}};
    Plan plan;
    for (int name; (name = getopt_long(count, words, "+", names, nullptr)) != -1;) {
        switch (name) {
            case 'c': plan.cpu = std::stoi(optarg); break;
            case 'w': plan.patience = std::stoi(optarg); break;
            case 'k': plan.probe = optarg; break;
            case 'o': plan.waits = true; break;
            case 'b': plan.before.emplace_back(optarg); break;
            case 'p': plan.phases.emplace_back(optarg); break;
            default: std::exit(usage_status);
        }
    }
    if (optind == count) refuse("name the command of the server after --");
    plan.command = words + optind;
    return plan;
}

}  // namespace

int main(int count, char** words) {
    try {
        const auto plan = plan_of(count, words);
        ::signal(SIGPIPE, SIG_IGN);
        stay_on(plan.cpu);
        Model model;
        for (const auto& path : plan.before) model.serve(content_of(path));
        Session session(model, plan);
        session.open(plan.probe);
        for (const auto& path : plan.phases) {
            if (session.agrees()) session.run(path);
        }
        session.close();
        return session.agrees() ? EXIT_SUCCESS : EXIT_FAILURE;
    } catch (const std::exception& failure) {
        std::fprintf(stderr, "feeder: %s\n", failure.what());
        return EXIT_FAILURE;
    }
}
