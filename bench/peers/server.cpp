// Serves submission entries on an engine, from standard input to standard output, as pink does:
// changes are committed in groups, before any other command, and no answer leaves before the
// change that it answers is committed.
//
//   ENGINE [--group N] [--sync] [--bloom] [--cache BYTES] [--buffer BYTES] FOLDER

#include <getopt.h>

#include <cstdio>
#include <cstdlib>
#include <exception>
#include <stdexcept>
#include <string>

#include "engine.h"
#include "stream.h"
#include "wire.h"

namespace {

using namespace peers;

constexpr int usage_status = 2;

class Server {
  public:
    Server(Engine& engine, unsigned group) : engine_(engine), group_(group) {}

    /// Serves entries until the input ends.
    void serve() {
        while (const char* bytes = input_.take(entry_bytes, [this] { settle_up(); })) {
            ++taken_;
            serve(read_entry(bytes));
            if (pending_ == 0) output_.send_if_large();
        }
        settle_up();
    }

  private:
    /// Commits, and sends all answers: before a read that may wait.
    void settle_up() {
        commit();
        output_.send();
    }

    void commit() {
        if (pending_ == 0) return;
        engine_.commit();
        pending_ = 0;
    }

    void count_change() {
        if (++pending_ >= group_) commit();
    }

    void answer(const Entry& entry, Status status, std::uint32_t result = 0,
                std::string_view data = {}) {
        const Head head{result, static_cast<std::uint16_t>(taken_), entry.identifier,
                        status, 0,      static_cast<std::uint32_t>(data.size())};
        const auto bytes = bytes_of(head);
        output_.append({bytes.data(), bytes.size()});
        output_.append(data);
    }

    static Status found(bool present) { return present ? Status::success : Status::key_missing; }

    void serve(const Entry& entry) {
        switch (entry.opcode) {
            case Opcode::store: return store(entry);
            case Opcode::erase: return erase(entry);
            case Opcode::retrieve: return retrieve(entry);
            case Opcode::list: return list(entry);
            case Opcode::exist: return exist(entry);
            case Opcode::flush: return flush(entry, Status::success);
        }
        flush(entry, Status::invalid_opcode);
    }

    void flush(const Entry& entry, Status status) {
        commit();
        answer(entry, status);
    }

    void exist(const Entry& entry) {
        commit();
        answer(entry, found(engine_.contains(entry.key())));
    }

    void store(const Entry& entry) {
        const char* value = input_.take(entry.size, [this] { settle_up(); });
        if (value == nullptr) throw std::runtime_error("the input ends inside a value");
        engine_.put(entry.key(), {value, entry.size});
        answer(entry, Status::success);
        count_change();
    }

    void erase(const Entry& entry) {
        answer(entry, found(engine_.erase(entry.key())));
        count_change();
    }

    void retrieve(const Entry& entry) {
        commit();
        if (!engine_.get(entry.key(), value_)) return answer(entry, Status::key_missing);
        const std::string_view value = value_;
        answer(entry, Status::success, static_cast<std::uint32_t>(value.size()),
               value.substr(0, entry.size));
    }

    void list(const Entry& entry) {
        commit();
        KeyList keys(entry.size);
        engine_.list(entry.key(), keys);
        answer(entry, Status::success, 0, keys.bytes());
    }

    Engine& engine_;
    unsigned group_;
    /// Changes since the last commit.
    unsigned pending_ = 0;
    std::uint32_t taken_ = 0;
    std::string value_;
    Input input_;
    Output output_;
};

Settings settings_of(int count, char** words) {
    const option names[] = {{"group", required_argument, nullptr, 'g'},
                            {"sync", no_argument, nullptr, 's'},
                            {"bloom", no_argument, nullptr, 'b'},
                            {"cache", required_argument, nullptr, 'c'},
                            {"buffer", required_argument, nullptr, 'w'},
                            {nullptr, 0, nullptr, 0}};
    Settings settings;
    for (int name; (name = getopt_long(count, words, "", names, nullptr)) != -1;) {
        switch (name) {
            case 'g': settings.group = static_cast<unsigned>(std::stoul(optarg)); break;
            case 's': settings.sync = true; break;
            case 'b': settings.bloom = true; break;
            case 'c': settings.cache_bytes = std::stoul(optarg); break;
            case 'w': settings.write_buffer_bytes = std::stoul(optarg); break;
            default: std::exit(usage_status);
        }
    }
    if (optind + 1 != count || settings.group == 0) {
        std::fprintf(stderr, "%s: name one folder, and groups of at least 1\n", words[0]);
        std::exit(usage_status);
    }
    settings.folder = words[optind];
    return settings;
}

}  // namespace

int main(int count, char** words) {
    try {
        const auto settings = settings_of(count, words);
        const auto engine = open_engine(settings);
        Server(*engine, settings.group).serve();
        return EXIT_SUCCESS;
    } catch (const std::exception& failure) {
        std::fprintf(stderr, "%s: %s\n", words[0], failure.what());
        return EXIT_FAILURE;
    }
}
