// LMDB: grouped changes are one write transaction.
#include <lmdb.h>

#include <filesystem>
#include <stdexcept>

#include "../engine.h"

namespace peers {

namespace {

constexpr std::size_t map_bytes = std::size_t{1} << 32;
constexpr mdb_mode_t file_mode = 0600;

void check(int code) {
    if (code != MDB_SUCCESS) throw std::runtime_error(mdb_strerror(code));
}

MDB_val value_of(std::string_view bytes) {
    return {bytes.size(), const_cast<char*>(bytes.data())};
}

std::string_view view_of(const MDB_val& value) {
    return {static_cast<const char*>(value.mv_data), value.mv_size};
}

struct CloseEnvironment {
    void operator()(MDB_env* environment) const { mdb_env_close(environment); }
};
struct AbortTransaction {
    void operator()(MDB_txn* transaction) const { mdb_txn_abort(transaction); }
};
struct CloseCursor {
    void operator()(MDB_cursor* cursor) const { mdb_cursor_close(cursor); }
};

using Environment = std::unique_ptr<MDB_env, CloseEnvironment>;
using Transaction = std::unique_ptr<MDB_txn, AbortTransaction>;
using Cursor = std::unique_ptr<MDB_cursor, CloseCursor>;

Environment open_environment(const Settings& settings) {
    std::filesystem::create_directories(settings.folder);
    MDB_env* made = nullptr;
    check(mdb_env_create(&made));
    Environment environment(made);
    check(mdb_env_set_mapsize(made, map_bytes));
    const unsigned durability = settings.sync ? 0 : MDB_NOSYNC | MDB_NOMETASYNC;
    check(mdb_env_open(made, settings.folder.c_str(), durability | MDB_NOTLS, file_mode));
    return environment;
}

Transaction begin(MDB_env* environment, unsigned flags) {
    MDB_txn* begun = nullptr;
    check(mdb_txn_begin(environment, nullptr, flags, &begun));
    return Transaction(begun);
}

MDB_dbi open_table(MDB_env* environment) {
    auto transaction = begin(environment, 0);
    MDB_dbi table = 0;
    check(mdb_dbi_open(transaction.get(), nullptr, 0, &table));
    check(mdb_txn_commit(transaction.release()));
    return table;
}

/// The reading transaction is renewed for each read and reset after it, as LMDB advises.
class Reading {
  public:
    explicit Reading(MDB_txn* transaction) : transaction_(transaction) {
        check(mdb_txn_renew(transaction_));
    }
    ~Reading() { mdb_txn_reset(transaction_); }
    Reading(const Reading&) = delete;
    Reading& operator=(const Reading&) = delete;

    MDB_txn* get() const { return transaction_; }

  private:
    MDB_txn* transaction_;
};

class LmdbEngine final : public Engine {
  public:
    explicit LmdbEngine(const Settings& settings)
        : grouped_(settings.group > 1),
          environment_(open_environment(settings)),
          table_(open_table(environment_.get())),
          reader_(begin(environment_.get(), MDB_RDONLY)) {
        mdb_txn_reset(reader_.get());
    }

    void put(std::string_view key, std::string_view value) override {
        auto key_value = value_of(key);
        auto data = value_of(value);
        check(mdb_put(writer(), table_, &key_value, &data, 0));
        if (!grouped_) commit();
    }

    bool erase(std::string_view key) override {
        auto key_value = value_of(key);
        const int code = mdb_del(writer(), table_, &key_value, nullptr);
        if (code != MDB_NOTFOUND) check(code);
        if (!grouped_) commit();
        return code == MDB_SUCCESS;
    }

    void commit() override {
        if (writer_) check(mdb_txn_commit(writer_.release()));
    }

    bool get(std::string_view key, std::string& value) override {
        const Reading reading(reader_.get());
        MDB_val data;
        if (!find(reading, key, data)) return false;
        value.assign(view_of(data));
        return true;
    }

    bool contains(std::string_view key) override {
        const Reading reading(reader_.get());
        MDB_val data;
        return find(reading, key, data);
    }

    void list(std::string_view first, KeyList& keys) override {
        const Reading reading(reader_.get());
        MDB_cursor* opened = nullptr;
        check(mdb_cursor_open(reading.get(), table_, &opened));
        const Cursor cursor(opened);
        auto key = value_of(first);
        MDB_val data;
        int code = mdb_cursor_get(opened, &key, &data, first.empty() ? MDB_FIRST : MDB_SET_RANGE);
        while (code == MDB_SUCCESS && keys.append(view_of(key))) {
            code = mdb_cursor_get(opened, &key, &data, MDB_NEXT);
        }
        if (code != MDB_NOTFOUND) check(code);
    }

  private:
    MDB_txn* writer() {
        if (!writer_) writer_ = begin(environment_.get(), 0);
        return writer_.get();
    }

    bool find(const Reading& reading, std::string_view key, MDB_val& data) const {
        auto key_value = value_of(key);
        const int code = mdb_get(reading.get(), table_, &key_value, &data);
        if (code == MDB_NOTFOUND) return false;
        check(code);
        return true;
    }

    bool grouped_;
    Environment environment_;
    MDB_dbi table_;
    Transaction reader_;
    Transaction writer_;
};

}  // namespace

std::unique_ptr<Engine> open_engine(const Settings& settings) {
    return std::make_unique<LmdbEngine>(settings);
}

}  // namespace peers
