// Berkeley DB: a B-tree in an environment with transactions and a log; grouped changes are one
// transaction.
#include <db.h>

#include <filesystem>
#include <stdexcept>

#include "../engine.h"

namespace peers {

namespace {

constexpr u_int32_t page_bytes = 4096;
constexpr u_int32_t log_file_bytes = 64u << 20;
/// A checkpoint after this many bytes of changes lets the log be removed.
constexpr std::size_t checkpoint_bytes = 16u << 20;
/// What a change costs in the log beside its value, roughly.
constexpr std::size_t change_bytes = 64;
constexpr int file_mode = 0600;

void check(int code) {
    if (code != 0) throw std::runtime_error(db_strerror(code));
}

DBT entry_of(std::string_view bytes) {
    DBT entry{};
    entry.data = const_cast<char*>(bytes.data());
    entry.size = static_cast<u_int32_t>(bytes.size());
    return entry;
}

std::string_view view_of(const DBT& entry) {
    return {static_cast<const char*>(entry.data), entry.size};
}

struct CloseEnvironment {
    void operator()(DB_ENV* environment) const { environment->close(environment, 0); }
};
struct CloseTable {
    void operator()(DB* table) const { table->close(table, 0); }
};
struct AbortTransaction {
    void operator()(DB_TXN* transaction) const { transaction->abort(transaction); }
};
struct CloseCursor {
    void operator()(DBC* cursor) const { cursor->close(cursor); }
};

using Environment = std::unique_ptr<DB_ENV, CloseEnvironment>;
using Table = std::unique_ptr<DB, CloseTable>;
using Transaction = std::unique_ptr<DB_TXN, AbortTransaction>;
using Cursor = std::unique_ptr<DBC, CloseCursor>;

Environment open_environment(const Settings& settings) {
    std::filesystem::create_directories(settings.folder);
    DB_ENV* made = nullptr;
    check(db_env_create(&made, 0));
    Environment environment(made);
    check(made->set_cachesize(made, 0, static_cast<u_int32_t>(settings.cache_bytes), 1));
    check(made->set_lg_max(made, log_file_bytes));
    check(made->log_set_config(made, DB_LOG_AUTO_REMOVE, 1));
    const u_int32_t parts = DB_INIT_MPOOL | DB_INIT_TXN | DB_INIT_LOG | DB_INIT_LOCK;
    check(made->open(made, settings.folder.c_str(), DB_CREATE | DB_RECOVER | DB_PRIVATE | parts,
                     file_mode));
    return environment;
}

Table open_table(DB_ENV* environment) {
    DB* made = nullptr;
    check(db_create(&made, environment, 0));
    Table table(made);
    check(made->set_pagesize(made, page_bytes));
    check(made->open(made, nullptr, "pairs", nullptr, DB_BTREE, DB_CREATE | DB_AUTO_COMMIT,
                     file_mode));
    return table;
}

class BerkeleyEngine final : public Engine {
  public:
    explicit BerkeleyEngine(const Settings& settings)
        : grouped_(settings.group > 1),
          commit_flags_(settings.sync ? 0 : DB_TXN_WRITE_NOSYNC),
          environment_(open_environment(settings)),
          table_(open_table(environment_.get())) {}

    /// Leaves a checkpoint, so that the next opening replays no log.
    ~BerkeleyEngine() override {
        transaction_.reset();
        table_.reset();
        environment_->txn_checkpoint(environment_.get(), 0, 0, 0);
    }
    BerkeleyEngine(const BerkeleyEngine&) = delete;
    BerkeleyEngine& operator=(const BerkeleyEngine&) = delete;

    void put(std::string_view key, std::string_view value) override {
        auto key_entry = entry_of(key);
        auto data = entry_of(value);
        check(table_->put(table_.get(), transaction(), &key_entry, &data, 0));
        changed(value.size());
    }

    bool erase(std::string_view key) override {
        auto key_entry = entry_of(key);
        const int code = table_->del(table_.get(), transaction(), &key_entry, 0);
        if (code != DB_NOTFOUND) check(code);
        changed(0);
        return code == 0;
    }

    void commit() override {
        if (transaction_) {
            DB_TXN* ended = transaction_.release();
            check(ended->commit(ended, 0));
        }
        if (since_checkpoint_ < checkpoint_bytes) return;
        check(environment_->txn_checkpoint(environment_.get(), 0, 0, 0));
        since_checkpoint_ = 0;
    }

    bool get(std::string_view key, std::string& value) override {
        auto key_entry = entry_of(key);
        DBT data{};
        const int code = table_->get(table_.get(), nullptr, &key_entry, &data, 0);
        if (code == DB_NOTFOUND) return false;
        check(code);
        value.assign(view_of(data));
        return true;
    }

    bool contains(std::string_view key) override {
        auto key_entry = entry_of(key);
        const int code = table_->exists(table_.get(), nullptr, &key_entry, 0);
        if (code != DB_NOTFOUND) check(code);
        return code == 0;
    }

    /// Reads no byte of the values.
    void list(std::string_view first, KeyList& keys) override {
        DBC* opened = nullptr;
        check(table_->cursor(table_.get(), nullptr, &opened, 0));
        const Cursor cursor(opened);
        auto key = entry_of(first);
        DBT data{};
        data.flags = DB_DBT_PARTIAL;
        int code = opened->get(opened, &key, &data, DB_SET_RANGE);
        while (code == 0 && keys.append(view_of(key))) {
            code = opened->get(opened, &key, &data, DB_NEXT);
        }
        if (code != DB_NOTFOUND) check(code);
    }

  private:
    DB_TXN* transaction() {
        if (!transaction_) {
            DB_TXN* begun = nullptr;
            check(environment_->txn_begin(environment_.get(), nullptr, &begun, commit_flags_));
            transaction_.reset(begun);
        }
        return transaction_.get();
    }

    void changed(std::size_t value_bytes) {
        since_checkpoint_ += value_bytes + change_bytes;
        if (!grouped_) commit();
    }

    bool grouped_;
    u_int32_t commit_flags_;
    std::size_t since_checkpoint_ = 0;
    // The transaction goes first and the environment last.
    Environment environment_;
    Table table_;
    Transaction transaction_;
};

}  // namespace

std::unique_ptr<Engine> open_engine(const Settings& settings) {
    return std::make_unique<BerkeleyEngine>(settings);
}

}  // namespace peers
