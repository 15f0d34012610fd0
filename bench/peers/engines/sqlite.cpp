// SQLite: one table with a key of bytes, a write-ahead log; grouped changes are one transaction.
#include <sqlite3.h>

#include <filesystem>
#include <stdexcept>

#include "../engine.h"

namespace peers {

namespace {

struct CloseDatabase {
    void operator()(sqlite3* database) const { sqlite3_close(database); }
};
struct FinalizeStatement {
    void operator()(sqlite3_stmt* statement) const { sqlite3_finalize(statement); }
};

using Database = std::unique_ptr<sqlite3, CloseDatabase>;

void check(int code, sqlite3* database) {
    if (code != SQLITE_OK) throw std::runtime_error(sqlite3_errmsg(database));
}

/// A prepared statement.
class Statement {
  public:
    Statement(sqlite3* database, const char* text) : database_(database) {
        sqlite3_stmt* made = nullptr;
        check(sqlite3_prepare_v3(database, text, -1, SQLITE_PREPARE_PERSISTENT, &made, nullptr),
              database);
        statement_.reset(made);
    }

    void bind(int place, std::string_view bytes) {
        check(sqlite3_bind_blob(statement_.get(), place, bytes.data(),
                                static_cast<int>(bytes.size()), SQLITE_STATIC),
              database_);
    }

    /// Steps; whether there is a row.
    bool step() {
        const int code = sqlite3_step(statement_.get());
        if (code != SQLITE_ROW && code != SQLITE_DONE) {
            throw std::runtime_error(sqlite3_errmsg(database_));
        }
        return code == SQLITE_ROW;
    }

    void reset() { sqlite3_reset(statement_.get()); }

    /// Steps once and resets.
    void run() {
        step();
        reset();
    }

    /// The first column of the row.
    std::string_view column() const {
        const void* bytes = sqlite3_column_blob(statement_.get(), 0);
        const int length = sqlite3_column_bytes(statement_.get(), 0);
        return {static_cast<const char*>(bytes), static_cast<std::size_t>(length)};
    }

  private:
    sqlite3* database_;
    std::unique_ptr<sqlite3_stmt, FinalizeStatement> statement_;
};

void execute(sqlite3* database, const std::string& text) {
    check(sqlite3_exec(database, text.c_str(), nullptr, nullptr, nullptr), database);
}

Database open_database(const Settings& settings) {
    std::filesystem::create_directories(settings.folder);
    sqlite3* opened = nullptr;
    const int code = sqlite3_open((settings.folder + "/database").c_str(), &opened);
    Database database(opened);
    check(code, opened);
    execute(opened, "PRAGMA journal_mode=WAL");
    execute(opened, settings.sync ? "PRAGMA synchronous=FULL" : "PRAGMA synchronous=OFF");
    execute(opened, "PRAGMA locking_mode=EXCLUSIVE");
    execute(opened, "PRAGMA cache_size=-" + std::to_string(settings.cache_bytes / 1024));
    execute(opened, "CREATE TABLE IF NOT EXISTS pairs(key BLOB PRIMARY KEY, value BLOB)");
    return database;
}

class SqliteEngine final : public Engine {
  public:
    explicit SqliteEngine(const Settings& settings)
        : grouped_(settings.group > 1),
          database_(open_database(settings)),
          begin_(database_.get(), "BEGIN IMMEDIATE"),
          commit_(database_.get(), "COMMIT"),
          put_(database_.get(),
               "INSERT INTO pairs VALUES(?1, ?2) ON CONFLICT(key) DO UPDATE SET value = ?2"),
          erase_(database_.get(), "DELETE FROM pairs WHERE key = ?1"),
          get_(database_.get(), "SELECT value FROM pairs WHERE key = ?1"),
          contains_(database_.get(), "SELECT 1 FROM pairs WHERE key = ?1"),
          list_(database_.get(), "SELECT key FROM pairs WHERE key >= ?1 ORDER BY key") {}

    void put(std::string_view key, std::string_view value) override {
        begin();
        put_.bind(1, key);
        put_.bind(2, value);
        put_.run();
    }

    bool erase(std::string_view key) override {
        begin();
        erase_.bind(1, key);
        erase_.run();
        return sqlite3_changes(database_.get()) > 0;
    }

    void commit() override {
        if (!begun_) return;
        commit_.run();
        begun_ = false;
    }

    bool get(std::string_view key, std::string& value) override {
        get_.bind(1, key);
        const bool present = get_.step();
        if (present) value.assign(get_.column());
        get_.reset();
        return present;
    }

    bool contains(std::string_view key) override {
        contains_.bind(1, key);
        const bool present = contains_.step();
        contains_.reset();
        return present;
    }

    void list(std::string_view first, KeyList& keys) override {
        list_.bind(1, first);
        while (list_.step() && keys.append(list_.column())) {
        }
        list_.reset();
    }

  private:
    /// Begins a transaction if changes are grouped; otherwise each is one by itself.
    void begin() {
        if (!grouped_ || begun_) return;
        begin_.run();
        begun_ = true;
    }

    bool grouped_;
    bool begun_ = false;
    // The statements go before the database.
    Database database_;
    Statement begin_;
    Statement commit_;
    Statement put_;
    Statement erase_;
    Statement get_;
    Statement contains_;
    Statement list_;
};

}  // namespace

std::unique_ptr<Engine> open_engine(const Settings& settings) {
    return std::make_unique<SqliteEngine>(settings);
}

}  // namespace peers
