// RocksDB: grouped changes are a WriteBatch.
#include <rocksdb/cache.h>
#include <rocksdb/db.h>
#include <rocksdb/filter_policy.h>
#include <rocksdb/table.h>
#include <rocksdb/write_batch.h>

#include <stdexcept>

#include "../engine.h"

namespace peers {

namespace {

constexpr double bloom_bits_per_key = 10;

void check(const rocksdb::Status& status) {
    if (!status.ok()) throw std::runtime_error(status.ToString());
}

rocksdb::Slice slice(std::string_view bytes) { return {bytes.data(), bytes.size()}; }

rocksdb::Options options_of(const Settings& settings) {
    rocksdb::BlockBasedTableOptions table;
    table.block_cache = rocksdb::NewLRUCache(settings.cache_bytes);
    if (settings.bloom) {
        table.filter_policy.reset(rocksdb::NewBloomFilterPolicy(bloom_bits_per_key));
    }
    rocksdb::Options options;
    options.create_if_missing = true;
    options.compression = rocksdb::kNoCompression;
    options.write_buffer_size = settings.write_buffer_bytes;
    options.info_log_level = rocksdb::ERROR_LEVEL;
    options.table_factory.reset(rocksdb::NewBlockBasedTableFactory(table));
    return options;
}

class RocksEngine final : public Engine {
  public:
    explicit RocksEngine(const Settings& settings) : grouped_(settings.group > 1) {
        write_.sync = settings.sync;
        rocksdb::DB* opened = nullptr;
        check(rocksdb::DB::Open(options_of(settings), settings.folder, &opened));
        store_.reset(opened);
    }

    void put(std::string_view key, std::string_view value) override {
        if (grouped_) {
            check(batch_.Put(slice(key), slice(value)));
        } else {
            check(store_->Put(write_, slice(key), slice(value)));
        }
    }

    /// A batch of this kind cannot be read, so what it has is committed first.
    bool erase(std::string_view key) override {
        commit();
        if (!contains(key)) return false;
        if (grouped_) {
            check(batch_.Delete(slice(key)));
        } else {
            check(store_->Delete(write_, slice(key)));
        }
        return true;
    }

    void commit() override {
        if (batch_.Count() == 0) return;
        check(store_->Write(write_, &batch_));
        batch_.Clear();
    }

    bool get(std::string_view key, std::string& value) override {
        const auto status = store_->Get(read_, slice(key), &value);
        if (status.IsNotFound()) return false;
        check(status);
        return true;
    }

    /// The value is looked at in its block and not copied.
    bool contains(std::string_view key) override {
        rocksdb::PinnableSlice value;
        const auto status = store_->Get(read_, store_->DefaultColumnFamily(), slice(key), &value);
        if (status.IsNotFound()) return false;
        check(status);
        return true;
    }

    void list(std::string_view first, KeyList& keys) override {
        const std::unique_ptr<rocksdb::Iterator> place(store_->NewIterator(read_));
        for (place->Seek(slice(first)); place->Valid(); place->Next()) {
            if (!keys.append(place->key().ToStringView())) break;
        }
        check(place->status());
    }

  private:
    bool grouped_;
    std::unique_ptr<rocksdb::DB> store_;
    rocksdb::ReadOptions read_;
    rocksdb::WriteOptions write_;
    rocksdb::WriteBatch batch_;
};

}  // namespace

std::unique_ptr<Engine> open_engine(const Settings& settings) {
    return std::make_unique<RocksEngine>(settings);
}

}  // namespace peers
