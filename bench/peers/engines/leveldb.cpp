// LevelDB: grouped changes are a WriteBatch.
#include <leveldb/cache.h>
#include <leveldb/db.h>
#include <leveldb/filter_policy.h>
#include <leveldb/write_batch.h>

#include <stdexcept>

#include "../engine.h"

namespace peers {

namespace {

constexpr int bloom_bits_per_key = 10;

void check(const leveldb::Status& status) {
    if (!status.ok()) throw std::runtime_error(status.ToString());
}

leveldb::Slice slice(std::string_view bytes) { return {bytes.data(), bytes.size()}; }

class LevelEngine final : public Engine {
  public:
    explicit LevelEngine(const Settings& settings)
        : grouped_(settings.group > 1),
          cache_(leveldb::NewLRUCache(settings.cache_bytes)),
          filter_(settings.bloom ? leveldb::NewBloomFilterPolicy(bloom_bits_per_key) : nullptr) {
        leveldb::Options options;
        options.create_if_missing = true;
        options.compression = leveldb::kNoCompression;
        options.write_buffer_size = settings.write_buffer_bytes;
        options.block_cache = cache_.get();
        options.filter_policy = filter_.get();
        write_.sync = settings.sync;
        leveldb::DB* opened = nullptr;
        check(leveldb::DB::Open(options, settings.folder, &opened));
        store_.reset(opened);
    }

    void put(std::string_view key, std::string_view value) override {
        if (grouped_) {
            batch_.Put(slice(key), slice(value));
            dirty_ = true;
        } else {
            check(store_->Put(write_, slice(key), slice(value)));
        }
    }

    /// A batch cannot be read, so what it has is committed first.
    bool erase(std::string_view key) override {
        commit();
        if (!contains(key)) return false;
        if (grouped_) {
            batch_.Delete(slice(key));
            dirty_ = true;
        } else {
            check(store_->Delete(write_, slice(key)));
        }
        return true;
    }

    void commit() override {
        if (!dirty_) return;
        check(store_->Write(write_, &batch_));
        batch_.Clear();
        dirty_ = false;
    }

    bool get(std::string_view key, std::string& value) override {
        const auto status = store_->Get(leveldb::ReadOptions(), slice(key), &value);
        if (status.IsNotFound()) return false;
        check(status);
        return true;
    }

    bool contains(std::string_view key) override { return get(key, unused_); }

    void list(std::string_view first, KeyList& keys) override {
        const std::unique_ptr<leveldb::Iterator> place(store_->NewIterator(leveldb::ReadOptions()));
        for (place->Seek(slice(first)); place->Valid(); place->Next()) {
            if (!keys.append({place->key().data(), place->key().size()})) break;
        }
        check(place->status());
    }

  private:
    bool grouped_;
    // The store is closed before its cache and its filters go.
    std::unique_ptr<leveldb::Cache> cache_;
    std::unique_ptr<const leveldb::FilterPolicy> filter_;
    std::unique_ptr<leveldb::DB> store_;
    leveldb::WriteOptions write_;
    leveldb::WriteBatch batch_;
    /// Whether the batch has a change.
    bool dirty_ = false;
    std::string unused_;
};

}  // namespace

std::unique_ptr<Engine> open_engine(const Settings& settings) {
    return std::make_unique<LevelEngine>(settings);
}

}  // namespace peers
