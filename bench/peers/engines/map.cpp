// A std::map in memory: what the protocol and the server cost by themselves.
#include <map>

#include "../engine.h"

namespace peers {

namespace {

class MapEngine final : public Engine {
  public:
    void put(std::string_view key, std::string_view value) override {
        const auto place = values_.find(key);
        if (place == values_.end()) {
            values_.emplace(key, value);
        } else {
            place->second.assign(value);
        }
    }

    bool erase(std::string_view key) override {
        const auto place = values_.find(key);
        if (place == values_.end()) return false;
        values_.erase(place);
        return true;
    }

    void commit() override {}

    bool get(std::string_view key, std::string& value) override {
        const auto place = values_.find(key);
        if (place == values_.end()) return false;
        value.assign(place->second);
        return true;
    }

    bool contains(std::string_view key) override { return values_.find(key) != values_.end(); }

    void list(std::string_view first, KeyList& keys) override {
        auto place = values_.lower_bound(first);
        while (place != values_.end() && keys.append(place->first)) ++place;
    }

  private:
    std::map<std::string, std::string, std::less<>> values_;
};

}  // namespace

std::unique_ptr<Engine> open_engine(const Settings&) { return std::make_unique<MapEngine>(); }

}  // namespace peers
