// What the server asks of an engine. Each file of engines/ has one, and a program of its own.
#pragma once

#include <cstddef>
#include <memory>
#include <string>
#include <string_view>

#include "key_list.h"

namespace peers {

/// How a store is opened.
struct Settings {
    std::string folder;
    /// Changes that are committed together; 1: each by itself.
    unsigned group = 1;
    /// Whether a commit waits until the disk has it.
    bool sync = false;
    /// Whether tables have Bloom filters, if the engine has such.
    bool bloom = false;
    std::size_t cache_bytes = 8u << 20;
    std::size_t write_buffer_bytes = 4u << 20;
};

/// A map from keys to values in a folder. Any failure is an exception.
class Engine {
  public:
    virtual ~Engine() = default;

    /// Sets the value of a key. What it changes is in the store after the next `commit`, or at
    /// once if the settings group nothing.
    virtual void put(std::string_view key, std::string_view value) = 0;
    /// As `put`, takes a key away; whether it was present.
    virtual bool erase(std::string_view key) = 0;
    /// Called after changes, before any of their answers is sent and before any read.
    virtual void commit() = 0;

    /// Copies the value of a key; false if there is none.
    virtual bool get(std::string_view key, std::string& value) = 0;
    virtual bool contains(std::string_view key) = 0;
    /// Appends the keys in order, from `first` on, until the list is full.
    virtual void list(std::string_view first, KeyList& keys) = 0;
};

/// Opens the store of this program's engine, and makes it if there is none.
std::unique_ptr<Engine> open_engine(const Settings& settings);

}  // namespace peers
