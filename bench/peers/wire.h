// Submission entries and answer records, laid out as docs/COMMANDS.md says.
#pragma once

#include <array>
#include <cstddef>
#include <cstdint>
#include <string_view>

namespace peers {

/// The commands of the workload.
enum class Opcode : std::uint8_t {
    flush = 0x00,
    store = 0x01,
    retrieve = 0x02,
    list = 0x06,
    erase = 0x10,
    exist = 0x14,
};

/// The status codes that the workload can cause, and that of an opcode that is none of these.
enum class Status : std::uint8_t {
    success = 0x00,
    invalid_opcode = 0x01,
    key_missing = 0x87,
};

constexpr std::size_t entry_bytes = 64;
constexpr std::size_t head_bytes = 24;
constexpr std::size_t longest_key = 16;

/// A submission entry. A Store's entry is followed by `size` bytes of value; for a Retrieve and a
/// List `size` is that of the buffer, in bytes.
struct Entry {
    Opcode opcode;
    std::uint16_t identifier;
    std::uint32_t size;
    std::uint8_t key_length;
    std::array<char, longest_key> key_bytes;

    std::string_view key() const { return {key_bytes.data(), key_length}; }
};

/// The first 24 bytes of an answer record; `length` bytes of data follow.
struct Head {
    std::uint32_t result;
    std::uint16_t taken;
    std::uint16_t identifier;
    Status status;
    std::uint32_t reads;
    std::uint32_t length;
};

/// An entry of this command; the key is cut to 16 bytes.
Entry make_entry(Opcode opcode, std::uint16_t identifier, std::string_view key, std::uint32_t size);

/// Reads the 64 bytes at `bytes`.
Entry read_entry(const char* bytes);
std::array<char, entry_bytes> bytes_of(const Entry& entry);

/// Reads the 24 bytes at `bytes`.
Head read_head(const char* bytes);
std::array<char, head_bytes> bytes_of(const Head& head);

/// Little-endian numbers.
std::uint32_t read_u32(const char* bytes);
void write_u32(char* bytes, std::uint32_t number);

}  // namespace peers
