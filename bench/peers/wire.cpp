#include "wire.h"

#include <algorithm>

namespace peers {

namespace {

// Places in an entry.
constexpr std::size_t identifier_at = 2;
constexpr std::size_t namespace_at = 4;
constexpr std::size_t key_front_at = 8;
constexpr std::size_t size_at = 40;
constexpr std::size_t key_length_at = 44;
constexpr std::size_t key_back_at = 56;
constexpr std::size_t key_half = longest_key / 2;

// Places in a record.
constexpr std::size_t taken_at = 8;
constexpr std::size_t queue_at = 10;
constexpr std::size_t record_identifier_at = 12;
constexpr std::size_t status_at = 14;
constexpr std::size_t reads_at = 16;
constexpr std::size_t length_at = 20;

std::uint16_t read_u16(const char* bytes) {
    const auto* octets = reinterpret_cast<const unsigned char*>(bytes);
    return static_cast<std::uint16_t>(octets[0] | octets[1] << 8);
}

void write_u16(char* bytes, std::uint16_t number) {
    bytes[0] = static_cast<char>(number);
    bytes[1] = static_cast<char>(number >> 8);
}

}  // namespace

std::uint32_t read_u32(const char* bytes) {
    return read_u16(bytes) | static_cast<std::uint32_t>(read_u16(bytes + 2)) << 16;
}

void write_u32(char* bytes, std::uint32_t number) {
    write_u16(bytes, static_cast<std::uint16_t>(number));
    write_u16(bytes + 2, static_cast<std::uint16_t>(number >> 16));
}

Entry make_entry(Opcode opcode, std::uint16_t identifier, std::string_view key,
                 std::uint32_t size) {
    const auto length = std::min(key.size(), longest_key);
    Entry entry{opcode, identifier, size, static_cast<std::uint8_t>(length), {}};
    std::copy_n(key.data(), length, entry.key_bytes.data());
    return entry;
}

Entry read_entry(const char* bytes) {
    const auto length = static_cast<std::uint8_t>(bytes[key_length_at]);
    Entry entry{static_cast<Opcode>(bytes[0]), read_u16(bytes + identifier_at),
                read_u32(bytes + size_at),
                std::min(length, static_cast<std::uint8_t>(longest_key)), {}};
    std::copy_n(bytes + key_front_at, key_half, entry.key_bytes.data());
    std::copy_n(bytes + key_back_at, key_half, entry.key_bytes.data() + key_half);
    return entry;
}

std::array<char, entry_bytes> bytes_of(const Entry& entry) {
    std::array<char, entry_bytes> bytes{};
    bytes[0] = static_cast<char>(entry.opcode);
    write_u16(&bytes[identifier_at], entry.identifier);
    write_u32(&bytes[namespace_at], 1);
    write_u32(&bytes[size_at], entry.size);
    bytes[key_length_at] = static_cast<char>(entry.key_length);
    std::copy_n(entry.key_bytes.data(), key_half, &bytes[key_front_at]);
    std::copy_n(entry.key_bytes.data() + key_half, key_half, &bytes[key_back_at]);
    return bytes;
}

Head read_head(const char* bytes) {
    // The status is in bits 8 to 1 of its two bytes, after the phase tag.
    const auto status = static_cast<std::uint8_t>(read_u16(bytes + status_at) >> 1);
    return {read_u32(bytes), read_u16(bytes + taken_at), read_u16(bytes + record_identifier_at),
            static_cast<Status>(status), read_u32(bytes + reads_at), read_u32(bytes + length_at)};
}

std::array<char, head_bytes> bytes_of(const Head& head) {
    std::array<char, head_bytes> bytes{};
    write_u32(&bytes[0], head.result);
    write_u16(&bytes[taken_at], head.taken);
    write_u16(&bytes[queue_at], 1);
    write_u16(&bytes[record_identifier_at], head.identifier);
    const auto status = static_cast<std::uint16_t>(head.status);
    write_u16(&bytes[status_at], static_cast<std::uint16_t>(status << 1 | 1));
    write_u32(&bytes[reads_at], head.reads);
    write_u32(&bytes[length_at], head.length);
    return bytes;
}

}  // namespace peers
