// Entries to a server and answer records from it, at the same time.
#pragma once

#include <cstddef>
#include <functional>
#include <string_view>
#include <vector>

#include "wire.h"

namespace peers {

class Conversation {
  public:
    using Take = std::function<void(const Head& head, std::string_view data)>;

    /// `to` and `from` do not block. After `patience` seconds without a byte it is an error.
    Conversation(int to, int from, int patience) : to_(to), from_(from), patience_(patience) {}

    /// Sends the bytes, and hands `count` records to `take` as they come. The records that came:
    /// fewer than `count` if the server closed its output.
    std::size_t exchange(std::string_view bytes, std::size_t count, const Take& take);

    /// The bytes that are left until the server closes its output.
    std::size_t drain();

  private:
    /// Waits until something can be sent, if `sends`, or received.
    void wait(bool sends) const;
    /// The bytes that the server took, of these.
    std::size_t send(std::string_view bytes);
    /// False at the end of the server's output.
    bool receive();
    /// Hands the whole records that were received to `take`, at most `count`; how many.
    std::size_t hand_on(std::size_t count, const Take& take);

    int to_;
    int from_;
    int patience_;
    bool refuses_ = false;
    std::vector<char> received_;
    std::size_t at_ = 0;
    std::size_t end_ = 0;
};

}  // namespace peers
