// A map from keys to values: what each entry is to be answered with.
#pragma once

#include <deque>
#include <map>
#include <string>
#include <string_view>
#include <vector>

#include "wire.h"

namespace peers {

/// The answer to an entry. The data is valid as long as the model.
struct Answer {
    Entry entry;
    Status status = Status::success;
    std::uint32_t result = 0;
    std::string_view data = {};
};

class Model {
  public:
    /// The answers to the entries of a script, in order. The model keeps the script.
    std::vector<Answer> serve(std::string script);

    /// The script that was served last.
    std::string_view last_script() const { return scripts_.back(); }

  private:
    using Values = std::map<std::string, std::string_view, std::less<>>;

    Answer retrieve(const Entry& entry) const;
    Answer erase(const Entry& entry);
    Answer list(const Entry& entry);

    /// The values are parts of the scripts.
    Values values_;
    std::deque<std::string> scripts_;
    std::deque<std::string> lists_;
};

}  // namespace peers
