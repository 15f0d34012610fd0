#include "model.h"

#include <stdexcept>
#include <utility>

#include "key_list.h"

namespace peers {

std::vector<Answer> Model::serve(std::string script) {
    scripts_.push_back(std::move(script));
    std::string_view rest = scripts_.back();
    std::vector<Answer> answers;
    while (!rest.empty()) {
        if (rest.size() < entry_bytes) throw std::runtime_error("a script ends inside an entry");
        const auto entry = read_entry(rest.data());
        rest.remove_prefix(entry_bytes);
        switch (entry.opcode) {
            case Opcode::store:
                if (rest.size() < entry.size) throw std::runtime_error("a script ends in a value");
                values_.insert_or_assign(std::string(entry.key()), rest.substr(0, entry.size));
                rest.remove_prefix(entry.size);
                answers.push_back({entry});
                break;
            case Opcode::flush: answers.push_back({entry}); break;
            case Opcode::retrieve: answers.push_back(retrieve(entry)); break;
            case Opcode::erase: answers.push_back(erase(entry)); break;
            case Opcode::list: answers.push_back(list(entry)); break;
            case Opcode::exist:
                answers.push_back(retrieve(entry));
                answers.back().result = 0;
                answers.back().data = {};
                break;
            default: answers.push_back({entry, Status::invalid_opcode}); break;
        }
    }
    return answers;
}

Answer Model::retrieve(const Entry& entry) const {
    const auto place = values_.find(entry.key());
    if (place == values_.end()) return {entry, Status::key_missing};
    const auto value = place->second;
    return {entry, Status::success, static_cast<std::uint32_t>(value.size()),
            value.substr(0, entry.size)};
}

Answer Model::erase(const Entry& entry) {
    const auto place = values_.find(entry.key());
    if (place == values_.end()) return {entry, Status::key_missing};
    values_.erase(place);
    return {entry};
}

Answer Model::list(const Entry& entry) {
    KeyList keys(entry.size);
    auto place = values_.lower_bound(entry.key());
    while (place != values_.end() && keys.append(place->first)) ++place;
    lists_.push_back(keys.bytes());
    return {entry, Status::success, 0, lists_.back()};
}

}  // namespace peers
