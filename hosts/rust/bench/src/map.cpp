// A plain cache of files to time ours against: a map of vectors. A file is judged when it is put, and again when a
// constant of it is fetched.

#include <cstddef>
#include <cstdint>
#include <unordered_map>
#include <vector>

#include "tikomuci.h"

using Map = std::unordered_map<std::uint64_t, std::vector<std::uint8_t>>;

extern "C" {

Map *map_new() { return new Map; }

void map_delete(Map *map) { delete map; }

tikomuci_answer map_put(Map *map, std::uint64_t instance, const std::uint8_t *file, std::size_t file_len) {
    const tikomuci_answer judged = tikomuci_measure(file, file_len);
    if (judged.refusal == 0) {
        (*map)[instance].assign(file, file + file_len);
    }
    return judged;
}

tikomuci_answer map_fetch(const Map *map, std::uint64_t instance, std::uint64_t index) {
    const auto found = map->find(instance);
    if (found == map->end()) {
        return {TIKOMUCI_REFUSAL_ABSENT, TIKOMUCI_STAGE_CALL, 0, 0};
    }
    return tikomuci_constant(found->second.data(), found->second.size(), index);
}
}
