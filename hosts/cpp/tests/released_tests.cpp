// What is left of a refusal that is walked past where nothing is asserted. The type of the value is this file's own, so
// that the other files, which do assert, share no code with it.

#undef NDEBUG
#define NDEBUG

#include "check.hpp"

namespace {

struct Kept {
    std::uint64_t number = 7;
};

}  // namespace

void released_tests() {
    const tikomuci::Got<Kept> refused = FULL;
    expect((*refused).number == 7 && refused->number == 7, "the value of a refusal is one that was just made");
    const tikomuci::Got<Kept> accepted = Kept{8};
    expect(accepted->number == 8, "the value of an acceptance is its own");
}
