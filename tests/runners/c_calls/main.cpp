// C++ finds the calls by their C names, and what the header itself defines.
#include <cstring>

#include "rafttwine.h"

int main() {
    const unsigned refused = rafttwine_text(0, 0, 0, 0, 0).number;
    const bool told = std::strstr(rafttwine_refusal_text(refused), "book") != 0;
    const bool same_version = rafttwine_version() == RAFTTWINE_VERSION_NUMBER;
    return !(refused == RAFTTWINE_BROKEN_BOOK && told && same_version);
}
