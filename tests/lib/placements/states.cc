#include "states.h"

static const int SIZES[] = {4, 8, 4, 32, 4, 2, 4, 4};

static uint64_t key_of(const State &s) {
    const int fields[] = {s.where, s.doing, s.image, s.step, s.current, s.runs, s.sure, s.starts};
    uint64_t session = 0;
    for (int i = 0; i < 8; i++)
        session = session * SIZES[i] + fields[i];
    return session << 34 | s.part;
}
State States::at(uint32_t number) const {
    uint64_t session = keys[number] >> 34;
    int fields[8];
    for (int i = 7; i >= 0; i--)
        fields[i] = (int)(session % SIZES[i]), session /= SIZES[i];
    const Contents part = keys[number] & ((1ull << 34) - 1);
    return {part, fields[0], fields[1], fields[2], fields[3], fields[4], fields[5], fields[6], fields[7]};
}

/* The place of a key, or the free one for it. */
size_t States::place_of(uint64_t key) const {
    size_t at = (key * 0x9e3779b97f4a7c15ull) >> 20 & (table.size() - 1);
    while (table[at] != 0 && keys[table[at] - 1] != key)
        at = (at + 1) & (table.size() - 1);
    return at;
}
void States::grow() {
    table.assign(table.size() * 2, 0);
    for (size_t i = 0; i < keys.size(); i++)
        table[place_of(keys[i])] = (uint32_t)i + 1;
}
void States::add(const State &state, uint32_t parent) {
    const uint64_t key = key_of(state);
    const size_t at = place_of(key);
    if (table[at] != 0)
        return;
    keys.push_back(key), parents.push_back(parent), table[at] = (uint32_t)keys.size();
    if (keys.size() * 2 > table.size())
        grow();
}
