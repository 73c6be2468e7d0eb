/* Reads the state of a part: which slot is valid, which image is active, and which is on trial. Each rule names the function that it
 * models. */
#ifndef STORE_H
#define STORE_H
#include "part.h"

enum { IMAGES = 3, NO_SLOT = -1, NO_IMAGE = -1, TRIES = MOST_MARKS - 1 };

/* Length of an image, and the values of its units, each 1 or 2. The second of the three images has 2 units, and the third fills a slot. */
struct Image {
    int length, units[MOST_UNITS];
};
inline const Image &image_of(const Placement &p, int number) {
    static const Image two[IMAGES] = {{1, {1}}, {2, {2, 1}}, {2, {2, 2}}}, three[IMAGES] = {{1, {1}}, {2, {2, 1}}, {3, {1, 2, 2}}};
    return (p.units == 2 ? two : three)[number];
}

/* Models dfu_slots::register::register_of. */
inline int sum_of(const Placement &p, Contents part, int slot, int length) {
    int sum = 0;
    for (int k = 0; k < length; k++)
        sum += value_at(part, unit_of(slot, k));
    return sum % p.registers;
}

/* Models is_open, is_intact and counts of dfu_slots::read. Well-formed headers of version 1 are not modelled, because none is written. */
inline bool is_open(Contents part, int slot) { return value_at(part, gate_of(slot)) == OPEN; }
inline bool is_intact(const Placement &p, Contents part, int slot) {
    const Header header = header_at(p, part, slot);
    return header.is_version_2 && header.sum == sum_of(p, part, slot, header.length);
}
inline bool counts(const Placement &p, Contents part, int slot) {
    return is_open(part, slot) && (!header_at(p, part, slot).is_version_2 || is_intact(p, part, slot));
}

/* Models is_newest and check of dfu_slots::places. */
inline int next_generation(const Placement &p, Contents part, int slot) { return (header_at(p, part, slot).generation + 1) % GENERATIONS; }
inline bool is_newest(const Placement &p, Contents part, int mine, int other) {
    return counts(p, part, mine) && (!counts(p, part, other) || header_at(p, part, mine).generation == next_generation(p, part, other));
}
inline int active_slot(const Placement &p, Contents part) {
    for (int slot = 0; slot < SLOTS; slot++)
        if (is_newest(p, part, slot, 1 - slot) && is_intact(p, part, slot))
            return slot;
    return NO_SLOT;
}

/* Returns the number of the image that a slot contains whole, with the length in the slot's header; NO_IMAGE if there is none. */
inline int image_in(const Placement &p, Contents part, int slot) {
    const int length = header_at(p, part, slot).length;
    for (int number = 0; number < IMAGES; number++) {
        const Image &image = image_of(p, number);
        bool is_same = image.length == length;
        for (int k = 0; is_same && k < length; k++)
            is_same = value_at(part, unit_of(slot, k)) == image.units[k];
        if (is_same)
            return number;
    }
    return NO_IMAGE;
}

/* Models the standing of the two images: dfu_boot::trial::looking::look. */
struct Standing {
    bool is_on_trial, is_confirmed;
    int slot, starts;
};
inline bool is_set(Contents part, int slot, int number) { return value_at(part, mark_of(slot, number)) != BLANK; }
inline Standing look(const Placement &p, Contents part) {
    const int slot = active_slot(p, part), base = 1 - slot;
    const bool is_confirmed = is_set(part, slot, 0);
    if (is_confirmed || !is_set(part, base, 0) || !counts(p, part, base) || !is_intact(p, part, base))
        return {false, is_confirmed, slot, 0};
    int starts = 0;
    while (starts < TRIES && is_set(part, slot, starts + 1))
        starts++;
    return {true, false, slot, starts};
}

#endif
