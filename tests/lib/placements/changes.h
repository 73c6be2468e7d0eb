/* The operations of each change of a part, in their order. Each function names the function of the crates that it models. library.c
 * compares the operations that dist/dfu_device.c and dist/dfu_boot.c make with these. */
#ifndef CHANGES_H
#define CHANGES_H
#include "store.h"
#include <algorithm>

static const Operation NOTHING_DUE = {Operation::NONE, 0, 0};
inline Operation erase(int cell) { return {Operation::ERASE, cell, 0}; }
inline Operation program(int cell, int value) { return {Operation::PROGRAM, cell, value}; }

/* Returns true if a unit is the first of its slot in its sector. */
inline bool begins_sector(const Placement &p, int slot, int number) {
    return number == 0 || p.unit[slot][number] != p.unit[slot][number - 1];
}

/* Models dfu_slots::sequence::put_op, block by block, with dfu_slots::erasing::erase_within: first each sector is erased whose first unit
 * is in the block, and then the block's units are programmed. A block has two steps for each unit. */
inline Operation put_step(const Placement &p, int slot, const Image &image, int block, int step) {
    const int from = step / (2 * block) * block, count = std::min(block, image.length - from), number = step - 2 * from;
    if (number >= count)
        return program(unit_of(slot, from + number - count), image.units[from + number - count]);
    return begins_sector(p, slot, from + number) ? erase(unit_of(slot, from + number)) : NOTHING_DUE;
}

/* Models dfu_slots::sequence::commit_op: programs the header and then the gate, each after an erase of its sector
 * (dfu_slots::writes::write_some). */
inline Operation commit_step(const Placement &p, Contents part, int slot, int generation, int length, int step) {
    switch (step) {
    case 0: return erase(header_of(slot));
    case 1: return program(header_of(slot), header_value(p, generation, length, sum_of(p, part, slot, length)));
    case 2: return erase(gate_of(slot));
    default: return program(gate_of(slot), OPEN);
    }
}

/* Returns the number of steps of a download: one closes the gate, two follow for each unit, and four for header and gate. */
inline int steps_of(const Image &image) { return 1 + 2 * image.length + 4; }

/* Models dfu_asks for a download to the spare slot. dfu_slots::sequence::close_op is only needed if the gate reads open. */
inline Operation download_step(const Placement &p, Contents part, int image, int step) {
    const int active = active_slot(p, part), spare = 1 - active, length = image_of(p, image).length;
    if (step == 0)
        return is_open(part, spare) ? erase(gate_of(spare)) : NOTHING_DUE;
    if (step <= 2 * length)
        return put_step(p, spare, image_of(p, image), p.block, step - 1);
    return commit_step(p, part, spare, next_generation(p, part, active), length, step - 1 - 2 * length);
}

/* Models dfu_slots::format::write_image: both gates are closed, first that of the second slot; the image is written to the first slot as
 * one block. */
inline Operation format_step(const Placement &p, Contents part, int image, int step) {
    const int length = image_of(p, image).length;
    if (step < 2)
        return erase(gate_of(1 - step));
    if (step < 2 + 2 * length)
        return put_step(p, 0, image_of(p, image), length, step - 2);
    return commit_step(p, part, 0, 0, length, step - 2 - 2 * length);
}

/* Value of `last` if there is no last operation that succeeded, as after each loss of power; else `last` is the cell of that operation. */
enum { NOWHERE = CELLS };

/* Models dfu_boot::install::compare::next_difference: returns the first unit that differs, from number `from` on and then from the
 * beginning. */
inline int next_difference(Contents part, const Image &image, int from) {
    for (int i = 0; i < image.length; i++) {
        const int number = (from + i) % image.length;
        if (value_at(part, unit_of(0, number)) != image.units[number])
            return number;
    }
    return image.length;
}

/* Models dfu_boot::install::next, by which dfu_home::copying::copy fills the data of slot 0. */
inline Operation fill_due(const Placement &p, Contents part, const Image &image, int last) {
    const bool is_in_data = last != NOWHERE && kind_of(last) == UNIT;
    const int from = is_in_data && number_of(last) < image.length ? number_of(last) : 0, number = next_difference(part, image, from);
    if (number == image.length)
        return NOTHING_DUE;
    const bool is_here = is_in_data && number_of(last) <= number && p.unit[0][number_of(last)] == p.unit[0][number];
    if (is_here && value_at(part, unit_of(0, number)) == BLANK)
        return program(unit_of(0, number), image.units[number]);
    int first = number;
    while (!begins_sector(p, 0, first))
        first--;
    return erase(unit_of(0, first));
}

/* Models dfu_home::copying::unit_due. */
inline Operation head_unit_due(Contents part, int cell, int value, int last) {
    return last == cell && value_at(part, cell) == BLANK ? program(cell, value) : erase(cell);
}

/* Models dfu_home::deciding::next, and copy and head of dfu_home::copying. Slot 1 holds the image; the gate of slot 0 is closed first and
 * opened last. */
inline Operation copy_due(const Placement &p, Contents part, int last) {
    if (is_open(part, 0))
        return active_slot(p, part) == 0 ? NOTHING_DUE : erase(gate_of(0));
    if (image_in(p, part, 1) == NO_IMAGE)
        return NOTHING_DUE;
    const Image &image = image_of(p, image_in(p, part, 1));
    const Operation fill = fill_due(p, part, image, last);
    if (fill.kind != Operation::NONE)
        return fill;
    const int header = header_value(p, next_generation(p, part, 1), image.length, sum_of(p, part, 1, image.length));
    if (value_at(part, header_of(0)) == header)
        return head_unit_due(part, gate_of(0), OPEN, last);
    return head_unit_due(part, header_of(0), header, last);
}

/* Models dfu_boot::trial::starting: the mark of the next start, or the end of the trial if no start is left. */
inline Operation start_due(const Placement &p, Contents part) {
    const Standing standing = look(p, part);
    if (!standing.is_on_trial)
        return NOTHING_DUE;
    return standing.starts < TRIES ? program(mark_of(standing.slot, standing.starts + 1), SET) : erase(gate_of(standing.slot));
}

/* Models dfu_boot::trial::ending::end. */
inline Operation end_due(const Placement &p, Contents part) {
    const Standing standing = look(p, part);
    return standing.is_on_trial ? erase(gate_of(standing.slot)) : NOTHING_DUE;
}

/* Models dfu_boot::trial::confirming::confirm for the image in this slot. */
inline Operation confirm_due(const Placement &p, Contents part, int slot) {
    const Standing standing = look(p, part);
    return slot == standing.slot && !standing.is_confirmed ? program(mark_of(slot, 0), SET) : NOTHING_DUE;
}

#endif
