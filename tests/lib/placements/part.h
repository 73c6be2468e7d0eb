/* A part of the model: its cells, the sector of each cell, and the values that an operation may leave in it.
 *
 * A cell is programmed in one step: the gate of a slot, its header, a mark of trials, or a unit of its data. Its value stands for all
 * properties that the code reads, instead of bytes. The contents of a part have 34 bits: gate, header, data and marks of each slot. */
#ifndef PART_H
#define PART_H
#include <cstdint>
#include <vector>

enum { SLOTS = 2, MOST_UNITS = 3, MOST_MARKS = 3, CELLS_OF_SLOT = 2 + MOST_UNITS + MOST_MARKS, CELLS = SLOTS * CELLS_OF_SLOT };
enum Kind { GATE, HEADER, UNIT, MARK };

/* Values of a cell. An erase sets every kind of cell to BLANK. */
enum { BLANK = 0 };
enum { OPEN = 1, SHUT = 2, GATE_VALUES = 3 };
enum { OTHER = 3, UNIT_VALUES = 4 }; /* units of images have the values 1 and 2 */
enum { SET = 1, MARK_VALUES = 2 };
enum { GENERATIONS = 4 }; /* the store has 256 */

/* Promises of a placement and its programs in every state. A control breaks one of them. */
enum Promise {
    ALL_HOLD,
    AN_IMAGE_IS_ACTIVE,
    OLD_OR_NEW_IS_ACTIVE, /* the image is whole */
    ACTIVE_SLOT_STAYS,    /* no operation of a download or a copy has a cell of the active slot in its range */
    CODE_STAYS,           /* no operation has a cell of slot 0's data in its range while the code there runs */
    UNITS_ARE_BLANK,      /* units are blank before a program */
    START_ENDS,           /* after a loss of power in any state the copy ends within its bound, with the active image in slot 0 */
    TRUSTED_RUNS          /* with trials: the image that runs is the last confirmed one, or the one on trial, which has starts left */
};

/* Rules for the programs of a placement, in addition to those of the store. */
enum Rules {
    TWO_AREAS,     /* the program runs in the data of slot 0; the boot loader may serve a download before the copy */
    COPY_FIRST,    /* like TWO_AREAS, but the boot loader copies before it serves a download */
    SECOND_TAKEN,  /* a control: like TWO_AREAS, but the program serves a download while slot 1 is active */
    TRIALS         /* three areas: images run on trial, in neither of the two slots */
};

/* A placement: the number of the sector of each gate, header, mark and unit. */
struct Placement {
    const char *name;
    Promise broken;                  /* promise that its search must find broken, or ALL_HOLD */
    Rules rules;
    int units;                       /* data units of a slot: 2 or 3 */
    int registers;                   /* values of a header's CRC register: 1 for no check; 2 if half of all images share each */
    int block;                       /* units of a download's block, whose sectors are erased before its first unit is programmed */
    int marks;                       /* marks of a slot: with trials the confirmation and two starts, else 0 */
    int gate[SLOTS], header[SLOTS], mark[SLOTS];
    int unit[SLOTS][MOST_UNITS];
    bool is_touched;                 /* true for a control whose operations may touch the active slot, which the search must detect */
};

typedef uint64_t Contents;

/* Fields of a header that was read. */
struct Header {
    bool is_version_2;
    int generation, length, sum;
};

/* An operation on the part. */
struct Operation {
    enum { NONE, ERASE, PROGRAM } kind;
    int cell;  /* the programmed cell; for an erase the cell of the sector by which the code names it */
    int value; /* value of a program */
};

inline int gate_of(int slot) { return slot * CELLS_OF_SLOT; }
inline int header_of(int slot) { return gate_of(slot) + 1; }
inline int unit_of(int slot, int number) { return gate_of(slot) + 2 + number; }
inline int mark_of(int slot, int number) { return gate_of(slot) + 2 + MOST_UNITS + number; }
inline int slot_of(int cell) { return cell / CELLS_OF_SLOT; }
inline int number_of(int cell) { return (cell % CELLS_OF_SLOT - 2) % MOST_UNITS; }
inline Kind kind_of(int cell) {
    const int place = cell % CELLS_OF_SLOT;
    return place == 0 ? GATE : place == 1 ? HEADER : place < 2 + MOST_UNITS ? UNIT : MARK;
}

/* Returns the lowest bit of a cell in the contents. */
inline int bit_of(int cell) {
    static const int bits[CELLS_OF_SLOT] = {0, 2, 8, 10, 12, 14, 15, 16};
    return cell / CELLS_OF_SLOT * 17 + bits[cell % CELLS_OF_SLOT];
}
inline Contents mask_of(int cell) {
    static const Contents masks[] = {3, 63, 3, 1};
    return masks[kind_of(cell)];
}
inline int value_at(Contents part, int cell) { return (int)(part >> bit_of(cell) & mask_of(cell)); }
inline Contents with(Contents part, int cell, int value) {
    return (part & ~(mask_of(cell) << bit_of(cell))) | (Contents)value << bit_of(cell);
}

/* Returns true if a placement has this cell. */
inline bool has_cell(const Placement &p, int cell) {
    return kind_of(cell) == UNIT ? number_of(cell) < p.units : kind_of(cell) == MARK ? number_of(cell) < p.marks : true;
}
inline int sector_of(const Placement &p, int cell) {
    const int slot = slot_of(cell);
    switch (kind_of(cell)) {
    case GATE: return p.gate[slot];
    case HEADER: return p.header[slot];
    case MARK: return p.mark[slot];
    default: return p.unit[slot][number_of(cell)];
    }
}

/* Values of a header: BLANK, a header of another version for each generation, and each header of version 2. */
inline int header_value(const Placement &p, int generation, int length, int sum) {
    return 1 + GENERATIONS + (generation * p.units + length - 1) * p.registers + sum;
}
inline int values_of(const Placement &p, int cell) {
    switch (kind_of(cell)) {
    case GATE: return GATE_VALUES;
    case HEADER: return 1 + GENERATIONS + GENERATIONS * p.units * p.registers;
    case MARK: return MARK_VALUES;
    default: return UNIT_VALUES;
    }
}
inline Header header_at(const Placement &p, Contents part, int slot) {
    const int value = value_at(part, header_of(slot)), rest = value - 1 - GENERATIONS;
    if (value == BLANK)
        return {false, 255 % GENERATIONS, 0, 0};
    if (rest < 0)
        return {false, value - 1, 0, 0};
    return {true, rest / p.registers / p.units, rest / p.registers % p.units + 1, rest % p.registers};
}

/* Returns the cells in the range of an operation. */
inline std::vector<int> range_of(const Placement &p, const Operation &operation) {
    const int sector = sector_of(p, operation.cell);
    std::vector<int> cells;
    for (int cell = 0; cell < CELLS; cell++)
        if (has_cell(p, cell) && (operation.kind == Operation::ERASE ? sector_of(p, cell) == sector : cell == operation.cell))
            cells.push_back(cell);
    return cells;
}

/* Returns the contents after an operation. */
inline Contents done(const Placement &p, Contents part, const Operation &operation) {
    for (int cell : range_of(p, operation))
        part = with(part, cell, operation.kind == Operation::ERASE ? BLANK : operation.value);
    return part;
}

/* Returns all contents that an operation may leave if it is cut off, fails or reports a false success: every value in each cell of its
 * range. */
inline std::vector<Contents> torn(const Placement &p, Contents part, const Operation &operation) {
    std::vector<Contents> left{part};
    for (int cell : range_of(p, operation)) {
        std::vector<Contents> more;
        for (Contents one : left)
            for (int value = 0; value < values_of(p, cell); value++)
                more.push_back(with(one, cell, value));
        left.swap(more);
    }
    return left;
}

#endif
