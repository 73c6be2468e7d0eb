/* The states of a search, each once, in the order in which they were found. */
#ifndef STATES_H
#define STATES_H
#include "part.h"
#include <cstddef>

enum Where { OFF, LOADER, PROGRAM };
enum Doing { IDLE, DOWNLOADS, COPIES, STARTS, CONFIRMS, ENDS };

struct State {
    Contents part;
    int where, doing;
    int image;   /* image of a download */
    int step;    /* step of a download; for a copy the cell of the last operation, or NOWHERE */
    int current; /* image that must be active */
    int runs;    /* with trials: slot of the running image */
    int sure;    /* with trials: the image that was confirmed last */
    int starts;  /* with trials: number of starts of the newest image */
};

/* A state has 53 bits, and needs about 16 bytes in the table. */
class States {
public:
    States() : table(1 << 12) {}
    void add(const State &state, uint32_t parent); /* adds a state that was not found before */
    State at(uint32_t number) const;
    uint32_t parent_of(uint32_t number) const { return parents[number]; }
    uint32_t count() const { return (uint32_t)keys.size(); }

private:
    std::vector<uint64_t> keys;
    std::vector<uint32_t> parents, table; /* numbers of states plus 1, or 0 for a free entry; the size is a power of two */

    size_t place_of(uint64_t key) const;
    void grow();
};

#endif
