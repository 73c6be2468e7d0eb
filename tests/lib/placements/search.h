/* The search visits every state that a part and its programs can reach, if each operation may succeed, be cut off, fail or report a false
 * success, any number of times. */
#ifndef SEARCH_H
#define SEARCH_H
#include "changes.h"
#include "states.h"

struct Broken {
    Promise promise;
};

class Search {
public:
    explicit Search(const Placement &placement) : p(placement) {}
    Promise run(uint32_t most_states); /* returns the promise that is broken, or ALL_HOLD */
    std::vector<Contents> parts_without_power() const;
    void print_last() const; /* prints the states that led to the last one */
    long states() const { return (long)found.count(); }
    long operations = 0, tears = 0, starts = 0, most = 0;

private:
    Placement p;
    States found;
    uint32_t now = 0; /* the current state */

    void add(const State &state) { found.add(state, now); }
    void expand(const State &s);
    void idle(const State &s, int active);
    void idle_with_trials(const State &s);
    bool may_download(const State &s, int active) const;
    void begin(const State &s, Doing doing, int image, int step);
    void work(const State &s, int active);
    Operation due(State &s) const;
    void guard(const State &s, int active, const Operation &operation) const;
    State checked(const State &s, int active, Contents left) const;
    void leave(const State &s, int active, Contents left);
    void finish(const State &s, int active, const Operation &operation);
    State started(const State &s, Contents left) const;
    void end_start(const State &s);
    void end_copy(const State &s);
};

#endif
