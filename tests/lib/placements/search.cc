#include "search.h"
#include <algorithm>
#include <cstdio>

static void require(bool holds, Promise promise) {
    if (!holds)
        throw Broken{promise};
}

/* The first image is in slot 0, as after a format; with trials it is confirmed. */
static State first_state(const Placement &p) {
    const Image &image = image_of(p, 0);
    Contents part = with(0, gate_of(0), OPEN);
    for (int number = 0; number < image.length; number++)
        part = with(part, unit_of(0, number), image.units[number]);
    part = with(part, header_of(0), header_value(p, 0, image.length, sum_of(p, part, 0, image.length)));
    if (p.rules == TRIALS)
        part = with(part, mark_of(0, 0), SET);
    return {part, OFF, IDLE, 0, 0, 0, 0, 0, 0};
}
Promise Search::run(uint32_t most_states) {
    try {
        add(first_state(p));
        for (now = 0; now < found.count() && now < most_states; now++)
            expand(found.at(now));
    } catch (const Broken &broken) {
        return broken.promise;
    }
    return ALL_HOLD;
}

/* Power is lost in every state. */
void Search::expand(const State &s) {
    const int active = active_slot(p, s.part);
    require(active != NO_SLOT, AN_IMAGE_IS_ACTIVE);
    require(image_in(p, s.part, active) == s.current, OLD_OR_NEW_IS_ACTIVE);
    if (s.where != OFF)
        add({s.part, OFF, IDLE, 0, 0, s.current, 0, s.sure, s.starts});
    if (s.doing == IDLE)
        idle(s, active);
    else
        work(s, active);
}
void Search::begin(const State &s, Doing doing, int image, int step) {
    State next = s;
    next.doing = doing, next.image = image, next.step = step;
    add(next);
}

/* dfu_home::asking::is_home, asked by the program in slot 0 before a download (dfu_home_transfer). */
bool Search::may_download(const State &s, int active) const {
    if (active == 0)
        return true;
    return s.where == PROGRAM ? p.rules == SECOND_TAKEN : p.rules != COPY_FIRST;
}

/* What begins in a state in which no operation is due. */
void Search::idle(const State &s, int active) {
    State next = s;
    if (s.where == OFF) {
        end_start(s);
        next.where = LOADER;
        add(next);
        return;
    }
    if (p.rules == TRIALS) {
        idle_with_trials(s);
        return;
    }
    next.where = PROGRAM;
    if (s.where == LOADER && active == 0)
        add(next);
    if (s.where == LOADER && active == 1)
        begin(s, COPIES, 0, NOWHERE);
    for (int image = 0; image < IMAGES && may_download(s, active); image++)
        begin(s, DOWNLOADS, image, 0);
}

/* A download first ends a trial (dfu_trial_transfer). */
void Search::idle_with_trials(const State &s) {
    if (s.where == LOADER)
        begin(s, STARTS, 0, 0);
    if (s.where == PROGRAM)
        begin(s, CONFIRMS, 0, 0);
    if (look(p, s.part).is_on_trial) {
        begin(s, ENDS, 0, 0);
        return;
    }
    for (int image = 0; image < IMAGES; image++)
        begin(s, DOWNLOADS, image, 0);
}

/* The operation that is due; a download goes on to its next step that has one. */
Operation Search::due(State &s) const {
    switch (s.doing) {
    case DOWNLOADS:
        while (download_step(p, s.part, s.image, s.step).kind == Operation::NONE)
            s.step++;
        return download_step(p, s.part, s.image, s.step);
    case COPIES: return copy_due(p, s.part, s.step);
    case STARTS: return start_due(p, s.part);
    case CONFIRMS: return confirm_due(p, s.part, s.runs);
    default: return end_due(p, s.part);
    }
}

void Search::guard(const State &s, int active, const Operation &operation) const {
    const bool is_of_trial = s.doing == STARTS || s.doing == CONFIRMS || s.doing == ENDS;
    if (operation.kind == Operation::PROGRAM)
        require(value_at(s.part, operation.cell) == BLANK, UNITS_ARE_BLANK);
    for (int cell : range_of(p, operation)) {
        require(p.is_touched || is_of_trial || slot_of(cell) != active, ACTIVE_SLOT_STAYS);
        require(p.rules == TRIALS || s.where != PROGRAM || slot_of(cell) != 0 || kind_of(cell) != UNIT, CODE_STAYS);
    }
}

/* The state in which an operation left the part, if the image that is active then may be. */
State Search::checked(const State &s, int active, Contents left) const {
    State next = s;
    const int slot = active_slot(p, left);
    require(slot != NO_SLOT, AN_IMAGE_IS_ACTIVE);
    const int image = image_in(p, left, slot);
    const bool is_commit = s.doing == DOWNLOADS && s.step > 2 * image_of(p, s.image).length;
    const bool is_end = s.doing == STARTS || s.doing == ENDS;
    require(image == s.current || (is_commit && image == s.image) || (is_end && image == s.sure), OLD_OR_NEW_IS_ACTIVE);
    next.part = left, next.current = image;
    if (s.doing == DOWNLOADS && slot != active)
        next.starts = 0;
    if (s.doing == CONFIRMS && is_set(left, s.runs, 0))
        next.sure = image;
    return next;
}

/* dfu_boot::trial::starting::runs: a mark is read back. */
State Search::started(const State &s, Contents left) const {
    const Standing standing = look(p, s.part);
    const int mark = mark_of(standing.slot, standing.starts + 1);
    State next = s;
    next.part = left, next.where = PROGRAM, next.doing = IDLE, next.runs = standing.slot;
    if (standing.is_on_trial && (standing.starts == TRIES || value_at(left, mark) == BLANK))
        next.runs = 1 - standing.slot;
    const bool is_tried = standing.is_on_trial && next.runs == standing.slot;
    next.starts += is_tried;
    require(is_tried ? next.starts <= TRIES : image_in(p, left, next.runs) == s.sure, TRUSTED_RUNS);
    return next;
}

/* An operation left the part so: it was cut, and the power is lost; or it failed, or lied and was read back. */
void Search::leave(const State &s, int active, Contents left) {
    State next = checked(s, active, left);
    tears++;
    add({left, OFF, IDLE, 0, 0, next.current, 0, next.sure, next.starts});
    if (s.doing == STARTS) {
        next.part = s.part;
        next = started(next, left);
    } else if (s.doing == COPIES)
        next.step = NOWHERE;
    else
        next.doing = IDLE, next.image = next.step = 0;
    add(next);
}

/* An operation was done. Of a trial's each is one of those that `leave` takes. */
void Search::finish(const State &s, int active, const Operation &operation) {
    State next = checked(s, active, done(p, s.part, operation));
    if (s.doing == COPIES)
        next.step = operation.cell;
    else if (s.doing != DOWNLOADS)
        return;
    else if (++next.step == steps_of(image_of(p, s.image))) {
        require(active_slot(p, next.part) != active && next.current == s.image, OLD_OR_NEW_IS_ACTIVE);
        next.doing = IDLE, next.image = next.step = 0;
    }
    add(next);
}

/* A program is asked for nothing more at any time: the host gives up. */
void Search::work(const State &state, int active) {
    State s = state, given_up = state;
    const Operation operation = due(s);
    given_up.doing = IDLE, given_up.image = given_up.step = 0;
    add(given_up);
    if (operation.kind == Operation::NONE) {
        if (s.doing == STARTS)
            add(started(s, s.part));
        return;
    }
    operations++;
    guard(s, active, operation);
    for (Contents left : torn(p, s.part, operation))
        leave(s, active, left);
    finish(s, active, operation);
}

/* From a state without power, without faults: the boot loader starts an image. */
void Search::end_start(const State &s) {
    starts++;
    if (p.rules != TRIALS) {
        end_copy(s);
        return;
    }
    const Operation operation = start_due(p, s.part);
    const bool is_due = operation.kind != Operation::NONE;
    started(s, is_due ? done(p, s.part, operation) : s.part);
    most = std::max(most, (long)is_due);
}
void Search::end_copy(const State &s) {
    const int bound = 5 + 2 * p.units; /* the gate thrice, the header twice, of each unit an erase and a program */
    Contents part = s.part;
    int last = NOWHERE, count = 0;
    for (;;) {
        const Operation operation = copy_due(p, part, last);
        if (operation.kind == Operation::NONE)
            break;
        require(++count <= bound, START_ENDS);
        part = done(p, part, operation), last = operation.cell;
    }
    require(active_slot(p, part) == 0 && image_in(p, part, 0) == s.current, START_ENDS);
    most = std::max(most, (long)count);
}

std::vector<Contents> Search::parts_without_power() const {
    std::vector<Contents> parts;
    for (uint32_t number = 0; number < found.count(); number++)
        if (found.at(number).where == OFF)
            parts.push_back(found.at(number).part);
    std::sort(parts.begin(), parts.end());
    parts.erase(std::unique(parts.begin(), parts.end()), parts.end());
    return parts;
}

void Search::print_last() const {
    static const char *wheres[] = {"off", "loader", "program"}, *doings[] = {"", "downloads", "copies", "starts", "confirms", "ends"};
    uint32_t at = now;
    for (int i = 0; i < 8; i++, at = found.parent_of(at)) {
        const State s = found.at(at);
        printf("    %s %s image %d step %d current %d sure %d starts %d:", wheres[s.where], doings[s.doing], s.image, s.step, s.current,
               s.sure, s.starts);
        for (int cell = 0; cell < CELLS; cell++)
            if (has_cell(p, cell))
                printf("%s%d", kind_of(cell) == GATE ? " | " : " ", value_at(s.part, cell));
        printf("\n");
    }
}
