/* Exhaustive model of a part's layout, of the copy into the first area, and of trials: the table of placements, and what is wanted of each.
 *
 *     placements ROWS          every placement; rows for library.c go to the file ROWS
 *     placements ROWS quick    those of two units, and one of those with trials
 *     placements ROWS rows     rows alone, of the first states of each placement
 *
 * A state is the contents of a part, and what its programs are about. From the first one, with an image in slot 0, the search (search.cc)
 * comes to every state there is: each operation is done, or it is cut off, fails or lies and leaves every value in each cell of its range;
 * the power goes in every state; a download begins whenever it may, and is given up at every step. In each state it asks for each promise
 * of part.h, so a placement that holds does so for any number of cuts, not for one or two.
 *
 * The order of operations is that of the crates. changes.h models, function by function:
 *
 *     dfu_slots::sequence (close_op, put_op, commit_op), dfu_slots::erasing, dfu_slots::writes    a download: begin, put, commit
 *     dfu_slots::format::write_image                                                             a format
 *     dfu_home::deciding, dfu_home::copying, dfu_boot::install::next                             the copy into slot 0
 *     dfu_boot::trial (starting, confirming, ending)                                             starts on trial, and their end
 *
 * store.h models dfu_slots::read, dfu_slots::places and dfu_boot::trial::looking. library.c holds both against the library.
 *
 * Not shown: parts of a unit, and images without bytes; more than three units, or sectors of more than two; headers of version 1;
 * generations that go round after 255, here after 3; a register of 32 bits, here of none or one; the run area of trials, which lies in
 * neither slot; and, for unequal sectors, any code: no crate has them, so library.c is asked about equal ones only. */
#include "rows.h"
#include "search.h"
#include <cstdint>
#include <cstdio>
#include <cstring>
#include <ctime>

enum : uint32_t { STATES_FOR_ROWS = 12000, ALL_STATES = UINT32_MAX };

/* The promises of part.h, as they are broken. */
static const char *const PROMISES[] = {"", "no image is active", "neither the old nor the new image is active, whole",
    "an operation touches the active slot", "an operation writes the code that runs", "a unit is programmed that is not blank",
    "a start does not end with its image", "an image runs that is neither confirmed nor on trial with a start left"};

/* Gates in sectors 0 and 1, headers in 2 and 3, marks with their header. Data: each unit in a sector of its own; both in one; or unequal
 * sectors, one unit and two in slot 0, two and one in slot 1. */
#define OWN {0, 1}, {2, 3}, {2, 3}
#define EACH {{10, 11, 12}, {20, 21, 22}}
#define BOTH {{10, 10, 10}, {20, 20, 20}}
#define UNEQUAL {{10, 11, 11}, {20, 20, 21}}

/* Name, the promise that breaks, rules; units, registers, units of a block, marks; sectors of gates, headers, marks and data. */
static const Placement PLACEMENTS[] = {
    {"equal sectors, 2 of data", ALL_HOLD, TWO_AREAS, 2, 1, 1, 0, OWN, EACH, false},
    {"equal sectors, 2 of data", ALL_HOLD, TWO_AREAS, 2, 2, 1, 0, OWN, EACH, false},
    {"equal sectors, 2 of data", ALL_HOLD, TWO_AREAS, 2, 2, 2, 0, OWN, EACH, false},
    {"equal sectors, 2 of data, copied first", ALL_HOLD, COPY_FIRST, 2, 1, 1, 0, OWN, EACH, false},
    {"equal sectors, 2 of data, copied first", ALL_HOLD, COPY_FIRST, 2, 2, 2, 0, OWN, EACH, false},
    {"equal sectors, 1 of data", ALL_HOLD, TWO_AREAS, 2, 1, 1, 0, OWN, BOTH, false},
    {"equal sectors, 1 of data", ALL_HOLD, TWO_AREAS, 2, 2, 2, 0, OWN, BOTH, false},
    {"equal sectors, 1 of data, copied first", ALL_HOLD, COPY_FIRST, 2, 2, 1, 0, OWN, BOTH, false},
    {"trials, 1 of data", ALL_HOLD, TRIALS, 2, 1, 1, MOST_MARKS, OWN, BOTH, false},
    {"trials, 1 of data", ALL_HOLD, TRIALS, 2, 2, 2, MOST_MARKS, OWN, BOTH, false},
    {"equal sectors, 3 of data", ALL_HOLD, TWO_AREAS, 3, 1, 1, 0, OWN, EACH, false},
    {"equal sectors, 3 of data", ALL_HOLD, TWO_AREAS, 3, 2, 3, 0, OWN, EACH, false},
    {"equal sectors, 3 of data", ALL_HOLD, TWO_AREAS, 3, 2, 2, 0, OWN, EACH, false},
    {"equal sectors, 3 of data, copied first", ALL_HOLD, COPY_FIRST, 3, 2, 1, 0, OWN, EACH, false},
    {"unequal sectors", ALL_HOLD, TWO_AREAS, 3, 1, 1, 0, OWN, UNEQUAL, false},
    {"unequal sectors", ALL_HOLD, TWO_AREAS, 3, 2, 1, 0, OWN, UNEQUAL, false},
    {"unequal sectors", ALL_HOLD, TWO_AREAS, 3, 2, 3, 0, OWN, UNEQUAL, false},
    {"unequal sectors, copied first", ALL_HOLD, COPY_FIRST, 3, 2, 2, 0, OWN, UNEQUAL, false},
    /* Controls: each breaks a rule of a placement or of a program. */
    {"gate and header in one sector", AN_IMAGE_IS_ACTIVE, TWO_AREAS, 2, 1, 1, 0, {0, 1}, {0, 1}, {0, 1}, EACH, false},
    {"the gate in the data", AN_IMAGE_IS_ACTIVE, TWO_AREAS, 2, 1, 1, 0, {11, 21}, {2, 3}, {2, 3}, EACH, false},
    {"gate and header in the data", OLD_OR_NEW_IS_ACTIVE, TWO_AREAS, 2, 1, 1, 0, {11, 21}, {10, 20}, {10, 20}, EACH, false},
    {"the header in the data", OLD_OR_NEW_IS_ACTIVE, TWO_AREAS, 2, 1, 1, 0, {0, 1}, {11, 21}, {11, 21}, EACH, false},
    {"both gates in one sector", ACTIVE_SLOT_STAYS, TWO_AREAS, 2, 1, 1, 0, {0, 0}, {2, 3}, {2, 3}, EACH, false},
    {"both gates in one sector, touched", AN_IMAGE_IS_ACTIVE, TWO_AREAS, 2, 1, 1, 0, {0, 0}, {2, 3}, {2, 3}, EACH, true},
    {"both headers in one sector", ACTIVE_SLOT_STAYS, TWO_AREAS, 2, 1, 1, 0, {0, 1}, {2, 2}, {2, 2}, EACH, false},
    {"both headers in one sector, touched", AN_IMAGE_IS_ACTIVE, TWO_AREAS, 2, 1, 1, 0, {0, 1}, {2, 2}, {2, 2}, EACH, true},
    {"gate 1 in the data of slot 0", ACTIVE_SLOT_STAYS, TWO_AREAS, 2, 1, 1, 0, {0, 11}, {2, 3}, {2, 3}, EACH, false},
    {"gate 1 in the data of slot 0, touched", CODE_STAYS, TWO_AREAS, 2, 1, 1, 0, {0, 11}, {2, 3}, {2, 3}, EACH, true},
    {"data of both slots in one sector", ACTIVE_SLOT_STAYS, TWO_AREAS, 2, 1, 1, 0, OWN, {{10, 11}, {11, 21}}, false},
    {"a program in slot 0 takes a second download", CODE_STAYS, SECOND_TAKEN, 2, 1, 1, 0, OWN, EACH, false},
    {"marks in the sector of the gate", TRUSTED_RUNS, TRIALS, 2, 1, 1, MOST_MARKS, {0, 1}, {2, 3}, {0, 1}, BOTH, false},
};

static void print_result(const Placement &p, const Search &search, Promise broken, double seconds) {
    printf("%-44s units %d, registers %d, block %d: ", p.name, p.units, p.registers, p.block);
    if (broken == ALL_HOLD)
        printf("holds: %ld states, %ld operations, %ld tears, %ld starts of at most %ld operations", search.states(), search.operations,
               search.tears, search.starts, search.most);
    else
        printf("broken after %ld states: %s", search.states(), PROMISES[broken]);
    printf(" (%.1f s)\n", seconds);
    if (broken != p.broken)
        printf("  wanted: %s\n", p.broken == ALL_HOLD ? "holds" : PROMISES[p.broken]);
    if (broken != p.broken && broken != ALL_HOLD)
        search.print_last();
    fflush(stdout);
}

/* Prints rows of a placement that the library has: its sectors are equal. Those of COPY_FIRST have the same operations as TWO_AREAS. */
static void print_rows_of(FILE *file, const Placement &p, const Search &search) {
    const int units_of_sector = p.rules == TRIALS ? 4 : p.unit[0][0] == p.unit[0][1] ? 2 : 1;
    const bool is_equal = p.units == 2 || p.unit[0][1] != p.unit[0][2];
    if (p.broken == ALL_HOLD && is_equal && p.rules != COPY_FIRST)
        print_rows(file, p, units_of_sector, search.parts_without_power());
}

/* The search of a placement: whether it ends as is wanted. */
static bool is_as_wanted(const Placement &p, FILE *rows) {
    Search search(p);
    const clock_t from = clock();
    const Promise broken = search.run(ALL_STATES);
    print_result(p, search, broken, (double)(clock() - from) / CLOCKS_PER_SEC);
    print_rows_of(rows, p, search);
    return broken == p.broken;
}

/* Rows of the first states of each placement. */
static void print_first_rows(FILE *rows) {
    for (const Placement &p : PLACEMENTS) {
        Search search(p);
        if (p.broken == ALL_HOLD)
            search.run(STATES_FOR_ROWS), print_rows_of(rows, p, search);
    }
}

int main(int count, char **words) {
    const char *word = count > 2 ? words[2] : "";
    const bool is_quick = strcmp(word, "quick") == 0, is_for_rows = strcmp(word, "rows") == 0;
    FILE *rows = count > 1 ? fopen(words[1], "w") : NULL;
    int passed = 0, failed = 0;
    if (rows == NULL)
        return 2;
    if (is_for_rows) {
        print_first_rows(rows);
        return fclose(rows) != 0;
    }
    for (const Placement &p : PLACEMENTS)
        if (!is_quick || (p.units == 2 && (p.rules != TRIALS || p.registers == 1)))
            (is_as_wanted(p, rows) ? passed : failed)++;
    printf("%d passed, %d failed\n", passed, failed);
    return fclose(rows) != 0 || failed != 0;
}
