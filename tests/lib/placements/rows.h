/* Rows for the comparison with the library: a part, a change, and the operations of the model. */
#ifndef ROWS_H
#define ROWS_H
#include "changes.h"
#include <cstdio>
#include <vector>

/* Prints the rows of at most MOST_PARTS of these parts, spread evenly. `units_of_sector` is the number of the model's units in a sector of
 * the library's part. */
enum { MOST_PARTS = 2000 };
void print_rows(FILE *file, const Placement &p, int units_of_sector, const std::vector<Contents> &parts);

#endif
