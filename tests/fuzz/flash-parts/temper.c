#include "temper.h"
#include "random.h"

struct temper temper;

/* Draws a small probability, which is 0 in most runs, so that these proceed far. */
static uint32_t seldom(void)
{
    static const uint32_t times[] = {0, 0, 0, 0, 0, 1000, 200, 50, 15};
    return times[below(sizeof times / sizeof times[0])];
}

void temper_throw(void)
{
    temper.is_fair = !chance(3);
    temper.fails = seldom();
    temper.lost = seldom();
    temper.doubled = seldom();
    temper.leaves = chance(3) ? seldom() : 0;
    temper.lies = temper.is_fair ? 0 : chance(4) ? 2 : between(5, 200);
    temper.strays = temper.is_fair && !chance(3) ? 0 : between(10, 500);
    temper.stops = chance(6) ? between(20, 500) : 0;
    temper.no_memory = chance(20) ? 3 : 0;
    temper.files_fail = chance(6) ? 3 : 0;
    temper.patience = chance(4) ? between(1, 400) : between(1000, 8000);
    temper.is_terminal = chance(2);
}
