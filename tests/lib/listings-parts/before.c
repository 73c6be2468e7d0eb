/* Code that precedes the listing of the page: the driver writes the memory of the test, and an image runs in this program. */
#include "listings.h"
#define main listing_main
static int flash_erase(void *own, uint32_t at, uint32_t length)
{
    part_erases(own, at, length);
    return 0;
}
static int flash_program(void *own, uint32_t at, const uint8_t *bytes, uint32_t length)
{
    part_programs(own, at, bytes, length);
    return 0;
}
static void go(const uint32_t first[2])
{
    (void)first;
    image_runs();
}
