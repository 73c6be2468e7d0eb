/* SPDX-License-Identifier: MIT OR Apache-2.0 */
/* A batch that flashes fewer boards than --count fails, even if every session succeeded. */
#include "../summary.h"
#include "../json.h"
#include "../next.h"
#include "../record.h"
#include "../stamp.h"
#include "../station.h"
#include "../status.h"

#include <stdio.h>

static unsigned count_missing(struct crew *crew, const struct words *words)
{
    unsigned missing = words->boards > crew->taken ? words->boards - crew->taken : 0;
    if (missing > 0 && (crew->worst == STATUS_DONE || crew->worst == STATUS_UNCONFIRMED))
        crew->worst = STATUS_SHORT;
    return missing;
}

/* Returns the next step for the user if fewer boards were flashed than --count requests, else NULL. */
static const char *step_of(unsigned missing, const struct words *words)
{
    static char step[120];
    if (missing > 0 && words->stamp != NULL && stamp_left() == 0) {
        snprintf(step, sizeof step, "add entries to the list, and run it again with --count %u", missing);
        return step;
    }
    snprintf(step, sizeof step, "plug in others, and run it again with --count %u; with --wait those that come are flashed too", missing);
    return missing > 0 ? step : NULL;
}

static void print_json(struct crew *crew, const struct words *words, const char *text, unsigned missing, double seconds)
{
    printf("{\"status\":%d,\"report\":\"summary\"", crew->worst);
    json_text("words", text);
    json_number("flashed", crew->flashed);
    json_number("failed", crew->failed);
    json_number("unconfirmed", crew->unconfirmed);
    if (words->boards != 0)
        json_number("short", missing);
    if (words->stamp != NULL)
        json_number("entries", stamp_left());
    json_text("next", step_of(missing, words));
    station_json(NULL);
    printf(",\"seconds\":%.3f}\n", seconds);
    crew->is_out = record_out() && crew->is_out;
}

void summary_print(struct crew *crew, const struct words *words, double seconds)
{
    unsigned missing = count_missing(crew, words);
    char text[180], some[80] = ",";
    int length;
    if (crew->unwritten > 0)
        snprintf(some, sizeof some, ", %u of them without their line in the log or the report,", crew->unwritten);
    length = snprintf(text, sizeof text, "%u flashed%s %u not", crew->flashed, some, crew->failed);
    if (crew->unconfirmed > 0)
        snprintf(text + length, sizeof text - (size_t)length, ": %u unconfirmed, %u failed", crew->unconfirmed,
                 crew->failed - crew->unconfirmed);
    if (words->report != NULL || words->boards != 0) {
        if (!station_add(crew->worst, "summary", text, NULL, NULL, seconds))
            crew->is_out = false;
        if (words->json)
            print_json(crew, words, text, missing, seconds);
    }
    if (words->quiet)
        return;
    fprintf(stderr, "dfu-flash: %s\n", text);
    if (missing == 0)
        return;
    fprintf(stderr, "dfu-flash: %u fewer than --count asks for\n", missing);
    if (!words->json)
        next_say(step_of(missing, words));
}
