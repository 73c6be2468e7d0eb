#include "words.h"
#include "books.h"
#include "bus.h"
#include "firmware.h"
#include "random.h"
#include "usb.h"

#include <stdarg.h>
#include <stdio.h>
#include <stdlib.h>
#include <string.h>

struct asked asked;

/* Adds an argument. Each has its own block of memory, so that the sanitizer detects a read beyond its end. */
static void say(const char *format, ...)
{
    char text[MOST_TEXT];
    va_list values;
    if (asked.count == MOST_WORDS)
        return;
    va_start(values, format);
    vsnprintf(text, sizeof text, format, values);
    va_end(values);
    asked.words[asked.count] = take(strlen(text) + 1);
    strcpy(asked.words[asked.count], text);
    asked.count++;
}

/* Adds the option that selects the board by its identifiers, in its current mode or in both modes. */
static void say_ids(const struct board *board)
{
    const struct face *face = &board->faces[board->mode], *upgrade = &board->faces[UPGRADE];
    asked.has_ids = true;
    asked.has_pair = chance(3);
    if (asked.has_pair)
        face = &board->faces[RUN_TIME];
    asked.vendor = chance(5) ? 0xffff : face->vendor;
    asked.product = chance(5) ? 0xffff : chance(25) ? (uint16_t)below(3) : face->product;
    asked.dfu_vendor = chance(5) ? 0xffff : upgrade->vendor;
    asked.dfu_product = upgrade->product;
    say("--device");
    if (asked.has_pair)
        say("%04x:%04x,%04x:%04x", asked.vendor, asked.product, asked.dfu_vendor, asked.dfu_product);
    else
        say("%04x:%04x", asked.vendor, asked.product);
}

static void say_path(const struct board *board)
{
    place_path(&board->place, asked.path);
    if (chance(40))
        strcpy(asked.path, "1-1.2");
    say("--path");
    say("%s", asked.path);
}

static void say_serial(const struct face *face)
{
    face_text(face, face->serial, asked.serial);
    if (asked.serial[0] == '\0')
        return;
    say("--serial");
    say("%s", asked.serial);
}

static void say_alternate(const struct face *face)
{
    const struct function *function = board_function(face);
    const struct setting *setting = &function->settings[below(function->count)];
    face_text(face, setting->name, asked.name);
    say("--alt");
    if (chance(2) && asked.name[0] != '\0') {
        say("%s", asked.name);
        return;
    }
    asked.name[0] = '\0';
    asked.alternate = chance(10) ? (int)below(4) : setting->alternate;
    say("%d", asked.alternate);
}

static void say_device(void)
{
    const struct board *board = bus.target;
    const struct face *face = &board->faces[board->mode], *upgrade = &board->faces[UPGRADE];
    if (bus.count == 0)
        return;
    if (chance(4))
        say_ids(board);
    if (chance(bus.count > 1 ? 2 : 4))
        say_path(board);
    if (chance(5))
        say_serial(face);
    if (chance(10)) {
        asked.interface = chance(10) ? (int)below(256) : board_function(upgrade)->number;
        say("--interface");
        say("%d", asked.interface);
    }
    if (!chance(board_function(upgrade)->count > 1 ? 6 : 0) && (board_function(upgrade)->count > 1 || chance(12)))
        say_alternate(upgrade);
}

/* Adds options of a download or an upload. */
static void say_session(void)
{
    if (chance(asked.job == JOB_DOWNLOAD ? 3 : 0))
        say("--no-verify");
    if (asked.job == JOB_UPLOAD && chance(2)) {
        asked.is_forced = true;
        say("--force");
    }
    if (chance(4)) {
        say("--limits");
        say("%u", chance(8) ? below(20) : between(200, 3000));
        say("%u", chance(2) ? below(6) : between(6, 70));
    }
    if (chance(8)) {
        say("--transfer-size");
        say("%u", chance(2) ? between(1, 64) : between(1, 4096));
    }
    if (chance(20)) {
        asked.is_dry = true;
        say("--dry-run");
    }
}

static void say_time(void)
{
    asked.is_patient = chance(6);
    if (asked.is_patient && chance(2))
        say("--wait");
    else if (asked.is_patient) {
        asked.wait = between(1, chance(4) ? 1000 : 20);
        if (chance(2))
            say("--wait=%u", asked.wait);
        else {
            say(chance(2) ? "-w" : "--wait");
            say("%u", asked.wait);
        }
    }
    if (chance(6)) {
        asked.timeout = between(1, chance(2) ? 10 : 1000);
        say("--timeout");
        say("%u", asked.timeout);
    }
}

static void say_options(void)
{
    if (asked.job == JOB_DOWNLOAD || asked.job == JOB_UPLOAD)
        say_session();
    if (asked.job != JOB_LIST) {
        say_time();
        if (chance(8))
            say("--quiet");
        if (chance(6))
            say("--verbose");
    }
    if (chance(3)) {
        asked.is_json = true;
        say("--json");
    }
}

static void say_job(void)
{
    if (asked.job == JOB_LIST)
        say("--list");
    else if (asked.job == JOB_DETACH)
        say("--detach");
    else if (asked.job == JOB_UPLOAD) {
        say("--upload");
        say(OUT_NAME);
    } else {
        if (chance(3))
            say("-D");
        asked.is_piped = chance(20);
        say(asked.is_piped ? "-" : !chance(60) ? FILE_NAME : chance(2) ? "nowhere" : "no\x1b[2Jwhere\xff");
    }
}

static void say_sound(void)
{
    asked.is_sound = true;
    asked.job = chance(30) ? JOB_LIST : chance(15) ? JOB_DETACH : chance(5) ? JOB_UPLOAD : JOB_DOWNLOAD;
    say_device();
    say_options();
    say_job();
    if (asked.job == JOB_DOWNLOAD && !asked.has_ids && asked.path[0] == '\0' && asked.serial[0] == '\0') {
        asked.has_ids = true;
        asked.vendor = firmware.vendor;
        asked.product = firmware.product;
    }
}

/* Adds random arguments, which may not fit together. */
static void say_any(void)
{
    static const char *const some[] = {
        "--device", "1209:0001", "ffff:ffff", "1209:1", "--path", "1-1", "--serial", "S-A", "--interface", "0", "255", "256",
        "--alt", "boot", "", "--no-verify", "--upload", OUT_NAME, "--force", "--limits", "10", "4294967296", "-1", "--dry-run",
        "--quiet", "--json", "--list", "--detach", "--wait", "--wait=", "--wait=5", "--timeout", "--transfer-size", "--verbose",
        "--help", "-h", "--version", "-V", FILE_NAME, FILE_NAME, FILE_NAME, "--", "-", "--what", "--device=1209:0001",
        "1209:0001,1209:00ff", "1209:0001,", "1209:0001,1209:00", "12", "--alt=1", "--l", "--w=3", "--time=2", "--upload=",
        "--serial=\x1b[2J", "99999999999999999999", "-D", "-U", "-l", "-d", "-p", "-S", "F1,F2", "-i", "-a", "01", "-t", "-w", "-e", "-R",
        "-s", "-Z", "-v", "-n", "-c", "-E"};
    for (uint32_t count = below(8); count > 0; count--)
        say("%s", some[below(sizeof some / sizeof some[0])]);
}

void words_throw(void)
{
    memset(&asked, 0, sizeof asked);
    asked.interface = asked.alternate = -1;
    say("dfu-flash");
    if (chance(25))
        say_any();
    else
        say_sound();
    asked.words[asked.count] = NULL;
}
