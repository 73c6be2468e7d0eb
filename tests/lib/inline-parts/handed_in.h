/* Arguments of the paths: a device, images on trial, a run area and two areas, over flash that no stand-in reads. */
#ifndef HANDED_IN_H
#define HANDED_IN_H
#include <stdio.h>
#include <string.h>

#include "dfu_device_memory.h"
#include "dfu_home.h"
#include "dfu_install.h"
#include "dfu_trial.h"
#include "monitor.h"

static struct dfu_config config = {DFU_VERSION, 0x0100, 1, 0x1209, 255, 64, 7, 0, 5, 10, 1, 16, 4096, 0, 0};
static uint8_t flash[256], block[DFU_BLOCK_SIZE(64, 16)], body[64], out[72], image[512], setup[8];
static struct dfu_driver driver = {block, erase, program};
static struct dfu_device device;
static struct dfu_trial trial;
static struct dfu_install install;
static struct dfu_home_record home;
static struct dfu_ask ask;
static struct dfu_place place;
static struct dfu_standing standing;
static struct dfu_starting starting;

static void hand_in_trial(void)
{
    trial.flash = flash;
    trial.size = sizeof flash;
    trial.tries.unit = 16;
    trial.tries.sector = 4096;
    trial.tries.tries = 5;
    given.tries = trial.tries;
    given.run.at = 0x12345, given.run.length = 0x2345;
    given.otherwise.at = 0x54321, given.otherwise.length = 0x4321;
    starting.run = given.run, starting.otherwise = given.otherwise;
    given.standing = &standing;
    place.at = place.length = 77;
}

/* Maximum number of operations of a path. */
static unsigned most;

/* Resets all arguments, so that no path depends on an earlier one. */
static void hand_in(int has_driver)
{
    operation_bound = most;
    device.config = given.config = &config;
    device.flash = given.flash = flash;
    device.size = given.size = sizeof flash;
    device.block = block;
    given.block = block;
    device.most = given.most = sizeof block;
    given.record = &device.record;
    given.setup = setup;
    given.body = body;
    given.image = image;
    given.length = sizeof image;
    given.out = out;
    given.room = sizeof out;
    given.driver = &driver;
    given.status = DFU_STATUS_ERR_FILE;
    given.failed = 0x10000;
    given.at = 0x654321;
    device.driver = trial.driver = install.driver = has_driver ? &driver : NULL;
    install.run = flash;
    install.size = sizeof flash;
    install.area.sector = 256;
    install.area.last = DFU_NOWHERE;
    given.area = &install.area;
    home.last = 5, home.count = 7;
    given.home = &home;
    given.home_count = home.count;
    memory = NULL;
    memset(&ask, 0x44, sizeof ask);
    handed = ask;
    hand_in_trial();
}

/* Returns the length of the data stage that the host sends with the setup. */
static size_t sent(void)
{
    return setup[0] == 0x21 ? setup[6] + 256u * setup[7] : 0;
}

#endif
