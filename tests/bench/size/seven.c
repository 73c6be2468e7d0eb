/* SPDX-License-Identifier: MIT OR Apache-2.0 */
/* Makes the seven calls of the device library that a bootloader needs. tests/bench/size/device links this program with the calls, and with
 * -DNONE without them: the difference in size is the cost for a bootloader. -DCHECK adds the calls of a check of images, and -DTRIALS those
 * of images on trial. The program is never run. */
#include "dfu_device.h"
#include "dfu_trial.h"

struct dfu_config config;
struct dfu_device device;
struct dfu_ask ask;
struct dfu_place place;
struct dfu_trial trial;
uint8_t setup[8], body[64], out[64];
int32_t answer;

int main(void)
{
#ifndef NONE
    answer += dfu_device_power_on(&device);
    answer += dfu_device_image(&device, &place);
    answer += dfu_device_handle(&device, setup, body, out, sizeof out);
    answer += dfu_device_elapse(&device, 1);
    answer += dfu_device_usb_reset(&device);
    answer += dfu_device_next(&device, &ask);
    answer += dfu_device_took(&device, 0, out, sizeof out);
#endif
#ifdef CHECK
    answer += dfu_device_candidate(&device, &place);
    answer += dfu_device_refuse_close(&device, setup, DFU_STATUS_ERR_FILE);
#endif
#ifdef TRIALS
    answer += dfu_trial_boot(&trial, &place);
    answer += dfu_trial_accept(&trial, place.at);
#endif
    return answer;
}
