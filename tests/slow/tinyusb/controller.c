/* Calls of a controller that TinyUSB needs, but neither controller here supports: other endpoints, remote wakeup, start of frame. */
#include "board.h"
#include "device/dcd.h"

bool dcd_deinit(uint8_t rhport)
{
    (void)rhport;
    return true;
}

void dcd_int_handler(uint8_t rhport)
{
    (void)rhport;
}

void dcd_remote_wakeup(uint8_t rhport)
{
    (void)rhport;
}

void dcd_sof_enable(uint8_t rhport, bool is_on)
{
    (void)rhport;
    (void)is_on;
}

bool dcd_edpt_open(uint8_t rhport, tusb_desc_endpoint_t const *endpoint)
{
    (void)rhport;
    (void)endpoint;
    return false;
}

void dcd_edpt_close_all(uint8_t rhport)
{
    (void)rhport;
}

void dcd_edpt_close(uint8_t rhport, uint8_t endpoint)
{
    (void)rhport;
    (void)endpoint;
}

void dcd_edpt_clear_stall(uint8_t rhport, uint8_t endpoint)
{
    (void)rhport;
    (void)endpoint;
}
