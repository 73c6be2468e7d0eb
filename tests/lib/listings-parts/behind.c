/* Code that follows the listing of the page: functions by which the test calls it. */
#include "dfu_trial.h"
void listing_asks(void)
{
    flag = ASKED;
}
size_t listing_size(void)
{
    return dfu.size;
}
const uint8_t *listing_descriptor(void)
{
    describe();
    return usb_dfu_interface + 9;
}
int32_t listing_finds(uint32_t *at, uint32_t *length)
{
    struct dfu_place place;
    const int32_t n = dfu_core_image(&config, slots, dfu.size, &place);
    *at = place.at;
    *length = place.length;
    return n;
}
#ifdef WITH_TRIALS
int32_t listing_transfers(const uint8_t setup[8])
{
    return dfu_trial_transfer(&trial, &dfu, setup);
}
int32_t listing_confirms(void)
{
    return dfu_trial_accept(&trial, started);
}
int32_t listing_formats(const uint8_t *image, size_t length)
{
    return dfu_trial_format(&trial, &dfu, image, length);
}
#else
int32_t listing_transfers(const uint8_t setup[8])
{
    (void)setup;
    return 0;
}
int32_t listing_confirms(void)
{
    return 0;
}
int32_t listing_formats(const uint8_t *image, size_t length)
{
    return dfu_device_format(&dfu, image, length);
}
#endif
