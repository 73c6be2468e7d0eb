/* The inline calls that make several proved calls. The plan of each lists these calls, as its comment in the header describes them. */
#ifndef PLANS_H
#define PLANS_H
#include "handed_in.h"

#define NO_MORE \
    { \
        NO_CALL, ALWAYS, AS_ANSWERED \
    }
#define THE_WORK \
    { \
        ELAPSE, TIME_IS_DUE, AS_ANSWERED \
    }
static const struct stage the_work[] = {THE_WORK, NO_MORE};
static const struct stage serving[] = {THE_WORK, {HANDLE, WELL, AS_ANSWERED}, NO_MORE};
static const struct stage serving_long[] = {THE_WORK, {TOO_LONG, WELL, AS_ANSWERED}, NO_MORE};
static const struct stage resetting[] = {THE_WORK, {USB_RESET, WELL, AS_ANSWERED}, NO_MORE};
static const struct stage formatting[] = {{FORMAT_START, ALWAYS, AS_ANSWERED}, NO_MORE};
/* A byte that is misread once destroys no image: a start makes two checks for an image, and two more for a blank part. */
static const struct stage starting_up[] = {{POWER_ON, ALWAYS, AS_ANSWERED},
                                           {POWER_ON, IF_NO_MEDIUM, AS_ANSWERED},
                                           {IS_BLANK, IF_NO_MEDIUM, ALWAYS_NO_MEDIUM},
                                           {IS_BLANK, ONE, ALWAYS_NO_MEDIUM},
                                           {FORMAT_START, ONE, AS_ANSWERED},
                                           {POWER_ON, ZERO, AS_ANSWERED},
                                           NO_MORE};
static const struct stage booting[] = {{TRIAL_START, ALWAYS, AS_ANSWERED}, {TRIAL_RUNS, CARRIED, AS_ANSWERED}, NO_MORE};
static const struct stage booting_from[] = {{TRIAL_START_FROM, ALWAYS, AS_ANSWERED}, {TRIAL_RUNS, CARRIED, AS_ANSWERED}, NO_MORE};
static const struct stage accepting[] = {{TRIAL_CONFIRM, ALWAYS, AS_ANSWERED}, {TRIAL_CONFIRM, CARRIED, OR_NOT_WRITTEN}, NO_MORE};
static const struct stage giving_up[] = {{TRIAL_END, ALWAYS, AS_ANSWERED}, {TRIAL_END, CARRIED, OR_NOT_WRITTEN}, NO_MORE};
static const struct stage formatting_a_trial[] = {{TRIAL_LOOK, ALWAYS, AS_ANSWERED},        {FORMAT_START, UNLESS_REFUSED, AS_ANSWERED},
                                                  {TRIAL_LOOK, ZERO, AS_ANSWERED},          {TRIAL_CONFIRM, ZERO, AS_ANSWERED},
                                                  {TRIAL_CONFIRM, CARRIED, OR_NOT_WRITTEN}, NO_MORE};
/* A request that will be stalled ends no trial. */
static const struct stage downloading[] = {{WOULD_STALL, TRANSFER_BEGINS, OR_SERVED},
                                           {TRIAL_END, ZERO, AS_ANSWERED},
                                           {TRIAL_END, CARRIED, OR_NOT_WRITTEN},
                                           {BEGIN, ZERO, AS_ANSWERED},
                                           NO_MORE};
static const struct stage uploading[] = {{WOULD_STALL, TRANSFER_BEGINS, OR_SERVED},
                                         {TRIAL_UPLOAD, ZERO, AS_ANSWERED},
                                         {TRIAL_END, CARRIED, OR_NOT_WRITTEN},
                                         {BEGIN, ZERO, AS_ANSWERED},
                                         NO_MORE};
static const struct stage bringing_home[] = {{HOME_NEXT, ALWAYS, AS_ANSWERED}, NO_MORE};
static const struct stage asking_home[] = {{HOME_MAY_DOWNLOAD, ALWAYS, IF_HOME}, NO_MORE};
static const struct stage installing[] = {{INSTALL_NEXT, ALWAYS, AS_ANSWERED}, NO_MORE};

static int32_t answered(void)
{
    return dfu_device_answered(&device);
}

static int32_t work(void)
{
    return dfu_device_work(&device);
}

static int32_t serve(void)
{
    return dfu_device_serve(&device, setup, body, out, sizeof out);
}

static int32_t reset(void)
{
    return dfu_device_reset(&device);
}

static int32_t format(void)
{
    return dfu_device_format(&device, image, sizeof image);
}

static int32_t start_up(void)
{
    return dfu_device_power_on_or_format(&device, image, sizeof image);
}

static int32_t boot(void)
{
    return dfu_trial_boot(&trial, &place);
}

static int32_t boot_from(void)
{
    return dfu_trial_boot_from(&trial, &standing, &place);
}

static int32_t accept(void)
{
    return dfu_trial_accept(&trial, given.at);
}

static int32_t give_up(void)
{
    return dfu_trial_give_up(&trial);
}

static int32_t transfer(void)
{
    return dfu_trial_transfer(&trial, &device, setup);
}

static int32_t format_trial(void)
{
    return dfu_trial_format(&trial, &device, image, sizeof image);
}

#endif
