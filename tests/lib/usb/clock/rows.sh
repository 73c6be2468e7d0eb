# Rows of tests/apps/flash: the clock of the stand-in, whose milliseconds are those that pass. Who asks when a wait is over is never too
# early, however often the time was passed on to the device, and who asks before that is.
# shellcheck shell=sh disable=SC2154

gcc -std=gnu11 -O2 -Wall -Wextra -Werror -I "$top/include" -o asker "$top/tests/lib/usb/clock/asker.c" "$top"/tests/lib/usb/*.c \
    "$top/dist/dfu_device.c"

# asked STATE MOST SETTINGS WORDS..: the state that the last answer of asker has. It counts if at most MOST microseconds passed by
# then: on a busy machine it is tried again. With - for MOST it always counts.
asked() {
    wanted=$1 most=$2 settings=$3
    shift 3
    for _ in $(seq 40); do
        # shellcheck disable=SC2086
        env $settings ./asker "$@" > said 2>&1 || break
        if [ "$most" = - ] || [ "$(cut -d ' ' -f 2 said)" -le "$most" ]; then
            break
        fi
    done
    expect "$settings asker $*: wanted $wanted, found $(cat said)" test "$(cut -d ' ' -f 1 said)" = "$wanted"
}
# In dfuDNBUSY a question that comes too early is stalled; later the block is written, and it leads to dfuDNLOAD-IDLE (5). In appDETACH
# (1) who asks changes nothing, and the timer goes on; then it is appIDLE (0).
detaching='USB_START=app USB_DETACH=200'
for each in 180000 7300 1500 400; do
    asked stall 199000 USB_BUSY=200 busy 180 $each
    asked 5 - USB_BUSY=180 busy 180 $each
    asked 1 199000 "$detaching" detach 180 $each
    asked 0 - "$detaching" detach 200 $each
done
asked 5 - USB_BUSY=20 busy 500 1000
